//! Tasks for one thread. A task runs up to its first wait when it is spawned and afterwards only when
//! the harness runs it; its output is kept until the harness takes it.

use std::{
    cell::{Cell, RefCell},
    fmt,
    future::{poll_fn, Future},
    marker::PhantomData,
    pin::Pin,
    rc::Rc,
    task::{Context, Poll, Waker},
};

use crate::script;

#[derive(Debug)]
pub(crate) enum AsyncStream {
    Null,
}

pub(crate) trait Run {
    fn run(&self);
}

struct Task<O> {
    future: RefCell<Option<Pin<Box<dyn Future<Output = O>>>>>,
    output: Cell<Option<O>>,
    connection: Cell<Option<u32>>,
}

impl<O> Run for Task<O> {
    fn run(&self) {
        let mut future = self.future.borrow_mut();
        let Some(running) = future.as_mut() else {
            panic!("a finished task was run");
        };
        if let Poll::Ready(output) = running
            .as_mut()
            .poll(&mut Context::from_waker(Waker::noop()))
        {
            self.output.set(Some(output));
            *future = None;
        }
    }
}

pub(crate) struct AsyncJoinHandle<O> {
    task: Rc<Task<O>>,
}

pub(crate) fn spawn<F, O>(future: F) -> AsyncJoinHandle<O>
where
    F: Future<Output = O> + 'static,
    O: 'static,
{
    let task = Rc::new(Task {
        future: RefCell::new(Some(Box::pin(future))),
        output: Cell::new(None),
        connection: Cell::new(None),
    });
    task.run();
    task.connection.set(script::take_establishing());
    if task.future.borrow().is_some() {
        script::spawned(task.connection.get(), task.clone());
    }
    AsyncJoinHandle { task }
}

impl<O> AsyncJoinHandle<O> {
    pub(crate) fn same(&self) -> Self {
        Self {
            task: self.task.clone(),
        }
    }

    /// The connection that the task establishes.
    pub(crate) fn connection(&self) -> Option<u32> {
        self.task.connection.get()
    }

    pub(crate) fn take_output(&self) -> Option<O> {
        self.task.output.take()
    }
}

impl<O> Future for AsyncJoinHandle<O> {
    type Output = O;

    fn poll(self: Pin<&mut Self>, _context: &mut Context<'_>) -> Poll<O> {
        match self.take_output() {
            Some(output) => Poll::Ready(output),
            None => Poll::Pending,
        }
    }
}

impl<O> fmt::Debug for AsyncJoinHandle<O> {
    fn fmt(&self, f: &mut fmt::Formatter<'_>) -> fmt::Result {
        f.write_str("AsyncJoinHandle")
    }
}

/// The worker lives while a clone of its handle does.
#[derive(Clone, Debug)]
pub(crate) struct WorkerHandle {
    _lives: Rc<()>,
}

pub(crate) struct WorkerHandleListener {
    handle: std::rc::Weak<()>,
}

impl WorkerHandleListener {
    pub(crate) fn channel() -> (WorkerHandle, Self) {
        let lives = Rc::new(());
        let handle = Rc::downgrade(&lives);
        (WorkerHandle { _lives: lives }, Self { handle })
    }

    pub(crate) fn wait_for_all_handle_drops(&mut self) -> impl Future<Output = ()> + '_ {
        poll_fn(|_| {
            if self.handle.strong_count() == 0 {
                Poll::Ready(())
            } else {
                Poll::Pending
            }
        })
    }
}

/// Nobody waits for an acknowledgment: the harness runs the worker until it has nothing to do.
#[derive(Debug)]
pub(crate) struct AcknowledgmentSender<T> {
    value: PhantomData<T>,
}

impl<T> AcknowledgmentSender<T> {
    pub(crate) fn new() -> Self {
        Self { value: PhantomData }
    }

    pub(crate) fn acknowledge(self, _value: T) {}
}

pub(crate) struct AcknowledgmentReceiver<T> {
    _value: PhantomData<T>,
}

impl<T> AcknowledgmentReceiver<T> {
    pub(crate) fn new() -> Self {
        Self {
            _value: PhantomData,
        }
    }
}

#[derive(Debug)]
pub(crate) struct AcknowledgedMessage<M> {
    message: M,
}

impl<M> AcknowledgedMessage<M> {
    pub(crate) fn new(message: M) -> Self {
        Self { message }
    }

    pub(crate) fn into_parts(self) -> (M, AcknowledgmentSender<()>) {
        (self.message, AcknowledgmentSender::new())
    }
}
