//! A broadcast channel whose sends can be watched.

use std::{
    cell::Cell,
    future::{poll_fn, Future},
    marker::PhantomData,
    rc::Rc,
    task::Poll,
};

use error::{RecvError, SendError};

pub mod error {
    #[derive(Debug)]
    pub enum RecvError {
        Closed,
        Lagged(u64),
    }

    #[derive(Debug)]
    pub struct SendError<T>(pub T);
}

thread_local! {
    static WATCH: Cell<Option<fn()>> = const { Cell::new(None) };
}

/// `watch` is called at every send.
pub fn script_watch(watch: fn()) {
    WATCH.with(|w| w.set(Some(watch)));
}

#[derive(Debug)]
struct Channel {
    sent: Cell<u64>,
    receivers: Cell<usize>,
    capacity: u64,
}

#[derive(Debug)]
pub struct Sender<T> {
    channel: Rc<Channel>,
    value: PhantomData<T>,
}

#[derive(Debug)]
pub struct Receiver<T> {
    channel: Rc<Channel>,
    received: u64,
    value: PhantomData<T>,
}

pub fn channel<T>(capacity: usize) -> (Sender<T>, Receiver<T>) {
    let sender = Sender {
        channel: Rc::new(Channel {
            sent: Cell::new(0),
            receivers: Cell::new(0),
            capacity: capacity as u64,
        }),
        value: PhantomData,
    };
    let receiver = sender.subscribe();
    (sender, receiver)
}

impl<T> Sender<T> {
    pub fn send(&self, value: T) -> Result<usize, SendError<T>> {
        if let Some(watch) = WATCH.with(Cell::get) {
            watch();
        }
        let receivers = self.channel.receivers.get();
        if receivers == 0 {
            return Err(SendError(value));
        }
        self.channel.sent.set(self.channel.sent.get() + 1);
        Ok(receivers)
    }

    pub fn subscribe(&self) -> Receiver<T> {
        self.channel.receivers.set(self.channel.receivers.get() + 1);
        Receiver {
            channel: self.channel.clone(),
            received: self.channel.sent.get(),
            value: PhantomData,
        }
    }
}

impl<T> Drop for Receiver<T> {
    fn drop(&mut self) {
        self.channel.receivers.set(self.channel.receivers.get() - 1);
    }
}

/// The values carry nothing, so a receiver only counts them.
impl Receiver<()> {
    pub fn recv(&mut self) -> impl Future<Output = Result<(), RecvError>> + '_ {
        poll_fn(|_| {
            let missed = self.channel.sent.get() - self.received;
            if missed == 0 {
                return Poll::Pending;
            }
            if missed > self.channel.capacity {
                let lag = missed - self.channel.capacity;
                self.received += lag;
                return Poll::Ready(Err(RecvError::Lagged(lag)));
            }
            self.received += 1;
            Poll::Ready(Ok(()))
        })
    }
}
