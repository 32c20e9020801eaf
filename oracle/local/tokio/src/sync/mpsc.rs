//! Bounded channels; a bound of `usize::MAX` serves as none.

use std::{
    cell::RefCell,
    collections::VecDeque,
    future::{poll_fn, Future},
    rc::Rc,
    task::Poll,
};

use error::{TryRecvError, TrySendError};

pub mod error {
    #[derive(Debug)]
    pub enum TrySendError<T> {
        Full(T),
        Closed(T),
    }

    #[derive(Debug)]
    pub enum TryRecvError {
        Empty,
        Disconnected,
    }
}

#[derive(Debug)]
struct Channel<T> {
    items: VecDeque<T>,
    bound: usize,
    senders: usize,
    receiver_lives: bool,
}

#[derive(Debug)]
pub struct Sender<T> {
    channel: Rc<RefCell<Channel<T>>>,
}

#[derive(Debug)]
pub struct Receiver<T> {
    channel: Rc<RefCell<Channel<T>>>,
}

pub fn channel<T>(bound: usize) -> (Sender<T>, Receiver<T>) {
    let channel = Rc::new(RefCell::new(Channel {
        items: VecDeque::new(),
        bound,
        senders: 1,
        receiver_lives: true,
    }));
    let sender = Sender {
        channel: channel.clone(),
    };
    (sender, Receiver { channel })
}

impl<T> Sender<T> {
    pub fn try_send(&self, item: T) -> Result<(), TrySendError<T>> {
        let mut channel = self.channel.borrow_mut();
        if !channel.receiver_lives {
            Err(TrySendError::Closed(item))
        } else if channel.items.len() >= channel.bound {
            Err(TrySendError::Full(item))
        } else {
            channel.items.push_back(item);
            Ok(())
        }
    }
}

impl<T> Clone for Sender<T> {
    fn clone(&self) -> Self {
        self.channel.borrow_mut().senders += 1;
        Self {
            channel: self.channel.clone(),
        }
    }
}

impl<T> Drop for Sender<T> {
    fn drop(&mut self) {
        self.channel.borrow_mut().senders -= 1;
    }
}

impl<T> Receiver<T> {
    pub fn try_recv(&mut self) -> Result<T, TryRecvError> {
        let mut channel = self.channel.borrow_mut();
        match channel.items.pop_front() {
            Some(item) => Ok(item),
            None if channel.senders == 0 => Err(TryRecvError::Disconnected),
            None => Err(TryRecvError::Empty),
        }
    }

    pub fn recv(&mut self) -> impl Future<Output = Option<T>> + '_ {
        poll_fn(|_| match self.try_recv() {
            Ok(item) => Poll::Ready(Some(item)),
            Err(TryRecvError::Disconnected) => Poll::Ready(None),
            Err(TryRecvError::Empty) => Poll::Pending,
        })
    }
}

impl<T> Drop for Receiver<T> {
    fn drop(&mut self) {
        let mut channel = self.channel.borrow_mut();
        channel.receiver_lives = false;
        let left = std::mem::take(&mut channel.items);
        // An item may hold a sender of this very channel.
        drop(channel);
        drop(left);
    }
}
