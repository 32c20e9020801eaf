//! A channel for one value; sending fails once the receiver is dropped.

use std::{
    cell::Cell,
    fmt,
    rc::{Rc, Weak},
};

pub struct Sender<T> {
    place: Weak<Cell<Option<T>>>,
}

pub struct Receiver<T> {
    place: Rc<Cell<Option<T>>>,
}

pub fn channel<T>() -> (Sender<T>, Receiver<T>) {
    let place = Rc::new(Cell::new(None));
    let sender = Sender {
        place: Rc::downgrade(&place),
    };
    (sender, Receiver { place })
}

impl<T> Sender<T> {
    pub fn is_closed(&self) -> bool {
        self.place.strong_count() == 0
    }

    pub fn send(&self, value: T) -> Result<(), T> {
        match self.place.upgrade() {
            Some(place) => {
                place.set(Some(value));
                Ok(())
            }
            None => Err(value),
        }
    }
}

impl<T> Receiver<T> {
    pub fn take(&self) -> Option<T> {
        self.place.take()
    }
}

impl<T> fmt::Debug for Sender<T> {
    fn fmt(&self, f: &mut fmt::Formatter<'_>) -> fmt::Result {
        f.write_str("oneshot::Sender")
    }
}
