pub mod broadcast;
pub mod mpsc;
pub mod oneshot;

use std::cell::{RefCell, RefMut};

/// A mutex that one thread never finds locked.
#[derive(Debug)]
pub struct Mutex<T> {
    value: RefCell<T>,
}

impl<T> Mutex<T> {
    pub fn new(value: T) -> Self {
        Self {
            value: RefCell::new(value),
        }
    }

    pub async fn lock(&self) -> RefMut<'_, T> {
        self.value.borrow_mut()
    }
}
