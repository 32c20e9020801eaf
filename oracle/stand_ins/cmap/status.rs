//! The published generation.

use std::{cell::RefCell, rc::Rc};

use super::worker::PoolGeneration;

pub(crate) fn channel(init: PoolGeneration) -> (PoolGenerationPublisher, PoolGenerationSubscriber) {
    let shared = Rc::new(RefCell::new(init));
    let publisher = PoolGenerationPublisher {
        shared: shared.clone(),
    };
    (publisher, PoolGenerationSubscriber { shared })
}

#[derive(Debug)]
pub(crate) struct PoolGenerationPublisher {
    shared: Rc<RefCell<PoolGeneration>>,
}

impl PoolGenerationPublisher {
    pub(crate) fn publish(&self, generation: PoolGeneration) {
        *self.shared.borrow_mut() = generation;
    }
}

#[derive(Clone, Debug)]
pub(crate) struct PoolGenerationSubscriber {
    shared: Rc<RefCell<PoolGeneration>>,
}

impl PoolGenerationSubscriber {
    pub(crate) fn generation(&self) -> PoolGeneration {
        self.shared.borrow().clone()
    }
}
