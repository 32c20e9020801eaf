//! The topology, which a day has none of.

use crate::{cmap::establish::HandshakePhase, error::Error, options::ServerAddress};

pub(crate) mod topology {
    use std::future::Future;

    pub(crate) struct TopologyShutdown {
        pub(crate) tasks: TaskTracker,
    }

    impl TopologyShutdown {
        pub(crate) fn new() -> Self {
            Self { tasks: TaskTracker }
        }
    }

    #[derive(Clone)]
    pub(crate) struct TaskTracker;

    impl TaskTracker {
        pub(crate) fn track_future<F: Future>(&self, future: F) -> F {
            future
        }
    }
}

#[derive(Debug)]
pub(crate) enum BroadcastMessage {
    FillPool,
}

#[derive(Clone)]
pub(crate) struct TopologyUpdater;

impl TopologyUpdater {
    /// Does not clear the pool: in a day a clear is an event of its own.
    pub(crate) async fn handle_application_error(
        &self,
        _address: ServerAddress,
        _error: Error,
        _phase: HandshakePhase,
    ) {
    }
}
