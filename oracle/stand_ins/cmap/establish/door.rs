//! The harness's way into the pool: a module of `cmap`, so that it sees what is private there.

use tokio::sync::{mpsc::Sender, oneshot::Receiver};

pub(crate) use crate::cmap::{
    connection_requester::{Answer, ConnectionRequestResult},
    options::ConnectionPoolOptions,
};
use crate::{
    cmap::{
        connection_requester::ConnectionRequest, establish::ConnectionEstablisher,
        manager::PoolManager, status::PoolGenerationSubscriber, worker::PoolGeneration,
        ConnectionPool,
    },
    error::Error,
    options::ServerAddress,
    sdam::{topology::TopologyShutdown, BroadcastMessage, TopologyUpdater},
};

pub(crate) struct Door {
    /// Holds the only handle; dropping it closes the pool.
    pool: Option<ConnectionPool>,
    requests: Sender<ConnectionRequest>,
    manager: PoolManager,
    generation: PoolGenerationSubscriber,
}

impl Door {
    pub(crate) fn open(options: ConnectionPoolOptions) -> Self {
        let pool = ConnectionPool::new(
            ServerAddress,
            ConnectionEstablisher,
            TopologyUpdater,
            Some(options),
            TopologyShutdown::new(),
        );
        Self {
            requests: pool.connection_requester.sender(),
            manager: pool.manager.clone(),
            generation: pool.generation_subscriber.clone(),
            pool: Some(pool),
        }
    }

    pub(crate) fn request(&self, id: u32, warm: bool) -> Receiver<ConnectionRequestResult> {
        let (request, receiver) = ConnectionRequest::new(id, warm);
        if self.requests.try_send(request).is_err() {
            panic!("a request came after the worker's end");
        }
        receiver
    }

    pub(crate) async fn clear(&self, cause: Error) {
        self.manager.clear(cause, None).await;
    }

    pub(crate) async fn mark_as_ready(&self) {
        self.manager.mark_as_ready().await;
    }

    pub(crate) fn fill(&self) {
        self.manager.broadcast(BroadcastMessage::FillPool);
    }

    pub(crate) fn drop_handles(&mut self) {
        self.pool = None;
    }

    pub(crate) fn generation(&self) -> u32 {
        match self.generation.generation() {
            PoolGeneration::Normal(generation) => generation,
            PoolGeneration::LoadBalanced(_) => panic!("a day's pool is in normal mode"),
        }
    }
}
