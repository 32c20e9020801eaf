//! Requests for a connection, and the answers, which are seen as they are given.

use tokio::sync::{
    mpsc::{self, Receiver, Sender},
    oneshot,
};

use super::conn::pooled::PooledConnection;
use crate::{
    error::{Error, Result},
    runtime::{AsyncJoinHandle, WorkerHandle},
    script::{self, Seen},
};

pub(crate) fn channel(handle: WorkerHandle) -> (ConnectionRequester, ConnectionRequestReceiver) {
    let (sender, receiver) = mpsc::channel(usize::MAX);
    let requester = ConnectionRequester {
        sender,
        _handle: handle,
    };
    (requester, ConnectionRequestReceiver { receiver })
}

#[derive(Clone, Debug)]
pub(crate) struct ConnectionRequester {
    sender: Sender<ConnectionRequest>,
    _handle: WorkerHandle,
}

impl ConnectionRequester {
    /// Only `ConnectionPool::check_out` asks here, and the days ask through `sender`.
    pub(crate) async fn request(&self) -> ConnectionRequestResult {
        unimplemented!("days do not use ConnectionPool::check_out")
    }

    pub(crate) fn weak(&self) -> WeakConnectionRequester {
        WeakConnectionRequester
    }

    /// The way in that keeps no worker alive, so that a day may close a pool on which somebody waits.
    pub(crate) fn sender(&self) -> Sender<ConnectionRequest> {
        self.sender.clone()
    }
}

#[derive(Clone, Debug)]
pub(crate) struct WeakConnectionRequester;

impl WeakConnectionRequester {
    /// Only `fill_pool` asks here. The loop is left out, so it is told that nobody listens; the day's
    /// warm requests come through `sender`.
    pub(crate) async fn request_warm_pool(&self) -> Option<ConnectionRequestResult> {
        None
    }
}

#[derive(Debug)]
pub(crate) struct ConnectionRequestReceiver {
    receiver: Receiver<ConnectionRequest>,
}

impl ConnectionRequestReceiver {
    pub(crate) async fn recv(&mut self) -> Option<ConnectionRequest> {
        self.receiver.recv().await
    }
}

#[derive(Debug)]
pub(crate) struct ConnectionRequest {
    id: u32,
    warm: bool,
    answered: bool,
    sender: oneshot::Sender<ConnectionRequestResult>,
}

impl ConnectionRequest {
    pub(crate) fn new(id: u32, warm: bool) -> (Self, oneshot::Receiver<ConnectionRequestResult>) {
        let (sender, receiver) = oneshot::channel();
        let request = Self {
            id,
            warm,
            answered: false,
            sender,
        };
        (request, receiver)
    }

    pub(crate) fn is_warm_pool(&self) -> bool {
        self.warm
    }

    /// Gives the result back where nobody listens.
    pub(crate) fn fulfill(
        mut self,
        result: ConnectionRequestResult,
    ) -> std::result::Result<(), ConnectionRequestResult> {
        self.answered = true;
        script::see(Seen::Answered {
            request: self.id,
            heard: !self.sender.is_closed(),
            answer: Answer::of(&result),
        });
        self.sender.send(result)
    }
}

impl Drop for ConnectionRequest {
    fn drop(&mut self) {
        if !self.answered {
            script::see(Seen::Gone {
                request: self.id,
                heard: !self.sender.is_closed(),
            });
        }
    }
}

#[derive(Debug)]
pub(crate) enum ConnectionRequestResult {
    Pooled(Box<PooledConnection>),
    Establishing(AsyncJoinHandle<Result<PooledConnection>>),
    PoolCleared(Error),
    PoolWarmed,
}

impl ConnectionRequestResult {
    pub(crate) fn unwrap_pooled_connection(self) -> PooledConnection {
        match self {
            ConnectionRequestResult::Pooled(connection) => *connection,
            _ => panic!("the result holds no pooled connection"),
        }
    }
}

/// What a result says, without the connection.
pub(crate) enum Answer {
    Pooled { connection: u32 },
    Establishing(AsyncJoinHandle<Result<PooledConnection>>),
    Cleared { cause: u32 },
    Warmed,
}

impl Answer {
    fn of(result: &ConnectionRequestResult) -> Self {
        match result {
            ConnectionRequestResult::Pooled(c) => Answer::Pooled { connection: c.id },
            ConnectionRequestResult::Establishing(task) => Answer::Establishing(task.same()),
            ConnectionRequestResult::PoolCleared(e) => Answer::Cleared {
                cause: e.scripted_cause(),
            },
            ConnectionRequestResult::PoolWarmed => Answer::Warmed,
        }
    }
}
