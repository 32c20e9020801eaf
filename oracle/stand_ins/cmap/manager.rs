//! The messages to the worker that are not requests for a connection.

use tokio::sync::mpsc::{self, error::TrySendError, Receiver, Sender};

use super::conn::pooled::PooledConnection;
use crate::{
    bson::oid::ObjectId,
    error::Error,
    runtime::{AcknowledgedMessage, AcknowledgmentReceiver, AcknowledgmentSender},
    sdam::BroadcastMessage,
};

pub(crate) fn channel() -> (PoolManager, ManagementRequestReceiver) {
    let (sender, receiver) = mpsc::channel(usize::MAX);
    (
        PoolManager { sender },
        ManagementRequestReceiver { receiver },
    )
}

#[derive(Clone, Debug)]
pub(crate) struct PoolManager {
    sender: Sender<PoolManagementRequest>,
}

impl PoolManager {
    /// A closed pool hears nothing; only `check_in` minds that.
    fn tell(&self, request: PoolManagementRequest) {
        let _ = self.sender.try_send(request);
    }

    pub(crate) async fn clear(&self, cause: Error, service_id: Option<ObjectId>) {
        self.tell(PoolManagementRequest::Clear { cause, service_id });
    }

    pub(crate) async fn mark_as_ready(&self) {
        self.tell(PoolManagementRequest::MarkAsReady {
            completion_handler: AcknowledgmentSender::new(),
        });
    }

    pub(crate) fn check_in(&self, connection: PooledConnection) -> Result<(), PooledConnection> {
        let request = PoolManagementRequest::CheckIn(Box::new(connection));
        match self.sender.try_send(request) {
            Ok(()) => Ok(()),
            Err(TrySendError::Closed(PoolManagementRequest::CheckIn(connection))) => {
                Err(*connection)
            }
            Err(_) => unreachable!("the channel has no bound and gives back what it was sent"),
        }
    }

    pub(crate) fn handle_connection_succeeded(&self, connection: ConnectionSucceeded) {
        self.tell(PoolManagementRequest::HandleConnectionSucceeded(connection));
    }

    pub(crate) fn handle_connection_failed(&self) {
        self.tell(PoolManagementRequest::HandleConnectionFailed);
    }

    pub(crate) fn broadcast(&self, message: BroadcastMessage) -> AcknowledgmentReceiver<()> {
        self.tell(PoolManagementRequest::Broadcast(AcknowledgedMessage::new(
            message,
        )));
        AcknowledgmentReceiver::new()
    }
}

#[derive(Debug)]
pub(crate) struct ManagementRequestReceiver {
    receiver: Receiver<PoolManagementRequest>,
}

impl ManagementRequestReceiver {
    pub(crate) async fn recv(&mut self) -> Option<PoolManagementRequest> {
        self.receiver.recv().await
    }
}

#[derive(Debug)]
pub(crate) enum PoolManagementRequest {
    Clear {
        cause: Error,
        service_id: Option<ObjectId>,
    },
    MarkAsReady {
        completion_handler: AcknowledgmentSender<()>,
    },
    CheckIn(Box<PooledConnection>),
    HandleConnectionFailed,
    HandleConnectionSucceeded(ConnectionSucceeded),
    Broadcast(AcknowledgedMessage<BroadcastMessage>),
}

#[derive(Debug)]
pub(crate) enum ConnectionSucceeded {
    ForPool(Box<PooledConnection>),
    Used { service_id: Option<ObjectId> },
}

impl ConnectionSucceeded {
    pub(crate) fn service_id(&self) -> Option<ObjectId> {
        match self {
            ConnectionSucceeded::ForPool(connection) => connection.generation.service_id(),
            ConnectionSucceeded::Used { service_id } => *service_id,
        }
    }
}
