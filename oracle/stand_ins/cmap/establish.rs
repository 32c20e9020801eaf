//! Establishing that waits until the day says how it ends.

pub(crate) mod door;

use std::{future::poll_fn, task::Poll};

use super::conn::{pooled::PooledConnection, PendingConnection};
use crate::{
    client::auth::Credential,
    error::Error,
    runtime::AsyncStream,
    script::{self, Outcome},
};

pub(crate) mod handshake {
    pub(crate) struct FaasEnvironmentName;

    impl FaasEnvironmentName {
        pub(crate) fn new() -> Option<Self> {
            None
        }
    }
}

#[derive(Clone)]
pub(crate) struct ConnectionEstablisher;

#[derive(Clone, Debug)]
pub(crate) struct HandshakePhase;

#[derive(Debug)]
pub(crate) struct EstablishError {
    pub(crate) cause: Error,
    pub(crate) handshake_phase: HandshakePhase,
}

impl ConnectionEstablisher {
    pub(crate) async fn establish_connection(
        &self,
        pending_connection: PendingConnection,
        _credential: Option<&Credential>,
    ) -> Result<PooledConnection, EstablishError> {
        script::establishing(pending_connection.id);
        let outcome = poll_fn(|_| match script::outcome() {
            Some(outcome) => Poll::Ready(outcome),
            None => Poll::Pending,
        });
        match outcome.await {
            Outcome::Success => Ok(PooledConnection::new(pending_connection, AsyncStream::Null)),
            Outcome::Failure => Err(EstablishError {
                cause: Error::internal("scripted failure"),
                handshake_phase: HandshakePhase,
            }),
        }
    }
}
