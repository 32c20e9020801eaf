//! The driver's events, handed to one function.

/// Takes every event.
pub(crate) struct EventHandler<T> {
    pub(crate) handle: fn(T),
}

impl<T> Clone for EventHandler<T> {
    fn clone(&self) -> Self {
        Self {
            handle: self.handle,
        }
    }
}

pub(crate) mod cmap {
    use std::time::Duration;

    use super::EventHandler;
    use crate::{bson::oid::ObjectId, options::ServerAddress};

    #[derive(Clone)]
    pub(crate) struct CmapEventEmitter {
        handler: Option<EventHandler<CmapEvent>>,
    }

    impl CmapEventEmitter {
        pub(crate) fn new(handler: Option<EventHandler<CmapEvent>>) -> Self {
            Self { handler }
        }

        pub(crate) fn emit_event(&self, event: impl FnOnce() -> CmapEvent) {
            if let Some(handler) = &self.handler {
                (handler.handle)(event());
            }
        }
    }

    #[derive(Clone, Copy, Debug, PartialEq, Eq)]
    pub(crate) enum ConnectionClosedReason {
        Stale,
        Idle,
        Error,
        Dropped,
        PoolClosed,
    }

    pub(crate) enum ConnectionCheckoutFailedReason {
        ConnectionError,
    }

    pub(crate) struct ConnectionPoolOptions {
        pub(crate) max_idle_time: Option<Duration>,
        pub(crate) min_pool_size: Option<u32>,
        pub(crate) max_pool_size: Option<u32>,
    }

    /// Every event is a struct of the same name with `Event` behind it, which turns into its case.
    macro_rules! events {
        ($($case:ident $event:ident { $($field:ident: $type:ty),* $(,)? })*) => {
            $(
                pub(crate) struct $event {
                    $(pub(crate) $field: $type,)*
                }

                impl From<$event> for CmapEvent {
                    fn from(event: $event) -> Self {
                        CmapEvent::$case(event)
                    }
                }
            )*

            pub(crate) enum CmapEvent {
                $($case($event),)*
            }
        };
    }

    events! {
        PoolCreated PoolCreatedEvent {
            address: ServerAddress,
            options: Option<ConnectionPoolOptions>,
        }
        PoolReady PoolReadyEvent { address: ServerAddress }
        PoolCleared PoolClearedEvent {
            address: ServerAddress,
            service_id: Option<ObjectId>,
            interrupt_in_use_connections: bool,
        }
        PoolClosed PoolClosedEvent { address: ServerAddress }
        ConnectionCreated ConnectionCreatedEvent { address: ServerAddress, connection_id: u32 }
        ConnectionReady ConnectionReadyEvent {
            address: ServerAddress,
            connection_id: u32,
            duration: Duration,
        }
        ConnectionClosed ConnectionClosedEvent {
            address: ServerAddress,
            connection_id: u32,
            reason: ConnectionClosedReason,
            service_id: Option<ObjectId>,
        }
        ConnectionCheckoutStarted ConnectionCheckoutStartedEvent { address: ServerAddress }
        ConnectionCheckoutFailed ConnectionCheckoutFailedEvent {
            address: ServerAddress,
            reason: ConnectionCheckoutFailedReason,
            duration: Duration,
        }
        ConnectionCheckedOut ConnectionCheckedOutEvent {
            address: ServerAddress,
            connection_id: u32,
            duration: Duration,
        }
        ConnectionCheckedIn ConnectionCheckedInEvent { address: ServerAddress, connection_id: u32 }
    }
}
