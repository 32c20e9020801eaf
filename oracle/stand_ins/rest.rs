//! Names that the driver's files mention and no day gives meaning to.

pub(crate) mod bson {
    pub(crate) mod oid {
        #[derive(Clone, Copy, Debug, PartialEq, Eq, Hash)]
        pub(crate) struct ObjectId;
    }
}

pub(crate) mod client {
    pub(crate) mod auth {
        #[derive(Clone, Debug, PartialEq)]
        pub(crate) struct Credential;
    }
}

pub(crate) mod options {
    use std::{fmt, time::Duration};

    use super::client::auth::Credential;
    use crate::event::{cmap::CmapEvent, EventHandler};

    #[derive(Clone, Debug)]
    pub(crate) struct ServerAddress;

    impl fmt::Display for ServerAddress {
        fn fmt(&self, f: &mut fmt::Formatter<'_>) -> fmt::Result {
            f.write_str("the day's server")
        }
    }

    pub(crate) struct ClientOptions {
        pub(crate) cmap_event_handler: Option<EventHandler<CmapEvent>>,
        pub(crate) credential: Option<Credential>,
        pub(crate) load_balanced: Option<bool>,
        pub(crate) max_connecting: Option<u32>,
        pub(crate) max_idle_time: Option<Duration>,
        pub(crate) max_pool_size: Option<u32>,
        pub(crate) min_pool_size: Option<u32>,
    }
}

pub(crate) mod serde_util {}

#[derive(Clone, Copy, Debug, PartialEq)]
pub(crate) enum ServerType {
    Mongos,
}
