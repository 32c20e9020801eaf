//! A description that no connection of a day gets: there is no handshake.

use std::time::Duration;

use crate::{bson::oid::ObjectId, ServerType};

#[derive(Clone, Debug)]
pub(crate) struct StreamDescription {
    pub(crate) initial_server_type: ServerType,
    pub(crate) logical_session_timeout: Option<Duration>,
    pub(crate) max_message_size_bytes: i32,
    pub(crate) service_id: Option<ObjectId>,
}
