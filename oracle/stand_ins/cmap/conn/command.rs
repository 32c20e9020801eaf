//! Commands are not sent; what they would leave on a connection is set by the day.

use super::{Connection, Message};
use crate::{error::Error, options::ServerAddress};

pub(crate) struct Command;

pub(crate) struct WriteErrorBody;

pub(crate) struct RawCommandResponse;

impl RawCommandResponse {
    pub(crate) fn new(_source: ServerAddress, _message: Message) -> Self {
        Self
    }
}

impl Connection {
    /// Leaves the connection as the holder's last command left it.
    pub(crate) fn script_command(&mut self, errored: bool, executing: bool) {
        self.error = errored.then(|| Error::internal("scripted command"));
        self.command_executing = executing;
    }
}
