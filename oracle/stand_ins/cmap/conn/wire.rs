//! Messages that no day sends.

use tokio::io::BufStream;

use crate::{error::Result, runtime::AsyncStream};

pub(crate) struct MessageFlags;

impl MessageFlags {
    pub(crate) const MORE_TO_COME: Self = Self;

    pub(crate) fn contains(&self, _other: Self) -> bool {
        false
    }
}

pub(crate) struct Message {
    pub(crate) flags: MessageFlags,
}

impl Message {
    pub(crate) async fn write_op_msg_to(
        &self,
        _stream: &mut BufStream<AsyncStream>,
        _max_message_size: Option<i32>,
    ) -> Result<()> {
        Ok(())
    }

    pub(crate) async fn read_from(
        _stream: &mut BufStream<AsyncStream>,
        _max_message_size: Option<i32>,
    ) -> Result<Self> {
        Ok(Self {
            flags: MessageFlags,
        })
    }
}
