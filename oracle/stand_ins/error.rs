//! Errors with the little that a day gives them: a cause number and whether it is a timeout.

use std::fmt;

use crate::options::ServerAddress;

pub(crate) type Result<T> = std::result::Result<T, Error>;

#[derive(Clone, Debug)]
pub(crate) enum ErrorKind {
    Internal { message: String },
    ConnectionPoolCleared { message: String },
    Scripted { cause: u32, network_timeout: bool },
}

#[derive(Clone, Debug)]
pub(crate) struct Error {
    kind: ErrorKind,
}

impl From<ErrorKind> for Error {
    fn from(kind: ErrorKind) -> Self {
        Self { kind }
    }
}

impl Error {
    pub(crate) fn internal(message: impl Into<String>) -> Self {
        ErrorKind::Internal {
            message: message.into(),
        }
        .into()
    }

    pub(crate) fn pool_cleared_error(_address: &ServerAddress, cause: &Error) -> Self {
        ErrorKind::ConnectionPoolCleared {
            message: cause.to_string(),
        }
        .into()
    }

    pub(crate) fn scripted(cause: u32, network_timeout: bool) -> Self {
        ErrorKind::Scripted {
            cause,
            network_timeout,
        }
        .into()
    }

    /// The cause that the day gave; 0 for an error of the Rust's own making.
    pub(crate) fn scripted_cause(&self) -> u32 {
        match self.kind {
            ErrorKind::Scripted { cause, .. } => cause,
            _ => 0,
        }
    }

    pub(crate) fn is_network_timeout(&self) -> bool {
        matches!(
            self.kind,
            ErrorKind::Scripted {
                network_timeout: true,
                ..
            }
        )
    }
}

impl fmt::Display for Error {
    fn fmt(&self, f: &mut fmt::Formatter<'_>) -> fmt::Result {
        write!(f, "{:?}", self.kind)
    }
}

/// The two modes never meet in a day: a mismatch is a fault of the harness.
macro_rules! load_balanced_mode_mismatch {
    ($($value:expr)?) => {
        panic!("load-balanced mode in a day")
    };
}
pub(crate) use load_balanced_mode_mismatch;

pub(crate) struct Redact<T>(pub T);

impl<T: fmt::Display> fmt::Display for Redact<T> {
    fn fmt(&self, f: &mut fmt::Formatter<'_>) -> fmt::Result {
        self.0.fmt(f)
    }
}
