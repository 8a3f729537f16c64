//! Shim for nebari's `error.rs`: only what the four files name.
use std::fmt::{Debug, Display};

pub trait SendSyncError: std::error::Error + Send + Sync + 'static {}
impl<T: std::error::Error + Send + Sync + 'static> SendSyncError for T {}

#[derive(Debug)]
pub struct Error {
    pub kind: ErrorKind,
}
impl Error {
    pub(crate) fn data_integrity(error: impl Into<Self>) -> Self {
        Self { kind: ErrorKind::DataIntegrity(Box::new(error.into())) }
    }
}
#[derive(Debug)]
#[allow(dead_code)]
pub enum ErrorKind {
    Message(String),
    TransactionPushedOutOfOrder,
    ValueTooLarge,
    DataIntegrity(Box<Error>),
    Io(std::io::Error),
    Vault(Box<dyn SendSyncError>),
    Internal(InternalError),
}
impl ErrorKind {
    pub(crate) fn message(m: impl Display) -> Self {
        Self::Message(m.to_string())
    }
}
#[derive(Debug)]
pub enum InternalError {
    TransactionManagerStopped,
}
impl From<ErrorKind> for Error {
    fn from(kind: ErrorKind) -> Self {
        Self { kind }
    }
}
impl From<&'static str> for Error {
    fn from(m: &'static str) -> Self {
        ErrorKind::message(m).into()
    }
}
impl From<std::io::Error> for Error {
    fn from(e: std::io::Error) -> Self {
        ErrorKind::Io(e).into()
    }
}
