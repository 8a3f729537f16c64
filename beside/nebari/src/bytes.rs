//! Shim for the crate `arc-bytes`: bytes that are lent or owned.
use std::{borrow::Cow, ops::Deref};

#[derive(Clone, Debug, Eq, PartialEq)]
pub struct ArcBytes<'a>(Cow<'a, [u8]>);

impl<'a> ArcBytes<'a> {
    pub fn into_owned(self) -> ArcBytes<'static> {
        ArcBytes(Cow::Owned(self.0.into_owned()))
    }

    /// Only nebari's own test of `log.rs` uses it.
    pub fn read_bytes(&mut self, count: usize) -> std::io::Result<ArcBytes<'static>> {
        let rest = self.0[count..].to_vec();
        let front = self.0[..count].to_vec();
        self.0 = Cow::Owned(rest);
        Ok(ArcBytes(Cow::Owned(front)))
    }
}

impl Deref for ArcBytes<'_> {
    type Target = [u8];

    fn deref(&self) -> &[u8] {
        &self.0
    }
}

impl<'a> From<&'a [u8]> for ArcBytes<'a> {
    fn from(bytes: &'a [u8]) -> Self {
        ArcBytes(Cow::Borrowed(bytes))
    }
}

impl<'a, const N: usize> From<&'a [u8; N]> for ArcBytes<'a> {
    fn from(bytes: &'a [u8; N]) -> Self {
        ArcBytes(Cow::Borrowed(bytes))
    }
}

impl From<Vec<u8>> for ArcBytes<'_> {
    fn from(bytes: Vec<u8>) -> Self {
        ArcBytes(Cow::Owned(bytes))
    }
}
