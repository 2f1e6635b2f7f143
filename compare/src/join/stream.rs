//! What the original joins frames to.

use crate::noise::quic::fingerprint::reassemble_crypto;
use crate::panics::unless_it_panics;
use crate::script::Bytes;
use std::fmt::{Display, Formatter, Result};

/// The stream; `None` where the original panics.
#[derive(PartialEq)]
pub(crate) struct Stream(pub(crate) Option<Vec<u8>>);

impl Stream {
    pub(crate) fn by_rust(frames: &[u8]) -> Self {
        Stream(unless_it_panics(|| reassemble_crypto(frames)))
    }
}

impl Display for Stream {
    fn fmt(&self, f: &mut Formatter<'_>) -> Result {
        match &self.0 {
            Some(stream) => write!(f, "{}", Bytes(stream)),
            None => f.write_str("a panic"),
        }
    }
}
