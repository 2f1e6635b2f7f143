//! What the original reads in a hello that it need not read as document 01 says.

use super::report::Numbers;
use crate::noise::quic::fingerprint::{parse_clienthello, Fingerprint};
use crate::panics::unless_it_panics;
use std::fmt::{Display, Formatter, Result};

/// `None` where the original panics.
#[derive(PartialEq)]
pub(super) struct Seen(pub(super) Option<Fingerprint>);

impl Seen {
    pub(super) fn by_rust(hello: &[u8]) -> Self {
        Seen(unless_it_panics(|| parse_clienthello(hello)))
    }
}

/// In one line, with empty lists left out.
impl Display for Seen {
    fn fmt(&self, f: &mut Formatter<'_>) -> Result {
        let Some(read) = &self.0 else {
            return f.write_str("a panic");
        };
        write!(f, "session {}", read.legacy_session_id_len)?;
        for (word, list) in [
            ("suites", &read.cipher_suites),
            ("types", &read.extensions),
            ("groups", &read.supported_groups),
            ("shares", &read.key_share_groups),
            ("algorithms", &read.signature_algorithms),
            ("versions", &read.supported_versions),
        ] {
            if !list.is_empty() {
                write!(f, " {word}{}", Numbers(list))?;
            }
        }
        if !read.alpn.is_empty() {
            write!(f, " alpn {:?}", read.alpn)?;
        }
        if let Some(name) = &read.sni {
            write!(f, " name {name:?}")?;
        }
        if !read.transport_param_ids.is_empty() {
            write!(f, " ids {:x?}", read.transport_param_ids)?;
        }
        Ok(())
    }
}
