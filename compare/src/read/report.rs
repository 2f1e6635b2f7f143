//! What document 01 reports of a hello, shown as the script's command `report` shows it.

use crate::noise::quic::fingerprint::Fingerprint;
use crate::script::Text;
use std::fmt::{Display, Formatter, Result};

/// A name in a hello: where it begins, and its bytes.
pub(crate) struct Name {
    pub(crate) start: usize,
    pub(crate) bytes: Vec<u8>,
}

#[derive(Default)]
pub(crate) struct Report {
    pub(crate) session_id_length: usize,
    pub(crate) cipher_suites: Vec<u16>,
    pub(crate) extensions: Vec<u16>,
    pub(crate) supported_groups: Vec<u16>,
    pub(crate) key_share_groups: Vec<u16>,
    pub(crate) signature_algorithms: Vec<u16>,
    pub(crate) supported_versions: Vec<u16>,
    pub(crate) alpn: Vec<Name>,
    pub(crate) name: Option<Name>,
    pub(crate) transport_parameters: Vec<u64>,
}

impl Report {
    /// The lists of 16-bit numbers.
    pub(crate) fn lists(&self) -> [&Vec<u16>; 6] {
        [
            &self.cipher_suites,
            &self.extensions,
            &self.supported_groups,
            &self.key_share_groups,
            &self.signature_algorithms,
            &self.supported_versions,
        ]
    }

    /// The same as the original holds it: names as text, and nothing of where they stand.
    pub(crate) fn fingerprint(&self) -> Fingerprint {
        let text = |name: &Name| String::from_utf8_lossy(&name.bytes).into_owned();
        Fingerprint {
            legacy_session_id_len: self.session_id_length,
            cipher_suites: self.cipher_suites.clone(),
            extensions: self.extensions.clone(),
            supported_groups: self.supported_groups.clone(),
            key_share_groups: self.key_share_groups.clone(),
            signature_algorithms: self.signature_algorithms.clone(),
            supported_versions: self.supported_versions.clone(),
            alpn: self.alpn.iter().map(text).collect(),
            sni: self.name.as_ref().map(text),
            transport_param_ids: self.transport_parameters.clone(),
        }
    }
}

impl Display for Report {
    fn fmt(&self, f: &mut Formatter<'_>) -> Result {
        let lists = [
            ("cipher-suites", &self.cipher_suites),
            ("extensions", &self.extensions),
            ("supported-groups", &self.supported_groups),
            ("key-share-groups", &self.key_share_groups),
            ("signature-algorithms", &self.signature_algorithms),
            ("supported-versions", &self.supported_versions),
        ];
        write!(f, "report\n  session-id-length {}", self.session_id_length)?;
        for (word, list) in lists {
            write!(f, "\n  {word}{}", Numbers(list))?;
        }
        f.write_str("\n  alpn")?;
        for name in &self.alpn {
            write!(f, " {name}")?;
        }
        match &self.name {
            Some(name) => write!(f, "\n  name {name}")?,
            None => f.write_str("\n  name none")?,
        }
        f.write_str("\n  transport-parameters")?;
        let mut ids = self.transport_parameters.iter();
        ids.try_for_each(|id| write!(f, " {id:x}"))
    }
}

impl Display for Name {
    fn fmt(&self, f: &mut Formatter<'_>) -> Result {
        let end = self.start + self.bytes.len();
        write!(f, "{}..{end} {}", self.start, Text(&self.bytes))
    }
}

/// Shows 16-bit numbers, a space before each.
pub(super) struct Numbers<'a>(pub(super) &'a [u16]);

impl Display for Numbers<'_> {
    fn fmt(&self, f: &mut Formatter<'_>) -> Result {
        let mut numbers = self.0.iter();
        numbers.try_for_each(|number| write!(f, " {number:04x}"))
    }
}
