//! What document 01 compares two hellos in ("Alike"), written from its text alone.

use crate::noise::quic::fingerprint::parse_clienthello;
use crate::read::law;
use crate::read::report::Name;

/// "yes exactly when both are accepted and agree"
pub(crate) fn alike(a: &[u8], b: &[u8]) -> bool {
    match (Likeness::of(a), Likeness::of(b)) {
        (Some(a), Some(b)) => a == b,
        _ => false,
    }
}

/// Two accepted hellos are alike exactly when these are equal.
#[derive(PartialEq)]
struct Likeness {
    session_id_length: usize,
    name: Option<Vec<u8>>,
    /// "in order, in suites, groups, key-share groups, signature algorithms, versions"
    lists: [Vec<u16>; 5],
    alpn: Vec<Vec<u8>>,
    /// "with order put aside and repeats counted": in rising order, all of them.
    types: Vec<u16>,
    ids: Vec<u64>,
}

impl Likeness {
    /// `None` where document 01 refuses the hello, by the driver's own reader. All else is what the original reads, but for
    /// names: it gives text, and their bytes are those of the driver's own reader, whose report must be the original's.
    fn of(hello: &[u8]) -> Option<Self> {
        let report = law::read(hello).ok()?;
        let read = parse_clienthello(hello);
        assert_eq!(report.fingerprint(), read, "two readers, two reports");
        let bytes = |name: Name| name.bytes;
        Some(Likeness {
            session_id_length: read.legacy_session_id_len,
            name: report.name.map(bytes),
            lists: [
                read.cipher_suites,
                read.supported_groups,
                read.key_share_groups,
                read.signature_algorithms,
                read.supported_versions,
            ],
            alpn: report.alpn.into_iter().map(bytes).collect(),
            types: rising(read.extensions),
            ids: rising(read.transport_param_ids.into_iter().map(counted)),
        })
    }
}

/// "each id that is 27 mod 31 counting as 27"
fn counted(id: u64) -> u64 {
    if id % 31 == 27 {
        27
    } else {
        id
    }
}

fn rising<T: Ord>(numbers: impl IntoIterator<Item = T>) -> Vec<T> {
    let mut numbers: Vec<T> = numbers.into_iter().collect();
    numbers.sort_unstable();
    numbers
}
