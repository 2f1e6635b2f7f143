//! The bytes of a report as the C library writes it, by the offsets of include/crustdelta.h: numbers lowest byte first, and
//! zeros in each place of a list past its count.

use super::report::{Name, Report};

pub(crate) const LENGTH: usize = 1_368;

/// Where the session id's length stands, and the count of names of the server with the part that the name is.
const SESSION_ID_LENGTH: usize = 0;
const SNI_COUNT: usize = 18;
const SNI: usize = 20;
/// Where the count of a list stands, and where its first place: suites, extensions, groups, groups of key shares, algorithms,
/// versions.
const LISTS: [(usize, usize); 6] = [(2, 24), (4, 152), (6, 280), (8, 408), (10, 536), (12, 664)];
const ALPN: (usize, usize) = (14, 792);
const IDS: (usize, usize) = (16, 856);

pub(crate) fn bytes(report: &Report) -> [u8; LENGTH] {
    let mut out = [0; LENGTH];
    put(&mut out, SESSION_ID_LENGTH, report.session_id_length);
    for ((count, at), list) in LISTS.into_iter().zip(report.lists()) {
        put(&mut out, count, list.len());
        for (place, number) in list.iter().enumerate() {
            put(&mut out, at + 2 * place, usize::from(*number));
        }
    }
    put(&mut out, ALPN.0, report.alpn.len());
    for (place, name) in report.alpn.iter().enumerate() {
        put_range(&mut out, ALPN.1 + 4 * place, name);
    }
    if let Some(name) = &report.name {
        put(&mut out, SNI_COUNT, 1);
        put_range(&mut out, SNI, name);
    }
    put(&mut out, IDS.0, report.transport_parameters.len());
    for (place, id) in report.transport_parameters.iter().enumerate() {
        let at = IDS.1 + 8 * place;
        out[at..at + 8].copy_from_slice(&id.to_le_bytes());
    }
    out
}

fn put(out: &mut [u8], at: usize, number: usize) {
    let number = u16::try_from(number).expect("all of a report but ids is below 2^16");
    out[at..at + 2].copy_from_slice(&number.to_le_bytes());
}

fn put_range(out: &mut [u8], at: usize, name: &Name) {
    put(out, at, name.start);
    put(out, at + 2, name.bytes.len());
}
