//! The random tape of document 01 as the original's generator.

use crate::noise::quic::profiles::{BrowserProfile, Profile};
use crate::noise::quic::tls::generate_client_hello;
use crate::panics::unless_it_panics;
use rand_core::RngCore;

/// Gives the bytes of a tape in order, and panics where it ends.
pub(crate) struct Tape<'a> {
    bytes: &'a [u8],
    drawn: usize,
}

impl<'a> Tape<'a> {
    pub(crate) fn new(bytes: &'a [u8]) -> Self {
        Tape { bytes, drawn: 0 }
    }

    /// How many bytes were drawn so far.
    pub(crate) fn drawn(&self) -> usize {
        self.drawn
    }

    fn take(&mut self, n: usize) -> &'a [u8] {
        let part = &self.bytes[self.drawn..self.drawn + n];
        self.drawn += n;
        part
    }
}

impl RngCore for Tape<'_> {
    fn next_u64(&mut self) -> u64 {
        let mut eight = [0; 8];
        self.fill_bytes(&mut eight);
        u64::from_le_bytes(eight)
    }

    fn fill_bytes(&mut self, dest: &mut [u8]) {
        dest.copy_from_slice(self.take(dest.len()));
    }
}

/// Sees that the original, as built here, makes hellos of the lengths that document 01's table gives for zero draws,
/// from as many bytes of tape, and that the tape gives its bytes in order.
pub(crate) fn check() {
    let mut counted = Tape::new(&[9, 1, 2, 3, 4, 5, 6, 7, 8]);
    counted.fill_bytes(&mut [0]);
    assert_eq!(counted.next_u64(), 0x0807_0605_0403_0201);

    let (name, scid) = ("example.org", [1, 2, 3]);
    let (n, s, p) = (name.len(), scid.len(), 150);
    let table = [
        (BrowserProfile::Chrome, 1534 + n + p, 1726, 1526 + p),
        (BrowserProfile::Firefox, 1633 + n + s + p, 1808, 1608 + p),
        (BrowserProfile::Curl, 290 + n + p, 416, 216 + p),
    ];
    for (browser, length, needed, drawn) in table {
        let profile = Profile::for_browser(browser);
        let zeros = vec![0; needed];
        let make = |tape: &mut Tape| generate_client_hello(&profile, name, &scid, tape);
        let mut tape = Tape::new(&zeros);
        let made = make(&mut tape).len();
        assert_eq!((made, tape.drawn()), (length, drawn), "{browser:?}");
        let mut short = Tape::new(&zeros[..drawn - 1]);
        assert!(
            unless_it_panics(|| make(&mut short)).is_none(),
            "{browser:?} on a short tape"
        );
    }
}
