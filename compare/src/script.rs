//! The form that bytes have in the scripts of `crustdelta` and in its answers.

use std::fmt::{Display, Formatter, Result};

/// A trailing run of equal bytes is shortened from this length on.
const RUN: usize = 8;

/// Shows bytes as lower-case hex, `-` for none, a long trailing run of `bb` as `N*bb`.
pub(crate) struct Bytes<'a>(pub(crate) &'a [u8]);

impl Display for Bytes<'_> {
    fn fmt(&self, f: &mut Formatter<'_>) -> Result {
        let Some(&last) = self.0.last() else {
            return f.write_str("-");
        };
        let run = self.0.iter().rev().take_while(|&&b| b == last).count();
        let run = if run < RUN { 0 } else { run };
        let plain = self.0.len() - run;
        for byte in &self.0[..plain] {
            write!(f, "{byte:02x}")?;
        }
        if 0 < plain && 0 < run {
            f.write_str("+")?;
        }
        if 0 < run {
            write!(f, "{run}*{last:02x}")?;
        }
        Ok(())
    }
}

/// Shows a name: as text in quotes where it can be, else as plain hex, `-` for none.
pub(crate) struct Text<'a>(pub(crate) &'a [u8]);

impl Display for Text<'_> {
    fn fmt(&self, f: &mut Formatter<'_>) -> Result {
        let plain = |byte: &u8| (33..=126).contains(byte) && *byte != b'"';
        if self.0.is_empty() {
            return f.write_str("-");
        }
        if self.0.iter().all(plain) {
            return write!(f, "\"{}\"", String::from_utf8_lossy(self.0));
        }
        self.0.iter().try_for_each(|byte| write!(f, "{byte:02x}"))
    }
}

/// The bytes of hex as a script has it.
pub(crate) fn hex(text: &str) -> Vec<u8> {
    try_hex(text).expect("hex")
}

/// The same for a text that need not be hex.
pub(crate) fn try_hex(text: &str) -> Option<Vec<u8>> {
    let byte = |place| u8::from_str_radix(text.get(place..place + 2)?, 16).ok();
    (0..text.len()).step_by(2).map(byte).collect()
}
