//! Where the lengths stand in a well-formed hello.

use super::build::big_endian;
use crate::noise::quic::varint;

/// A length: its place, how many bytes it has, and the bits of its first byte that are not its own.
pub(crate) struct Length {
    at: usize,
    width: usize,
    other_bits: u32,
}

impl Length {
    /// The hello with this length one more, one less, and at its largest.
    pub(crate) fn changed(&self, hello: &[u8]) -> Vec<Vec<u8>> {
        let largest = (1usize << (8 * self.width as u32 - self.other_bits)) - 1;
        let all = big_endian(&hello[self.at..self.at + self.width]);
        let length = all & largest;
        let mut changed = vec![largest];
        changed.extend(length.checked_sub(1));
        changed.extend((length < largest).then_some(length + 1));
        let with = |to: usize| {
            let bytes = (all - length + to).to_be_bytes();
            let mut hello = hello.to_vec();
            hello[self.at..self.at + self.width].copy_from_slice(&bytes[8 - self.width..]);
            hello
        };
        changed.into_iter().map(with).collect()
    }
}

pub(crate) fn lengths(hello: &[u8]) -> Vec<Length> {
    let mut walk = Walk {
        hello,
        at: 1,
        found: Vec::new(),
    };
    walk.inside(3);
    walk.at += 2 + 32;
    walk.over(1);
    walk.over(2);
    walk.over(1);
    let end = walk.inside(2);
    while walk.at < end {
        walk.extension();
    }
    walk.found
}

struct Walk<'a> {
    hello: &'a [u8],
    at: usize,
    found: Vec<Length>,
}

impl Walk<'_> {
    /// Notes the length of `width` bytes that stands here and goes past it. Gives the end of what it announces.
    fn inside(&mut self, width: usize) -> usize {
        self.found.push(Length {
            at: self.at,
            width,
            other_bits: 0,
        });
        let length = big_endian(&self.hello[self.at..self.at + width]);
        self.at += width;
        self.at + length
    }

    /// The same, and goes past what it announces.
    fn over(&mut self, width: usize) {
        self.at = self.inside(width);
    }

    fn varint(&mut self) -> (usize, usize) {
        let (value, width) = varint::read(&self.hello[self.at..]).expect("well-formed");
        self.at += width;
        (value as usize, width)
    }

    fn extension(&mut self) {
        let kind = big_endian(&self.hello[self.at..self.at + 2]);
        self.at += 2;
        let end = self.inside(2);
        match kind {
            0x0000 => {
                self.inside(2);
                self.at += 1;
                self.over(2);
            }
            0x000a | 0x000d => self.over(2),
            0x0010 => {
                self.inside(2);
                while self.at < end {
                    self.over(1);
                }
            }
            0x002b => self.over(1),
            0x0033 => {
                self.inside(2);
                while self.at < end {
                    self.at += 2;
                    self.over(2);
                }
            }
            0x0039 => {
                while self.at < end {
                    self.parameter();
                }
            }
            _ => self.at = end,
        }
    }

    fn parameter(&mut self) {
        self.varint();
        let at = self.at;
        let (length, width) = self.varint();
        self.found.push(Length {
            at,
            width,
            other_bits: 2,
        });
        self.at += length;
    }
}
