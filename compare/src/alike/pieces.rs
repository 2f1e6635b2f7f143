//! A well-formed hello in pieces, the entries of each list apart, so that one of them can be changed.

use crate::noise::quic::varint;
use crate::read::build::{big_endian, block, sized, Extension, Parts};

/// The entries of a list, each with what it has of lengths and values.
pub(crate) type Entries = Vec<Vec<u8>>;

#[derive(Clone)]
pub(crate) struct Pieces {
    /// All but suites and block.
    pub(crate) head: Parts,
    pub(crate) suites: Entries,
    pub(crate) extensions: Vec<Piece>,
}

/// An extension. A body that is not read is one entry.
#[derive(Clone)]
pub(crate) struct Piece {
    pub(crate) kind: u16,
    pub(crate) entries: Entries,
}

impl Pieces {
    pub(crate) fn of(hello: &[u8]) -> Self {
        let head = Parts::of(hello);
        Pieces {
            suites: head.suites.chunks(2).map(<[u8]>::to_vec).collect(),
            extensions: head.extensions().iter().map(Piece::of).collect(),
            head,
        }
    }

    pub(crate) fn hello(&self) -> Vec<u8> {
        let extensions: Vec<_> = self.extensions.iter().map(Piece::extension).collect();
        let parts = Parts {
            suites: self.suites.concat(),
            block: block(&extensions),
            ..self.head.clone()
        };
        parts.hello()
    }

    /// The entries of an extension, where the hello has it.
    pub(crate) fn entries(&mut self, kind: u16) -> Option<&mut Entries> {
        let mut extensions = self.extensions.iter_mut();
        let piece = extensions.find(|piece| piece.kind == kind)?;
        Some(&mut piece.entries)
    }
}

impl Piece {
    fn of(extension: &Extension) -> Self {
        let kind = extension.kind;
        let mut rest = &extension.body[length_width(kind)..];
        let mut entries = Vec::new();
        while !rest.is_empty() {
            let (entry, after) = rest.split_at(entry_length(kind, rest));
            entries.push(entry.to_vec());
            rest = after;
        }
        Piece { kind, entries }
    }

    fn extension(&self) -> Extension {
        let list = self.entries.concat();
        let body = match length_width(self.kind) {
            0 => list,
            width => sized(width, &list),
        };
        Extension::new(self.kind, body)
    }
}

/// How many bytes the length of the list has that is the whole body.
fn length_width(kind: u16) -> usize {
    match kind {
        0x0000 | 0x000a | 0x000d | 0x0010 | 0x0033 => 2,
        0x002b => 1,
        _ => 0,
    }
}

/// The length of the entry that stands first.
fn entry_length(kind: u16, list: &[u8]) -> usize {
    match kind {
        0x0000 => 3 + big_endian(&list[1..3]),
        0x000a | 0x000d | 0x002b => 2,
        0x0010 => 1 + usize::from(list[0]),
        0x0033 => 4 + big_endian(&list[2..4]),
        0x0039 => parameter_length(list),
        _ => list.len(),
    }
}

fn parameter_length(list: &[u8]) -> usize {
    let number = |at: usize| varint::read(&list[at..]).expect("well-formed");
    let (_, id) = number(0);
    let (value, length) = number(id);
    id + length + value as usize
}
