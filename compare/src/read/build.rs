//! Hellos put together from their parts, every length true.

/// What a hello holds, without lengths.
#[derive(Clone)]
pub(crate) struct Parts {
    pub(crate) version: [u8; 2],
    pub(crate) random: Vec<u8>,
    pub(crate) session_id: Vec<u8>,
    pub(crate) suites: Vec<u8>,
    pub(crate) compression: Vec<u8>,
    pub(crate) block: Vec<u8>,
}

impl Parts {
    /// An empty session id, one suite, one compression byte, and these extensions.
    pub(crate) fn plain(block: &[u8]) -> Self {
        Parts {
            version: [3, 3],
            random: (1..=32).collect(),
            session_id: Vec::new(),
            suites: vec![0x13, 0x01],
            compression: vec![0],
            block: block.to_vec(),
        }
    }

    /// Takes a well-formed hello apart.
    pub(crate) fn of(hello: &[u8]) -> Self {
        let (random, rest) = hello[6..].split_at(32);
        let (session_id, rest) = cut(rest, 1);
        let (suites, rest) = cut(rest, 2);
        let (compression, rest) = cut(rest, 1);
        Parts {
            version: [hello[4], hello[5]],
            random: random.to_vec(),
            session_id: session_id.to_vec(),
            suites: suites.to_vec(),
            compression: compression.to_vec(),
            block: cut(rest, 2).0.to_vec(),
        }
    }

    pub(crate) fn hello(&self) -> Vec<u8> {
        let fields = [
            &self.version[..],
            &self.random,
            &sized(1, &self.session_id),
            &sized(2, &self.suites),
            &sized(1, &self.compression),
            &sized(2, &self.block),
        ];
        [&[1], &sized(3, &fields.concat())[..]].concat()
    }

    /// The extensions of a well-formed block.
    pub(crate) fn extensions(&self) -> Vec<Extension> {
        let mut extensions = Vec::new();
        let mut rest = &self.block[..];
        while let [high, low, after @ ..] = rest {
            let body;
            (body, rest) = cut(after, 2);
            extensions.push(Extension {
                kind: u16::from_be_bytes([*high, *low]),
                body: body.to_vec(),
            });
        }
        extensions
    }
}

#[derive(Clone)]
pub(crate) struct Extension {
    pub(crate) kind: u16,
    pub(crate) body: Vec<u8>,
}

impl Extension {
    pub(crate) fn new(kind: u16, body: Vec<u8>) -> Self {
        Extension { kind, body }
    }

    pub(crate) fn bytes(&self) -> Vec<u8> {
        [&self.kind.to_be_bytes()[..], &sized(2, &self.body)].concat()
    }
}

/// The extensions one after another.
pub(crate) fn block(extensions: &[Extension]) -> Vec<u8> {
    extensions.iter().flat_map(Extension::bytes).collect()
}

/// Bytes with their length of `width` bytes in front.
pub(crate) fn sized(width: usize, bytes: &[u8]) -> Vec<u8> {
    let length = bytes.len().to_be_bytes();
    let (beyond, length) = length.split_at(length.len() - width);
    assert!(beyond.iter().all(|&byte| byte == 0), "too long a part");
    [length, bytes].concat()
}

/// 16-bit numbers, highest byte first.
pub(crate) fn numbers(numbers: impl IntoIterator<Item = u16>) -> Vec<u8> {
    numbers.into_iter().flat_map(u16::to_be_bytes).collect()
}

/// The part that a length of `width` bytes announces, and what comes after it.
fn cut(bytes: &[u8], width: usize) -> (&[u8], &[u8]) {
    let (length, rest) = bytes.split_at(width);
    rest.split_at(big_endian(length))
}

pub(crate) fn big_endian(bytes: &[u8]) -> usize {
    let number = |before, byte: &u8| before << 8 | usize::from(*byte);
    bytes.iter().fold(0, number)
}
