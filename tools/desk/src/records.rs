//! The records of a file one by one, good or not, as far as heads go.

use runner::bytes::u16_at;
use runner::limits::HEAD_BYTES;

/// A record with a whole head.
#[derive(Clone, Copy, Debug)]
pub struct Record<'a> {
    /// The offset of its head.
    pub offset: usize,
    /// The kind in its head.
    pub kind: u16,
    /// The length in its head.
    pub length: usize,
    /// Its body, with fewer bytes than the length if the file is cut.
    pub body: &'a [u8],
}

impl Record<'_> {
    /// Whether the body is all there.
    pub fn is_whole(&self) -> bool {
        self.body.len() == self.length
    }

    /// The offset behind the record.
    pub fn end(&self) -> usize {
        self.offset + HEAD_BYTES + self.body.len()
    }
}

/// The records from the file's first byte on. They stop where fewer bytes are
/// left than a head has.
pub fn records(bytes: &[u8]) -> impl Iterator<Item = Record<'_>> {
    let mut offset = 0;
    std::iter::from_fn(move || {
        let record = record_at(bytes, offset)?;
        offset = record.end();
        Some(record)
    })
}

/// Whether a file cannot be a block and may be a text: each head of a block's
/// record has a zero byte, and no text has one.
pub fn is_text(bytes: &[u8]) -> bool {
    !bytes.contains(&0)
}

fn record_at(bytes: &[u8], offset: usize) -> Option<Record<'_>> {
    let (head, rest) = bytes[offset..].split_at_checked(HEAD_BYTES)?;
    let length = usize::from(u16_at(head, 0));
    Some(Record {
        offset,
        kind: u16_at(head, 2),
        length,
        body: &rest[..length.min(rest.len())],
    })
}
