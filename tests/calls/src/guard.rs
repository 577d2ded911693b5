//! Memory that is lent to a call, between bytes that the call must leave as they are.

use support::Random;

/// Guard bytes on each side of a buffer; up to seven more before it.
const GUARD: usize = 24;

/// A buffer between guard bytes of any value.
pub struct Guarded {
    bytes: Vec<u8>,
    before: Vec<u8>,
    start: usize,
    len: usize,
}

impl Guarded {
    /// A buffer that holds the given bytes, at a place of any alignment.
    pub fn new(content: &[u8], random: &mut Random) -> Guarded {
        let shift = random.below(8);
        Guarded::placed(content, GUARD + shift, random)
    }

    /// A buffer for words of 32 bits.
    pub fn aligned(content: &[u8], random: &mut Random) -> Guarded {
        let mut guarded = Guarded::placed(content, GUARD, random);
        let shift = guarded.bytes.as_ptr().align_offset(4);
        guarded.bytes.rotate_right(shift);
        guarded.before.rotate_right(shift);
        guarded.start += shift;
        guarded
    }

    fn placed(content: &[u8], start: usize, random: &mut Random) -> Guarded {
        let mut bytes = random.bytes(start);
        bytes.extend_from_slice(content);
        bytes.extend(random.bytes(GUARD));
        Guarded {
            before: bytes.clone(),
            bytes,
            start,
            len: content.len(),
        }
    }

    /// The place of the buffer. Reading calls get it too, so that a wrong write is seen and is
    /// not undefined here.
    pub fn ptr(&mut self) -> *mut u8 {
        self.bytes[self.start..].as_mut_ptr()
    }

    /// The length of the buffer.
    pub fn len(&self) -> usize {
        self.len
    }

    /// What the buffer holds.
    pub fn content(&self) -> &[u8] {
        &self.bytes[self.start..self.start + self.len]
    }

    /// Whether the buffer and its guard bytes are as they were.
    pub fn is_unchanged(&self) -> bool {
        self.bytes == self.before
    }

    /// Whether the guard bytes are as they were.
    pub fn has_guards(&self) -> bool {
        let end = self.start + self.len;
        self.bytes[..self.start] == self.before[..self.start]
            && self.bytes[end..] == self.before[end..]
    }
}

/// The word that guards a struct.
const MARK: u64 = 0xa5c3_5a3c_96f0_0f69;

/// A struct between guard words.
#[repr(C)]
pub struct Framed<T> {
    before: [u64; 8],
    pub inner: T,
    after: [u64; 8],
}

impl<T> Framed<T> {
    /// Puts a struct between guard words.
    pub fn new(inner: T) -> Framed<T> {
        Framed {
            before: [MARK; 8],
            inner,
            after: [!MARK; 8],
        }
    }

    /// Whether the guard words are as they were.
    pub fn has_guards(&self) -> bool {
        self.before == [MARK; 8] && self.after == [!MARK; 8]
    }
}
