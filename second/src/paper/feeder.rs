//! Items that arrive in bits.
//!
//! Document 02, T-02.

use crate::paper::answer::Refusal;
use crate::paper::forms::{read_item, Item, ITEM_LENGTHS};

/// An item begins with its length field.
const LENGTH_BYTES: usize = 2;
pub const ROOM: usize = *ITEM_LENGTHS.end();

/// A feeder may be handed in with any values.
#[derive(Clone, Copy, Debug)]
pub struct Feeder {
    /// The first `count` are the bytes gathered of an unfinished item, and all
    /// of them if it is larger; what lies behind them means nothing.
    pub bytes: [u8; ROOM],
    pub count: u64,
    pub stopped: bool,
}

/// What a chunk has led to.
pub enum Fed<'a> {
    /// A well-formed item is complete: its bytes, which lie in the feeder, and
    /// what they say.
    Item(&'a [u8], Item<'a>),
    /// 1 or 15.
    Refused(Refusal),
    /// The chunk is used up, and no item is complete.
    UsedUp,
}

impl Feeder {
    pub const NEW: Feeder = Feeder {
        bytes: [0; ROOM],
        count: 0,
        stopped: false,
    };

    /// How many bytes of the chunk are used, and what they lead to.
    pub fn feed(&mut self, chunk: &[u8]) -> (usize, Fed<'_>) {
        if self.is_refused() {
            return (0, Fed::Refused(Refusal::FeederStopped));
        }
        let mut used = self.gather(chunk, LENGTH_BYTES);
        let Some(length) = self.length() else {
            return (used, Fed::UsedUp);
        };
        if !ITEM_LENGTHS.contains(&length) {
            self.count = 0;
            self.stopped = true;
            return (used, Fed::Refused(Refusal::ItemMalformed));
        }
        used += self.gather(&chunk[used..], length);
        if self.count < length as u64 {
            return (used, Fed::UsedUp);
        }
        self.count = 0;
        let bytes = &self.bytes[..length];
        match read_item(bytes) {
            Some(item) => (used, Fed::Item(bytes, item)),
            None => (used, Fed::Refused(Refusal::ItemMalformed)),
        }
    }

    /// Drops the unfinished item, and says how many bytes that was.
    pub fn reset(&mut self) -> u64 {
        let dropped = if self.is_refused() { 0 } else { self.count };
        *self = Feeder::NEW;
        dropped
    }

    /// Whether feeding would be 15.
    fn is_refused(&self) -> bool {
        let is_damage = |length| !ITEM_LENGTHS.contains(&length) || self.count >= length as u64;
        self.stopped || self.length().is_some_and(is_damage)
    }

    /// The length field, once both its bytes are gathered.
    pub fn length(&self) -> Option<usize> {
        let length = u16::from_be_bytes([self.bytes[0], self.bytes[1]]);
        (self.count >= LENGTH_BYTES as u64).then_some(length.into())
    }

    /// The bytes gathered.
    pub fn held(&self) -> &[u8] {
        &self.bytes[..self.count.min(ROOM as u64) as usize]
    }

    /// Takes bytes of the chunk until so many are gathered, or as many as it
    /// has; says how many it took.
    fn gather(&mut self, chunk: &[u8], end: usize) -> usize {
        let held = self.held().len();
        let taken = chunk.len().min(end.saturating_sub(held));
        // For so few bytes a loop takes less time than copy_from_slice.
        for (place, byte) in self.bytes[held..].iter_mut().zip(&chunk[..taken]) {
            *place = *byte;
        }
        self.count += taken as u64;
        taken
    }
}
