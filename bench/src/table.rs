//! The direct-mapped table.

pub const INF: u32 = 1_048_576;
pub const MOST: u32 = INF - 1;

/// A proof and a disproof number.
#[derive(Clone, Copy, PartialEq, Eq, Debug)]
pub struct Pair {
    pub pn: u32,
    pub dn: u32,
}

impl Pair {
    pub const YES: Pair = Pair { pn: 0, dn: INF };
    pub const NO: Pair = Pair { pn: INF, dn: 0 };
    pub const NEW: Pair = Pair { pn: 1, dn: 1 };

    #[inline]
    pub fn of(yes: bool) -> Pair {
        if yes { Pair::YES } else { Pair::NO }
    }
}

/// A line's key: the position words and the context word, which is the moves left under a limit and else 0.
#[derive(Clone, Copy)]
pub struct Key {
    pub a: u64,
    pub b: u64,
    pub context: u64,
}

impl Key {
    /// The second position word has 50 bits, so that the context word, below 2^8, fits above it.
    #[inline]
    fn words(self) -> (u64, u64) {
        (self.a, self.b | self.context << 56)
    }
}

/// A slot; it is empty where both numbers are 0, which no line has.
#[derive(Clone, Copy)]
struct Slot {
    words: (u64, u64),
    pair: Pair,
}

/// One table serves one floor. In Atari Go, with or without a limit, every line is path-independent, so a verdict needs no more than its pair.
pub struct Table {
    slots: Vec<Slot>,
    floor: u64,
}

impl Table {
    pub fn new(slots: usize, floor: u8) -> Self {
        let empty = Slot { words: (0, 0), pair: Pair { pn: 0, dn: 0 } };
        Table { slots: vec![empty; slots], floor: u64::from(floor) }
    }

    #[inline]
    fn slot(&self, key: Key) -> usize {
        let hash = key.a ^ key.b.rotate_left(21) ^ key.context.rotate_left(43) ^ self.floor;
        (hash % self.slots.len() as u64) as usize
    }

    #[inline]
    pub fn probe(&self, key: Key) -> Option<Pair> {
        if self.slots.is_empty() {
            return None;
        }
        let slot = &self.slots[self.slot(key)];
        (slot.words == key.words() && slot.pair != Pair { pn: 0, dn: 0 }).then_some(slot.pair)
    }

    #[inline]
    pub fn record(&mut self, key: Key, pair: Pair) {
        if !self.slots.is_empty() {
            let slot = self.slot(key);
            self.slots[slot] = Slot { words: key.words(), pair };
        }
    }
}
