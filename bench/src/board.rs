//! Atari Go on bitboards: point p of an N by N board is bit p.

#[derive(Clone, Copy, PartialEq, Eq, Debug)]
pub enum Side {
    Black,
    White,
}

/// A position: the stones of the side on turn and of the other side.
#[derive(Clone, Copy, Debug)]
pub struct Board<const N: usize> {
    own: u64,
    enemy: u64,
    side: Side,
}

/// How a position goes on: the side on turn has lost, or it has moves.
#[derive(Clone, Copy, PartialEq, Eq, Debug)]
pub enum State {
    Lost,
    Open,
}

impl<const N: usize> Board<N> {
    const ALL: u64 = (1 << (N * N)) - 1;

    /// All points but those of the first column.
    const NOT_FIRST: u64 = {
        let mut mask = Self::ALL;
        let mut row = 0;
        while row < N {
            mask &= !(1 << (row * N));
            row += 1;
        }
        mask
    };

    const NOT_LAST: u64 = Self::NOT_FIRST >> 1;

    /// The position of a text such as `G3:B:WB.......`; the caller has seen to its size.
    pub fn read(text: &str) -> Option<Self> {
        let rest = text.strip_prefix(&format!("G{N}:"))?;
        let (side, stones) = rest.split_once(':')?;
        let (mut black, mut white) = (0, 0);
        if stones.len() != N * N {
            return None;
        }
        for (p, stone) in stones.bytes().enumerate() {
            match stone {
                b'B' => black |= 1 << p,
                b'W' => white |= 1 << p,
                b'.' => {}
                _ => return None,
            }
        }
        let board = match side {
            "B" => Board { own: black, enemy: white, side: Side::Black },
            "W" => Board { own: white, enemy: black, side: Side::White },
            _ => return None,
        };
        (board.living(black) == black && board.living(white) == white).then_some(board)
    }

    #[inline]
    pub fn side(&self) -> Side {
        self.side
    }

    #[inline]
    fn free(&self) -> u64 {
        Self::ALL & !(self.own | self.enemy)
    }

    /// The points beside those of a set.
    #[inline]
    fn around(set: u64) -> u64 {
        (set << N & Self::ALL) | set >> N | (set & Self::NOT_LAST) << 1 | (set & Self::NOT_FIRST) >> 1
    }

    /// The stones that are joined with the first one.
    #[inline]
    fn flood(seed: u64, stones: u64) -> u64 {
        let mut group = seed & stones;
        loop {
            let next = group | (Self::around(group) & stones);
            if next == group {
                return group;
            }
            group = next;
        }
    }

    /// The stones of groups that have a liberty.
    #[inline]
    fn living(&self, stones: u64) -> u64 {
        Self::flood(Self::around(self.free()), stones)
    }

    /// The position after a legal move at the point.
    #[inline]
    pub fn after(&self, point: u32) -> Self {
        Board {
            own: self.enemy,
            enemy: self.own | 1 << point,
            side: match self.side {
                Side::Black => Side::White,
                Side::White => Side::Black,
            },
        }
    }

    /// How the position goes on, given the point of the move that led to it: only groups beside it can be without liberty.
    #[inline]
    pub fn state_after(&self, point: u32) -> State {
        let beside = Self::around(1 << point) & self.own;
        let touching = Self::around(self.free());
        if beside & !touching != 0 && beside & !Self::flood(touching, self.own) != 0 {
            return State::Lost;
        }
        self.state_if_living()
    }

    /// How a position without lost groups goes on.
    #[inline]
    pub fn state_if_living(&self) -> State {
        let free = self.free();
        if free & Self::around(free) != 0 || self.legal() != 0 {
            State::Open
        } else {
            State::Lost
        }
    }

    /// The legal points, where no group is lost. A free point beside a free point is legal; the others are looked at.
    #[inline]
    pub fn legal(&self) -> u64 {
        let free = self.free();
        let mut legal = free & Self::around(free);
        let mut rest = free & !legal;
        while rest != 0 {
            let p = rest & rest.wrapping_neg();
            rest ^= p;
            if self.leaves_liberty(p, free) || self.takes(p, free) {
                legal |= p;
            }
        }
        legal
    }

    fn leaves_liberty(&self, p: u64, free: u64) -> bool {
        Self::around(Self::flood(p, self.own | p)) & free & !p != 0
    }

    fn takes(&self, p: u64, free: u64) -> bool {
        let mut beside = Self::around(p) & self.enemy;
        while beside != 0 {
            let group = Self::flood(beside & beside.wrapping_neg(), self.enemy);
            if Self::around(group) & free == p {
                return true;
            }
            beside &= !group;
        }
        false
    }

    /// The position words.
    #[inline]
    pub fn words(&self) -> (u64, u64) {
        match self.side {
            Side::Black => (self.own, self.enemy),
            Side::White => (self.enemy, self.own | 1 << 49),
        }
    }
}
