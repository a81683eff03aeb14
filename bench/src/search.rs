//! Depth-first proof-number search for Atari Go.

use crate::board::{Board, Side, State};
use crate::table::{Key, Pair, Table, INF, MOST};

const MOVES: usize = 49;

#[derive(Clone, Copy, PartialEq, Eq, Debug)]
pub enum Answer {
    Verdict { yes: bool, best: u8, plays: u64 },
    OutOfBudget { plays: u64 },
}

struct OutOfBudget;

/// The pair as the side on turn sees it: its own number, of which it wants the least, and the other.
#[derive(Clone, Copy)]
struct Seen {
    own: u32,
    other: u32,
}

#[inline]
fn seen(side: Side, pair: Pair) -> Seen {
    match side {
        Side::Black => Seen { own: pair.pn, other: pair.dn },
        Side::White => Seen { own: pair.dn, other: pair.pn },
    }
}

#[inline]
fn unseen(side: Side, s: Seen) -> Pair {
    match side {
        Side::Black => Pair { pn: s.own, dn: s.other },
        Side::White => Pair { pn: s.other, dn: s.own },
    }
}

/// What the moves say of their line: its pair, the first move with the least own number, the least among the others.
struct Sight {
    pair: Seen,
    best: usize,
    second: u32,
}

#[inline]
fn sight(moves: &[Seen]) -> Sight {
    let (mut least, mut best, mut second) = (INF + 1, 0, INF);
    let (mut sum, mut endless) = (0u32, false);
    for (k, m) in moves.iter().enumerate() {
        if m.own < least {
            second = second.min(least);
            (least, best) = (m.own, k);
        } else {
            second = second.min(m.own);
        }
        endless |= m.other == INF;
        sum += m.other;
    }
    let other = if endless { INF } else { sum.min(MOST) };
    Sight { pair: Seen { own: least, other }, best, second }
}

/// The moves that a limit leaves; `None` without a limit.
type Left = Option<u8>;

#[inline]
fn key<const N: usize>(board: &Board<N>, left: Left) -> Key {
    let (a, b) = board.words();
    Key { a, b, context: u64::from(left.unwrap_or(0)) }
}

pub struct Search<const N: usize> {
    table: Table,
    floor: u8,
    plays: u64,
    budget: u64,
}

impl<const N: usize> Search<N> {
    pub fn new(slots: usize, floor: u8, budget: u64) -> Self {
        Search { table: Table::new(slots, floor), floor, plays: 0, budget }
    }

    #[inline]
    fn play(&mut self, board: &Board<N>, point: u8) -> Result<Board<N>, OutOfBudget> {
        if self.plays == self.budget {
            return Err(OutOfBudget);
        }
        self.plays += 1;
        Ok(board.after(u32::from(point)))
    }

    /// The verdict where the side on turn has lost: Black wins with 2 points, White with 0.
    #[inline]
    fn lost(&self, side: Side) -> bool {
        let score = match side {
            Side::Black => 0,
            Side::White => 2,
        };
        score >= self.floor
    }

    #[inline]
    fn judged(&self, board: &Board<N>, point: u8, left: Left) -> Pair {
        match board.state_after(u32::from(point)) {
            State::Lost => Pair::of(self.lost(board.side())),
            State::Open if left == Some(0) => Pair::of(self.drawn()),
            State::Open => self.table.probe(key(board, left)).unwrap_or(Pair::NEW),
        }
    }

    /// The verdict of a draw, which is 1 point.
    #[inline]
    fn drawn(&self) -> bool {
        1 >= self.floor
    }

    /// Works on a line under limits; gives its pair and the move of a verdict.
    fn expand(&mut self, board: &Board<N>, left: Left, limit: Pair) -> Result<(Pair, u8), OutOfBudget> {
        let side = board.side();
        let after = left.map(|n| n - 1);
        let limit = seen(side, limit);
        let mut points = [0u8; MOVES];
        let mut pairs = [Seen { own: 0, other: 0 }; MOVES];
        let mut count = 0;
        let mut legal = board.legal();
        while legal != 0 {
            let point = legal.trailing_zeros() as u8;
            legal &= legal - 1;
            let next = self.play(board, point)?;
            points[count] = point;
            pairs[count] = seen(side, self.judged(&next, point, after));
            count += 1;
        }
        loop {
            let now = sight(&pairs[..count]);
            let pair = unseen(side, now.pair);
            if now.pair.own >= limit.own || now.pair.other >= limit.other {
                self.table.record(key(board, left), pair);
                return Ok((pair, if now.pair.own == 0 { now.best as u8 } else { 255 }));
            }
            let own = limit.own.min((now.second + 1).min(INF));
            let other = match limit.other {
                INF => INF,
                n => n - now.pair.other + pairs[now.best].other,
            };
            let below = unseen(side, Seen { own, other });
            let result = match self.play(board, points[now.best]) {
                Ok(next) => self.expand(&next, after, below),
                Err(e) => Err(e),
            };
            match result {
                Ok((new, _)) => pairs[now.best] = seen(side, new),
                Err(e) => {
                    self.table.record(key(board, left), pair);
                    return Err(e);
                }
            }
        }
    }

    /// The verdict of a line that is over, or `None`.
    fn ended(&self, board: &Board<N>, state: State, left: Left) -> Option<bool> {
        match state {
            State::Lost => Some(self.lost(board.side())),
            State::Open if left == Some(0) => Some(self.drawn()),
            State::Open => None,
        }
    }

    pub fn solve(&mut self, board: &Board<N>, left: Left) -> Answer {
        self.plays = 0;
        if let Some(yes) = self.ended(board, board.state_if_living(), left) {
            return Answer::Verdict { yes, best: 255, plays: 0 };
        }
        match self.expand(board, left, Pair { pn: INF, dn: INF }) {
            Ok((pair, best)) => Answer::Verdict { yes: pair.pn == 0, best, plays: self.plays },
            Err(OutOfBudget) => Answer::OutOfBudget { plays: self.plays },
        }
    }

    /// Solves the line and writes its proof: the floor, the verdict, and the moves of the walk. `None` where the plays of
    /// the searches and of the walk together are more than the budget.
    pub fn write(&mut self, board: &Board<N>, left: Left) -> Option<Vec<u8>> {
        let Answer::Verdict { yes, best, .. } = self.solve(board, left) else {
            return None;
        };
        let mut proof = vec![self.floor, u8::from(yes)];
        let over = self.ended(board, board.state_if_living(), left).is_some();
        if over || self.walk(board, left, yes, best, &mut proof).is_ok() { Some(proof) } else { None }
    }

    /// Writes the walk from a line that is not over and plays it; `best` is the claiming side's move, where it is on turn.
    fn walk(&mut self, board: &Board<N>, left: Left, yes: bool, best: u8, proof: &mut Vec<u8>) -> Result<(), OutOfBudget> {
        let claims = yes == (board.side() == Side::Black);
        if claims {
            proof.push(best);
        }
        let mut legal = board.legal();
        for k in 0.. {
            if legal == 0 {
                break;
            }
            let point = legal.trailing_zeros() as u8;
            legal &= legal - 1;
            if claims && k != best {
                continue;
            }
            let next = self.play(board, point)?;
            let after = left.map(|n| n - 1);
            if self.ended(&next, next.state_after(u32::from(point)), after).is_some() {
                continue;
            }
            let best = if claims { 255 } else { self.expand(&next, after, Pair { pn: INF, dn: INF })?.1 };
            self.walk(&next, after, yes, best, proof)?;
        }
        Ok(())
    }

    /// Walks a proof and gives its plays; `None` where it does not hold.
    pub fn check(&mut self, board: &Board<N>, left: Left, proof: &[u8]) -> Option<u64> {
        let (&[floor, verdict], moves) = proof.split_first_chunk::<2>()?;
        if floor != self.floor || verdict > 1 {
            return None;
        }
        self.plays = 0;
        let rest = self.follow(board, board.state_if_living(), left, verdict == 1, moves)?;
        rest.is_empty().then_some(self.plays)
    }

    fn follow<'a>(&mut self, board: &Board<N>, state: State, left: Left, yes: bool, moves: &'a [u8]) -> Option<&'a [u8]> {
        if let Some(verdict) = self.ended(board, state, left) {
            return (verdict == yes).then_some(moves);
        }
        let claims = yes == (board.side() == Side::Black);
        let (chosen, mut rest) = match (claims, moves.split_first()) {
            (true, Some((&k, rest))) => (Some(k), rest),
            (true, None) => return None,
            (false, _) => (None, moves),
        };
        let (mut legal, mut found) = (board.legal(), !claims);
        for k in 0.. {
            if legal == 0 {
                break;
            }
            let point = legal.trailing_zeros();
            legal &= legal - 1;
            if chosen.is_some_and(|c| c != k) {
                continue;
            }
            found = true;
            let next = self.play(board, point as u8).ok()?;
            rest = self.follow(&next, next.state_after(point), left.map(|n| n - 1), yes, rest)?;
        }
        found.then_some(rest)
    }
}
