//! A hand-written df-pn for Atari Go, to measure the verified search against: the same definition, the same counts.
//!
//!     baseline POSITION [FLOOR [SLOTS [BUDGET [LIMIT [card]]]]]
//!
//! LIMIT is `-` for none. With `card` the proof is written as well, and checked twice, which is what `cards` does for a card.
mod board;
mod search;
mod table;

use board::Board;
use search::{Answer, Search};
use std::time::Instant;

struct Task {
    position: String,
    floor: u8,
    slots: usize,
    budget: u64,
    limit: Option<u8>,
    card: bool,
}

/// What solving answered and, for a whole card, the length of its proof and the plays of its check.
struct Outcome {
    answer: Answer,
    proof: Option<(usize, u64)>,
}

fn solved<const N: usize>(task: &Task) -> Option<Outcome> {
    let board = Board::<N>::read(&task.position)?;
    let mut search = Search::new(task.slots, task.floor, task.budget);
    let answer = search.solve(&board, task.limit);
    let mut proof = None;
    if task.card {
        if let Some(bytes) = search.write(&board, task.limit) {
            let plays = search.check(&board, task.limit, &bytes)?;
            let again = search.check(&board, task.limit, &bytes)?;
            proof = (plays == again).then_some((bytes.len(), plays));
        }
    }
    Some(Outcome { answer, proof })
}

fn outcome(task: &Task) -> Option<Outcome> {
    match task.position.as_bytes().get(1)? {
        b'3' => solved::<3>(task),
        b'4' => solved::<4>(task),
        b'5' => solved::<5>(task),
        b'6' => solved::<6>(task),
        b'7' => solved::<7>(task),
        _ => None,
    }
}

fn task_of(mut words: impl Iterator<Item = String>) -> Option<Task> {
    let position = words.next()?;
    let floor = words.next().map_or(Some(2), |w| w.parse().ok())?;
    let slots = words.next().map_or(Some(65536), |w| w.parse().ok())?;
    let budget = words.next().map_or(Some(u64::MAX), |w| w.parse().ok())?;
    let limit = match words.next().as_deref() {
        None | Some("-") => None,
        Some(word) => Some(word.parse::<u32>().ok()?.min(96) as u8),
    };
    let card = words.next().as_deref() == Some("card");
    (floor == 1 || floor == 2).then_some(Task { position, floor, slots, budget, limit, card })
}

fn main() {
    let Some(task) = task_of(std::env::args().skip(1)) else {
        eprintln!("baseline POSITION [FLOOR [SLOTS [BUDGET [LIMIT [card]]]]]");
        std::process::exit(2);
    };
    let start = Instant::now();
    let Some(Outcome { answer, proof }) = outcome(&task) else {
        eprintln!("no such position: {}", task.position);
        std::process::exit(1);
    };
    let seconds = start.elapsed().as_secs_f64();
    let plays = match answer {
        Answer::Verdict { yes, best, plays } => {
            println!("{} {best} {plays}", if yes { "yes" } else { "no" });
            plays
        }
        Answer::OutOfBudget { plays } => {
            println!("out-of-budget {plays}");
            plays
        }
    };
    if let Some((length, plays)) = proof {
        println!("proof {length} {plays}");
    }
    println!("seconds {seconds:.3}, plays a second {:.0}", plays as f64 / seconds.max(1e-9));
}

#[cfg(test)]
mod tests {
    use super::*;

    fn asked(position: &str, floor: u8, slots: usize, limit: Option<u8>) -> Outcome {
        let position = position.to_string();
        outcome(&Task { position, floor, slots, budget: u64::MAX, limit, card: true }).unwrap()
    }

    #[test]
    fn worked_example() {
        let found = asked("G3:B:WB.......", 2, 64, None);
        assert_eq!(found.answer, Answer::Verdict { yes: true, best: 1, plays: 7 });
        assert_eq!(found.proof, Some((3, 1)));
    }

    #[test]
    fn drawn_by_the_limit() {
        let found = asked("G3:B:.........", 1, 64, Some(0));
        assert_eq!(found.answer, Answer::Verdict { yes: true, best: 255, plays: 0 });
        assert_eq!(found.proof, Some((2, 0)));
    }

    #[test]
    fn four_by_four() {
        let found = asked("G4:B:................", 2, 1_000_003, None);
        assert_eq!(found.answer, Answer::Verdict { yes: false, best: 255, plays: 3_810_233 });
    }
}
