//! Decimals, which weights could be until they were retired: cards that have some, and what a run has tried of them.

use std::fmt;

use baseline::Refusal;

use crate::model::Model;
use crate::random::Random;
use crate::weights::{decimal, hundredths, spelled};

/// A card in two spellings of its weights, which mean the same.
pub struct Twins {
    /// With decimals, one at least.
    pub old: Model,
    /// Without.
    pub new: Model,
}

impl Twins {
    /// A card's twins. Where none of its weights could be a decimal, one of its statements gets others.
    pub fn new(model: &Model, random: &mut Random) -> Twins {
        let mut new = model.clone();
        let mut old = respelled(&new, random);
        if old.is_none() {
            let chosen = random.below(new.statements.len());
            let branches = &mut new.statements[chosen].branches;
            let weights = hundredths(branches.len(), random);
            for (branch, (units, weight)) in branches.iter_mut().zip(weights) {
                (branch.units, branch.weight) = (units, weight);
            }
        }
        loop {
            if let Some(old) = old {
                return Twins { old, new };
            }
            old = respelled(&new, random);
        }
    }
}

/// A card with some of its weights, or all that can be, as decimals; none if it came to none.
fn respelled(model: &Model, random: &mut Random) -> Option<Model> {
    let mut old = model.clone();
    let once_in = random.pick(&[1, 1, 2, 6]);
    let mut some = false;
    let branches = old.statements.iter_mut().flat_map(|one| &mut one.branches);
    for branch in branches {
        let decimal = decimal(branch.units, random);
        match decimal.filter(|_| random.once_in(once_in)) {
            Some(mark) => {
                branch.weight = vec![mark];
                some = true;
            }
            // In another spelling than its twin's, or the same.
            None => branch.weight = spelled(branch.units, random),
        }
    }
    some.then_some(old)
}

/// Where the first decimal of a card starts, whose marks are all inside the rules. What stands in a comment is none.
pub fn first_decimal(card: &[u8]) -> Option<usize> {
    let byte = |at: usize| card.get(at).copied().unwrap_or(0);
    let mut at = 0;
    while at < card.len() {
        let start = at;
        match (byte(at), byte(at + 1)) {
            (b'/', b'/') => {
                while at < card.len() && byte(at) != b'\n' {
                    at += 1;
                }
            }
            (b'0'..=b'9', _) => {
                while byte(at).is_ascii_digit() {
                    at += 1;
                }
                if byte(at) == b'.' && byte(at + 1).is_ascii_digit() {
                    return Some(start);
                }
            }
            (b'a'..=b'z' | b'A'..=b'Z', _) => {
                while byte(at).is_ascii_alphanumeric() || byte(at) == b'_' {
                    at += 1;
                }
            }
            _ => at += 1,
        }
    }
    None
}

/// What is counted about decimals.
#[derive(Clone, Copy, PartialEq, Eq, Debug)]
pub enum Met {
    /// Cards refused for one, which have nothing else wrong, nondeterministic.
    AloneChoosing,
    /// The same, probabilistic.
    AloneDrawing,
    /// The same with a shared number.
    AloneShared,
    /// Those with several decimals.
    AloneSeveral,
    /// Cards refused for one that was no good weight either.
    InSteadOf7,
    /// Cards refused for one that stands before a state that is wrong.
    Before5,
    /// The same before a word or a group.
    Before6,
    /// The same before another weight, or a sum.
    Before7,
    /// Cards refused for a state before one.
    Behind5,
    /// The same for a word or a group.
    Behind6,
    /// The same for another weight, or a sum.
    Behind7,
    /// Cards with one that are refused for a mark.
    With2,
    /// The same for their shape.
    With3,
    /// The same for a limit.
    With4,
    /// Cards taken with something like one in a comment.
    InComment,
}

impl Met {
    /// All of them, with how often each has to come in a whole run.
    pub const LEAST: [(Met, u64); 15] = [
        (Met::AloneChoosing, 1_500),
        (Met::AloneDrawing, 1_500),
        (Met::AloneShared, 1_200),
        (Met::AloneSeveral, 2_000),
        (Met::InSteadOf7, 300),
        (Met::Before5, 100),
        (Met::Before6, 100),
        (Met::Before7, 100),
        (Met::Behind5, 100),
        (Met::Behind6, 100),
        (Met::Behind7, 40),
        (Met::With2, 300),
        (Met::With3, 1_000),
        (Met::With4, 200),
        (Met::InComment, 1_500),
    ];
}

/// What a run has tried of decimals.
#[derive(Default)]
pub struct DecimalTally([u64; Met::LEAST.len()]);

impl DecimalTally {
    fn count(&mut self, met: Met, came: bool) {
        let place = Met::LEAST.iter().position(|(other, _)| *other == met);
        self.0[place.expect("all have a least")] += u64::from(came);
    }

    /// Counts a card by what it is judged.
    pub fn card(&mut self, card: &[u8], judged: Result<(), Refusal>) {
        let Err(Refusal { number, place }) = judged else {
            let comments = card.split(|byte| *byte == b'\n').filter_map(|line| {
                let start = line.windows(2).position(|pair| pair == b"//")?;
                Some(&line[start..])
            });
            let in_comment = |comment: &[u8]| {
                let mut triples = comment.windows(3);
                triples.any(|triple| {
                    triple[0].is_ascii_digit() && triple[1] == b'.' && triple[2].is_ascii_digit()
                })
            };
            self.count(Met::InComment, comments.into_iter().any(in_comment));
            return;
        };
        // Where a mark is outside the rules, marks are told apart up to there.
        let marks = if number == 2 { &card[..place] } else { card };
        let decimal = match number {
            1 => None,
            _ => first_decimal(marks),
        };
        let Some(decimal) = decimal else {
            return;
        };
        let met = match (number, baseline::judge_old(card)) {
            (2, _) => Met::With2,
            (3, _) => Met::With3,
            (4, _) => Met::With4,
            (5, _) => Met::Behind5,
            (6, _) => Met::Behind6,
            (7, _) => Met::Behind7,
            (_, Ok(read)) => {
                self.count(Met::AloneShared, read.shared().is_some());
                let behind = card[decimal..].iter().position(|byte| *byte == b':');
                let behind = behind.map(|colon| &card[decimal + colon..]);
                self.count(
                    Met::AloneSeveral,
                    behind.is_some_and(|rest| first_decimal(rest).is_some()),
                );
                match read.mode() {
                    baseline::Mode::Nondeterministic => Met::AloneChoosing,
                    baseline::Mode::Probabilistic => Met::AloneDrawing,
                }
            }
            (_, Err(old)) if old.place == decimal => Met::InSteadOf7,
            (_, Err(old)) => match old.number {
                5 => Met::Before5,
                6 => Met::Before6,
                _ => Met::Before7,
            },
        };
        self.count(met, true);
    }

    /// Adds what another has tried.
    pub fn add(&mut self, other: &DecimalTally) {
        for (mine, other) in self.0.iter_mut().zip(other.0) {
            *mine += other;
        }
    }

    /// What was tried too seldom, by a function that is told what, how often, and how often at least.
    pub fn shortfalls(&self, least: &mut impl FnMut(&str, u64, u64)) {
        for ((met, due), count) in Met::LEAST.iter().zip(self.0) {
            least(&format!("decimals, {met:?}"), count, *due);
        }
    }
}

impl fmt::Display for DecimalTally {
    fn fmt(&self, f: &mut fmt::Formatter<'_>) -> fmt::Result {
        write!(f, "decimals   ")?;
        let mut met = Met::LEAST.iter().zip(self.0);
        met.try_for_each(|((met, _), count)| write!(f, " {met:?} {count}"))
    }
}
