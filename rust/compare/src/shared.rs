//! The number that all seats share: cards that use it wrongly, each in one way,
//! and what a run has tried of it.

use std::fmt;

use crate::cards::limits::{DEPTH, NODES, SHARED_TOP};
use crate::cards::{card, Guards, Leaves, Size};
use crate::marks::Mark;
use crate::model::{Expression, Model, Unary};
use crate::random::Random;

/// How a card uses the shared number wrongly.
#[derive(Clone, Copy, PartialEq, Eq, Debug)]
pub enum Misuse {
    /// Its top is above the highest that there may be.
    TopAbove,
    /// It starts above its top.
    StartAbove,
    /// A test names a value above its top.
    TestAbove,
    /// A branch sets it to a value above its top.
    UpdateAbove,
    /// It is not declared.
    Undeclared,
    /// It is declared twice.
    DeclaredTwice,
    /// It is declared elsewhere than behind the mode.
    DeclaredElsewhere,
    /// It is declared under another name.
    OtherNameDeclared,
    /// A test names something else.
    OtherNameTested,
    /// An update names something else.
    OtherNameUpdated,
    /// A test is joined with a literal in one bracket.
    TestInGroup,
    /// A test has the `'` of an update.
    TestPrimed,
    /// A test is one node too many.
    TestPastNodes,
    /// A test stands in one bracket or `!` too many.
    TestPastDepth,
    /// A branch sets it twice.
    UpdateTwice,
    /// It is set before the seat.
    UpdateFirst,
    /// A branch sets it and no seat.
    UpdateAlone,
    /// An update lacks its `'`.
    UpdateUnprimed,
    /// An update says `!=`.
    UpdateDiffers,
    /// An update is joined by another sign.
    UpdateJoined,
}

impl Misuse {
    /// All of them.
    pub const ALL: [Misuse; 20] = [
        Misuse::TopAbove,
        Misuse::StartAbove,
        Misuse::TestAbove,
        Misuse::UpdateAbove,
        Misuse::Undeclared,
        Misuse::DeclaredTwice,
        Misuse::DeclaredElsewhere,
        Misuse::OtherNameDeclared,
        Misuse::OtherNameTested,
        Misuse::OtherNameUpdated,
        Misuse::TestInGroup,
        Misuse::TestPrimed,
        Misuse::TestPastNodes,
        Misuse::TestPastDepth,
        Misuse::UpdateTwice,
        Misuse::UpdateFirst,
        Misuse::UpdateAlone,
        Misuse::UpdateUnprimed,
        Misuse::UpdateDiffers,
        Misuse::UpdateJoined,
    ];

    /// The number that it is refused with.
    pub fn refusal(self) -> u8 {
        match self {
            Misuse::TopAbove | Misuse::TestPastNodes | Misuse::TestPastDepth => 4,
            Misuse::StartAbove | Misuse::TestAbove | Misuse::UpdateAbove => 5,
            _ => 3,
        }
    }

    /// A card with nothing else wrong: as it was made before, and the marks of it as it is.
    pub fn card(self, random: &mut Random) -> (Model, Vec<Mark>) {
        let size = Size {
            seats: random.between(1, 8),
            shared: Some(random.between(0, SHARED_TOP)),
            statements: 2,
            branches: 3,
            nodes: 5,
            ..Size::any(random)
        };
        let mut model = used(size, random);
        let chosen = random.below(model.statements.len());
        let guard = &mut model.statements[chosen].guard;
        let mut guards = Guards {
            size,
            leaves: Leaves::Guard { own: 0 },
            random,
        };
        match self {
            Misuse::TestPastNodes => {
                // With the sign before it, the test is one node more than there may be.
                *guard = guards.row_of_exactly(NODES - 1);
                guard.push(guards.shared_test(0));
            }
            Misuse::TestPastDepth => {
                let test = guards.shared_test(0);
                let deep = (0..=DEPTH).fold(test, |unary, _| match random.once_in(2) {
                    true => Unary::Not(Box::new(unary)),
                    false => Unary::Bracket(Expression(vec![vec![unary]])),
                });
                guard.insert(0, deep);
            }
            _ => {}
        }
        let mut marks = model.marks();
        self.inflict(&mut marks, random);
        (model, marks)
    }

    fn inflict(self, marks: &mut Vec<Mark>, random: &mut Random) {
        let top = marks[TOP_PLACE].value();
        let declared = DECLARATION.start + 1;
        let any = |role: Role, random: &mut Random| {
            let places: Vec<usize> = (1..marks.len() - 1)
                .filter(|&place| Role::of(marks, place) == Some(role))
                .collect();
            random.pick(&places)
        };
        let (test, update) = (any(Role::Tested, random), any(Role::Updated, random));
        match self {
            Misuse::TopAbove => {
                let above = random.pick(&[8, 8, 8, 9, 16, 256, 65_536, 262_144, 999_999]);
                marks[TOP_PLACE] = Mark::number(above);
            }
            Misuse::StartAbove => marks[TOP_PLACE + 3] = above(top, random),
            Misuse::TestAbove => marks[test + 2] = above(top, random),
            Misuse::UpdateAbove => marks[update + 3] = above(top, random),
            Misuse::Undeclared => drop(marks.drain(DECLARATION)),
            Misuse::DeclaredTwice => {
                let again = marks[DECLARATION].to_vec();
                marks.splice(DECLARATION.end..DECLARATION.end, again);
            }
            Misuse::DeclaredElsewhere => {
                let declaration: Vec<Mark> = marks.drain(DECLARATION).collect();
                let place = match random.below(marks.len()) {
                    0 => 0,
                    place => place + 1,
                };
                marks.splice(place..place, declaration);
            }
            Misuse::OtherNameDeclared => marks[declared] = other_name(random),
            Misuse::OtherNameTested => marks[test] = other_name(random),
            Misuse::OtherNameUpdated => marks[update] = other_name(random),
            Misuse::TestInGroup => {
                let sign = random.pick(&["&", "|"]);
                let (place, literal) = match random.below(3) {
                    0 => (test + 3, [sign, "s1", "=", "0"]),
                    1 => (test + 3, [sign, "g", "!=", "0"]),
                    _ => (test, ["s1", "=", "0", sign]),
                };
                let literal = literal.map(|mark| Mark::new(mark.as_bytes()));
                marks.splice(place..place, literal);
            }
            Misuse::TestPrimed => marks.insert(test + 1, Mark::new(b"'")),
            Misuse::TestPastNodes | Misuse::TestPastDepth => {}
            Misuse::UpdateTwice => {
                let again = marks[update - 2..update + 5].to_vec();
                marks.splice(update + 5..update + 5, again);
            }
            // `( s1 ' = t ) & ( g ' = v )`: six marks, the sign, and six more, of which the name is the second.
            Misuse::UpdateFirst => {
                let (seat, shared) = (update - 8..update - 2, update - 1..update + 5);
                let turned =
                    [&marks[shared], &marks[update - 2..update - 1], &marks[seat]].concat();
                marks.splice(update - 8..update + 5, turned);
            }
            Misuse::UpdateAlone => drop(marks.drain(update - 8..update - 1)),
            Misuse::UpdateUnprimed => drop(marks.remove(update + 1)),
            Misuse::UpdateDiffers => marks[update + 2] = Mark::new(b"!="),
            Misuse::UpdateJoined => {
                let sign = random.pick(&["|", "+", ",", ";", ")"]);
                marks[update - 2] = Mark::new(sign.as_bytes());
            }
        }
    }
}

/// Where the declaration stands among a card's marks, and its top.
const DECLARATION: std::ops::Range<usize> = 1..12;
const TOP_PLACE: usize = 7;

/// A valid card that tests the shared number and sets it.
fn used(size: Size, random: &mut Random) -> Model {
    let mut model = card(size, random);
    let top = size.shared.unwrap_or(0);
    let (tests, updates) = (
        random.below(model.statements.len()),
        random.below(model.statements.len()),
    );
    let own = model.statements[tests].own;
    let value = random.between(0, top);
    let test = Guards {
        size,
        leaves: Leaves::Guard { own },
        random,
    }
    .shared_test(value);
    model.statements[tests].guard.push(test);
    let branches = &mut model.statements[updates].branches;
    let branch = random.below(branches.len());
    branches[branch].shared = Some(random.between(0, top));
    model
}

/// What the shared number's name stands for at a place.
#[derive(Clone, Copy, PartialEq, Eq)]
enum Role {
    Tested,
    Updated,
}

impl Role {
    fn of(marks: &[Mark], place: usize) -> Option<Role> {
        if marks[place].bytes() != b"g" {
            return None;
        }
        match (marks[place - 1].bytes(), marks[place + 1].bytes()) {
            (b"(", b"=" | b"!=") => Some(Role::Tested),
            (b"(", b"'") => Some(Role::Updated),
            _ => None,
        }
    }
}

/// A value above a top; the low bits of some would be one that is not.
fn above(top: usize, random: &mut Random) -> Mark {
    let over = random.pick(&[1, 1, 1, 1, 2, 9]);
    Mark::number(match random.once_in(4) {
        true => random.pick(&[256, 65_536, 131_072, 262_144, 999_999]),
        false => top + over,
    })
}

fn other_name(random: &mut Random) -> Mark {
    let names = [
        "h", "G", "gg", "g1", "g_", "global", "x", "init", "process1", "s", "true",
    ];
    Mark::new(random.pick(&names).as_bytes())
}

/// What is counted about the shared number.
#[derive(Clone, Copy, PartialEq, Eq, Debug)]
pub enum Tried {
    /// Accepted cards that have it, nondeterministic.
    Nondeterministic,
    /// The same, probabilistic.
    Probabilistic,
    /// Accepted cards that test it.
    Tested,
    /// Accepted cards that set it.
    Set,
    /// Accepted cards with a branch that sets it and leaves the seat where it is.
    SetAlone,
    /// Accepted cards that declare it and do nothing with it.
    Unused,
    /// Written cards that are read again.
    Reread,
    /// Panels of reordered seats.
    Reordered,
    /// Small tables with all their seatings and values.
    Small,
    /// Small tables where somebody can move at one value and nobody at another.
    Wakes,
    /// Panels with several stay lines under one head.
    Stays,
    /// Panels with several lines of one move, which differ in the value behind it.
    Moves,
    /// Panels on which it changes.
    Changes,
    /// Stuck tables, nondeterministic.
    StuckChoosing,
    /// Stuck tables, probabilistic.
    StuckDrawing,
    /// Seatings that lack its byte.
    Lacking,
    /// Seatings with a byte more than that.
    Exceeding,
    /// Seatings with a value above its top, all seats being right.
    ValueAbove,
    /// Seatings with a wrong seat, on cards that have it.
    SeatAbove,
    /// Seatings that have its byte, on cards that have it not.
    Superfluous,
    /// Questions that test it, answered with yes.
    Yes,
    /// The same with no.
    No,
    /// The same, held to the seats.
    AskedBySeats,
    /// Spectators that see the same at another value.
    Watched,
    /// First moves where it is, and the same at another value or not.
    FirstMoves,
    /// First moves that are others at another value.
    OtherFirstMoves,
    /// Odds, nondeterministic.
    OddsChoosing,
    /// Odds, probabilistic.
    OddsDrawing,
    /// Odds neither none nor certain.
    OddsBetween,
    /// Odds of a question that tests it, neither none nor certain.
    OddsTested,
    /// Odds over 400 pairs and more.
    ManyPairs,
    /// 14 where the vectors alone were few enough.
    TooManyPairs,
    /// Odds of small tables by seats told apart.
    ToldApart,
    /// Live cards with it that are kept when a deck is mended.
    Kept,
    /// Live cards with it that are dropped for their card.
    Dropped,
}

impl Tried {
    /// All of them, with how often each has to come in a whole run.
    pub const LEAST: [(Tried, u64); 35] = [
        (Tried::Nondeterministic, 4_000),
        (Tried::Probabilistic, 4_000),
        (Tried::Tested, 5_000),
        (Tried::Set, 7_000),
        (Tried::SetAlone, 4_000),
        (Tried::Unused, 500),
        (Tried::Reread, 8_000),
        (Tried::Reordered, 7_000),
        (Tried::Small, 300),
        (Tried::Wakes, 60),
        (Tried::Stays, 600),
        (Tried::Moves, 450),
        (Tried::Changes, 1_500),
        (Tried::StuckChoosing, 2_000),
        (Tried::StuckDrawing, 2_000),
        (Tried::Lacking, 120),
        (Tried::Exceeding, 120),
        (Tried::ValueAbove, 200),
        (Tried::SeatAbove, 300),
        (Tried::Superfluous, 240),
        (Tried::Yes, 1_700),
        (Tried::No, 1_400),
        (Tried::AskedBySeats, 10_000),
        (Tried::Watched, 15_000),
        (Tried::FirstMoves, 30_000),
        (Tried::OtherFirstMoves, 1_500),
        (Tried::OddsChoosing, 1_800),
        (Tried::OddsDrawing, 1_800),
        (Tried::OddsBetween, 900),
        (Tried::OddsTested, 400),
        (Tried::ManyPairs, 800),
        (Tried::TooManyPairs, 800),
        (Tried::ToldApart, 1_200),
        (Tried::Kept, 9_000),
        (Tried::Dropped, 2_000),
    ];
}

/// Accepted cards with each of its tops.
const EACH_TOP: u64 = 800;
/// Cards with each misuse, refused as they have to be.
const EACH_MISUSE: u64 = 100;

/// What a run has tried of the shared number.
pub struct SharedTally {
    tried: [u64; Tried::LEAST.len()],
    tops: [u64; SHARED_TOP + 1],
    misused: [u64; Misuse::ALL.len()],
}

impl Default for SharedTally {
    fn default() -> Self {
        SharedTally {
            tried: [0; Tried::LEAST.len()],
            tops: [0; SHARED_TOP + 1],
            misused: [0; Misuse::ALL.len()],
        }
    }
}

impl SharedTally {
    /// Counts something, if it came.
    pub fn count(&mut self, tried: Tried, came: bool) {
        let place = Tried::LEAST.iter().position(|(other, _)| *other == tried);
        self.tried[place.expect("all have a least")] += u64::from(came);
    }

    /// Counts an accepted card with this top.
    pub fn top(&mut self, top: u8) {
        self.tops[usize::from(top)] += 1;
    }

    /// Counts a card with this misuse that was refused for it.
    pub fn misused(&mut self, misuse: Misuse) {
        let place = Misuse::ALL.iter().position(|other| *other == misuse);
        self.misused[place.expect("all are there")] += 1;
    }

    /// Adds what another has tried.
    pub fn add(&mut self, other: &SharedTally) {
        let pairs = [
            (&mut self.tried[..], &other.tried[..]),
            (&mut self.tops, &other.tops),
            (&mut self.misused, &other.misused),
        ];
        for (mine, others) in pairs {
            for (mine, other) in mine.iter_mut().zip(others) {
                *mine += other;
            }
        }
    }

    /// What was tried too seldom, by a function that is told what, how often, and how often at least.
    pub fn shortfalls(&self, least: &mut impl FnMut(&str, u64, u64)) {
        for ((tried, due), count) in Tried::LEAST.iter().zip(self.tried) {
            least(&format!("shared number, {tried:?}"), count, *due);
        }
        for (top, count) in self.tops.iter().enumerate() {
            least(&format!("shared number up to {top}"), *count, EACH_TOP);
        }
        for (misuse, count) in Misuse::ALL.iter().zip(self.misused) {
            least(&format!("shared number, {misuse:?}"), count, EACH_MISUSE);
        }
    }
}

impl fmt::Display for SharedTally {
    fn fmt(&self, f: &mut fmt::Formatter<'_>) -> fmt::Result {
        write!(f, "shared number")?;
        let mut tried = Tried::LEAST.iter().zip(self.tried);
        tried.try_for_each(|((tried, _), count)| write!(f, " {tried:?} {count}"))?;
        write!(f, "\nshared number by top")?;
        self.tops
            .iter()
            .try_for_each(|count| write!(f, " {count}"))?;
        write!(f, "; refused")?;
        let mut misused = Misuse::ALL.iter().zip(self.misused);
        misused
            .try_for_each(|(misuse, count)| write!(f, " {misuse:?} ({}) {count}", misuse.refusal()))
    }
}
