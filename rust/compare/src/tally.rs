//! What a run has tried, and what it must have tried at least.

use std::fmt;

use baseline::{Card, Mode, Node, Refusal};

use crate::cards::limits::SEATS;
use crate::check::Entry;
use crate::converting::ConvertTally;
use crate::decimals::DecimalTally;
use crate::deck_check::DeckTally;
use crate::first_moves::FirstMoveTally;
use crate::inputs::{Input, Kind};
use crate::mending::MendTally;
use crate::odds::OddsTally;
use crate::questions::{self, Question};
use crate::shared::{SharedTally, Tried};
use crate::spectators::SpectatorTally;
use crate::tidying::TidyTally;
use crate::weights::BEFORE_ELEVENTHS;

/// Inputs of a run that the minima below are for.
pub const INPUTS: u64 = 100_000;
/// Times that each refusal is given.
const EACH_REFUSAL: u64 = 500;
/// Times that each place of the table stands on an accepted card, in each mode.
const EACH_PLACE: u64 = 1_000;
/// Rooms of each entry in which one walk is enough, and long ones in which it measures first.
const EACH_LONG_ROOM: u64 = 5_000;
/// Written cards that are read again.
const REREAD: u64 = 30_000;
/// Panels of reordered seats.
const REORDERED: u64 = 30_000;
/// Small tables of which every seating is tried.
const SMALL: u64 = 1_500;
/// Cards whose written form is too long for a card.
const TOO_LONG_WRITTEN: u64 = 20;

/// Stuck tables, in each mode.
const STUCK: u64 = 5_000;
/// Questions answered with yes, and with no.
const EACH_ANSWER: u64 = 10_000;
/// Questions given each of their refusals.
const EACH_QUESTION_REFUSAL: u64 = 1_000;
/// Good questions about seats that are refused, for each of the two reasons.
const QUESTION_BEFORE_SEATS: u64 = 500;
/// Questions of each kind that is made for one end, that came to it.
const EACH_QUESTION_KIND: u64 = 500;
/// Questions with an exactly-one that are answered with yes, and with no.
const EXACTLY_ONES: u64 = 3_000;
/// Questions answered for tables of each number of seats.
const QUESTIONS_AT_EACH_SIZE: u64 = 400;
/// Questions held to the seats, and asked again of reordered seats.
const BY_SEATS: u64 = 20_000;

/// Accepted cards with elevenths, in each mode.
const ELEVENTHS: u64 = 3_000;
/// Accepted cards with a number of six digits in a weight.
const SIX_DIGITS: u64 = 1_000;
/// Refusals at each of [`DIGITS`].
const EACH_DIGITS: u64 = 50;

/// What stands where something is refused, and with which number: as many digits as there may be, and one more.
const DIGITS: [(&str, u8); 9] = [
    ("six digits", 4),
    ("six digits", 5),
    ("six digits", 7),
    ("seven digits", 2),
    ("six further digits", 17),
    ("seven further digits", 2),
    ("a word with six digits", 3),
    ("six digits", 25),
    ("seven digits", 22),
];

/// Which of [`DIGITS`] stands at the place of a refusal.
fn digits_at(text: &[u8], refusal: &Refusal) -> Option<usize> {
    let rest = text.get(refusal.place..)?;
    let digits = |from: usize| rest[from..].iter().take_while(|byte| byte.is_ascii_digit());
    let letters = rest.iter().take_while(|byte| byte.is_ascii_alphabetic());
    let (letters, whole) = (letters.count(), digits(0).count());
    let what = if letters > 0 {
        (digits(letters).count() == 6).then_some("a word with six digits")?
    } else if rest.get(whole) == Some(&b'.') {
        match digits(whole + 1).count() {
            6 => "six further digits",
            7 => "seven further digits",
            _ => return None,
        }
    } else {
        match whole {
            6 => "six digits",
            7 => "seven digits",
            _ => return None,
        }
    };
    DIGITS
        .iter()
        .position(|place| *place == (what, refusal.number))
}

/// How questions end: `ENDS[end]` is its name in the table.
const ENDS: [&str; 10] = [
    "yes", "no", "21", "22", "23", "24", "25", "26", "8 or 9", "card",
];

/// The rows of document 01's table, as a group has them: joined by `|`, says `!=`.
const ROWS: [(&str, bool, bool); 4] = [
    ("all =d", false, false),
    ("some =d", true, false),
    ("all !=d", false, true),
    ("some !=d", true, true),
];
const COLUMNS: [&str; 3] = ["everyone", "others, d=j", "others, d not j"];

/// The refusals of a card and its seats.
const REFUSALS: [u8; 10] = [1, 2, 3, 4, 5, 6, 7, 8, 9, 17];

/// What a run has tried.
#[derive(Default)]
pub struct Tally {
    /// By kind: accepted, and refused by [`REFUSALS`].
    kinds: [[u64; 1 + REFUSALS.len()]; Kind::SHARES.len()],
    rooms: [u64; 4],
    /// Of each entry: in one walk, measured first.
    long_rooms: [[u64; 2]; Entry::ALL.len()],
    places: [[[u64; 3]; 4]; 2],
    /// Written cards that were read again.
    pub reread: u64,
    /// Written cards that are too long for that.
    pub too_long_written: u64,
    /// Panels of reordered seats.
    pub reordered: u64,
    /// Small tables.
    pub small: u64,
    /// Their seatings.
    pub seatings: u64,
    /// Tables where nothing can be taken, of nondeterministic and of probabilistic cards.
    pub stuck: [u64; 2],
    questions: [[u64; ENDS.len()]; questions::Kind::SHARES.len()],
    before_seats: [u64; 2],
    /// Questions with an exactly-one, answered with yes and with no.
    exactly_ones: [u64; 2],
    /// Questions answered for tables of each size.
    answered_at: [u64; SEATS],
    /// Questions whose answer was held to the seats.
    pub by_seats: u64,
    /// Questions asked again of reordered seats.
    pub questions_reordered: u64,
    /// Accepted cards with elevenths, nondeterministic and probabilistic.
    elevenths: [u64; 2],
    /// Accepted cards with a number of six digits in a weight.
    pub six_digits: u64,
    digits: [u64; DIGITS.len()],
    /// Spectators.
    pub spectators: SpectatorTally,
    /// First moves.
    pub first_moves: FirstMoveTally,
    /// Odds.
    pub odds: OddsTally,
    /// Decks.
    pub decks: DeckTally,
    /// Decks that are mended.
    pub mending: MendTally,
    /// Decks that are converted.
    pub converting: ConvertTally,
    /// Decks that are tidied, and cards added to them.
    pub tidying: TidyTally,
    /// Decimals.
    pub decimals: DecimalTally,
    /// The shared number.
    pub shared: SharedTally,
}

impl Tally {
    pub(crate) fn input(&mut self, kind: Kind, refusal: Option<&Refusal>) {
        let place = Kind::SHARES.iter().position(|(other, _)| *other == kind);
        let end = refusal.map_or(0, |refusal| {
            let end = REFUSALS.iter().position(|number| *number == refusal.number);
            1 + end.expect("there are no others")
        });
        self.kinds[place.expect("every kind has a share")][end] += 1;
    }

    pub(crate) fn room(&mut self, text: Option<usize>, room: usize) {
        let fit = match text {
            None => 3,
            Some(text) if text > room => 0,
            Some(text) if text == room => 1,
            Some(_) => 2,
        };
        self.rooms[fit] += 1;
    }

    pub(crate) fn long_room(&mut self, entry: Entry, one_walk: bool) {
        self.long_rooms[entry as usize][usize::from(!one_walk)] += 1;
    }

    /// A refusal, of a card or of a question, with what was refused.
    pub(crate) fn refused(&mut self, text: &[u8], refusal: &Refusal) {
        if let Some(place) = digits_at(text, refusal) {
            self.digits[place] += 1;
        }
    }

    pub(crate) fn groups(&mut self, card: &Card) {
        let mode = usize::from(card.mode() == Mode::Probabilistic);
        let mut branches = card.statements().iter().flat_map(|one| card.branches(one));
        let elevenths = branches.any(|branch| !branch.units.is_multiple_of(BEFORE_ELEVENTHS));
        self.elevenths[mode] += u64::from(elevenths);
        for statement in card.statements() {
            for node in card.guard(statement) {
                let Node::Group(group) = node else { continue };
                let row = ROWS
                    .iter()
                    .position(|(_, any, differs)| (*any, *differs) == (group.any, group.differs));
                let column = match (group.everyone, group.state == statement.own) {
                    (true, _) => 0,
                    (false, true) => 1,
                    (false, false) => 2,
                };
                self.places[mode][row.expect("the rows are all")][column] += 1;
            }
        }
    }

    pub(crate) fn question(
        &mut self,
        question: &Question,
        input: &Input,
        answer: Result<bool, Refusal>,
    ) {
        let place = questions::Kind::SHARES
            .iter()
            .position(|(other, _)| *other == question.kind);
        if let Ok(yes) = answer {
            // A seating that is answered has as many seats as the card, and a byte more where it shares a number.
            let seats = match baseline::judge(&input.card) {
                Ok(read) => read.seats(),
                Err(_) => input.seats.len(),
            };
            self.answered_at[seats - 1] += 1;
            self.exactly_ones[usize::from(!yes)] += u64::from(question.has_exactly_one());
            let tried = if yes { Tried::Yes } else { Tried::No };
            self.shared.count(tried, question.tests_shared());
        }
        let end = match answer {
            Ok(true) => 0,
            Ok(false) => 1,
            Err(refusal) => match refusal.number {
                number @ 21..=26 => usize::from(number) - 19,
                8 | 9 => {
                    self.before_seats[usize::from(refusal.number) - 8] += 1;
                    8
                }
                _ => 9,
            },
        };
        self.questions[place.expect("every kind has a share")][end] += 1;
    }

    /// How many questions ended so.
    fn ended(&self, end: usize) -> u64 {
        self.questions.iter().map(|kind| kind[end]).sum()
    }

    /// Adds what another has tried.
    pub fn add(&mut self, other: &Tally) {
        let sum = |mine: &mut [u64], others: &[u64]| {
            for (mine, other) in mine.iter_mut().zip(others) {
                *mine += other;
            }
        };
        sum(self.kinds.as_flattened_mut(), other.kinds.as_flattened());
        sum(&mut self.rooms, &other.rooms);
        sum(
            self.long_rooms.as_flattened_mut(),
            other.long_rooms.as_flattened(),
        );
        sum(
            self.places.as_flattened_mut().as_flattened_mut(),
            other.places.as_flattened().as_flattened(),
        );
        self.reread += other.reread;
        self.too_long_written += other.too_long_written;
        self.reordered += other.reordered;
        self.small += other.small;
        self.seatings += other.seatings;
        sum(&mut self.stuck, &other.stuck);
        sum(
            self.questions.as_flattened_mut(),
            other.questions.as_flattened(),
        );
        sum(&mut self.before_seats, &other.before_seats);
        sum(&mut self.exactly_ones, &other.exactly_ones);
        sum(&mut self.answered_at, &other.answered_at);
        self.by_seats += other.by_seats;
        self.questions_reordered += other.questions_reordered;
        sum(&mut self.elevenths, &other.elevenths);
        self.six_digits += other.six_digits;
        sum(&mut self.digits, &other.digits);
        self.spectators.add(&other.spectators);
        self.first_moves.add(&other.first_moves);
        self.odds.add(&other.odds);
        self.decks.add(&other.decks);
        self.mending.add(&other.mending);
        self.converting.add(&other.converting);
        self.tidying.add(&other.tidying);
        self.decimals.add(&other.decimals);
        self.shared.add(&other.shared);
    }

    /// How many inputs there were.
    pub fn inputs(&self) -> u64 {
        self.kinds.as_flattened().iter().sum()
    }

    /// How many inputs were accepted, for 0, or refused so.
    fn ended_so(&self, end: usize) -> u64 {
        self.kinds.iter().map(|kind| kind[end]).sum()
    }

    /// What was tried too seldom, in words.
    pub fn shortfalls(&self) -> Vec<String> {
        let mut shortfalls = Vec::new();
        let mut least = |what: &str, count: u64, least: u64| {
            if count < least {
                shortfalls.push(format!("{what}: {count}, not {least}"));
            }
        };
        least("inputs", self.inputs(), INPUTS);
        least("accepted", self.ended_so(0), self.inputs().div_ceil(3));
        for (end, number) in (1..).zip(REFUSALS) {
            let count = self.ended_so(end);
            least(&format!("refusal {number}"), count, EACH_REFUSAL);
        }
        least("refusal 10", self.rooms[0], EACH_REFUSAL);
        for (mode, places) in ["nondeterministic", "probabilistic"]
            .iter()
            .zip(&self.places)
        {
            for ((row, ..), places) in ROWS.iter().zip(places) {
                for (column, count) in COLUMNS.iter().zip(places) {
                    least(&format!("{mode}, {row}, {column}"), *count, EACH_PLACE);
                }
            }
        }
        for (fit, count) in ["short", "exact", "larger"].iter().zip(self.rooms) {
            least(&format!("rooms, {fit}"), count, INPUTS / 2);
        }
        for (entry, [one_walk, measured]) in Entry::ALL.iter().zip(self.long_rooms) {
            let name = entry.name();
            least(&format!("{name} in one walk"), one_walk, EACH_LONG_ROOM);
            least(
                &format!("{name} in a long room, measured first"),
                measured,
                EACH_LONG_ROOM,
            );
        }
        least("written and read again", self.reread, REREAD);
        least("seats reordered", self.reordered, REORDERED);
        least("small tables", self.small, SMALL);
        least(
            "written forms too long for a card",
            self.too_long_written,
            TOO_LONG_WRITTEN,
        );
        for (mode, count) in ["nondeterministic", "probabilistic"].iter().zip(self.stuck) {
            least(&format!("stuck tables, {mode}"), count, STUCK);
        }
        for (end, name) in ENDS[..8].iter().enumerate() {
            let due = if end < 2 {
                EACH_ANSWER
            } else {
                EACH_QUESTION_REFUSAL
            };
            least(&format!("questions, {name}"), self.ended(end), due);
        }
        for ((kind, _), ends) in questions::Kind::SHARES.iter().zip(&self.questions) {
            let came = match kind.refusal() {
                Some(number) => ends[usize::from(number) - 19],
                None if kind.is_valid() => ends[0].min(ends[1]),
                None => ends[..8].iter().sum(),
            };
            least(&format!("questions, {kind:?}"), came, EACH_QUESTION_KIND);
        }
        for (number, count) in [8, 9].iter().zip(self.before_seats) {
            let what = format!("questions, then {number}");
            least(&what, count, QUESTION_BEFORE_SEATS);
        }
        for (answer, count) in ["yes", "no"].iter().zip(self.exactly_ones) {
            let what = format!("questions with an exactly-one, {answer}");
            least(&what, count, EXACTLY_ONES);
        }
        for (seats, count) in (1..).zip(self.answered_at) {
            let what = format!("questions for {seats} seats");
            least(&what, count, QUESTIONS_AT_EACH_SIZE);
        }
        least("questions by seats", self.by_seats, BY_SEATS);
        least(
            "questions of reordered seats",
            self.questions_reordered,
            BY_SEATS,
        );
        for (mode, count) in ["nondeterministic", "probabilistic"]
            .iter()
            .zip(self.elevenths)
        {
            least(&format!("elevenths, {mode}"), count, ELEVENTHS);
        }
        least("weights of six digits", self.six_digits, SIX_DIGITS);
        for ((what, number), count) in DIGITS.iter().zip(self.digits) {
            least(&format!("{what}, {number}"), count, EACH_DIGITS);
        }
        self.spectators.shortfalls(&mut least);
        self.first_moves.shortfalls(&mut least);
        self.odds.shortfalls(&mut least);
        self.decks.shortfalls(&mut least);
        self.mending.shortfalls(&mut least);
        self.converting.shortfalls(&mut least);
        self.tidying.shortfalls(&mut least);
        self.decimals.shortfalls(&mut least);
        self.shared.shortfalls(&mut least);
        shortfalls
    }
}

impl fmt::Display for Tally {
    fn fmt(&self, f: &mut fmt::Formatter<'_>) -> fmt::Result {
        writeln!(
            f,
            "{:<12}{:>8}{:>9}  refused 1 to 9, 17",
            "inputs", "", "accepted"
        )?;
        for ((kind, _), counts) in Kind::SHARES.iter().zip(&self.kinds) {
            let name = format!("{kind:?}");
            write!(
                f,
                "{name:<12}{:>8}{:>9} ",
                counts.iter().sum::<u64>(),
                counts[0]
            )?;
            counts[1..]
                .iter()
                .try_for_each(|count| write!(f, "{count:>7}"))?;
            writeln!(f)?;
        }
        write!(
            f,
            "{:<12}{:>8}{:>9} ",
            "all",
            self.inputs(),
            self.ended_so(0)
        )?;
        (1..=REFUSALS.len()).try_for_each(|end| write!(f, "{:>7}", self.ended_so(end)))?;
        let [short, exact, larger, refused] = self.rooms;
        writeln!(
            f,
            "\nrooms       short (10) {short}, exact {exact}, larger {larger}, refused {refused}"
        )?;
        for (entry, [one_walk, measured]) in Entry::ALL.iter().zip(self.long_rooms) {
            let name = entry.name();
            writeln!(
                f,
                "long rooms  {name:<7} in one walk {one_walk}, measured first {measured}"
            )?;
        }
        for (mode, places) in ["nondeterministic", "probabilistic"]
            .iter()
            .zip(&self.places)
        {
            for ((row, ..), places) in ROWS.iter().zip(places) {
                write!(f, "{mode:<18}{row:<10}")?;
                let mut columns = COLUMNS.iter().zip(places);
                columns.try_for_each(|(column, count)| write!(f, "{column} {count}  "))?;
                writeln!(f)?;
            }
        }
        writeln!(
            f,
            "written and read again {}, too long for that {}; seats reordered {}",
            self.reread, self.too_long_written, self.reordered
        )?;
        writeln!(
            f,
            "small tables {} with {} seatings",
            self.small, self.seatings
        )?;
        let [nondeterministic, probabilistic] = self.stuck;
        writeln!(
            f,
            "stuck tables, nondeterministic {nondeterministic}, probabilistic {probabilistic}"
        )?;
        let [nondeterministic, probabilistic] = self.elevenths;
        write!(
            f,
            "elevenths, nondeterministic {nondeterministic}, probabilistic {probabilistic}; weights of six digits {}\nrefused at",
            self.six_digits
        )?;
        for ((what, number), count) in DIGITS.iter().zip(self.digits) {
            write!(f, " {what} ({number}) {count}")?;
        }
        writeln!(f)?;
        self.print_questions(f)?;
        write!(f, "\n{}\n{}", self.spectators, self.first_moves)?;
        write!(f, "\n{}\n{}\n{}", self.odds, self.decks, self.mending)?;
        write!(f, "\n{}\n{}", self.converting, self.tidying)?;
        write!(f, "\n{}\n{}", self.decimals, self.shared)
    }
}

impl Tally {
    fn print_questions(&self, f: &mut fmt::Formatter<'_>) -> fmt::Result {
        write!(f, "{:<16}{:>8}", "questions", "")?;
        ENDS.iter().try_for_each(|end| write!(f, "{end:>8}"))?;
        writeln!(f)?;
        let row = |f: &mut fmt::Formatter<'_>, name: &str, ends: &[u64]| {
            write!(f, "{name:<16}{:>8}", ends.iter().sum::<u64>())?;
            ends.iter().try_for_each(|count| write!(f, "{count:>8}"))?;
            writeln!(f)
        };
        for ((kind, _), ends) in questions::Kind::SHARES.iter().zip(&self.questions) {
            row(f, &format!("{kind:?}"), ends)?;
        }
        let all: Vec<u64> = (0..ENDS.len()).map(|end| self.ended(end)).collect();
        row(f, "all", &all)?;
        let [count, state] = self.before_seats;
        writeln!(
            f,
            "good questions, then 8 {count}, then 9 {state}; held to the seats {}, reordered {}",
            self.by_seats, self.questions_reordered
        )?;
        let [yes, no] = self.exactly_ones;
        write!(f, "with an exactly-one yes {yes}, no {no}; by seats")?;
        let sizes = &mut self.answered_at.iter();
        sizes.try_for_each(|count| write!(f, " {count}"))
    }
}
