//! Odds at the inputs' tables: in rows of the right length and of wrong ones,
//! for few steps and too many, held to the baseline, to exact chances, and on
//! small tables to the chances of seats told apart.

use std::collections::BTreeMap;
use std::fmt;

use baseline::Refusal;

use crate::by_seats;
use crate::cards::limits::{BRANCHES, STATEMENTS};
use crate::cards::{card, statement, Guards, Leaves, Size};
use crate::check::{reordered, Fault};
use crate::exact::{chances, Bound, Counts, State};
use crate::inputs::{Input, Kind, Table};
use crate::marks::{lay_out, Layout};
use crate::model::{Expression, Model};
use crate::questions::{self, Question};
use crate::random::Random;
use crate::shared::{SharedTally, Tried};
use crate::tally::Tally;

/// Odds that are reckoned, and those of them that are neither none nor certain; in each mode, for each aim.
const EACH_ODDS: u64 = 3_000;
const EACH_BETWEEN: u64 = 500;
/// Nondeterministic tables where the largest and the smallest chance differ.
const AIMS_DIFFER: u64 = 800;
/// Stuck tables, in each mode, and tables where the question holds at once.
const STUCK: u64 = 1_500;
const HOLD_AT_ONCE: u64 = 3_000;
/// Odds for no step, for one, for some, and for the most.
const EACH_STEPS: u64 = 1_200;
/// Times that each refusal is given.
const EACH_REFUSAL: u64 = 500;
/// Refusals 14 and 15 with something else wrong that counts later, in each way.
const EACH_BEFORE: u64 = 60;
/// Rows of each wrong length.
const EACH_ROW: u64 = 100;
/// Tables of 400 count vectors and more.
const MANY_VECTORS: u64 = 500;
/// Chances held to exact ones, of which so many were rounded.
const BOUNDS: u64 = 12_000;
const ROUNDED: u64 = 2_000;
/// Small tables by seats told apart.
const TOLD_APART: u64 = 3_000;

/// How long a row is.
const ROW: usize = 512;
/// Most steps.
const STEPS: usize = 32;
/// A chance of one.
const CERTAIN: u32 = 1_000_000;
/// Numbers on both sides of a row that nothing may touch.
const GUARD: usize = 16;

/// Lengths of the rows that are not right.
const WRONG_ROWS: [[usize; 2]; 9] = [
    [ROW - 1, ROW],
    [ROW, ROW - 1],
    [ROW + 1, ROW],
    [ROW, ROW + 1],
    [0, ROW],
    [ROW, 0],
    [0, 0],
    [2 * ROW, ROW],
    [ROW - 1, ROW + 1],
];
/// Numbers of steps that are too many; the low bits of some are few.
const TOO_MANY_STEPS: [usize; 8] = [
    STEPS + 1,
    STEPS + 1,
    STEPS + 2,
    64,
    256,
    65_536 + 3,
    1 << 32,
    usize::MAX,
];

/// The refusals in the order in which they are judged.
const REFUSALS: [u8; 19] = [
    1, 2, 3, 4, 5, 6, 7, 17, 21, 22, 23, 24, 25, 26, 8, 9, 14, 15, 16,
];

/// What a run has tried of odds.
#[derive(Default)]
pub struct OddsTally {
    /// Of nondeterministic and of probabilistic cards; the smallest and the largest.
    reckoned: [[u64; 2]; 2],
    between: [[u64; 2]; 2],
    aims_differ: u64,
    stuck: [u64; 2],
    hold_at_once: u64,
    /// For no step, for one, for some, and for the most.
    steps: [u64; 4],
    refused: [u64; REFUSALS.len()],
    /// 14 with too many steps, 14 with a wrong row, 15 with a wrong row.
    before: [u64; 3],
    rows: [u64; WRONG_ROWS.len()],
    many_vectors: u64,
    bounds: u64,
    rounded: u64,
    told_apart: u64,
}

impl OddsTally {
    /// Adds what another has tried.
    pub fn add(&mut self, other: &OddsTally) {
        let pairs = [
            (
                self.reckoned.as_flattened_mut(),
                other.reckoned.as_flattened(),
            ),
            (
                self.between.as_flattened_mut(),
                other.between.as_flattened(),
            ),
            (&mut self.stuck, &other.stuck),
            (&mut self.steps, &other.steps),
            (&mut self.refused, &other.refused),
            (&mut self.before, &other.before),
            (&mut self.rows, &other.rows),
        ];
        for (mine, others) in pairs {
            for (mine, other) in mine.iter_mut().zip(others) {
                *mine += other;
            }
        }
        self.aims_differ += other.aims_differ;
        self.hold_at_once += other.hold_at_once;
        self.many_vectors += other.many_vectors;
        self.bounds += other.bounds;
        self.rounded += other.rounded;
        self.told_apart += other.told_apart;
    }

    /// What was tried too seldom, by a function that is told what, how often, and how often at least.
    pub fn shortfalls(&self, least: &mut impl FnMut(&str, u64, u64)) {
        let modes = ["nondeterministic", "probabilistic"];
        for (place, mode) in modes.iter().enumerate() {
            for (aim, name) in ["smallest", "largest"].iter().enumerate() {
                let (reckoned, between) = (self.reckoned[place][aim], self.between[place][aim]);
                least(&format!("odds, {mode}, {name}"), reckoned, EACH_ODDS);
                let what = format!("odds between, {mode}, {name}");
                least(&what, between, EACH_BETWEEN);
            }
            least(&format!("odds, stuck, {mode}"), self.stuck[place], STUCK);
        }
        least("odds, aims that differ", self.aims_differ, AIMS_DIFFER);
        least("odds, held at once", self.hold_at_once, HOLD_AT_ONCE);
        for (steps, count) in ["0", "1", "2 to 31", "32"].iter().zip(self.steps) {
            least(&format!("odds, {steps} steps"), count, EACH_STEPS);
        }
        for (number, count) in REFUSALS.iter().zip(self.refused) {
            least(&format!("odds, refusal {number}"), count, EACH_REFUSAL);
        }
        for (what, count) in BEFORE.iter().zip(self.before) {
            least(&format!("odds, {what}"), count, EACH_BEFORE);
        }
        for (row, count) in WRONG_ROWS.iter().zip(self.rows) {
            least(&format!("odds, rows of {row:?}"), count, EACH_ROW);
        }
        least("odds, many vectors", self.many_vectors, MANY_VECTORS);
        least("odds, exact", self.bounds, BOUNDS);
        least("odds, rounded", self.rounded, ROUNDED);
        least("odds by seats told apart", self.told_apart, TOLD_APART);
    }
}

/// What counts before something else that is wrong.
const BEFORE: [&str; 3] = [
    "14 before too many steps",
    "14 before a wrong row",
    "15 before a wrong row",
];

impl fmt::Display for OddsTally {
    fn fmt(&self, f: &mut fmt::Formatter<'_>) -> fmt::Result {
        for (mode, name) in ["nondeterministic", "probabilistic"].iter().enumerate() {
            let [smallest, largest] = self.reckoned[mode];
            let [smallest_between, largest_between] = self.between[mode];
            writeln!(
                f,
                "odds        {name} smallest {smallest} (between {smallest_between}), largest {largest} (between {largest_between}), stuck {}",
                self.stuck[mode]
            )?;
        }
        let [none, one, some, most] = self.steps;
        writeln!(
            f,
            "odds by steps: 0 {none}, 1 {one}, 2 to 31 {some}, 32 {most}; held at once {}, aims that differ {}, many vectors {}",
            self.hold_at_once, self.aims_differ, self.many_vectors
        )?;
        writeln!(
            f,
            "held to exact chances {}, of which rounded {}; small tables by seats told apart {}",
            self.bounds, self.rounded, self.told_apart
        )?;
        write!(f, "odds refused")?;
        for (number, count) in REFUSALS.iter().zip(self.refused) {
            write!(f, " {number}: {count}")?;
        }
        let [steps, rows, rows_later] = self.before;
        write!(
            f,
            "; 14 before 15 {steps}, before 16 {rows}, 15 before 16 {rows_later}; by rows"
        )?;
        self.rows.iter().try_for_each(|count| write!(f, " {count}"))
    }
}

/// What odds are asked for.
struct Asked<'a> {
    card: &'a [u8],
    question: &'a [u8],
    seats: &'a [u8],
    steps: usize,
    rows: [usize; 2],
}

/// The chance, and both rows.
type Answer = (Result<u32, Refusal>, [Vec<u32>; 2]);

impl Asked<'_> {
    /// What is right: the baseline's answer, and the rows as they have to be afterwards.
    fn due(&self, largest: bool, before: &[Vec<u32>; 2]) -> Answer {
        let aim = match largest {
            true => baseline::Aim::Largest,
            false => baseline::Aim::Smallest,
        };
        let [mut first, mut second] = before.clone();
        let answer = baseline::odds(
            self.card,
            self.question,
            self.seats,
            self.steps,
            aim,
            &mut first,
            &mut second,
        );
        (answer, [first, second])
    }

    /// The library's answer, and the rows afterwards; nothing around them may change.
    fn answer(
        &self,
        largest: bool,
        before: &[Vec<u32>; 2],
        random: &mut Random,
    ) -> Result<Answer, Fault> {
        let aim = match largest {
            true => open_panel::Aim::Largest,
            false => open_panel::Aim::Smallest,
        };
        let around = random.next() as u32;
        let mut lent = before.clone().map(|row| {
            let mut lent = vec![around; GUARD];
            lent.extend(row);
            lent.resize(lent.len() + GUARD, around);
            lent
        });
        let [first, second] = &mut lent;
        let (first_end, second_end) = (first.len() - GUARD, second.len() - GUARD);
        let answer = open_panel::odds(
            self.card,
            self.question,
            self.seats,
            self.steps,
            aim,
            &mut first[GUARD..first_end],
            &mut second[GUARD..second_end],
        );
        for row in &lent {
            let guards = row[..GUARD].iter().chain(&row[row.len() - GUARD..]);
            if guards.into_iter().any(|number| *number != around) {
                return Err("odds: a number outside the rows was written".to_owned());
            }
        }
        let rows = lent.map(|row| row[GUARD..row.len() - GUARD].to_vec());
        let answer = answer.map_err(|refusal| Refusal::new(refusal.number(), refusal.place()));
        Ok((answer, rows))
    }
}

/// So many steps; too many once in a while.
fn steps(random: &mut Random) -> usize {
    match random.below(16) {
        0 | 1 => 0,
        2 | 3 => 1,
        4..=6 => random.between(2, 4),
        7..=10 => random.between(5, 12),
        11 | 12 => random.between(13, STEPS - 1),
        13 | 14 => STEPS,
        _ => random.pick(&TOO_MANY_STEPS),
    }
}

/// Odds at an input's table, and sometimes at one where much happens.
pub(crate) fn reckons(
    card: &[u8],
    input: &Input,
    random: &mut Random,
    all: &mut Tally,
) -> Result<(), Fault> {
    let (tally, shared) = (&mut all.odds, &mut all.shared);
    let question = Question::new(input, random);
    reckons_as(card, input, &question, random, tally, shared)?;
    if random.once_in(EVENING_ONCE_IN) {
        let (input, question) = evening(random);
        reckons_as(&input.card, &input, &question, random, tally, shared)
            .map_err(|fault| format!("{fault}\n{}", input.card.escape_ascii()))?;
    }
    Ok(())
}

/// Once in so many inputs a table is made where much happens.
const EVENING_ONCE_IN: usize = 8;

/// Tables, seats and top state, with many count vectors and few.
const TABLES: [(usize, usize); 20] = [
    (1, 1),
    (1, 7),
    (2, 2),
    (3, 1),
    (3, 2),
    (3, 3),
    (4, 1),
    (4, 2),
    (4, 3),
    (2, 7),
    (4, 7),
    (5, 4),
    (6, 5),
    (8, 2),
    (8, 4),
    (11, 2),
    (12, 3),
    (16, 1),
    (16, 2),
    (16, 0),
];

/// The same with a shared number up to a top of its own; of the last four there are more pairs than odds are reckoned for, and of those
/// before them as many as can be. No table has 505 to 524.
const SHARED_TABLES: [(usize, usize, usize); 22] = [
    (1, 1, 1),
    (1, 7, 7),
    (2, 1, 2),
    (2, 2, 2),
    (2, 3, 3),
    (3, 1, 1),
    (3, 1, 7),
    (3, 2, 1),
    (4, 1, 3),
    (16, 0, 7),
    (16, 1, 7),
    (14, 2, 3),
    (4, 4, 6),
    (8, 3, 2),
    (6, 3, 5),
    (5, 4, 3),
    (3, 6, 5),
    (5, 5, 1),
    (13, 2, 4),
    (10, 2, 7),
    (15, 2, 3),
    (4, 4, 7),
];

/// A table where most seats can move, and a question that mostly does not hold yet.
fn evening(random: &mut Random) -> (Input, Question) {
    let (seats, top, shared) = match random.once_in(2) {
        true => {
            let (seats, top) = random.pick(&TABLES);
            (seats, top, None)
        }
        false => {
            let (seats, top, shared) = random.pick(&SHARED_TABLES);
            (seats, top, Some(shared))
        }
    };
    let most = random.pick(&[1, 1, 2, 2, 4, 4, 8, 8, STATEMENTS]);
    let size = Size {
        seats,
        top,
        shared,
        statements: most,
        branches: BRANCHES,
        nodes: 1,
    };
    let mut model = card(size, random);
    // Mostly one for each state at least, and few guards. Where all seats crowd in one state, sums are the largest.
    let crowded = random.once_in(8).then(|| random.between(0, top));
    let least = random.pick(&[1, top + 1, top + 1]);
    model.statements = (0..least.max(most))
        .map(|place| {
            let mut statement = statement(size, random);
            if !random.once_in(4) {
                statement.guard.clear();
                statement.own = crowded.unwrap_or(place % (top + 1));
            }
            if let Some(top) = shared.filter(|_| random.once_in(3)) {
                let value = random.between(0, top);
                let leaves = Leaves::Guard { own: statement.own };
                let mut guards = Guards {
                    size,
                    leaves,
                    random,
                };
                statement.guard = vec![guards.shared_test(value)];
            }
            statement
        })
        .collect();
    let mut guards = Guards {
        size,
        leaves: Leaves::Question,
        random,
    };
    let nodes = guards.random.pick(&[1, 1, 2, 4]);
    let expression = guards.expression(nodes, 2);
    let question = Question {
        kind: questions::Kind::Valid,
        bytes: lay_out(&expression.marks(), Layout::any(random), random),
        model: Some(expression),
    };
    let table = Table::of(&model);
    let mut states = table.seating(random);
    if let Some(state) = crowded {
        states[..seats].fill(state as u8);
    }
    for _ in 0..20 {
        let expression = question.model.as_ref().expect("just made");
        if !by_seats::holds(expression, model.seating(&states))
            && !by_seats::is_stuck(&model, &states)
        {
            break;
        }
        states = table.seating(random);
    }
    let small = seats <= 4 && (top + 1).pow(seats as u32) * model.shared_values() <= 256;
    let input = Input {
        kind: if small { Kind::Small } else { Kind::Valid },
        card: lay_out(&model.marks(), Layout::any(random), random),
        seats: states,
        table,
        misuse: None,
        without_decimals: None,
        model: Some(model),
    };
    (input, question)
}

/// Odds at a table, asked of both sides.
fn reckons_as(
    card: &[u8],
    input: &Input,
    question: &Question,
    random: &mut Random,
    tally: &mut OddsTally,
    shared: &mut SharedTally,
) -> Result<(), Fault> {
    let wrong_rows = random.once_in(12).then(|| random.below(WRONG_ROWS.len()));
    let asked = Asked {
        card,
        question: &question.bytes,
        seats: &input.seats,
        steps: steps(random),
        rows: wrong_rows.map_or([ROW; 2], |place| WRONG_ROWS[place]),
    };
    // What stands in the rows before is nothing that either side would put there.
    let before = asked.rows.map(|length| {
        (0..length)
            .map(|_| random.next() as u32 | 1 << 31)
            .collect()
    });
    let largest = random.once_in(2);
    let due = asked.due(largest, &before);
    let answer = asked.answer(largest, &before, random)?;
    let fault = |what: &str, answer: &Answer, due: &Answer| {
        let differ = |row: usize| {
            let mut pairs = answer.1[row].iter().zip(&due.1[row]);
            pairs.position(|(a, b)| a != b)
        };
        format!(
            "odds, {what} ({} steps, largest {largest}): the library says {:?}, and due is {:?}; the rows differ from {:?} and {:?} on\n{}",
            asked.steps, answer.0, due.0, differ(0), differ(1), asked.question.escape_ascii()
        )
    };
    if answer != due {
        return Err(fault("as the baseline", &answer, &due));
    }
    let chance = match due.0 {
        Ok(chance) => chance,
        Err(refusal) => {
            if due.1 != before {
                return Err("odds: the baseline wrote into rows of a refusal".to_owned());
            }
            tally.refusal(refusal, &asked, wrong_rows);
            shared.count(
                Tried::TooManyPairs,
                refusal.number == 14 && vectors(card)? <= ROW,
            );
            return Ok(());
        }
    };
    let right_rows = due
        .1
        .iter()
        .all(|row| row.iter().all(|number| *number <= CERTAIN));
    if !right_rows {
        return Err(fault("a chance above one", &answer, &due));
    }

    let (Some(model), Some(expression)) = (&input.model, &question.model) else {
        return Ok(());
    };
    let mode = usize::from(model.probabilistic);
    tally.reckoned[mode][usize::from(largest)] += 1;
    let between = chance > 0 && chance < CERTAIN;
    tally.between[mode][usize::from(largest)] += u64::from(between);
    tally.stuck[mode] += u64::from(by_seats::is_stuck(model, &input.seats));
    let at = model.seating(&input.seats);
    tally.hold_at_once += u64::from(by_seats::holds(expression, at));
    tally.steps[match asked.steps {
        0 => 0,
        1 => 1,
        STEPS => 3,
        _ => 2,
    }] += 1;
    let many = due.1[0][400..].iter().any(|number| *number > 0);
    tally.many_vectors += u64::from(many);
    if model.shared.is_some() {
        shared.count(Tried::OddsChoosing, !model.probabilistic);
        shared.count(Tried::OddsDrawing, model.probabilistic);
        shared.count(Tried::OddsBetween, between);
        shared.count(Tried::OddsTested, between && question.tests_shared());
        shared.count(Tried::ManyPairs, many);
        shared.count(Tried::ToldApart, input.kind == Kind::Small);
    }

    // For the other aim: the same on a probabilistic card.
    let other = asked.answer(!largest, &before, random)?;
    if other != asked.due(!largest, &before) || model.probabilistic && other != answer {
        return Err(fault("for the other aim", &other, &answer));
    }
    tally.aims_differ += u64::from(other.0 != answer.0);
    if let (Ok(other), Ok(chance)) = (other.0, answer.0) {
        if (other < chance) != largest && other != chance {
            return Err(format!(
                "odds: the largest and the smallest are turned round: {other} and {chance}"
            ));
        }
    }
    // From the same counts, in another order of seats.
    let seats = reordered(&input.seats, model.seats, random);
    let reordered = Asked {
        seats: &seats,
        ..asked
    };
    let again = reordered.answer(largest, &before, random)?;
    if again != due {
        return Err(fault("the seats in another order", &again, &due));
    }

    let exact = chances::<Counts>(
        model,
        expression,
        std::iter::once(input.seats.clone()),
        asked.steps,
        largest,
    );
    let state = Counts::of(model, &input.seats);
    tally.held(exact.bounds(&state, chance, asked.steps))?;
    if input.kind == Kind::Small {
        tally.told_apart += 1;
        told_apart(model, expression, &asked, largest, &due.1[0])?;
    }
    Ok(())
}

/// How many count vectors the table of a card has that is taken.
fn vectors(card: &[u8]) -> Result<usize, Fault> {
    let read = baseline::judge(card).map_err(|refusal| refusal.to_string())?;
    let (seats, top) = (read.seats(), usize::from(read.top()));
    Ok((1..=top).fold(1, |ways, state| ways * (seats + state) / state))
}

/// Every seating of a small table, with all seats told apart: those of the same counts, and with the same
/// shared number, have the same exact chance, and the row keeps to it.
fn told_apart(
    model: &Model,
    question: &Expression,
    asked: &Asked,
    largest: bool,
    row: &[u32],
) -> Result<(), Fault> {
    let seatings = || model.seatings();
    let exact = chances::<Vec<u8>>(model, question, seatings(), asked.steps, largest);
    let mut vectors = BTreeMap::new();
    for seats in seatings() {
        let chance = &exact.above[&seats];
        let counts = Counts::of(model, &seats);
        let (_, before) = vectors.entry(counts).or_insert((seats.clone(), chance));
        if *before != chance {
            return Err(format!(
                "odds: {seats:?} has another chance than its counts have"
            ));
        }
    }
    // By no_0, then no_1 and so on, and by the shared number last: as vectors and pairs are ordered.
    for (place, (seats, _)) in vectors.values().enumerate() {
        let bound = exact.bounds(seats, row[place], asked.steps);
        if !matches!(bound, Bound::Exact | Bound::Below) {
            return Err(format!(
                "odds: {} at {seats:?} is {bound:?} ({} steps, largest {largest})\n{}",
                row[place],
                asked.steps,
                asked.question.escape_ascii()
            ));
        }
    }
    if row[vectors.len()..].iter().any(|number| *number != 0) {
        return Err("odds: a row goes on behind its vectors".to_owned());
    }
    Ok(())
}

impl OddsTally {
    fn refusal(&mut self, refusal: Refusal, asked: &Asked, wrong_rows: Option<usize>) {
        let place = REFUSALS.iter().position(|number| *number == refusal.number);
        self.refused[place.expect("odds have no other refusals")] += 1;
        let too_many = asked.steps > STEPS;
        match refusal.number {
            14 => {
                self.before[0] += u64::from(too_many);
                self.before[1] += u64::from(wrong_rows.is_some());
            }
            15 => self.before[2] += u64::from(wrong_rows.is_some()),
            16 => self.rows[wrong_rows.expect("only then")] += 1,
            _ => {}
        }
    }

    fn held(&mut self, bound: Bound) -> Result<(), Fault> {
        self.bounds += 1;
        match bound {
            Bound::Exact => Ok(()),
            Bound::Below => {
                self.rounded += 1;
                Ok(())
            }
            Bound::Above | Bound::TooFarBelow => {
                Err(format!("odds: against the exact chance: {bound:?}"))
            }
        }
    }
}
