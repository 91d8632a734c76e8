//! Who can move first, on the inputs' tables, and on cards made so that only a late statement, or none, can be taken.

use std::fmt;

use baseline::Refusal;

use crate::by_seats;
use crate::cards::limits::STATEMENTS;
use crate::cards::{card, shared_top, statement, Size};
use crate::check::{reordered, Fault};
use crate::inputs::{Input, Kind, Table};
use crate::marks::{lay_out, Layout};
use crate::model::{Branch, Model};
use crate::random::Random;
use crate::shared::Tried;
use crate::surrounded::Surrounded;
use crate::tally::Tally;
use crate::weights::UNIT;

/// Times that somebody can move, and that nobody can, in each mode.
const EACH_ANSWER: u64 = 5_000;
/// Times that each refusal is given.
const EACH_REFUSAL: u64 = 500;
/// Times that a statement is the first that can be taken, for each place that it can have.
const EACH_PLACE: u64 = 50;
/// Full cards of which nothing can be taken.
const FULL_STUCK: u64 = 200;
/// Moves that change nothing, whatever comes of them.
const UNCHANGING: u64 = 1_000;
/// Answers held to the panel's first choice.
const CHOICES: u64 = 10_000;
/// Answers held to the seats.
const BY_SEATS: u64 = 20_000;

/// Once in so many inputs a card is made for a late first move.
const MADE_ONCE_IN: usize = 16;

/// What a run has tried.
#[derive(Default)]
pub struct FirstMoveTally {
    /// Somebody can, nobody can; of nondeterministic and of probabilistic cards.
    answers: [[u64; 2]; 2],
    /// By their number.
    refused: [u64; 18],
    /// By the place of the first that can be taken, from 1.
    places: [u64; STATEMENTS],
    full_stuck: u64,
    unchanging: u64,
    choices: u64,
    by_seats: u64,
}

impl FirstMoveTally {
    /// Adds what another has tried.
    pub fn add(&mut self, other: &FirstMoveTally) {
        let pairs = [
            (
                self.answers.as_flattened_mut(),
                other.answers.as_flattened(),
            ),
            (&mut self.refused, &other.refused),
            (&mut self.places, &other.places),
        ];
        for (mine, others) in pairs {
            for (mine, other) in mine.iter_mut().zip(others) {
                *mine += other;
            }
        }
        self.full_stuck += other.full_stuck;
        self.unchanging += other.unchanging;
        self.choices += other.choices;
        self.by_seats += other.by_seats;
    }

    /// What was tried too seldom, by a function that is told what, how often, and how often at least.
    pub fn shortfalls(&self, least: &mut impl FnMut(&str, u64, u64)) {
        for (mode, answers) in ["nondeterministic", "probabilistic"]
            .iter()
            .zip(self.answers)
        {
            for (who, count) in ["somebody", "nobody"].iter().zip(answers) {
                least(&format!("first moves, {mode}, {who}"), count, EACH_ANSWER);
            }
        }
        for number in (1..=9).chain([17]) {
            let what = format!("first moves, refusal {number}");
            least(&what, self.refused[number], EACH_REFUSAL);
        }
        for (place, count) in (1..).zip(self.places) {
            least(&format!("first moves at {place}"), count, EACH_PLACE);
        }
        least("full cards stuck", self.full_stuck, FULL_STUCK);
        least(
            "first moves that change nothing",
            self.unchanging,
            UNCHANGING,
        );
        least("first moves by choices", self.choices, CHOICES);
        least("first moves by seats", self.by_seats, BY_SEATS);
    }
}

impl fmt::Display for FirstMoveTally {
    fn fmt(&self, f: &mut fmt::Formatter<'_>) -> fmt::Result {
        let [[one, none], [one_of_all, none_of_all]] = self.answers;
        write!(
            f,
            "first moves nondeterministic {one}, nobody {none}; probabilistic {one_of_all}, nobody {none_of_all}; refused 1 to 9, 17"
        )?;
        let mut numbers = (1..=9).chain([17]);
        numbers.try_for_each(|number| write!(f, " {}", self.refused[number]))?;
        write!(
            f,
            "\nheld to choices {}, to the seats {}; changing nothing {}, full cards stuck {}; by place",
            self.choices, self.by_seats, self.unchanging, self.full_stuck
        )?;
        let places = &mut self.places.iter();
        places.try_for_each(|count| write!(f, " {count}"))
    }
}

/// Asks both sides who can move first at an input's table, and sometimes at one made for it.
pub(crate) fn moves_first(
    card: &[u8],
    input: &Input,
    random: &mut Random,
    all: &mut Tally,
) -> Result<(), Fault> {
    let tally = &mut all.first_moves;
    let panel = open_panel::show_to_vec(card, &input.seats);
    let first = asks(card, &input.seats, input.model.as_ref(), random, tally)?;
    match (&panel, first) {
        (Err(refusal), Err(Refusal { number, place })) => {
            if (refusal.number(), refusal.place()) != (number, place) {
                return Err(format!(
                    "first_move is refused {number} {place}, and show {refusal:?}"
                ));
            }
        }
        (Ok(panel), Ok(first)) => as_on_panel(panel, first, tally)?,
        (panel, first) => return Err(format!("first_move {first:?}, and show {panel:?}")),
    }
    if let (Kind::Small, Some(model)) = (input.kind, &input.model) {
        for seats in model.seatings() {
            asks(card, &seats, Some(model), random, tally)?
                .map_err(|refusal| refusal.to_string())?;
        }
    }
    if let (Some(model), Ok(first)) = (&input.model, first) {
        let seats = model.seating(&input.seats).seats;
        for value in model.shared.map_or(0..0, |shared| 0..shared.top + 1) {
            let at = [seats, &[value as u8]].concat();
            let other = asks(card, &at, Some(model), random, tally)?;
            all.shared.count(Tried::FirstMoves, true);
            all.shared.count(Tried::OtherFirstMoves, other != Ok(first));
        }
    }
    if random.once_in(MADE_ONCE_IN) {
        let (model, seats) = made(random);
        let card = lay_out(&model.marks(), Layout::Tight, random);
        let first = asks(&card, &seats, Some(&model), random, tally)?;
        if first.is_err() {
            return Err(format!("a card made to be taken: {first:?}"));
        }
    }
    Ok(())
}

/// The library's answer, held to the baseline's and to the seats.
fn asks(
    card: &[u8],
    seats: &[u8],
    model: Option<&Model>,
    random: &mut Random,
    tally: &mut FirstMoveTally,
) -> Result<Result<Option<usize>, Refusal>, Fault> {
    let lent = Surrounded::new(seats, random);
    let ask = |seats: &[u8]| {
        let answer = open_panel::first_move(card, seats);
        answer.map_err(|refusal| Refusal::new(refusal.number(), refusal.place()))
    };
    let fault = |what: &str, answer: &dyn fmt::Debug, due: &dyn fmt::Debug| {
        format!("first_move, {what}: the library says {answer:?}, and due is {due:?}")
    };
    let answer = ask(lent.inner());
    lent.unwritten("the seats", seats)?;
    let due = baseline::first_move(card, seats);
    if answer != due {
        return Err(fault("as the baseline", &answer, &due));
    }
    if let Err(refusal) = due {
        tally.refused[usize::from(refusal.number)] += 1;
    }
    let (Some(model), Ok(first)) = (model, due) else {
        return Ok(answer);
    };
    let by_seats = by_seats::first_move(model, seats);
    if first != by_seats {
        return Err(fault("by seats", &answer, &by_seats));
    }
    let reordered = ask(&reordered(seats, model.seats, random));
    if reordered != due {
        return Err(fault("the seats in another order", &reordered, &due));
    }
    tally.by_seats += 1;
    tally.answers[usize::from(model.probabilistic)][usize::from(first.is_none())] += 1;
    match first {
        Some(place) => {
            tally.places[place - 1] += 1;
            let statement = &model.statements[place - 1];
            let stays = |branch: &Branch| branch.end == statement.own && branch.shared.is_none();
            tally.unchanging += u64::from(statement.branches.iter().all(stays));
        }
        None => tally.full_stuck += u64::from(model.statements.len() == STATEMENTS),
    }
    Ok(answer)
}

/// On a nondeterministic card it is the panel's first choice, or none where that is 0; on a probabilistic
/// one there is none exactly where the panel is a stuck table's.
fn as_on_panel(
    panel: &[u8],
    first: Option<usize>,
    tally: &mut FirstMoveTally,
) -> Result<(), Fault> {
    let text = String::from_utf8_lossy(panel);
    // With a shared number it ends in that, which stays.
    let shared = text.lines().find_map(|line| line.strip_prefix("shared "));
    let shared = shared.map_or(String::new(), |shared| format!(" {shared}"));
    let stuck_end = format!("\nstay {UNIT}{shared}\n");
    let choice = text.lines().find_map(|line| line.strip_prefix("choice "));
    let right = match choice {
        Some(choice) => {
            tally.choices += 1;
            choice.parse() == Ok(first.unwrap_or(0))
        }
        // What a stuck table shows, a lone seat that stays where it is shows too.
        None => first.is_some() || text.contains(" enabled 1\n") && text.ends_with(&stuck_end),
    };
    right
        .then_some(())
        .ok_or_else(|| format!("first_move {first:?}, and the panel is\n{text}"))
}

/// A card, and seats at which nothing before one of its statements can be taken, or nothing at all.
fn made(random: &mut Random) -> (Model, Vec<u8>) {
    let most_seats = random.pick(&[1, 3, 6]);
    let size = Size {
        seats: random.between(1, most_seats),
        top: random.between(1, 7),
        shared: shared_top(2, random),
        statements: 1,
        branches: 2,
        nodes: 3,
    };
    let mut model = card(size, random);
    let seats = Table::of(&model).seating(random);
    let found = match random.below(8) {
        0 => STATEMENTS,
        1 => STATEMENTS + 1,
        _ => random.between(1, STATEMENTS),
    };
    model.statements.clear();
    while model.statements.len() < STATEMENTS {
        let next = statement(size, random);
        let can = by_seats::can_be_taken(&next, model.seating(&seats));
        // Behind the one that is found, any.
        let place = model.statements.len() + 1;
        if place > found || can == (place == found) {
            model.statements.push(next);
        }
    }
    (model, seats)
}
