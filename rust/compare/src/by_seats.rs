//! What the seats do, seat by seat: each module's guard is read as the card
//! spells it, with its own renaming, and each step is taken on a real seating.
//! Nothing here counts seats before it has moved them.

use std::collections::BTreeMap;

use crate::model::{Expression, Group, Model, Seating, SharedTest, Statement, Unary};
use crate::weights::UNIT;

/// What some steps lead to, with their weights.
pub type Weights<T> = BTreeMap<T, u64>;

/// A seat, from 0, taking a statement: what it leads to.
pub struct Steps {
    /// The statement, from 0.
    pub statement: usize,
    /// The seatings after the step, each with its shared number behind the seats, where there is one.
    pub after: Weights<Vec<u8>>,
}

/// All that may be taken at a seating, by each seat and statement.
pub fn steps(model: &Model, bytes: &[u8]) -> Vec<Steps> {
    let at = model.seating(bytes);
    let mut steps = Vec::new();
    for seat in 0..at.seats.len() {
        for (number, statement) in model.statements.iter().enumerate() {
            if may_take(statement, at, seat) {
                let mut after = Weights::new();
                for branch in &statement.branches {
                    let mut next = bytes.to_vec();
                    next[seat] = branch.end as u8;
                    if let Some(value) = branch.shared {
                        next[at.seats.len()] = value as u8;
                    }
                    *after.entry(next).or_default() += u64::from(branch.units);
                }
                steps.push(Steps {
                    statement: number,
                    after,
                });
            }
        }
    }
    steps
}

/// Whether no seat may take anything. Then there is one step, of weight one, that changes nothing.
pub fn is_stuck(model: &Model, bytes: &[u8]) -> bool {
    let mut statements = model.statements.iter();
    !statements.any(|statement| can_be_taken(statement, model.seating(bytes)))
}

/// Whether some seat may take a statement.
pub fn can_be_taken(statement: &Statement, at: Seating) -> bool {
    (0..at.seats.len()).any(|seat| may_take(statement, at, seat))
}

/// The first statement that some seat may take, from 1.
pub fn first_move(model: &Model, bytes: &[u8]) -> Option<usize> {
    let mut statements = model.statements.iter();
    let at = model.seating(bytes);
    let first = statements.position(|statement| can_be_taken(statement, at));
    first.map(|place| place + 1)
}

/// Whether a question holds, each seat called by its own number.
pub fn holds(question: &Expression, at: Seating) -> bool {
    Renamed { at, seat: 0 }.expression(question)
}

/// Whether it holds if the seats in an exactly-one's state are counted in place of reading its terms.
pub fn holds_if_counted(Expression(rows): &Expression, at: Seating) -> bool {
    fn unary_holds(unary: &Unary, at: Seating) -> bool {
        match unary {
            Unary::Not(inner) => !unary_holds(inner, at),
            Unary::Bracket(inner) => holds_if_counted(inner, at),
            Unary::Group(_) | Unary::Shared(_) => Renamed { at, seat: 0 }.unary(unary),
            Unary::One(terms) => {
                let state = terms[0].literals[0].state;
                let there = |seat: &&u8| usize::from(**seat) == state;
                at.seats.iter().filter(there).count() == 1
            }
        }
    }
    let row_holds = |row: &Vec<Unary>| row.iter().all(|unary| unary_holds(unary, at));
    rows.iter().any(row_holds)
}

fn may_take(statement: &Statement, at: Seating, seat: usize) -> bool {
    let renamed = Renamed { at, seat };
    usize::from(renamed.state(1)) == statement.own && renamed.row(&statement.guard)
}

/// A seating as the module of one seat sees it: `[s1=si, si=s1]`. The shared number is the same for all.
struct Renamed<'s> {
    at: Seating<'s>,
    seat: usize,
}

impl Renamed<'_> {
    /// The state of the seat that the first module would call by this number.
    fn state(&self, word: usize) -> u8 {
        let place = word - 1;
        self.at.seats[if place == 0 {
            self.seat
        } else if place == self.seat {
            0
        } else {
            place
        }]
    }

    fn expression(&self, Expression(rows): &Expression) -> bool {
        rows.iter().any(|row| self.row(row))
    }

    fn row(&self, row: &[Unary]) -> bool {
        row.iter().all(|unary| self.unary(unary))
    }

    fn unary(&self, unary: &Unary) -> bool {
        match unary {
            Unary::Not(inner) => !self.unary(inner),
            Unary::Bracket(expression) => self.expression(expression),
            Unary::Group(group) => self.group(group),
            Unary::One(terms) => terms.iter().any(|term| self.group(term)),
            Unary::Shared(SharedTest { differs, value }) => {
                (usize::from(self.at.shared) == *value) != *differs
            }
        }
    }

    fn group(&self, group: &Group) -> bool {
        let mut literals = group.literals.iter().map(|literal| {
            (usize::from(self.state(literal.seat)) == literal.state) != literal.differs
        });
        if group.any {
            literals.any(|holds| holds)
        } else {
            literals.all(|holds| holds)
        }
    }
}

/// How many seats are in each state.
pub fn counts(seats: &[u8], top: usize) -> Vec<u64> {
    (0..=top)
        .map(|state| {
            seats
                .iter()
                .filter(|&&seat| usize::from(seat) == state)
                .count() as u64
        })
        .collect()
}

/// How many seats are in each class, each seat asked for its own.
pub fn class_counts(seats: &[u8], list: &[u8]) -> [usize; 8] {
    let mut counts = [0; 8];
    for seat in seats {
        counts[usize::from(list[usize::from(*seat)])] += 1;
    }
    counts
}

/// What a spectator sees.
pub fn classes(seats: &[u8], list: &[u8]) -> String {
    let counts = class_counts(seats, list);
    let counts = counts.iter().map(|count| format!(" {count}"));
    format!("classes{}\n", counts.collect::<String>())
}

/// How many seats are in each state, and the shared number.
pub type CountsAndShared = (Vec<u64>, u8);

/// A seating by its counts and its shared number.
pub fn counted(model: &Model, bytes: &[u8]) -> CountsAndShared {
    let Seating { seats, shared } = model.seating(bytes);
    (counts(seats, model.top), shared)
}

/// The same weights, by the counts and the shared number after the steps.
pub fn by_counts(model: &Model, after: &Weights<Vec<u8>>) -> Weights<CountsAndShared> {
    let mut by_counts = Weights::new();
    for (next, weight) in after {
        *by_counts.entry(counted(model, next)).or_default() += weight;
    }
    by_counts.retain(|_, weight| *weight > 0);
    by_counts
}

/// The panel that the steps of all seats make.
pub fn panel(model: &Model, bytes: &[u8]) -> String {
    let steps = steps(model, bytes);
    let Seating { seats, shared } = model.seating(bytes);
    let mut text = String::new();
    let taken: Vec<usize> = (0..model.statements.len())
        .filter(|&number| steps.iter().any(|step| step.statement == number))
        .collect();
    let enabled = match model.probabilistic {
        _ if steps.is_empty() => 1,
        true => steps.len(),
        false => taken.len(),
    };
    text += if model.probabilistic {
        "probabilistic\n"
    } else {
        "nondeterministic\n"
    };
    text += &format!("seats {} enabled {enabled}\ncounts", seats.len());
    for count in counts(seats, model.top) {
        text += &format!(" {count}");
    }
    text += "\n";
    if model.shared.is_some() {
        text += &format!("shared {shared}\n");
    }
    if steps.is_empty() {
        if !model.probabilistic {
            text += "choice 0\n";
        }
        let unchanged = Weights::from([(bytes.to_vec(), u64::from(UNIT))]);
        put_changes(changes(model, bytes, &unchanged), 1, &mut text);
    } else if model.probabilistic {
        let all = steps.iter().map(|step| changes(model, bytes, &step.after));
        put_changes(all.flatten(), enabled as u64, &mut text);
    } else {
        for number in taken {
            text += &format!("choice {}\n", number + 1);
            let of_one = steps.iter().find(|step| step.statement == number);
            let of_one = of_one.expect("some seat may take it");
            put_changes(changes(model, bytes, &of_one.after), 1, &mut text);
        }
    }
    text
}

/// What changes in a step: no seat, or one from an old to a new state; and what the shared number is behind it, where there is one.
type Change = (Option<(u8, u8)>, Option<u8>);

/// What changes with each seating after.
fn changes<'a>(
    model: &'a Model,
    bytes: &'a [u8],
    after: &'a Weights<Vec<u8>>,
) -> impl Iterator<Item = (Change, u64)> + 'a {
    after.iter().map(|(next, weight)| {
        let (old, new) = (model.seating(bytes), model.seating(next));
        let mut pairs = old.seats.iter().copied().zip(new.seats.iter().copied());
        let moved = pairs.find(|(old, new)| old != new);
        ((moved, model.shared.map(|_| new.shared)), *weight)
    })
}

fn put_changes(changes: impl Iterator<Item = (Change, u64)>, times: u64, text: &mut String) {
    let mut sums = Weights::new();
    for (change, weight) in changes {
        *sums.entry(change).or_default() += weight;
    }
    assert_eq!(sums.values().sum::<u64>(), times * u64::from(UNIT));
    // No change comes first, then the moves by old and new state, each by the shared number last.
    for ((moved, shared), sum) in sums.into_iter().filter(|(_, sum)| *sum > 0) {
        *text += &match moved {
            None => format!("stay {sum}"),
            Some((old, new)) => format!("move {old} {new} {sum}"),
        };
        *text += &shared.map_or(String::new(), |shared| format!(" {shared}"));
        text.push('\n');
    }
}
