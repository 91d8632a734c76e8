//! The largest cards and texts.
//!
//! A card of 16,384 bytes grows most where blanks are added (in groups of up to
//! nine seats), where a statement is copied (sixteen seats, eight branches with
//! long weights), and where every statement is a choice. Reckoned piece by piece,
//! what each costs on the card and gives in the text, no written form is longer
//! than 22,477 bytes, no reduced text than 269,699 and no panel than 4,148. With a
//! shared number, whose tests and updates are short on the card and stand in every
//! copy, no reduced text is longer than 363,218 and no panel than 4,797. These
//! bounds are reckoned and tried, not proved.

use crate::cards::limits::{BRANCHES, CARD_BYTES, NODES, SEATS, SHARED_TOP, STATEMENTS, TOP};
use crate::inputs::{Input, Kind, Table};
use crate::marks::{lay_out, Layout, Mark};
use crate::model::{
    row_nodes, Branch, Expression, Group, Literal, Model, Shared, SharedTest, Statement, Unary,
};
use crate::random::Random;
use crate::weights::{fraction, UNIT};

/// A card with its name and a seating.
pub struct Extreme {
    /// What it is the largest of.
    pub name: &'static str,
    /// The card and the seating.
    pub input: Input,
}

/// The card whose written form is the longest known, the one whose reduced text is, and the one whose panel is.
pub fn extremes() -> [Extreme; 3] {
    [longest_written(), longest_reduced(), longest_panel()]
}

/// The same two with a shared number. No written form is longer with it, as nothing of it grows as much as a group does.
pub fn shared_extremes() -> [Extreme; 2] {
    [longest_shared_reduced(), longest_shared_panel()]
}

fn extreme(name: &'static str, model: Model, seats: Vec<u8>) -> Extreme {
    let card = lay_out(&model.marks(), Layout::Tight, &mut Random::new(0, 0));
    assert!(card.len() <= CARD_BYTES, "{name}: {} bytes", card.len());
    Extreme {
        name,
        input: Input {
            kind: Kind::Valid,
            card,
            seats,
            table: Table::of(&model),
            misuse: None,
            model: Some(model),
            without_decimals: None,
        },
    }
}

/// How long a card is at least.
fn length(model: &Model) -> usize {
    lay_out(&model.marks(), Layout::Tight, &mut Random::new(0, 0)).len()
}

fn everyone(seats: usize, any: bool) -> Unary {
    Unary::Group(Group {
        any,
        literals: (1..=seats)
            .map(|seat| Literal {
                seat,
                differs: false,
                state: 0,
            })
            .collect(),
    })
}

fn others(seats: usize, any: bool) -> Unary {
    let Unary::Group(mut group) = everyone(seats, any) else {
        unreachable!()
    };
    group.literals.remove(0);
    Unary::Group(group)
}

fn weighted(weights: Vec<(u32, Vec<Mark>)>, end: impl Fn(usize) -> usize) -> Vec<Branch> {
    let weights = weights.into_iter().enumerate();
    weights
        .map(|(place, (units, weight))| Branch {
            units,
            weight,
            end: end(place),
            shared: None,
        })
        .collect()
}

/// Numerators whose fractions in lowest terms are the longest that sum to one.
fn long_weights() -> Vec<(u32, Vec<Mark>)> {
    let above = [
        100_003, 100_003, 10_001, 10_001, 10_001, 10_001, 10_027, 27_163,
    ];
    let above = above.iter();
    above
        .map(|above| (*above, fraction(*above, UNIT)))
        .collect()
}

/// Every group of nine seats gets two blanks for each sign: nothing else on a card grows as much. There are no more statements than such groups
/// need; what room is left for the last of them goes to groups of the others, and to `!`.
fn long_when_written(groups: [usize; 2], nots: usize, weight: &[u8]) -> Model {
    let statement = |guard, weight| Statement {
        own: 0,
        guard,
        branches: weighted(vec![(UNIT, vec![weight])], |_| 0),
    };
    let full = statement(vec![everyone(9, true); NODES / 2], Mark::number(1));
    let mut last = vec![everyone(9, true); groups[0]];
    last.extend(vec![others(9, true); groups[1]]);
    last[0] = (0..nots).fold(last[0].clone(), |unary, _| Unary::Not(Box::new(unary)));
    let mut statements = vec![full; 20];
    statements.push(statement(last, Mark::new(weight)));
    let model = Model {
        probabilistic: true,
        seats: 9,
        top: TOP,
        start: 0,
        shared: None,
        statements,
    };
    assert_eq!(length(&model), CARD_BYTES);
    model
}

fn longest_written() -> Extreme {
    let model = long_when_written([6, 6], 1, b"1");
    extreme("longest written form", model, vec![0; 9])
}

/// A card with a decimal, of which the longest written form known would be made.
pub fn longest_written_with_a_decimal() -> Vec<u8> {
    let model = long_when_written([5, 7], 4, b"1.0");
    lay_out(&model.marks(), Layout::Tight, &mut Random::new(0, 0))
}

/// Sixteen copies of each statement, each branch with its update; then as much guard as the card has room for.
fn longest_reduced() -> Extreme {
    let statement = Statement {
        own: 0,
        guard: Vec::new(),
        branches: weighted(long_weights(), |_| 1),
    };
    let mut model = Model {
        probabilistic: true,
        seats: SEATS,
        top: TOP,
        start: 0,
        shared: None,
        statements: vec![statement; STATEMENTS],
    };
    'filled: loop {
        for place in 0..STATEMENTS {
            let others = (0..8).fold(others(SEATS, false), |unary, _| Unary::Not(Box::new(unary)));
            model.statements[place].guard.push(others);
            while row_nodes(&model.statements[place].guard) > NODES || length(&model) > CARD_BYTES {
                // Fewer `!`, then none of it.
                match model.statements[place].guard.pop() {
                    Some(Unary::Not(inner)) => model.statements[place].guard.push(*inner),
                    _ => break 'filled,
                }
            }
        }
    }
    extreme("longest reduced text", model, vec![0; SEATS])
}

/// Every statement is a choice, with all eight ends and long weights.
fn longest_panel() -> Extreme {
    let nested = (0..7).fold(everyone(SEATS, true), |unary, _| {
        Unary::Bracket(Expression(vec![vec![unary]]))
    });
    let statement = Statement {
        own: 0,
        guard: vec![nested],
        branches: weighted(long_weights(), |place| place % BRANCHES),
    };
    let model = Model {
        probabilistic: false,
        seats: SEATS,
        top: TOP,
        start: 0,
        shared: None,
        statements: vec![statement; STATEMENTS],
    };
    let mut seats = vec![0; 10];
    seats.extend([1, 2, 3, 4, 5, 6]);
    extreme("longest panel", model, seats)
}

const SHARED: Option<Shared> = Some(Shared {
    top: SHARED_TOP,
    start: 0,
});

/// Every branch sets the number, and every guard has as many tests of it as there may be leaves; then groups in their place, which are longer
/// in the text, as far as the card has room for them.
fn longest_shared_reduced() -> Extreme {
    let test = Unary::Shared(SharedTest {
        differs: true,
        value: SHARED_TOP,
    });
    let mut branches = weighted(long_weights(), |_| 1);
    for branch in &mut branches {
        branch.shared = Some(SHARED_TOP);
    }
    // Half of the nodes are leaves, and all but one of the others join them.
    let mut guard = vec![test; NODES / 2];
    guard[0] = Unary::Not(Box::new(guard[0].clone()));
    let statement = Statement {
        own: 0,
        guard,
        branches,
    };
    let mut model = Model {
        probabilistic: true,
        seats: SEATS,
        top: TOP,
        start: 0,
        shared: SHARED,
        statements: vec![statement; STATEMENTS],
    };
    let Unary::Group(mut others) = everyone(SEATS, false) else {
        unreachable!()
    };
    others.literals.remove(0);
    for literal in &mut others.literals {
        literal.state = 1;
    }
    let leaves = (0..STATEMENTS).flat_map(|place| (1..NODES / 2).map(move |leaf| (place, leaf)));
    for (place, leaf) in leaves {
        let mut longer = model.clone();
        longer.statements[place].guard[leaf] = Unary::Group(others.clone());
        if length(&longer) > CARD_BYTES {
            break;
        }
        model = longer;
    }
    let mut seats = vec![0; SEATS];
    seats.push(0);
    extreme("longest reduced text, shared number", model, seats)
}

/// Every statement is a choice, whose eight ends all move the seat, some to one state with another number.
fn longest_shared_panel() -> Extreme {
    let nested = (0..7).fold(everyone(SEATS, true), |unary, _| {
        Unary::Bracket(Expression(vec![vec![unary]]))
    });
    let mut branches = weighted(long_weights(), |place| 1 + place % TOP);
    for (place, branch) in branches.iter_mut().enumerate() {
        branch.shared = Some(place / TOP);
    }
    let statement = Statement {
        own: 0,
        guard: vec![nested],
        branches,
    };
    let model = Model {
        probabilistic: false,
        seats: SEATS,
        top: TOP,
        start: 0,
        shared: SHARED,
        statements: vec![statement; STATEMENTS],
    };
    let mut seats = vec![0; 10];
    seats.extend([1, 2, 3, 4, 5, 6]);
    seats.push(SHARED_TOP as u8);
    extreme("longest panel, shared number", model, seats)
}
