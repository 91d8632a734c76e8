//! Valid cards over the whole range of the limits, and cards just past one.

use crate::marks::{lay_out, Layout};
use crate::model::{
    row_nodes, Branch, Expression, Group, Literal, Model, Shared, SharedTest, Statement, Unary,
};
use crate::random::Random;
use crate::weights::weights;

/// Document 01's limits, and document 02's of the shared number.
pub mod limits {
    /// Longest card, in bytes.
    pub const CARD_BYTES: usize = 16_384;
    /// Most seats.
    pub const SEATS: usize = 16;
    /// Highest top state.
    pub const TOP: usize = 7;
    /// Highest top of the shared number.
    pub const SHARED_TOP: usize = 7;
    /// Most statements.
    pub const STATEMENTS: usize = 32;
    /// Most branches in a statement.
    pub const BRANCHES: usize = 8;
    /// Most guard nodes in a statement.
    pub const NODES: usize = 32;
    /// Most open brackets and `!`.
    pub const DEPTH: usize = 8;
}
use limits::*;

/// The most that a card may have of each thing.
#[derive(Clone, Copy)]
pub struct Size {
    /// Seats.
    pub seats: usize,
    /// Top state.
    pub top: usize,
    /// Top of the shared number, where the card has one.
    pub shared: Option<usize>,
    /// Statements.
    pub statements: usize,
    /// Branches in a statement.
    pub branches: usize,
    /// Guard nodes in a statement.
    pub nodes: usize,
}

impl Size {
    /// Any size within the limits; most are small, so that many can be tried.
    pub fn any(random: &mut Random) -> Size {
        let (statements, branches, nodes) = match random.below(40) {
            0..=31 => (2, 4, 6),
            32..=38 => (6, BRANCHES, 12),
            _ => (STATEMENTS, BRANCHES, NODES),
        };
        let most_seats = random.pick(&[4, 8, SEATS]);
        Size {
            seats: random.between(1, most_seats),
            top: random.between(0, TOP),
            shared: shared_top(SHARED_TOP, random),
            statements,
            branches,
            nodes,
        }
    }

    /// A table small enough to try every seating.
    pub fn small(random: &mut Random) -> Size {
        Size {
            seats: random.between(1, 4),
            top: random.between(0, 3),
            shared: shared_top(2, random),
            statements: 3,
            branches: 4,
            nodes: 6,
        }
    }
}

/// Once in so many cards there is a shared number.
const SHARED_ONCE_IN: usize = 3;

/// Mostly no shared number, or one with a top up to this.
pub fn shared_top(most: usize, random: &mut Random) -> Option<usize> {
    random
        .once_in(SHARED_ONCE_IN)
        .then(|| random.between(0, most))
}

/// A valid card; it is short enough if it is laid out tightly.
pub fn card(size: Size, random: &mut Random) -> Model {
    let mut model = Model {
        probabilistic: random.once_in(2),
        seats: size.seats,
        top: size.top,
        start: random.between(0, size.top),
        shared: size.shared.map(|top| Shared {
            top,
            start: random.between(0, top),
        }),
        statements: Vec::new(),
    };
    let mut bytes = 110 + 52 * size.seats;
    for _ in 0..random.between(1, size.statements) {
        let next = statement(size, random);
        let groups = row_nodes(&next.guard) / 2 + 1;
        bytes += 20 + groups * (size.seats * 7 + 4) + next.branches.len() * 30;
        if bytes > CARD_BYTES && !model.statements.is_empty() {
            break;
        }
        model.statements.push(next);
    }
    model
}

/// A valid card that is nearly as long as a card may be, if it is laid out tightly.
pub fn dense_card(random: &mut Random) -> Model {
    let size = Size {
        seats: random.between(6, 10),
        top: random.between(0, TOP),
        shared: shared_top(SHARED_TOP, random),
        statements: 1,
        branches: BRANCHES,
        nodes: NODES,
    };
    let mut model = card(size, random);
    while model.statements.len() < STATEMENTS {
        let mut next = statement(size, random);
        let leaves = Leaves::Guard { own: next.own };
        next.guard = Guards {
            size,
            leaves,
            random,
        }
        .row_of_exactly(NODES);
        model.statements.push(next);
        if lay_out(&model.marks(), Layout::Tight, random).len() > CARD_BYTES {
            model.statements.pop();
            break;
        }
    }
    model
}

/// A statement.
pub fn statement(size: Size, random: &mut Random) -> Statement {
    let own = random.between(0, size.top);
    let guard = if random.once_in(6) {
        Vec::new()
    } else {
        let nodes = random.between(1, size.nodes);
        let leaves = Leaves::Guard { own };
        Guards {
            size,
            leaves,
            random,
        }
        .row(nodes, DEPTH)
    };
    Statement {
        own,
        guard,
        branches: branches(
            random.between(1, size.branches),
            size.top,
            size.shared,
            random,
        ),
    }
}

/// So many branches, whose weights sum to one, for seats and perhaps a shared number up to these tops.
pub fn branches(
    count: usize,
    top: usize,
    shared: Option<usize>,
    random: &mut Random,
) -> Vec<Branch> {
    weights(count, random)
        .into_iter()
        .map(|(units, weight)| Branch {
            units,
            weight,
            end: random.between(0, top),
            shared: shared.and_then(|top| random.once_in(2).then(|| random.between(0, top))),
        })
        .collect()
}

/// What stands at the leaves of an expression.
#[derive(Clone, Copy)]
pub enum Leaves {
    /// A statement's groups, of everyone and of others.
    Guard {
        /// The statement's local state.
        own: usize,
    },
    /// A question's groups, of everyone, and exactly-ones.
    Question,
}

/// What the guards of one statement, or a question, are made from.
pub struct Guards<'r> {
    /// The card's size.
    pub size: Size,
    /// What stands at the leaves.
    pub leaves: Leaves,
    /// Where chance comes from.
    pub random: &'r mut Random,
}

impl Guards<'_> {
    /// Unaries joined by `&`, with at most so many nodes, one at least.
    pub fn row(&mut self, nodes: usize, depth: usize) -> Vec<Unary> {
        let mut row = Vec::new();
        let mut left = nodes;
        loop {
            let most = self.random.between(1, left);
            let unary = self.unary(most, depth);
            left -= unary.nodes();
            row.push(unary);
            if left < 2 || self.random.once_in(4) {
                return row;
            }
            left -= 1;
        }
    }

    fn unary(&mut self, nodes: usize, depth: usize) -> Unary {
        if depth == 0 || nodes == 1 && !self.random.once_in(8) {
            return self.leaf();
        }
        if nodes > 1 && self.random.once_in(3) {
            return Unary::Not(Box::new(self.unary(nodes - 1, depth - 1)));
        }
        Unary::Bracket(self.expression(nodes, depth - 1))
    }

    /// An expression with at most so many nodes, one at least.
    pub fn expression(&mut self, nodes: usize, depth: usize) -> Expression {
        let mut rows = Vec::new();
        let mut left = nodes;
        loop {
            let most = self.random.between(1, left);
            let row = self.row(most, depth);
            left -= row_nodes(&row);
            rows.push(row);
            if left < 2 || self.random.once_in(3) {
                return Expression(rows);
            }
            left -= 1;
        }
    }

    /// Any leaf.
    pub fn leaf(&mut self) -> Unary {
        let (seats, top) = (self.size.seats, self.size.top);
        if let Some(top) = self.size.shared.filter(|_| self.random.once_in(3)) {
            let value = self.random.between(0, top);
            return self.shared_test(value);
        }
        match self.leaves {
            Leaves::Guard { own } => {
                let first = if seats > 1 && self.random.once_in(2) {
                    2
                } else {
                    1
                };
                let state = self.random.once_in(2).then_some(own);
                let state = state.unwrap_or_else(|| self.random.between(0, top));
                self.group(first, state)
            }
            Leaves::Question => {
                let state = self.random.between(0, top);
                if seats > 1 && self.random.once_in(3) {
                    Unary::One(self.exactly_one(state))
                } else {
                    self.group(1, state)
                }
            }
        }
    }

    /// A test of the shared number.
    pub fn shared_test(&mut self, value: usize) -> Unary {
        let differs = self.random.once_in(2);
        Unary::Shared(SharedTest { differs, value })
    }

    /// For each seat the term that it alone is in a state.
    pub fn exactly_one(&mut self, state: usize) -> Vec<Group> {
        let seats = self.size.seats;
        let shuffled = self.random.once_in(2);
        let term = |only: usize, random: &mut Random| {
            let literal = |seat| Literal {
                seat,
                differs: seat != only,
                state,
            };
            let mut literals: Vec<Literal> = (1..=seats).map(literal).collect();
            if shuffled {
                random.shuffle(&mut literals);
            }
            Group {
                any: false,
                literals,
            }
        };
        (1..=seats).map(|only| term(only, self.random)).collect()
    }

    /// A symmetric group of the seats from the first on.
    pub fn group(&mut self, first: usize, state: usize) -> Unary {
        let random = &mut *self.random;
        let differs = random.once_in(2);
        let mut literals: Vec<Literal> = (first..=self.size.seats)
            .map(|seat| Literal {
                seat,
                differs,
                state,
            })
            .collect();
        if random.once_in(4) {
            random.shuffle(&mut literals);
        }
        Unary::Group(Group {
            any: literals.len() > 1 && random.once_in(2),
            literals,
        })
    }

    /// A guard of exactly so many nodes, three at least.
    pub fn row_of_exactly(&mut self, nodes: usize) -> Vec<Unary> {
        let most = self.random.between(1, (nodes - 2).min(NODES));
        let mut row = self.row(most, DEPTH - 1);
        while row_nodes(&row) + 2 <= nodes {
            let place = self.random.below(row.len() + 1);
            let leaf = self.leaf();
            row.insert(place, leaf);
        }
        if row_nodes(&row) < nodes {
            let place = self.random.below(row.len());
            let inner = row.remove(place);
            row.insert(place, Unary::Not(Box::new(inner)));
        }
        row
    }

    /// A unary with exactly so many `!` and brackets open around its middle.
    pub fn unary_of_exactly(&mut self, depth: usize) -> Unary {
        let mut unary = self.leaf();
        for _ in 0..depth {
            unary = if self.random.once_in(2) {
                Unary::Not(Box::new(unary))
            } else {
                let mut rows = vec![vec![unary]];
                if self.random.once_in(4) {
                    rows.push(vec![self.leaf()]);
                } else if self.random.once_in(4) {
                    let leaf = self.leaf();
                    rows[0].insert(0, leaf);
                }
                Unary::Bracket(Expression(rows))
            };
        }
        unary
    }
}

/// A limit that a model can reach or pass.
#[derive(Clone, Copy, PartialEq, Eq)]
pub enum Limit {
    /// Seats.
    Seats,
    /// Top state.
    Top,
    /// Statements.
    Statements,
    /// Branches in a statement.
    Branches,
    /// Guard nodes in a statement.
    Nodes,
    /// Open brackets and `!`.
    Depth,
    /// Top of the shared number.
    Shared,
}

impl Limit {
    /// All of them.
    pub const ALL: [Limit; 7] = [
        Limit::Seats,
        Limit::Top,
        Limit::Statements,
        Limit::Branches,
        Limit::Nodes,
        Limit::Depth,
        Limit::Shared,
    ];
}

/// A card that is so far past a limit: by 0 it just keeps it.
pub fn card_at(limit: Limit, past: usize, random: &mut Random) -> Model {
    let mut size = Size {
        statements: 2,
        branches: 3,
        nodes: 4,
        ..Size::any(random)
    };
    match limit {
        Limit::Seats => size.seats = SEATS + past,
        Limit::Top => size.top = TOP + past,
        Limit::Shared => size.shared = Some(SHARED_TOP + past),
        Limit::Statements => {
            size.seats = random.between(1, 6);
            (size.branches, size.nodes) = (2, 2);
        }
        _ => size.seats = random.between(1, 8),
    }
    let mut model = card(size, random);
    if limit == Limit::Statements {
        while model.statements.len() < STATEMENTS + past {
            model.statements.push(statement(size, random));
        }
    }
    let chosen = random.below(model.statements.len());
    let chosen = &mut model.statements[chosen];
    let leaves = Leaves::Guard { own: chosen.own };
    let mut guards = Guards {
        size,
        leaves,
        random,
    };
    match limit {
        Limit::Seats | Limit::Top | Limit::Statements | Limit::Shared => {}
        Limit::Branches => {
            chosen.branches = branches(BRANCHES + past, size.top, size.shared, random);
        }
        Limit::Nodes => chosen.guard = guards.row_of_exactly(NODES + past),
        Limit::Depth => {
            let deep = guards.unary_of_exactly(DEPTH + past);
            let place = guards.random.below(chosen.guard.len().min(2) + 1);
            chosen.guard.truncate(2);
            chosen.guard.insert(place, deep);
        }
    }
    model
}
