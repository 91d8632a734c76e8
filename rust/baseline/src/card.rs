//! The value of a card that has been read.

use crate::counter::guard_holds;
use crate::limits::{BRANCHES, NODES, STATEMENTS, STATES, UNIT};
use crate::refusal::{Refusal, SEAT_COUNT, SEAT_STATE};

/// Which kind of model a card describes.
#[derive(Clone, Copy, PartialEq, Eq, Debug)]
pub enum Mode {
    /// Somebody chooses among the statements that may be taken.
    Nondeterministic,
    /// All (seat, statement) pairs that may be taken are equally likely.
    Probabilistic,
}

impl Mode {
    /// The keyword that opens a card of this mode.
    pub const fn word(self) -> &'static str {
        match self {
            Mode::Nondeterministic => "nondeterministic",
            Mode::Probabilistic => "probabilistic",
        }
    }
}

/// A symmetric group of literals.
#[derive(Clone, Copy, PartialEq, Eq, Debug)]
pub struct Group {
    /// Speaks of every seat; otherwise of all seats but the one that acts.
    pub everyone: bool,
    /// Joined by `|`; otherwise by `&`, as is a group of one literal.
    pub any: bool,
    /// Its literals say `!=`; otherwise `=`.
    pub differs: bool,
    /// The state that its literals name.
    pub state: u8,
}

/// The number that all seats share, as a card declares it.
#[derive(Clone, Copy, PartialEq, Eq, Debug)]
pub struct Shared {
    /// Its highest value.
    pub top: u8,
    /// The value that it starts with.
    pub start: u8,
}

/// A test of the shared number.
#[derive(Clone, Copy, PartialEq, Eq, Debug)]
pub struct SharedTest {
    /// It says `!=`; otherwise `=`.
    pub differs: bool,
    /// The value that it names.
    pub value: u8,
}

impl SharedTest {
    #[inline(always)]
    pub(crate) fn holds(self, shared: u8) -> bool {
        (shared == self.value) != self.differs
    }
}

/// A node of a guard. The nodes of one guard stand in a row, operands before
/// what joins them, so that the last is the root, and the operand of a `!` and
/// the right operand of a joining sign stand directly before it.
#[derive(Clone, Copy, PartialEq, Eq, Debug)]
pub enum Node<Leaf = Group> {
    /// A leaf that speaks of seats.
    Group(Leaf),
    /// A leaf that speaks of the shared number.
    Shared(SharedTest),
    /// The node before it, negated.
    Not,
    /// Two nodes joined by `&`.
    And {
        /// Where the left operand stands in the row.
        left: u8,
    },
    /// Two nodes joined by `|`.
    Or {
        /// Where the left operand stands in the row.
        left: u8,
    },
}

/// One of a statement's ends, with its weight.
#[derive(Clone, Copy, PartialEq, Eq, Debug)]
pub struct Branch {
    /// The weight, in parts of [`UNIT`].
    pub units: u32,
    /// The acting seat's next state.
    pub end: u8,
    /// What the shared number is set to, if the branch sets it.
    pub shared: Option<u8>,
}

impl Branch {
    /// The shared number behind this branch.
    #[inline(always)]
    pub(crate) fn shared_after(&self, before: u8) -> u8 {
        self.shared.unwrap_or(before)
    }
}

/// A seating as far as steps depend on it: no seat is told from another.
#[derive(Clone, Copy)]
pub(crate) struct Situation {
    /// How many seats are in each state.
    pub(crate) counts: [u8; STATES],
    /// The shared number, and 0 where the card has none.
    pub(crate) shared: u8,
}

/// A statement; its guard and its branches lie in the card's common arrays.
#[derive(Clone, Copy, Debug)]
pub struct Statement {
    /// The state that the acting seat must be in.
    pub own: u8,
    pub(crate) guard_from: u16,
    pub(crate) guard_len: u8,
    pub(crate) branches_from: u16,
    pub(crate) branches_len: u8,
}

/// A card that has been read. Only the reader makes one, so whoever holds a
/// card may rely on every limit and on every group being symmetric.
#[derive(Clone)]
pub struct Card {
    pub(crate) mode: Mode,
    pub(crate) seats: u8,
    pub(crate) top: u8,
    pub(crate) start: u8,
    pub(crate) shared: Option<Shared>,
    pub(crate) statement_count: u8,
    pub(crate) statements: [Statement; STATEMENTS],
    pub(crate) nodes: [Node; STATEMENTS * NODES],
    pub(crate) branches: [Branch; STATEMENTS * BRANCHES],
}

impl Card {
    /// What the reader starts from: all zero bytes, which is cheap to make.
    pub(crate) const BLANK: Card = Card {
        mode: Mode::Nondeterministic,
        seats: 0,
        top: 0,
        start: 0,
        shared: None,
        statement_count: 0,
        statements: [Statement {
            own: 0,
            guard_from: 0,
            guard_len: 0,
            branches_from: 0,
            branches_len: 0,
        }; STATEMENTS],
        nodes: [Node::Group(Group {
            everyone: false,
            any: false,
            differs: false,
            state: 0,
        }); STATEMENTS * NODES],
        branches: [Branch {
            units: 0,
            end: 0,
            shared: None,
        }; STATEMENTS * BRANCHES],
    };

    /// The card's mode.
    pub fn mode(&self) -> Mode {
        self.mode
    }

    /// How many seats the table has.
    pub fn seats(&self) -> usize {
        usize::from(self.seats)
    }

    /// The highest state of a seat.
    pub fn top(&self) -> u8 {
        self.top
    }

    /// The state in which every seat starts.
    pub fn start(&self) -> u8 {
        self.start
    }

    /// The shared number, if the card declares it.
    pub fn shared(&self) -> Option<Shared> {
        self.shared
    }

    /// The statements, in the card's order.
    pub fn statements(&self) -> &[Statement] {
        &self.statements[..usize::from(self.statement_count)]
    }

    /// A statement's guard nodes, the root last; empty if there is no guard.
    pub fn guard(&self, statement: &Statement) -> &[Node] {
        let from = usize::from(statement.guard_from);
        &self.nodes[from..from + usize::from(statement.guard_len)]
    }

    /// A statement's branches, in the card's order.
    pub fn branches(&self, statement: &Statement) -> &[Branch] {
        let from = usize::from(statement.branches_from);
        &self.branches[from..from + usize::from(statement.branches_len)]
    }

    /// What a seating comes to: a byte for each seat, and behind them the shared number's where the card has it.
    pub(crate) fn situation(&self, seating: &[u8]) -> Result<Situation, Refusal> {
        let (seats, shared) = match (self.shared, seating) {
            (None, seats) => (seats, 0),
            (Some(_), [seats @ .., shared]) => (seats, *shared),
            (Some(_), []) => return Err(Refusal::new(SEAT_COUNT, 0)),
        };
        if seats.len() != self.seats() {
            return Err(Refusal::new(SEAT_COUNT, 0));
        }
        let mut counts = [0; STATES];
        for (seat, &state) in seats.iter().enumerate() {
            if state > self.top {
                return Err(Refusal::new(SEAT_STATE, seat));
            }
            counts[usize::from(state)] += 1;
        }
        if shared > self.shared.map_or(0, |shared| shared.top) {
            return Err(Refusal::new(SEAT_STATE, seats.len()));
        }
        Ok(Situation { counts, shared })
    }

    /// Whether some seat may take a statement.
    #[inline(always)]
    pub(crate) fn may_be_taken(&self, statement: &Statement, situation: &Situation) -> bool {
        situation.counts[usize::from(statement.own)] > 0
            && guard_holds(self.guard(statement), statement.own, self.seats, situation)
    }

    /// How many guard nodes there are on the whole card.
    pub(crate) fn all_nodes(&self) -> usize {
        let last = self.statements().last();
        last.map_or(0, |last| {
            usize::from(last.guard_from) + usize::from(last.guard_len)
        })
    }

    /// How many branches there are on the whole card.
    pub(crate) fn all_branches(&self) -> usize {
        let last = self.statements().last();
        last.map_or(0, |last| {
            usize::from(last.branches_from) + usize::from(last.branches_len)
        })
    }
}

/// Sameness of cards as the chapter "What a card means" has it: a row of nodes
/// fixes its tree and the other way round, so rows are compared.
impl PartialEq for Card {
    fn eq(&self, other: &Card) -> bool {
        let heads = |card: &Card| (card.mode, card.seats, card.top, card.start, card.shared);
        heads(self) == heads(other)
            && self.statement_count == other.statement_count
            && self
                .statements()
                .iter()
                .zip(other.statements())
                .all(|(a, b)| {
                    a.own == b.own
                        && self.guard(a) == other.guard(b)
                        && self.branches(a) == other.branches(b)
                })
    }
}

impl Eq for Card {}

/// The units of a fraction `a/b`, if it is a good weight.
pub(crate) fn units_of_fraction(above: u32, below: u32) -> Option<u32> {
    let divides = below != 0 && UNIT.is_multiple_of(below);
    (divides && above <= below).then(|| above * (UNIT / below))
}

/// The units of a decimal with these digits behind its point, if it was a good
/// weight while there were decimals; `further` holds the digits behind the point as a number.
pub(crate) fn units_of_decimal(whole: u32, further: u32, digits: usize) -> Option<u32> {
    use crate::limits::WEIGHT_FURTHER_DIGITS;
    if whole > 1 || digits > WEIGHT_FURTHER_DIGITS {
        return None;
    }
    let part = UNIT / 10u32.pow(digits as u32);
    let units = whole * UNIT + further * part;
    (units <= UNIT).then_some(units)
}

/// The units of a number that stands alone, if it is a good weight.
pub(crate) fn units_of_number(number: u32) -> Option<u32> {
    (number <= 1).then_some(number * UNIT)
}

#[cfg(test)]
mod tests {
    use super::*;

    #[test]
    fn good_weights() {
        assert_eq!(units_of_number(0), Some(0));
        assert_eq!(units_of_number(1), Some(UNIT));
        assert_eq!(units_of_decimal(0, 37, 2), Some(102_564));
        assert_eq!(units_of_decimal(0, 5, 2), Some(13_860));
        assert_eq!(units_of_decimal(0, 5, 1), Some(138_600));
        assert_eq!(units_of_decimal(1, 0, 2), Some(UNIT));
        assert_eq!(units_of_fraction(1, 7), Some(39_600));
        assert_eq!(units_of_fraction(1, 11), Some(25_200));
        assert_eq!(units_of_fraction(0, 11), Some(0));
        assert_eq!(units_of_fraction(0, 5), Some(0));
        assert_eq!(units_of_fraction(1, UNIT), Some(1));
        assert_eq!(units_of_fraction(UNIT, UNIT), Some(UNIT));
    }

    #[test]
    fn bad_weights() {
        assert_eq!(units_of_number(2), None);
        assert_eq!(units_of_decimal(0, 5, 3), None);
        assert_eq!(units_of_decimal(0, 500, 3), None);
        assert_eq!(units_of_decimal(1, 1, 2), None);
        assert_eq!(units_of_decimal(2, 0, 1), None);
        assert_eq!(units_of_fraction(1, 13), None);
        assert_eq!(units_of_fraction(0, 13), None);
        assert_eq!(units_of_fraction(11, 121), None);
        assert_eq!(units_of_fraction(3, 2), None);
        assert_eq!(units_of_fraction(0, 0), None);
        assert_eq!(units_of_fraction(1, 2 * UNIT), None);
    }
}
