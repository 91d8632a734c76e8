//! Expressions of groups: what the guards of a card and questions have in common.

use crate::card::{Group, Node};
use crate::limits::{DEPTH, SEATS};
use crate::scan::{Fits, Scanner, Stop};

/// A reader of expressions. Where nodes are kept, and what may start at a
/// bracket, is up to each.
pub(crate) trait Expressions<'a> {
    /// What its leaves are kept as.
    type Leaf;

    fn scan(&mut self) -> &mut Scanner<'a>;

    /// Counts a node at its own mark. A joined node is met at its sign but
    /// stored only behind its right operand.
    fn meet_node(&mut self, mark: usize) -> Fits<()>;

    /// How many nodes of the present expression are stored.
    fn stored(&self) -> usize;

    fn store(&mut self, node: Node<Self::Leaf>);

    /// What an opening bracket starts, from behind it on, with so many `!` and brackets open around it.
    fn bracketed(&mut self, bracket: usize, depth: usize) -> Fits<()>;

    fn expression(&mut self, depth: usize) -> Fits<()> {
        self.unary(depth)?;
        self.conjuncts(depth)?;
        while self.scan().takes(b'|') {
            let left = self.meet_joining_sign()?;
            self.unary(depth)?;
            self.conjuncts(depth)?;
            self.store(Node::Or { left });
        }
        Ok(())
    }

    /// `& unary`, as often as it comes, behind a unary.
    fn conjuncts(&mut self, depth: usize) -> Fits<()> {
        while self.scan().takes(b'&') {
            let left = self.meet_joining_sign()?;
            self.unary(depth)?;
            self.store(Node::And { left });
        }
        Ok(())
    }

    fn unary(&mut self, depth: usize) -> Fits<()> {
        if self.scan().takes_not() {
            let mark = self.scan().mark();
            if depth == DEPTH {
                return self.passes_limit(mark);
            }
            self.meet_node(mark)?;
            self.unary(depth + 1)?;
            self.store(Node::Not);
            return Ok(());
        }
        self.scan().sign(b'(')?;
        let bracket = self.scan().mark();
        self.bracketed(bracket, depth)
    }

    /// An expression in brackets, from behind the first on.
    #[inline(always)]
    fn nested(&mut self, bracket: usize, depth: usize) -> Fits<()> {
        if depth == DEPTH {
            return self.passes_limit(bracket);
        }
        self.expression(depth + 1)?;
        self.scan().sign(b')')
    }

    /// Counts a joined node at its sign and gives its left operand's place.
    #[inline(always)]
    fn meet_joining_sign(&mut self) -> Fits<u8> {
        let mark = self.scan().mark();
        self.meet_node(mark)?;
        Ok((self.stored() - 1) as u8)
    }

    #[cold]
    fn passes_limit(&mut self, mark: usize) -> Fits<()> {
        self.scan().back_to(mark);
        Err(Stop::Limit)
    }
}

/// A group as it is spelled.
pub(crate) struct SpelledGroup {
    /// The group, if it is symmetric and its state is one.
    pub(crate) group: Group,
    /// The state of its first literal, which speaks for all of a symmetric
    /// group; any other is refused at its bracket, which comes earlier.
    pub(crate) state: u32,
    /// Where that state stands.
    pub(crate) state_mark: usize,
    /// How many seats a table has for which it is symmetric.
    pub(crate) wanted: Option<u32>,
}

impl SpelledGroup {
    /// Takes a group from behind its first seat word on.
    #[inline(always)]
    pub(crate) fn taken(scan: &mut Scanner, first_seat: u32) -> Fits<SpelledGroup> {
        let differs = scan.relation()?;
        let state = scan.number()?;
        let state_mark = scan.mark();
        let sign = scan.peek();
        let mut seats = SeatSet::NONE;
        seats.add(first_seat);
        let mut alike = true;
        if sign == b'&' || sign == b'|' {
            while scan.takes(sign) {
                seats.add(scan.seat_word()?);
                alike &= scan.relation()? == differs;
                alike &= scan.number()? == state;
            }
        }
        scan.sign(b')')?;
        Ok(SpelledGroup {
            group: Group {
                everyone: seats.has_first(),
                any: sign == b'|',
                differs,
                state: state as u8,
            },
            state,
            state_mark,
            wanted: seats.wanted().filter(|_| alike),
        })
    }
}

const HIGHEST_SEAT: u32 = SEATS as u32;

/// The seats that some literals name.
pub(crate) struct SeatSet {
    /// Bit 0 stands for seat 1.
    bits: u32,
    /// A seat came twice, or no table has it.
    broken: bool,
}

impl SeatSet {
    pub(crate) const NONE: SeatSet = SeatSet {
        bits: 0,
        broken: false,
    };

    #[inline(always)]
    pub(crate) fn add(&mut self, seat: u32) {
        let bit = match seat {
            1..=HIGHEST_SEAT => 1 << (seat - 1),
            _ => 0,
        };
        self.broken |= bit == 0 || self.bits & bit != 0;
        self.bits |= bit;
    }

    fn has_first(&self) -> bool {
        self.bits & 1 != 0
    }

    /// The number of seats for which these are all seats, or all but the first.
    #[inline(always)]
    fn wanted(&self) -> Option<u32> {
        let with_first = self.bits | 1;
        let without_gap = with_first & (with_first + 1) == 0;
        (without_gap && !self.broken).then(|| with_first.count_ones())
    }

    /// Whether nobody was named, seats that no table has included.
    pub(crate) fn is_empty(&self) -> bool {
        self.bits == 0 && !self.broken
    }

    /// Whether these are just the seats that the bits stand for, each named once.
    pub(crate) fn is(&self, bits: u32) -> bool {
        self.bits == bits && !self.broken
    }
}
