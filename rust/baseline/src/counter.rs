//! The table of the chapter "What a card means": from groups to counter tests.

use crate::card::{Group, Node, Situation};

/// How a counter is compared with a number.
#[derive(Clone, Copy, PartialEq, Eq, Debug)]
pub(crate) enum Comparison {
    Equal,
    Above,
    Below,
}

/// A test of the number of seats in one state.
#[derive(Clone, Copy, PartialEq, Eq, Debug)]
pub(crate) struct CounterTest {
    pub(crate) comparison: Comparison,
    pub(crate) number: u8,
}

impl CounterTest {
    /// The test that stands for a group, in a statement of seats in state `own`
    /// at a table of so many seats.
    #[inline(always)]
    pub(crate) fn of_group(group: Group, own: u8, seats: u8) -> CounterTest {
        // The acting seat is in state `own` and is not among the others: where
        // they speak of that state, it is counted once too often, where they
        // speak of another, it is missing from the whole.
        let others_own = !group.everyone && group.state == own;
        let others_else = !group.everyone && group.state != own;
        let all = seats - u8::from(others_else);
        let none = u8::from(others_own);
        let (comparison, number) = match (group.any, group.differs) {
            (false, false) => (Comparison::Equal, all),
            (true, false) => (Comparison::Above, none),
            (false, true) => (Comparison::Equal, none),
            (true, true) => (Comparison::Below, all),
        };
        CounterTest { comparison, number }
    }

    #[inline(always)]
    pub(crate) fn holds(self, count: u8) -> bool {
        match self.comparison {
            Comparison::Equal => count == self.number,
            Comparison::Above => count > self.number,
            Comparison::Below => count < self.number,
        }
    }
}

/// Whether a translated guard holds.
#[inline]
pub(crate) fn guard_holds(guard: &[Node], own: u8, seats: u8, at: &Situation) -> bool {
    row_holds(guard, at.shared, |group| {
        let test = CounterTest::of_group(group, own, seats);
        test.holds(at.counts[usize::from(group.state)])
    })
}

/// Whether a row of nodes holds, given the shared number and what the leaves
/// that speak of seats do. The nodes stand operands first, so one pass with a
/// stack of bits does it; there are at most as many values waiting as there are
/// nodes.
#[inline(always)]
pub(crate) fn row_holds<Leaf: Copy>(
    row: &[Node<Leaf>],
    shared: u8,
    holds: impl Fn(Leaf) -> bool,
) -> bool {
    const { assert!(crate::limits::NODES <= 64) };
    // No node at all holds.
    let mut waiting: u64 = 1;
    for node in row {
        match *node {
            Node::Group(leaf) => waiting = waiting << 1 | u64::from(holds(leaf)),
            Node::Shared(test) => waiting = waiting << 1 | u64::from(test.holds(shared)),
            Node::Not => waiting ^= 1,
            Node::And { .. } => waiting = waiting >> 1 & (waiting | !1),
            Node::Or { .. } => waiting = waiting >> 1 | waiting & 1,
        }
    }
    waiting & 1 == 1
}

#[cfg(test)]
mod tests {
    use super::Comparison::*;
    use super::*;
    use crate::card::SharedTest;

    /// The twelve places of the table, for a table of five seats.
    #[test]
    fn table() {
        let rows = [
            (false, false, [(Equal, 5), (Equal, 5), (Equal, 4)]),
            (true, false, [(Above, 0), (Above, 1), (Above, 0)]),
            (false, true, [(Equal, 0), (Equal, 1), (Equal, 0)]),
            (true, true, [(Below, 5), (Below, 5), (Below, 4)]),
        ];
        for (any, differs, tests) in rows {
            let test = |everyone, own| {
                let group = Group {
                    everyone,
                    any,
                    differs,
                    state: 2,
                };
                let test = CounterTest::of_group(group, own, 5);
                (test.comparison, test.number)
            };
            assert_eq!(test(true, 2), tests[0]);
            assert_eq!(test(true, 3), tests[0]);
            assert_eq!(test(false, 2), tests[1]);
            assert_eq!(test(false, 3), tests[2]);
        }
    }

    #[test]
    fn joined_and_negated() {
        let at_zero = |differs| {
            Node::Group(Group {
                everyone: true,
                any: true,
                differs,
                state: 0,
            })
        };
        let (yes, no) = (at_zero(false), at_zero(true));
        let alone = Situation {
            counts: [1, 0, 0, 0, 0, 0, 0, 0],
            shared: 0,
        };
        let holds = |nodes: &[Node]| guard_holds(nodes, 0, 1, &alone);
        assert!(holds(&[]));
        assert!(holds(&[yes]));
        assert!(!holds(&[no]));
        assert!(holds(&[no, Node::Not]));
        for (left, right) in [(yes, yes), (yes, no), (no, yes), (no, no)] {
            let both = left == yes && right == yes;
            let either = left == yes || right == yes;
            assert_eq!(holds(&[left, right, Node::And { left: 0 }]), both);
            assert_eq!(holds(&[left, right, Node::Or { left: 0 }]), either);
            // Not either, and yes: the value below on the stack stays as it is.
            let deep = [
                yes,
                left,
                right,
                Node::Or { left: 1 },
                Node::Not,
                Node::And { left: 0 },
            ];
            assert_eq!(holds(&deep), !either);
        }
    }

    #[test]
    fn tests_of_the_shared_number() {
        for value in 0..8 {
            for shared in 0..8 {
                let at = Situation {
                    counts: [0; 8],
                    shared,
                };
                for differs in [false, true] {
                    let test = Node::Shared(SharedTest { differs, value });
                    let holds = (shared == value) ^ differs;
                    assert_eq!(guard_holds(&[test], 0, 1, &at), holds);
                    assert_eq!(guard_holds(&[test, Node::Not], 0, 1, &at), !holds);
                }
            }
        }
    }
}
