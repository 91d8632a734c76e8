//! The reduced program as text: counters in place of seats.

use crate::card::{Branch, Card, Mode, Node, Statement};
use crate::counter::{Comparison, CounterTest};
use crate::limits::STATES;
use crate::read::read_into;
use crate::refusal::Refusal;
use crate::text::{print_into, Print, Text, DECLARATION, SHARED_UPDATE, WEIGHT_MOST};

/// Writes the reduced text of a card into a lent room.
pub fn reduce(card: &[u8], room: &mut [u8]) -> Result<usize, Refusal> {
    let mut read = Card::BLANK;
    read_into(card, &mut read)?;
    print_into(&Reduced(&read), room)
}

struct Reduced<'c>(&'c Card);

impl Print for Reduced<'_> {
    fn most(&self) -> usize {
        const FRAME: usize = "nondeterministic\nmodule generic_process\nendmodule\n".len();
        const COUNTER: usize = "no_7 : [0..16] init 16;\n".len();
        const STATEMENT: usize = "[] (no_7>15) &  -> ;\n".len();
        // Of all nodes a test is the longest.
        const NODE: usize = "(no_7=16)".len();
        const BRANCH: usize =
            " + :(no_7'=no_7-1) & (no_7'=min(no_7+1,16))".len() + SHARED_UPDATE + WEIGHT_MOST;
        let once = self.0.statements().len() * STATEMENT
            + self.0.all_nodes() * NODE
            + self.0.all_branches() * BRANCH;
        FRAME + DECLARATION + STATES * COUNTER + usize::from(self.copies()) * once
    }

    fn print<T: Text>(&self, text: &mut T) {
        let card = self.0;
        text.bytes(card.mode.word().as_bytes());
        text.byte(b'\n');
        text.declaration(card.shared);
        text.bytes(b"module generic_process\n");
        for state in 0..=card.top {
            counter(state, text);
            text.bytes(b" : [0..");
            text.number(card.seats.into());
            text.bytes(b"] init ");
            let at_start = if state == card.start { card.seats } else { 0 };
            text.number(at_start.into());
            text.bytes(b";\n");
        }
        for statement in card.statements() {
            self.statement(statement, text);
        }
        text.bytes(b"endmodule\n");
    }
}

impl Reduced<'_> {
    /// How often each statement stands: once for each seat that may act, so that their weights add up.
    fn copies(&self) -> u8 {
        match self.0.mode {
            Mode::Nondeterministic => 1,
            Mode::Probabilistic => self.0.seats,
        }
    }

    /// The copies of one statement: they differ only in their first test.
    fn statement<T: Text>(&self, statement: &Statement, text: &mut T) {
        first_test(statement.own, 0, text);
        let from = text.length();
        self.behind_first_test(statement, text);
        let to = text.length();
        for copy in 1..self.copies() {
            first_test(statement.own, copy, text);
            text.again(from, to);
        }
    }

    fn behind_first_test<T: Text>(&self, statement: &Statement, text: &mut T) {
        let guard = self.0.guard(statement);
        if !guard.is_empty() {
            text.bytes(b" & ");
            self.node(guard, statement.own, text);
        }
        text.bytes(b" -> ");
        for (place, &branch) in self.0.branches(statement).iter().enumerate() {
            if place > 0 {
                text.bytes(b" + ");
            }
            self.branch(branch, statement.own, text);
        }
        text.bytes(b";\n");
    }

    /// Prints the last of some nodes with all that hangs below it.
    fn node<T: Text>(&self, nodes: &[Node], own: u8, text: &mut T) {
        let Some((root, below)) = nodes.split_last() else {
            return;
        };
        let (left, sign) = match *root {
            Node::Group(group) => {
                let test = CounterTest::of_group(group, own, self.0.seats);
                return counter_test(group.state, test, text);
            }
            Node::Shared(test) => return text.shared_test(test),
            Node::Not => {
                text.byte(b'!');
                return self.node(below, own, text);
            }
            Node::And { left } => (left, b" & "),
            Node::Or { left } => (left, b" | "),
        };
        text.byte(b'(');
        self.node(&below[..=usize::from(left)], own, text);
        text.bytes(sign);
        self.node(below, own, text);
        text.byte(b')');
    }

    fn branch<T: Text>(&self, branch: Branch, own: u8, text: &mut T) {
        text.weight(branch.units);
        text.byte(b':');
        let moves = branch.end != own;
        if moves {
            self.seat_moves(branch.end, own, text);
        }
        match branch.shared {
            Some(value) => {
                text.bytes(if moves { &b" & "[..] } else { b"" });
                text.shared_update(value);
            }
            None if moves => {}
            None => text.bytes(b"true"),
        }
    }

    /// One seat more in a state, and one less where it was.
    fn seat_moves<T: Text>(&self, end: u8, own: u8, text: &mut T) {
        text.byte(b'(');
        counter(own, text);
        text.bytes(b"'=");
        counter(own, text);
        text.bytes(b"-1) & (");
        counter(end, text);
        text.bytes(b"'=min(");
        counter(end, text);
        text.bytes(b"+1,");
        text.number(self.0.seats.into());
        text.bytes(b"))");
    }
}

/// The name of a state's counter.
#[inline(always)]
fn counter<T: Text>(state: u8, text: &mut T) {
    text.bytes(&[b'n', b'o', b'_', b'0' + state]);
}

/// The start of a statement, up to the test that some seat can act.
fn first_test<T: Text>(own: u8, copy: u8, text: &mut T) {
    text.bytes(b"[] (");
    counter(own, text);
    text.byte(b'>');
    text.number(copy.into());
    text.byte(b')');
}

fn counter_test<T: Text>(state: u8, test: CounterTest, text: &mut T) {
    text.byte(b'(');
    counter(state, text);
    text.byte(match test.comparison {
        Comparison::Equal => b'=',
        Comparison::Above => b'>',
        Comparison::Below => b'<',
    });
    text.number(test.number.into());
    text.byte(b')');
}
