//! The written card: one card, one text.

use crate::card::{Card, Group, Node, Statement};
use crate::read::read_into;
use crate::refusal::Refusal;
use crate::text::{print_into, Print, Text, DECLARATION, SHARED_UPDATE, WEIGHT_MOST};

/// Writes a card in its canonical form into a lent room.
pub fn write(card: &[u8], room: &mut [u8]) -> Result<usize, Refusal> {
    let mut read = Card::BLANK;
    read_into(card, &mut read)?;
    write_read(&read, room)
}

/// Writes a card that has been read already.
pub fn write_read(card: &Card, room: &mut [u8]) -> Result<usize, Refusal> {
    print_into(&Written(card), room)
}

/// A card as it is written.
pub(crate) struct Written<'c>(pub(crate) &'c Card);

impl Print for Written<'_> {
    fn most(&self) -> usize {
        const FRAME: usize =
            "nondeterministic\nmodule process1\ns1 : [0..7] init 7;\nendmodule\n".len();
        const MODULE: usize = "module process16 = process1 [s1=s16, s16=s1] endmodule\n".len();
        const STATEMENT: usize = "[] s1=7 &  -> ;\n".len();
        const BRANCH: usize = " + :(s1'=7)".len() + SHARED_UPDATE + WEIGHT_MOST;
        const LITERAL: usize = " & s16!=7".len();
        // A node without its literals: of all that there are a joined one in brackets is the longest. A test of the shared number is shorter than that with one literal.
        const NODE: usize = "( & )".len();
        let seats = self.0.seats();
        FRAME
            + DECLARATION
            + seats * MODULE
            + self.0.statements().len() * STATEMENT
            + self.0.all_nodes() * (NODE + seats * LITERAL)
            + self.0.all_branches() * BRANCH
    }

    fn print<T: Text>(&self, text: &mut T) {
        let card = self.0;
        text.bytes(card.mode.word().as_bytes());
        text.byte(b'\n');
        text.declaration(card.shared);
        text.bytes(b"module process1\ns1 : [0..");
        text.digit(card.top);
        text.bytes(b"] init ");
        text.digit(card.start);
        text.bytes(b";\n");
        for statement in card.statements() {
            self.statement(statement, text);
        }
        text.bytes(b"endmodule\n");
        for seat in 2..=u32::from(card.seats) {
            text.bytes(b"module process");
            text.number(seat);
            text.bytes(b" = process1 [s1=s");
            text.number(seat);
            text.bytes(b", s");
            text.number(seat);
            text.bytes(b"=s1] endmodule\n");
        }
    }
}

/// What stands round a node, as far as brackets depend on it.
#[derive(Clone, Copy)]
enum Around {
    WholeGuard,
    Not,
    LeftOfAnd,
    RightOfAnd,
    LeftOfOr,
    RightOfOr,
}

impl Written<'_> {
    fn statement<T: Text>(&self, statement: &Statement, text: &mut T) {
        text.bytes(b"[] s1=");
        text.digit(statement.own);
        let guard = self.0.guard(statement);
        if !guard.is_empty() {
            text.bytes(b" & ");
            self.node(guard, Around::WholeGuard, text);
        }
        text.bytes(b" -> ");
        for (place, branch) in self.0.branches(statement).iter().enumerate() {
            if place > 0 {
                text.bytes(b" + ");
            }
            text.weight(branch.units);
            text.bytes(b":(s1'=");
            text.bytes(&[b'0' + branch.end, b')']);
            if let Some(value) = branch.shared {
                text.bytes(b" & ");
                text.shared_update(value);
            }
        }
        text.bytes(b";\n");
    }

    /// Prints the last of some nodes with all that hangs below it.
    fn node<T: Text>(&self, nodes: &[Node], around: Around, text: &mut T) {
        use Around::*;
        let Some((root, below)) = nodes.split_last() else {
            return;
        };
        match *root {
            Node::Group(group) => self.group(group, text),
            Node::Shared(test) => text.shared_test(test),
            Node::Not => {
                text.byte(b'!');
                self.node(below, Not, text);
            }
            Node::And { left } => {
                let brackets = matches!(around, Not | RightOfAnd);
                open(brackets, text);
                self.node(&below[..=usize::from(left)], LeftOfAnd, text);
                text.bytes(b" & ");
                self.node(below, RightOfAnd, text);
                close(brackets, text);
            }
            Node::Or { left } => {
                let brackets = !matches!(around, LeftOfOr);
                open(brackets, text);
                self.node(&below[..=usize::from(left)], LeftOfOr, text);
                text.bytes(b" | ");
                self.node(below, RightOfOr, text);
                close(brackets, text);
            }
        }
    }

    fn group<T: Text>(&self, group: Group, text: &mut T) {
        let first = if group.everyone { 1 } else { 2 };
        text.byte(b'(');
        for seat in first..=u32::from(self.0.seats) {
            // Pieces of fixed length throughout: groups are most of a card.
            if seat > first {
                text.bytes(if group.any { b" | " } else { b" & " });
            }
            text.byte(b's');
            text.number(seat);
            if group.differs {
                text.byte(b'!');
            }
            text.bytes(&[b'=', b'0' + group.state]);
        }
        text.byte(b')');
    }
}

fn open<T: Text>(brackets: bool, text: &mut T) {
    if brackets {
        text.byte(b'(');
    }
}

fn close<T: Text>(brackets: bool, text: &mut T) {
    if brackets {
        text.byte(b')');
    }
}
