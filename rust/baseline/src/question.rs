//! Questions about a seating: whether something holds at the table, yes or no.

use crate::card::{Card, Node, SharedTest, Situation};
use crate::counter::{row_holds, Comparison, CounterTest};
use crate::expression::{Expressions, SeatSet, SpelledGroup};
use crate::limits::{NODES, QUESTION_BYTES};
use crate::read::{read_into, Late, SHARED_NAME};
use crate::refusal::{Refusal, OF_QUESTION, STATE, TOO_LONG, WORD};
use crate::scan::{Fits, Scanner, Stop};

/// Answers a question about a seating of a card.
pub fn ask(card: &[u8], question: &[u8], seats: &[u8]) -> Result<bool, Refusal> {
    let mut read = Card::BLANK;
    read_into(card, &mut read)?;
    let question = Question::read_for(question, &read)?;
    let situation = read.situation(seats)?;
    Ok(question.holds(&situation))
}

/// A group of a question: how many seats are in one state.
#[derive(Clone, Copy)]
struct Asked {
    state: u8,
    test: CounterTest,
}

/// A question that has been read, operands before what joins them.
pub(crate) struct Question {
    nodes: [Node<Asked>; NODES],
    length: usize,
}

impl Question {
    /// Reads a question about a card's table, with a question's own refusals.
    pub(crate) fn read_for(bytes: &[u8], card: &Card) -> Result<Question, Refusal> {
        Question::read(bytes, card)
            .map_err(|refusal| Refusal::new(OF_QUESTION + refusal.number, refusal.place))
    }

    fn read(bytes: &[u8], card: &Card) -> Result<Question, Refusal> {
        if bytes.len() > QUESTION_BYTES {
            return Err(Refusal::new(TOO_LONG, 0));
        }
        let mut reader = Reader {
            scan: Scanner::new(bytes),
            card,
            question: Question {
                nodes: [Node::Not; NODES],
                length: 0,
            },
            late: Late::NONE,
            nodes_met: 0,
        };
        reader.whole().map_err(|stop| reader.scan.refusal(stop))?;
        match reader.late.first {
            Some(refusal) => Err(refusal),
            None => Ok(reader.question),
        }
    }

    pub(crate) fn holds(&self, at: &Situation) -> bool {
        row_holds(&self.nodes[..self.length], at.shared, |asked| {
            asked.test.holds(at.counts[usize::from(asked.state)])
        })
    }
}

struct Reader<'a, 'c> {
    scan: Scanner<'a>,
    card: &'c Card,
    question: Question,
    late: Late,
    nodes_met: usize,
}

impl<'a> Expressions<'a> for Reader<'a, '_> {
    type Leaf = Asked;

    #[inline(always)]
    fn scan(&mut self) -> &mut Scanner<'a> {
        &mut self.scan
    }

    fn meet_node(&mut self, mark: usize) -> Fits<()> {
        if self.nodes_met == NODES {
            return self.passes_limit(mark);
        }
        self.nodes_met += 1;
        Ok(())
    }

    fn stored(&self) -> usize {
        self.question.length
    }

    fn store(&mut self, node: Node<Asked>) {
        self.question.nodes[self.question.length] = node;
        self.question.length += 1;
    }

    fn bracketed(&mut self, bracket: usize, depth: usize) -> Fits<()> {
        if let Ok(seat) = self.scan.seat_word() {
            self.meet_node(bracket)?;
            return self.group(bracket, seat);
        }
        if let Some(shared) = self.card.shared {
            if self.scan.takes_keyword(SHARED_NAME) {
                self.meet_node(bracket)?;
                return self.shared_test(shared.top);
            }
        }
        // Only one term is looked at in advance, and only at the bracket before
        // its own, so that nothing is read more than twice.
        let mut behind_term = self.scan;
        match Term::taken(&mut behind_term) {
            Ok(term) if term.has_both_relations() => {
                self.meet_node(bracket)?;
                self.scan = behind_term;
                self.exactly_one(bracket, term)
            }
            _ => self.nested(bracket, depth),
        }
    }
}

impl Reader<'_, '_> {
    fn whole(&mut self) -> Fits<()> {
        self.expression(0)?;
        if self.scan.at_end() {
            Ok(())
        } else {
            Err(Stop::Shape)
        }
    }

    /// A group, from behind its first seat word on.
    fn group(&mut self, bracket: usize, first_seat: u32) -> Fits<()> {
        let spelled = SpelledGroup::taken(&mut self.scan, first_seat)?;
        let group = spelled.group;
        if !(group.everyone && spelled.wanted == Some(self.card.seats.into())) {
            self.late.note(WORD, bracket);
        }
        // Of everyone it does not matter who asks.
        let test = CounterTest::of_group(group, 0, self.card.seats);
        self.store_test(spelled.state, spelled.state_mark, test);
        Ok(())
    }

    /// A test of the shared number, from behind its name on.
    fn shared_test(&mut self, top: u8) -> Fits<()> {
        let differs = self.scan.relation()?;
        let value = self.scan.number()?;
        if value > top.into() {
            self.late.note(STATE, self.scan.mark());
        }
        self.scan.sign(b')')?;
        let value = value as u8;
        self.store(Node::Shared(SharedTest { differs, value }));
        Ok(())
    }

    /// The terms that say of each seat in turn that it is the only one, from behind the first on.
    fn exactly_one(&mut self, bracket: usize, first: Term) -> Fits<()> {
        let everyone = (1 << self.card.seats) - 1;
        let (state, state_mark) = (first.state, first.state_mark);
        let mut due = 1;
        let mut right = first.says_only(due, everyone);
        while self.scan.takes(b'|') {
            let term = Term::taken(&mut self.scan)?;
            due <<= 1;
            right &= due <= everyone && term.state == state && term.says_only(due, everyone);
        }
        self.scan.sign(b')')?;
        // The term of the last seat came last.
        if !right || due != 1 << (self.card.seats - 1) {
            self.late.note(WORD, bracket);
        }
        let test = CounterTest {
            comparison: Comparison::Equal,
            number: 1,
        };
        self.store_test(state, state_mark, test);
        Ok(())
    }

    /// Stores a leaf. The state's high bits are lost only where the question is refused.
    fn store_test(&mut self, state: u32, state_mark: usize, test: CounterTest) {
        if state > self.card.top.into() {
            self.late.note(STATE, state_mark);
        }
        self.store(Node::Group(Asked {
            state: state as u8,
            test,
        }));
    }
}

/// Literals in brackets, joined by `&`.
struct Term {
    /// Whom it says to be in a state.
    equal: SeatSet,
    /// Whom it says not to be.
    other: SeatSet,
    /// The state of its first literal, and where that stands.
    state: u32,
    state_mark: usize,
    /// All its literals name one state.
    alike: bool,
}

impl Term {
    fn taken(scan: &mut Scanner) -> Fits<Term> {
        let mut term = Term {
            equal: SeatSet::NONE,
            other: SeatSet::NONE,
            state: 0,
            state_mark: 0,
            alike: true,
        };
        scan.sign(b'(')?;
        loop {
            let first = term.equal.is_empty() && term.other.is_empty();
            let seat = scan.seat_word()?;
            let seats = match scan.relation()? {
                false => &mut term.equal,
                true => &mut term.other,
            };
            seats.add(seat);
            let state = scan.number()?;
            if first {
                term.state = state;
                term.state_mark = scan.mark();
            }
            term.alike &= state == term.state;
            if !scan.takes(b'&') {
                break;
            }
        }
        scan.sign(b')')?;
        Ok(term)
    }

    fn has_both_relations(&self) -> bool {
        !self.equal.is_empty() && !self.other.is_empty()
    }

    /// Whether it says that of everyone this seat alone is in its state.
    fn says_only(&self, seat: u32, everyone: u32) -> bool {
        self.alike && self.equal.is(seat) && self.other.is(everyone & !seat)
    }
}
