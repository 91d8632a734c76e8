//! From marks to a card: the shape, the limits, and what is judged later.

use crate::card::{
    units_of_decimal, units_of_fraction, units_of_number, Branch, Card, Group, Mode, Node, Shared,
    SharedTest, Statement,
};
use crate::expression::{Expressions, SpelledGroup};
use crate::limits::{BRANCHES, CARD_BYTES, NODES, SEATS, SHARED_TOP, STATEMENTS, TOP_STATE, UNIT};
use crate::refusal::{Refusal, DECIMAL, STATE, TOO_LONG, WEIGHT, WORD};
use crate::scan::{Fits, Scanner, Spelled, Stop};

/// What the shared number is called, on every card.
pub(crate) const SHARED_NAME: &[u8] = b"g";

/// Which rule the weights of a card have to keep.
#[derive(Clone, Copy, PartialEq, Eq)]
pub(crate) enum Weights {
    /// A decimal is no weight, whatever it is worth.
    New,
    /// A decimal is a weight, if it is a good one. So were cards read until decimals were retired.
    Old,
}

/// Whether a weight of a card that has been read is spelled as a decimal, which the old rule alone takes.
#[derive(Clone, Copy, PartialEq, Eq)]
pub(crate) enum Decimals {
    Absent,
    Present,
}

/// Reads a card.
pub fn judge(card: &[u8]) -> Result<Card, Refusal> {
    let mut read = Card::BLANK;
    read_into(card, &mut read)?;
    Ok(read)
}

/// Reads a card by the old rule of weights, which takes decimals. Only the converter of decks reads cards so.
pub fn judge_old(card: &[u8]) -> Result<Card, Refusal> {
    let mut read = Card::BLANK;
    read_by(Weights::Old, card, &mut read)?;
    Ok(read)
}

/// Reads a card into a blank one, which saves the entries a copy.
pub(crate) fn read_into(bytes: &[u8], card: &mut Card) -> Result<(), Refusal> {
    read_by(Weights::New, bytes, card).map(|_| ())
}

/// The same by either rule of weights.
pub(crate) fn read_by(
    weights: Weights,
    bytes: &[u8],
    card: &mut Card,
) -> Result<Decimals, Refusal> {
    if bytes.len() > CARD_BYTES {
        return Err(Refusal::new(TOO_LONG, 0));
    }
    let mut reader = Reader {
        scan: Scanner::new(bytes),
        card,
        weights,
        decimals: Decimals::Absent,
        late: Late::NONE,
        wanted: Wanted::NONE,
        next_node: 0,
        next_branch: 0,
        guard_from: 0,
        nodes_met: 0,
    };
    reader.card().map_err(|stop| reader.scan.refusal(stop))?;
    match reader.late.first {
        Some(refusal) => Err(refusal),
        None => Ok(reader.decimals),
    }
}

/// The earliest of the refusals that count only where the shape is good.
pub(crate) struct Late {
    pub(crate) first: Option<Refusal>,
}

impl Late {
    pub(crate) const NONE: Late = Late { first: None };

    #[cold]
    pub(crate) fn note(&mut self, number: u8, place: usize) {
        if self.first.is_none_or(|first| place < first.place) {
            self.first = Some(Refusal::new(number, place));
        }
    }
}

/// How many seats the groups speak of. Whether that is right shows only when
/// the last module has been read, and then only the first group that asks for
/// another number of seats counts: either the very first group, or else the
/// first one that disagrees with it.
struct Wanted {
    first: Option<(u32, usize)>,
    disagrees: Option<usize>,
}

impl Wanted {
    const NONE: Wanted = Wanted {
        first: None,
        disagrees: None,
    };

    #[inline(always)]
    fn note(&mut self, seats: u32, place: usize) {
        match self.first {
            None => self.first = Some((seats, place)),
            Some((first, _)) if first != seats && self.disagrees.is_none() => {
                self.disagrees = Some(place);
            }
            Some(_) => {}
        }
    }

    fn first_wrong(&self, seats: u32) -> Option<usize> {
        match self.first {
            Some((first, place)) if first != seats => Some(place),
            _ => self.disagrees,
        }
    }
}

struct Reader<'a, 'c> {
    scan: Scanner<'a>,
    card: &'c mut Card,
    weights: Weights,
    decimals: Decimals,
    late: Late,
    wanted: Wanted,
    /// First free places in the card's arrays.
    next_node: usize,
    next_branch: usize,
    /// Where the nodes of the present statement start.
    guard_from: usize,
    /// Nodes whose marks have been met in the present statement.
    nodes_met: usize,
}

impl<'a> Expressions<'a> for Reader<'a, '_> {
    type Leaf = Group;

    #[inline(always)]
    fn scan(&mut self) -> &mut Scanner<'a> {
        &mut self.scan
    }

    #[inline(always)]
    fn meet_node(&mut self, mark: usize) -> Fits<()> {
        if self.nodes_met == NODES {
            return self.passes_limit(mark);
        }
        self.nodes_met += 1;
        Ok(())
    }

    #[inline(always)]
    fn stored(&self) -> usize {
        self.next_node - self.guard_from
    }

    #[inline(always)]
    fn store(&mut self, node: Node) {
        self.card.nodes[self.next_node] = node;
        self.next_node += 1;
    }

    #[inline(always)]
    fn bracketed(&mut self, bracket: usize, depth: usize) -> Fits<()> {
        match self.scan.seat_word() {
            Ok(seat) => {
                self.meet_node(bracket)?;
                self.group(bracket, seat)
            }
            Err(_) if self.names_shared() => {
                self.meet_node(bracket)?;
                self.shared_test()
            }
            Err(_) => self.nested(bracket, depth),
        }
    }
}

impl Reader<'_, '_> {
    fn card(&mut self) -> Fits<()> {
        self.card.mode = if self.scan.takes_keyword(b"nondeterministic") {
            Mode::Nondeterministic
        } else {
            self.scan.keyword(b"probabilistic")?;
            Mode::Probabilistic
        };
        if self.scan.takes_keyword(b"global") {
            self.shared_declaration()?;
        }
        self.scan.keyword(b"module")?;
        self.due_module(1)?;
        self.states()?;
        let mut statements = 0;
        while self.scan.peek() == b'[' {
            if statements == STATEMENTS {
                return Err(Stop::Limit);
            }
            self.card.statements[statements] = self.statement()?;
            statements += 1;
        }
        if statements == 0 {
            return Err(Stop::Shape);
        }
        self.card.statement_count = statements as u8;
        self.scan.keyword(b"endmodule")?;
        let seats = self.copies()?;
        self.card.seats = seats as u8;
        if let Some(place) = self.wanted.first_wrong(seats) {
            self.late.note(WORD, place);
        }
        Ok(())
    }

    /// `g : [0..m] init v;`, behind `global`.
    fn shared_declaration(&mut self) -> Fits<()> {
        self.scan.keyword(SHARED_NAME)?;
        let top = self.range(SHARED_TOP)?;
        let start = self.number_up_to(top)?;
        self.card.shared = Some(Shared { top, start });
        self.scan.sign(b';')
    }

    /// `s1 : [0..k] init l;`
    fn states(&mut self) -> Fits<()> {
        self.due_seat(1)?;
        self.card.top = self.range(TOP_STATE)?;
        self.card.start = self.state()?;
        self.scan.sign(b';')
    }

    /// `: [0..top] init`, with a top that is not too high.
    fn range(&mut self, highest: usize) -> Fits<u8> {
        self.scan.sign(b':')?;
        self.scan.sign(b'[')?;
        if self.scan.number()? != 0 {
            self.scan.back_to(self.scan.mark());
            return Err(Stop::Shape);
        }
        self.scan.long_sign(*b"..")?;
        let top = self.scan.number()?;
        if top > highest as u32 {
            self.scan.back_to(self.scan.mark());
            return Err(Stop::Limit);
        }
        self.scan.sign(b']')?;
        self.scan.keyword(b"init")?;
        Ok(top as u8)
    }

    /// The modules behind the first; gives the number of all.
    fn copies(&mut self) -> Fits<u32> {
        let mut seats = 1;
        while !self.scan.at_end() {
            self.scan.keyword(b"module")?;
            if seats == SEATS as u32 {
                self.scan.back_to(self.scan.mark());
                return Err(Stop::Limit);
            }
            seats += 1;
            self.due_module(seats)?;
            self.scan.sign(b'=')?;
            self.due_module(1)?;
            self.scan.sign(b'[')?;
            self.due_seat(1)?;
            self.scan.sign(b'=')?;
            self.due_seat(seats)?;
            self.scan.sign(b',')?;
            self.due_seat(seats)?;
            self.scan.sign(b'=')?;
            self.due_seat(1)?;
            self.scan.sign(b']')?;
            self.scan.keyword(b"endmodule")?;
        }
        Ok(seats)
    }

    #[inline(always)]
    fn due_seat(&mut self, due: u32) -> Fits<()> {
        if self.scan.seat_word()? != due {
            self.late.note(WORD, self.scan.mark());
        }
        Ok(())
    }

    fn due_module(&mut self, due: u32) -> Fits<()> {
        if self.scan.module_word()? != due {
            self.late.note(WORD, self.scan.mark());
        }
        Ok(())
    }

    #[inline(always)]
    fn state(&mut self) -> Fits<u8> {
        self.number_up_to(self.card.top)
    }

    /// A number that is judged late. Its high bits are lost only where the card is refused anyway.
    #[inline(always)]
    fn number_up_to(&mut self, top: u8) -> Fits<u8> {
        let number = self.scan.number()?;
        self.note_above(number, top, self.scan.mark());
        Ok(number as u8)
    }

    /// Notes a number that lies above the highest.
    #[inline(always)]
    fn note_above(&mut self, number: u32, top: u8, mark: usize) {
        if number > u32::from(top) {
            self.late.note(STATE, mark);
        }
    }

    /// Takes the shared number's name, which is a word like any other on a card without it.
    #[inline(always)]
    fn names_shared(&mut self) -> bool {
        self.card.shared.is_some() && self.scan.takes_keyword(SHARED_NAME)
    }

    /// A value of the shared number, on a card that has it.
    fn shared_value(&mut self) -> Fits<u8> {
        self.number_up_to(self.card.shared.map_or(0, |shared| shared.top))
    }

    /// A statement, from its first bracket on.
    fn statement(&mut self) -> Fits<Statement> {
        self.guard_from = self.next_node;
        self.nodes_met = 0;
        let branches_from = self.next_branch;
        self.scan.sign(b'[')?;
        self.scan.sign(b']')?;
        self.due_seat(1)?;
        self.scan.sign(b'=')?;
        let own = self.state()?;
        self.guard()?;
        self.scan.long_sign(*b"->")?;
        self.branches()?;
        Ok(Statement {
            own,
            guard_from: self.guard_from as u16,
            guard_len: (self.next_node - self.guard_from) as u8,
            branches_from: branches_from as u16,
            branches_len: (self.next_branch - branches_from) as u8,
        })
    }

    /// What may stand behind the local guard; the first `&` is no node.
    fn guard(&mut self) -> Fits<()> {
        if self.scan.takes(b'&') {
            self.unary(0)?;
            self.conjuncts(0)?;
        }
        Ok(())
    }

    /// A group, from behind its first seat word on.
    fn group(&mut self, bracket: usize, first_seat: u32) -> Fits<()> {
        let spelled = SpelledGroup::taken(&mut self.scan, first_seat)?;
        self.note_above(spelled.state, self.card.top, spelled.state_mark);
        match spelled.wanted {
            Some(wanted) => self.wanted.note(wanted, bracket),
            None => self.late.note(WORD, bracket),
        }
        self.store(Node::Group(spelled.group));
        Ok(())
    }

    /// A test of the shared number, from behind its name on.
    fn shared_test(&mut self) -> Fits<()> {
        let differs = self.scan.relation()?;
        let value = self.shared_value()?;
        self.scan.sign(b')')?;
        self.store(Node::Shared(SharedTest { differs, value }));
        Ok(())
    }

    fn branches(&mut self) -> Fits<()> {
        let mut sum = 0;
        let last = self.next_branch + BRANCHES;
        loop {
            if self.next_branch == last {
                // At one place the shape counts before the limit.
                return Err(if self.scan.weight_starts() {
                    Stop::Limit
                } else {
                    Stop::Shape
                });
            }
            sum += self.branch()?;
            self.next_branch += 1;
            if self.scan.takes(b';') {
                break;
            }
            self.scan.sign(b'+')?;
        }
        if sum != UNIT {
            self.late.note(WEIGHT, self.scan.mark());
        }
        Ok(())
    }

    /// `weight:(s1'=t)`, with `& (g'=v)` behind it on a card that shares a number; gives its units.
    fn branch(&mut self) -> Fits<u32> {
        self.scan.peek();
        let place = self.scan.mark();
        let units = match self.scan.weight()? {
            Spelled::Number(number) => units_of_number(number).ok_or(WEIGHT),
            Spelled::Decimal {
                whole,
                further,
                digits,
            } => {
                self.decimals = Decimals::Present;
                match self.weights {
                    Weights::New => Err(DECIMAL),
                    Weights::Old => units_of_decimal(whole, further, digits).ok_or(WEIGHT),
                }
            }
            Spelled::Fraction(above, below) => units_of_fraction(above, below).ok_or(WEIGHT),
        };
        if let Err(number) = units {
            self.late.note(number, place);
        }
        self.scan.sign(b':')?;
        self.scan.sign(b'(')?;
        self.due_seat(1)?;
        self.scan.sign(b'\'')?;
        self.scan.sign(b'=')?;
        let end = self.state()?;
        self.scan.sign(b')')?;
        let units = units.unwrap_or(0);
        self.card.branches[self.next_branch] = Branch {
            units,
            end,
            shared: None,
        };
        if self.card.shared.is_some() && self.scan.takes(b'&') {
            self.card.branches[self.next_branch].shared = Some(self.shared_update()?);
        }
        Ok(units)
    }

    /// `(g'=v)`
    fn shared_update(&mut self) -> Fits<u8> {
        self.scan.sign(b'(')?;
        self.scan.keyword(SHARED_NAME)?;
        self.scan.sign(b'\'')?;
        self.scan.sign(b'=')?;
        let value = self.shared_value()?;
        self.scan.sign(b')')?;
        Ok(value)
    }
}
