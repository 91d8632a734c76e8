//! Questions for the tables of the inputs: over the whole range of what may be
//! asked, on both sides of each limit, and damaged.

use crate::cards::limits::{CARD_BYTES, DEPTH, NODES, SEATS, SHARED_TOP, TOP};
use crate::cards::{Guards, Leaves, Size};
use crate::damage::{any_byte, damage_bytes, junk, ByteDamage, MarkDamage};
use crate::inputs::Input;
use crate::marks::{lay_out, Layout, Mark};
use crate::model::{Expression, Group, Literal, Unary};
use crate::random::Random;

/// Longest question, in bytes.
const QUESTION_BYTES: usize = CARD_BYTES;
/// Nodes of most questions.
const FEW_NODES: usize = 6;

/// What a question is meant to try.
#[derive(Clone, Copy, PartialEq, Eq, Debug)]
pub enum Kind {
    /// Any that is answered.
    Valid,
    /// As long as a question may be.
    AtLength,
    /// One byte longer, or more.
    PastLength,
    /// As many nodes as a question may have.
    AtNodes,
    /// One more, or a few.
    PastNodes,
    /// As many open brackets and `!` as there may be.
    AtDepth,
    /// One more, or two.
    PastDepth,
    /// A number of six digits.
    SixDigits,
    /// A number of seven digits, or one with a leading zero.
    SevenDigits,
    /// A group that names a state above the card's highest.
    Above,
    /// A group of the others.
    Others,
    /// An exactly-one with something wrong.
    WrongOne,
    /// A test of the shared number that names a value above its top; on a card without it, any test.
    SharedAbove,
    /// A test of the shared number that does not fit; on a card without it, any test.
    SharedShape,
    /// One damage to the marks.
    Marks,
    /// Several damages to the marks.
    Several,
    /// One damage to the bytes.
    Bytes(ByteDamage),
    /// The beginning of a question.
    Cut,
    /// Damaged where it is refused.
    Aimed,
    /// No question at all.
    Junk,
}

impl Kind {
    /// All kinds, with how many of a hundred questions are of it.
    pub const SHARES: [(Kind, usize); 24] = [
        (Kind::Valid, 22),
        (Kind::AtLength, 3),
        (Kind::PastLength, 3),
        (Kind::AtNodes, 4),
        (Kind::PastNodes, 4),
        (Kind::AtDepth, 4),
        (Kind::PastDepth, 4),
        (Kind::SixDigits, 3),
        (Kind::SevenDigits, 3),
        (Kind::Above, 6),
        (Kind::Others, 5),
        (Kind::WrongOne, 9),
        (Kind::SharedAbove, 2),
        (Kind::SharedShape, 2),
        (Kind::Marks, 7),
        (Kind::Several, 3),
        (Kind::Bytes(ByteDamage::Removed), 2),
        (Kind::Bytes(ByteDamage::Doubled), 2),
        (Kind::Bytes(ByteDamage::Swapped), 2),
        (Kind::Bytes(ByteDamage::Changed), 2),
        (Kind::Bytes(ByteDamage::Inserted), 2),
        (Kind::Cut, 2),
        (Kind::Aimed, 3),
        (Kind::Junk, 1),
    ];

    fn any(random: &mut Random) -> Kind {
        let mut left = random.below(100);
        for (kind, share) in Kind::SHARES {
            if left < share {
                return kind;
            }
            left -= share;
        }
        unreachable!("the shares add up to a hundred")
    }

    /// The refusal that most of its questions are given, if it is made to be refused in one way.
    pub fn refusal(self) -> Option<u8> {
        match self {
            Kind::PastLength => Some(21),
            Kind::SevenDigits => Some(22),
            Kind::Cut | Kind::SharedShape => Some(23),
            Kind::PastNodes | Kind::PastDepth => Some(24),
            Kind::SixDigits | Kind::Above | Kind::SharedAbove => Some(25),
            Kind::Others | Kind::WrongOne => Some(26),
            _ => None,
        }
    }

    /// Whether it is made to be answered.
    pub fn is_valid(self) -> bool {
        matches!(
            self,
            Kind::Valid | Kind::AtLength | Kind::AtNodes | Kind::AtDepth
        )
    }
}

/// A question about the table of an input.
pub struct Question {
    /// What it is meant to try.
    pub kind: Kind,
    /// Its bytes.
    pub bytes: Vec<u8>,
    /// The question as it was made, where it is valid.
    pub model: Option<Expression>,
}

impl Question {
    /// Whether it has an exactly-one, as it was made.
    pub fn has_exactly_one(&self) -> bool {
        self.has(&|unary| matches!(unary, Unary::One(_)))
    }

    /// Whether it tests the shared number, as it was made.
    pub fn tests_shared(&self) -> bool {
        self.has(&|unary| matches!(unary, Unary::Shared(_)))
    }

    fn has(&self, such: &dyn Fn(&Unary) -> bool) -> bool {
        self.model.as_ref().is_some_and(|model| model.has(such))
    }

    /// A question of any kind.
    pub fn new(input: &Input, random: &mut Random) -> Question {
        let kind = Kind::any(random);
        let size = Size {
            seats: input.table.seats.clamp(1, SEATS),
            top: input.table.top.min(TOP),
            shared: input.table.shared.map(|top| top.min(SHARED_TOP)),
            statements: 1,
            branches: 1,
            nodes: FEW_NODES,
        };
        let mut made = Made { size, random };
        let model = made.model(kind);
        let bytes = made.bytes(kind, &model, input);
        // What had to be cut short is no longer what was made.
        let valid = kind.is_valid() && bytes.len() <= QUESTION_BYTES;
        Question {
            kind,
            bytes,
            model: valid.then_some(model),
        }
    }
}

/// What questions for a table are made from.
struct Made<'r> {
    size: Size,
    random: &'r mut Random,
}

impl Made<'_> {
    fn leaves(&mut self) -> Guards<'_> {
        Guards {
            size: self.size,
            leaves: Leaves::Question,
            random: self.random,
        }
    }

    fn model(&mut self, kind: Kind) -> Expression {
        let past = self.random.pick(&[1, 1, 1, 2]);
        match kind {
            Kind::AtNodes => self.of_nodes(NODES),
            Kind::PastNodes => self.of_nodes(NODES + past),
            Kind::AtDepth => self.of_depth(DEPTH),
            Kind::PastDepth => self.of_depth(DEPTH + past),
            Kind::Aimed if self.random.once_in(2) => {
                let past = self.random.below(2);
                if self.random.once_in(2) {
                    self.of_nodes(NODES + past)
                } else {
                    self.of_depth(DEPTH + past)
                }
            }
            Kind::Above => {
                let above = self.size.top + self.random.pick(&[1, 1, 1, 2, 9, 248, 256, 65_528]);
                let leaf = self.leaf_of(above);
                self.with(leaf)
            }
            Kind::SixDigits => {
                // The low bits of some would be a state.
                let state = self
                    .random
                    .pick(&[100_000, 123_456, 131_072, 262_144, 999_999]);
                let leaf = self.leaf_of(state);
                self.with(leaf)
            }
            Kind::Others => {
                let state = self.random.between(0, self.size.top + 1);
                let first = if self.size.seats == 1 { 1 } else { 2 };
                let others = self.leaves().group(first, state);
                self.with(others)
            }
            Kind::WrongOne => {
                let wrong = self.wrong_one();
                self.with(wrong)
            }
            Kind::SharedAbove | Kind::SharedShape => {
                // The low bits of some would be a value.
                let over = self.random.pick(&[1, 1, 1, 2, 248, 256, 65_536, 262_144]);
                let value = match kind {
                    Kind::SharedAbove => self.size.shared.unwrap_or(0) + over,
                    _ => 0,
                };
                let test = self.leaves().shared_test(value);
                self.with(test)
            }
            _ => {
                let few = self.size.nodes;
                let nodes = self.random.pick(&[1, few, few, few, 12, NODES]);
                self.leaves().expression(nodes, DEPTH)
            }
        }
    }

    /// A question of exactly so many nodes.
    fn of_nodes(&mut self, nodes: usize) -> Expression {
        let row = self.leaves().row_of_exactly(nodes);
        // Any sign between unaries may as well be the other one.
        let ors = self.random.below(3);
        let mut rows: Vec<Vec<Unary>> = Vec::new();
        for unary in row {
            match rows.last_mut() {
                Some(last) if self.random.below(3) >= ors => last.push(unary),
                _ => rows.push(vec![unary]),
            }
        }
        Expression(rows)
    }

    fn of_depth(&mut self, depth: usize) -> Expression {
        let deep = self.leaves().unary_of_exactly(depth);
        let mut rows = vec![vec![deep]];
        if self.random.once_in(3) {
            let leaf = self.leaves().leaf();
            rows.insert(self.random.below(2), vec![leaf]);
        }
        Expression(rows)
    }

    fn leaf_of(&mut self, state: usize) -> Unary {
        if self.size.seats > 1 && self.random.once_in(2) {
            return Unary::One(self.leaves().exactly_one(state));
        }
        self.leaves().group(1, state)
    }

    /// A small question with this somewhere in it.
    fn with(&mut self, unary: Unary) -> Expression {
        let unary = match self.random.below(6) {
            0 => Unary::Not(Box::new(unary)),
            1 => Unary::Bracket(Expression(vec![vec![unary]])),
            _ => unary,
        };
        if self.random.once_in(3) {
            return Expression(vec![vec![unary]]);
        }
        let Expression(mut rows) = self.leaves().expression(FEW_NODES, DEPTH);
        let row = self.random.below(rows.len());
        let place = self.random.below(rows[row].len() + 1);
        rows[row].insert(place, unary);
        Expression(rows)
    }

    /// An exactly-one with one thing wrong.
    fn wrong_one(&mut self) -> Unary {
        let state = self.random.between(0, self.size.top);
        let other = self.random.between(0, self.size.top + 1);
        let mut terms = self.leaves().exactly_one(state);
        if self.size.seats == 1 {
            // The one literal would be a group.
            terms[0].literals.push(Literal {
                seat: 1,
                differs: true,
                state,
            });
            return Unary::One(terms);
        }
        let random = &mut *self.random;
        let term = random.below(terms.len());
        let literal = random.below(self.size.seats);
        match random.below(13) {
            0 => terms.swap(term, (term + 1) % self.size.seats),
            1 => random.shuffle(&mut terms),
            2 => drop(terms.remove(term)),
            3 => terms.insert(term, terms[term].clone()),
            4 => terms[term] = terms[(term + 1) % self.size.seats].clone(),
            5 => terms[term].literals[literal].state = other,
            6 => {
                let literals = terms[term].literals.iter_mut();
                literals.for_each(|literal| literal.state = other);
            }
            7 => terms[term].literals[literal].differs ^= true,
            8 => drop(terms[term].literals.remove(literal)),
            9 => {
                let twice = terms[term].literals[literal];
                terms[term].literals.push(twice);
            }
            10 => {
                let missing = random.pick(&[0, self.size.seats + 1, 17, 99_999]);
                terms[term].literals[literal].seat = missing;
            }
            11 => {
                // The right terms of a table with a seat more, or with one less.
                let seats = self.size.seats + random.below(2) * 2 - 1;
                let size = Size { seats, ..self.size };
                let leaves = Leaves::Question;
                let mut guards = Guards {
                    size,
                    leaves,
                    random,
                };
                terms = guards.exactly_one(state);
            }
            _ => terms.push(Group {
                any: random.once_in(4),
                literals: terms[term].literals[..=literal].to_vec(),
            }),
        }
        Unary::One(terms)
    }

    fn bytes(&mut self, kind: Kind, model: &Expression, input: &Input) -> Vec<u8> {
        let random = &mut *self.random;
        let mut marks = model.marks();
        let damages = match kind {
            Kind::Marks => 1,
            Kind::Several => random.between(2, 4),
            _ => 0,
        };
        for _ in 0..damages {
            random.pick(&MarkDamage::ALL).inflict(&mut marks, random);
        }
        if kind == Kind::SevenDigits {
            too_many_digits(&mut marks, random);
        }
        if kind == Kind::SharedShape && self.size.shared.is_some() {
            misshape(&mut marks, random);
        }
        let mut bytes = lay_out(&marks, Layout::any(random), random);
        if bytes.len() > QUESTION_BYTES {
            bytes = lay_out(&marks, Layout::Tight, random);
        }
        match kind {
            Kind::AtLength => fill(&mut bytes, QUESTION_BYTES, random),
            Kind::PastLength => {
                let length = random.pick(&[1, 1, 1, 1, 2, 300, 16_384, 49_156]);
                fill(&mut bytes, QUESTION_BYTES + length, random);
            }
            Kind::Bytes(damage) => damage.inflict(&mut bytes, random),
            Kind::Cut => bytes.truncate(random.below(bytes.len() + 1)),
            Kind::Aimed => {
                for _ in 0..random.between(1, 2) {
                    damage_where_refused(&mut bytes, input, random);
                }
            }
            Kind::Junk => bytes = junk(random),
            _ => {}
        }
        if kind == Kind::Several && random.once_in(3) {
            damage_bytes(&mut bytes, random);
        }
        bytes
    }
}

/// Puts a number that has a digit too many, or a zero too many, in place of one.
fn too_many_digits(marks: &mut [Mark], random: &mut Random) {
    const WRONG: [&str; 5] = ["1234567", "1000000", "00", "01", "0.1234567"];
    let numbers: Vec<usize> = (0..marks.len())
        .filter(|&place| marks[place].is_number())
        .collect();
    marks[random.pick(&numbers)] = Mark::new(random.pick(&WRONG).as_bytes());
}

/// Puts something into a test of the shared number that does not fit there.
fn misshape(marks: &mut Vec<Mark>, random: &mut Random) {
    let names: Vec<usize> = (0..marks.len())
        .filter(|&place| marks[place].bytes() == b"g")
        .collect();
    let name = random.pick(&names);
    let (place, piece): (usize, &[&str]) = match random.below(6) {
        0 => (name + 1, &["'"]),
        1 => (name, &["("]),
        2 => (name, &["!"]),
        3 => (name + 3, &["&", "s1", "=", "0"]),
        4 => (name + 3, &["|", "g", "=", "0"]),
        _ => (name, &["s1", "=", "0", "&"]),
    };
    let piece = piece.iter().map(|mark| Mark::new(mark.as_bytes()));
    marks.splice(place..place, piece);
}

/// Fills a question up to a length with what separates, before it or behind it.
fn fill(bytes: &mut Vec<u8>, length: usize, random: &mut Random) {
    let missing = length.saturating_sub(bytes.len());
    match random.below(3) {
        0 => drop(bytes.splice(0..0, std::iter::repeat_n(b' ', missing))),
        1 if missing >= 3 => {
            bytes.extend(b"\n//");
            bytes.resize(length, any_byte(random));
        }
        _ => bytes.resize(length.max(bytes.len()), b'\n'),
    }
}

/// Changes a question at the place where it is refused, or close by; one that is
/// answered, where something ends.
fn damage_where_refused(bytes: &mut Vec<u8>, input: &Input, random: &mut Random) {
    const PIECES: [&[u8]; 16] = [
        b"|", b"&", b"(", b")", b"!", b"!=", b" ", b"s1", b"0", b"((", b"9", b"(s1=0)", b"//",
        b"<", b"g", b"(g=0)",
    ];
    let place = match baseline::ask(&input.card, bytes, &input.seats) {
        Err(refusal) if refusal.number > 20 => refusal.place + random.below(3),
        _ => {
            let start = random.below(bytes.len() + 1);
            let end = bytes[start..]
                .iter()
                .position(|byte| matches!(byte, b')' | b'('));
            start + end.unwrap_or(0)
        }
    };
    let place = place.min(bytes.len());
    match random.below(3) {
        0 if place < bytes.len() => drop(bytes.remove(place)),
        1 if place < bytes.len() => bytes[place] = any_byte(random),
        _ => drop(bytes.splice(place..place, random.pick(&PIECES).iter().copied())),
    }
}
