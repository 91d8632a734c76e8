//! A card as it is spelled, before its marks become bytes. Every number is
//! wide, so that a model can also be of a card that breaks the rules.

use crate::marks::Mark;

/// A card.
#[derive(Clone)]
pub struct Model {
    /// Its mode.
    pub probabilistic: bool,
    /// How many modules it has.
    pub seats: usize,
    /// Its top state, k.
    pub top: usize,
    /// Its start, l.
    pub start: usize,
    /// The number that its seats share.
    pub shared: Option<Shared>,
    /// Its statements.
    pub statements: Vec<Statement>,
}

/// `global g : [0..m] init v;`
#[derive(Clone, Copy)]
pub struct Shared {
    /// Its top, m.
    pub top: usize,
    /// Its start, v.
    pub start: usize,
}

/// A statement.
#[derive(Clone)]
pub struct Statement {
    /// The local state, j.
    pub own: usize,
    /// What is joined to the local guard by `&`.
    pub guard: Vec<Unary>,
    /// The branches.
    pub branches: Vec<Branch>,
}

/// A unary.
#[derive(Clone)]
pub enum Unary {
    /// `!` and a unary.
    Not(Box<Unary>),
    /// An expression in brackets.
    Bracket(Expression),
    /// A group.
    Group(Group),
    /// An exactly-one of a question: a term for each seat.
    One(Vec<Group>),
    /// A test of the shared number.
    Shared(SharedTest),
}

/// `(g=v)` or `(g!=v)`.
#[derive(Clone, Copy)]
pub struct SharedTest {
    /// It says `!=`.
    pub differs: bool,
    /// The value.
    pub value: usize,
}

/// Rows of unaries: each row joined by `&`, the rows by `|`.
#[derive(Clone)]
pub struct Expression(pub Vec<Vec<Unary>>);

/// A group of literals.
#[derive(Clone)]
pub struct Group {
    /// Joined by `|`.
    pub any: bool,
    /// Its literals.
    pub literals: Vec<Literal>,
}

/// `si=d` or `si!=d`.
#[derive(Clone, Copy)]
pub struct Literal {
    /// The seat, from 1.
    pub seat: usize,
    /// It says `!=`.
    pub differs: bool,
    /// The state.
    pub state: usize,
}

/// A branch.
#[derive(Clone)]
pub struct Branch {
    /// What the weight is worth, in units.
    pub units: u32,
    /// The weight as it is spelled: one mark, or three.
    pub weight: Vec<Mark>,
    /// The next state, t.
    pub end: usize,
    /// What the shared number is set to.
    pub shared: Option<usize>,
}

impl Unary {
    /// How many guard nodes it has.
    pub fn nodes(&self) -> usize {
        match self {
            Unary::Not(inner) => 1 + inner.nodes(),
            Unary::Bracket(inner) => inner.nodes(),
            Unary::Group(_) | Unary::One(_) | Unary::Shared(_) => 1,
        }
    }
}

impl Unary {
    /// Whether something holds of it, or of anything within it.
    pub fn has(&self, such: &dyn Fn(&Unary) -> bool) -> bool {
        such(self)
            || match self {
                Unary::Not(inner) => inner.has(such),
                Unary::Bracket(inner) => inner.has(such),
                Unary::Group(_) | Unary::One(_) | Unary::Shared(_) => false,
            }
    }
}

impl Expression {
    /// Whether something holds of a unary anywhere in it.
    pub fn has(&self, such: &dyn Fn(&Unary) -> bool) -> bool {
        let Expression(rows) = self;
        rows.iter().flatten().any(|unary| unary.has(such))
    }

    /// How many guard nodes it has.
    pub fn nodes(&self) -> usize {
        let Expression(rows) = self;
        rows.iter().map(|row| row_nodes(row)).sum::<usize>() + rows.len() - 1
    }
}

/// How many guard nodes a row of unaries has, with the signs between them.
pub fn row_nodes(row: &[Unary]) -> usize {
    row.iter().map(Unary::nodes).sum::<usize>() + row.len().saturating_sub(1)
}

/// A seating, taken apart.
#[derive(Clone, Copy)]
pub struct Seating<'s> {
    /// The seats.
    pub seats: &'s [u8],
    /// The shared number, and 0 where there is none.
    pub shared: u8,
}

impl Model {
    /// A seating as the library is handed it, taken apart: with a shared number that stands last.
    pub fn seating<'s>(&self, bytes: &'s [u8]) -> Seating<'s> {
        match (self.shared, bytes) {
            (Some(_), [seats @ .., shared]) => Seating {
                seats,
                shared: *shared,
            },
            _ => Seating {
                seats: bytes,
                shared: 0,
            },
        }
    }

    /// How many values the shared number has, and one where there is none.
    pub fn shared_values(&self) -> usize {
        self.shared.map_or(1, |shared| shared.top + 1)
    }

    /// Every seating, as the library is handed it.
    pub fn seatings(&self) -> impl Iterator<Item = Vec<u8>> {
        let (seats, roles, values) = (self.seats, self.top + 1, self.shared_values());
        let has_shared = self.shared.is_some();
        (0..roles.pow(seats as u32) * values).map(move |number| {
            let mut rest = number / values;
            let mut bytes: Vec<u8> = (0..seats)
                .map(|_| {
                    let state = rest % roles;
                    rest /= roles;
                    state as u8
                })
                .collect();
            if has_shared {
                bytes.push((number % values) as u8);
            }
            bytes
        })
    }

    /// Whether something holds of a unary of a guard.
    pub fn has(&self, such: &dyn Fn(&Unary) -> bool) -> bool {
        let mut guards = self.statements.iter().flat_map(|one| &one.guard);
        guards.any(|unary| unary.has(such))
    }

    /// Whether a weight has a number of just so many digits.
    pub fn has_weight_of_digits(&self, digits: usize) -> bool {
        let branches = self.statements.iter().flat_map(|one| &one.branches);
        let mut marks = branches.flat_map(|branch| &branch.weight);
        marks.any(|mark| mark.is_number() && mark.bytes().len() == digits)
    }

    /// The marks of the card.
    pub fn marks(&self) -> Vec<Mark> {
        let mut marks = Vec::with_capacity(200);
        self.put(&mut marks);
        marks
    }

    fn put(&self, marks: &mut Vec<Mark>) {
        put(
            marks,
            if self.probabilistic {
                "probabilistic"
            } else {
                "nondeterministic"
            },
        );
        if let Some(Shared { top, start }) = self.shared {
            put(marks, "global g : [ 0 ..");
            marks.push(Mark::number(top));
            put(marks, "] init");
            marks.push(Mark::number(start));
            put(marks, ";");
        }
        put(marks, "module process1 s1 : [ 0 ..");
        marks.push(Mark::number(self.top));
        put(marks, "] init");
        marks.push(Mark::number(self.start));
        put(marks, ";");
        for statement in &self.statements {
            statement.put(marks);
        }
        put(marks, "endmodule");
        for seat in 2..=self.seats {
            put(marks, "module");
            marks.push(Mark::module(seat));
            put(marks, "= process1 [ s1 =");
            marks.push(Mark::seat(seat));
            put(marks, ",");
            marks.push(Mark::seat(seat));
            put(marks, "= s1 ] endmodule");
        }
    }
}

/// Puts marks that stand with blanks between them.
fn put(marks: &mut Vec<Mark>, text: &str) {
    marks.extend(text.split(' ').map(|mark| Mark::new(mark.as_bytes())));
}

impl Statement {
    fn put(&self, marks: &mut Vec<Mark>) {
        put(marks, "[ ] s1 =");
        marks.push(Mark::number(self.own));
        for unary in &self.guard {
            put(marks, "&");
            unary.put(marks);
        }
        put(marks, "->");
        for (place, branch) in self.branches.iter().enumerate() {
            if place > 0 {
                put(marks, "+");
            }
            marks.extend(&branch.weight);
            put(marks, ": ( s1 ' =");
            marks.push(Mark::number(branch.end));
            put(marks, ")");
            if let Some(value) = branch.shared {
                put(marks, "& ( g ' =");
                marks.push(Mark::number(value));
                put(marks, ")");
            }
        }
        put(marks, ";");
    }
}

impl Unary {
    fn put(&self, marks: &mut Vec<Mark>) {
        match self {
            Unary::Not(inner) => {
                put(marks, "!");
                inner.put(marks);
            }
            Unary::Bracket(expression) => {
                put(marks, "(");
                expression.put(marks);
                put(marks, ")");
            }
            Unary::Group(group) => group.put(marks),
            Unary::Shared(SharedTest { differs, value }) => {
                put(marks, if *differs { "( g !=" } else { "( g =" });
                marks.push(Mark::number(*value));
                put(marks, ")");
            }
            Unary::One(terms) => {
                put(marks, "(");
                for (place, term) in terms.iter().enumerate() {
                    if place > 0 {
                        put(marks, "|");
                    }
                    term.put(marks);
                }
                put(marks, ")");
            }
        }
    }
}

impl Expression {
    /// Its marks, as a question has them.
    pub fn marks(&self) -> Vec<Mark> {
        let mut marks = Vec::with_capacity(100);
        self.put(&mut marks);
        marks
    }

    fn put(&self, marks: &mut Vec<Mark>) {
        let Expression(rows) = self;
        for (place, row) in rows.iter().enumerate() {
            if place > 0 {
                put(marks, "|");
            }
            for (place, unary) in row.iter().enumerate() {
                if place > 0 {
                    put(marks, "&");
                }
                unary.put(marks);
            }
        }
    }
}

impl Group {
    fn put(&self, marks: &mut Vec<Mark>) {
        put(marks, "(");
        for (place, literal) in self.literals.iter().enumerate() {
            if place > 0 {
                put(marks, if self.any { "|" } else { "&" });
            }
            marks.push(Mark::seat(literal.seat));
            put(marks, if literal.differs { "!=" } else { "=" });
            marks.push(Mark::number(literal.state));
        }
        put(marks, ")");
    }
}
