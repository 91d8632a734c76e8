//! A walk along the shape of a card or a question: where it stops and what was due there, and what stands on the way that can be judged
//! late. It decides nothing; it is asked what stands at a place that the library has named.

use crate::marks::{marks, Kind, Mark};

/// Most seats of a table.
pub const SEATS: usize = open_panel::SEATS;
/// Most statements of a card.
pub const STATEMENTS: usize = 32;
/// Most branches of a statement.
pub const BRANCHES: usize = 8;
/// Most nodes of a guard or a question.
pub const NODES: usize = 32;
/// Most open brackets and `!`.
pub const DEPTH: usize = 8;
/// The highest role of any card, and the highest value of a shared number.
pub const TOP: u32 = open_panel::TOP_STATE as u32;
/// What the number that seats share is called.
pub const SHARED: &str = "g";
/// A weight of one.
pub const UNIT: u32 = open_panel::UNIT;

/// Where the shape goes on no further.
#[derive(Clone, Debug)]
pub struct Stop {
    /// The mark, by its place among the marks.
    pub mark: usize,
    /// What of the shape was being read.
    pub within: &'static str,
    /// What was due: marks, or with `@` in front a kind of mark.
    pub due: Vec<String>,
    /// The limit that is passed, if it is one.
    pub limit: Option<&'static str>,
}

/// `s2=0` or `s2!=0`.
#[derive(Clone, Debug)]
pub struct Literal {
    /// The seat's number.
    pub seat: u32,
    /// `!=`.
    pub differs: bool,
    /// The role's number.
    pub state: u32,
}

/// Literals in brackets.
#[derive(Clone, Debug)]
pub struct Group {
    /// Its bracket.
    pub at: usize,
    /// The byte behind its closing bracket.
    pub end: usize,
    /// It is joined by `|`.
    pub any: bool,
    /// What stands in it.
    pub literals: Vec<Literal>,
}

/// Exactly one seat, written out.
#[derive(Clone, Debug)]
pub struct One {
    /// Its outer bracket.
    pub at: usize,
    /// The byte behind its closing bracket.
    pub end: usize,
    /// Its terms.
    pub terms: Vec<Group>,
}

/// A word that has to be a certain one.
#[derive(Clone, Debug)]
pub struct Due {
    /// The mark.
    pub mark: Mark,
    /// The word that is due.
    pub word: String,
    /// What of the shape it stands in.
    pub within: &'static str,
}

/// What was met on the walk.
#[derive(Clone, Debug, Default)]
pub struct Walk {
    /// All marks, up to one that is wrong or the end.
    pub marks: Vec<Mark>,
    /// Where it stopped, if it did not reach the end.
    pub stop: Option<Stop>,
    /// The groups of guards, or of the question.
    pub groups: Vec<Group>,
    /// The exactly-ones of a question.
    pub ones: Vec<One>,
    /// Roles: the mark, and what it is the role of.
    pub states: Vec<(Mark, &'static str)>,
    /// Words that have to be certain ones.
    pub words: Vec<Due>,
    /// Weights: their first and last mark.
    pub weights: Vec<(Mark, Mark)>,
    /// Sums: the `;`, and the parts of [`UNIT`] that the weights before it come to.
    pub sums: Vec<(Mark, u32)>,
    /// Statements: the first byte, and the byte behind the last.
    pub statements: Vec<(usize, usize)>,
    /// The numbers of the module words, one for each module.
    pub modules: Vec<u32>,
    /// Where each further module begins, by its place among the marks.
    pub copies: Vec<usize>,
    /// The mark of the highest role.
    pub top: Option<Mark>,
    /// The card declares a number that its seats share, or begins to; a question is about such a card.
    pub shares: bool,
    /// The mark of that number's highest value.
    pub shared_top: Option<Mark>,
    /// Values of it: the mark, and what it is the value of.
    pub values: Vec<(Mark, &'static str)>,
    /// The card is nondeterministic.
    pub nondeterministic: bool,
}

/// Walks along a card.
pub fn card(text: &[u8]) -> Walk {
    walked(text, Walker::card)
}

/// Mode, seats, roles and statements of a card that is taken.
pub fn summary(text: &[u8]) -> String {
    let walk = card(text);
    let count =
        |count: usize, one: &str| format!("{count} {one}{}", if count == 1 { "" } else { "s" });
    let mode = if walk.nondeterministic {
        "nondeterministic"
    } else {
        "probabilistic"
    };
    let top = walk.top.map_or(String::new(), |top| {
        String::from_utf8_lossy(top.of(text)).into_owned()
    });
    let roles = if top == "0" {
        "role 0".to_string()
    } else {
        format!("roles 0 to {top}")
    };
    let shared = walk.shared_top.map_or(String::new(), |top| {
        format!(", g up to {}", String::from_utf8_lossy(top.of(text)))
    });
    let (seats, statements) = (
        count(walk.modules.len(), "seat"),
        count(walk.statements.len(), "statement"),
    );
    format!("{mode}, {seats}, {roles}{shared}, {statements}")
}

/// Walks along a question about a card.
pub fn question(text: &[u8], card: &Walk) -> Walk {
    walked(text, |walker| {
        walker.met.shares = card.shares;
        walker.question()
    })
}

fn walked<'t>(text: &'t [u8], shape: impl FnOnce(&mut Walker<'t>) -> Fits<()>) -> Walk {
    let mut walker = Walker {
        text,
        next: 0,
        nodes: 0,
        asks: false,
        met: Walk {
            marks: marks(text),
            ..Walk::default()
        },
    };
    walker.met.stop = shape(&mut walker).err();
    walker.met
}

type Fits<T> = Result<T, Stop>;

struct Walker<'t> {
    text: &'t [u8],
    next: usize,
    nodes: usize,
    asks: bool,
    met: Walk,
}

impl Walker<'_> {
    fn peek(&self) -> Mark {
        self.met.marks[self.next]
    }

    fn peek_behind(&self) -> Mark {
        self.met.marks[(self.next + 1).min(self.met.marks.len() - 1)]
    }

    fn is(&self, sign: &str) -> bool {
        let mark = self.peek();
        mark.kind != Kind::Wrong && mark.of(self.text) == sign.as_bytes() && mark.kind != Kind::End
    }

    fn take(&mut self) -> Mark {
        let mark = self.peek();
        self.next = (self.next + 1).min(self.met.marks.len() - 1);
        mark
    }

    fn takes(&mut self, sign: &str) -> bool {
        let is = self.is(sign);
        if is {
            self.take();
        }
        is
    }

    fn stop<T>(&self, within: &'static str, due: &[&str]) -> Fits<T> {
        Err(Stop {
            mark: self.next,
            within,
            due: due.iter().map(ToString::to_string).collect(),
            limit: None,
        })
    }

    fn passes<T>(&self, limit: &'static str) -> Fits<T> {
        Err(Stop {
            mark: self.next,
            within: "limit",
            due: Vec::new(),
            limit: Some(limit),
        })
    }

    fn due(&mut self, sign: &str, within: &'static str) -> Fits<Mark> {
        if self.is(sign) {
            return Ok(self.take());
        }
        self.stop(within, &[sign])
    }

    fn seat(&mut self, due: u32, within: &'static str) -> Fits<()> {
        let word = format!("s{due}");
        match self.peek().kind {
            Kind::Seat(_) => self.word(word, within),
            _ => self.stop(within, &[&word]),
        }
    }

    fn module(&mut self, due: u32, within: &'static str) -> Fits<()> {
        let word = format!("process{due}");
        match self.peek().kind {
            Kind::Module(_) => self.word(word, within),
            _ => self.stop(within, &[&word]),
        }
    }

    fn word(&mut self, word: String, within: &'static str) -> Fits<()> {
        let mark = self.take();
        self.met.words.push(Due { mark, word, within });
        Ok(())
    }

    fn number(&mut self, due: &str, within: &'static str) -> Fits<(u32, Mark)> {
        match self.peek().kind {
            Kind::Number(number) => Ok((number, self.take())),
            _ => self.stop(within, &[due]),
        }
    }

    fn state(&mut self, role: &'static str, within: &'static str) -> Fits<()> {
        let (_, mark) = self.number("@role", within)?;
        self.met.states.push((mark, role));
        Ok(())
    }

    fn card(&mut self) -> Fits<()> {
        self.met.nondeterministic = self.is("nondeterministic");
        if !self.takes("nondeterministic") && !self.takes("probabilistic") {
            return self.stop("mode", &["probabilistic", "nondeterministic"]);
        }
        if self.takes("global") {
            self.declaration()?;
        }
        if !self.takes("module") {
            let due: &[&str] = match self.met.shares {
                true => &["module"],
                false => &["module", "global"],
            };
            return self.stop("module", due);
        }
        self.met.modules.push(1);
        self.module(1, "first module")?;
        self.seat(1, "roles")?;
        self.due(":", "roles")?;
        self.due("[", "roles")?;
        if !self.takes("0") {
            return self.stop("lowest role", &["0"]);
        }
        self.due("..", "roles")?;
        let mark = self.next;
        let (top, at) = self.number("@top", "roles")?;
        if top > TOP {
            self.next = mark;
            return self.passes("top");
        }
        self.met.top = Some(at);
        self.due("]", "roles")?;
        self.due("init", "roles")?;
        self.state("init", "roles")?;
        self.due(";", "roles")?;
        while self.is("[") {
            if self.met.statements.len() == STATEMENTS {
                return self.passes("statements");
            }
            self.statement()?;
        }
        if self.met.statements.is_empty() {
            return self.stop("no statement", &["[]"]);
        }
        if !self.takes("endmodule") {
            return self.stop("statements", &["[]", "endmodule"]);
        }
        while self.peek().kind != Kind::End {
            if !self.is("module") {
                return self.stop("copies", &["module", "@end"]);
            }
            if self.met.modules.len() == SEATS {
                return self.passes("seats");
            }
            self.copy()?;
        }
        Ok(())
    }

    /// The shared number, from behind `global` on.
    fn declaration(&mut self) -> Fits<()> {
        self.met.shares = true;
        self.due(SHARED, "shared name")?;
        self.due(":", "declaration")?;
        self.due("[", "declaration")?;
        if !self.takes("0") {
            return self.stop("lowest value", &["0"]);
        }
        self.due("..", "declaration")?;
        let mark = self.next;
        let (top, at) = self.number("@highest-value", "declaration")?;
        if top > TOP {
            self.next = mark;
            return self.passes("shared");
        }
        self.met.shared_top = Some(at);
        self.due("]", "declaration")?;
        self.due("init", "declaration")?;
        self.value("init", "declaration")?;
        self.due(";", "declaration")?;
        Ok(())
    }

    /// A value of the shared number.
    fn value(&mut self, of: &'static str, within: &'static str) -> Fits<()> {
        let (_, mark) = self.number("@value", within)?;
        self.met.values.push((mark, of));
        Ok(())
    }

    fn copy(&mut self) -> Fits<()> {
        self.met.copies.push(self.next);
        self.take();
        let seat = self.met.copies.len() as u32 + 1;
        if let Kind::Module(number) = self.peek().kind {
            self.met.modules.push(number);
        }
        self.module(seat, "copy")?;
        self.due("=", "copy")?;
        self.module(1, "copied")?;
        self.due("[", "copy")?;
        self.seat(1, "exchange")?;
        self.due("=", "copy")?;
        self.seat(seat, "exchange")?;
        self.due(",", "copy")?;
        self.seat(seat, "exchange")?;
        self.due("=", "copy")?;
        self.seat(1, "exchange")?;
        self.due("]", "copy")?;
        self.due("endmodule", "copy")?;
        Ok(())
    }

    fn statement(&mut self) -> Fits<()> {
        let from = self.take().at;
        self.met.statements.push((from, from));
        self.nodes = 0;
        self.due("]", "action")?;
        self.seat(1, "own role")?;
        self.due("=", "own role")?;
        self.state("own", "own role")?;
        if self.takes("&") {
            self.unary(0, "condition")?;
            self.conjuncts(0)?;
        }
        if !self.takes("->") {
            return self.stop("guard", &["&", "->"]);
        }
        self.branches()?;
        let end = self.met.marks[self.next - 1].end;
        *self.met.statements.last_mut().expect("pushed above") = (from, end);
        Ok(())
    }

    fn branches(&mut self) -> Fits<()> {
        let first = self.met.weights.len();
        let mut sum = 0;
        loop {
            if !matches!(self.peek().kind, Kind::Number(_) | Kind::Decimal) {
                return self.stop("weight", &["@weight"]);
            }
            if self.met.weights.len() - first == BRANCHES {
                return self.passes("branches");
            }
            sum += self.weight()?;
            self.due("(", "update")?;
            self.seat(1, "update")?;
            self.due("'", "prime")?;
            self.due("=", "update")?;
            self.state("branch", "update")?;
            self.due(")", "update")?;
            let mut due: &[&str] = &["+", ";"];
            if self.met.shares {
                if self.takes("&") {
                    self.shared_update()?;
                } else {
                    due = &["&", "+", ";"];
                }
            }
            if self.is(";") {
                let mark = self.take();
                self.met.sums.push((mark, sum));
                return Ok(());
            }
            if !self.takes("+") {
                return self.stop("branch", due);
            }
        }
    }

    /// What a branch sets the shared number to, from behind `&` on.
    fn shared_update(&mut self) -> Fits<()> {
        self.due("(", "shared update")?;
        self.due(SHARED, "shared update")?;
        self.due("'", "shared prime")?;
        self.due("=", "shared update")?;
        self.value("branch", "shared update")?;
        self.due(")", "shared update")?;
        Ok(())
    }

    /// A weight and the `:` behind it: its units, none if it is not good.
    fn weight(&mut self) -> Fits<u32> {
        let first = self.take();
        let units = match first.kind {
            Kind::Number(_) if self.takes("/") => {
                self.number("@below", "fraction")?;
                let last = self.met.marks[self.next - 1];
                units(first, Some(last))
            }
            _ => units(first, None),
        };
        self.met
            .weights
            .push((first, self.met.marks[self.next - 1]));
        let fraction = self.met.marks[self.next - 2..self.next]
            .iter()
            .any(|mark| mark.of(self.text) == b"/");
        let whole = matches!(first.kind, Kind::Number(_)) && !fraction;
        if !self.takes(":") {
            return self.stop("behind weight", if whole { &["/", ":"] } else { &[":"] });
        }
        Ok(units.unwrap_or(0))
    }

    fn question(&mut self) -> Fits<()> {
        self.asks = true;
        self.expression(0, "question")?;
        match self.peek().kind {
            Kind::End => Ok(()),
            _ => self.stop("question", &["&", "|", "@question-end"]),
        }
    }

    fn expression(&mut self, depth: usize, within: &'static str) -> Fits<()> {
        self.unary(depth, within)?;
        self.conjuncts(depth)?;
        while self.is("|") {
            self.node()?;
            self.take();
            self.unary(depth, "condition")?;
            self.conjuncts(depth)?;
        }
        Ok(())
    }

    fn conjuncts(&mut self, depth: usize) -> Fits<()> {
        while self.is("&") {
            self.node()?;
            self.take();
            self.unary(depth, "condition")?;
        }
        Ok(())
    }

    /// Counts a node at the mark that is next.
    fn node(&mut self) -> Fits<()> {
        if self.nodes == NODES {
            return self.passes("nodes");
        }
        self.nodes += 1;
        Ok(())
    }

    fn unary(&mut self, depth: usize, within: &'static str) -> Fits<()> {
        if self.is("!") {
            if depth == DEPTH {
                return self.passes("depth");
            }
            self.node()?;
            self.take();
            return self.unary(depth + 1, "condition");
        }
        if !self.is("(") {
            let due: &[&str] = match (within, self.met.shares) {
                ("bracket", true) => &["@seat", SHARED, "(", "!"],
                ("bracket", false) => &["@seat", "(", "!"],
                _ => &["(", "!"],
            };
            return self.stop(within, due);
        }
        if matches!(self.peek_behind().kind, Kind::Seat(_)) {
            self.node()?;
            let group = self.group(&["&", "|"])?;
            self.met.groups.push(group);
            return Ok(());
        }
        if self.met.shares && self.peek_behind().of(self.text) == SHARED.as_bytes() {
            self.node()?;
            return self.test();
        }
        if self.asks && self.starts_one() {
            self.node()?;
            return self.one();
        }
        if depth == DEPTH {
            return self.passes("depth");
        }
        self.take();
        self.expression(depth + 1, "bracket")?;
        if !self.takes(")") {
            return self.stop("expression", &["&", "|", ")"]);
        }
        Ok(())
    }

    /// A test of the shared number.
    fn test(&mut self) -> Fits<()> {
        self.take();
        self.take();
        if !self.takes("=") && !self.takes("!=") {
            return self.stop("relation", &["=", "!="]);
        }
        self.value("test", "test")?;
        self.due(")", "test")?;
        Ok(())
    }

    /// A group, joined by one of these signs.
    fn group(&mut self, signs: &[&'static str]) -> Fits<Group> {
        let at = self.take().at;
        let mut literals = Vec::new();
        let mut sign = None;
        loop {
            let Kind::Seat(seat) = self.peek().kind else {
                return self.stop("literal", &["@seat"]);
            };
            self.take();
            let differs = self.is("!=");
            if !self.takes("=") && !self.takes("!=") {
                return self.stop("relation", &["=", "!="]);
            }
            let (state, mark) = self.number("@role", "literal")?;
            if literals.is_empty() {
                self.met.states.push((mark, "group"));
            }
            literals.push(Literal {
                seat,
                differs,
                state,
            });
            if self.is(")") {
                let end = self.take().end;
                let any = sign == Some("|");
                return Ok(Group {
                    at,
                    end,
                    any,
                    literals,
                });
            }
            let joined: Vec<&'static str> = match sign {
                Some(sign) => vec![sign],
                None => signs.to_vec(),
            };
            match joined.iter().find(|sign| self.is(sign)) {
                Some(found) => sign = Some(*found),
                None => {
                    let within = match (sign, signs.len()) {
                        (_, 1) => "term",
                        (Some(_), _) => "group",
                        (None, _) => "first literal",
                    };
                    let due: Vec<&str> = joined.iter().copied().chain([")"]).collect();
                    return self.stop(within, &due);
                }
            }
            self.take();
        }
    }

    /// Do two brackets stand here, and in the second literals of both relations joined by `&`?
    fn starts_one(&mut self) -> bool {
        let (here, states) = (self.next, self.met.states.len());
        self.take();
        let term = if self.is("(") {
            self.group(&["&"]).ok()
        } else {
            None
        };
        self.next = here;
        self.met.states.truncate(states);
        term.is_some_and(|term| {
            [false, true].iter().all(|differs| {
                term.literals
                    .iter()
                    .any(|literal| literal.differs == *differs)
            })
        })
    }

    fn one(&mut self) -> Fits<()> {
        let at = self.take().at;
        let mut terms = Vec::new();
        loop {
            if !self.is("(") {
                return self.stop("next term", &["("]);
            }
            let states = self.met.states.len();
            terms.push(self.group(&["&"])?);
            if terms.len() > 1 {
                self.met.states.truncate(states);
            }
            if self.is(")") {
                let end = self.take().end;
                self.met.ones.push(One { at, end, terms });
                return Ok(());
            }
            if !self.takes("|") {
                return self.stop("terms", &["|", ")"]);
            }
        }
    }
}

/// A weight in units, if it is good: a number, or a fraction of two numbers. A decimal is none.
pub fn units(first: Mark, below: Option<Mark>) -> Option<u32> {
    match (first.kind, below.map(|mark| mark.kind)) {
        (Kind::Number(number), None) => (number <= 1).then_some(number * UNIT),
        (Kind::Number(above), Some(Kind::Number(below))) => {
            (below != 0 && UNIT.is_multiple_of(below) && above <= below)
                .then(|| UNIT / below * above)
        }
        _ => None,
    }
}
