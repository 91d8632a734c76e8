//! Reduced programs, read back from their text and run.

use crate::by_seats::{CountsAndShared, Weights};
use crate::weights::UNIT;

/// A reduced program.
pub struct Reduced {
    /// What the counters start at.
    pub start: Vec<u64>,
    /// The largest value of each counter.
    pub most: Vec<u64>,
    /// The largest value of the shared number and the one that it starts with, where there is one.
    pub shared: Option<(u64, u64)>,
    statements: Vec<Line>,
}

struct Line {
    first: Test,
    guard: Option<Guard>,
    branches: Vec<Branch>,
}

struct Branch {
    units: u64,
    /// The counter that is lowered, the one that is raised, and where that is cut.
    update: Option<(usize, usize, u64)>,
    /// What the shared number is set to.
    shared: Option<u64>,
}

struct Test {
    counter: usize,
    comparison: u8,
    number: u64,
}

enum Guard {
    Test(Test),
    /// A test of the shared number: whether it says `!=`, and the value.
    Shared(bool, u64),
    Not(Box<Guard>),
    And(Box<Guard>, Box<Guard>),
    Or(Box<Guard>, Box<Guard>),
}

impl Reduced {
    /// Reads a reduced program; nothing if the text is not one.
    pub fn read(text: &[u8]) -> Option<Reduced> {
        let text = std::str::from_utf8(text).ok()?;
        let mut lines = text.strip_suffix('\n')?.split('\n');
        lines
            .next()
            .filter(|mode| matches!(*mode, "probabilistic" | "nondeterministic"))?;
        let mut line = lines.next()?;
        let mut shared = None;
        if line.starts_with("global ") {
            let mut rest = Rest(line);
            rest.due("global g : [0..")?;
            let most = rest.number()?;
            rest.due("] init ")?;
            shared = Some((most, rest.number()?));
            (rest.0 == ";").then_some(())?;
            line = lines.next()?;
        }
        (line == "module generic_process").then_some(())?;
        let mut reduced = Reduced {
            start: Vec::new(),
            most: Vec::new(),
            shared,
            statements: Vec::new(),
        };
        for line in lines.by_ref() {
            if line == "endmodule" {
                break;
            }
            let mut rest = Rest(line);
            if rest.takes("[] ") {
                reduced.statements.push(rest.statement()?);
            } else {
                (rest.counter()? == reduced.start.len()).then_some(())?;
                rest.due(" : [0..")?;
                reduced.most.push(rest.number()?);
                rest.due("] init ")?;
                reduced.start.push(rest.number()?);
                rest.due(";")?;
            }
            rest.0.is_empty().then_some(())?;
        }
        lines.next().is_none().then_some(reduced)
    }

    /// How many statements it has.
    pub fn statements(&self) -> usize {
        self.statements.len()
    }

    /// What one of its statements leads to from some counts and a shared number, if it can be taken.
    pub fn steps(
        &self,
        statement: usize,
        at: &CountsAndShared,
    ) -> Option<Weights<CountsAndShared>> {
        let line = &self.statements[statement];
        let guard = line.guard.as_ref();
        let holds = line.first.holds(&at.0) && guard.is_none_or(|guard| guard.holds(at));
        holds.then(|| {
            let mut after = Weights::new();
            for branch in &line.branches {
                let mut next = at.clone();
                if let Some((lowered, raised, most)) = branch.update {
                    next.0[lowered] -= 1;
                    next.0[raised] = (next.0[raised] + 1).min(most);
                }
                if let Some(value) = branch.shared {
                    next.1 = value as u8;
                }
                *after.entry(next).or_default() += branch.units;
            }
            after.retain(|_, weight| *weight > 0);
            after
        })
    }
}

impl Test {
    fn holds(&self, counts: &[u64]) -> bool {
        let count = counts[self.counter];
        match self.comparison {
            b'=' => count == self.number,
            b'<' => count < self.number,
            _ => count > self.number,
        }
    }
}

impl Guard {
    fn holds(&self, at: &CountsAndShared) -> bool {
        match self {
            Guard::Test(test) => test.holds(&at.0),
            Guard::Shared(differs, value) => (u64::from(at.1) == *value) != *differs,
            Guard::Not(inner) => !inner.holds(at),
            Guard::And(left, right) => left.holds(at) && right.holds(at),
            Guard::Or(left, right) => left.holds(at) || right.holds(at),
        }
    }
}

/// What is left of a line.
struct Rest<'t>(&'t str);

impl Rest<'_> {
    fn takes(&mut self, text: &str) -> bool {
        let rest = self.0.strip_prefix(text);
        self.0 = rest.unwrap_or(self.0);
        rest.is_some()
    }

    fn due(&mut self, text: &str) -> Option<()> {
        self.takes(text).then_some(())
    }

    fn number(&mut self) -> Option<u64> {
        let end = self
            .0
            .find(|byte: char| !byte.is_ascii_digit())
            .unwrap_or(self.0.len());
        let (digits, rest) = self.0.split_at(end);
        self.0 = rest;
        digits.parse().ok()
    }

    fn counter(&mut self) -> Option<usize> {
        self.due("no_")?;
        self.number().map(|number| number as usize)
    }

    fn test(&mut self) -> Option<Test> {
        self.due("(")?;
        let counter = self.counter()?;
        let comparison = *self.0.as_bytes().first()?;
        matches!(comparison, b'=' | b'<' | b'>').then_some(())?;
        self.0 = &self.0[1..];
        let number = self.number()?;
        self.due(")")?;
        Some(Test {
            counter,
            comparison,
            number,
        })
    }

    fn guard(&mut self) -> Option<Guard> {
        if self.takes("!") {
            return Some(Guard::Not(Box::new(self.guard()?)));
        }
        if self.0.starts_with("(no_") {
            return self.test().map(Guard::Test);
        }
        if self.takes("(g") {
            let differs = self.takes("!");
            self.due("=")?;
            let value = self.number()?;
            self.due(")")?;
            return Some(Guard::Shared(differs, value));
        }
        self.due("(")?;
        let left = Box::new(self.guard()?);
        let and = self.takes(" & ");
        if !and {
            self.due(" | ")?;
        }
        let right = Box::new(self.guard()?);
        self.due(")")?;
        Some(if and {
            Guard::And(left, right)
        } else {
            Guard::Or(left, right)
        })
    }

    fn statement(&mut self) -> Option<Line> {
        let first = self.test()?;
        let guard = if self.takes(" & ") {
            Some(self.guard()?)
        } else {
            None
        };
        self.due(" -> ")?;
        let mut branches = vec![self.branch()?];
        while self.takes(" + ") {
            branches.push(self.branch()?);
        }
        self.due(";")?;
        Some(Line {
            first,
            guard,
            branches,
        })
    }

    fn branch(&mut self) -> Option<Branch> {
        let above = self.number()?;
        let below = if self.takes("/") { self.number()? } else { 1 };
        let units = above * (u64::from(UNIT) / below);
        self.due(":")?;
        // The counters first, then the shared number; `true` where there is neither.
        let update = match self.0.starts_with("(no_") {
            true => Some(self.update()?),
            false => None,
        };
        let sets = match update {
            Some(_) => self.takes(" & (g'="),
            None => self.takes("(g'="),
        };
        let mut shared = None;
        if sets {
            shared = Some(self.number()?);
            self.due(")")?;
        } else if update.is_none() {
            self.due("true")?;
        }
        Some(Branch {
            units,
            update,
            shared,
        })
    }

    fn update(&mut self) -> Option<(usize, usize, u64)> {
        self.due("(")?;
        let lowered = self.counter()?;
        self.due("'=")?;
        (self.counter()? == lowered).then_some(())?;
        self.due("-1) & (")?;
        let raised = self.counter()?;
        self.due("'=min(")?;
        (self.counter()? == raised).then_some(())?;
        self.due("+1,")?;
        let most = self.number()?;
        self.due("))")?;
        Some((lowered, raised, most))
    }
}
