//! The panel of a seating: who may act, and with which weights what happens.

use crate::card::{Card, Mode, Situation, Statement};
use crate::limits::{SHARED_VALUES, STATEMENTS, STATES, UNIT};
use crate::read::read_into;
use crate::refusal::Refusal;
use crate::text::{print_into, Print, Text};

/// Writes the panel of a card and a seating into a lent room.
pub fn panel(card: &[u8], seats: &[u8], room: &mut [u8]) -> Result<usize, Refusal> {
    let mut read = Card::BLANK;
    read_into(card, &mut read)?;
    print_into(&Panel::new(&read, seats)?, room)
}

/// The panel as a text of its own, which no room bounds.
pub(crate) fn panel_text(card: &[u8], seats: &[u8]) -> Result<Vec<u8>, Refusal> {
    let mut read = Card::BLANK;
    read_into(card, &mut read)?;
    let mut text = Vec::new();
    Panel::new(&read, seats)?.print(&mut text);
    Ok(text)
}

/// A card with what a seating comes to, and which statements may be taken.
struct Panel<'c> {
    card: &'c Card,
    situation: Situation,
    may_be_taken: [bool; STATEMENTS],
    /// Nothing can be taken. Then there is one step all the same, which changes nothing.
    stuck: bool,
}

impl<'c> Panel<'c> {
    fn new(card: &'c Card, seats: &[u8]) -> Result<Self, Refusal> {
        let situation = card.situation(seats)?;
        let mut may_be_taken = [false; STATEMENTS];
        for (may, statement) in may_be_taken.iter_mut().zip(card.statements()) {
            *may = card.may_be_taken(statement, &situation);
        }
        Ok(Panel {
            card,
            situation,
            may_be_taken,
            stuck: may_be_taken == [false; STATEMENTS],
        })
    }

    /// The statements that may be taken, with their places on the card from one.
    fn taken(&self) -> impl Iterator<Item = (u32, &'c Statement)> + '_ {
        (1..)
            .zip(self.card.statements())
            .zip(self.may_be_taken)
            .filter_map(|(statement, may)| may.then_some(statement))
    }

    fn seats_in(&self, state: u8) -> u32 {
        self.situation.counts[usize::from(state)].into()
    }
}

impl Print for Panel<'_> {
    fn most(&self) -> usize {
        const FRAME: usize = "nondeterministic\nseats 16 enabled 512\ncounts\nshared 7\n".len();
        const COUNT: usize = " 16".len();
        const CHOICE: usize = "choice 32\n".len();
        // No branch makes more than one line (a card has one at least, and a stuck table's step is one), and the weights of all seats and statements together have nine digits.
        const LINE: usize = "move 7 7 141926400 7\n".len();
        FRAME
            + STATES * COUNT
            + self.card.statements().len() * CHOICE
            + self.card.all_branches() * LINE
    }

    fn print<T: Text>(&self, text: &mut T) {
        text.bytes(self.card.mode.word().as_bytes());
        text.bytes(b"\nseats ");
        text.number(self.card.seats.into());
        text.bytes(b" enabled ");
        text.number(match self.card.mode {
            _ if self.stuck => 1,
            Mode::Nondeterministic => self.taken().count() as u32,
            Mode::Probabilistic => self
                .taken()
                .map(|(_, taken)| self.seats_in(taken.own))
                .sum(),
        });
        text.bytes(b"\ncounts");
        for state in 0..=self.card.top {
            text.byte(b' ');
            text.number(self.seats_in(state));
        }
        text.byte(b'\n');
        // What the shared number can become, on a card without it nothing else.
        match self.card.shared {
            None => self.steps::<1, T>(text),
            Some(_) => {
                text.bytes(b"shared ");
                text.digit(self.situation.shared);
                text.byte(b'\n');
                self.steps::<SHARED_VALUES, T>(text);
            }
        }
    }
}

/// Weights by the new state and the new value of the shared number.
type Ends<const VALUES: usize> = [[u32; VALUES]; STATES];

impl Panel<'_> {
    /// All steps, on a card whose shared number has at most so many values.
    fn steps<const VALUES: usize, T: Text>(&self, text: &mut T) {
        match self.card.mode {
            mode if self.stuck => {
                if mode == Mode::Nondeterministic {
                    choice(0, text);
                }
                let mut stuck = [0; VALUES];
                stuck[usize::from(self.situation.shared)] = UNIT;
                stays(&stuck, text);
            }
            Mode::Nondeterministic => self.choices::<VALUES, T>(text),
            Mode::Probabilistic => self.all_together::<VALUES, T>(text),
        }
    }

    fn choices<const VALUES: usize, T: Text>(&self, text: &mut T) {
        for (place, statement) in self.taken() {
            choice(place, text);
            let mut ends = [[0; VALUES]; STATES];
            self.add(&mut ends, statement, 1);
            stays(&ends[usize::from(statement.own)], text);
            self.moves(statement.own, &ends, text);
        }
    }

    fn all_together<const VALUES: usize, T: Text>(&self, text: &mut T) {
        let mut ends = [[[0; VALUES]; STATES]; STATES];
        for (_, statement) in self.taken() {
            let from = &mut ends[usize::from(statement.own)];
            self.add(from, statement, self.seats_in(statement.own));
        }
        let mut all_stays = [0; VALUES];
        for (state, ends) in ends.iter().enumerate() {
            for (all, units) in all_stays.iter_mut().zip(ends[state]) {
                *all += units;
            }
        }
        stays(&all_stays, text);
        for (old, ends) in (0..=self.card.top).zip(&ends) {
            self.moves(old, ends, text);
        }
    }

    /// The lines of the moves out of one state.
    fn moves<const VALUES: usize, T: Text>(&self, old: u8, ends: &Ends<VALUES>, text: &mut T) {
        for (new, weights) in (0..=self.card.top).zip(ends) {
            if new == old {
                continue;
            }
            for (shared, &units) in (0..).zip(weights) {
                if units > 0 {
                    text.bytes(&[
                        b'm',
                        b'o',
                        b'v',
                        b'e',
                        b' ',
                        b'0' + old,
                        b' ',
                        b'0' + new,
                        b' ',
                    ]);
                    line_end::<VALUES, T>(units, shared, text);
                }
            }
        }
    }

    /// Adds the weights of so many seats taking a statement to its ends.
    fn add<const VALUES: usize>(&self, to: &mut Ends<VALUES>, statement: &Statement, seats: u32) {
        for branch in self.card.branches(statement) {
            let shared = branch.shared_after(self.situation.shared);
            to[usize::from(branch.end)][usize::from(shared)] += branch.units * seats;
        }
    }
}

/// The line of a statement that may be taken, or of none with 0.
fn choice<T: Text>(place: u32, text: &mut T) {
    text.bytes(b"choice ");
    text.number(place);
    text.byte(b'\n');
}

/// The lines of no change, one for each new value of the shared number.
fn stays<const VALUES: usize, T: Text>(weights: &[u32; VALUES], text: &mut T) {
    for (shared, &units) in (0..).zip(weights) {
        if units > 0 {
            text.bytes(b"stay ");
            line_end::<VALUES, T>(units, shared, text);
        }
    }
}

/// A weight, and the new value of the shared number where there is one.
#[inline(always)]
fn line_end<const VALUES: usize, T: Text>(units: u32, shared: u8, text: &mut T) {
    text.number(units);
    match VALUES {
        1 => text.byte(b'\n'),
        _ => text.bytes(&[b' ', b'0' + shared, b'\n']),
    }
}
