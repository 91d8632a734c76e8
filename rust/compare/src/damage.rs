//! Damage: to a card's marks, and to its bytes.

use crate::marks::Mark;
use crate::random::Random;

/// What can be done to some marks.
#[derive(Clone, Copy, PartialEq, Eq)]
pub enum MarkDamage {
    /// One mark is missing.
    Deleted,
    /// One mark stands twice.
    Doubled,
    /// Two marks that stand together change places.
    Swapped,
    /// Another mark in place of one.
    Replaced,
    /// A mark too many.
    Inserted,
    /// A run of marks is missing or stands twice.
    Run,
    /// Another number.
    Number,
    /// Another state, or another top state.
    State,
    /// Another seat or module word in place of one.
    Word,
    /// `=` for `!=`, `&` for `|`, or the other way round.
    Sign,
    /// Something else as a weight, or in one.
    Weight,
    /// A literal of a group is missing or stands twice.
    Literal,
}

impl MarkDamage {
    /// All of them.
    pub const ALL: [MarkDamage; 12] = [
        MarkDamage::Deleted,
        MarkDamage::Doubled,
        MarkDamage::Swapped,
        MarkDamage::Replaced,
        MarkDamage::Inserted,
        MarkDamage::Run,
        MarkDamage::Number,
        MarkDamage::State,
        MarkDamage::Word,
        MarkDamage::Sign,
        MarkDamage::Weight,
        MarkDamage::Literal,
    ];

    /// Those that mostly keep a card's shape.
    pub const LATE: [MarkDamage; 5] = [
        MarkDamage::State,
        MarkDamage::Word,
        MarkDamage::Sign,
        MarkDamage::Weight,
        MarkDamage::Literal,
    ];

    /// Damages some marks, if there is something of the kind to damage.
    pub fn inflict(self, marks: &mut Vec<Mark>, random: &mut Random) {
        if marks.len() < 2 {
            return;
        }
        let place = random.below(marks.len());
        match self {
            MarkDamage::Deleted => drop(marks.remove(place)),
            MarkDamage::Doubled => marks.insert(place, marks[place]),
            MarkDamage::Swapped => marks.swap(place.max(1) - 1, place.max(1)),
            MarkDamage::Replaced => marks[place] = any_mark(random),
            MarkDamage::Inserted => marks.insert(place, any_mark(random)),
            MarkDamage::Run => {
                let end = (place + random.between(2, 14)).min(marks.len());
                let run: Vec<Mark> = marks.drain(place..end).collect();
                if random.once_in(2) {
                    let twice = run.iter().chain(&run).copied();
                    marks.splice(place..place, twice);
                }
            }
            MarkDamage::Number => {
                if let Some(place) = any_place(marks, random, |_, mark| mark.is_number()) {
                    marks[place] = any_number(random);
                }
            }
            MarkDamage::State => {
                let is_state = |before: &[u8], mark: &Mark| {
                    matches!(before, b"=" | b"!=" | b"init" | b"..") && mark.is_number()
                };
                if let Some(place) = any_place(marks, random, is_state) {
                    // The low bits of some that have six digits would be a state.
                    marks[place] = Mark::number(match random.once_in(6) {
                        true => random.pick(&[100_000, 131_072, 262_144, 262_145, 999_999]),
                        false => random.between(0, 9),
                    });
                }
            }
            MarkDamage::Word => {
                let is_word =
                    |_: &[u8], mark: &Mark| mark.is_numbered(b"s") || mark.is_numbered(b"process");
                if let Some(place) = any_place(marks, random, is_word) {
                    marks[place] = any_word(marks[place], random);
                }
            }
            MarkDamage::Sign => {
                let pairs: [(&[u8], &[u8]); 4] =
                    [(b"=", b"!="), (b"!=", b"="), (b"&", b"|"), (b"|", b"&")];
                let (old, new) = random.pick(&pairs);
                if let Some(place) = any_place(marks, random, |_, mark| mark.bytes() == old) {
                    marks[place] = Mark::new(new);
                }
            }
            MarkDamage::Literal => {
                let follows = |before: &[u8], mark: &Mark| {
                    matches!(before, b"&" | b"|") && mark.is_numbered(b"s")
                };
                let found = any_place(marks, random, follows);
                if let Some(seat) = found {
                    let end = (seat + 3).min(marks.len());
                    let literal: Vec<Mark> = marks.drain(seat - 1..end).collect();
                    if random.once_in(2) {
                        let twice = literal.iter().chain(&literal).copied();
                        marks.splice(seat - 1..seat - 1, twice);
                    }
                }
            }
            MarkDamage::Weight => {
                let starts = |before: &[u8], _: &Mark| matches!(before, b"->" | b"+" | b"/");
                if let Some(place) = any_place(marks, random, starts) {
                    let weight = random
                        .pick(&WEIGHTS)
                        .split(' ')
                        .map(|mark| Mark::new(mark.as_bytes()));
                    // In place of all of the weight, of its first mark, or before it.
                    let length = match random.below(6) {
                        0 => 0,
                        1 => 1,
                        _ => marks[place..]
                            .iter()
                            .take_while(|mark| mark.bytes() != b":")
                            .count(),
                    };
                    marks.splice(place..place + length, weight);
                }
            }
        }
    }
}

/// A place, not the first, of which something holds, given the mark before it and its own.
fn any_place(
    marks: &[Mark],
    random: &mut Random,
    kind: impl Fn(&[u8], &Mark) -> bool,
) -> Option<usize> {
    let start = random.between(1, marks.len() - 1);
    let mut places = (start..marks.len()).chain(1..start);
    places.find(|&place| kind(marks[place - 1].bytes(), &marks[place]))
}

const WEIGHTS: [&str; 51] = [
    "0",
    "1",
    "2",
    "7",
    "0.0",
    "1.00",
    "0.50",
    "0.500",
    "0.005",
    "1.000",
    "1.01",
    "2.0",
    "0.1",
    "0.37",
    "1.0",
    "1 / 2",
    "2 / 4",
    "0 / 5",
    "3 / 2",
    "1 / 0",
    "0 / 0",
    "0 / 11",
    "1 / 11",
    "1 / 7",
    "0 / 13",
    "1 / 13",
    "5 / 11",
    "11 / 11",
    "12 / 11",
    "1 / 121",
    "1 / 25200",
    "25200 / 25200",
    "1 / 50400",
    "1 / 277200",
    "277200 / 277200",
    "277201 / 277200",
    "1 / 554400",
    "1 / 1000000",
    "123456.123456",
    "0.123456",
    "0.000001",
    "0.500000",
    "1.000000",
    "0.1234567",
    "123456",
    "1234567",
    "1000000 / 1",
    "0.5 / 2",
    "1 / 0.5",
    "1 / 2 / 3",
    "999999",
];

const MARKS: [&str; 67] = [
    "[",
    "]",
    ":",
    ";",
    "=",
    "!",
    "&",
    "|",
    "(",
    ")",
    "+",
    "'",
    ",",
    "/",
    "..",
    "->",
    "!=",
    "module",
    "endmodule",
    "init",
    "nondeterministic",
    "probabilistic",
    "global",
    "g",
    "g",
    "g1",
    "s1",
    "s2",
    "s3",
    "s16",
    "s17",
    "s0",
    "s99999",
    "s123456",
    "s01",
    "process1",
    "process2",
    "process0",
    "process007",
    "process17",
    "0",
    "1",
    "2",
    "7",
    "8",
    "277200",
    "0.5",
    "1.0",
    "0.12345",
    "0.123456",
    "0.1234567",
    "007",
    "99999",
    "123456",
    "1234567",
    "00.5",
    "true",
    "s",
    "process",
    "Init",
    "s1x",
    "_",
    ".",
    "...",
    "-",
    ">",
    "<",
];

fn any_mark(random: &mut Random) -> Mark {
    Mark::new(random.pick(&MARKS).as_bytes())
}

fn any_number(random: &mut Random) -> Mark {
    match random.below(8) {
        0 => Mark::new(
            random
                .pick(&[
                    "007", "1234567", "1000000", "00", "99999", "65536", "262144", "277200",
                    "999999",
                ])
                .as_bytes(),
        ),
        1 => Mark::number(random.between(8, 17)),
        _ => Mark::number(random.between(0, 9)),
    }
}

/// Another word of the same kind, or nearly.
fn any_word(word: Mark, random: &mut Random) -> Mark {
    let number = match random.below(6) {
        0 => random.pick(&[0, 17, 99_999, 123_456, 256, 65_537]),
        _ => random.between(1, 16),
    };
    match (word.is_numbered(b"s"), random.once_in(12)) {
        (true, false) | (false, true) => Mark::seat(number),
        (false, false) | (true, true) => Mark::module(number),
    }
}

/// What can be done to some bytes in one place.
#[derive(Clone, Copy, PartialEq, Eq, Debug)]
pub enum ByteDamage {
    /// One byte is missing.
    Removed,
    /// One byte stands twice.
    Doubled,
    /// Two bytes that stand together change places.
    Swapped,
    /// Another byte in place of one.
    Changed,
    /// A byte too many.
    Inserted,
}

impl ByteDamage {
    /// All of them.
    pub const ALL: [ByteDamage; 5] = [
        ByteDamage::Removed,
        ByteDamage::Doubled,
        ByteDamage::Swapped,
        ByteDamage::Changed,
        ByteDamage::Inserted,
    ];

    /// Damages some bytes, if there are two.
    pub fn inflict(self, bytes: &mut Vec<u8>, random: &mut Random) {
        if bytes.len() < 2 {
            return;
        }
        let place = random.below(bytes.len());
        match self {
            ByteDamage::Removed => drop(bytes.remove(place)),
            ByteDamage::Doubled => bytes.insert(place, bytes[place]),
            ByteDamage::Swapped => bytes.swap(place.max(1) - 1, place.max(1)),
            ByteDamage::Changed => bytes[place] = any_byte(random),
            ByteDamage::Inserted => bytes.insert(place, any_byte(random)),
        }
    }
}

/// Damages some bytes in one place, in any way.
pub fn damage_bytes(bytes: &mut Vec<u8>, random: &mut Random) {
    random.pick(&ByteDamage::ALL).inflict(bytes, random);
}

/// A byte, mostly one that marks are made of.
pub fn any_byte(random: &mut Random) -> u8 {
    const COMMON: &[u8] = b" \t\r\n//[]:;=!&|()+',..->s1230456789processmodulegg_<\0\xff";
    if random.once_in(6) {
        random.next() as u8
    } else {
        random.pick(COMMON)
    }
}

/// Bytes that are hardly a card at all.
pub fn junk(random: &mut Random) -> Vec<u8> {
    let length = random.between(0, 60);
    match random.below(3) {
        0 => (0..length).map(|_| random.next() as u8).collect(),
        1 => (0..length).map(|_| any_byte(random)).collect(),
        _ => {
            let marks: Vec<Mark> = (0..length).map(|_| any_mark(random)).collect();
            let layout = crate::marks::Layout::any(random);
            crate::marks::lay_out(&marks, layout, random)
        }
    }
}
