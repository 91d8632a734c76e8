//! Spectators of the inputs' tables, with lists of classes good and wrong.

use std::collections::BTreeMap;
use std::fmt;

use baseline::Refusal;
use open_panel::WATCH_ROOM;

use crate::by_seats;
use crate::check::{room_lengths, Checker, Fault};
use crate::inputs::{Input, Kind};
use crate::model::Model;
use crate::random::Random;
use crate::shared::{SharedTally, Tried};
use crate::surrounded::Surrounded;
use crate::tally::Tally;

/// Times that a spectator is shown something, in each mode.
const SHOWN: u64 = 10_000;
/// Times that each refusal is given, 13 by each kind of list.
const EACH_REFUSAL: u64 = 500;
/// Wrong lists with seats that are refused before them, for each of the two reasons.
const SEATS_BEFORE_LIST: u64 = 300;
/// Rooms of each fit.
const EACH_ROOM: u64 = 10_000;
/// Longest lines.
const LONGEST: u64 = 1_000;
/// Other seatings of the same class counts but other counts, and of other class counts.
const OTHER_SEATINGS: u64 = 5_000;
/// Small tables of which every seating is watched.
const SMALL: u64 = 400;

/// The highest class.
const TOP_CLASS: usize = 7;

/// What a list of classes is meant to try.
#[derive(Clone, Copy, PartialEq, Eq, Debug)]
pub enum List {
    /// A class for each state.
    Any,
    /// Two classes at most, so that many states share one.
    Shared,
    /// No class at all.
    Empty,
    /// A class too few, or several.
    Short,
    /// A class too many, or several.
    Long,
    /// A class above the highest, or several.
    Above,
    /// Of a wrong length and with a class above the highest.
    LengthAndAbove,
}

impl List {
    /// All kinds, with how many of twenty lists are of it.
    const SHARES: [(List, usize); 7] = [
        (List::Any, 6),
        (List::Shared, 8),
        (List::Empty, 1),
        (List::Short, 1),
        (List::Long, 1),
        (List::Above, 2),
        (List::LengthAndAbove, 1),
    ];

    fn any(random: &mut Random) -> List {
        let mut left = random.below(20);
        for (list, share) in List::SHARES {
            if left < share {
                return list;
            }
            left -= share;
        }
        unreachable!("the shares add up to twenty")
    }

    fn is_right(self) -> bool {
        matches!(self, List::Any | List::Shared)
    }

    /// A list of the kind for a card of so many states.
    fn classes(self, states: usize, random: &mut Random) -> Vec<u8> {
        let any = |random: &mut Random| random.between(0, TOP_CLASS) as u8;
        let two = [any(random), any(random)];
        let length = match self {
            List::Any | List::Shared | List::Above => states,
            List::Empty => 0,
            List::Short if random.once_in(2) => random.below(states),
            List::Short => states - 1,
            List::Long => states + random.pick(&[1, 1, 2, 8, 256]),
            List::LengthAndAbove => random.pick(&[states - 1, states + 1]),
        };
        let mut classes: Vec<u8> = (0..length)
            .map(|_| match self {
                List::Shared => random.pick(&two),
                _ => any(random),
            })
            .collect();
        if matches!(self, List::Above | List::LengthAndAbove) && length > 0 {
            for _ in 0..random.pick(&[1, 1, 2, 3]) {
                let place = random.below(length);
                classes[place] = random.pick(&[8, 8, 9, 16, b'0', 128, 255]);
            }
        }
        classes
    }
}

/// What a run has tried of spectators.
#[derive(Default)]
pub struct SpectatorTally {
    /// Shown, of nondeterministic and of probabilistic cards.
    shown: [u64; 2],
    /// By their number.
    refused: [u64; 18],
    /// Lists that were refused as they were meant to be.
    lists: [u64; List::SHARES.len()],
    /// Seats of a wrong number or state with a wrong list.
    seats_before_list: [u64; 2],
    rooms: [u64; 3],
    longest: u64,
    /// Other seatings: of the same class counts, and of others.
    others: [u64; 2],
    small: u64,
}

impl SpectatorTally {
    /// Adds what another has tried.
    pub fn add(&mut self, other: &SpectatorTally) {
        let pairs = [
            (&mut self.shown[..], &other.shown[..]),
            (&mut self.refused, &other.refused),
            (&mut self.lists, &other.lists),
            (&mut self.seats_before_list, &other.seats_before_list),
            (&mut self.rooms, &other.rooms),
            (&mut self.others, &other.others),
        ];
        for (mine, others) in pairs {
            for (mine, other) in mine.iter_mut().zip(others) {
                *mine += other;
            }
        }
        self.longest += other.longest;
        self.small += other.small;
    }

    /// What was tried too seldom, by a function that is told what, how often, and how often at least.
    pub fn shortfalls(&self, least: &mut impl FnMut(&str, u64, u64)) {
        for (mode, count) in ["nondeterministic", "probabilistic"].iter().zip(self.shown) {
            least(&format!("spectators, {mode}"), count, SHOWN);
        }
        for number in (1..=9).chain([13, 17]) {
            let what = format!("spectators, refusal {number}");
            least(&what, self.refused[number], EACH_REFUSAL);
        }
        for ((list, _), count) in List::SHARES.iter().zip(self.lists) {
            if !list.is_right() {
                let what = format!("lists of classes, {list:?}");
                least(&what, count, EACH_REFUSAL);
            }
        }
        for (number, count) in [8, 9].iter().zip(self.seats_before_list) {
            let what = format!("wrong lists of classes with {number}");
            least(&what, count, SEATS_BEFORE_LIST);
        }
        for (fit, count) in ["short", "exact", "larger"].iter().zip(self.rooms) {
            least(&format!("spectators' rooms, {fit}"), count, EACH_ROOM);
        }
        least("spectators' longest lines", self.longest, LONGEST);
        for (same, count) in ["the same", "other"].iter().zip(self.others) {
            let what = format!("other seatings of {same} class counts");
            least(&what, count, OTHER_SEATINGS);
        }
        least("small tables watched", self.small, SMALL);
    }
}

impl fmt::Display for SpectatorTally {
    fn fmt(&self, f: &mut fmt::Formatter<'_>) -> fmt::Result {
        let [nondeterministic, probabilistic] = self.shown;
        write!(
            f,
            "spectators  nondeterministic {nondeterministic}, probabilistic {probabilistic}; refused 1 to 9, 17"
        )?;
        let mut numbers = (1..=9).chain([17]);
        numbers.try_for_each(|number| write!(f, " {}", self.refused[number]))?;
        write!(f, "\nlists of classes refused (13) {}:", self.refused[13])?;
        for ((list, _), count) in List::SHARES.iter().zip(self.lists) {
            if !list.is_right() {
                write!(f, " {list:?} {count}")?;
            }
        }
        let [count, state] = self.seats_before_list;
        write!(f, "; wrong, but 8 before {count}, 9 before {state}")?;
        let [short, exact, larger] = self.rooms;
        write!(
            f,
            "\nspectators' rooms short (10) {short}, exact {exact}, larger {larger}; longest lines {}",
            self.longest
        )?;
        let [same, other] = self.others;
        write!(
            f,
            "\nother seatings of the same class counts {same}, of others {other}; small tables watched {}",
            self.small
        )
    }
}

impl Checker {
    /// A spectator of an input, asked of both sides.
    pub(crate) fn watches(
        &mut self,
        card: &[u8],
        input: &Input,
        random: &mut Random,
        all: &mut Tally,
    ) -> Result<(), Fault> {
        let (tally, shared) = (&mut all.spectators, &mut all.shared);
        let kind = List::any(random);
        let made = kind.classes(input.table.top + 1, random);
        let lent = [&input.seats, &made].map(|bytes| Surrounded::new(bytes, random));
        let [seats, list] = lent.each_ref().map(Surrounded::inner);
        let what = format!("watch ({kind:?}, {list:?})");

        let mut line = [0; WATCH_ROOM];
        let due = baseline::watch(card, seats, list, &mut line).map(|length| &line[..length]);
        match due {
            Err(Refusal { number: 10, .. }) => {
                return Err("a spectator's room that is always enough was too small".to_owned());
            }
            Err(Refusal { number, .. }) => tally.refused[usize::from(number)] += 1,
            Ok(line) => tally.longest += u64::from(line.len() == WATCH_ROOM),
        }
        let lengths = match due {
            Ok(line) if random.once_in(8) => [Some(line.len() - 1), Some(WATCH_ROOM)],
            Ok(line) => room_lengths(Some(line.len()), random),
            Err(_) => room_lengths(None, random),
        };
        for room in lengths.into_iter().flatten() {
            if let Ok(line) = due {
                tally.rooms[fit(line.len(), room)] += 1;
            }
            self.rooms.probe(&what, due, room, |room| {
                open_panel::watch(card, seats, list, room)
            })?;
        }
        lent[0].unwritten("the seats", &input.seats)?;
        lent[1].unwritten("the list of classes", &made)?;

        let Some(model) = &input.model else {
            return Ok(());
        };
        if let Err(refusal) = due {
            let place = List::SHARES.iter().position(|(list, _)| *list == kind);
            match refusal.number {
                13 if kind.is_right() => return Err(format!("{what}: a good list is refused")),
                13 => tally.lists[place.expect("every kind has a share")] += 1,
                number @ (8 | 9) if !kind.is_right() => {
                    tally.seats_before_list[usize::from(number) - 8] += 1;
                }
                _ => {}
            }
            return Ok(());
        }
        tally.shown[usize::from(model.probabilistic)] += 1;
        self.sees_classes_alone(card, model, seats, list, random, tally)?;
        self.sees_no_shared(card, model, seats, list, shared)?;
        if input.kind == Kind::Small && random.once_in(2) {
            tally.small += 1;
            every_seating(card, model, list)?;
        }
        Ok(())
    }

    /// At every value of the shared number the same is seen.
    fn sees_no_shared(
        &mut self,
        card: &[u8],
        model: &Model,
        bytes: &[u8],
        list: &[u8],
        tally: &mut SharedTally,
    ) -> Result<(), Fault> {
        let Some(shared) = model.shared else {
            return Ok(());
        };
        let seats = model.seating(bytes).seats;
        let line = by_seats::classes(seats, list);
        for value in 0..=shared.top {
            let at = [seats, &[value as u8]].concat();
            let due = Ok(line.as_bytes());
            self.rooms
                .probe("watch, at any value", due, line.len(), |room| {
                    open_panel::watch(card, &at, list, room)
                })?;
            tally.count(Tried::Watched, at != bytes);
        }
        Ok(())
    }

    /// The line that the seats make; the same one for another seating exactly if its class counts are the same.
    fn sees_classes_alone(
        &mut self,
        card: &[u8],
        model: &Model,
        bytes: &[u8],
        list: &[u8],
        random: &mut Random,
        tally: &mut SpectatorTally,
    ) -> Result<(), Fault> {
        let seats = model.seating(bytes).seats;
        let by_seats = by_seats::classes(seats, list);
        let mut due = |what: &str, seats: &[u8], line: &str| {
            let room = line.len() + 3;
            let line = Ok(line.as_bytes());
            let bytes = [seats, &bytes[seats.len()..]].concat();
            self.rooms.probe(what, line, room, |room| {
                open_panel::watch(card, &bytes, list, room)
            })
        };
        due("watch, by seats", seats, &by_seats)?;
        // Each seat in any state of the class it was in, and all in another order.
        let same_class = |seat: &u8, random: &mut Random| loop {
            let state = random.between(0, model.top) as u8;
            if list[usize::from(state)] == list[usize::from(*seat)] {
                return state;
            }
        };
        let mut others: Vec<u8> = seats.iter().map(|seat| same_class(seat, random)).collect();
        random.shuffle(&mut others);
        let counts = |seats: &[u8]| by_seats::counts(seats, model.top);
        tally.others[0] += u64::from(counts(&others) != counts(seats));
        due("watch, the same class counts", &others, &by_seats)?;
        let seat = random.below(others.len());
        others[seat] = random.between(0, model.top) as u8;
        let line = by_seats::classes(&others, list);
        tally.others[1] += u64::from(line != by_seats);
        due("watch, a seat in another state", &others, &line)
    }
}

/// Whether a room is too short, just fits or is larger.
fn fit(line: usize, room: usize) -> usize {
    match room {
        room if room < line => 0,
        room if room == line => 1,
        _ => 2,
    }
}

/// Every seating of a small table: one line for each class counts, and another line for others.
fn every_seating(card: &[u8], model: &Model, list: &[u8]) -> Result<(), Fault> {
    let mut lines = BTreeMap::new();
    for bytes in model.seatings() {
        let line = open_panel::watch_to_vec(card, &bytes, list);
        let line = line.map_err(|refusal| format!("watch at {bytes:?}: {refusal}"))?;
        let counts = by_seats::class_counts(model.seating(&bytes).seats, list);
        let before = lines.entry(counts).or_insert_with(|| line.clone());
        if *before != line {
            return Err(format!("two lines for the class counts {counts:?}"));
        }
    }
    let counts = lines.len();
    let mut lines: Vec<Vec<u8>> = lines.into_values().collect();
    lines.sort_unstable();
    lines.dedup();
    if lines.len() != counts {
        return Err("one line for several class counts".to_owned());
    }
    Ok(())
}
