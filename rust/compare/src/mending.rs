//! Damaged decks, mended by both sides.

use std::fmt;

use baseline::Refusal;

use crate::check::{Checker, Fault};
use crate::damaged_decks::{Astray, Damaged, Due, Kind, Planned};
use crate::decks::{DECK_BYTES, DECK_CARDS, ENTRY_BYTES};
use crate::inputs::Input;
use crate::random::Random;
use crate::shared::{SharedTally, Tried};
use crate::surrounded::Surrounded;
use crate::tally::Tally;

/// Decks of each kind of which something is kept, and of which nothing can be.
const EACH_KIND: u64 = 400;
/// Decks damaged blindly that are past mending.
const BYTES_REFUSED: u64 = 500;
/// Lines of each kind.
const EACH_LINE: u64 = 15_000;
/// Entries that break one rule first and another one too, for each pair.
const EACH_PAIR: u64 = 1_500;
/// Bodies that lie elsewhere than they may, in each way.
const EACH_ASTRAY: u64 = 2_000;
/// Entries kept that are live, withdrawn, withdrawn with what is no card, and withdrawn and empty.
const EACH_KEPT: u64 = 20_000;
/// Live entries dropped that are empty, dropped cards that lack just their end, and those that have just decimals.
const EACH_REFUSED: u64 = 3_000;
/// Decks of the most entries, of the most entries all kept, of the greatest length, and with the highest number.
const EACH_EDGE: u64 = 100;
/// Rooms of each kind.
const EACH_ROOM: u64 = 10_000;
/// Decks mended twice, and sound decks without gaps, which stay.
const EACH_LAW: u64 = 3_000;

/// Which of both rooms is short.
const ROOMS: [&str; 6] = [
    "deck short",
    "list short",
    "both short",
    "exact",
    "larger",
    "refused",
];
const KEPT: [&str; 4] = ["live", "withdrawn", "no card", "empty"];
const REFUSED: [&str; 3] = ["empty", "cut", "decimals"];
const EDGES: [&str; 4] = ["64 entries", "64 kept", "65,535 bytes", "number 65,535"];
const LAWS: [&str; 3] = ["mended twice", "byte for byte", "as made"];

/// What a run has tried of mending.
#[derive(Default)]
pub struct MendTally {
    /// By kind: mended, past mending.
    kinds: [[u64; 2]; Kind::SHARES.len()],
    /// Kept, and dropped by rule.
    lines: [u64; 5],
    /// The rule that is told, and another one that is broken.
    pairs: [[u64; 4]; 4],
    astray: [u64; Astray::ALL.len()],
    kept: [u64; KEPT.len()],
    refused: [u64; REFUSED.len()],
    edges: [u64; EDGES.len()],
    rooms: [u64; ROOMS.len()],
    laws: [u64; LAWS.len()],
}

impl MendTally {
    /// Adds what another has tried.
    pub fn add(&mut self, other: &MendTally) {
        let pairs = [
            (self.kinds.as_flattened_mut(), other.kinds.as_flattened()),
            (&mut self.lines[..], &other.lines[..]),
            (self.pairs.as_flattened_mut(), other.pairs.as_flattened()),
            (&mut self.astray, &other.astray),
            (&mut self.kept, &other.kept),
            (&mut self.refused, &other.refused),
            (&mut self.edges, &other.edges),
            (&mut self.rooms, &other.rooms),
            (&mut self.laws, &other.laws),
        ];
        for (mine, others) in pairs {
            for (mine, other) in mine.iter_mut().zip(others) {
                *mine += other;
            }
        }
    }

    /// What was tried too seldom, by a function that is told what, how often, and how often at least.
    pub fn shortfalls(&self, least: &mut impl FnMut(&str, u64, u64)) {
        for ((kind, _), [mended, refused]) in Kind::SHARES.iter().zip(self.kinds) {
            let (mended_due, refused_due) = match kind {
                Kind::Nothing | Kind::CountZero | Kind::CountOver | Kind::Cut | Kind::Long => {
                    (0, EACH_KIND)
                }
                Kind::Bytes => (EACH_KIND, BYTES_REFUSED),
                _ => (EACH_KIND, 0),
            };
            least(&format!("mending, {kind:?}"), mended, mended_due);
            least(&format!("past mending, {kind:?}"), refused, refused_due);
        }
        for (rule, count) in self.lines.iter().enumerate() {
            least(&format!("entries by rule {rule}"), *count, EACH_LINE);
        }
        for (first, pairs) in self.pairs.iter().enumerate() {
            for (second, count) in pairs.iter().enumerate().skip(first + 1) {
                let what = format!("rules {} and {} broken", first + 1, second + 1);
                least(&what, *count, EACH_PAIR);
            }
        }
        for (how, count) in Astray::ALL.iter().zip(self.astray) {
            least(&format!("dropped 3, {how:?}"), count, EACH_ASTRAY);
        }
        let mut all = |what: &str, names: &[&str], counts: &[u64], due: u64| {
            for (name, count) in names.iter().zip(counts) {
                least(&format!("{what}, {name}"), *count, due);
            }
        };
        all("kept", &KEPT, &self.kept, EACH_KEPT);
        all("dropped 4", &REFUSED, &self.refused, EACH_REFUSED);
        all("decks mended", &EDGES, &self.edges, EACH_EDGE);
        all("rooms of mending", &ROOMS, &self.rooms, EACH_ROOM);
        all("mending", &LAWS, &self.laws, EACH_LAW);
    }

    /// What was settled about the entries of a deck that was not damaged later.
    fn entries(&mut self, made: &Damaged, shared: &mut SharedTally) -> Result<(), Fault> {
        for planned in &made.entries {
            let Planned { entry, rule, .. } = planned;
            let broken = made.broken(planned);
            let first = broken.iter().position(|broken| *broken);
            if first.map_or(0, |first| first + 1) != *rule {
                return Err(format!(
                    "an entry made to break rule {rule} breaks {broken:?}"
                ));
            }
            let range =
                usize::from(entry.offset)..usize::from(entry.offset) + usize::from(entry.length);
            let Some(first) = first else {
                let card = &made.bytes[range];
                let no_card = || entry.flag == 0 && baseline::judge(card).is_err();
                shared.count(Tried::Kept, entry.flag == 1 && declares_shared(card));
                self.kept[0] += u64::from(entry.flag == 1);
                self.kept[1] += u64::from(entry.flag == 0);
                self.kept[2] += u64::from(!card.is_empty() && no_card());
                self.kept[3] += u64::from(card.is_empty());
                continue;
            };
            let counts = self.pairs[first].iter_mut().zip(broken);
            counts
                .skip(first + 1)
                .for_each(|(count, broken)| *count += u64::from(broken));
            match (rule, planned.astray) {
                (3, Some(how)) => {
                    let place = Astray::ALL.iter().position(|other| *other == how);
                    self.astray[place.expect("all are there")] += 1;
                }
                (4, _) => {
                    let card = &made.bytes[range.clone()];
                    shared.count(Tried::Dropped, declares_shared(card));
                    let whole = made.bytes.get(range.start..range.end + 1);
                    let cut = whole.is_some_and(|whole| baseline::judge(whole).is_ok());
                    self.refused[0] += u64::from(entry.length == 0);
                    self.refused[1] += u64::from(cut);
                    self.refused[2] += u64::from(baseline::judge_old(card).is_ok());
                }
                _ => {}
            }
        }
        Ok(())
    }
}

impl fmt::Display for MendTally {
    fn fmt(&self, f: &mut fmt::Formatter<'_>) -> fmt::Result {
        write!(f, "decks mended/past mending")?;
        let mut kinds = Kind::SHARES.iter().zip(self.kinds);
        kinds.try_for_each(|((kind, _), [mended, refused])| {
            write!(f, " {kind:?} {mended}/{refused}")
        })?;
        let [kept, dropped @ ..] = self.lines;
        write!(f, "\nentries     kept {kept}, dropped by rule")?;
        dropped.iter().try_for_each(|count| write!(f, " {count}"))?;
        write!(f, "; broken too, first and second")?;
        for (first, pairs) in self.pairs.iter().enumerate() {
            for (second, count) in pairs.iter().enumerate().skip(first + 1) {
                write!(f, " {}{} {count}", first + 1, second + 1)?;
            }
        }
        write!(f, "\nbodies elsewhere than they may lie (dropped 3)")?;
        let mut astray = Astray::ALL.iter().zip(self.astray);
        astray.try_for_each(|(how, count)| write!(f, " {how:?} {count}"))?;
        let mut all = |what: &str, names: &[&str], counts: &[u64]| {
            write!(f, "{what}")?;
            let mut counts = names.iter().zip(counts);
            counts.try_for_each(|(name, count)| write!(f, " {name} {count}"))
        };
        all("\nkept        ", &KEPT, &self.kept)?;
        all("; dropped 4", &REFUSED, &self.refused)?;
        all("; decks", &EDGES, &self.edges)?;
        all("\nmending     rooms", &ROOMS, &self.rooms)?;
        all("; laws", &LAWS, &self.laws)
    }
}

/// Whether a card declares a shared number, or tries to.
fn declares_shared(card: &[u8]) -> bool {
    card.windows(6).any(|word| word == b"global")
}

/// A deck and its list, by the library.
fn mended(deck: &[u8]) -> Result<(Vec<u8>, Vec<u8>), Fault> {
    let answer = open_panel::mend_to_vecs(deck);
    answer.map_err(|refusal| format!("a mended deck is not mended again: {refusal}"))
}

impl Checker {
    /// Mends a deck, which may hold the input's card.
    pub fn check_mending(
        &mut self,
        input: &Input,
        random: &mut Random,
        all: &mut Tally,
    ) -> Result<(), Fault> {
        let (tally, shared) = (&mut all.mending, &mut all.shared);
        let made = Damaged::any(&input.card, random);
        let lent = Surrounded::new(&made.bytes, random);
        let deck = lent.inner();
        let what = format!("mend ({:?}, {} bytes)", made.kind, deck.len());
        let wrong = |fault: &str| format!("{what}: {fault}");

        let answer = baseline::mend(deck);
        let due = answer.as_ref().map(|(deck, list)| [&deck[..], &list[..]]);
        let due = due.map_err(|refusal| *refusal);
        match &made.due {
            Due::Mended(deck, list) if due != Ok([&deck[..], &list[..]]) => {
                return Err(wrong("the baseline does not mend it as it was made"));
            }
            Due::Nothing if due != Err(Refusal::new(11, 0)) => {
                return Err(wrong("the baseline mends what is past mending"));
            }
            Due::Unknown => {}
            _ => tally.laws[2] += 1,
        }
        if matches!(made.due, Due::Mended(..)) || made.kind == Kind::Nothing {
            tally.entries(&made, shared)?;
        }

        for (kind, rooms) in rooms(due.map(|texts| texts.map(<[u8]>::len)), random) {
            tally.rooms[kind] += 1;
            self.rooms.probe_both(&what, due, rooms, |room, list| {
                open_panel::mend(deck, room, list).map(|mended| [mended.deck, mended.list])
            })?;
        }
        lent.unwritten("the deck", &made.bytes)?;
        tally.kinds[made.kind.place()][usize::from(due.is_err())] += 1;
        let Ok([new, list]) = due else {
            return Ok(());
        };
        for line in list.split_inclusive(|byte| *byte == b'\n') {
            let rule = match line {
                b"kept\n" => 0,
                [.., digit, _] => usize::from(digit - b'0'),
                _ => return Err(wrong("a line that no list has")),
            };
            tally.lines[rule] += 1;
        }
        // Numbers rise, so the last one is the highest.
        let last = 1 + ENTRY_BYTES * (usize::from(new[0]) - 1);
        let highest = new[last..last + 2] == [255, 255];
        let edges = [
            usize::from(deck[0]) == DECK_CARDS,
            usize::from(new[0]) == DECK_CARDS,
            new.len() == DECK_BYTES,
            highest,
        ];
        for (count, edge) in tally.edges.iter_mut().zip(edges) {
            *count += u64::from(edge);
        }

        // What was mended is sound, is no longer than before, and stays when it is mended again.
        if open_panel::judge_deck(new).is_err() || new.len() > deck.len() {
            return Err(wrong("the mended deck is none, or has grown"));
        }
        let (again, lines) = mended(new)?;
        let all_kept = b"kept\n".repeat(new[0].into());
        if again != new || lines != all_kept {
            return Err(wrong("the mended deck is mended to another"));
        }
        tally.laws[0] += 1;
        // A sound deck without gaps stays.
        if made.kind == Kind::Sound {
            if mended(deck)? != (deck.to_vec(), all_kept) {
                return Err(wrong("a sound deck without gaps does not stay"));
            }
            tally.laws[1] += 1;
        }
        Ok(())
    }
}

/// The rooms to try, each with its place in [`ROOMS`].
fn rooms(due: Result<[usize; 2], Refusal>, random: &mut Random) -> Vec<(usize, [usize; 2])> {
    let Ok([deck, list]) = due else {
        let any = [random.below(700), random.below(700)];
        return vec![(5, any), (5, [0, 0])];
    };
    let mut short = |length: usize| match random.once_in(4) {
        true => random.below(length),
        false => length - 1,
    };
    let short = [short(deck), short(list)];
    let more = [random.pick(&[0, 1, 200]), random.pick(&[1, 1, 200])];
    vec![
        (0, [short[0], list + more[0]]),
        (1, [deck + more[0], short[1]]),
        (2, short),
        (3, [deck, list]),
        (4, [deck + more[0], list + more[1]]),
    ]
}
