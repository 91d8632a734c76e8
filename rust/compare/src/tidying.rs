//! Lent decks, tidied by both sides, and cards added to them.

use std::fmt;

use baseline::Refusal;

use crate::cards::limits::CARD_BYTES;
use crate::check::{Checker, Fault};
use crate::converting::entries;
use crate::deck_check::{place_kind, PLACES};
use crate::decks::{Entry, DECK_BYTES, DECK_CARDS, ENTRY_BYTES};
use crate::inputs::Input;
use crate::lent_decks::{Kind, LentDeck};
use crate::random::Random;
use crate::surrounded::Surrounded;

/// Decks of each kind that come to each end for which they are made.
const EACH_KIND: u64 = 200;
/// The same for those that are damaged blindly.
const EACH_BYTES: u64 = 60;

/// How adding ends. Tidying ends with the first three, or refuses the deck as the last two do.
const ENDS: [&str; 6] = ["added", "10", "19", "card", "12", "11"];

/// What is counted: what it is, how often each has to come at least, and each.
struct Counted {
    what: &'static str,
    least: u64,
    each: &'static [&'static str],
}

const CARDS: usize = 0;
const GAPS: usize = 1;
const MOVES: usize = 2;
const NUMBERS: usize = 3;
const REFUSED: usize = 4;
const ROOMS: usize = 5;
const FIRSTS: usize = 6;
const EDGES: usize = 7;
const MALFORMED: usize = 8;
const LAWS: usize = 9;

const COUNTED: [Counted; 10] = [
    Counted {
        what: "cards of tidied decks",
        least: 5_000,
        each: &[
            "live",
            "live, no card",
            "live, empty",
            "withdrawn",
            "withdrawn, empty",
        ],
    },
    Counted {
        what: "gaps of tidied decks",
        least: 500,
        each: &[
            "none",
            "first",
            "between",
            "unused zeros",
            "unused others",
            "unused alone",
            "withdrawn alone",
        ],
    },
    Counted {
        what: "bodies of decks with a card added",
        least: 500,
        each: &[
            "left",
            "left beyond itself",
            "right",
            "right beyond itself",
            "staying",
            "left and right in a deck",
        ],
    },
    Counted {
        what: "numbers added",
        least: 200,
        each: &["below", "between", "above", "withdrawn", "0", "65,535"],
    },
    Counted {
        what: "cards not added",
        least: 200,
        each: &["1", "2", "3", "4", "5", "6", "7", "17"],
    },
    Counted {
        what: "rooms of adding",
        least: 300,
        each: &[
            "exact",
            "one short",
            "shorter",
            "one more",
            "larger",
            "exact by tidying alone",
            "one short, nothing unused",
        ],
    },
    Counted {
        what: "refused first",
        least: 100,
        each: &[
            "11 before 12",
            "11 before the card",
            "12 before the card",
            "the card before a live number",
            "the card before a 65th",
            "the card before 10",
            "a live number before a 65th",
            "a live number before 10",
            "a 65th before 10",
        ],
    },
    Counted {
        what: "lent decks",
        least: 50,
        each: &[
            "64 entries, all live",
            "64 entries, one live",
            "64th added",
            "64th added to 64 entries",
            "65th not added",
            "65,535 bytes lent",
            "65,535 bytes used",
            "10 at 65,536",
            "10 further past 65,535",
            "65,536 bytes lent",
            "card of 16,384 bytes",
        ],
    },
    Counted {
        what: "11 from tidying",
        least: 100,
        each: &PLACES,
    },
    Counted {
        what: "tidying",
        least: 5_000,
        each: &[
            "as made",
            "as written",
            "tidied twice",
            "cards found",
            "other gaps",
            "added after tidying",
            "added in exact room",
            "not in a byte less",
            "card found",
            "not added again",
            "withdrawn again",
        ],
    },
];

/// The most of [`COUNTED`] that one has.
const MOST: usize = 11;

/// What a run has tried of tidying and adding.
#[derive(Default)]
pub struct TidyTally {
    /// By kind and by how adding ends.
    kinds: [[u64; ENDS.len()]; Kind::SHARES.len()],
    counts: [[u64; MOST]; COUNTED.len()],
}

impl TidyTally {
    /// Adds what another has tried.
    pub fn add(&mut self, other: &TidyTally) {
        let pairs = [
            (self.kinds.as_flattened_mut(), other.kinds.as_flattened()),
            (self.counts.as_flattened_mut(), other.counts.as_flattened()),
        ];
        for (mine, others) in pairs {
            for (mine, other) in mine.iter_mut().zip(others) {
                *mine += other;
            }
        }
    }

    /// What was tried too seldom, by a function that is told what, how often, and how often at least.
    pub fn shortfalls(&self, least: &mut impl FnMut(&str, u64, u64)) {
        for ((kind, _), ends) in Kind::SHARES.iter().zip(self.kinds) {
            let due = match kind {
                Kind::Free => ["added", "10"].as_slice(),
                Kind::LiveNumber => &["19"],
                Kind::Full => &["added", "10", "19"],
                Kind::Card => &["card"],
                Kind::NoneLive => &["12"],
                Kind::Longest => &["added", "10"],
                Kind::Several => &["19", "card", "12"],
                Kind::Field | Kind::Whole => &["11"],
                Kind::Bytes => &ENDS,
            };
            let each = match kind {
                Kind::Bytes => EACH_BYTES,
                _ => EACH_KIND,
            };
            for (end, count) in ENDS.iter().zip(ends) {
                if due.contains(end) {
                    least(&format!("lent decks, {kind:?}, {end}"), count, each);
                }
            }
        }
        for (counted, counts) in COUNTED.iter().zip(self.counts) {
            for (name, count) in counted.each.iter().zip(counts) {
                let what = format!("{}, {name}", counted.what);
                least(&what, count, counted.least);
            }
        }
    }

    /// Counts one of these, if it came.
    fn count(&mut self, which: usize, name: &str, came: bool) {
        let place = COUNTED[which].each.iter().position(|other| *other == name);
        self.counts[which][place.expect("all are there")] += u64::from(came);
    }

    fn law(&mut self, law: &str) {
        self.count(LAWS, law, true);
    }

    /// A deck that is tidied and was not damaged later.
    fn tidied(&mut self, made: &LentDeck) {
        for body in &made.bodies {
            let name = match (body.live, body.bytes.is_empty()) {
                (true, true) => "live, empty",
                (true, false) if baseline::judge(&body.bytes).is_err() => "live, no card",
                (true, false) => "live",
                (false, true) => "withdrawn, empty",
                (false, false) => "withdrawn",
            };
            self.count(CARDS, name, true);
        }
        let first = made.bodies[0].gap > 0;
        let between = made.bodies[1..].iter().any(|body| body.gap > 0);
        let all_live = made.bodies.iter().all(|body| body.live);
        let (unused, zeros) = (made.unused > 0, made.bytes.ends_with(&vec![0; made.unused]));
        let gaps = first || between;
        self.count(GAPS, "first", first);
        self.count(GAPS, "between", between);
        self.count(GAPS, "unused zeros", unused && zeros);
        self.count(GAPS, "unused others", unused && !zeros);
        self.count(GAPS, "none", !gaps && !unused && all_live);
        self.count(GAPS, "unused alone", !gaps && unused && all_live);
        self.count(GAPS, "withdrawn alone", !gaps && !unused && !all_live);
        let (entries, live) = (made.bodies.len(), made.live());
        self.count(EDGES, "64 entries, all live", live == DECK_CARDS);
        let one_of_all = live == 1 && entries == DECK_CARDS;
        self.count(EDGES, "64 entries, one live", one_of_all);
        let longest = made.bytes.len() == DECK_BYTES;
        self.count(EDGES, "65,535 bytes lent", longest);
    }

    /// A deck to which a card is added.
    fn added(&mut self, made: &LentDeck) {
        let contents = |count: usize| 1 + ENTRY_BYTES * count;
        let mut from = contents(made.bodies.len());
        let mut to = contents(made.live() + 1);
        let (mut left, mut right, mut stays) = (false, false, false);
        let card_before = |number: u16| made.number < number;
        let mut passed = false;
        for body in &made.bodies {
            from += body.gap;
            if !passed && card_before(body.number) {
                to += made.card.len();
                passed = true;
            }
            let length = body.bytes.len();
            if body.live && length > 0 {
                let by = from.abs_diff(to);
                left |= to < from;
                right |= to > from;
                stays |= to == from;
                self.count(MOVES, "left beyond itself", to < from && by >= length);
                self.count(MOVES, "right beyond itself", to > from && by >= length);
            }
            from += length;
            to += if body.live { length } else { 0 };
        }
        self.count(MOVES, "left", left);
        self.count(MOVES, "right", right);
        self.count(MOVES, "staying", stays);
        self.count(MOVES, "left and right in a deck", left && right);
        let live = made.bodies.iter().filter(|body| body.live);
        let (mut lower, mut higher) = (false, false);
        for body in live {
            lower |= body.number < made.number;
            higher |= body.number > made.number;
        }
        self.count(NUMBERS, "below", !lower);
        self.count(NUMBERS, "above", !higher);
        self.count(NUMBERS, "between", lower && higher);
        let mut bodies = made.bodies.iter();
        let withdrawn = bodies.any(|body| body.number == made.number);
        self.count(NUMBERS, "withdrawn", withdrawn);
        self.count(NUMBERS, "0", made.number == 0);
        self.count(NUMBERS, "65,535", made.number == u16::MAX);
        let last = made.live() + 1 == DECK_CARDS;
        let full = made.bodies.len() == DECK_CARDS;
        self.count(EDGES, "64th added", last);
        self.count(EDGES, "64th added to 64 entries", last && full);
        self.count(EDGES, "65,535 bytes used", made.needed == DECK_BYTES);
        let longest = made.card.len() == CARD_BYTES;
        self.count(EDGES, "card of 16,384 bytes", longest);
    }

    /// The room for a card that is added, or not for want of room.
    fn room(&mut self, made: &LentDeck) {
        let (lent, needed) = (made.bytes.len(), made.needed);
        self.count(ROOMS, "exact", lent == needed);
        self.count(ROOMS, "one short", lent + 1 == needed);
        self.count(ROOMS, "shorter", lent + 1 < needed);
        self.count(ROOMS, "one more", lent == needed + 1);
        self.count(ROOMS, "larger", lent > needed + 1);
        let none_unused = made.unused == 0;
        let by_tidying = none_unused && lent == needed;
        self.count(ROOMS, "exact by tidying alone", by_tidying);
        let short = none_unused && lent + 1 == needed;
        self.count(ROOMS, "one short, nothing unused", short);
        self.count(EDGES, "10 at 65,536", needed == DECK_BYTES + 1);
        self.count(EDGES, "10 further past 65,535", needed > DECK_BYTES + 1);
    }

    /// What a card is not added for, and what else there would have been.
    fn refused(&mut self, made: &LentDeck, refusal: Refusal) {
        let none_live = made.live() == 0;
        let card = baseline::judge(&made.card).is_err();
        let mut bodies = made.bodies.iter();
        let live_number = bodies.any(|body| body.live && body.number == made.number);
        let full = made.live() == DECK_CARDS;
        let short = made.needed > made.bytes.len();
        match (refusal.number, refusal.place) {
            (11, _) => {
                self.count(FIRSTS, "11 before 12", none_live);
                self.count(FIRSTS, "11 before the card", card);
                let longer = made.bytes.len() == DECK_BYTES + 1;
                self.count(EDGES, "65,536 bytes lent", longer);
            }
            (12, _) => self.count(FIRSTS, "12 before the card", card),
            (19, 0) => {
                self.count(EDGES, "65th not added", true);
                self.count(FIRSTS, "a 65th before 10", short);
            }
            (19, _) => {
                self.count(FIRSTS, "a live number before a 65th", full);
                self.count(FIRSTS, "a live number before 10", short);
            }
            (10, _) => self.room(made),
            (number, _) => {
                self.count(REFUSED, &number.to_string(), true);
                self.count(FIRSTS, "the card before a live number", live_number);
                self.count(FIRSTS, "the card before a 65th", full);
                self.count(FIRSTS, "the card before 10", short);
            }
        }
    }
}

impl fmt::Display for TidyTally {
    fn fmt(&self, f: &mut fmt::Formatter<'_>) -> fmt::Result {
        write!(f, "lent decks, a card {}", ENDS.join("/"))?;
        for ((kind, _), ends) in Kind::SHARES.iter().zip(self.kinds) {
            let ends: Vec<String> = ends.iter().map(u64::to_string).collect();
            write!(f, " {kind:?} {}", ends.join("/"))?;
        }
        for (counted, counts) in COUNTED.iter().zip(self.counts) {
            write!(f, "\n{}", counted.what)?;
            let mut counts = counted.each.iter().zip(counts);
            counts.try_for_each(|(name, count)| write!(f, " {name} {count}"))?;
        }
        Ok(())
    }
}

impl LentDeck {
    /// How many cards are live, before anything was damaged.
    fn live(&self) -> usize {
        self.bodies.iter().filter(|body| body.live).count()
    }
}

/// A deck that the baseline changes where it stands, up to its new length; with a refusal it has to be as it was, and else zero behind that.
fn changed(
    deck: &[u8],
    change: impl FnOnce(&mut [u8]) -> Result<usize, Refusal>,
) -> Result<Result<Vec<u8>, Refusal>, Fault> {
    let mut lent = deck.to_vec();
    match change(&mut lent) {
        Ok(length) if lent[length..].iter().all(|byte| *byte == 0) => {
            lent.truncate(length);
            Ok(Ok(lent))
        }
        Err(refusal) if lent == deck => Ok(Err(refusal)),
        _ => Err("the baseline leaves other bytes behind".to_owned()),
    }
}

/// A deck with an unused end of zeros, so that it is as long as this.
fn with_end(deck: &[u8], length: usize) -> Vec<u8> {
    let mut deck = deck.to_vec();
    deck.resize(length, 0);
    deck
}

/// The deck that the library writes from some cards, which are live.
fn written(cards: &[(u16, &[u8])]) -> Result<Vec<u8>, Fault> {
    let (mut contents, mut bodies) = (Vec::new(), Vec::new());
    for (number, body) in cards {
        let entry = Entry {
            number: *number,
            offset: 0,
            length: body.len() as u16,
            flag: 1,
            zero: 0,
        };
        entry.put(&mut contents);
        bodies.extend(*body);
    }
    open_panel::write_deck_to_vec(&contents, &bodies)
        .map_err(|refusal| format!("its live cards are not written: {refusal}"))
}

/// The live cards of a sound deck.
fn live_cards(deck: &[u8]) -> Vec<(u16, &[u8])> {
    let live = entries(deck).filter(|(_, flag, _)| *flag == 1);
    live.map(|(number, _, body)| (number, body)).collect()
}

/// Where the entry of a number begins in a sound deck.
fn entry_of(deck: &[u8], number: u16) -> Option<usize> {
    let place = entries(deck).position(|(other, ..)| other == number)?;
    Some(1 + ENTRY_BYTES * place)
}

/// The same deck with other bytes wherever no live card is, nor the contents.
fn with_other_gaps(deck: &[u8], random: &mut Random) -> Vec<u8> {
    let contents = 1 + ENTRY_BYTES * usize::from(deck[0]);
    let mut other = deck[..contents].to_vec();
    for (entry, (_, flag, body)) in deck[1..contents].chunks(ENTRY_BYTES).zip(entries(deck)) {
        let offset = usize::from(u16::from_le_bytes([entry[2], entry[3]]));
        if flag == 1 {
            other.resize_with(offset, || random.next() as u8);
            other.extend(body);
        }
    }
    other.resize_with(deck.len(), || random.next() as u8);
    other
}

impl Checker {
    /// Tidies a lent deck, which may hold the input's card, and adds a card to it, which may be the input's.
    pub fn check_tidying(
        &mut self,
        input: &Input,
        random: &mut Random,
        tally: &mut TidyTally,
    ) -> Result<(), Fault> {
        let made = LentDeck::any(input, random);
        let surrounded = Surrounded::new(&made.card, random);
        let (deck, number, card) = (&made.bytes[..], made.number, surrounded.inner());
        let what = format!("tidy, then add {number} ({:?})", made.kind);
        let wrong = |fault: &str| format!("{what}, {} bytes lent: {fault}", deck.len());

        let tidied = changed(deck, baseline::tidy).map_err(|fault| wrong(&fault))?;
        let added = changed(deck, |deck| baseline::add(deck, number, card));
        let added = added.map_err(|fault| wrong(&fault))?;
        if let Some(due) = &made.due {
            if due.tidied != tidied || due.added != added {
                return Err(wrong("the baseline does not change it as it was made"));
            }
            tally.law("as made");
        }
        let answer = |deck: &Result<Vec<u8>, Refusal>| deck.as_ref().map(|_| ()).map_err(|it| *it);
        let due = tidied.as_deref().map_err(|it| *it);
        let tidying = format!("tidy ({:?})", made.kind);
        self.rooms
            .probe_in_place(&tidying, due, deck, open_panel::tidy)?;
        let due = added.as_deref().map_err(|it| *it);
        let adding = format!("add {number} ({:?})", made.kind);
        let add = |deck: &mut [u8]| open_panel::add(deck, number, card);
        self.rooms.probe_in_place(&adding, due, deck, add)?;
        surrounded.unwritten("the card", &made.card)?;

        // A deck is judged before all else, as it is judged by itself.
        let judged = open_panel::judge_deck(deck);
        let judged = judged.map_err(|refusal| Refusal::new(refusal.number(), refusal.place()));
        let end = match (judged, answer(&tidied), answer(&added)) {
            (Ok(()), Ok(()), Ok(())) => "added",
            (Ok(()), Ok(()), Err(Refusal { number: 10, .. })) => "10",
            (Ok(()), Ok(()), Err(Refusal { number: 19, .. })) => "19",
            (Ok(()), Ok(()), Err(Refusal { number, .. })) if number != 11 && number != 12 => "card",
            (Ok(()), Err(Refusal { number: 12, .. }), Err(Refusal { number: 12, .. })) => "12",
            (Err(judged), Err(tidied), Err(added)) if judged == tidied && judged == added => {
                tally.count(MALFORMED, PLACES[place_kind(judged.place)], true);
                "11"
            }
            _ => return Err(wrong("it is refused otherwise than it may be")),
        };
        let place = ENDS.iter().position(|other| *other == end);
        tally.kinds[made.kind.place()][place.expect("all are there")] += 1;
        if let Err(refusal) = &added {
            if made.due.is_some() || refusal.number == 11 {
                tally.refused(&made, *refusal);
            }
        }
        let Ok(tidied) = tidied else {
            return Ok(());
        };
        if made.due.is_some() {
            tally.tidied(&made);
        }
        self.same_tidied(&what, deck, &tidied, random, tally)
            .map_err(|fault| wrong(&fault))?;

        // It makes no difference whether the deck was tidied before, but for where the entry of a live number is.
        let again = match &added {
            Err(Refusal {
                number: 19,
                place: 1..,
            }) => {
                let place = entry_of(&tidied, number).ok_or("a live number has no entry")?;
                Err(Refusal::new(19, place))
            }
            other => other.as_deref().map_err(|it| *it),
        };
        let lent = with_end(&tidied, deck.len());
        self.rooms.probe_in_place(&what, again, &lent, add)?;
        tally.law("added after tidying");
        if made.due.is_some() && added.is_ok() {
            tally.added(&made);
            tally.room(&made);
        }
        let needed = tidied.len() + ENTRY_BYTES + card.len();
        let new = match added {
            Ok(new) => new,
            Err(Refusal { number: 10, place }) if place != needed => {
                return Err(wrong("10 at another length than it needs"));
            }
            // With so much room it is added.
            Err(Refusal { number: 10, .. }) if needed <= DECK_BYTES => {
                let lent = with_end(&tidied, needed);
                let added = changed(&lent, |deck| baseline::add(deck, number, card));
                let added = added.map_err(|fault| wrong(&fault))?;
                added.map_err(|_| wrong("it is not added with the room it needs"))?
            }
            Err(_) => return Ok(()),
        };
        self.same_added(&what, &tidied, &new, (number, card), tally)
            .map_err(|fault| wrong(&fault))
    }

    /// What has to be of a deck that was tidied.
    fn same_tidied(
        &mut self,
        what: &str,
        deck: &[u8],
        tidied: &[u8],
        random: &mut Random,
        tally: &mut TidyTally,
    ) -> Result<(), Fault> {
        // It is what is written from its live cards.
        let live = live_cards(deck);
        if written(&live)? != tidied {
            return Err("it is tidied to another deck than its live cards make".to_owned());
        }
        tally.law("as written");
        // Tidying it once more changes nothing, with its unused end and without.
        let lent = with_end(tidied, deck.len());
        for lent in [&lent[..], tidied] {
            self.rooms.probe_in_place(
                &format!("{what}, once more"),
                Ok(tidied),
                lent,
                open_panel::tidy,
            )?;
        }
        tally.law("tidied twice");
        // It is sound, and every card is found in it as before.
        if open_panel::judge_deck(tidied).is_err() || open_panel::judge_deck(&lent).is_err() {
            return Err("the tidied deck is none".to_owned());
        }
        for (number, flag, body) in entries(deck) {
            let before = open_panel::find(deck, number);
            let due = match flag {
                1 => Ok(body),
                _ => before,
            };
            if before != due || open_panel::find(tidied, number) != due {
                return Err(format!("card {number} is found otherwise"));
            }
        }
        tally.law("cards found");
        // What stands in gaps and on withdrawn cards makes no difference.
        let other = with_other_gaps(deck, random);
        self.rooms.probe_in_place(
            &format!("{what}, other gaps"),
            Ok(tidied),
            &other,
            open_panel::tidy,
        )?;
        tally.law("other gaps");
        Ok(())
    }

    /// What has to be of a deck to which a card was added.
    fn same_added(
        &mut self,
        what: &str,
        tidied: &[u8],
        new: &[u8],
        (number, card): (u16, &[u8]),
        tally: &mut TidyTally,
    ) -> Result<(), Fault> {
        let mut cards = live_cards(tidied);
        cards.push((number, card));
        cards.sort_by_key(|(number, _)| *number);
        if written(&cards)? != new {
            return Err("with the card it is another deck than the cards make".to_owned());
        }
        let add = |deck: &mut [u8]| open_panel::add(deck, number, card);
        let exact = with_end(tidied, new.len());
        self.rooms
            .probe_in_place(&format!("{what}, exact room"), Ok(new), &exact, add)?;
        tally.law("added in exact room");
        let short = Refusal::new(10, new.len());
        let shorter = &exact[..new.len() - 1];
        self.rooms
            .probe_in_place(&format!("{what}, a byte less"), Err(short), shorter, add)?;
        tally.law("not in a byte less");
        // It is sound, and every card is found in it, the new one too.
        if open_panel::judge_deck(new).is_err() {
            return Err("the deck with the card is none".to_owned());
        }
        for (number, body) in &cards {
            if open_panel::find(new, *number) != Ok(*body) {
                return Err(format!("card {number} is found otherwise"));
            }
        }
        tally.law("card found");
        // Its number is live now.
        let place = entry_of(new, number).ok_or("the card has no entry")?;
        let live = Refusal::new(19, place);
        self.rooms
            .probe_in_place(&format!("{what}, once more"), Err(live), new, add)?;
        tally.law("not added again");
        // If it is withdrawn and the deck tidied, the deck is as it was without it.
        let mut withdrawn = new.to_vec();
        withdrawn[place + 6] = 0;
        self.rooms.probe_in_place(
            &format!("{what}, withdrawn again"),
            Ok(tidied),
            &withdrawn,
            open_panel::tidy,
        )?;
        tally.law("withdrawn again");
        Ok(())
    }
}
