//! `desk box`: what a box holds, a card out of one, boxes of cards, damaged boxes mended, old ones converted, full ones tidied, and cards added.

use std::fs;
use std::io::{self, Write};
use std::process::ExitCode;

use desk::reason::{
    grouped, of_added, of_converted, of_deck, of_entries, of_mended, of_number, of_tidied,
    of_written, pair, Given, Reason, ENTRY,
};
use desk::report;
use desk::walk::summary;
use open_panel::{Refusal, DECK_BYTES};

use crate::input::{bytes_of, unreachable, wrong_words, Input};
use crate::put;

/// The place from which on a refusal is of the expansion.
const EXPANSION: usize = 1 << 16;

/// A box and how it was named.
struct Deck<'w> {
    name: &'w str,
    bytes: Vec<u8>,
}

impl<'w> Deck<'w> {
    fn read(name: &'w str) -> Deck<'w> {
        let bytes = bytes_of(name);
        Deck { name, bytes }
    }

    /// Its entries: number, live, offset and length. The library has judged it sound.
    fn entries(&self) -> impl Iterator<Item = (usize, bool, usize, usize)> + '_ {
        let entries = self.bytes[1..]
            .chunks_exact(ENTRY)
            .take(usize::from(self.bytes[0]));
        entries.map(|entry| {
            (
                pair(entry, 0),
                entry[6] == 1,
                pair(entry, 2),
                pair(entry, 4),
            )
        })
    }
}

/// Prints a refusal of boxes.
fn refused(decks: &[Deck], number: u16, refusal: Refusal) -> ExitCode {
    let (deck, place) = match refusal.place().checked_sub(EXPANSION) {
        Some(place) => (&decks[decks.len() - 1], place),
        None => (&decks[0], refusal.place()),
    };
    let reason = match refusal.number() {
        11 => of_deck(&deck.bytes, place, refusal),
        _ => {
            let all: Vec<&[u8]> = decks.iter().map(|deck| &deck.bytes[..]).collect();
            of_number(number, &all, refusal)
        }
    };
    eprint!("{}", in_hex(deck.name, &deck.bytes, place, &reason));
    ExitCode::FAILURE
}

/// The entry that a refusal is in, byte by byte.
fn in_hex(name: &str, bytes: &[u8], place: usize, reason: &Reason) -> String {
    let from = match place {
        0 => 0,
        _ => 1 + (place - 1) / ENTRY * ENTRY,
    };
    let to = bytes.len().min(if from == 0 { 1 } else { from + ENTRY });
    let (mut shown, mut under) = (Vec::new(), Vec::new());
    if matches!(reason.refusal.number(), 11 | 19) {
        for (at, byte) in bytes.iter().enumerate().take(to).skip(from) {
            shown.push(format!("{byte:02x}"));
            under.push(if reason.span.contains(&at) {
                "^^"
            } else {
                "  "
            });
        }
    }
    let label = format!("byte {from}");
    report::plain_report(
        name,
        &label,
        &shown.join(" "),
        under.join(" ").trim_end(),
        reason,
    )
}

/// `box list BOX [EXPANSION]`.
pub fn list(words: &[&str]) -> ExitCode {
    let ([_] | [_, _]) = words else {
        wrong_words("`desk box list` takes a box, and perhaps an expansion");
    };
    let decks: Vec<Deck> = words.iter().map(|name| Deck::read(name)).collect();
    for deck in &decks {
        if let Err(refusal) = open_panel::judge_deck(&deck.bytes) {
            return refused(std::slice::from_ref(deck), 0, refusal);
        }
    }
    let mut made = String::from("number  state      offset  bytes  card\n");
    for (place, deck) in decks.iter().enumerate() {
        if decks.len() > 1 {
            made += &format!("{}:\n", deck.name);
        }
        for (number, live, offset, length) in deck.entries() {
            let over = |deck: &Deck| {
                deck.entries()
                    .any(|(other, live, ..)| live && other == number)
            };
            let state = match live {
                true if place == 0 && decks[1..].iter().any(over) => "replaced",
                true => "live",
                false => "withdrawn",
            };
            let card = &deck.bytes[offset..offset + length];
            let said = match open_panel::judge(card) {
                Ok(()) => summary(card),
                Err(refusal) => {
                    let reason = Given {
                        card,
                        ..Given::default()
                    }
                    .reason(refusal);
                    format!(
                        "refused {} {}: {}",
                        refusal.number(),
                        refusal.place(),
                        reason.sentence
                    )
                }
            };
            made += &format!("{number:>6}  {state:9}  {offset:>6}  {length:>5}  {said}\n");
        }
    }
    put(made.as_bytes())
}

fn card_number(word: &str) -> u16 {
    let number = word.parse();
    number.unwrap_or_else(|_| wrong_words(&format!("`{word}` is no card number from 0 to 65,535")))
}

/// `box find BOX [EXPANSION] NUMBER`.
pub fn find(words: &[&str]) -> ExitCode {
    let (names, number) = match words {
        [names @ .., number] if matches!(names.len(), 1 | 2) => (names, card_number(number)),
        _ => wrong_words("`desk box find` takes a box, perhaps an expansion, and a card's number"),
    };
    let decks: Vec<Deck> = names.iter().map(|name| Deck::read(name)).collect();
    let found = match &decks[..] {
        [base, expansion] => open_panel::find_with(&base.bytes, &expansion.bytes, number),
        _ => open_panel::find(&decks[0].bytes, number),
    };
    match found {
        Ok(card) => put(card),
        Err(refusal) => refused(&decks, number, refusal),
    }
}

/// `box write BOX NUMBER=CARD..`, with `--withdrawn` before a card that is not live and `--unread` for cards that are refused.
pub fn write(words: &[&str], withdrawn: &[&str], unread: bool) -> ExitCode {
    let [name, cards @ ..] = words else {
        wrong_words("`desk box write` takes the box to write, and NUMBER=CARD for each card");
    };
    let mut entries = Vec::new();
    for (words, live) in [(cards, true), (withdrawn, false)] {
        for word in words {
            let Some((number, file)) = word.split_once('=') else {
                wrong_words(&format!("`{word}` is not NUMBER=CARD"));
            };
            entries.push((card_number(number), live, Input::read(file)));
        }
    }
    entries.sort_by_key(|(number, ..)| *number);
    let (mut contents, mut bodies) = (Vec::new(), Vec::new());
    for (number, live, input) in &entries {
        let card = input.card();
        let judged = open_panel::judge(card);
        if let (Err(refusal), true, false) = (judged, live, unread) {
            return crate::refused(
                input,
                Given {
                    card,
                    ..Given::default()
                },
                refusal,
            );
        }
        let Ok(length) = u16::try_from(card.len()) else {
            wrong_words(&format!(
                "{} has more bytes than fit into a box",
                input.name
            ));
        };
        contents.extend(number.to_le_bytes());
        contents.extend([0, 0]);
        contents.extend(length.to_le_bytes());
        contents.extend([u8::from(*live), 0]);
        bodies.extend(card);
    }
    let deck = match open_panel::write_deck_to_vec(&contents, &bodies) {
        Ok(deck) => deck,
        Err(refusal) => {
            let reason = of_written(&contents, &bodies, refusal);
            eprint!("{}", report::plain_report(name, "", "", "", &reason));
            return ExitCode::FAILURE;
        }
    };
    keep(name, &deck);
    ExitCode::SUCCESS
}

/// Writes a box, to standard output for `-`.
fn keep(name: &str, deck: &[u8]) {
    let written = match name {
        "-" => io::stdout().write_all(deck),
        _ => fs::write(name, deck),
    };
    if let Err(error) = written {
        unreachable(name, &error);
    }
}

/// `box mend BOX MENDED`.
pub fn mend(words: &[&str]) -> ExitCode {
    let [name, mended] = words else {
        wrong_words("`desk box mend` takes the damaged box, and the box to write");
    };
    let Deck { bytes, .. } = Deck::read(name);
    match open_panel::mend_to_vecs(&bytes) {
        Ok((deck, list)) => {
            keep(mended, &deck);
            told(mended, &became(&bytes, Some(&list)))
        }
        Err(refusal) => {
            let reason = of_mended(&bytes, refusal);
            eprint!("{}", in_hex(name, &bytes, 0, &reason));
            eprint!("{}", became(&bytes, None));
            ExitCode::FAILURE
        }
    }
}

/// `box convert BOX CONVERTED`.
pub fn convert(words: &[&str]) -> ExitCode {
    let [name, converted] = words else {
        wrong_words("`desk box convert` takes the box from before, and the box to write");
    };
    let old = Deck::read(name);
    match open_panel::convert_to_vec(&old.bytes) {
        Ok(bytes) => {
            let new = Deck {
                name: converted,
                bytes,
            };
            keep(converted, &new.bytes);
            told(converted, &rewritten(&old, &new))
        }
        Err(refusal) => {
            let reason = of_converted(&old.bytes, refusal);
            // the place of 18 is a card's number, and no byte
            let place = match refusal.number() {
                11 => refusal.place(),
                _ => 0,
            };
            eprint!("{}", in_hex(name, &old.bytes, place, &reason));
            ExitCode::FAILURE
        }
    }
}

/// A line for each entry of a converted box: whether its card was written anew.
fn rewritten(old: &Deck, new: &Deck) -> String {
    let mut made = String::from("entry  number  became\n");
    for (entry, (before, after)) in old.entries().zip(new.entries()).enumerate() {
        let body =
            |deck: &Deck, offset: usize, length: usize| deck.bytes[offset..][..length].to_vec();
        let (number, live, offset, length) = before;
        let (_, _, new_offset, new_length) = after;
        let same = body(old, offset, length) == body(new, new_offset, new_length);
        made += &format!("{:>5}  {number:>6}  ", entry + 1);
        made += &match (live, same) {
            (false, _) => "as it was, unread\n".to_string(),
            (true, true) => "as it was\n".to_string(),
            (true, false) => format!("converted: {new_length} bytes in place of {length}\n"),
        };
    }
    made
}

/// `box tidy BOX TIDIED`.
pub fn tidy(words: &[&str]) -> ExitCode {
    let [name, tidied] = words else {
        wrong_words("`desk box tidy` takes a box, and the box to write");
    };
    let old = Deck::read(name);
    let mut new = old.bytes.clone();
    match open_panel::tidy_vec(&mut new) {
        Ok(()) => {
            keep(tidied, &new);
            told(tidied, &live_ones(&old, None, new.len()))
        }
        Err(refusal) => {
            let reason = of_tidied(&old.bytes, refusal);
            eprint!("{}", in_hex(name, &old.bytes, refusal.place(), &reason));
            ExitCode::FAILURE
        }
    }
}

/// `box add BOX NUMBER CARD NEW`.
pub fn add(words: &[&str]) -> ExitCode {
    let [name, number, card, added] = words else {
        wrong_words("`desk box add` takes a box, a card's number, the card, and the box to write");
    };
    let number = card_number(number);
    let old = Deck::read(name);
    let input = Input::read(card);
    let card = input.card();
    let mut new = old.bytes.clone();
    match open_panel::add_to_vec(&mut new, number, card) {
        Ok(()) => {
            keep(added, &new);
            let with = Some((number, card.len()));
            told(added, &live_ones(&old, with, new.len()))
        }
        Err(refusal) if matches!(refusal.number(), 10..=12 | 19) => {
            let reason = of_added(&old.bytes, number, card, refusal);
            // the place of 10 is a length, and no byte
            let place = match refusal {
                Refusal::Room { .. } => 0,
                _ => refusal.place(),
            };
            eprint!("{}", in_hex(name, &old.bytes, place, &reason));
            ExitCode::FAILURE
        }
        Err(refusal) => crate::refused(
            &input,
            Given {
                card,
                ..Given::default()
            },
            refusal,
        ),
    }
}

/// A line for each entry of a box of which the live ones are left, and for a card that is added, by its number and length; then how long
/// the new box is, and by how much it may grow.
fn live_ones(old: &Deck, added: Option<(u16, usize)>, length: usize) -> String {
    let mut lines = Vec::new();
    for (entry, (number, live, ..)) in old.entries().enumerate() {
        let became = match live {
            true => "as it was",
            false => "withdrawn: taken out",
        };
        let line = format!("{:>5}  {number:>6}  {became}\n", entry + 1);
        lines.push((number, line));
    }
    if let Some((number, length)) = added {
        let number = usize::from(number);
        // behind a withdrawn card of its number
        let place = lines.partition_point(|(other, _)| *other <= number);
        let line = format!("  new  {number:>6}  added: {length} bytes\n");
        lines.insert(place, (number, line));
    }
    let lines: String = lines.into_iter().map(|(_, line)| line).collect();
    let [now, before, more] = [length, old.bytes.len(), DECK_BYTES - length].map(grouped);
    format!(
        "entry  number  became\n{lines}the box has {now} bytes in place of {before}, and may grow by {more}\n"
    )
}

/// Prints what became of a box: to standard error where the box itself goes to standard output.
fn told(box_name: &str, lines: &str) -> ExitCode {
    if box_name == "-" {
        eprint!("{lines}");
        return ExitCode::SUCCESS;
    }
    put(lines.as_bytes())
}

/// A line for each entry of a box: what became of it, and why.
fn became(deck: &[u8], list: Option<&[u8]>) -> String {
    let entries = of_entries(deck, list);
    let mut made = String::new();
    for (entry, became) in entries.iter().enumerate() {
        if entry == 0 {
            made += "entry  number  became\n";
        }
        made += &format!("{:>5}  {:>6}  ", entry + 1, became.number);
        made += &match became.rule {
            0 => "kept\n".to_string(),
            rule => format!("dropped {rule}: {}\n", became.why),
        };
    }
    made
}
