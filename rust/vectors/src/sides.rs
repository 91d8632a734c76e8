//! What answers a call, by the library's names for its entries: the pieces that
//! are only read, and a room. A card number is a piece of two bytes, low byte
//! first. What is found is a part of a deck, put into a room of [`PART_BYTES`].
//! Odds are handed the steps and the first row's length as pieces of eight bytes,
//! low byte first, between them a byte 1 for the largest or 0 for the smallest,
//! and both rows, one behind the other, as the room. Mending is handed the deck
//! room's length as such a piece, and as the room the deck's, the list's, and eight
//! bytes for the length of the list. Tidying and adding are handed as the room the
//! deck that they change.

use std::ffi::OsString;
use std::io::{Read, Write};
use std::process::{Child, ChildStdin, ChildStdout, Command, Stdio};

/// A length, 1 for yes and 0 for no, a statement from 1 and 0 for none, or a chance; or the number and the place of a refusal.
pub type Answer = Result<usize, (u8, usize)>;

/// A part: three numbers of eight bytes, low byte first, which are whether it is in the expansion, its first byte and its length.
pub const PART_BYTES: usize = 24;

/// The numbers of a part.
pub fn part_numbers(room: &[u8; PART_BYTES]) -> [usize; 3] {
    let (numbers, _) = room.as_chunks();
    [0, 1, 2].map(|place| u64::from_le_bytes(numbers[place]) as usize)
}

/// Puts a part into its room; with a refusal an empty one.
fn put_part<R>(found: Result<[usize; 3], R>, room: &mut [u8]) -> Result<usize, R> {
    let numbers = found.as_ref().map_or([0; 3], |numbers| *numbers);
    let bytes = numbers.map(|number| (number as u64).to_le_bytes());
    room.copy_from_slice(bytes.as_flattened());
    found.map(|_| 0)
}

fn card_number(piece: &[u8]) -> u16 {
    u16::from_le_bytes(piece.try_into().expect("two bytes"))
}

/// How many bytes a number of a row has, low byte first.
pub const ROW_NUMBER_BYTES: usize = 4;

/// The numbers of a row.
pub fn row_numbers(bytes: &[u8]) -> Vec<u32> {
    let (numbers, rest) = bytes.as_chunks::<ROW_NUMBER_BYTES>();
    assert!(rest.is_empty(), "a row is whole numbers");
    numbers
        .iter()
        .map(|bytes| u32::from_le_bytes(*bytes))
        .collect()
}

/// Reckons with both rows of a room, and puts them back.
fn in_rows<T>(
    first: &[u8],
    room: &mut [u8],
    reckon: impl FnOnce(&mut [u32], &mut [u32]) -> T,
) -> T {
    let mut rows = row_numbers(room);
    let (first, second) = rows.split_at_mut(eight_bytes(first));
    let answer = reckon(first, second);
    let bytes = rows.iter().flat_map(|number| number.to_le_bytes());
    for (place, byte) in room.iter_mut().zip(bytes) {
        *place = byte;
    }
    answer
}

/// Mends into the two rooms that one holds, and puts the length of the list behind them; with a refusal all stays.
fn in_two_rooms<R>(
    deck_room: &[u8],
    room: &mut [u8],
    mend: impl FnOnce(&mut [u8], &mut [u8]) -> Result<(usize, usize), R>,
) -> Result<usize, R> {
    let (rooms, listed) = room.split_at_mut(room.len() - LISTED_BYTES);
    let (deck, list) = rooms.split_at_mut(eight_bytes(deck_room));
    let (length, list_length) = mend(deck, list)?;
    listed.copy_from_slice(&(list_length as u64).to_le_bytes());
    Ok(length)
}

/// How many bytes hold the length of a list, low byte first.
pub const LISTED_BYTES: usize = 8;

fn eight_bytes(piece: &[u8]) -> usize {
    u64::from_le_bytes(piece.try_into().expect("eight bytes")) as usize
}

/// One way to ask.
pub type Side = Box<dyn FnMut(&str, &[&[u8]], &mut [u8]) -> Answer>;

/// The library, through its wrapper.
pub fn wrapper(entry: &str, pieces: &[&[u8]], room: &mut [u8]) -> Answer {
    match (entry, pieces) {
        ("open_panel_judge", [card]) => open_panel::judge(card).map(|()| 0),
        ("open_panel_write", [card]) => open_panel::write(card, room),
        ("open_panel_reduce", [card]) => open_panel::reduce(card, room),
        ("open_panel_show", [card, seats]) => open_panel::show(card, seats, room),
        ("open_panel_watch", [card, seats, classes]) => {
            open_panel::watch(card, seats, classes, room)
        }
        ("open_panel_ask", [card, question, seats]) => {
            open_panel::ask(card, question, seats).map(usize::from)
        }
        ("open_panel_first_move", [card, seats]) => {
            open_panel::first_move(card, seats).map(|first| first.unwrap_or(0))
        }
        ("open_panel_odds", [card, question, seats, steps, largest, first]) => {
            let (steps, aim) = (
                eight_bytes(steps),
                match largest {
                    [0] => open_panel::Aim::Smallest,
                    _ => open_panel::Aim::Largest,
                },
            );
            in_rows(first, room, |first, second| {
                open_panel::odds(card, question, seats, steps, aim, first, second)
            })
            .map(|chance| chance as usize)
        }
        ("open_panel_box_find_with", [base, expansion, number]) => {
            let found = open_panel::locate_with(base, expansion, card_number(number));
            let numbers = found.map(|part| [part.in_expansion.into(), part.offset, part.length]);
            put_part(numbers, room)
        }
        ("open_panel_box_write", [contents, bodies]) => {
            open_panel::write_deck(contents, bodies, room)
        }
        ("open_panel_convert", [deck]) => open_panel::convert(deck, room),
        ("open_panel_mend", [deck, deck_room]) => in_two_rooms(deck_room, room, |room, list| {
            open_panel::mend(deck, room, list).map(|mended| (mended.deck, mended.list))
        }),
        ("open_panel_tidy", []) => open_panel::tidy(room),
        ("open_panel_add", [number, card]) => open_panel::add(room, card_number(number), card),
        _ => panic!("the wrapper has no {entry}"),
    }
    .map_err(|refusal| (refusal.number(), refusal.place()))
}

/// The baseline.
pub fn baseline(entry: &str, pieces: &[&[u8]], room: &mut [u8]) -> Answer {
    match (entry, pieces) {
        ("open_panel_judge", [card]) => baseline::judge(card).map(|_| 0),
        ("open_panel_write", [card]) => baseline::write(card, room),
        ("open_panel_reduce", [card]) => baseline::reduce(card, room),
        ("open_panel_show", [card, seats]) => baseline::panel(card, seats, room),
        ("open_panel_watch", [card, seats, list]) => baseline::watch(card, seats, list, room),
        ("open_panel_ask", [card, question, seats]) => {
            baseline::ask(card, question, seats).map(usize::from)
        }
        ("open_panel_first_move", [card, seats]) => {
            baseline::first_move(card, seats).map(|first| first.unwrap_or(0))
        }
        ("open_panel_odds", [card, question, seats, steps, largest, first]) => {
            let (steps, aim) = (
                eight_bytes(steps),
                match largest {
                    [0] => baseline::Aim::Smallest,
                    _ => baseline::Aim::Largest,
                },
            );
            in_rows(first, room, |first, second| {
                baseline::odds(card, question, seats, steps, aim, first, second)
            })
            .map(|chance| chance as usize)
        }
        ("open_panel_box_find_with", [base, expansion, number]) => {
            let found = baseline::locate_with(base, expansion, card_number(number));
            let numbers = found.map(|part| [part.in_expansion.into(), part.offset, part.length]);
            put_part(numbers, room)
        }
        ("open_panel_box_write", [contents, bodies]) => {
            baseline::write_deck(contents, bodies, room)
        }
        ("open_panel_convert", [deck]) => baseline::convert_into(deck, room),
        ("open_panel_mend", [deck, deck_room]) => in_two_rooms(deck_room, room, |room, list| {
            baseline::mend_into(deck, room, list).map(|mended| (mended.deck, mended.list))
        }),
        ("open_panel_tidy", []) => baseline::tidy(room),
        ("open_panel_add", [number, card]) => baseline::add(room, card_number(number), card),
        _ => panic!("the baseline has no {entry}"),
    }
    .map_err(|refusal| (refusal.number, refusal.place))
}

/// A program that has a build of the library in it: `tests/c/bridge.c`, which
/// says how it is asked, or `tests/bridge.mjs`.
pub fn bridge(words: &[OsString]) -> Side {
    let mut bridge = Bridge::new(words);
    Box::new(move |entry, pieces, room| bridge.ask(entry, pieces, room))
}

struct Bridge {
    program: Child,
    requests: Option<ChildStdin>,
    answers: ChildStdout,
}

impl Bridge {
    fn new(words: &[OsString]) -> Bridge {
        let mut program = Command::new(&words[0])
            .args(&words[1..])
            .stdin(Stdio::piped())
            .stdout(Stdio::piped())
            .spawn()
            .unwrap_or_else(|error| panic!("{words:?}: {error}"));
        Bridge {
            requests: program.stdin.take(),
            answers: program.stdout.take().expect("piped"),
            program,
        }
    }

    fn ask(&mut self, entry: &str, read: &[&[u8]], room: &mut [u8]) -> Answer {
        let mut pieces = vec![entry.as_bytes()];
        pieces.extend(read);
        pieces.push(room);
        let mut packed = Vec::new();
        packed.extend((pieces.len() as u64).to_le_bytes());
        for piece in &pieces {
            packed.extend((piece.len() as u64).to_le_bytes());
        }
        packed.extend(pieces.concat());
        let requests = self.requests.as_mut().expect("open until dropped");
        requests.write_all(&packed).expect("the bridge listens");
        let mut head = [[0; 8]; 2];
        let head_bytes = head.as_flattened_mut();
        self.answers
            .read_exact(head_bytes)
            .expect("the bridge answers");
        self.answers.read_exact(room).expect("the bridge answers");
        let [number, value] = head.map(u64::from_le_bytes);
        match u8::try_from(number).expect("nothing is written outside the room") {
            0 => Ok(value as usize),
            number => Err((number, value as usize)),
        }
    }
}

impl Drop for Bridge {
    fn drop(&mut self) {
        // Its input ends, and so does it.
        self.requests = None;
        let _ = self.program.wait();
    }
}
