//! Holds stored answers: `vectors CASES ANSWERS ENTRY [SIDE]`.
//!
//! Every case of a file that is a call of the entry is asked, and its answer
//! held to the one in the file of answers; a text also in rooms one byte short,
//! of just its length and one byte larger, and no other byte of a room may have
//! changed. A deck that is changed where it stands is held to all its bytes, and
//! tidied once more. The entry is named as in the vectors; `program` is the panel
//! program.
//!
//! Without a side the library is asked, through its wrapper. `--baseline` asks
//! the baseline. Any other words are a command: the panel program's, which is
//! run for each case, or else a bridge to a build of the library.

use std::env;
use std::ffi::OsString;
use std::io::{self, Write};
use std::path::Path;
use std::process::{Command, ExitCode, Stdio};
use std::thread;

use vectors::sides::{self, row_numbers, Side, LISTED_BYTES, PART_BYTES, ROW_NUMBER_BYTES};
use vectors::stored::{file, Answer, Cases};

/// What a room holds before: a byte of no text.
const UNTOUCHED: u8 = 0xa5;
/// The number of the refusal that tells how long a text is.
const ROOM_TOO_SMALL: u8 = 10;
/// How many wrong answers are shown.
const SHOWN: usize = 5;

/// What is wrong with an answer.
type Fault = String;

/// A call of an entry: what it is handed, and what is stored.
struct Call<'a> {
    number: usize,
    pieces: Vec<Vec<u8>>,
    stored: Answer<'a>,
}

fn main() -> ExitCode {
    let words: Vec<OsString> = env::args_os().skip(1).collect();
    let [cases, answers, entry, side @ ..] = &words[..] else {
        eprintln!("usage: vectors CASES ANSWERS ENTRY [--baseline | COMMAND WORDS..]");
        return ExitCode::from(2);
    };
    let entry = entry.to_str().expect("an entry has a plain name");
    let (name, answers) = (
        Path::new(cases).file_name().expect("a file").display(),
        file(answers),
    );
    let cases = Cases::new(&file(cases));
    let answers = cases.answers(&answers);
    let calls: Vec<Call> = (0..cases.count())
        .filter_map(|number| {
            let pieces = cases.call(number, entry)?;
            Some(Call {
                number,
                pieces,
                stored: answers[number],
            })
        })
        .collect();
    let faults = if entry == "program" {
        printed(side, &calls)
    } else {
        answered(side, entry, &calls)
    };
    for fault in faults.iter().take(SHOWN) {
        println!("{name}, {entry}, {fault}");
    }
    let refused = calls
        .iter()
        .filter(|call| matches!(call.stored, Answer::Refused(..)))
        .count();
    println!(
        "{name}, {entry}: {} cases, {refused} refused, {} wrong",
        calls.len(),
        faults.len()
    );
    if calls.is_empty() || !faults.is_empty() {
        return ExitCode::FAILURE;
    }
    ExitCode::SUCCESS
}

/// The wrong answers of an entry, each with the number of its case.
fn answered(side: &[OsString], entry: &str, calls: &[Call]) -> Vec<Fault> {
    let mut side: Side = match side {
        [] => Box::new(sides::wrapper),
        [word] if word == "--baseline" => Box::new(sides::baseline),
        command => sides::bridge(command),
    };
    calls
        .iter()
        .filter_map(|call| faulty(call, answers_as(&mut side, entry, call)))
        .collect()
}

fn faulty(call: &Call, outcome: Result<(), Fault>) -> Option<Fault> {
    outcome
        .err()
        .map(|fault| format!("case {}: {fault}", call.number))
}

/// An entry's answer to a call against the stored one. An entry that is added is named here and in `sides`.
fn answers_as(side: &mut Side, entry: &str, call: &Call) -> Result<(), Fault> {
    let pieces: Vec<&[u8]> = call.pieces.iter().map(Vec::as_slice).collect();
    match (entry, &pieces[..]) {
        ("read", [_]) => takes(side("open_panel_judge", &pieces, &mut []), call.stored),
        ("write", [read @ .., room]) => writes(side, "open_panel_write", read, room, call.stored),
        ("reduce", [read @ .., room]) => writes(side, "open_panel_reduce", read, room, call.stored),
        ("panel", [read @ .., room]) => writes(side, "open_panel_show", read, room, call.stored),
        ("spectator", [read @ .., room]) => {
            writes(side, "open_panel_watch", read, room, call.stored)
        }
        ("ask", [_, _, _]) => says(side("open_panel_ask", &pieces, &mut []), call.stored),
        ("first_move", [_, _]) => {
            names(side("open_panel_first_move", &pieces, &mut []), call.stored)
        }
        ("box_find", [base, expansion, number]) => {
            finds(side, [base, expansion], number, call.stored)
        }
        ("box_write", [read @ .., room]) => {
            writes_deck(side, "open_panel_box_write", read, room, call.stored)
        }
        ("convert", [read @ .., room]) => {
            writes_deck(side, "open_panel_convert", read, room, call.stored)
        }
        ("mend", [deck, room, list]) => mends(side, deck, [room, list], call.stored),
        ("tidy", [deck]) => changes(side, "open_panel_tidy", &[], deck, call.stored),
        ("add", [deck, number, card]) => {
            let number: u16 = told(number).ok_or("no card number")?;
            let pieces = [&number.to_le_bytes()[..], card];
            changes(side, "open_panel_add", &pieces, deck, call.stored)
        }
        ("odds", [read @ .., steps, largest, first, second]) => {
            reckons(side, read, [steps, largest], [first, second], call.stored)
        }
        _ => Err(format!("{entry} is no entry, or is handed something else")),
    }
}

/// What is taken has a text, or the word for it.
fn takes(answer: Result<usize, (u8, usize)>, stored: Answer) -> Result<(), Fault> {
    let due = match stored {
        Answer::Refused(number, place) => Err((number, place)),
        Answer::Text(_) | Answer::Words(b"taken\n") => Ok(0),
        Answer::Words(words) => return Err(format!("no judgement: {}", words.escape_ascii())),
    };
    same(answer, due)
}

/// Yes or no.
fn says(answer: Result<usize, (u8, usize)>, stored: Answer) -> Result<(), Fault> {
    let due = match stored {
        Answer::Refused(number, place) => Err((number, place)),
        Answer::Words(b"yes\n") => Ok(1),
        Answer::Words(b"no\n") => Ok(0),
        Answer::Text(words) | Answer::Words(words) => {
            return Err(format!("neither yes nor no: {}", words.escape_ascii()))
        }
    };
    same(answer, due)
}

/// A statement by its place on the card, from 1, or none as 0.
fn names(answer: Result<usize, (u8, usize)>, stored: Answer) -> Result<(), Fault> {
    let due = match stored {
        Answer::Refused(number, place) => Err((number, place)),
        Answer::Words(b"none\n") => Ok(0),
        Answer::Text(words) | Answer::Words(words) => {
            let place = words.strip_prefix(b"statement ");
            let place = place.and_then(|words| told(words.strip_suffix(b"\n")?));
            let place = place.filter(|place| *place > 0);
            Ok(place.ok_or_else(|| format!("no statement: {}", words.escape_ascii()))?)
        }
    };
    same(answer, due)
}

fn same<T: PartialEq + std::fmt::Debug>(answer: T, due: T) -> Result<(), Fault> {
    if answer == due {
        return Ok(());
    }
    Err(format!("{answer:?} and not {due:?}"))
}

/// A card found in one of two decks: just where the answer says, the bytes that are stored.
fn finds(side: &mut Side, decks: [&[u8]; 2], number: &[u8], stored: Answer) -> Result<(), Fault> {
    let number: u16 = told(number).ok_or("no card number")?;
    let pieces = [decks[0], decks[1], &number.to_le_bytes()];
    let mut part = [UNTOUCHED; PART_BYTES];
    let answer = side("open_panel_box_find_with", &pieces, &mut part);
    let due = match stored {
        Answer::Refused(number, place) => Err((number, place)),
        Answer::Text(_) => Ok(0),
        Answer::Words(words) => return Err(format!("no card: {}", words.escape_ascii())),
    };
    same(answer, due)?;
    let [in_expansion, offset, length] = sides::part_numbers(&part);
    let Answer::Text(text) = stored else {
        return same([in_expansion, offset, length], [0; 3]);
    };
    let deck = decks.get(in_expansion);
    let found = deck
        .and_then(|deck| deck.get(offset..)?.get(..length))
        .ok_or_else(|| format!("deck {in_expansion} has no {length} bytes from {offset} on"))?;
    if found != text {
        return Err(format!("another card: {}", found.escape_ascii()));
    }
    Ok(())
}

/// Odds, with both rows: as they are stored, or with a refusal as they were.
fn reckons(
    side: &mut Side,
    read: &[&[u8]],
    [steps, largest]: [&[u8]; 2],
    rows: [&[u8]; 2],
    stored: Answer,
) -> Result<(), Fault> {
    let steps: u64 = told(steps).ok_or("no number of steps")?;
    let largest: u8 = told(largest).ok_or("neither largest nor smallest")?;
    let first = (rows[0].len() / ROW_NUMBER_BYTES) as u64;
    let told = [&steps.to_le_bytes()[..], &[largest], &first.to_le_bytes()];
    let mut lent = rows.concat();
    let answer = side("open_panel_odds", &[read, &told].concat(), &mut lent);
    let (due, rows) = match stored {
        Answer::Refused(number, place) => (Err((number, place)), rows.concat()),
        Answer::Text(_) | Answer::Words(_) => {
            let (chance, rows) = stored.odds().ok_or("no odds")?;
            (Ok(chance as usize), rows)
        }
    };
    same(answer, due)?;
    let numbers = |bytes: &[u8]| row_numbers(bytes);
    same(numbers(&lent), numbers(&rows)).map_err(|fault| format!("rows {fault}"))
}

/// A mended deck and its list, into rooms of the sizes that are told in digits, and into rooms around their own lengths.
fn mends(side: &mut Side, deck: &[u8], rooms: [&[u8]; 2], stored: Answer) -> Result<(), Fault> {
    let [room, list] = rooms.map(told::<usize>);
    let lent = [
        room.ok_or("a room of no size")?,
        list.ok_or("a list of no size")?,
    ];
    if let Answer::Refused(number, place) = stored {
        return in_two_rooms(side, deck, lent, Err((number, place)));
    }
    let (mended, lines) = stored.mended().ok_or("no deck with a list")?;
    let due = [&mended[..], lines];
    in_two_rooms(side, deck, lent, Ok(due))?;
    let [length, listed] = due.map(<[u8]>::len);
    for more in [[0, 0], [1, 1], [0, 90], [90, 0]] {
        in_two_rooms(side, deck, [length + more[0], listed + more[1]], Ok(due))?;
    }
    let short = |length| Err((ROOM_TOO_SMALL, length));
    in_two_rooms(side, deck, [length - 1, listed], short(length))?;
    in_two_rooms(side, deck, [length - 1, listed - 1], short(length))?;
    in_two_rooms(side, deck, [length, listed - 1], short(listed))?;
    in_two_rooms(side, deck, [length + 1, 0], short(listed))
}

/// The answer in two rooms, every byte of both, and the length of the list behind them.
fn in_two_rooms(
    side: &mut Side,
    deck: &[u8],
    rooms: [usize; 2],
    due: Result<[&[u8]; 2], (u8, usize)>,
) -> Result<(), Fault> {
    let [room, list] = rooms;
    let mut lent = vec![UNTOUCHED; room + list + LISTED_BYTES];
    let told = (room as u64).to_le_bytes();
    let answer = side("open_panel_mend", &[deck, &told], &mut lent);
    let wrong = |fault| format!("in rooms of {room} and {list}: {fault}");
    same(answer, due.map(|[deck, _]| deck.len())).map_err(wrong)?;
    // As it has to be afterwards.
    let mut whole = vec![UNTOUCHED; lent.len()];
    if let Ok([deck, lines]) = due {
        whole[..deck.len()].copy_from_slice(deck);
        whole[room..room + lines.len()].copy_from_slice(lines);
        whole[room + list..].copy_from_slice(&(lines.len() as u64).to_le_bytes());
    }
    let differs = lent.iter().zip(&whole).position(|(a, b)| a != b);
    differs.map_or(Ok(()), |place| {
        Err(wrong(match place {
            place if place < room => format!("byte {place} of the deck's room"),
            place if place < room + list => format!("byte {} of the list", place - room),
            _ => "the list's length".to_owned(),
        }))
    })
}

/// A deck that is changed where it stands: its new length and all its bytes as they are stored, or with a refusal as they were. What is
/// tidied stays so when it is tidied once more, in all that was lent and in just as much as it uses.
fn changes(
    side: &mut Side,
    name: &str,
    read: &[&[u8]],
    deck: &[u8],
    stored: Answer,
) -> Result<(), Fault> {
    if let Answer::Refused(number, place) = stored {
        return in_place(side, name, read, deck, Err((number, place)));
    }
    let (length, tidied) = stored.changed().ok_or("no deck with a length")?;
    in_place(side, name, read, deck, Ok((length, &tidied)))?;
    for lent in [&tidied[..], &tidied[..length]] {
        in_place(side, "open_panel_tidy", &[], lent, Ok((length, lent)))
            .map_err(|fault| format!("once more: {fault}"))?;
    }
    Ok(())
}

/// The answer, and every byte of the deck that is lent.
fn in_place(
    side: &mut Side,
    name: &str,
    read: &[&[u8]],
    deck: &[u8],
    due: Result<(usize, &[u8]), (u8, usize)>,
) -> Result<(), Fault> {
    let mut lent = deck.to_vec();
    let answer = side(name, read, &mut lent);
    same(answer, due.map(|(length, _)| length))?;
    let whole = due.map_or(deck, |(_, tidied)| tidied);
    let differs = lent.iter().zip(whole).position(|(a, b)| a != b);
    differs.map_or(same(lent.len(), whole.len()), |place| {
        Err(format!("byte {place} of the deck"))
    })
}

/// A number that is told in digits.
fn told<T: std::str::FromStr>(digits: &[u8]) -> Option<T> {
    std::str::from_utf8(digits).ok()?.parse().ok()
}

/// A text into a room of the size that is told in digits, and into rooms around its own length.
fn writes(
    side: &mut Side,
    name: &str,
    read: &[&[u8]],
    room: &[u8],
    stored: Answer,
) -> Result<(), Fault> {
    let room: usize = told(room).ok_or("a room of no size")?;
    let text = match stored {
        Answer::Refused(number, place) => {
            return in_room(side, name, read, room, Err((number, place)))
        }
        Answer::Text(text) => text,
        Answer::Words(words) => return Err(format!("no text: {}", words.escape_ascii())),
    };
    in_room(side, name, read, room, Ok(text))?;
    if let Some(short) = text.len().checked_sub(1) {
        in_room(side, name, read, short, Err((ROOM_TOO_SMALL, text.len())))?;
    }
    in_room(side, name, read, text.len(), Ok(text))?;
    in_room(side, name, read, text.len() + 1, Ok(text))
}

/// The same with a deck, which is stored in digits.
fn writes_deck(
    side: &mut Side,
    name: &str,
    read: &[&[u8]],
    room: &[u8],
    stored: Answer,
) -> Result<(), Fault> {
    let deck = stored.deck();
    let stored = deck.as_deref().map_or(stored, Answer::Text);
    writes(side, name, read, room, stored)
}

/// The answer in a room, and every byte of the room.
fn in_room(
    side: &mut Side,
    name: &str,
    read: &[&[u8]],
    room: usize,
    due: Result<&[u8], (u8, usize)>,
) -> Result<(), Fault> {
    let mut lent = vec![UNTOUCHED; room];
    let answer = side(name, read, &mut lent);
    same(answer, due.map(<[u8]>::len)).map_err(|fault| format!("in a room of {room}: {fault}"))?;
    let text = due.unwrap_or(&[]);
    if !lent.starts_with(text) {
        return Err(format!(
            "in a room of {room}: {}",
            lent[..text.len()].escape_ascii()
        ));
    }
    if lent[text.len()..].iter().any(|&byte| byte != UNTOUCHED) {
        return Err(format!("in a room of {room}: written behind the text"));
    }
    Ok(())
}

/// The wrong answers of the panel program, each with the number of its case. It is run for each, by as many threads as there are processors.
fn printed(side: &[OsString], calls: &[Call]) -> Vec<Fault> {
    let threads = thread::available_parallelism().map_or(1, |threads| threads.get());
    thread::scope(|scope| {
        let workers: Vec<_> = (0..threads)
            .map(|first| {
                let mine = calls.iter().skip(first).step_by(threads);
                scope.spawn(move || {
                    mine.filter_map(|call| faulty(call, prints(side, call)))
                        .collect::<Vec<_>>()
                })
            })
            .collect();
        workers
            .into_iter()
            .flat_map(|worker| worker.join().expect("a run ends"))
            .collect()
    })
}

/// What the program prints for an input: just the stored bytes.
fn prints(side: &[OsString], call: &Call) -> Result<(), Fault> {
    let due = match call.stored {
        Answer::Refused(number, place) => format!("refused {number} {place}\n").into_bytes(),
        Answer::Text(text) | Answer::Words(text) => text.to_vec(),
    };
    let input = &call.pieces[0];
    let found = match side {
        [] => return Err("the panel program is a command".to_owned()),
        [word] if word == "--baseline" => baseline::program(input),
        [program, words @ ..] => {
            run(program, words, input).map_err(|error| format!("{program:?}: {error}"))?
        }
    };
    if found != due {
        return Err(found.escape_ascii().to_string());
    }
    Ok(())
}

/// What a program prints.
fn run(program: &OsString, words: &[OsString], input: &[u8]) -> io::Result<Vec<u8>> {
    let mut run = Command::new(program)
        .args(words)
        .stdin(Stdio::piped())
        .stdout(Stdio::piped())
        .spawn()?;
    run.stdin.take().expect("piped").write_all(input)?;
    let run = run.wait_with_output()?;
    if !run.status.success() {
        return Err(io::Error::other(run.status.to_string()));
    }
    Ok(run.stdout)
}
