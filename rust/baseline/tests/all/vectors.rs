//! The stored cases of 2026-09 to 2026-12, by the baseline alone. `rust/vectors` asks the library the same, and all stored cases of both.

#[allow(dead_code)]
#[path = "../../../vectors/src/stored.rs"]
mod stored;

use std::collections::BTreeMap;

use baseline::{
    add, ask, convert, convert_into, first_move, judge, mend, mend_into, odds, panel, reduce, tidy,
    watch, write, Aim, Mended, Refusal,
};
use stored::{file, Answer, Cases};

const UNTOUCHED: u8 = 0xa5;

/// A number that is told in digits.
fn told(digits: &[u8]) -> usize {
    std::str::from_utf8(digits).unwrap().parse().unwrap()
}

#[test]
fn mended_decks() {
    let folder = concat!(env!("CARGO_MANIFEST_DIR"), "/../../vectors/requests");
    let answers = file(format!("{folder}/2026-09.expected"));
    let cases = Cases::new(&file(format!("{folder}/2026-09.cases")));
    let mut ends = BTreeMap::new();
    for (number, answer) in cases.answers(&answers).into_iter().enumerate() {
        let pieces = cases.call(number, "mend").expect("all are of this entry");
        let [deck, room, list] = &pieces[..] else {
            panic!("case {number} is handed something else");
        };
        let lent = |digits: &[u8]| vec![UNTOUCHED; told(digits)];
        let (mut room, mut list) = (lent(room), lent(list));
        let (mut due_room, mut due_list) = (room.clone(), list.clone());
        let due = match answer {
            Answer::Refused(number, place) => Err(Refusal { number, place }),
            _ => {
                let (made, lines) = answer.mended().expect("a deck and a list");
                due_room[..made.len()].copy_from_slice(&made);
                due_list[..lines.len()].copy_from_slice(lines);
                assert_eq!(mend(deck), Ok((made.clone(), lines.to_vec())), "{number}");
                Ok(Mended {
                    deck: made.len(),
                    list: lines.len(),
                })
            }
        };
        assert_eq!(mend_into(deck, &mut room, &mut list), due, "case {number}");
        assert_eq!(room, due_room, "case {number}");
        assert_eq!(list, due_list, "case {number}");
        let end = due.map_or_else(|refusal| refusal.number, |_| 0);
        *ends.entry(end).or_insert(0) += 1;
    }
    println!("{ends:?}");
    assert_eq!(ends.keys().copied().collect::<Vec<u8>>(), [0, 10, 11]);
    assert_eq!(ends.values().sum::<usize>(), cases.count());
}

/// A deck as it is stored, but for its length.
fn digits(deck: &[u8]) -> String {
    deck.iter().map(|byte| format!("{byte:02x}")).collect()
}

/// A deck as it is stored.
fn in_digits(deck: &[u8]) -> Vec<u8> {
    format!("ok {}\n{}\n", deck.len(), digits(deck)).into_bytes()
}

/// How a call of 2026-10 to 2026-12 ends, in the words of the stored answers; what is lent is held to be as it has to be afterwards.
fn answered(entry: &str, pieces: &[Vec<u8>]) -> Result<Vec<u8>, Refusal> {
    let pieces: Vec<&[u8]> = pieces.iter().map(Vec::as_slice).collect();
    let in_room = |room: &[u8], entry: &mut dyn FnMut(&mut [u8]) -> Result<usize, Refusal>| {
        let mut lent = vec![UNTOUCHED; told(room)];
        let answer = entry(&mut lent);
        let length = *answer.as_ref().unwrap_or(&0);
        assert!(lent[length..].iter().all(|byte| *byte == UNTOUCHED));
        lent.truncate(length);
        answer.map(|_| lent)
    };
    match (entry, &pieces[..]) {
        ("read", [card]) => judge(card).map(|_| b"taken\n".to_vec()),
        ("write", [card, room]) => in_room(room, &mut |room| write(card, room)),
        ("reduce", [card, room]) => in_room(room, &mut |room| reduce(card, room)),
        ("panel", [card, seats, room]) => in_room(room, &mut |room| panel(card, seats, room)),
        ("spectator", [card, seats, list, room]) => {
            in_room(room, &mut |room| watch(card, seats, list, room))
        }
        ("ask", [card, question, seats]) => ask(card, question, seats).map(|yes| match yes {
            true => b"yes\n".to_vec(),
            false => b"no\n".to_vec(),
        }),
        ("first_move", [card, seats]) => first_move(card, seats).map(|first| {
            let words = first.map_or("none".to_owned(), |place| format!("statement {place}"));
            format!("{words}\n").into_bytes()
        }),
        ("odds", [card, question, seats, steps, largest, rows @ ..]) => {
            let aim = match *largest {
                b"1" => Aim::Largest,
                _ => Aim::Smallest,
            };
            let numbers = |row: &[u8]| -> Vec<u32> {
                let (numbers, _) = row.as_chunks();
                numbers
                    .iter()
                    .map(|bytes| u32::from_le_bytes(*bytes))
                    .collect()
            };
            let before = [numbers(rows[0]), numbers(rows[1])];
            let [mut first, mut second] = before.clone();
            let steps = told(steps);
            let chance = odds(card, question, seats, steps, aim, &mut first, &mut second);
            let after = [first, second];
            if chance.is_err() {
                assert_eq!(after, before);
            }
            let row = |row: &Vec<u32>| {
                let numbers: Vec<String> = row.iter().map(u32::to_string).collect();
                format!("{}\n", numbers.join(" "))
            };
            let rows: String = after.iter().map(row).collect();
            chance.map(|chance| format!("odds {chance}\n{rows}").into_bytes())
        }
        ("mend", [deck, room, list]) => {
            let mut list = vec![UNTOUCHED; told(list)];
            let mut listed = 0;
            let made = in_room(room, &mut |room| {
                let mended = mend_into(deck, room, &mut list)?;
                listed = mended.list;
                Ok(mended.deck)
            })?;
            let lines = &list[..listed];
            let text = [format!("ok {}\n", lines.len()).as_bytes(), lines, b"\n"].concat();
            Ok([in_digits(&made), text].concat())
        }
        ("convert", [deck, room]) => {
            let made = in_room(room, &mut |room| convert_into(deck, room))?;
            assert_eq!(convert(deck), Ok(made.clone()));
            Ok(in_digits(&made))
        }
        ("tidy", [deck]) => in_place(deck, tidy),
        ("add", [deck, number, card]) => in_place(deck, |deck| {
            let number = u16::try_from(told(number)).expect("a card number");
            add(deck, number, card)
        }),
        _ => panic!("{entry} is handed something else"),
    }
}

/// How a call ends that changes the deck where it stands: its length, and all that was lent; with a refusal that is as it was.
fn in_place(
    deck: &[u8],
    change: impl FnOnce(&mut [u8]) -> Result<usize, Refusal>,
) -> Result<Vec<u8>, Refusal> {
    let mut lent = deck.to_vec();
    let answer = change(&mut lent);
    if answer.is_err() {
        assert_eq!(lent, deck);
    }
    answer.map(|length| format!("length {length}\n{}\n", digits(&lent)).into_bytes())
}

/// Holds all cases of a request, of which there are so many.
fn held(request: &str, count: usize) {
    const ENTRIES: [&str; 12] = [
        "read",
        "write",
        "reduce",
        "panel",
        "spectator",
        "ask",
        "first_move",
        "odds",
        "mend",
        "convert",
        "tidy",
        "add",
    ];
    let folder = concat!(env!("CARGO_MANIFEST_DIR"), "/../../vectors/requests");
    let answers = file(format!("{folder}/{request}.expected"));
    let cases = Cases::new(&file(format!("{folder}/{request}.cases")));
    let mut ends = BTreeMap::new();
    for (number, answer) in cases.answers(&answers).into_iter().enumerate() {
        let call = |entry: &'static str| Some((entry, cases.call(number, entry)?));
        let (entry, pieces) = ENTRIES.into_iter().find_map(call).expect("of one of these");
        let due = match answer {
            Answer::Refused(number, place) => Err(Refusal { number, place }),
            Answer::Text(words) | Answer::Words(words) => Ok(words.to_vec()),
        };
        assert_eq!(answered(entry, &pieces), due, "case {number}, {entry}");
        let end = due.map_or_else(|refusal| refusal.number, |_| 0);
        *ends.entry((entry, end)).or_insert(0) += 1;
    }
    println!("{ends:?}");
    assert_eq!(ends.values().sum::<usize>(), cases.count());
    assert_eq!(cases.count(), count);
}

#[test]
fn day_and_night() {
    held("2026-10", 599);
}

#[test]
fn decimals_retired() {
    held("2026-11", 566);
}

#[test]
fn room_from_withdrawn_cards() {
    held("2026-12", 489);
}
