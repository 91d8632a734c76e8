//! Tidied decks, and cards added to them: what stays and where, what becomes of the bytes behind, each refusal and which comes
//! first, and the last byte of room.

use crate::boxes::{deck, gapless};
use crate::cards::{card, CARD_A};
use baseline::{add, find, judge, judge_deck, tidy, Refusal};

/// A card of one seat, which is accepted.
const GOOD: &str = "probabilistic module process1 s1:[0..0]init 0;[]s1=0->1:(s1'=0);endmodule";
/// The same without its last byte, which is refused.
const BAD: &str = "probabilistic module process1 s1:[0..0]init 0;[]s1=0->1:(s1'=0);endmodul";

const fn refusal(number: u8, place: usize) -> Refusal {
    Refusal { number, place }
}

const NO_LIVE_CARD: Refusal = refusal(12, 0);

/// The numbers and the flags of a sound deck.
fn numbers(deck: &[u8]) -> Vec<(u16, u8)> {
    let (entries, _) = deck[1..1 + 8 * usize::from(deck[0])].as_chunks::<8>();
    let fields = |entry: &[u8; 8]| (u16::from_le_bytes([entry[0], entry[1]]), entry[6]);
    entries.iter().map(fields).collect()
}

/// Every live card of a deck is found in another, byte for byte.
#[track_caller]
fn has_all(new: &[u8], old: &[u8]) {
    assert_eq!(judge_deck(new), Ok(()));
    for (number, flag) in numbers(old) {
        if flag == 1 {
            assert_eq!(find(new, number), find(old, number));
        }
    }
}

/// The tidied deck, whatever unused end is lent with it; and tidied once more.
#[track_caller]
fn tidied(deck: &[u8]) -> Vec<u8> {
    let mut made = deck.to_vec();
    let length = tidy(&mut made).unwrap();
    assert!(made[length..].iter().all(|byte| *byte == 0));
    made.truncate(length);
    has_all(&made, deck);
    assert!(numbers(&made).iter().all(|(_, flag)| *flag == 1));
    for (more, filling) in [(0, 0), (1, 0), (1, 7), (90, 255), (65_535 - deck.len(), 1)] {
        let mut lent = deck.to_vec();
        lent.resize((deck.len() + more).min(65_535), filling);
        assert_eq!(tidy(&mut lent), Ok(length));
        assert!(lent.starts_with(&made));
        assert!(lent[length..].iter().all(|byte| *byte == 0));
        assert_eq!(tidy(&mut lent), Ok(length));
        assert!(lent.starts_with(&made));
        assert!(lent[length..].iter().all(|byte| *byte == 0));
    }
    made
}

/// The deck with a card added: in all the room it may need, in no more than it needs, and not in a byte less; and the same as tidied first.
#[track_caller]
fn added(deck: &[u8], number: u16, card: &str) -> Vec<u8> {
    let mut made = deck.to_vec();
    made.resize(65_535, 7);
    let length = add(&mut made, number, card.as_bytes()).unwrap();
    assert!(made[length..].iter().all(|byte| *byte == 0));
    made.truncate(length);
    has_all(&made, deck);
    assert_eq!(find(&made, number), Ok(card.as_bytes()));
    let live = numbers(deck).iter().filter(|(_, flag)| *flag == 1).count();
    assert_eq!(numbers(&made).len(), live + 1);
    for start in [deck.to_vec(), tidied(deck)] {
        for room in [length, length + 1, length + 90, start.len() + 1] {
            let mut lent = start.clone();
            lent.resize(room.max(start.len()).min(65_535), 7);
            if lent.len() < length {
                continue;
            }
            assert_eq!(add(&mut lent, number, card.as_bytes()), Ok(length));
            assert!(lent.starts_with(&made));
            assert!(lent[length..].iter().all(|byte| *byte == 0));
        }
        if start.len() < length {
            for room in [start.len(), length - 1] {
                let mut lent = start.clone();
                lent.resize(room, 7);
                not_added(&lent, number, card, refusal(10, length));
            }
        }
    }
    made
}

#[track_caller]
fn not_tidied(deck: &[u8], due: Refusal) {
    let mut lent = deck.to_vec();
    assert_eq!(tidy(&mut lent), Err(due));
    assert_eq!(lent, deck);
}

#[track_caller]
fn not_added(deck: &[u8], number: u16, card: &str, due: Refusal) {
    let mut lent = deck.to_vec();
    assert_eq!(add(&mut lent, number, card.as_bytes()), Err(due));
    assert_eq!(lent, deck);
}

#[test]
fn withdrawn_cards_go() {
    let given = [
        (0, 0, "withdrawn"),
        (1, 1, "one"),
        (2, 0, ""),
        (3, 1, ""),
        (300, 0, "also withdrawn"),
        (301, 1, "a body that is not a card"),
        (65_535, 0, "last"),
    ];
    let due = [(1, 1, "one"), (3, 1, ""), (301, 1, given[5].2)];
    assert_eq!(tidied(&gapless(&given)), gapless(&due));
    // Nothing to do, and one live card of many.
    assert_eq!(tidied(&gapless(&due)), gapless(&due));
    for live in 0..given.len() {
        let mut cards = given;
        for (place, card) in cards.iter_mut().enumerate() {
            card.1 = u8::from(place == live);
        }
        assert_eq!(tidied(&gapless(&cards)), gapless(&[cards[live]]));
    }
}

#[test]
fn gaps_close() {
    // Before the first body, between two, around an empty one, and at the end.
    let given = deck(
        &[
            (1, 35, 2, 1, 0),
            (2, 38, 3, 0, 0),
            (5, 42, 0, 1, 0),
            (7, 43, 4, 1, 0),
        ],
        b"..ab.xyz..cdef...",
    );
    let due = gapless(&[(1, 1, "ab"), (5, 1, ""), (7, 1, "cdef")]);
    assert_eq!(tidied(&given), due);
    // A body that goes by less than its length, and by more than the contents had.
    let long: String = (0..3_000u32)
        .map(|at| char::from(33 + (at % 90) as u8))
        .collect();
    for gap in [1, 2_999, 3_000, 3_001, 20_000] {
        let behind = [&vec![b'.'; gap], long.as_bytes(), long.as_bytes()].concat();
        let given = deck(
            &[(1, 17 + gap, 3_000, 1, 0), (2, 3_017 + gap, 3_000, 1, 0)],
            &behind,
        );
        assert_eq!(tidied(&given), gapless(&[(1, 1, &long), (2, 1, &long)]));
    }
    // Sixty-four entries of which the last is live: its body goes to where the contents were.
    let mut cards = vec![(0, 0, ""); 64];
    for (number, card) in (0..).zip(&mut cards) {
        card.0 = number;
    }
    cards[63] = (63, 1, &long);
    assert_eq!(tidied(&gapless(&cards)), gapless(&[(63, 1, &long)]));
}

#[test]
fn what_tidying_refuses() {
    for (deck, place) in malformed() {
        not_tidied(&deck, refusal(11, place));
        assert_eq!(judge_deck(&deck), Err(refusal(11, place)));
    }
    not_tidied(&gapless(&[(1, 0, GOOD)]), NO_LIVE_CARD);
    not_tidied(
        &deck(&[(1, 20, 1, 0, 0), (2, 30, 0, 0, 0)], &[7; 20]),
        NO_LIVE_CARD,
    );
    // The longest deck is one, and one byte more is not.
    let mut longest = gapless(&[(1, 1, "x"), (2, 0, "y")]);
    longest.resize(65_536, 0);
    not_tidied(&longest, refusal(11, 0));
    assert_eq!(tidied(&longest[..65_535]), gapless(&[(1, 1, "x")]));
}

/// Malformed decks without a live card and with one, and the places.
fn malformed() -> Vec<(Vec<u8>, usize)> {
    vec![
        (vec![], 0),
        (vec![0; 9], 0),
        (vec![65; 600], 0),
        (deck(&[(1, 9, 0, 1, 0)], b"")[..8].to_vec(), 0),
        (deck(&[(1, 9, 0, 2, 0)], b""), 7),
        (deck(&[(1, 9, 0, 0, 1)], b""), 8),
        (deck(&[(1, 8, 0, 0, 0)], b""), 3),
        (deck(&[(1, 9, 1, 1, 0)], b""), 5),
        (deck(&[(1, 10, 0, 0, 0)], b""), 5),
        (deck(&[(1, 17, 0, 1, 0), (1, 17, 0, 1, 0)], b""), 9),
        (deck(&[(1, 17, 1, 1, 0), (2, 17, 0, 0, 0)], b"x"), 11),
        (deck(&[(1, 17, 1, 1, 0), (2, 18, 0, 7, 0)], b"x"), 15),
        (deck(&[(1, 9, 1, 1, 0)], &[7; 65_527]), 0),
    ]
}

#[test]
fn a_card_goes_to_its_place() {
    let given = [(1, 1, "one"), (4, 0, "four"), (7, 1, ""), (9, 1, "nine")];
    let live = [given[0], given[2], given[3]];
    for (number, place) in [(0, 0), (2, 1), (4, 1), (6, 1), (8, 2), (10, 3), (65_535, 3)] {
        for card in [GOOD, CARD_A] {
            let mut due = live.to_vec();
            due.insert(place, (number, 1, card));
            assert_eq!(added(&gapless(&given), number, card), gapless(&due));
            assert_eq!(added(&gapless(&live), number, card), gapless(&due));
        }
    }
}

#[test]
fn bodies_on_both_sides_of_it() {
    // With gaps that are less than the card needs, as much, and more: those before it and behind it go to the left or to the right.
    let [long, longer] = [200, 700].map(|bytes: u32| -> String {
        (0..bytes)
            .map(|at| char::from(33 + (at % 83) as u8))
            .collect()
    });
    let needs = 8 + GOOD.len();
    for before in [0, 7, 8, 9, needs - 1, needs, needs + 1, 900] {
        for between in [0, 1, 100, needs, 900] {
            let second = 25 + before + long.len() + between;
            let third = second + longer.len() + 3;
            let behind = [
                &vec![b'.'; before],
                long.as_bytes(),
                &vec![b'.'; between],
                longer.as_bytes(),
                b"...",
                long.as_bytes(),
            ];
            let given = deck(
                &[
                    (10, 25 + before, long.len(), 1, 0),
                    (20, second, longer.len(), 1, 0),
                    (30, third, long.len(), 1, 0),
                ],
                &behind.concat(),
            );
            for (number, place) in [(5, 0), (15, 1), (25, 2), (35, 3)] {
                let mut due = vec![(10, 1, &long[..]), (20, 1, &longer), (30, 1, &long)];
                due.insert(place, (number, 1, GOOD));
                assert_eq!(added(&given, number, GOOD), gapless(&due));
            }
        }
    }
}

#[test]
fn what_adding_refuses_in_order() {
    let two = gapless(&[(1, 1, "one"), (2, 0, "two"), (3, 1, "three")]);
    // Malformed before all else, and then no live card.
    for (deck, place) in malformed() {
        not_added(&deck, 1, BAD, refusal(11, place));
    }
    for card in [GOOD, BAD, ""] {
        not_added(&gapless(&[(1, 0, GOOD)]), 1, card, NO_LIVE_CARD);
    }
    // Then the card's own, each at its place on the card, also for a number that is live.
    let with = |weight: &str| self::card(1, 0, &format!("[] s1=0 -> {weight}:(s1'=0);"));
    for (text, number) in [
        (format!("{:<16385}", with("1")), 1),
        (with("01"), 2),
        (with("1/"), 3),
        (BAD.to_owned(), 3),
        (String::new(), 3),
        (self::card(17, 0, "[] s1=0 -> 1:(s1'=0);"), 4),
        (self::card(1, 0, "[] s1=1 -> 1:(s1'=0);"), 5),
        (self::card(2, 0, "[] s1=0 & (s1=0) -> 1:(s1'=0);"), 6),
        (with("1/2"), 7),
        (with("1.0"), 17),
    ] {
        let due = judge(text.as_bytes()).err().unwrap();
        assert_eq!(due.number, number);
        for added in [0, 1, 2, 3, 4] {
            not_added(&two, added, &text, due);
        }
    }
    // Then a live number, at its entry as it came, before the room.
    not_added(&two, 1, GOOD, refusal(19, 1));
    not_added(&two, 3, GOOD, refusal(19, 17));
    let needed = 1 + 3 * 8 + 8 + GOOD.len();
    not_added(&two, 2, GOOD, refusal(10, needed));
    assert_eq!(added(&two, 2, GOOD).len(), needed);
}

#[test]
fn the_65th_live_card() {
    let of = |live: u16, withdrawn: u16| {
        let mut cards = Vec::new();
        for number in 0..live {
            cards.push((10 * number, 1, ""));
        }
        for number in 0..withdrawn {
            cards.push((1_000 + number, 0, "x"));
        }
        gapless(&cards)
    };
    // Entries do not count, live cards do.
    assert_eq!(added(&of(63, 0), 5, GOOD)[0], 64);
    assert_eq!(added(&of(63, 1), 2_000, GOOD)[0], 64);
    assert_eq!(added(&of(63, 1), 1_000, GOOD)[0], 64);
    assert_eq!(added(&of(1, 63), 1_001, GOOD)[0], 2);
    let full = of(64, 0);
    for lent in [full.len(), 65_535] {
        let mut full = full.clone();
        full.resize(lent, 0);
        for number in [5, 635, 65_535] {
            not_added(&full, number, GOOD, refusal(19, 0));
        }
        // A number that is live already is told first.
        for place in [0, 1, 63] {
            let due = refusal(19, 1 + 8 * usize::from(place));
            not_added(&full, 10 * place, GOOD, due);
        }
        not_added(&full, 5, BAD, judge(BAD.as_bytes()).err().unwrap());
    }
}

#[test]
fn the_longest_decks() {
    // What is left behind the contents of two cards, one of them added.
    let left = 65_535 - 17 - GOOD.len();
    let fill = |bytes: usize| "x".repeat(bytes);
    for number in [1, 3] {
        let made = added(&gapless(&[(2, 1, &fill(left))]), number, GOOD);
        assert_eq!(made.len(), 65_535);
    }
    // One byte too many: the length is told past the longest deck, and as much as it would be.
    for (bytes, number) in [(left + 1, 1), (left + 1, 3), (65_526, 1), (65_526, 3)] {
        let mut lent = gapless(&[(2, 1, &fill(bytes))]);
        let due = refusal(10, 17 + bytes + GOOD.len());
        assert!(due.place > 65_535);
        not_added(&lent, number, GOOD, due);
        lent.resize(65_535, 7);
        not_added(&lent, number, GOOD, due);
    }
    let longest = format!("{GOOD:<16384}");
    not_added(
        &gapless(&[(2, 1, &fill(65_526))]),
        7,
        &longest,
        refusal(10, 65_535 + 8 + 16_384),
    );
    // The room comes from a withdrawn card and a gap alone.
    let withdrawn = gapless(&[(1, 1, "x"), (2, 0, &fill(65_517))]);
    assert_eq!(withdrawn.len(), 65_535);
    let mut lent = withdrawn.clone();
    assert_eq!(add(&mut lent, 2, longest.as_bytes()), Ok(17 + 1 + 16_384));
    assert_eq!(lent[..16_402], gapless(&[(1, 1, "x"), (2, 1, &longest)]));
    assert!(lent[16_402..].iter().all(|byte| *byte == 0));
}
