//! Mended decks: each rule from both sides, which of several is told, what a dropped entry leaves behind, and the rooms.

use crate::boxes::{deck, gapless, Entry};
use crate::cards::{card, CARD_A};
use baseline::{judge_deck, judge_old, mend, mend_into, write_deck, Mended, Refusal};

/// A card of one seat, which is accepted.
const GOOD: &str = "probabilistic module process1 s1:[0..0]init 0;[]s1=0->1:(s1'=0);endmodule";
/// The same without its last byte, which is refused.
const BAD: &str = "probabilistic module process1 s1:[0..0]init 0;[]s1=0->1:(s1'=0);endmodul";

const PAST_MENDING: Refusal = Refusal {
    number: 11,
    place: 0,
};
const UNTOUCHED: u8 = 0xa5;

/// The mended deck and its list, the same into rooms that just fit and larger ones, and mended once more.
#[track_caller]
fn mended(deck: &[u8]) -> (Vec<u8>, String) {
    let (made, list) = mend(deck).unwrap();
    for more in [0, 1, 90] {
        let mut room = vec![UNTOUCHED; made.len() + more];
        let mut lines = vec![UNTOUCHED; list.len() + more];
        let lengths = Mended {
            deck: made.len(),
            list: list.len(),
        };
        assert_eq!(mend_into(deck, &mut room, &mut lines), Ok(lengths));
        assert!(room.starts_with(&made) && lines.starts_with(&list));
        let mut behind = room[made.len()..].iter().chain(&lines[list.len()..]);
        assert!(behind.all(|byte| *byte == UNTOUCHED));
    }
    assert!(made.len() <= deck.len() && list.len() <= 640);
    assert_eq!(judge_deck(&made), Ok(()));
    let (again, lines) = mend(&made).unwrap();
    assert_eq!(again, made);
    assert_eq!(lines, b"kept\n".repeat(made[0].into()));
    (made, String::from_utf8(list).unwrap())
}

/// Two withdrawn bodies of two bytes and then one of none, from 25 on, the first at 25 and the second at 28; the second entry is as given.
#[track_caller]
fn second(entry: Entry, due: &str) {
    let entries = [(4, 25, 2, 0, 0), entry, (9, 30, 0, 0, 0)];
    let (made, list) = mended(&deck(&entries, b"ab.cd"));
    assert_eq!(list, format!("kept\n{due}\nkept\n"), "{entry:?}");
    let kept = usize::from(due == "kept");
    assert_eq!(made[0], 2 + kept as u8);
    assert_eq!(made.len(), 1 + 8 * (2 + kept) + 2 + entry.2 * kept);
}

#[test]
fn each_rule_from_both_sides() {
    second((5, 28, 2, 0, 0), "kept");
    second((5, 28, 2, 2, 0), "dropped 1");
    second((5, 28, 2, 255, 0), "dropped 1");
    second((5, 28, 2, 0, 1), "dropped 1");
    second((4, 28, 2, 0, 0), "dropped 2");
    second((3, 28, 2, 0, 0), "dropped 2");
    second((0, 28, 2, 0, 0), "dropped 2");
    second((5, 27, 3, 0, 0), "kept");
    second((5, 26, 3, 0, 0), "dropped 3");
    second((5, 0, 3, 0, 0), "dropped 3");
    second((5, 28, 3, 0, 0), "dropped 3");
    second((5, 29, 1, 0, 0), "kept");
    second((5, 29, 2, 0, 0), "dropped 3");
    second((5, 65_535, 65_535, 0, 0), "dropped 3");
    second((5, 30, 65_506, 0, 0), "dropped 3");
    // An empty body lies between the same bounds.
    second((5, 27, 0, 0, 0), "kept");
    second((5, 26, 0, 0, 0), "dropped 3");
    second((5, 30, 0, 0, 0), "kept");
    second((5, 31, 0, 0, 0), "dropped 3");
    // No card is accepted that is `cd`, or empty.
    second((5, 28, 2, 1, 0), "dropped 4");
    second((5, 28, 0, 1, 0), "dropped 4");
}

#[test]
fn the_first_rule_broken_is_told() {
    second((4, 26, 1, 2, 0), "dropped 1");
    second((4, 26, 1, 1, 9), "dropped 1");
    second((5, 28, 2, 1, 9), "dropped 1");
    second((4, 26, 1, 1, 0), "dropped 2");
    second((4, 28, 2, 1, 0), "dropped 2");
    second((5, 26, 1, 1, 0), "dropped 3");
    second((5, 28, 3, 1, 0), "dropped 3");
}

#[test]
fn live_cards_are_read_and_withdrawn_ones_are_not() {
    let (made, list) = mended(&gapless(&[
        (1, 1, GOOD),
        (2, 1, BAD),
        (3, 0, BAD),
        (4, 0, ""),
    ]));
    assert_eq!(list, "kept\ndropped 4\nkept\nkept\n");
    assert_eq!(made, gapless(&[(1, 1, GOOD), (3, 0, BAD), (4, 0, "")]));
}

#[test]
fn the_longest_card() {
    let long = |bytes: usize| {
        format!(
            "{:<bytes$}",
            card(3, 1, "[] s1=0 -> 1/2:(s1'=1) + 1/2:(s1'=0);")
        )
    };
    let (most, more) = (long(16_384), long(16_385));
    let (made, list) = mended(&gapless(&[(1, 1, &more), (2, 1, &most), (3, 0, &more)]));
    assert_eq!(list, "dropped 4\nkept\nkept\n");
    assert_eq!(made, gapless(&[(2, 1, &most), (3, 0, &more)]));
}

/// Decimals were taken once, and are not any more.
#[test]
fn live_cards_with_decimals() {
    let decimals = card(1, 1, "[] s1=0 -> 0.5:(s1'=1) + 1/2:(s1'=0);");
    assert!(judge_old(decimals.as_bytes()).is_ok());
    let (made, list) = mended(&gapless(&[
        (1, 1, &decimals),
        (2, 0, &decimals),
        (3, 1, &decimals.replace("0.5", "1/2// 0.5\n")),
    ]));
    assert_eq!(list, "dropped 4\nkept\nkept\n");
    let kept = decimals.replace("0.5", "1/2// 0.5\n");
    assert_eq!(made, gapless(&[(2, 0, &decimals), (3, 1, &kept)]));
    assert_eq!(mend(&gapless(&[(1, 1, &decimals)])), Err(PAST_MENDING));
}

#[test]
fn a_dropped_entry_moves_nothing() {
    // A number and an end that would shut out all that follows.
    let at = 25;
    let bodies = [GOOD, GOOD].concat();
    let last = (2, at + GOOD.len(), GOOD.len(), 1, 0);
    let first = (1, at, GOOD.len(), 1, 0);
    for (wrong, rule) in [
        ((65_535, at + GOOD.len(), GOOD.len(), 7, 0), 1),
        ((0, at + GOOD.len(), 2 * GOOD.len(), 0, 0), 2),
        ((65_535, at + GOOD.len(), 65_535, 0, 0), 3),
        ((65_535, at + GOOD.len(), GOOD.len() - 1, 1, 0), 4),
    ] {
        let (made, list) = mended(&deck(&[first, wrong, last], bodies.as_bytes()));
        assert_eq!(list, format!("kept\ndropped {rule}\nkept\n"));
        assert_eq!(made, gapless(&[(1, 1, GOOD), (2, 1, GOOD)]));
    }
    // The first kept may have any number, and what was dropped before it does not count.
    let (made, list) = mended(&deck(
        &[(9, 25, 0, 3, 0), (0, 25, 1, 0, 0), (0, 26, 0, 0, 0)],
        b"x",
    ));
    assert_eq!(list, "dropped 1\nkept\ndropped 2\n");
    assert_eq!(made, gapless(&[(0, 0, "x")]));
}

#[test]
fn behind_the_contents_as_they_were_handed_in() {
    // Of two entries one is dropped; its bytes are contents all the same.
    let wrong = (1, 17, 0, 9, 0);
    let refused = deck(&[wrong, (2, 16, 1, 0, 0)], b"x");
    assert_eq!(mend(&refused), Err(PAST_MENDING));
    let (made, list) = mended(&deck(&[wrong, (2, 17, 1, 0, 0)], b"x"));
    assert_eq!(list, "dropped 1\nkept\n");
    assert_eq!(made, gapless(&[(2, 0, "x")]));
}

#[test]
fn gaps_close_and_a_sound_deck_stays() {
    let sound = gapless(&[(0, 1, CARD_A), (7, 0, "?"), (8, 0, ""), (65_535, 1, GOOD)]);
    let (made, list) = mended(&sound);
    assert_eq!(made, sound);
    assert_eq!(list, "kept\n".repeat(4));
    let with_gaps = deck(
        &[(1, 20, GOOD.len(), 1, 0), (2, 23 + GOOD.len(), 2, 0, 0)],
        format!("...{GOOD}...xy..").as_bytes(),
    );
    let (made, list) = mended(&with_gaps);
    assert_eq!(list, "kept\nkept\n");
    assert_eq!(made, gapless(&[(1, 1, GOOD), (2, 0, "xy")]));
    // As the writer of decks writes it.
    let mut room = [0; 200];
    let length = write_deck(&made[1..17], &made[17..], &mut room).unwrap();
    assert_eq!(room[..length], made);
}

#[test]
fn overlapping_bodies() {
    // The same body twice, and one that holds the next.
    let twice = [(1, 17, GOOD.len(), 1, 0), (2, 17, GOOD.len(), 1, 0)];
    let (made, list) = mended(&deck(&twice, GOOD.as_bytes()));
    assert_eq!(list, "kept\ndropped 3\n");
    assert_eq!(made, gapless(&[(1, 1, GOOD)]));
    let holds = [
        (1, 17, GOOD.len(), 0, 0),
        (2, 18, 3, 0, 0),
        (3, 17 + GOOD.len(), 0, 0, 0),
    ];
    let shifted =
        holds.map(|(number, offset, length, flag, zero)| (number, offset + 8, length, flag, zero));
    let (_, list) = mended(&deck(&shifted, GOOD.as_bytes()));
    assert_eq!(list, "kept\ndropped 3\nkept\n");
    // Bodies in another order than the contents.
    let backwards = [(1, 18, 1, 0, 0), (2, 17, 1, 0, 0)];
    assert_eq!(mended(&deck(&backwards, b"xy")).1, "kept\ndropped 3\n");
}

#[test]
fn what_is_past_mending() {
    let one = deck(&[(1, 9, 0, 0, 0)], b"");
    assert_eq!(mended(&one).1, "kept\n");
    assert_eq!(mend(&[]), Err(PAST_MENDING));
    assert_eq!(mend(&one[..8]), Err(PAST_MENDING));
    for count in [0, 2, 65, 255] {
        let mut wrong = one.clone();
        wrong[0] = count;
        assert_eq!(mend(&wrong), Err(PAST_MENDING), "{count}");
    }
    let many = |count: usize| {
        let entry = |number: usize| (number as u16, 1 + 8 * count, 0, 0, 0);
        let entries: Vec<Entry> = (0..count).map(entry).collect();
        deck(&entries, b"")
    };
    assert_eq!(mended(&many(64)).0, many(64));
    assert_eq!(mend(&many(65)), Err(PAST_MENDING));
    let mut long = deck(&[(1, 9, 65_526, 0, 0)], &[7; 65_526]);
    assert_eq!(mended(&long).0, long);
    long.push(7);
    assert_eq!(mend(&long), Err(PAST_MENDING));
    for nothing_kept in [
        (1, 9, 0, 2, 0),
        (1, 8, 0, 0, 0),
        (1, 9, 1, 0, 0),
        (1, 9, 0, 1, 0),
    ] {
        assert_eq!(mend(&deck(&[nothing_kept], b"")), Err(PAST_MENDING));
    }
}

#[test]
fn the_deck_before_the_list_and_both_last() {
    let given = deck(&[(1, 17, 1, 0, 0), (1, 18, 0, 0, 0)], b"x");
    let (deck_length, list_length) = (10, 15);
    let refused = |deck: &[u8], room: usize, list: usize| {
        let (mut room, mut list) = (vec![UNTOUCHED; room], vec![UNTOUCHED; list]);
        let answer = mend_into(deck, &mut room, &mut list);
        assert!(room.iter().chain(&list).all(|byte| *byte == UNTOUCHED));
        answer.unwrap_err()
    };
    let room = |place: usize| Refusal { number: 10, place };
    assert_eq!(refused(&given, deck_length - 1, 640), room(deck_length));
    assert_eq!(
        refused(&given, deck_length, list_length - 1),
        room(list_length)
    );
    assert_eq!(
        refused(&given, deck_length - 1, list_length - 1),
        room(deck_length)
    );
    assert_eq!(refused(&given, 65_535, 0), room(list_length));
    assert_eq!(refused(&given, 0, 0), room(deck_length));
    assert_eq!(refused(&[0; 9], 0, 0), PAST_MENDING);
    assert_eq!(refused(&deck(&[(1, 9, 0, 2, 0)], b""), 0, 0), PAST_MENDING);
}
