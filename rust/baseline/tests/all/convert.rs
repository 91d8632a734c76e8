//! Converted decks: which bodies stay and which are written, what each is refused for and which card is named, and the rooms.

use crate::boxes::{deck, gapless};
use crate::cards::{card, CARD_A};
use baseline::{convert, convert_into, find, judge, judge_deck, judge_old, mend, write, Refusal};

/// Card A with decimals, and nearly without blanks.
const OLD_A: &str = "\
probabilistic module process1 s1:[0..2]init 0;\
[]s1=0&(s3=0|s2=0)->0.5:(s1'=1)+0.50:(s1'=2);\
[]s1=1&(s1!=2&s2!=2&s3!=2)->0.25:(s1'=2)+3/4:(s1'=1);\
endmodule \
module process2=process1[s1=s2,s2=s1]endmodule \
module process3=process1[s1=s3,s3=s1]endmodule";

/// A card of one seat without a decimal, otherwise spelled than it would be written.
const PLAIN: &str =
    "probabilistic module process1 s1:[0..0]init 0;[]s1=0->1:(s1'=0);endmodule // 0.5";

/// A card that no rule takes.
const BAD: &str = "probabilistic module process1 s1:[0..0]init 0;[]s1=0->1:(s1'=0);endmodul";

const UNTOUCHED: u8 = 0xa5;

fn malformed(place: usize) -> Refusal {
    Refusal { number: 11, place }
}

fn named(card: usize) -> Refusal {
    Refusal {
        number: 18,
        place: card,
    }
}

/// The converted deck, the same into rooms that just fit and larger ones, and converted once more; its live cards mean what they meant.
#[track_caller]
fn converted(deck: &[u8]) -> Vec<u8> {
    let made = convert(deck).unwrap();
    for more in [0, 1, 90] {
        let mut room = vec![UNTOUCHED; made.len() + more];
        assert_eq!(convert_into(deck, &mut room), Ok(made.len()));
        assert!(room.starts_with(&made));
        assert!(room[made.len()..].iter().all(|byte| *byte == UNTOUCHED));
    }
    for length in [made.len() - 1, 9, 0] {
        let mut room = vec![UNTOUCHED; length];
        let refused = Refusal {
            number: 10,
            place: made.len(),
        };
        assert_eq!(convert_into(deck, &mut room), Err(refused));
        assert!(room.iter().all(|byte| *byte == UNTOUCHED));
    }
    assert_eq!(judge_deck(&made), Ok(()));
    assert_eq!(convert(&made), Ok(made.clone()));
    let (kept, _) = mend(&made).unwrap();
    assert_eq!(kept, made);
    for entry in made[1..1 + 8 * usize::from(made[0])].as_chunks::<8>().0 {
        let number = u16::from_le_bytes([entry[0], entry[1]]);
        match (find(deck, number), find(&made, number)) {
            (Ok(old), Ok(new)) => {
                assert!(judge_old(old).unwrap() == judge(new).unwrap());
                assert!(judge_old(new).unwrap() == judge(new).unwrap());
                assert_eq!(judge(old).is_ok(), old == new);
            }
            (old, new) => assert!(old.is_err() && new.is_err()),
        }
    }
    made
}

#[track_caller]
fn refused(deck: &[u8], due: Refusal) {
    assert_eq!(convert(deck), Err(due));
    for length in [0, 9, 70_000] {
        let mut room = vec![UNTOUCHED; length];
        assert_eq!(convert_into(deck, &mut room), Err(due));
        assert!(room.iter().all(|byte| *byte == UNTOUCHED));
    }
}

#[test]
fn written_copied_and_unread() {
    assert_eq!(
        converted(&gapless(&[
            (0, 1, OLD_A),
            (7, 1, PLAIN),
            (8, 0, OLD_A),
            (9, 0, BAD),
            (256, 0, ""),
            (65_535, 1, OLD_A),
        ])),
        gapless(&[
            (0, 1, CARD_A),
            (7, 1, PLAIN),
            (8, 0, OLD_A),
            (9, 0, BAD),
            (256, 0, ""),
            (65_535, 1, CARD_A),
        ])
    );
    // Without live cards, and without any that is written: the same again.
    let withdrawn = gapless(&[(3, 0, BAD), (5, 0, OLD_A)]);
    assert_eq!(converted(&withdrawn), withdrawn);
    let without = gapless(&[(3, 1, CARD_A), (4, 1, PLAIN)]);
    assert_eq!(converted(&without), without);
}

#[test]
fn one_decimal_is_enough_and_a_comment_has_none() {
    // All of the card is written anew, comments and order of seats too.
    let one = CARD_A.replace("3/4", "0.75// three quarters\n");
    let one = one.replace("(s2=0 | s3=0)", "( s3=0|s2=0 )");
    assert_eq!(
        converted(&gapless(&[(1, 1, &one)])),
        gapless(&[(1, 1, CARD_A)])
    );
    for text in [
        CARD_A.replace("3/4", "3/4// 0.75\n"),
        CARD_A.replace("3/4", "6/8"),
        CARD_A.replace("(s2=0 | s3=0)", "( s3=0|s2=0 )"),
    ] {
        let deck = gapless(&[(1, 1, &text)]);
        assert_eq!(converted(&deck), deck);
    }
}

#[test]
fn longer_and_shorter() {
    // Weights that take more bytes as a fraction, as many, and fewer.
    for (decimal, fraction) in [
        ("0.37", "37/100"),
        ("0.5", "1/2"),
        ("0.50", "1/2"),
        ("0.00", "0"),
    ] {
        let with = |weight: &str, rest: &str| {
            card(
                1,
                1,
                &format!("[] s1=0 -> {weight}:(s1'=1) + {rest}:(s1'=0);"),
            )
        };
        let (rest, written) = match fraction {
            "37/100" => ("0.63", "63/100"),
            "0" => ("1", "1"),
            _ => ("2/4", "1/2"),
        };
        let old = gapless(&[(1, 0, "x"), (2, 1, &with(decimal, rest)), (3, 0, "y")]);
        let new = gapless(&[(1, 0, "x"), (2, 1, &with(fraction, written)), (3, 0, "y")]);
        assert_eq!(converted(&old), new);
    }
}

#[test]
fn gaps_close() {
    let given = deck(
        &[
            (1, 30, OLD_A.len(), 1, 0),
            (2, 33 + OLD_A.len(), 2, 0, 0),
            (9, 35 + OLD_A.len(), PLAIN.len(), 1, 0),
        ],
        format!(".....{OLD_A}...xy{PLAIN}..").as_bytes(),
    );
    let due = gapless(&[(1, 1, CARD_A), (2, 0, "xy"), (9, 1, PLAIN)]);
    assert_eq!(converted(&given), due);
}

#[test]
fn with_a_shared_number() {
    let old = "nondeterministic global g:[0..2]init 1;module process1 s1:[0..1]init 0;\
        []s1=0&(g!=2)->0.2:(s1'=1)&(g'=2)+0.80:(s1'=0);[]s1=1&!(g=0)->1.0:(s1'=1)&(g'=0);endmodule";
    let new = "nondeterministic\nglobal g : [0..2] init 1;\nmodule process1\ns1 : [0..1] init 0;\n\
        [] s1=0 & (g!=2) -> 1/5:(s1'=1) & (g'=2) + 4/5:(s1'=0);\n\
        [] s1=1 & !(g=0) -> 1:(s1'=1) & (g'=0);\nendmodule\n";
    assert_eq!(converted(&gapless(&[(4, 1, old)])), gapless(&[(4, 1, new)]));
}

#[test]
fn malformed_decks_come_first() {
    let decks = [
        (vec![], 0),
        (vec![0; 9], 0),
        (deck(&[(1, 9, 0, 0, 0)], b"")[..8].to_vec(), 0),
        (deck(&[(1, 9, 0, 2, 0)], b""), 7),
        (deck(&[(1, 9, 0, 1, 1)], b""), 8),
        (deck(&[(1, 8, 0, 0, 0)], b""), 3),
        (deck(&[(1, 9, 1, 0, 0)], b""), 5),
        (deck(&[(1, 10, 0, 0, 0)], b""), 5),
        (deck(&[(1, 17, 0, 0, 0), (1, 17, 0, 0, 0)], b""), 9),
        // The first card is refused by any rule, but the second entry is wrong.
        (deck(&[(1, 17, 1, 1, 0), (2, 17, 0, 0, 0)], b"x"), 11),
        (deck(&[(1, 17, 1, 1, 0), (2, 18, 0, 7, 0)], b"x"), 15),
        (deck(&[(1, 9, 65_526, 0, 0)], &[7; 65_527]), 0),
    ];
    for (deck, place) in decks {
        refused(&deck, malformed(place));
        assert_eq!(judge_deck(&deck), Err(malformed(place)));
    }
}

#[test]
fn the_first_card_that_is_refused_is_named() {
    refused(&gapless(&[(700, 1, BAD)]), named(700));
    refused(&gapless(&[(0, 1, "")]), named(0));
    refused(&gapless(&[(65_535, 1, "x")]), named(65_535));
    let several = [
        (2, 0, BAD),
        (4, 1, OLD_A),
        (6, 1, BAD),
        (7, 1, PLAIN),
        (8, 1, ""),
    ];
    refused(&gapless(&several), named(6));
    // Refused by each number.
    let with = |weight: &str| card(1, 0, &format!("[] s1=0 -> {weight}:(s1'=0);"));
    for (text, number) in [
        (format!("{:<16385}", with("1.0")), 1),
        (with("01.0"), 2),
        (with("1.0/1"), 3),
        (card(17, 0, "[] s1=0 -> 1.0:(s1'=0);"), 4),
        (card(1, 0, "[] s1=1 -> 1.0:(s1'=0);"), 5),
        (card(2, 0, "[] s1=0 & (s1=0) -> 1.0:(s1'=0);"), 6),
        (with("1.000"), 7),
        (with("0.5"), 7),
    ] {
        assert_eq!(judge_old(text.as_bytes()).err().unwrap().number, number);
        let with = |flag| gapless(&[(1, 1, OLD_A), (3, flag, &text), (5, 1, BAD)]);
        refused(&with(1), named(3));
        refused(&with(0), named(5));
    }
    let longest = format!("{:<16384}", with("1.0"));
    let written = with("1");
    assert_eq!(
        converted(&gapless(&[(3, 1, &longest)])),
        gapless(&[(3, 1, &written)])
    );
}

/// A card of nine seats, with so many groups and so many statements of longer weights: with decimals and without blanks, and as it is written.
fn long(groups: usize, by_four: usize, by_one: usize) -> [String; 2] {
    [true, false].map(|old| {
        let spelled = |text: &str| match old {
            true => text.replace([' ', '\n'], "").replace('_', " "),
            false => text.replace('_', " "),
        };
        let literals: Vec<String> = (1..=9).map(|seat| format!("s{seat}=0")).collect();
        let group = spelled(&format!(" & ({})", literals.join(" | ")));
        let mut text = spelled("probabilistic_\nmodule_process1_\ns1 : [0..1] init_0;\n");
        for place in 0..32 {
            let weights = match place {
                _ if place < by_four => ["0.37", "0.63", "37/100", "63/100"],
                _ if place < by_four + by_one => ["0.05", "0.95", "1/20", "19/20"],
                _ => ["0.1", "0.9", "1/10", "9/10"],
            };
            let [first, second] = match old {
                true => [weights[0], weights[1]],
                false => [weights[2], weights[3]],
            };
            text += &spelled("[] s1=0");
            text += &group.repeat(groups / 32 + usize::from(place < groups % 32));
            text += &spelled(&format!(" -> {first}:(s1'=0) + {second}:(s1'=1);\n"));
        }
        text += &spelled("endmodule_\n");
        for seat in 2..=9 {
            text += &spelled(&format!(
                "module_process{seat} = process1 [s1=s{seat}, s{seat}=s1] endmodule_\n"
            ));
        }
        text.replace(" \n", "\n")
    })
}

/// The same, so that what is written has just so many bytes.
fn long_when_written(bytes: usize) -> [String; 2] {
    let length = |groups: usize| long(groups, 0, 0)[1].len();
    let groups = (0..).find(|groups| length(groups + 1) > bytes).unwrap();
    let left = bytes - length(groups);
    let [old, new] = long(groups, left / 4, left % 4);
    assert_eq!(new.len(), bytes);
    [old, new]
}

#[test]
fn a_written_form_too_long_for_a_card() {
    let [old, new] = long_when_written(16_384);
    assert_eq!(
        converted(&gapless(&[(3, 1, &old)])),
        gapless(&[(3, 1, &new)])
    );
    let [old, new] = long_when_written(16_385);
    let mut room = vec![0; 20_000];
    assert_eq!(
        judge(new.as_bytes()).err(),
        Some(Refusal {
            number: 1,
            place: 0
        })
    );
    assert!(old.len() <= 16_384 && judge_old(old.as_bytes()).is_ok());
    refused(&gapless(&[(3, 1, &old)]), named(3));
    refused(
        &gapless(&[(2, 1, OLD_A), (3, 1, &old), (4, 1, BAD)]),
        named(3),
    );
    refused(&gapless(&[(2, 1, BAD), (3, 1, &old)]), named(2));
    // Withdrawn, or without decimals, it stays whatever would be written.
    let withdrawn = gapless(&[(3, 0, &old)]);
    assert_eq!(converted(&withdrawn), withdrawn);
    let [decimals, fractions] = [
        "0.37 0.63 0.05 0.95 0.1 0.9",
        "37/100 63/100 1/20 19/20 1/10 9/10",
    ];
    let pairs = decimals.split(' ').zip(fractions.split(' '));
    let without = pairs.fold(old, |text, (decimal, fraction)| {
        text.replace(&format!("{decimal}:"), &format!("{fraction}:"))
    });
    assert_eq!(write(without.as_bytes(), &mut room), Ok(16_385));
    assert_eq!(room[..16_385], *new.as_bytes());
    let live = gapless(&[(3, 1, &without)]);
    assert_eq!(converted(&live), live);
}

#[test]
fn a_deck_too_long() {
    let grows = CARD_A.len() - OLD_A.len();
    // What is left behind the contents of three cards and a written one, filled by one body or two.
    let left = 65_535 - 25 - CARD_A.len();
    let fill = |bytes: usize| "x".repeat(bytes);
    let (all, more) = (fill(left), fill(left + 1));
    // Withdrawn and behind it: just the longest deck, and then one byte more.
    let given = gapless(&[(3, 1, OLD_A), (5, 0, &all), (7, 0, "")]);
    assert_eq!(given.len(), 65_535 - grows);
    assert_eq!(converted(&given).len(), 65_535);
    refused(
        &gapless(&[(3, 1, OLD_A), (5, 0, &more), (7, 0, "")]),
        named(5),
    );
    refused(
        &gapless(&[(3, 1, OLD_A), (5, 0, &all), (7, 0, "x")]),
        named(7),
    );
    // The written card itself.
    assert_eq!(
        converted(&gapless(&[(3, 0, &all), (5, 0, ""), (7, 1, OLD_A)])).len(),
        65_535
    );
    refused(
        &gapless(&[(3, 0, &more), (5, 0, ""), (7, 1, OLD_A)]),
        named(7),
    );
    refused(
        &gapless(&[(3, 0, &more), (5, 1, OLD_A), (7, 0, "")]),
        named(5),
    );
    // A live card that stays.
    let (all, more) = (fill(left - PLAIN.len()), fill(left - PLAIN.len() + 1));
    assert_eq!(
        converted(&gapless(&[(3, 1, OLD_A), (5, 0, &all), (7, 1, PLAIN)])).len(),
        65_535
    );
    refused(
        &gapless(&[(3, 1, OLD_A), (5, 0, &more), (7, 1, PLAIN)]),
        named(7),
    );
    // Of two cards the first counts, whichever reason it is named for.
    let (all, more) = (fill(left), fill(left + 1));
    refused(
        &gapless(&[(3, 1, OLD_A), (5, 0, &all), (7, 1, "x")]),
        named(7),
    );
    refused(
        &gapless(&[(3, 1, OLD_A), (5, 0, &more), (7, 1, "x")]),
        named(5),
    );
    refused(
        &gapless(&[(3, 1, "x"), (5, 0, &all), (7, 1, OLD_A)]),
        named(3),
    );
    // Many that grow: the first that ends too late is named, and not the last.
    let [old, new] = long_when_written(13_200);
    let cards: Vec<(u16, u8, &str)> = (0..6).map(|card| (10 * card, 1, &old[..])).collect();
    assert_eq!((65_535 - 49) / new.len(), 4);
    refused(&gapless(&cards), named(40));
    let written = gapless(&[(0, 1, &new[..]), (1, 0, &old), (2, 1, &new), (3, 1, &new)]);
    let cards = [(0, 1, &old[..]), (1, 0, &old), (2, 1, &old), (3, 1, &old)];
    assert_eq!(converted(&gapless(&cards)), written);
}

#[test]
fn the_room_comes_last() {
    let length = 9 + CARD_A.len();
    let mut room = vec![UNTOUCHED; length - 1];
    let answer = convert_into(&gapless(&[(1, 1, OLD_A)]), &mut room);
    let due = Refusal {
        number: 10,
        place: length,
    };
    assert_eq!(answer, Err(due));
    assert!(room.iter().all(|byte| *byte == UNTOUCHED));
    refused(&gapless(&[(1, 1, OLD_A), (2, 1, BAD)]), named(2));
    refused(&deck(&[(1, 9, 1, 1, 1)], b"x"), malformed(8));
}
