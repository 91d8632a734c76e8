//! Odds after several steps: small tables by hand, rows, rounding and refusals.

use crate::cards::{card, CARD_A};
use baseline::{odds, Aim, Refusal};

const UNTOUCHED: u32 = 0xa5a5_a5a5;

/// The chance and both rows, which are lent in the right length.
type Odds = (u32, Vec<u32>, Vec<u32>);

fn with_rows(
    card: &str,
    question: &str,
    seats: &[u8],
    steps: usize,
    aim: Aim,
    rows: [usize; 2],
) -> Result<Odds, (u8, usize)> {
    let [mut first, mut second] = rows.map(|length| vec![UNTOUCHED; length]);
    let (card, question) = (card.as_bytes(), question.as_bytes());
    let answer = odds(card, question, seats, steps, aim, &mut first, &mut second);
    if answer.is_err() {
        let mut both = first.iter().chain(&second);
        assert!(both.all(|number| *number == UNTOUCHED));
    }
    answer
        .map(|chance| (chance, first, second))
        .map_err(|Refusal { number, place }| (number, place))
}

/// The chance, and the beginnings of both rows, the rest of which is zero.
#[track_caller]
fn rounds(
    card: &str,
    question: &str,
    seats: &[u8],
    steps: usize,
    aim: Aim,
    vectors: usize,
) -> (u32, Vec<u32>, Vec<u32>) {
    let (chance, mut first, mut second) =
        with_rows(card, question, seats, steps, aim, [512, 512]).unwrap();
    for row in [&mut first, &mut second] {
        assert!(row[vectors..].iter().all(|number| *number == 0));
        row.truncate(vectors);
    }
    (chance, first, second)
}

#[test]
fn a_coin() {
    let coin = card(1, 1, "[] s1=0 -> 1/2:(s1'=1) + 1/2:(s1'=0);");
    let mut before = 0;
    for steps in 0..=32 {
        for aim in [Aim::Largest, Aim::Smallest] {
            let (chance, first, second) = rounds(&coin, "(s1=1)", &[0], steps, aim, 2);
            // Heads is first: no_0 is 0 there.
            assert_eq!(first, [1_000_000, chance]);
            let certain = if steps == 0 { 0 } else { 1_000_000 };
            assert_eq!(second, [certain, before]);
            if aim == Aim::Smallest {
                before = chance;
            }
        }
        // Half of what is missing, and the half rounded down.
        let halves = (0..steps).fold(0, |chance: u32, _| (1_000_000 + chance) / 2);
        assert_eq!(before, halves);
    }
    assert_eq!(before, 999_999);
}

#[test]
fn thirds_are_rounded_down_once_for_each_round() {
    let thirds = card(1, 2, "[] s1=0 -> 1/3:(s1'=1) + 1/3:(s1'=2) + 1/3:(s1'=0);");
    let chance = |steps| rounds(&thirds, "(s1=1)", &[0], steps, Aim::Largest, 3).0;
    assert_eq!([0, 1, 2, 3].map(chance), [0, 333_333, 444_444, 481_481]);
    // Both ends together are two thirds, not twice a third.
    let either = |steps| rounds(&thirds, "!(s1=0)", &[0], steps, Aim::Largest, 3).0;
    assert_eq!([0, 1, 2].map(either), [0, 666_666, 888_888]);
}

#[test]
fn choices() {
    let statements = "[] s1=0 -> 1/4:(s1'=1) + 3/4:(s1'=0); [] s1=0 -> 1:(s1'=2);";
    let card = card(1, 2, statements).replace("probabilistic", "nondeterministic");
    let chance = |steps, aim| rounds(&card, "(s1=1)", &[0], steps, aim, 3).0;
    assert_eq!(chance(1, Aim::Largest), 250_000);
    assert_eq!(chance(2, Aim::Largest), 437_500);
    assert_eq!(chance(1, Aim::Smallest), 0);
    assert_eq!(chance(32, Aim::Smallest), 0);
    // Two pairs of one weight each, if all are equally likely.
    let both = card.replace("nondeterministic", "probabilistic");
    let chance = |steps, aim| rounds(&both, "(s1=1)", &[0], steps, aim, 3).0;
    assert_eq!(chance(1, Aim::Largest), 125_000);
    assert_eq!(chance(1, Aim::Smallest), 125_000);
    assert_eq!(chance(2, Aim::Smallest), 125_000 + 46_875);
}

#[test]
fn card_a_from_001() {
    // Three pairs: two seats in 0 go to 1 or 2, one in 1 to 2 or stays.
    let question = "(s1=2 | s2=2 | s3=2)";
    let chance = |steps| rounds(CARD_A, question, &[0, 0, 1], steps, Aim::Largest, 10).0;
    assert_eq!(chance(0), 0);
    // (2 * 1/2 + 1/4) / 3
    assert_eq!(chance(1), 416_666);
    // One of three parts leads to 011, where it is a quarter; a quarter of all stays here.
    assert_eq!(chance(2), (1_250_000 + 250_000 + 416_666 * 3 / 4) / 3);
}

#[test]
fn stuck_tables_keep_their_value() {
    let stuck = card(2, 1, "[] s1=0 & (s2=0) -> 1:(s1'=1);");
    for (question, held) in [("(s1=0 & s2=0)", 0), ("(s1=0 | s2=0)", 1_000_000)] {
        let (chance, first, second) = rounds(&stuck, question, &[0, 1], 7, Aim::Smallest, 3);
        assert_eq!(chance, held);
        assert_eq!(first, second);
        assert_eq!(first, [0, held, 1_000_000]);
    }
}

#[test]
fn vectors_and_their_order() {
    // No seat moves, so a round is just where the question holds.
    let still = card(2, 2, "[] s1=0 -> 1:(s1'=0);");
    let row = |question| rounds(&still, question, &[0, 0], 0, Aim::Largest, 6).1;
    // 002 011 020 101 110 200
    let one = 1_000_000;
    assert_eq!(row("(s1=0 | s2=0)"), [0, 0, 0, one, one, one]);
    assert_eq!(row("(s1=1 | s2=1)"), [0, one, one, 0, one, 0]);
    assert_eq!(row("(s1=2 & s2=2)"), [one, 0, 0, 0, 0, 0]);
}

#[test]
fn refusals() {
    let refused = |card: &str, question: &str, seats: &[u8], steps, rows| {
        with_rows(card, question, seats, steps, Aim::Largest, rows).unwrap_err()
    };
    let good = "(s1=0 & s2=0 & s3=0)";
    let (wrong, right) = ([511, 0], [512, 512]);
    assert_eq!(refused("<", "<", &[9], 33, wrong), (2, 0));
    assert_eq!(refused(CARD_A, "<", &[9], 33, wrong), (22, 0));
    assert_eq!(refused(CARD_A, good, &[9], 33, wrong), (8, 0));
    assert_eq!(refused(CARD_A, good, &[0, 0, 9], 33, wrong), (9, 2));
    assert_eq!(refused(CARD_A, good, &[0, 0, 0], 33, wrong), (15, 0));
    for rows in [[511, 512], [512, 511], [513, 512], [512, 513], [0, 0]] {
        assert_eq!(refused(CARD_A, good, &[0, 0, 0], 32, rows), (16, 0));
    }
    let steps = [33, 255, 256, usize::MAX];
    for steps in steps {
        assert_eq!(refused(CARD_A, good, &[0, 0, 0], steps, right), (15, 0));
    }
    let group = |seats: usize| {
        let literals: Vec<String> = (1..=seats).map(|seat| format!("s{seat}=0")).collect();
        format!("({})", literals.join("&"))
    };
    let plain = "[] s1=0 -> 1:(s1'=0);";
    for (seats, top) in [(5, 7), (13, 3), (9, 4), (7, 5), (16, 7)] {
        let large = card(seats, top, plain);
        let given = refused(&large, &group(seats), &vec![0; seats], 33, wrong);
        assert_eq!(given, (14, 0), "{seats} seats, top {top}");
    }
    for (seats, top, vectors) in [(4, 7, 330), (12, 3, 455), (8, 4, 495), (6, 5, 462)] {
        let table = card(seats, top, plain);
        let (question, seats) = (group(seats), vec![0; seats]);
        let (chance, first, _) = rounds(&table, &question, &seats, 3, Aim::Largest, vectors);
        assert_eq!((chance, first[vectors - 1]), (1_000_000, 1_000_000));
    }
}
