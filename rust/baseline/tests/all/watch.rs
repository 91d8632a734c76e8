//! What a spectator sees, by seats, and both sides of each refusal.

use crate::cards::{card, CARD_A};
use baseline::{watch, Refusal};

const PLAIN: &str = "[] s1=0 -> 1:(s1'=0);";
const UNTOUCHED: u8 = 0xa5;

/// What is seen, or the refusal's number and place; and nothing else is written.
fn seen(card: &str, seats: &[u8], list: &[u8], room: usize) -> Result<String, (u8, usize)> {
    let mut lent = vec![UNTOUCHED; room];
    let answer = watch(card.as_bytes(), seats, list, &mut lent);
    let length = *answer.as_ref().unwrap_or(&0);
    assert!(lent[length..].iter().all(|&byte| byte == UNTOUCHED));
    lent.truncate(length);
    answer
        .map(|_| String::from_utf8(lent).unwrap())
        .map_err(|Refusal { number, place }| (number, place))
}

/// The line that the seats themselves make.
fn line(seats: &[u8], list: &[u8]) -> String {
    let in_class = |class: u8| {
        let there = |seat: &&u8| list[usize::from(**seat)] == class;
        format!(" {}", seats.iter().filter(there).count())
    };
    format!("classes{}\n", (0..8).map(in_class).collect::<String>())
}

#[test]
fn card_a() {
    let see = |seats: &[u8], list: &[u8]| seen(CARD_A, seats, list, 30).unwrap();
    assert_eq!(see(&[0, 0, 1], &[0, 1, 2]), "classes 2 1 0 0 0 0 0 0\n");
    assert_eq!(see(&[0, 1, 2], &[7, 7, 7]), "classes 0 0 0 0 0 0 0 3\n");
    assert_eq!(see(&[2, 2, 1], &[3, 0, 3]), "classes 1 0 0 2 0 0 0 0\n");
}

#[test]
fn every_seating_of_a_small_table() {
    let table = card(3, 2, PLAIN);
    let lists = [[0, 0, 0], [0, 1, 0], [5, 5, 6], [7, 3, 1]];
    for number in 0..27u8 {
        let seats = [number % 3, number / 3 % 3, number / 9];
        for list in &lists {
            assert_eq!(seen(&table, &seats, list, 30), Ok(line(&seats, list)));
        }
    }
}

#[test]
fn rooms() {
    let full = card(16, 7, PLAIN);
    for (seats, length) in [
        ([4; 16], 25),
        (
            *b"\x00\x01\x02\x03\x04\x05\x06\x07\x00\x01\x02\x03\x04\x05\x06\x07",
            24,
        ),
    ] {
        let list = [0, 1, 2, 3, 4, 5, 6, 7];
        let text = line(&seats, &list);
        assert_eq!(text.len(), length);
        assert_eq!(seen(&full, &seats, &list, length), Ok(text));
        assert_eq!(seen(&full, &seats, &list, length - 1), Err((10, length)));
        assert_eq!(seen(&full, &seats, &list, 0), Err((10, length)));
    }
}

#[test]
fn lists() {
    let refused = |list: &[u8]| seen(CARD_A, &[0, 1, 2], list, 0).unwrap_err();
    assert_eq!(refused(&[]), (13, 0));
    assert_eq!(refused(&[0, 0]), (13, 2));
    assert_eq!(refused(&[0, 0, 0, 0]), (13, 4));
    assert_eq!(refused(&[0; 300]), (13, 300));
    assert_eq!(refused(&[8, 0, 0]), (13, 0));
    assert_eq!(refused(&[0, 7, 8]), (13, 2));
    assert_eq!(refused(&[0, 255, 8]), (13, 1));
    // The length counts before the classes.
    assert_eq!(refused(&[8, 8]), (13, 2));
    assert_eq!(refused(&[7, 7, 7]), (10, 24));
}

#[test]
fn order_of_refusals() {
    let refused = |card: &str, seats: &[u8]| seen(card, seats, &[9], 0).unwrap_err();
    assert_eq!(refused("<", &[9]), (2, 0));
    assert_eq!(refused("", &[9]), (3, 0));
    assert_eq!(refused(CARD_A, &[9]), (8, 0));
    assert_eq!(refused(CARD_A, &[0, 3, 9]), (9, 1));
    assert_eq!(refused(CARD_A, &[0, 0, 0]), (13, 1));
}
