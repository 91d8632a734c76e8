//! The chapter "Both sides of the edge", and the same for every other limit.

use crate::cards::{card, CARD_A};
use baseline::{judge, panel, reduce, write, Refusal};

const UNTOUCHED: u8 = 0xa5;

#[test]
fn panels_of_the_chapter() {
    for edge in crate::table::edges() {
        let mut room = [UNTOUCHED; 400];
        let answer = panel(&edge.card, &edge.seats, &mut room);
        let expected = edge
            .panel
            .map_err(|(number, place)| Refusal { number, place });
        let length = expected.as_ref().map_or(0, String::len);
        assert_eq!(
            answer,
            expected.as_ref().map(String::len).map_err(|r| *r),
            "{}",
            edge.name
        );
        let text = expected.unwrap_or_default();
        assert_eq!(&room[..length], text.as_bytes(), "{}", edge.name);
        assert!(
            room[length..].iter().all(|&byte| byte == UNTOUCHED),
            "{}",
            edge.name
        );
    }
}

#[test]
fn a_room_one_byte_short() {
    type Entry = fn(&[u8], &mut [u8]) -> Result<usize, Refusal>;
    let show: Entry = |card, room| panel(card, &[0, 0, 1], room);
    for entry in [write as Entry, reduce, show] {
        let mut room = [UNTOUCHED; 2000];
        let length = entry(CARD_A.as_bytes(), &mut room).unwrap();
        let mut exact = vec![UNTOUCHED; length];
        assert_eq!(entry(CARD_A.as_bytes(), &mut exact), Ok(length));
        assert_eq!(exact, room[..length]);
        let mut short = vec![UNTOUCHED; length - 1];
        let refused = Err(Refusal {
            number: 10,
            place: length,
        });
        assert_eq!(entry(CARD_A.as_bytes(), &mut short), refused);
        assert!(short.iter().all(|&byte| byte == UNTOUCHED));
    }
}

#[test]
fn the_same_group_in_another_order() {
    let turned = CARD_A.replace("(s2=0 | s3=0)", "(s3=0 | s2=0)");
    let other = CARD_A.replace("(s2=0 | s3=0)", "(s3=1 | s2=1)");
    let read = |text: &str| judge(text.as_bytes()).unwrap();
    assert!(read(CARD_A) == read(&turned));
    assert!(read(CARD_A) != read(&other));
}

#[test]
fn card_a_is_its_own_written_form() {
    let mut room = [0; 400];
    let length = write(CARD_A.as_bytes(), &mut room).unwrap();
    assert_eq!(&room[..length], CARD_A.as_bytes());
}

/// What the reader says: nothing if the card is accepted.
fn refusal(text: &str) -> Option<(u8, usize)> {
    judge(text.as_bytes())
        .err()
        .map(|refusal| (refusal.number, refusal.place))
}

#[track_caller]
fn refused(text: &str, number: u8, at: &str, further: usize) {
    let place = text.find(at).expect("stands in the text") + further;
    assert_eq!(refusal(text), Some((number, place)), "{text}");
}

#[test]
fn card_length() {
    let padded = |length: usize| format!("{CARD_A}{}", " ".repeat(length - CARD_A.len()));
    assert_eq!(refusal(&padded(16_384)), None);
    assert_eq!(refusal(&padded(16_385)), Some((1, 0)));
}

#[test]
fn statements() {
    let plain = "[] s1=0 -> 1:(s1'=0);\n";
    assert_eq!(refusal(&card(1, 0, &plain.repeat(32))), None);
    let many = card(1, 0, &plain.repeat(33));
    refused(&many, 4, "[]", 32 * plain.len());
    refused(&card(1, 0, ""), 3, "endmodule", 0);
}

#[test]
fn branches() {
    let eight = format!("1:(s1'=0){}", " + 0:(s1'=0)".repeat(7));
    let with = |behind: &str| card(1, 0, &format!("[] s1=0 -> {eight}{behind};"));
    assert_eq!(refusal(&with("")), None);
    refused(&with(" + 0/7:(s1'=0)"), 4, "0/7", 0);
    refused(&with(" + 0/"), 4, "0/;", 0);
    // At one place the shape is judged before the limit.
    refused(&with(" + x"), 3, "x;", 0);
}

#[test]
fn guard_nodes() {
    // 16 groups with 15 joining signs, and one `!` for the thirty-second node.
    let joined = " & (s1=0)".repeat(15);
    let with = |behind: &str| {
        card(
            1,
            0,
            &format!("[] s1=0 & !(s1=0){joined}{behind} -> 1:(s1'=0);"),
        )
    };
    assert_eq!(refusal(&with("")), None);
    refused(&with(" & (s1=0)"), 4, "& (s1=0) ->", 0);
    // The sign alone is one node too many, whatever follows it.
    refused(&with(" &"), 4, "& ->", 0);
    refused(&with(" |"), 3, "| ->", 0);
}

#[test]
fn digits() {
    let weight = |weight: &str| card(1, 0, &format!("[] s1=0 -> {weight}:(s1'=0);"));
    assert_eq!(refusal(&weight("277200/277200")), None);
    refused(&weight("123456"), 7, "123456", 0);
    refused(&weight("1234567"), 2, "1234567", 0);
    refused(&weight("0.123456"), 17, "0.123456", 0);
    refused(&weight("0.1234567"), 2, "0.1234567", 0);
    refused(&weight("123456.123456"), 17, "123456.123456", 0);
    refused(&weight("0.500"), 17, "0.500", 0);
    refused(&weight("1/554400"), 7, "1/554400", 0);
    // Words keep their five.
    let seat = |seat: &str| card(1, 0, &format!("[] s1=0 & ({seat}=0) -> 1:(s1'=0);"));
    refused(&seat("s99999"), 6, "(s99999", 0);
    refused(&seat("s123456"), 3, "s123456", 0);
    let module = |word: &str| CARD_A.replace("module process2", &format!("module {word}"));
    refused(&module("process99999"), 6, "process99999", 0);
    refused(&module("process123456"), 3, "process123456", 0);
    // A state of six digits is one above the top state, whatever its low bits are.
    let state = |state: &str| card(1, 1, &format!("[] s1=0 -> 1:(s1'={state});"));
    refused(&state("131072"), 5, "131072", 0);
    refused(&state("1310721"), 2, "1310721", 0);
}

#[test]
fn earlier_marks_and_stronger_rules_win() {
    // A stray mark at the very end outweighs a wrong shape before it.
    refused("probabilistic probabilistic <", 2, "<", 0);
    // A wrong shape behind a wrong state outweighs it.
    refused(&card(1, 0, "[] s1=1 -> 1:(s1'=0)"), 3, "endmodule", 0);
    // Of the late refusals the first in the text counts, also for a group
    // whose number of seats is judged last.
    refused(
        &card(3, 0, "[] s1=0 & (s2=0) -> 2:(s1'=9);"),
        6,
        "(s2=0)",
        0,
    );
    refused(
        &card(3, 0, "[] s1=0 & (s2=9 & s3=9) -> 2:(s1'=9);"),
        5,
        "9",
        0,
    );
    refused(
        &card(3, 0, "[] s1=0 & (s2=9) -> 2:(s1'=9);"),
        6,
        "(s2=9)",
        0,
    );
    refused(&card(1, 0, "[] s1=0 -> 2:(s2'=9);"), 7, "2:", 0);
}
