//! Both forms of stored files, written out by hand.

use vectors::stored::{Answer, Cases};

/// A length in four bytes and the bytes.
fn piece(bytes: &str) -> Vec<u8> {
    let mut piece = (bytes.len() as u32).to_le_bytes().to_vec();
    piece.extend(bytes.bytes());
    piece
}

fn call(pieces: &[&str]) -> Vec<u8> {
    let mut call = vec![pieces.len() as u8];
    call.extend(pieces.iter().flat_map(|bytes| piece(bytes)));
    call
}

fn words(answer: &Answer) -> String {
    match answer {
        Answer::Refused(number, place) => format!("refused {number} {place}"),
        Answer::Text(text) => format!("text {}", text.escape_ascii()),
        Answer::Words(words) => format!("words {}", words.escape_ascii()),
    }
}

#[test]
fn inputs_are_calls_of_every_entry() {
    let cases = Cases::new(&[piece("0x\ncard"), piece("none")].concat());
    assert_eq!(cases.count(), 2);
    let pieces = |number, entry| cases.call(number, entry).unwrap().concat();
    assert_eq!(pieces(0, "panel"), b"card\x00\xff32768");
    assert_eq!(pieces(0, "write"), b"card32768");
    assert_eq!(pieces(0, "read"), b"card");
    assert_eq!(pieces(0, "program"), b"0x\ncard");
    assert_eq!(pieces(1, "read"), b"");
    assert!(cases.call(0, "ask").is_none());
    let answers = cases.answers(b"case 0\na\ncase 7\ncase 1\nrefused 3 12\n");
    let answers: Vec<String> = answers.iter().map(words).collect();
    assert_eq!(answers, ["text a\\ncase 7\\n", "refused 3 12"]);
}

#[test]
fn calls_name_their_entry() {
    let calls = [
        call(&["ask", "card", "", "\x01"]),
        call(&["write", "card", "5"]),
        call(&["read", "card"]),
        call(&["write", "", "0"]),
    ];
    let cases = Cases::new(&calls.concat());
    assert_eq!(cases.count(), 4);
    assert!(cases.call(0, "write").is_none());
    let ask = cases.call(0, "ask").unwrap();
    assert_eq!(ask, [&b"card"[..], b"", b"\x01"]);
    assert_eq!(cases.call(1, "write").unwrap(), [&b"card"[..], b"5"]);
    let answers =
        cases.answers(b"case 0\nyes\ncase 1\nok 4\na\nb\n\ncase 2\ntaken\ncase 3\nrefused 3 0\n");
    let answers: Vec<String> = answers.iter().map(words).collect();
    let due = [
        "words yes\\n",
        "text a\\nb\\n",
        "words taken\\n",
        "refused 3 0",
    ];
    assert_eq!(answers, due);
}

#[test]
fn decks_are_stored_as_digits() {
    let cases = Cases::new(&[call(&["box_write", "", "", "5"]), call(&["box_write"])].concat());
    let answers = cases.answers(b"case 0\nok 3\n00ff1a\ncase 1\nok 4\n00ff1a\n");
    let decks: Vec<_> = answers.iter().map(Answer::deck).collect();
    assert_eq!(decks, [Some(vec![0, 255, 26]), None]);
}

#[test]
fn mended_decks_are_stored_with_their_lists() {
    let cases = Cases::new(&call(&["mend", "", "5", "5"]).repeat(4));
    let answers = cases.answers(
        b"case 0\nok 3\n00ff1a\nok 6\na\nb\n\n\n\ncase 1\nok 3\n00ff1a\nok 5\nkept\n\ncase 2\nok 3\n00ff1a\ncase 3\nok 3\n00ff1a\nok 7\nkept\n\n",
    );
    let mended: Vec<_> = answers.iter().map(Answer::mended).collect();
    let deck = || vec![0, 255, 26];
    let due = [
        Some((deck(), &b"a\nb\n\n\n"[..])),
        Some((deck(), b"kept\n")),
        None,
        None,
    ];
    assert_eq!(mended, due);
    assert_eq!(answers[1].deck(), None);
    assert_eq!(answers[2].deck(), Some(deck()));
}

#[test]
fn changed_decks_are_stored_with_all_that_was_lent() {
    let cases = Cases::new(&call(&["tidy", ""]).repeat(5));
    let answers = cases.answers(
        b"case 0\nlength 2\n00ff1a\ncase 1\nlength 3\n00ff1a\ncase 2\nlength 4\n00ff1a\ncase 3\nok 3\n00ff1a\ncase 4\nlength 1\n00f\n",
    );
    let changed: Vec<_> = answers.iter().map(Answer::changed).collect();
    let deck = || vec![0, 255, 26];
    let due = [Some((2, deck())), Some((3, deck())), None, None, None];
    assert_eq!(changed, due);
    assert_eq!(answers[1].deck(), None);
    assert_eq!(answers[3].deck(), Some(deck()));
}

#[test]
fn odds_are_stored_with_both_rows() {
    let cases = Cases::new(&[call(&["odds"]), call(&["odds"]), call(&["odds"])].concat());
    let answers =
        cases.answers(b"case 0\nodds 7\n7 256\n0 1\ncase 1\nodds 7\n7 256\ncase 2\nodds x\n0\n0\n");
    let odds: Vec<_> = answers.iter().map(Answer::odds).collect();
    let rows = vec![7, 0, 0, 0, 0, 1, 0, 0, 0, 0, 0, 0, 1, 0, 0, 0];
    assert_eq!(odds, [Some((7, rows)), None, None]);
}

#[test]
#[should_panic = "`case 1` is missing"]
fn answers_are_as_many_as_cases() {
    let cases = Cases::new(&[piece("0\na"), piece("0\nb")].concat());
    cases.answers(b"case 0\na\n");
}
