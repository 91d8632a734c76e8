//! Decks: what is found in them, and both sides of each of their rules.

use baseline::{find, find_with, judge_deck, locate_with, write_deck, Refusal};

/// Card number, offset, length, flag, zero byte.
type Entry = (u16, u16, u16, u8, u8);

fn contents(entries: &[Entry]) -> Vec<u8> {
    let bytes = |&(number, offset, length, flag, zero): &Entry| {
        let two = [number, offset, length].map(u16::to_le_bytes);
        [two.as_flattened(), &[flag, zero]].concat()
    };
    entries.iter().flat_map(bytes).collect()
}

/// A deck of these entries and so many bytes behind them, which count from 0.
fn deck(entries: &[Entry], behind: usize) -> Vec<u8> {
    let mut deck = vec![entries.len() as u8];
    deck.extend(contents(entries));
    deck.extend((0..behind).map(|byte| byte as u8));
    deck
}

fn malformed(place: usize) -> Refusal {
    Refusal { number: 11, place }
}

const NOWHERE: Refusal = Refusal {
    number: 12,
    place: 0,
};

#[track_caller]
fn judged(entries: &[Entry], behind: usize, place: Option<usize>) {
    let due = place.map_or(Ok(()), |place| Err(malformed(place)));
    assert_eq!(judge_deck(&deck(entries, behind)), due, "{entries:?}");
}

#[test]
fn fields_in_order() {
    // Two entries end at 17.
    let good = [(0, 17, 2, 1, 0), (9, 20, 0, 0, 0)];
    judged(&good, 3, None);
    judged(&good, 9, None);
    judged(&[(0, 17, 2, 1, 0), (0, 20, 0, 0, 0)], 3, Some(9));
    judged(&[(9, 17, 2, 1, 0), (8, 0, 9, 7, 7)], 3, Some(9));
    judged(&[(0, 16, 2, 1, 0), (9, 20, 0, 0, 0)], 3, Some(3));
    judged(&[(0, 17, 2, 1, 0), (9, 18, 0, 0, 0)], 3, Some(11));
    judged(&[(0, 17, 2, 1, 0), (9, 19, 0, 0, 0)], 3, None);
    judged(&[(0, 17, 3, 1, 0), (9, 20, 0, 0, 0)], 3, None);
    judged(&[(0, 17, 4, 1, 0), (9, 21, 0, 0, 0)], 3, Some(5));
    judged(&[(0, 17, 3, 1, 0), (9, 20, 1, 0, 0)], 3, Some(13));
    // An offset past the deck shows at the length, even of nothing.
    judged(&[(0, 17, 3, 1, 0), (9, 21, 0, 0, 0)], 3, Some(13));
    judged(&[(0, 17, 3, 1, 0), (9, 65_535, 65_535, 0, 0)], 3, Some(13));
    judged(&[(0, 17, 2, 2, 9), (9, 20, 0, 0, 0)], 3, Some(7));
    judged(&[(0, 17, 2, 1, 9), (9, 20, 0, 0, 0)], 3, Some(8));
    judged(&[(0, 17, 2, 1, 0), (9, 20, 0, 0, 255)], 3, Some(16));
    // The first entry's last field counts before the second entry's first.
    judged(&[(9, 17, 2, 1, 1), (0, 20, 0, 0, 0)], 3, Some(8));
}

#[test]
fn count_and_length() {
    assert_eq!(judge_deck(&[]), Err(malformed(0)));
    assert_eq!(judge_deck(&[0; 9]), Err(malformed(0)));
    assert_eq!(
        judge_deck(&deck(&[(1, 9, 0, 1, 0)], 0)[..8]),
        Err(malformed(0))
    );
    let many = |count: u16| -> Vec<Entry> {
        (0..count)
            .map(|number| (number, 1 + 8 * count, 0, 1, 0))
            .collect()
    };
    judged(&many(64), 0, None);
    judged(&many(65), 0, Some(0));
    judged(&[(1, 9, 65_526, 1, 0)], 65_526, None);
    judged(&[(1, 9, 65_526, 1, 0)], 65_527, Some(0));
}

#[test]
fn live_cards_are_found() {
    let base = deck(&[(3, 25, 2, 1, 0), (4, 28, 1, 1, 0), (700, 29, 1, 0, 0)], 5);
    assert_eq!(find(&base, 3), Ok(&[0, 1][..]));
    assert_eq!(find(&base, 4), Ok(&[3][..]));
    assert_eq!(find(&base, 700), Err(NOWHERE));
    assert_eq!(find(&base, 188), Err(NOWHERE));

    // In the expansion card 3 is withdrawn and card 4 is another one.
    let expansion = deck(&[(3, 25, 1, 0, 0), (4, 26, 3, 1, 0), (5, 29, 0, 1, 0)], 4);
    let with = |number| find_with(&base, &expansion, number);
    assert_eq!(with(3), Ok(&[0, 1][..]));
    assert_eq!(with(4), Ok(&[1, 2, 3][..]));
    assert_eq!(with(5), Ok(&[][..]));
    assert_eq!(with(700), Err(NOWHERE));
    let part = locate_with(&base, &expansion, 5).unwrap();
    assert_eq!((part.in_expansion, part.offset, part.length), (true, 29, 0));
    let part = locate_with(&base, &expansion, 3).unwrap();
    assert_eq!(
        (part.in_expansion, part.offset, part.length),
        (false, 25, 2)
    );
}

#[test]
fn both_decks_are_judged_first() {
    let good = deck(&[(3, 9, 1, 1, 0)], 1);
    let wrong = deck(&[(3, 9, 1, 2, 0)], 1);
    assert_eq!(find_with(&wrong, &[], 3), Err(malformed(7)));
    assert_eq!(find_with(&good, &wrong, 3), Err(malformed(65_543)));
    assert_eq!(find_with(&good, &[], 3), Err(malformed(65_536)));
    assert_eq!(find_with(&good, &good, 4), Err(NOWHERE));
}

const UNTOUCHED: u8 = 0xa5;

/// What the writer makes, in a room that is larger.
fn written(contents: &[u8], bodies: &[u8]) -> Result<Vec<u8>, Refusal> {
    let mut room = vec![UNTOUCHED; 70_000];
    let answer = write_deck(contents, bodies, &mut room);
    let length = answer.unwrap_or(0);
    assert!(room[length..].iter().all(|byte| *byte == UNTOUCHED));
    answer.map(|length| room[..length].to_vec())
}

#[test]
fn written_decks_have_no_gaps() {
    let given = contents(&[(2, 9, 1, 1, 0), (3, 0, 0, 0, 0), (4, 65_535, 2, 0, 0)]);
    let due = deck(&[(2, 25, 1, 1, 0), (3, 26, 0, 0, 0), (4, 26, 2, 0, 0)], 3);
    assert_eq!(written(&given, &[0, 1, 2]), Ok(due.clone()));
    assert_eq!(judge_deck(&due), Ok(()));

    let mut exact = vec![UNTOUCHED; due.len()];
    assert_eq!(write_deck(&given, &[0, 1, 2], &mut exact), Ok(due.len()));
    assert_eq!(exact, due);
    let mut short = vec![UNTOUCHED; due.len() - 1];
    let refused = Refusal {
        number: 10,
        place: due.len(),
    };
    assert_eq!(write_deck(&given, &[0, 1, 2], &mut short), Err(refused));
    assert!(short.iter().all(|byte| *byte == UNTOUCHED));
}

#[test]
fn what_the_writer_refuses() {
    let one = contents(&[(1, 0, 2, 1, 0)]);
    for length in [0, 7, 9, 520, 600] {
        let given: Vec<u8> = one.iter().copied().cycle().take(length).collect();
        assert_eq!(written(&given, &[]), Err(malformed(length)));
    }
    let fields = |entry: Entry| written(&contents(&[(5, 0, 0, 1, 0), entry]), &[0, 1]);
    assert!(fields((6, 0, 2, 0, 0)).is_ok());
    assert_eq!(fields((5, 0, 3, 2, 1)), Err(malformed(8)));
    assert_eq!(fields((6, 0, 3, 2, 1)), Err(malformed(14)));
    assert_eq!(fields((6, 0, 3, 1, 1)), Err(malformed(15)));
    assert_eq!(fields((6, 0, 3, 1, 0)), Err(malformed(16)));
    assert_eq!(fields((6, 0, 1, 1, 0)), Err(malformed(16)));
    let full = contents(&[(1, 0, 65_526, 1, 0)]);
    assert_eq!(written(&full, &[0; 65_526]).unwrap().len(), 65_535);
    let over = contents(&[(1, 0, 65_527, 1, 0)]);
    assert_eq!(written(&over, &[0; 65_527]), Err(malformed(8)));
    // Before a room that is too short.
    assert_eq!(write_deck(&one, &[], &mut []), Err(malformed(8)));
}
