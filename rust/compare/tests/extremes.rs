//! The longest texts known, and that the rooms which are always enough hold them.

use compare::extremes::{extremes, longest_written_with_a_decimal, shared_extremes};
use open_panel::Refusal;

#[test]
fn longest_texts() {
    let [written, reduced, panel] = extremes();
    let written = open_panel::write_to_vec(&written.input.card).map(|text| text.len());
    assert_eq!(written, Ok(22_477));
    const { assert!(22_477 <= open_panel::WRITE_ROOM) };
    let reduced = open_panel::reduce_to_vec(&reduced.input.card).map(|text| text.len());
    assert_eq!(reduced, Ok(269_544));
    const { assert!(269_699 <= open_panel::REDUCE_ROOM) };
    let panel = open_panel::show_to_vec(&panel.input.card, &panel.input.seats);
    assert_eq!(panel.map(|text| text.len()), Ok(4_148));
    const { assert!(4_148 <= open_panel::SHOW_ROOM) };
}

#[test]
fn longest_texts_with_a_shared_number() {
    let [reduced, panel] = shared_extremes();
    let reduced = open_panel::reduce_to_vec(&reduced.input.card).map(|text| text.len());
    assert_eq!(reduced, Ok(363_170));
    const { assert!(363_218 <= open_panel::REDUCE_ROOM) };
    let panel = open_panel::show_to_vec(&panel.input.card, &panel.input.seats);
    assert_eq!(panel.map(|text| text.len()), Ok(4_797));
    const { assert!(4_797 <= open_panel::SHOW_ROOM) };
}

/// As a fraction would be written, it is too long for a card: so a deck keeps it only if it is withdrawn, or has no decimal.
#[test]
fn longest_written_form_of_a_card_to_be_converted() {
    let old = longest_written_with_a_decimal();
    let new = String::from_utf8(old.clone()).unwrap();
    let new = new.replace("1.0:", "1:").into_bytes();
    let written = open_panel::write_to_vec(&new).unwrap();
    assert_eq!(written.len(), 22_473);
    let deck = |flag: u8, card: &[u8]| {
        let [low, high] = (card.len() as u16).to_le_bytes();
        open_panel::write_deck_to_vec(&[7, 0, 0, 0, low, high, flag, 0], card).unwrap()
    };
    let place = old.windows(3).position(|text| text == b"1.0").unwrap();
    assert_eq!(open_panel::judge(&old), Err(Refusal::Decimal { at: place }));
    let read = baseline::judge_old(&old).unwrap();
    assert!(read == baseline::judge(&new).unwrap());
    let refused = open_panel::convert_to_vec(&deck(1, &old));
    assert_eq!(refused, Err(Refusal::NotConverted { card: 7 }));
    for same in [deck(0, &old), deck(1, &new)] {
        assert_eq!(open_panel::convert_to_vec(&same), Ok(same));
    }
}
