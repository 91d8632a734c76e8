//! The first statement that somebody may take, against the panel's choices.

use crate::cards::{card, CARD_A};
use baseline::{first_move, panel, Refusal};

fn first(card: &str, seats: &[u8]) -> Result<Option<usize>, (u8, usize)> {
    first_move(card.as_bytes(), seats).map_err(|Refusal { number, place }| (number, place))
}

/// The number of the panel's first choice, on a nondeterministic card; nothing for a stuck table.
fn first_choice(card: &str, seats: &[u8]) -> Option<usize> {
    let mut room = [0; 4_000];
    let length = panel(card.as_bytes(), seats, &mut room).unwrap();
    let panel = std::str::from_utf8(&room[..length]).unwrap();
    let choice = panel.lines().find_map(|line| line.strip_prefix("choice "));
    Some(choice.unwrap().parse().unwrap()).filter(|choice| *choice != 0)
}

#[test]
fn card_a_at_every_seating() {
    let chosen = CARD_A.replace("probabilistic", "nondeterministic");
    for number in 0..27u8 {
        let seats = [number % 3, number / 3 % 3, number / 9];
        let first = first(&chosen, &seats);
        assert_eq!(first, Ok(first_choice(&chosen, &seats)), "{seats:?}");
        assert_eq!(self::first(CARD_A, &seats), first, "{seats:?}");
    }
    assert_eq!(first(CARD_A, &[0, 0, 1]), Ok(Some(1)));
    assert_eq!(first(CARD_A, &[0, 1, 1]), Ok(Some(2)));
    assert_eq!(first(CARD_A, &[0, 1, 2]), Ok(None));
}

#[test]
fn every_place_of_a_full_card() {
    let stays = "[] s1=1 -> 1:(s1'=1);\n";
    let moves = "[] s1=0 -> 1:(s1'=1);\n";
    for place in 1..=32 {
        let statements = stays.repeat(place - 1) + &moves.repeat(33 - place);
        assert_eq!(first(&card(2, 1, &statements), &[0, 0]), Ok(Some(place)));
    }
    assert_eq!(first(&card(2, 1, &stays.repeat(32)), &[0, 0]), Ok(None));
}

#[test]
fn a_step_that_changes_nothing_counts() {
    let stays = card(1, 1, "[] s1=0 -> 0:(s1'=1) + 1:(s1'=0);");
    assert_eq!(first(&stays, &[0]), Ok(Some(1)));
    assert_eq!(first(&stays, &[1]), Ok(None));
}

#[test]
fn refusals_are_the_panels() {
    assert_eq!(first("", &[]), Err((3, 0)));
    assert_eq!(first("<", &[9]), Err((2, 0)));
    // The whole card is read, also behind the statement that is found.
    let wrong = CARD_A.replace("3/4", "3/5");
    let sum = wrong.rfind(";\nendmodule").unwrap();
    assert_eq!(first(&wrong, &[0, 0, 0]), Err((7, sum)));
    assert_eq!(first(CARD_A, &[0, 0]), Err((8, 0)));
    assert_eq!(first(CARD_A, &[0, 3, 9]), Err((9, 1)));
}
