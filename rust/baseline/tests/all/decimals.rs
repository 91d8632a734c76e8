//! Decimals: what is refused for one and where, which cards are still taken, and what the old rule makes of them.

use crate::cards::{card, CARD_A};
use baseline::{
    ask, first_move, judge, judge_old, odds, panel, reduce, watch, write, write_read, Aim, Card,
    Refusal,
};

/// What a card is refused with; nothing if it is taken.
fn refusal(judged: Result<Card, Refusal>) -> Option<(u8, usize)> {
    judged.err().map(|refusal| (refusal.number, refusal.place))
}

fn now(text: &str) -> Option<(u8, usize)> {
    refusal(judge(text.as_bytes()))
}

fn before(text: &str) -> Option<(u8, usize)> {
    refusal(judge_old(text.as_bytes()))
}

/// Where something stands first.
fn place(text: &str, what: &str) -> usize {
    text.find(what).expect("stands in the text")
}

/// A card whose only statement has these branches.
fn branches(branches: &str) -> String {
    card(1, 1, &format!("[] s1=0 -> {branches};"))
}

#[test]
fn good_decimals_and_bad_ones() {
    for (weight, rest, good) in [
        ("0.0", "1", true),
        ("0.00", "1/1", true),
        ("0.5", "1/2", true),
        ("0.50", "2/4", true),
        ("0.05", "19/20", true),
        ("0.37", "63/100", true),
        ("1.0", "0", true),
        ("1.00", "0/7", true),
        ("0.500", "1/2", false),
        ("0.005", "199/200", false),
        ("1.01", "0", false),
        ("1.1", "0", false),
        ("2.0", "0", false),
        ("1.000", "0", false),
        ("123456.123456", "0", false),
        ("0.000000", "1", false),
    ] {
        let first = branches(&format!("{weight}:(s1'=1) + {rest}:(s1'=0)"));
        let second = branches(&format!("{rest}:(s1'=0) + {weight}:(s1'=1)"));
        for text in [first, second] {
            let place = place(&text, weight);
            assert_eq!(now(&text), Some((17, place)), "{weight}");
            assert_eq!(before(&text), (!good).then_some((7, place)), "{weight}");
        }
    }
}

#[test]
fn no_decimals() {
    // A range, a comment, and other spellings of the same weight.
    for text in [
        CARD_A.to_owned(),
        CARD_A.replace("[0..2]", "[0..2] // 0.5\n"),
        CARD_A.replace("1/2:", "1 // 0.5\n / // .5\n 2:"),
        CARD_A.replace("1/2:", "138600/277200:"),
        branches("1:(s1'=0) + 0:(s1'=1)"),
    ] {
        assert_eq!(now(&text), None, "{text}");
        assert_eq!(before(&text), None, "{text}");
    }
    // What is no weight is refused for its marks or its shape, by either rule.
    let wrong = |weight: &str, number: u8, at: &str| {
        let text = branches(&format!("{weight}:(s1'=1) + 1/2:(s1'=0)"));
        let due = Some((number, place(&text, at)));
        assert_eq!(now(&text), due, "{weight}");
        assert_eq!(before(&text), due, "{weight}");
    };
    wrong("0,5", 3, ",5");
    wrong(".5", 2, ".5");
    wrong("0.", 2, ".:");
    wrong("00.5", 2, "00.5");
    wrong("0.1234567", 2, "0.1234567");
    wrong("1234567.5", 2, "1234567.5");
    wrong("0.5.5", 2, ".5:");
    wrong("0.5/2", 3, "/2:");
    wrong("1/0.5", 3, "0.5");
    wrong("0.5 0.5", 3, "0.5:");
    let state = card(1, 1, "[] s1=0.5 -> 1:(s1'=0);");
    assert_eq!(now(&state), Some((3, place(&state, "0.5"))));
}

#[test]
fn by_place_among_5_6_and_7() {
    let late = |text: &str, number: u8, at: &str| {
        assert_eq!(now(text), Some((number, place(text, at))), "{text}");
    };
    // A decimal first, and then another one, a state, a word, a weight and a sum.
    late(&branches("0.5:(s1'=0) + 0.25:(s1'=0)"), 17, "0.5");
    late(&branches("0.5:(s1'=9) + 1/2:(s1'=0)"), 17, "0.5");
    late(&branches("0.5:(s2'=0) + 1/2:(s1'=0)"), 17, "0.5");
    late(&branches("0.5:(s1'=0) + 1/13:(s1'=0)"), 17, "0.5");
    late(&branches("0.5:(s1'=0)"), 17, "0.5");
    // Each of them first.
    late(&branches("1/2:(s1'=9) + 0.5:(s1'=0)"), 5, "9");
    late(&branches("1/2:(s2'=0) + 0.5:(s1'=0)"), 6, "s2'");
    late(&branches("1/13:(s1'=0) + 0.5:(s1'=0)"), 7, "1/13");
    let sum_first = card(1, 1, "[] s1=0 -> 1/2:(s1'=0); [] s1=0 -> 1.0:(s1'=0);");
    late(&sum_first, 7, "; [] s1");
    let state_first = card(1, 1, "[] s1=2 -> 1.0:(s1'=0);");
    late(&state_first, 5, "2 ->");
    // A group whose seats are judged last stands before a decimal, or behind it.
    let group = "[] s1=0 & (s2=0) -> 1:(s1'=0);";
    let decimal = "[] s1=0 -> 1.0:(s1'=0);";
    late(&card(3, 1, &[group, decimal].concat()), 6, "(s2=0)");
    late(&card(3, 1, &[decimal, group].concat()), 17, "1.0");
    // The marks and the shape count before, wherever they are wrong.
    late(&branches("0.5:(s1'=0) + 1/2:(s1'=0); <"), 2, "<");
    late(&branches("0.5:(s1'=0) + 1/2:(s1'=0"), 3, ";\nendmodule");
    let many = format!("0.5:(s1'=0){} + 1/7:(s1'=1)", " + 0:(s1'=0)".repeat(7));
    late(&branches(&many), 4, "1/7");
    let long = format!("{:<16385}", branches("0.5:(s1'=0) + 1/2:(s1'=0)"));
    assert_eq!(now(&long), Some((1, 0)));
    // With a shared number.
    let shared = branches("0.5:(s1'=0) & (g'=1) + 1/2:(s1'=1)");
    let shared = shared.replace(
        "module process1\n",
        "global g : [0..1] init 0; module process1\n",
    );
    assert_eq!(before(&shared), None);
    late(&shared, 17, "0.5");
    late(
        &shared.replace("init 0; module", "init 2; module"),
        5,
        "2; module",
    );
    late(&shared.replace("(g'=1)", "(g'=2)"), 17, "0.5");
}

#[test]
fn every_entry_that_reads_a_card() {
    let text = CARD_A.replace("1/4", "0.25");
    let card = text.as_bytes();
    let due = Refusal {
        number: 17,
        place: place(&text, "0.25"),
    };
    let mut room = [0; 2_000];
    assert_eq!(judge(card).err(), Some(due));
    assert_eq!(write(card, &mut room), Err(due));
    assert_eq!(reduce(card, &mut room), Err(due));
    assert_eq!(panel(card, &[0, 0, 1], &mut room), Err(due));
    // Before a question, before the seats, before the list and before the rows.
    assert_eq!(panel(card, &[9], &mut []), Err(due));
    assert_eq!(watch(card, &[9], &[9], &mut []), Err(due));
    assert_eq!(ask(card, b"?", &[9]), Err(due));
    assert_eq!(first_move(card, &[9]), Err(due));
    let answer = odds(card, b"?", &[9], 99, Aim::Largest, &mut [], &mut []);
    assert_eq!(answer, Err(due));
}

#[test]
fn a_decimal_is_worth_what_its_fraction_is() {
    for (decimal, fraction) in [
        ("0.5", "1/2"),
        ("0.05", "1/20"),
        ("0.37", "37/100"),
        ("0.99", "99/100"),
        ("1.0", "1"),
        ("0.00", "0"),
    ] {
        let rest = match fraction {
            "1" => "0",
            "0" => "1",
            "1/2" => "1/2",
            "1/20" => "19/20",
            "37/100" => "63/100",
            _ => "1/100",
        };
        let with = |weight: &str| branches(&format!("{weight}:(s1'=1) + {rest}:(s1'=0)"));
        let (old, new) = (with(decimal), with(fraction));
        let (old, new) = (judge_old(old.as_bytes()), judge(new.as_bytes()));
        let (old, new) = (old.unwrap(), new.unwrap());
        assert!(old == new, "{decimal}");
        let mut rooms = [[0; 200]; 2];
        let [first, second] = &mut rooms;
        assert_eq!(write_read(&old, first), write_read(&new, second));
        assert_eq!(rooms[0], rooms[1]);
    }
}
