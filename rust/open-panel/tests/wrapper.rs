//! The wrapper's own part: refusals as an enum, rooms of its own.

use open_panel::*;

const CARD: &[u8] =
    b"nondeterministic\nmodule process1\ns1 : [0..1] init 0;\n[] s1=0 -> 1:(s1'=1);\nendmodule\n";

#[test]
fn texts_in_their_own_room() {
    assert_eq!(judge(CARD), Ok(()));
    assert_eq!(write_to_vec(CARD).as_deref(), Ok(CARD));
    let reduced = reduce_to_vec(CARD).unwrap();
    assert!(
        reduced.starts_with(b"nondeterministic\nmodule generic_process\nno_0 : [0..1] init 1;\n")
    );
    let panel = format!("nondeterministic\nseats 1 enabled 1\ncounts 0 1\nchoice 0\nstay {UNIT}\n");
    assert_eq!(show_to_vec(CARD, &[1]).as_deref(), Ok(panel.as_bytes()));
}

#[test]
fn refusals_have_number_place_and_words() {
    let all = [
        (1, 0, "the card is longer than 16384 bytes (refusal 1)"),
        (
            2,
            7,
            "byte 7: no mark of a card, or too many digits (refusal 2)",
        ),
        (
            3,
            7,
            "byte 7: this cannot stand here, or the card ends early (refusal 3)",
        ),
        (4, 7, "byte 7: one more than a card may have (refusal 4)"),
        (
            5,
            7,
            "byte 7: a state above the card's top state, or a shared number above its highest (refusal 5)",
        ),
        (
            6,
            7,
            "byte 7: not the seat or module due, or a group that is not symmetric (refusal 6)",
        ),
        (
            7,
            7,
            "byte 7: not a weight, or weights that do not sum to 1 (refusal 7)",
        ),
        (
            8,
            0,
            "not as many seats as the card has, and one byte more if it shares a number (refusal 8)",
        ),
        (
            9,
            7,
            "byte 7 of the seats: a seat above the card's top state, or the shared number above its highest (refusal 9)",
        ),
        (
            10,
            7,
            "the room is too small: 7 bytes are needed (refusal 10)",
        ),
        (
            11,
            7,
            "byte 7 of a deck, an expansion's from 65536 on, or of its contents: a malformed deck, contents and bodies that make none, or nothing to keep (refusal 11)",
        ),
        (
            12,
            0,
            "no live card has this number, or no card at all is live (refusal 12)",
        ),
        (
            13,
            7,
            "a list of 7 classes, or the class of state 7: not one class for each state, or a class above 7 (refusal 13)",
        ),
        (
            14,
            0,
            "the table has more than 512 count vectors, or pairs of one and a shared number (refusal 14)",
        ),
        (15, 0, "more than 32 steps (refusal 15)"),
        (16, 0, "a lent row does not have 512 numbers (refusal 16)"),
        (
            17,
            7,
            "byte 7: a decimal for a weight, where 0, 1 or a fraction has to stand (refusal 17)",
        ),
        (
            18,
            7,
            "card 7: a card that cannot be converted, or does not fit into the new deck (refusal 18)",
        ),
        (
            19,
            9,
            "byte 9 of the deck: a live card has this number already, or 64 cards are live (refusal 19)",
        ),
        (
            19,
            0,
            "a live card has this number already, or 64 cards are live (refusal 19)",
        ),
        (
            21,
            0,
            "the question is longer than 16384 bytes (refusal 21)",
        ),
        (
            22,
            7,
            "byte 7 of the question: no mark of a question, or too many digits (refusal 22)",
        ),
        (
            23,
            7,
            "byte 7 of the question: this cannot stand here, or the question ends early (refusal 23)",
        ),
        (
            24,
            7,
            "byte 7 of the question: one more than a question may have (refusal 24)",
        ),
        (
            25,
            7,
            "byte 7 of the question: a state above the card's top state, or a shared number above its highest (refusal 25)",
        ),
        (
            26,
            7,
            "byte 7 of the question: a group that is not of all seats alike, or no exactly-one (refusal 26)",
        ),
    ];
    for (number, place, words) in all {
        let refusal = Refusal::new(number, place).unwrap();
        assert_eq!((refusal.number(), refusal.place()), (number, place));
        assert_eq!(refusal.to_string(), words);
        assert_eq!(refusal.is_of_question(), words.contains("the question"));
    }
    assert_eq!(
        Refusal::new(18, 65_535),
        Some(Refusal::NotConverted { card: 65_535 })
    );
    assert_eq!(Refusal::new(18, 65_536), None);
    for number in [0, 20, 27, 255] {
        assert_eq!(Refusal::new(number, 0), None);
    }
    for number in [1, 8, 12, 14, 15, 16, 21] {
        assert_eq!(Refusal::new(number, 7), None);
    }
}

/// The card with these weights in place of its one.
fn weighed(weights: &str) -> Vec<u8> {
    let text = std::str::from_utf8(CARD).unwrap();
    text.replace("1:(s1'=1)", weights).into_bytes()
}

#[test]
fn elevenths() {
    let elevenths = weighed("1/11:(s1'=1) + 10/11:(s1'=0)");
    let panel =
        "nondeterministic\nseats 1 enabled 1\ncounts 1 0\nchoice 1\nstay 252000\nmove 0 1 25200\n";
    assert_eq!(
        show_to_vec(&elevenths, &[0]).as_deref(),
        Ok(panel.as_bytes())
    );
    let at = std::str::from_utf8(CARD).unwrap().find("1:(").unwrap();
    let refused = |weights: &str| judge(&weighed(weights)).unwrap_err();
    assert_eq!(refused("1/13:(s1'=1)"), Refusal::Weight { at });
    assert_eq!(refused("123456:(s1'=1)"), Refusal::Weight { at });
    assert_eq!(refused("1234567:(s1'=1)"), Refusal::Mark { at });
}

#[test]
fn a_decimal_is_no_weight() {
    let at = std::str::from_utf8(CARD).unwrap().find("1:(").unwrap();
    let refused = |weights: &str| {
        let card = weighed(weights);
        let refusal = judge(&card).unwrap_err();
        // every entry that takes a card says the same, whatever else is wrong behind the card
        assert_eq!(write(&card, &mut []), Err(refusal));
        assert_eq!(reduce(&card, &mut []), Err(refusal));
        assert_eq!(show(&card, &[], &mut []), Err(refusal));
        assert_eq!(watch(&card, &[], &[], &mut []), Err(refusal));
        assert_eq!(first_move(&card, &[]), Err(refusal));
        assert_eq!(ask(&card, b"", &[]), Err(refusal));
        let chance = odds_in_own_rows(&card, b"", &[], ODDS_STEPS + 1, Aim::Largest);
        assert_eq!(chance, Err(refusal));
        (refusal, refusal.line_and_column(&card))
    };
    let line_and_column = Some((4, 12));
    // in a fitting sum or not, a weight by its value or not, always 17
    for weights in [
        "0.5:(s1'=1) + 1/2:(s1'=0)",
        "1.0:(s1'=1)",
        "0.0:(s1'=1)",
        "0.005:(s1'=1)",
        "0.123456:(s1'=1)",
        "1.5:(s1'=1)",
        "277200.5:(s1'=1)",
    ] {
        assert_eq!(refused(weights), (Refusal::Decimal { at }, line_and_column));
    }
    let second = |weights: &str| refused(weights).0;
    let behind = at + "1/2:(s1'=0) + ".len();
    assert_eq!(
        second("1/2:(s1'=0) + 0.5:(s1'=1)"),
        Refusal::Decimal { at: behind }
    );
    // with 5, 6 and 7 the first on the card is told; 2, 3 and 4 come before all of them
    assert_eq!(second("1/13:(s1'=0) + 0.5:(s1'=1)"), Refusal::Weight { at });
    assert_eq!(
        second("0.5:(s1'=0) + 1/13:(s1'=1)"),
        Refusal::Decimal { at }
    );
    assert_eq!(second("0.5:(s1'=2) + 0.5:(s1'=1)"), Refusal::Decimal { at });
    assert_eq!(
        second("1/2:(s1'=2) + 0.5:(s1'=1)"),
        Refusal::State { at: at + 9 }
    );
    assert_eq!(
        second("0.5:(s1'=1) + 0,5:(s1'=1)"),
        Refusal::Shape { at: behind + 1 }
    );
    assert_eq!(
        second("0.5:(s1'=1) + 0.1234567:(s1'=1)"),
        Refusal::Mark { at: behind }
    );
    // in a comment it is no weight
    assert_eq!(judge(&weighed("1:(s1'=1) // 0.5 before\n")), Ok(()));
}

/// The card with a number that the seats share: at 1 the statement can be taken, which makes it 0.
fn night() -> String {
    let text = std::str::from_utf8(CARD).unwrap();
    let declared = text.replace(
        "module process1",
        "global g : [0..2] init 1;\nmodule process1",
    );
    declared.replace(
        "s1=0 -> 1:(s1'=1)",
        "s1=0 & (g=1) -> 1/2:(s1'=1) & (g'=0) + 1/2:(s1'=0) & (g'=2)",
    )
}

#[test]
fn a_shared_number_stands_behind_the_seats() {
    let night = night();
    let card = night.as_bytes();
    assert_eq!(judge(card), Ok(()));
    assert_eq!(write_to_vec(card).as_deref(), Ok(card));
    let reduced = reduce_to_vec(card).unwrap();
    let head = b"nondeterministic\nglobal g : [0..2] init 1;\nmodule generic_process\n";
    assert!(reduced.starts_with(head));
    let shown =
        |seats: &[u8]| show_to_vec(card, seats).map(|text| String::from_utf8(text).unwrap());
    let head = "nondeterministic\nseats 1 enabled 1\ncounts 1 0\n";
    let awake = format!("{head}shared 1\nchoice 1\nstay 138600 2\nmove 0 1 138600 0\n");
    assert_eq!(shown(&[0, 1]), Ok(awake));
    let asleep = format!("{head}shared 0\nchoice 0\nstay {UNIT} 0\n");
    assert_eq!(shown(&[0, 0]), Ok(asleep));
    assert_eq!(first_move(card, &[0, 1]), Ok(Some(1)));
    assert_eq!(first_move(card, &[0, 2]), Ok(None));
    assert_eq!(ask(card, b"(g=1) & (s1=0)", &[0, 1]), Ok(true));
    assert_eq!(ask(card, b"(g!=1)", &[0, 1]), Ok(false));
    for shared in 0..=2 {
        let seen = watch_to_vec(card, &[1, shared], &[7, 2]);
        assert_eq!(seen.as_deref(), Ok(&b"classes 0 0 1 0 0 0 0 0\n"[..]));
    }
    // The seat in 1 and then in 0, each at 0, 1 and 2.
    let [mut first, mut second] = [[0; ODDS_ROW]; 2];
    let chance = odds(
        card,
        b"(g=2)",
        &[0, 1],
        1,
        Aim::Largest,
        &mut first,
        &mut second,
    );
    assert_eq!(chance, Ok(500_000));
    assert_eq!(first[..7], [0, 0, CERTAIN, 0, 500_000, CERTAIN, 0]);
    assert_eq!(second[..7], [0, 0, CERTAIN, 0, 0, CERTAIN, 0]);
}

#[test]
fn refusals_of_a_shared_number() {
    let night = night();
    let with = |old: &str, new: &str| {
        let at = night.find(old).unwrap();
        let refusal = judge(night.replacen(old, new, 1).as_bytes()).unwrap_err();
        (refusal.number(), refusal.place() - at)
    };
    assert_eq!(with("2] init 1", "8] init 1"), (4, 0));
    assert_eq!(with("1;\nmodule", "3;\nmodule"), (5, 0));
    assert_eq!(with("1) ->", "3) ->"), (5, 0));
    assert_eq!(with("0) + 1/2", "3) + 1/2"), (5, 0));
    assert_eq!(with("g=1", "h=1"), (3, 0));
    assert_eq!(
        with("global g : [0..2] init 1;\n", ""),
        (3, "module process1\ns1 : [0..1] init 0;\n[] s1=0 & (".len())
    );
    for seats in [&[0][..], &[0, 0, 0], &[]] {
        assert_eq!(
            show_to_vec(night.as_bytes(), seats),
            Err(Refusal::SeatCount)
        );
    }
    let seat = |seats: &[u8]| first_move(night.as_bytes(), seats).unwrap_err();
    assert_eq!(seat(&[0, 3]), Refusal::SeatState { seat: 1 });
    assert_eq!(seat(&[2, 3]), Refusal::SeatState { seat: 0 });
    let asked = |question: &[u8]| ask(night.as_bytes(), question, &[0, 1]).unwrap_err();
    assert_eq!(asked(b"(g=3)"), Refusal::QuestionState { at: 3 });
    assert_eq!(
        ask(CARD, b"(g=0)", &[0]),
        Err(Refusal::QuestionShape { at: 1 })
    );
}

#[test]
fn refusals_of_every_entry() {
    let long = [b' '; CARD_BYTES + 1];
    assert_eq!(judge(&long), Err(Refusal::Long));
    assert_eq!(judge(b""), Err(Refusal::Shape { at: 0 }));
    assert_eq!(write_to_vec(b"<"), Err(Refusal::Mark { at: 0 }));
    assert_eq!(reduce_to_vec(b"module"), Err(Refusal::Shape { at: 0 }));
    assert_eq!(show_to_vec(CARD, &[]), Err(Refusal::SeatCount));
    assert_eq!(show_to_vec(CARD, &[2]), Err(Refusal::SeatState { seat: 0 }));
    let needed = CARD.len();
    assert_eq!(write(CARD, &mut [0; 3]), Err(Refusal::Room { needed }));
}

#[test]
fn first_moves_and_their_refusals() {
    assert_eq!(first_move(CARD, &[0]), Ok(Some(1)));
    assert_eq!(first_move(CARD, &[1]), Ok(None));
    assert_eq!(first_move(CARD, &[]), Err(Refusal::SeatCount));
    assert_eq!(first_move(CARD, &[2]), Err(Refusal::SeatState { seat: 0 }));
    assert_eq!(first_move(b"", &[]), Err(Refusal::Shape { at: 0 }));
    let text = std::str::from_utf8(CARD).unwrap();
    let second = text.replace("[] s1=0", "[] s1=1 -> 1:(s1'=1);\n[] s1=0");
    assert_eq!(first_move(second.as_bytes(), &[0]), Ok(Some(2)));
}

#[test]
fn spectators_and_their_refusals() {
    assert_eq!(
        watch_to_vec(CARD, &[1], &[7, 2]).as_deref(),
        Ok(&b"classes 0 0 1 0 0 0 0 0\n"[..])
    );
    let refused = |seats: &[u8], classes: &[u8]| watch_to_vec(CARD, seats, classes).unwrap_err();
    assert_eq!(refused(&[], &[0]), Refusal::SeatCount);
    assert_eq!(refused(&[2], &[0]), Refusal::SeatState { seat: 0 });
    assert_eq!(refused(&[0], &[9]), Refusal::Classes { at: 1 });
    assert_eq!(refused(&[0], &[0, 0, 8]), Refusal::Classes { at: 3 });
    assert_eq!(refused(&[0], &[0, 8]), Refusal::Classes { at: 1 });
    assert_eq!(watch_to_vec(b"", &[], &[]), Err(Refusal::Shape { at: 0 }));
    let needed = 24;
    assert_eq!(
        watch(CARD, &[0], &[0, 0], &mut [0; 23]),
        Err(Refusal::Room { needed })
    );
}

#[test]
fn questions_and_their_refusals() {
    assert_eq!(ask(CARD, b"(s1=0)", &[0]), Ok(true));
    assert_eq!(ask(CARD, b"(s1=0)", &[1]), Ok(false));
    let long = [b' '; QUESTION_BYTES + 1];
    let refused = |question: &[u8]| ask(CARD, question, &[]).unwrap_err();
    assert_eq!(refused(&long), Refusal::QuestionLong);
    assert_eq!(refused(b"(s1<0)"), Refusal::QuestionMark { at: 3 });
    assert_eq!(refused(b""), Refusal::QuestionShape { at: 0 });
    assert_eq!(refused(b"!!!!!!!!!"), Refusal::QuestionLimit { at: 8 });
    assert_eq!(refused(b"(s1=2)"), Refusal::QuestionState { at: 4 });
    assert_eq!(refused(b"!(s2=0)"), Refusal::QuestionGroup { at: 1 });
    assert_eq!(refused(b"(s1=0)"), Refusal::SeatCount);
    assert_eq!(ask(b"", b"<", &[]), Err(Refusal::Shape { at: 0 }));
    let spread = b"(s1=0)\n&\n !(s2=0)";
    assert_eq!(refused(spread).line_and_column(spread), Some((3, 3)));
    assert_eq!(refused(&long).line_and_column(&long), None);
}

#[test]
fn odds_and_their_refusals() {
    let text = std::str::from_utf8(CARD).unwrap();
    let coin = text.replace("1:(s1'=1)", "1/2:(s1'=1) + 1/2:(s1'=0)");
    let coin = coin.as_bytes();
    let own = |steps, aim| odds_in_own_rows(coin, b"(s1=1)", &[0], steps, aim);
    assert_eq!(own(0, Aim::Largest), Ok(0));
    assert_eq!(own(2, Aim::Largest), Ok(750_000));
    assert_eq!(own(2, Aim::Smallest), Ok(750_000));
    assert_eq!(own(ODDS_STEPS + 1, Aim::Largest), Err(Refusal::Steps));
    let certain = odds_in_own_rows(coin, b"(s1=1)", &[1], 0, Aim::Smallest);
    assert_eq!(certain, Ok(CERTAIN));
    // Somebody who may also stay never has to move.
    let text = text.replace("[] s1=0", "[] s1=0 -> 1:(s1'=0);\n[] s1=0");
    let chance = |aim| odds_in_own_rows(text.as_bytes(), b"(s1=1)", &[0], 1, aim);
    assert_eq!(chance(Aim::Largest), Ok(CERTAIN));
    assert_eq!(chance(Aim::Smallest), Ok(0));

    let (mut first, mut second) = (vec![7; ODDS_ROW], vec![7; ODDS_ROW]);
    let rows = (&mut first[..], &mut second[..]);
    let chance = odds(coin, b"(s1=1)", &[0], 1, Aim::Largest, rows.0, rows.1);
    assert_eq!(chance, Ok(500_000));
    assert_eq!(first[..3], [CERTAIN, 500_000, 0]);
    assert_eq!(second[..3], [CERTAIN, 0, 0]);
    let refused = |question: &[u8], seats: &[u8], first: usize, second: usize| {
        let (mut first, mut second) = (vec![7; first], vec![7; second]);
        let aim = Aim::Largest;
        let answer = odds(coin, question, seats, 0, aim, &mut first, &mut second);
        assert!(first.iter().chain(&second).all(|number| *number == 7));
        answer.unwrap_err()
    };
    assert_eq!(refused(b"(s1=1)", &[0], 511, 512), Refusal::Row);
    assert_eq!(refused(b"(s1=1)", &[0], 512, 513), Refusal::Row);
    assert_eq!(
        refused(b"(s1=1)", &[2], 0, 0),
        Refusal::SeatState { seat: 0 }
    );
    assert_eq!(
        refused(b"(s1=2)", &[], 0, 0),
        Refusal::QuestionState { at: 4 }
    );
}

#[test]
fn decks() {
    // Cards 3 and 7, the second withdrawn; what their offsets say does not matter.
    let contents = [3, 0, 9, 9, 2, 0, 1, 0, 7, 0, 9, 9, 1, 0, 0, 0];
    let deck = write_deck_to_vec(&contents, b"abc").unwrap();
    let due = [
        2, 3, 0, 17, 0, 2, 0, 1, 0, 7, 0, 19, 0, 1, 0, 0, 0, b'a', b'b', b'c',
    ];
    assert_eq!(deck, due);
    assert_eq!(judge_deck(&deck), Ok(()));
    assert_eq!(find(&deck, 3), Ok(&b"ab"[..]));
    assert_eq!(find(&deck, 7), Err(Refusal::NoLiveCard));
    assert_eq!(find(&deck, 4), Err(Refusal::NoLiveCard));
    let mut room = [0; 19];
    let refused = write_deck(&contents, b"abc", &mut room);
    assert_eq!(refused, Err(Refusal::Room { needed: 20 }));
    let at = contents.len();
    assert_eq!(
        write_deck_to_vec(&contents, b"ab"),
        Err(Refusal::Deck { at })
    );
    assert_eq!(judge_deck(b""), Err(Refusal::Deck { at: 0 }));
    assert_eq!(find(&deck[..19], 3), Err(Refusal::Deck { at: 13 }));
}

#[test]
fn an_expansion_before_the_base() {
    let base = write_deck_to_vec(&[3, 0, 0, 0, 1, 0, 1, 0, 4, 0, 0, 0, 1, 0, 1, 0], b"xy").unwrap();
    let found = {
        // What is found lives as long as both decks, wherever the number came from.
        let expansion = write_deck_to_vec(&[3, 0, 0, 0, 2, 0, 1, 0], b"ab").unwrap();
        assert_eq!(find_with(&base, &expansion, 3), Ok(&b"ab"[..]));
        let part = Part {
            in_expansion: true,
            offset: 9,
            length: 2,
        };
        assert_eq!(locate_with(&base, &expansion, 3), Ok(part));
        assert_eq!(find_with(&base, &expansion, 4), Ok(&b"y"[..]));
        assert_eq!(find_with(&base, &expansion, 5), Err(Refusal::NoLiveCard));
        let at = 65_536;
        assert_eq!(find_with(&base, b"", 4), Err(Refusal::Deck { at }));
        assert_eq!(find_with(b"", b"", 4), Err(Refusal::Deck { at: 0 }));
        find(&base, 4)
    };
    assert_eq!(found, Ok(&b"y"[..]));
}

#[test]
fn mended_decks_and_their_refusals() {
    // Card 3 is live and taken; card 4 is live and empty; card 5 is withdrawn, behind a gap.
    let length = CARD.len() as u8;
    let contents = [3, 0, 0, 0, length, 0, 1, 0, 4, 0, 0, 0, 0, 0, 1, 0];
    let contents = [&contents[..], &[5, 0, 0, 0, 2, 0, 0, 0]].concat();
    let mut damaged = write_deck_to_vec(&contents, &[CARD, b"ab"].concat()).unwrap();
    assert_eq!(judge_deck(&damaged), Ok(()));
    let contents = [&contents[..8], &contents[16..]].concat();
    let due = write_deck_to_vec(&contents, &[CARD, b"ab"].concat()).unwrap();
    let list = b"kept\ndropped 4\nkept\n";
    let (mended, lines) = mend_to_vecs(&damaged).unwrap();
    assert_eq!((&mended[..], &lines[..]), (&due[..], &list[..]));
    let (again, lines) = mend_to_vecs(&mended).unwrap();
    assert_eq!((again, &lines[..]), (mended, &b"kept\nkept\n"[..]));

    let in_rooms = |room: usize, list: usize| {
        let (mut room, mut list) = (vec![7; room], vec![7; list]);
        let answer = mend(&damaged, &mut room, &mut list);
        let lengths = answer.map_or((0, 0), |mended| (mended.deck, mended.list));
        let mut behind = room[lengths.0..].iter().chain(&list[lengths.1..]);
        assert!(behind.all(|byte| *byte == 7));
        answer
    };
    let mended = Mended {
        deck: due.len(),
        list: list.len(),
    };
    assert_eq!(in_rooms(due.len(), list.len()), Ok(mended));
    assert_eq!(in_rooms(damaged.len(), LIST_ROOM), Ok(mended));
    let refused = |needed: usize| Err(Refusal::Room { needed });
    assert_eq!(in_rooms(due.len() - 1, 0), refused(due.len()));
    assert_eq!(in_rooms(due.len(), list.len() - 1), refused(list.len()));
    assert_eq!(in_rooms(0, 0), refused(due.len()));

    // What cannot be mended is told before the rooms.
    let past_mending = Err(Refusal::Deck { at: 0 });
    assert_eq!(mend(b"", &mut [], &mut []), past_mending);
    assert_eq!(mend(&damaged[..24], &mut [], &mut []), past_mending);
    assert_eq!(
        mend(&[damaged[0]; DECK_BYTES + 1], &mut [], &mut []),
        past_mending
    );
    damaged[0] = 65;
    assert_eq!(mend_to_vecs(&damaged), Err(Refusal::Deck { at: 0 }));
    let nothing_kept = write_deck_to_vec(&[4, 0, 0, 0, 1, 0, 1, 0], b"x").unwrap();
    assert_eq!(mend_to_vecs(&nothing_kept), Err(Refusal::Deck { at: 0 }));
}

/// A deck of cards, each with its number and flag; a gap of so many bytes before each body.
fn deck_of(cards: &[(u16, u8, &[u8])], gap: usize) -> Vec<u8> {
    let mut contents = vec![cards.len() as u8];
    let mut bodies = Vec::new();
    for (number, flag, card) in cards {
        bodies.extend(vec![b'-'; gap]);
        let offset = 1 + 8 * cards.len() + bodies.len();
        for field in [*number, offset as u16, card.len() as u16] {
            contents.extend(field.to_le_bytes());
        }
        contents.extend([*flag, 0]);
        bodies.extend(*card);
    }
    [contents, bodies].concat()
}

#[test]
fn converted_decks_and_their_refusals() {
    let old = weighed("0.37:(s1'=1)+ 0.13:(s1'=1) + 0.5:(s1'=0)");
    let now = weighed("37/100:(s1'=1) + 13/100:(s1'=1) + 1/2:(s1'=0)");
    let loose = weighed("  4/8:(s1'=1)+1/2:(s1'=0) // not 0.5\n");
    let cards = [
        (3, 1, &old[..]),
        (4, 0, &old[..]),
        (260, 1, &loose[..]),
        (65_535, 0, b""),
    ];
    let deck = deck_of(&cards, 3);
    let due = deck_of(&[(3, 1, &now[..]), cards[1], cards[2], cards[3]], 0);
    assert_eq!(convert_to_vec(&deck).as_ref(), Ok(&due));
    assert_eq!(convert_to_vec(&due).as_ref(), Ok(&due));
    assert_eq!(find(&due, 3), Ok(&now[..]));
    assert_eq!(judge(&now), Ok(()));

    let in_room = |deck: &[u8], room: usize| {
        let mut room = vec![7; room];
        let answer = convert(deck, &mut room);
        let written = answer.unwrap_or(0);
        assert!(room[written..].iter().all(|byte| *byte == 7));
        answer
    };
    let needed = due.len();
    assert_eq!(in_room(&deck, needed), Ok(needed));
    assert_eq!(in_room(&deck, needed - 1), Err(Refusal::Room { needed }));
    assert_eq!(in_room(&deck, 0), Err(Refusal::Room { needed }));

    // Mending takes no decimal: the card is dropped before it is converted, and kept after that.
    let (_, list) = mend_to_vecs(&deck).unwrap();
    assert_eq!(list, b"dropped 4\nkept\nkept\nkept\n");
    let (mended, list) = mend_to_vecs(&due).unwrap();
    assert_eq!((mended, list), (due.clone(), b"kept\n".repeat(4)));

    // A card that never was one is named by its number, whatever the room; the first of them in the deck.
    let wrong = weighed("0.37:(s1'=1) + 0.64:(s1'=0)");
    let not_converted = |card: u16| Err(Refusal::NotConverted { card });
    let with = |card: &[u8]| deck_of(&[(3, 1, &old), (700, 1, card), (701, 1, b"")], 0);
    for card in [&wrong[..], b"", &b" ".repeat(CARD_BYTES + 1)] {
        assert_eq!(in_room(&with(card), 0), not_converted(700));
        assert_eq!(in_room(&with(card), DECK_BYTES), not_converted(700));
    }
    assert_eq!(in_room(&with(&now), DECK_BYTES), not_converted(701));
    assert_eq!(not_converted(700).unwrap_err().line_and_column(&deck), None);

    // A malformed deck is told first, with the places of judging.
    let mut malformed = with(b"");
    malformed[9] = 0;
    malformed[10] = 0;
    let refusal = Err(Refusal::Deck { at: 9 });
    assert_eq!(judge_deck(&malformed), refusal);
    assert_eq!(in_room(&malformed, 0).map(|_| ()), refusal);
    assert_eq!(convert_to_vec(b""), Err(Refusal::Deck { at: 0 }));
}

#[test]
fn what_is_too_long_for_the_new_deck() {
    // Groups of sixteen seats without a blank: as a card they fit, and written they do not.
    let group: Vec<String> = (1..=16).map(|seat| format!("s{seat}=0")).collect();
    let guard = format!("&({})", group.join("&")).repeat(8);
    let packed = |weights: &str| {
        let statements = format!("[]s1=0{guard}->{weights};").repeat(18);
        let modules: String = (2..=16)
            .map(|seat| format!("module process{seat}=process1[s1=s{seat},s{seat}=s1]endmodule "))
            .collect();
        let head = "nondeterministic module process1 s1:[0..1]init 0;";
        format!("{head}{statements}endmodule {modules}").into_bytes()
    };
    let decimals = packed("0.5:(s1'=0)+0.5:(s1'=1)");
    let fractions = packed("1/2:(s1'=0)+1/2:(s1'=1)");
    assert!(decimals.len() <= CARD_BYTES);
    assert!(write_to_vec(&fractions).unwrap().len() > CARD_BYTES);
    let not_converted = |card: u16| Err(Refusal::NotConverted { card });
    let deck = deck_of(&[(8, 1, CARD), (9, 1, &decimals)], 0);
    assert_eq!(convert_to_vec(&deck), not_converted(9));
    // Without decimals it is not written, and withdrawn not even read.
    let copied = deck_of(&[(9, 1, &fractions), (10, 0, &decimals)], 0);
    assert_eq!(convert_to_vec(&copied).as_ref(), Ok(&copied));

    // A card that grows by two blanks, and one that fills the deck but for so many bytes.
    let grows = weighed("0.5:(s1'=0)+0.5:(s1'=1)");
    let filled = |[first, second]: [u16; 2], spare: usize| {
        let fills = vec![b'-'; DECK_BYTES - 17 - grows.len() - spare];
        let mut cards = [(first, 1, &grows[..]), (second, 0, &fills[..])];
        cards.sort();
        convert_to_vec(&deck_of(&cards, 0)).map(|deck| deck.len())
    };
    for order in [[1, 2], [2, 1]] {
        assert_eq!(filled(order, 3), Ok(DECK_BYTES - 1));
        assert_eq!(filled(order, 2), Ok(DECK_BYTES));
        // the last of the deck passes its end, whether it is the one that grows or not
        assert_eq!(filled(order, 1), Err(Refusal::NotConverted { card: 2 }));
    }
}

/// What becomes of a lent deck: behind its new length there are zeros, and with a refusal all is as it was.
fn lent(
    deck: &[u8],
    entry: impl FnOnce(&mut [u8]) -> Result<usize, Refusal>,
) -> Result<Vec<u8>, Refusal> {
    let mut changed = deck.to_vec();
    match entry(&mut changed) {
        Ok(length) => {
            assert!(changed[length..].iter().all(|byte| *byte == 0));
            changed.truncate(length);
            Ok(changed)
        }
        Err(refusal) => {
            assert_eq!(changed, deck);
            Err(refusal)
        }
    }
}

#[test]
fn tidied_decks_and_their_refusals() {
    let cards: [(u16, u8, &[u8]); 5] = [
        (3, 0, b"withdrawn"),
        (4, 1, CARD),
        (5, 1, b""),
        (260, 0, b""),
        (65_535, 1, b"no card at all"),
    ];
    let due = deck_of(&[cards[1], cards[2], cards[4]], 0);
    for gap in [0, 1, 100] {
        for unused in [0, 1, 100] {
            let deck = [deck_of(&cards, gap), vec![b'-'; unused]].concat();
            assert_eq!(lent(&deck, tidy).as_ref(), Ok(&due));
            let mut own = deck;
            assert_eq!(tidy_vec(&mut own), Ok(()));
            assert_eq!(own, due);
        }
    }
    // What is tidy stays, also in the longest deck, of which most is a gap.
    assert_eq!(lent(&due, tidy).as_ref(), Ok(&due));
    let mut longest = due.clone();
    longest.resize(DECK_BYTES, b'-');
    assert_eq!(lent(&longest, tidy).as_ref(), Ok(&due));
    longest.push(b'-');
    assert_eq!(lent(&longest, tidy), Err(Refusal::Deck { at: 0 }));

    let none_live = deck_of(&[cards[0], cards[3]], 1);
    assert_eq!(lent(&none_live, tidy), Err(Refusal::NoLiveCard));
    assert_eq!(tidy(&mut []), Err(Refusal::Deck { at: 0 }));
    // A malformed deck is told before that, and its vector stays as it is.
    let mut malformed = [none_live, vec![b'-'; 9]].concat();
    malformed[16] = 1;
    let refusal = Refusal::Deck { at: 16 };
    assert_eq!(judge_deck(&malformed), Err(refusal));
    assert_eq!(lent(&malformed, tidy), Err(refusal));
    let mut own = malformed.clone();
    assert_eq!(tidy_vec(&mut own), Err(refusal));
    assert_eq!(own, malformed);
}

#[test]
fn added_cards() {
    let live: [(u16, u8, &[u8]); 2] = [(4, 1, b"no card"), (260, 1, CARD)];
    let deck = deck_of(&[(3, 0, b"withdrawn"), live[0], (5, 0, b""), live[1]], 2);
    let more = weighed("1/2:(s1'=1) + 1/2:(s1'=0)");
    // Before, between and behind those that are live, and in the place of one that is withdrawn.
    for (number, place) in [(0, 0), (3, 0), (5, 1), (259, 1), (261, 2), (65_535, 2)] {
        let mut cards = live.to_vec();
        cards.insert(place, (number, 1, &more));
        let due = deck_of(&cards, 0);
        let added = |deck: &mut [u8]| add(deck, number, &more);
        let needed = due.len();
        // Exactly this length will do.
        let mut room = deck.clone();
        room.resize(needed, b'-');
        assert_eq!(lent(&room, added).as_ref(), Ok(&due));
        room.push(b'-');
        assert_eq!(lent(&room, added).as_ref(), Ok(&due));
        room.truncate(needed - 1);
        assert_eq!(lent(&room, added), Err(Refusal::Room { needed }));
        assert_eq!(lent(&deck, added), Err(Refusal::Room { needed }));
        // A vector grows by what is missing, and by no more.
        for deck in [&deck, &room, &[&room[..], &[b'-'; 999]].concat()] {
            let mut own = deck.clone();
            assert_eq!(add_to_vec(&mut own, number, &more), Ok(()));
            assert_eq!(own, due);
        }
    }
    // What is withdrawn makes room.
    let fills = vec![b'-'; DECK_BYTES - 17 - CARD.len()];
    let mut full = deck_of(&[(7, 1, CARD), (8, 0, &fills)], 0);
    assert_eq!(full.len(), DECK_BYTES);
    assert_eq!(add(&mut full, 8, &more), Ok(17 + CARD.len() + more.len()));
    assert_eq!(find(&full, 8), Ok(&more[..]));
}

#[test]
fn refusals_of_adding_in_their_order() {
    let refused = |deck: &[u8], number: u16, card: &[u8]| {
        let refusal = lent(deck, |deck| add(deck, number, card)).unwrap_err();
        let mut own = deck.to_vec();
        let of_vec = add_to_vec(&mut own, number, card);
        if !matches!(refusal, Refusal::Room { needed } if needed <= DECK_BYTES) {
            assert_eq!((of_vec, &own[..]), (Err(refusal), deck));
        }
        refusal
    };
    let wrong = weighed("1/2:(s1'=1)");
    let no_card = judge(&wrong).unwrap_err();
    let old = weighed("0.5:(s1'=1) + 0.5:(s1'=0)");

    // 11, 12, the card's own, 19, 10: what comes later is wrong each time, too.
    let deck = deck_of(&[(3, 0, CARD), (4, 1, CARD), (5, 1, CARD)], 0);
    let mut malformed = deck.clone();
    malformed[7] = 2;
    assert_eq!(refused(&malformed, 4, &wrong), Refusal::Deck { at: 7 });
    assert_eq!(refused(&[], 4, &wrong), Refusal::Deck { at: 0 });
    let none_live = deck_of(&[(4, 0, CARD)], 0);
    assert_eq!(refused(&none_live, 4, &wrong), Refusal::NoLiveCard);
    assert_eq!(refused(&deck, 4, &wrong), no_card);
    assert_eq!(refused(&deck, 4, b""), Refusal::Shape { at: 0 });
    assert_eq!(refused(&deck, 4, &old), judge(&old).unwrap_err());
    let long = vec![b' '; CARD_BYTES + 1];
    assert_eq!(refused(&deck, 4, &long), Refusal::Long);
    // The place is in the deck as it is lent, behind the entry of the withdrawn card.
    assert_eq!(refused(&deck, 4, CARD), Refusal::NotAdded { at: 9 });
    assert_eq!(refused(&deck, 5, CARD), Refusal::NotAdded { at: 17 });
    let needed = 25 + 3 * CARD.len();
    let short = &deck_of(&[(4, 1, CARD), (5, 1, CARD)], 0);
    assert_eq!(refused(short, 3, CARD), Refusal::Room { needed });

    // Sixty-four cards that are live, and one of them withdrawn.
    let mut many: Vec<(u16, u8, &[u8])> = (0..64).map(|card| (2 * card, 1, &b""[..])).collect();
    let full = deck_of(&many, 0);
    assert_eq!(refused(&full, 126, CARD), Refusal::NotAdded { at: 505 });
    assert_eq!(refused(&full, 127, CARD), Refusal::NotAdded { at: 0 });
    assert_eq!(refused(&full, 127, &wrong), no_card);
    many[10].1 = 0;
    let mut own = deck_of(&many, 0);
    assert_eq!(add_to_vec(&mut own, 127, CARD), Ok(()));
    assert_eq!(own.len(), full.len() + CARD.len());

    // One byte too much for the longest deck, and all of an entry and a card.
    for over in [1, 8 + CARD.len()] {
        let fills = vec![b'-'; DECK_BYTES + over - 17 - CARD.len()];
        let needed = DECK_BYTES + over;
        let deck = deck_of(&[(7, 1, &fills)], 0);
        assert_eq!(refused(&deck, 8, CARD), Refusal::Room { needed });
    }
}

#[test]
fn lines_and_columns() {
    let wrong = b"nondeterministic\nmodule process1\ns1 : [0..8] init 0;";
    let refusal = judge(wrong).unwrap_err();
    assert_eq!(refusal, Refusal::Limit { at: 42 });
    assert_eq!(refusal.line_and_column(wrong), Some((3, 10)));
    assert_eq!(Refusal::SeatCount.line_and_column(wrong), None);
}
