//! `desk/wrong-cards.txt`: every wrong card, seating, list of classes and question there is refused by the library with the number and the
//! place that are stated, and explained as it says; and every sentence that a writer of rules can meet is met. Boxes stand here.

use std::collections::BTreeSet;

use desk::reason::{
    of_added, of_converted, of_deck, of_entries, of_mended, of_number, of_tidied, of_written,
    Given, Of, Reason,
};
use desk::words;
use open_panel::{
    add_to_vec, convert_to_vec, find, judge_deck, mend_to_vecs, odds_in_own_rows, tidy_vec,
    write_deck_to_vec, Aim, Refusal, CARD_BYTES, DECK_BYTES, DECK_CARDS,
};

const TABLE: &str = include_str!("../../../desk/wrong-cards.txt");

/// A case of the table.
struct Case {
    name: &'static str,
    card: Vec<u8>,
    question: Option<Vec<u8>>,
    seats: Option<Vec<u8>>,
    classes: Option<Vec<u8>>,
    nights: Option<Vec<u8>>,
    /// Number, place and what is underlined; the sentence; the hint.
    due: [&'static str; 3],
}

/// The bytes that a text of the table stands for.
fn bytes(text: &str) -> Vec<u8> {
    let mut made = Vec::new();
    let mut rest = text;
    while let Some(first) = rest.chars().next() {
        if let Some((repeated, behind)) = repeated(rest) {
            made.extend(repeated);
            rest = behind;
            continue;
        }
        let escape = rest.strip_prefix('\\').and_then(|behind| {
            let byte = match behind.as_bytes().first()? {
                b'r' => b'\r',
                b'n' => b'\n',
                b't' => b'\t',
                b'x' => u8::from_str_radix(behind.get(1..3)?, 16).ok()?,
                _ => return None,
            };
            Some((byte, &behind[if behind.starts_with('x') { 3 } else { 1 }..]))
        });
        match escape {
            Some((byte, behind)) => {
                made.push(byte);
                rest = behind;
            }
            None => {
                made.extend(first.to_string().bytes());
                rest = &rest[first.len_utf8()..];
            }
        }
    }
    made
}

/// `{2..4:TEXT}` and what stands behind it.
fn repeated(text: &str) -> Option<(Vec<u8>, &str)> {
    let (inside, behind) = text.strip_prefix('{')?.split_once('}')?;
    let (range, text) = inside.split_once(':')?;
    let (from, to) = range.split_once("..")?;
    let numbers = from.parse::<u32>().ok()?..=to.parse().ok()?;
    let made = numbers.map(|number| text.replace('#', &number.to_string()));
    Some((bytes(&made.collect::<String>()), behind))
}

fn cases() -> Vec<Case> {
    let mut parts = TABLE.split("\n== ").skip(1);
    let base = parts
        .next()
        .and_then(|part| part.strip_prefix("base\n"))
        .expect("the base comes first");
    let base: Vec<&str> = base.trim_end().lines().collect();
    parts.map(|part| case(&base, part)).collect()
}

fn case(base: &[&str], part: &'static str) -> Case {
    let (name, lines) = part.split_once('\n').expect("a case has lines");
    let mut card: Vec<Vec<Vec<u8>>> = base.iter().map(|line| vec![bytes(line)]).collect();
    let (mut question, mut seats, mut classes, mut nights) = (None, None, None, None);
    let mut due = [""; 3];
    for line in lines.lines().filter(|line| !line.is_empty()) {
        let (word, text) = line.split_once(' ').unwrap_or((line, ""));
        let number: String = word.chars().take_while(char::is_ascii_digit).collect();
        match (word, number.parse::<usize>()) {
            ("=", _) => due[0] = text,
            (">", _) => due[1] = text,
            ("?", _) => due[2] = text,
            ("question", _) => question = Some(bytes(text)),
            ("seats", _) => seats = Some(bytes(text)),
            ("classes", _) => classes = Some(bytes(text)),
            ("nights", _) => nights = Some(bytes(text)),
            (_, Ok(at)) => match &word[number.len()..] {
                "-" => card[at - 1].clear(),
                "+" => card[at - 1].push(bytes(text)),
                "" => card[at - 1] = vec![bytes(text)],
                _ => panic!("{name}: {line}"),
            },
            _ => panic!("{name}: {line}"),
        }
    }
    let card = card
        .concat()
        .iter()
        .flat_map(|line| [&line[..], b"\n"].concat())
        .collect();
    Case {
        name,
        card,
        question,
        seats,
        classes,
        nights,
        due,
    }
}

fn values(typed: &[u8]) -> Vec<u8> {
    let value = |byte: &u8| {
        if byte.is_ascii_digit() {
            byte - b'0'
        } else {
            u8::MAX
        }
    };
    typed.iter().map(value).collect()
}

/// What the library answers to a case.
fn answer(case: &Case) -> Result<(), Refusal> {
    if let Some(nights) = &case.nights {
        let nights = String::from_utf8_lossy(nights)
            .parse()
            .unwrap_or(usize::MAX);
        let question = case.question.as_deref().unwrap_or_default();
        let seats = values(case.seats.as_deref().unwrap_or(b"000"));
        return odds_in_own_rows(&case.card, question, &seats, nights, Aim::Largest).map(|_| ());
    }
    match (&case.question, &case.seats, &case.classes) {
        (Some(question), ..) => open_panel::ask(&case.card, question, &[0; 3]).map(|_| ()),
        (_, Some(seats), _) => open_panel::first_move(&case.card, &values(seats)).map(|_| ()),
        (_, _, Some(classes)) => {
            open_panel::watch_to_vec(&case.card, &[0; 3], &values(classes)).map(|_| ())
        }
        _ => open_panel::judge(&case.card),
    }
}

#[test]
fn each_wrong_card_is_explained() {
    let mut met: BTreeSet<&str> = BTreeSet::new();
    let mut spoken = String::new();
    let cases = cases();
    for case in &cases {
        let name = case.name;
        let refusal = answer(case).expect_err(name);
        let given = Given {
            card: &case.card,
            question: case.question.as_deref().unwrap_or_default(),
            seats: case.seats.as_deref().unwrap_or_default(),
            classes: case.classes.as_deref().unwrap_or_default(),
            nights: case.nights.as_deref().unwrap_or_default(),
        };
        let reason = given.reason(refusal);
        let text = given.text(Of::refusal(refusal));
        let underlined = &text[reason.span.clone()];
        let (number, rest) = case.due[0].split_once(' ').expect(name);
        let (place, due) = rest.split_once(' ').unwrap_or((rest, ""));
        assert_eq!(refusal.number().to_string(), number, "{name}");
        assert_eq!(refusal.place().to_string(), place, "{name}");
        assert_eq!(
            underlined.escape_ascii().to_string(),
            bytes(due).escape_ascii().to_string(),
            "{name}"
        );
        assert_eq!(reason.refusal, refusal, "{name}");
        assert_eq!(reason.sentence, case.due[1], "{name}");
        assert_eq!(
            reason.hint.as_deref().unwrap_or_default(),
            case.due[2],
            "{name}"
        );
        met.insert(reason.name);
        met.extend(reason.hint_name);
        spoken += &reason.sentence;
    }
    assert!(cases.len() >= 100, "{} cases", cases.len());
    let elsewhere = ["plain.", "deck.", "none"];
    for name in words::names().filter(|name| !elsewhere.iter().any(|kind| name.starts_with(kind))) {
        // what was due, and what is wrong with a group, are parts of sentences
        let part = ["due.", "fault."].iter().any(|kind| name.starts_with(kind));
        let said = || {
            let template = words::template(name);
            template
                .split(['{', '}'])
                .step_by(2)
                .all(|part| spoken.contains(part))
        };
        assert!(
            met.contains(name) || part && said(),
            "no wrong card has {name}"
        );
    }
}

#[test]
fn spans_begin_at_the_place() {
    for case in cases() {
        let refusal = answer(&case).expect_err(case.name);
        if Of::refusal(refusal) != Of::Card && Of::refusal(refusal) != Of::Question {
            continue;
        }
        let given = Given {
            card: &case.card,
            question: case.question.as_deref().unwrap_or_default(),
            ..Given::default()
        };
        assert_eq!(
            given.reason(refusal).span.start,
            refusal.place(),
            "{}",
            case.name
        );
    }
}

/// A box of two cards, a live one and one that is withdrawn.
fn deck() -> Vec<u8> {
    let contents = [[3, 0, 0, 0, 4, 0, 1, 0], [9, 0, 0, 0, 2, 0, 0, 0]].concat();
    write_deck_to_vec(&contents, b"liveno").unwrap()
}

fn said(reason: &Reason) -> (u8, usize, &str) {
    (
        reason.refusal.number(),
        reason.refusal.place(),
        &reason.sentence,
    )
}

#[test]
fn each_wrong_field_of_a_box_is_named() {
    let edits: [(usize, u8, &str); 9] = [
        (
            0,
            0,
            "the box says that it holds 0 cards, and 1 to 64 were due",
        ),
        (
            0,
            65,
            "the box says that it holds 65 cards, and 1 to 64 were due",
        ),
        (
            0,
            3,
            "the box has 23 bytes, and its contents of 3 cards alone take 25",
        ),
        (9, 3, "entry 2 has the number 3, and one above 3 was due"),
        (
            3,
            16,
            "the body of entry 1 begins at 16, and 17 or later was due",
        ),
        (
            11,
            20,
            "the body of entry 2 begins at 20, and 21 or later was due",
        ),
        (
            13,
            3,
            "the body of entry 2 ends at 24, and the box ends at 23",
        ),
        (
            7,
            2,
            "the flag of entry 1 is 2, and 1 for live or 0 for withdrawn was due",
        ),
        (16, 5, "the last byte of entry 2 is 5, and 0 was due"),
    ];
    for (at, byte, sentence) in edits {
        let mut deck = deck();
        deck[at] = byte;
        let refusal = judge_deck(&deck).unwrap_err();
        let reason = of_deck(&deck, refusal.place(), refusal);
        assert_eq!(said(&reason), (11, at, sentence));
    }
    for (deck, sentence) in [
        (
            vec![],
            "the box has no byte, and at least its count was due",
        ),
        (
            vec![1; 65_536],
            "the box has 65,536 bytes, and a box has at most 65,535",
        ),
    ] {
        let refusal = judge_deck(&deck).unwrap_err();
        assert_eq!(
            said(&of_deck(&deck, refusal.place(), refusal)),
            (11, 0, sentence)
        );
    }
}

#[test]
fn what_becomes_of_each_entry_is_told() {
    // The box holds `live`, which is no card, and a withdrawn one, which is not read.
    let edits: [(usize, u8, [usize; 2], &str); 7] = [
        (0, 2, [4, 0], "refused 3 0: `live` stands here"),
        (
            7,
            2,
            [1, 0],
            "the flag of entry 1 is 2, and 1 for live or 0 for withdrawn was due",
        ),
        (8, 5, [1, 0], "the last byte of entry 1 is 5, and 0 was due"),
        (
            3,
            16,
            [3, 0],
            "the body of entry 1 begins at 16, and 17 or later was due",
        ),
        (
            5,
            7,
            [3, 0],
            "the body of entry 1 ends at 24, and the box ends at 23",
        ),
        (7, 0, [0, 0], ""),
        (16, 9, [4, 1], "refused 3 0: `live` stands here"),
    ];
    for (at, byte, rules, why) in edits {
        let mut deck = deck();
        deck[at] = byte;
        let list = mend_to_vecs(&deck).ok().map(|(_, list)| list);
        let became = of_entries(&deck, list.as_deref());
        let found: Vec<usize> = became.iter().map(|became| became.rule).collect();
        assert_eq!(found, rules, "{at}");
        assert!(became[0].why.starts_with(why), "{}", became[0].why);
        assert_eq!(list.is_none(), !rules.contains(&0));
    }
    // By what was kept before, and not by what was dropped.
    let mut deck = deck();
    deck[7] = 0;
    deck[9] = 3;
    let (_, list) = mend_to_vecs(&deck).unwrap();
    let became = of_entries(&deck, Some(&list));
    assert_eq!(
        became[1].why,
        "entry 2 has the number 3, and one above 3 was due"
    );
    deck[7] = 7;
    let (_, list) = mend_to_vecs(&deck).unwrap();
    assert_eq!(list, b"dropped 1\nkept\n");
}

#[test]
fn a_box_past_mending_is_told() {
    let mut nothing = deck();
    nothing[16] = 9;
    for (deck, sentence) in [
        (
            nothing,
            "the box says that it holds 2 cards, and none of it can be kept",
        ),
        (
            vec![],
            "the box has no byte, and at least its count was due",
        ),
        (
            vec![65; 999],
            "the box says that it holds 65 cards, and 1 to 64 were due",
        ),
        (
            vec![2; 16],
            "the box has 16 bytes, and its contents of 2 cards alone take 17",
        ),
        (
            vec![1; 65_536],
            "the box has 65,536 bytes, and a box has at most 65,535",
        ),
    ] {
        let refusal = mend_to_vecs(&deck).unwrap_err();
        assert_eq!(said(&of_mended(&deck, refusal)), (11, 0, sentence));
        assert_eq!(
            of_entries(&deck, None).len(),
            if deck.len() == 23 { 2 } else { 0 }
        );
    }
}

/// A box of cards, each with its number and whether it is live.
fn box_of(cards: &[(u16, bool, &[u8])]) -> Vec<u8> {
    let (mut contents, mut bodies) = (Vec::new(), Vec::new());
    for (number, live, card) in cards {
        contents.extend(number.to_le_bytes());
        contents.extend([0, 0]);
        contents.extend((card.len() as u16).to_le_bytes());
        contents.extend([u8::from(*live), 0]);
        bodies.extend(*card);
    }
    write_deck_to_vec(&contents, &bodies).unwrap()
}

/// A card of one seat with these weights.
fn weighed(weights: &str) -> Vec<u8> {
    let head = "nondeterministic module process1 s1:[0..1]init 0;";
    format!("{head}[]s1=0->{weights};endmodule ").into_bytes()
}

#[test]
fn a_card_that_cannot_be_converted_is_explained() {
    let old = weighed("0.5:(s1'=0)+0.5:(s1'=1)");
    let why = |card: &[u8]| {
        let deck = box_of(&[(3, true, &old), (400, true, card)]);
        let refusal = convert_to_vec(&deck).unwrap_err();
        let reason = of_converted(&deck, refusal);
        let (number, place, sentence) = said(&reason);
        assert_eq!((number, place), (18, 400));
        sentence.to_string()
    };
    // what is wrong is told where it stands on the card as it is, behind decimals that were weights
    let before = "card 400 is wrong apart from decimals: at its byte";
    assert_eq!(
        why(&weighed("0.37:(s1'=0)+0.37:(s1'=2)+0.26:(s1'=1)")),
        format!("{before} 80, the seat goes to role 2, and the card's highest is 1")
    );
    assert_eq!(
        why(&weighed("0.37:(s1'=0)+0.64:(s1'=1)")),
        format!("{before} 82, the weights come to 101/100, and 1 was due: 1/100 is too much")
    );
    assert_eq!(
        why(&weighed("0.37:(s1'=0)+0.630:(s1'=1)")),
        "card 400 has the weight `0.630` at its byte 70, and a decimal is converted if it has one or two digits behind its point and is at most 1"
    );
    assert_eq!(
        why(b"0.5"),
        format!("{before} 0, `0.5` stands here, and `probabilistic` or `nondeterministic` was due")
    );
    assert_eq!(
        why(&b" ".repeat(CARD_BYTES + 1)),
        format!("{before} 0, the card has 16,385 bytes, and a card has at most 16,384")
    );

    // Without blanks it fits, and in its one layout not.
    let group: Vec<String> = (1..=16).map(|seat| format!("s{seat}=0")).collect();
    let guard = format!("&({})", group.join("&")).repeat(8);
    let modules: String = (2..=16)
        .map(|seat| format!("module process{seat}=process1[s1=s{seat},s{seat}=s1]endmodule "))
        .collect();
    let statements = format!("[]s1=0{guard}->0.25:(s1'=0)+0.75:(s1'=1);").repeat(18);
    let head = "nondeterministic module process1 s1:[0..1]init 0;";
    let packed = format!("{head}{statements}endmodule {modules}");
    assert_eq!(
        why(packed.as_bytes()),
        "card 400 takes 18,972 bytes in its one layout, and a card has at most 16,384"
    );

    // A card that is right, or withdrawn, has no room left by those before it, as the first one grows.
    let full = |live: bool| {
        let last = weighed("1:(s1'=1)");
        let fills = vec![b'-'; DECK_BYTES - 25 - old.len() - last.len()];
        let cards = [
            (3, true, &old[..]),
            (4, false, &fills),
            (400, live, &last[..]),
        ];
        let deck = box_of(&cards);
        let refusal = convert_to_vec(&deck).unwrap_err();
        said(&of_converted(&deck, refusal)).2.to_string()
    };
    for live in [true, false] {
        assert_eq!(
            full(live),
            "card 400 would end past byte 65,535 of the new box, and a box has no more"
        );
    }

    let mut malformed = box_of(&[(3, true, &old)]);
    malformed[8] = 1;
    let refusal = convert_to_vec(&malformed).unwrap_err();
    let due = (11, 8, "the last byte of entry 1 is 1, and 0 was due");
    assert_eq!(said(&of_converted(&malformed, refusal)), due);
}

#[test]
fn a_box_that_cannot_be_tidied_is_explained() {
    let why = |mut deck: Vec<u8>| {
        let refusal = tidy_vec(&mut deck).unwrap_err();
        let reason = of_tidied(&deck, refusal);
        assert_eq!(reason.refusal, refusal);
        reason.sentence
    };
    assert_eq!(
        why(box_of(&[(3, false, b"one")])),
        "the box holds 1 card, none of it live, and a live card was due"
    );
    assert_eq!(
        why(box_of(&[(3, false, b"one"), (4, false, b"two")])),
        "the box holds 2 cards, none of it live, and a live card was due"
    );
    let mut malformed = deck();
    malformed[7] = 2;
    assert_eq!(
        why(malformed),
        "the flag of entry 1 is 2, and 1 for live or 0 for withdrawn was due"
    );
}

#[test]
fn a_card_that_is_not_added_is_explained() {
    let card = weighed("1:(s1'=1)");
    let why = |deck: &[u8], number: u16, card: &[u8]| {
        let refusal = add_to_vec(&mut deck.to_vec(), number, card).unwrap_err();
        let reason = of_added(deck, number, card, refusal);
        assert_eq!(reason.refusal, refusal);
        let (code, place, sentence) = said(&reason);
        (code, place, reason.span.clone(), sentence.to_string())
    };
    let said = |code: u8, place: usize, span: std::ops::Range<usize>, sentence: &str| {
        (code, place, span, sentence.to_string())
    };
    let two = box_of(&[(3, false, b"gone"), (4, true, &card), (400, true, b"none")]);
    assert_eq!(
        why(&two, 4, &card),
        said(
            19,
            9,
            9..11,
            "card 4 is in the box already, live, as entry 2: nondeterministic, 1 seat, roles 0 to 1, 1 statement"
        )
    );
    assert_eq!(
        why(&two, 400, &card),
        said(
            19,
            17,
            17..19,
            "card 400 is in the box already, live, as entry 3: a card that is refused"
        )
    );
    let many: Vec<(u16, bool, &[u8])> = (0..DECK_CARDS as u16)
        .map(|n| (n, true, &b""[..]))
        .collect();
    assert_eq!(
        why(&box_of(&many), 64, &card),
        said(
            19,
            0,
            0..0,
            "64 cards are live in the box, and no more than that can be"
        )
    );
    // one byte too much, and all of an entry and a card
    for (over, missing) in [(1, "1 byte"), (8 + card.len(), "85 bytes")] {
        let fills = vec![b'-'; DECK_BYTES + over - 25 - card.len() - 3];
        let deck = box_of(&[(2, true, b"two"), (7, true, &fills)]);
        let bytes = DECK_BYTES + over;
        let sentence = format!(
            "with card 8, and with nothing withdrawn and no gaps, the box would take {} bytes, and a box has at most 65,535: it lacks {missing}",
            desk::reason::grouped(bytes)
        );
        assert_eq!(
            why(&deck, 8, &card),
            said(10, bytes, bytes..bytes, &sentence)
        );
    }
    assert_eq!(
        why(&box_of(&[(3, false, b"gone")]), 4, &card),
        said(
            12,
            0,
            0..0,
            "the box holds 1 card, none of it live, and a live card was due"
        )
    );
    assert_eq!(
        why(&[], 4, &card),
        said(
            11,
            0,
            0..0,
            "the box has no byte, and at least its count was due"
        )
    );
    // the card's own refusals have their places on the card
    assert_eq!(
        why(&two, 4, &weighed("0.5:(s1'=1)+1/2:(s1'=0)")),
        said(
            17,
            57,
            57..60,
            "`0.5` is a decimal, and a weight is 0, 1 or a fraction"
        )
    );
}

#[test]
fn a_card_that_is_not_live_is_withdrawn_or_not_there() {
    let deck = deck();
    for (number, sentence) in [
        (9, "card 9 is withdrawn, and a live one was due"),
        (4, "card 4 is not in the box, and a live one was due"),
    ] {
        let refusal = find(&deck, number).unwrap_err();
        assert_eq!(
            said(&of_number(number, &[&deck], refusal)),
            (12, 0, sentence)
        );
    }
}

#[test]
fn what_makes_no_box_is_named() {
    let entry = |number: u8, length: [u8; 2], flag: u8, zero: u8| {
        [number, 0, 0, 0, length[0], length[1], flag, zero]
    };
    let full = entry(1, [255, 255], 1, 0);
    let cases: [(Vec<u8>, usize, usize, &str); 6] = [
        (
            vec![],
            0,
            0,
            "the contents have 0 bytes, and 8 for each of 1 to 64 cards were due",
        ),
        (
            entry(1, [2, 0], 2, 0).to_vec(),
            2,
            6,
            "the flag of entry 1 is 2, and 1 for live or 0 for withdrawn was due",
        ),
        (
            entry(1, [2, 0], 1, 7).to_vec(),
            2,
            7,
            "the last byte of entry 1 is 7, and 0 was due",
        ),
        (
            [entry(5, [0, 0], 1, 0), entry(5, [0, 0], 1, 0)].concat(),
            0,
            8,
            "entry 2 has the number 5, and one above 5 was due",
        ),
        (
            entry(1, [2, 0], 1, 0).to_vec(),
            3,
            8,
            "the bodies have 3 bytes together, and the entries say 2",
        ),
        (
            full.to_vec(),
            65_535,
            8,
            "the cards together take 65,544 bytes, and a box has at most 65,535",
        ),
    ];
    for (contents, bodies, place, sentence) in cases {
        let bodies = vec![b'x'; bodies];
        let refusal = write_deck_to_vec(&contents, &bodies).unwrap_err();
        assert_eq!(
            said(&of_written(&contents, &bodies, refusal)),
            (11, place, sentence)
        );
    }
}
