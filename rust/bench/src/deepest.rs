//! The inputs on which the entries need most stack: guards and questions nested as deep as may be, behind as many operands
//! as there may be nodes, with each refusal at their innermost; guards whose nodes hang on each other in the longest line;
//! all of these also with a number that the seats share; the largest cards and texts; and decks, sound and wrong in the last
//! place, also with such cards in them, and to be added to them.

use std::iter;

use crate::{contents, deck, flags, stored, Case};
use compare::extremes::{extremes, shared_extremes};

/// Most brackets and `!` that are open at once.
const DEPTH: usize = 8;

/// How a level of a guard, or of a question, leads to the next: behind a `|` and a `&`, behind one of them, in a bracket alone, or behind `!`.
#[derive(Clone, Copy)]
enum Level {
    Both,
    And,
    Or,
    Bracket,
    Not,
}

impl Level {
    const ALL: [Level; 5] = [
        Level::Both,
        Level::And,
        Level::Or,
        Level::Bracket,
        Level::Not,
    ];

    fn round(self, group: &str, inner: &str) -> String {
        match self {
            Level::Both => format!("({group} | {group} & {inner})"),
            Level::And => format!("({group} & {inner})"),
            Level::Or => format!("({group} | {inner})"),
            Level::Bracket => format!("({inner})"),
            Level::Not => format!("!{inner}"),
        }
    }
}

/// A group of everyone.
fn everyone(seats: usize, sign: &str) -> String {
    let literals: Vec<String> = (1..=seats).map(|seat| format!("s{seat}=0")).collect();
    format!("({})", literals.join(sign))
}

/// Exactly one seat in state 0.
fn exactly_one(seats: usize) -> String {
    let term = |own: usize| {
        let literal = |seat: usize| format!("s{seat}{}0", if seat == own { "=" } else { "!=" });
        let literals: Vec<String> = (1..=seats).map(literal).collect();
        format!("({})", literals.join(" & "))
    };
    let terms: Vec<String> = (1..=seats).map(term).collect();
    format!("({})", terms.join(" | "))
}

/// What stands innermost: what is taken, in a question also an exactly-one, with a shared number also tests of it, and what gets
/// each refusal.
fn innermost(seats: usize, question: bool, shared: bool) -> Vec<String> {
    let mut all = vec![
        everyone(seats, " & "),
        everyone(seats, "/* and */\t&\n// and\n "),
        "(s1=99999)".to_owned(),
        "(s1=0 & s1=0)".to_owned(),
        "(s1=0 & s2!=0)".to_owned(),
        "((s1=0))".to_owned(),
        "(s1=0 & s2=00000)".to_owned(),
        "(s1=0 & s2=123456)".to_owned(),
        "(s1=0 & s2=$)".to_owned(),
        "(s1=0 & s2=/*".to_owned(),
        "(s1=0 & process16)".to_owned(),
        "(s1=0 & s2=0".to_owned(),
    ];
    if shared {
        let tests = [
            "(g!=7)",
            "(\tg // is\n =\n// one of\n 0 )",
            "((g=0))",
            "(g=8)",
            "(g=999999)",
            "(g=1234567)",
            "(g=$)",
            "(g'=0)",
            "(g=0 & g=0)",
            "(s1=0 & g=0)",
            "(g=process16)",
            "(g=0",
            "(g",
        ];
        all.extend(tests.map(str::to_owned));
    }
    if question {
        let one = exactly_one(seats);
        all.push(one.replace(" & ", "/* and */\t&\n// and\n "));
        all.push(format!("{}$)", &one[..one.len() - 1]));
        all.push(format!("{} process16)", &one[..one.len() - 2]));
        all.push(one.replace("s1=0", "s1=99999"));
        all.push(one);
    }
    all
}

/// All levels but the last are as wide as they come, which is past the most nodes where the last is too, or all are of one kind.
fn nested(seats: usize, question: bool, shared: bool) -> Vec<String> {
    let group = match shared {
        true => "(g=0)".to_owned(),
        false => everyone(seats.min(2), " & "),
    };
    let runs = Level::ALL.into_iter().flat_map(|last| {
        let wide = iter::repeat_n(Level::Both, DEPTH - 1);
        [
            iter::once(last).chain(wide).collect::<Vec<_>>(),
            vec![last; DEPTH],
            vec![last; DEPTH + 1],
        ]
    });
    runs.flat_map(|levels| {
        let group = &group;
        let inner = innermost(seats, question, shared).into_iter();
        inner.map(move |inner| {
            let levels = levels.iter();
            let nested = levels.fold(inner, |inner, level| level.round(group, &inner));
            // a question may have a `|` outside of all brackets
            let first = if question {
                format!("{group} | ")
            } else {
                String::new()
            };
            format!("{first}{group} & {nested}")
        })
    })
    .collect()
}

/// As many nodes as there may be, each in the one before: `!` before the first operand, or before all of them.
fn in_line(seats: usize, shared: bool) -> [String; 3] {
    let group = match shared {
        true => "(g!=7)".to_owned(),
        false => everyone(seats, " & "),
    };
    let joined = |count: usize, sign: &str| vec![group.clone(); count].join(sign);
    [
        format!("{}{}", "!".repeat(DEPTH), joined(12, " & ")),
        format!("{}({})", "!".repeat(DEPTH - 1), joined(13, " | ")),
        format!("{}({})", "!".repeat(DEPTH - 1), joined(13, " & ")),
    ]
}

/// A mode, with or without a shared number.
fn head(mode: &str, shared: bool) -> String {
    match shared {
        true => format!("{mode}\nglobal g : [0..7] init 7;"),
        false => mode.to_owned(),
    }
}

/// A seating, all in one state, and with a shared number its value.
fn seating(seats: usize, state: u8, shared: bool) -> Vec<u8> {
    let mut seating = vec![state; seats];
    seating.extend(shared.then_some(7));
    seating
}

/// A card with so many statements of one guard, the last as it is, the others without. Where the mode declares a shared number every branch sets it.
fn card(mode: &str, seats: usize, statements: usize, guard: &str, behind: &str) -> Vec<u8> {
    let mut weights = "100003/277200:(s1'=1) + 100043/277200:(s1'=2) + 10009/277200:(s1'=3) + 10037/277200:(s1'=4) + 10039/277200:(s1'=5) + 10061/277200:(s1'=6) + 10067/277200:(s1'=7) + 26941/277200:(s1'=1)".to_owned();
    if mode.contains("global") {
        weights = weights.replace(')', ") & (g'=7)");
    }
    let plain = format!("[] s1=0 -> {weights};\n").repeat(statements - 1);
    let further: String = (2..=seats)
        .map(|seat| format!("module process{seat} = process1 [s1=s{seat}, s{seat}=s1] endmodule\n"))
        .collect();
    format!("{mode}\nmodule process1\ns1 : [0..7] init 0;\n{plain}[] s1=0 & {guard} -> {weights};\nendmodule\n{further}{behind}").into_bytes()
}

/// Cards with their seats.
pub fn cards() -> Vec<Case> {
    let mut cases: Vec<Case> = Vec::new();
    for stored in stored() {
        cases.push(Case::new(stored.card().to_vec(), stored.seats()));
    }
    for extreme in extremes().into_iter().chain(shared_extremes()) {
        cases.push(Case::new(extreme.input.card, extreme.input.seats));
    }
    for (seats, shared) in [(2, false), (16, false), (2, true), (16, true)] {
        for guard in nested(seats, false, shared) {
            let card = card(&head("probabilistic", shared), seats, 1, &guard, "");
            cases.push(Case::new(card, seating(seats, 0, shared)));
        }
        for guard in in_line(seats, shared) {
            for mode in ["probabilistic", "nondeterministic"] {
                for behind in ["", "endmodule", "$"] {
                    let card = card(&head(mode, shared), seats, 32, &guard, behind);
                    cases.push(Case::new(card.clone(), seating(seats, 0, shared)));
                    cases.push(Case::new(card.clone(), seating(seats, 8, shared)));
                    cases.push(Case::new(card, vec![0; seats + 3]));
                }
            }
        }
    }
    cases.push(Case::new(
        vec![b' '; open_panel::CARD_BYTES + 1],
        Vec::new(),
    ));
    cases
}

/// The same cards, watched: with a class for each state that there may be, and with too long a list.
pub fn watched() -> Vec<Case> {
    let lists = [open_panel::TOP_STATE + 1, open_panel::TOP_STATE + 2];
    lists
        .into_iter()
        .flat_map(|length| {
            cards().into_iter().map(move |case| Case {
                list: (0..length).map(|state| state % 8).collect(),
                ..case
            })
        })
        .collect()
}

/// Questions about a plain card; and a plain question about cards with deep guards.
pub fn questions() -> Vec<Case> {
    let asked = |question: String, card: Vec<u8>, seats: Vec<u8>| Case {
        question: question.into_bytes(),
        ..Case::new(card, seats)
    };
    let mut cases = Vec::new();
    for (seats, shared) in [(2, false), (16, false), (2, true), (16, true)] {
        let group = everyone(seats, " & ");
        let mode = head("probabilistic", shared);
        let plain = card(&mode, seats, 1, &group, "");
        let right = seating(seats, 0, shared);
        let questions = nested(seats, true, shared).into_iter();
        for question in questions.chain(in_line(seats, shared)) {
            cases.push(asked(question, plain.clone(), right.clone()));
        }
        for guard in nested(seats, false, shared) {
            let deep = card(&mode, seats, 1, &guard, "");
            cases.push(asked(group.clone(), deep, right.clone()));
        }
        let long = " ".repeat(open_panel::QUESTION_BYTES + 1);
        cases.push(asked(long, plain.clone(), right));
        let above = seating(seats, 8, shared);
        cases.push(asked(group.clone(), plain.clone(), above));
        cases.push(asked(group, plain, vec![0; 1]));
    }
    cases
}

/// Decks, each with itself as expansion: a full one, and with the last entry wrong in each of its bytes.
pub fn decks() -> Vec<Case> {
    let full = deck();
    let last = 1 + 8 * (open_panel::DECK_CARDS - 1);
    let wrong = (last..last + 8).map(|place| {
        let mut deck = full.clone();
        deck[place] ^= 0xff;
        deck
    });
    let decks: Vec<Vec<u8>> = iter::once(full.clone()).chain(wrong).collect();
    let pairs = decks.iter().map(|deck| (full.clone(), deck.clone()));
    let swapped = decks.iter().map(|deck| (deck.clone(), full.clone()));
    pairs
        .chain(swapped)
        .map(|(base, expansion)| Case {
            question: expansion,
            ..Case::new(base, Vec::new())
        })
        .collect()
}

/// Contents and bodies: of a full deck, and with the last entry wrong in each of its bytes, or bodies too short.
pub fn deck_parts() -> Vec<Case> {
    let (full, bodies) = contents();
    let last = 8 * (open_panel::DECK_CARDS - 1);
    let wrong = (last..last + 8).map(|place| {
        let mut contents = full.clone();
        contents[place] ^= 0xff;
        (contents, bodies.clone())
    });
    let short = (full.clone(), bodies[1..].to_vec());
    iter::once((full.clone(), bodies.clone()))
        .chain(wrong)
        .chain(iter::once(short))
        .map(|(contents, bodies)| Case {
            question: bodies,
            ..Case::new(contents, Vec::new())
        })
        .collect()
}

/// The card as it could be before: its first weights as decimals, so that converting has to write it. What they come to stays.
fn with_decimals(case: &Case) -> Option<Case> {
    let card = String::from_utf8(case.card.clone()).ok()?;
    let fractions =
        "100003/277200:(s1'=1) + 100043/277200:(s1'=2) + 10009/277200:(s1'=3) + 10037/277200";
    let decimals = "0.50:(s1'=1) + 0.28:(s1'=2) + 77/277200:(s1'=3) + 3799/277200";
    let old = card
        .replace("1/2:", "0.5:")
        .replace(fractions, decimals)
        .replace(
            &fractions.replace(')', ") & (g'=7)"),
            &decimals.replace(')', ") & (g'=7)"),
        );
    (old != card).then(|| Case::new(old.into_bytes(), Vec::new()))
}

/// Decks to be mended or converted: with each of the cards live behind an empty one that is kept, with decimals too, and those
/// that are looked into.
pub fn damaged() -> Vec<Case> {
    let with = |case: Case| {
        let length = u16::try_from(case.card.len()).expect("a card fits into a deck");
        let [low, high] = length.to_le_bytes();
        let head = [2, 1, 0, 17, 0, 0, 0, 0, 0, 2, 0, 17, 0, low, high, 1, 0];
        Case::new([&head[..], &case.card].concat(), Vec::new())
    };
    let card_fits = |case: &Case| case.card.len() <= open_panel::DECK_BYTES - 17;
    let cards: Vec<Case> = cards().into_iter().filter(card_fits).collect();
    let old: Vec<Case> = cards.iter().filter_map(with_decimals).collect();
    let with_cards = cards.into_iter().chain(old).map(with);
    with_cards.chain(decks()).collect()
}

/// Decks that are changed where they stand: with each of the cards to be added to a deck of two, of which the last is withdrawn, with just as much
/// room as it needs; and those that are looked into, and that deck with every second card withdrawn, with a card that is taken.
pub fn lent() -> Vec<Case> {
    let with = |case: Case| {
        let head = [2, 1, 0, 17, 0, 1, 0, 1, 0, 2, 0, 18, 0, 0, 0, 0, 0, b'x'];
        let mut deck = [&head[..], &case.card].concat();
        deck.truncate(open_panel::DECK_BYTES);
        Case {
            question: case.card,
            ..Case::new(deck, Vec::new())
        }
    };
    let mut second = deck();
    for flag in flags(&mut second).step_by(2) {
        *flag = 0;
    }
    let plain = card("probabilistic", 2, 1, &everyone(2, " & "), "");
    let halved = iter::once(Case::new(second, Vec::new()));
    let whole = decks().into_iter().chain(halved).map(|case| Case {
        question: plain.clone(),
        ..case
    });
    cards().into_iter().map(with).chain(whole).collect()
}
