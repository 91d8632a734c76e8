//! Measures the library's entries and the baseline's on the same cards, in the
//! same rooms, by turns in one run, and prints Markdown for `docs/BENCHMARKS.md`:
//! first in a room that is always enough, then in rooms that just fit, where
//! both sides measure a text before they put it; then questions, which take no
//! room, and what a spectator sees, beside judging a card alone; whether anyone
//! can move, beside judging and the whole panel; odds after the most steps; cards
//! whose seats share a number; then
//! a card looked for in a deck, decks mended and converted, and decks tidied and cards
//! added to them, where a deck is copied each time before it is changed, which is not
//! measured. Each round goes through all rows, so that a
//! while in which the machine is slow spoils none of them. Then the stack that
//! the entries use, on the inputs that need most; `bench stack` prints that table
//! alone, and fails where an entry uses more than the wrapper says.

mod deepest;
mod stack;

use std::env;
use std::hint::black_box;
use std::process::ExitCode;
use std::time::{Duration, Instant};

use compare::cards::limits::{BRANCHES, NODES, STATEMENTS};
use compare::cards::{branches, statement, Guards, Leaves, Size};
use compare::extremes::{extremes, shared_extremes, Extreme};
use compare::marks::{lay_out, Layout};
use compare::model::{Expression, Model, Shared, Statement, Unary};
use compare::random::Random;
use open_panel::{LIST_ROOM, ODDS_STEPS};
use vectors::stored::{base, fractions, Input};

/// Rounds of which the best counts, for each side.
const ROUNDS: usize = 11;
/// How long a round takes at least, about.
const ROUND: Duration = Duration::from_millis(20);

/// What the entries are handed.
struct Case {
    /// The card; or a deck, or a deck's contents.
    card: Vec<u8>,
    seats: Vec<u8>,
    /// The question, and nothing where none is asked; or the expansion, or a deck's bodies, or a card to be added to a deck.
    question: Vec<u8>,
    /// A class for each state, where a spectator watches.
    list: Vec<u8>,
}

impl Case {
    fn new(card: Vec<u8>, seats: Vec<u8>) -> Case {
        Case {
            card,
            seats,
            question: Vec::new(),
            list: Vec::new(),
        }
    }
}

/// Cases that are measured together.
struct Set {
    name: &'static str,
    cases: Vec<Case>,
}

impl Set {
    fn bytes(&self) -> usize {
        let cases = self.cases.iter();
        cases
            .map(|case| case.card.len() + case.question.len())
            .sum()
    }
}

/// The stored inputs, those that had decimals with fractions too.
fn stored() -> Vec<Input> {
    base().into_iter().chain(fractions()).collect()
}

fn sets() -> Vec<Set> {
    let all = stored();
    let case = |stored: &Input| Case::new(stored.card().to_vec(), stored.seats());
    let accepted = all.iter().map(case).filter(|Case { card, seats, .. }| {
        baseline::panel(card, seats, &mut vec![0; open_panel::SHOW_ROOM]).is_ok()
    });
    let mut sets = vec![
        Set {
            name: "card A",
            cases: all.first().map(case).into_iter().collect(),
        },
        Set {
            name: "accepted vectors",
            cases: accepted.collect(),
        },
    ];
    sets.push(Set {
        name: "11 seats, elevenths",
        cases: vec![Case::new(
            elevenths(),
            vec![0, 0, 0, 0, 1, 1, 1, 2, 2, 2, 2],
        )],
    });
    for Extreme { name, input } in extremes() {
        sets.push(Set {
            name,
            cases: vec![Case::new(input.card, input.seats)],
        });
    }
    sets
}

/// Card A's statements for eleven seats, with elevenths for weights.
fn elevenths() -> Vec<u8> {
    let group = |from: usize, literal: &str, sign: &str| {
        let literals = (from..=11).map(|seat| format!("s{seat}{literal}"));
        literals.collect::<Vec<_>>().join(sign)
    };
    let (some, none) = (group(2, "=0", " | "), group(1, "!=2", " & "));
    let copies = (2..=11).map(|seat| {
        format!("module process{seat} = process1 [s1=s{seat}, s{seat}=s1] endmodule\n")
    });
    let card = format!(
        "probabilistic\nmodule process1\ns1 : [0..2] init 0;\n\
         [] s1=0 & ({some}) -> 3/11:(s1'=1) + 8/11:(s1'=2);\n\
         [] s1=1 & !({none}) -> 1/22:(s1'=2) + 21/22:(s1'=1);\nendmodule\n{}",
        copies.collect::<String>()
    );
    card.into_bytes()
}

/// Card A with a question, and the longest question about a full table.
fn question_sets() -> Vec<Set> {
    let all = base();
    let card_a = all.first().map(|stored| Case {
        question: b"(s1=0 | s2=0 | s3=0) & !((s1=2 & s2!=2 & s3!=2) | (s1!=2 & s2=2 & s3!=2) | (s1!=2 & s2!=2 & s3=2))"
            .to_vec(),
        ..Case::new(stored.card().to_vec(), stored.seats())
    });
    let full = full_table();
    let card = lay_out(&full.marks(), Layout::Tight, &mut Random::new(0, 0));
    let doubled = Case {
        question: doubled_brackets(full.seats),
        ..Case::new(card, vec![0; full.seats])
    };
    vec![
        Set {
            name: "card A and a question",
            cases: card_a.into_iter().collect(),
        },
        Set {
            name: "16 seats, brackets doubled",
            cases: vec![doubled],
        },
    ]
}

/// Spectators of card A, and of a full table of one statement.
fn spectator_sets() -> Vec<Set> {
    let all = base();
    let card_a = all.first().map(|stored| Case {
        list: vec![0, 1, 1],
        ..Case::new(stored.card().to_vec(), stored.seats())
    });
    let full = full_table();
    let card = lay_out(&full.marks(), Layout::Tight, &mut Random::new(0, 0));
    let watched = Case {
        list: (0..=open_panel::TOP_STATE).rev().collect(),
        ..Case::new(card, (0..full.seats as u8).map(|seat| seat % 8).collect())
    };
    vec![
        Set {
            name: "card A and a list of classes",
            cases: card_a.into_iter().collect(),
        },
        Set {
            name: "16 seats, 8 classes",
            cases: vec![watched],
        },
    ]
}

/// Card A, and a card of the most statements, of which the first can be taken.
fn first_move_sets() -> Vec<Set> {
    let all = base();
    let card_a = all
        .first()
        .map(|stored| Case::new(stored.card().to_vec(), stored.seats()));
    let mut random = Random::new(0, 0);
    let size = Size {
        seats: 4,
        top: 3,
        shared: None,
        statements: STATEMENTS,
        branches: BRANCHES,
        nodes: NODES,
    };
    let mut full = full_table();
    (full.seats, full.top) = (size.seats, size.top);
    while full.statements.len() < STATEMENTS {
        full.statements.push(statement(size, &mut random));
    }
    let card = lay_out(&full.marks(), Layout::Tight, &mut random);
    assert_eq!(baseline::first_move(&card, &[0, 1, 2, 3]), Ok(Some(1)));
    vec![
        Set {
            name: "card A",
            cases: card_a.into_iter().collect(),
        },
        Set {
            name: "32 statements, the first taken",
            cases: vec![Case::new(card, vec![0, 1, 2, 3])],
        },
    ]
}

/// The card of day and night, with a question where odds are asked for.
fn day_and_night(question: &[u8]) -> Case {
    let stored = include_str!("../../../examples/day-and-night");
    let (seats, card) = stored
        .split_once('\n')
        .expect("the seats have a line of their own");
    Case {
        question: question.to_vec(),
        ..Case::new(
            card.into(),
            seats.bytes().map(|digit| digit - b'0').collect(),
        )
    }
}

/// Cards whose seats share a number: a middling one, and those with the longest texts.
fn shared_sets() -> Vec<Set> {
    let longest = shared_extremes().map(|Extreme { name, input }| Set {
        name,
        cases: vec![Case::new(input.card, input.seats)],
    });
    let middling = Set {
        name: "day and night",
        cases: vec![day_and_night(b"")],
    };
    [middling].into_iter().chain(longest).collect()
}

/// Card A, and in both modes the tables with the most count vectors that odds are reckoned for, and with the most pairs of a
/// vector and a value of a shared number: with the most statements and branches, all of which can be taken wherever a seat is
/// in their state; and day and night.
fn odds_sets() -> Vec<Set> {
    let all = base();
    let card_a = all.first().map(|stored| Case {
        question: b"(s1=2 & s2=2 & s3=2)".to_vec(),
        ..Case::new(stored.card().to_vec(), stored.seats())
    });
    let full = |name, probabilistic, seats: &[u8], top, shared: Option<usize>| {
        let mut random = Random::new(0, 0);
        let mut full = full_table();
        (full.seats, full.top, full.probabilistic) = (seats.len(), top, probabilistic);
        full.shared = shared.map(|top| Shared { top, start: 0 });
        full.statements = (0..STATEMENTS)
            .map(|place| Statement {
                own: place % (full.top + 1),
                guard: Vec::new(),
                branches: branches(BRANCHES, full.top, shared, &mut random),
            })
            .collect();
        let card = lay_out(&full.marks(), Layout::Tight, &mut random);
        let literals: Vec<String> = (1..=seats.len()).map(|seat| format!("s{seat}=0")).collect();
        let mut seating = seats.to_vec();
        seating.extend(shared.map(|_| 0));
        Set {
            name,
            cases: vec![Case {
                question: format!("({})", literals.join("&")).into_bytes(),
                ..Case::new(card, seating)
            }],
        }
    };
    let (eight, six) = ([0, 0, 1, 1, 2, 3, 4, 4], [0, 0, 1, 1, 2, 3]);
    vec![
        Set {
            name: "card A, 10 vectors",
            cases: card_a.into_iter().collect(),
        },
        full("495 vectors, probabilistic", true, &eight, 4, None),
        full("495 vectors, nondeterministic", false, &eight, 4, None),
        Set {
            name: "day and night, 42 pairs",
            cases: vec![day_and_night(b"(s1!=0&s2!=0&s3!=0&s4!=0&s5!=0)")],
        },
        full("504 pairs, probabilistic", true, &six, 3, Some(5)),
        full("504 pairs, nondeterministic", false, &six, 3, Some(5)),
    ]
}

/// A card of the most seats and one statement.
fn full_table() -> Model {
    Model {
        probabilistic: true,
        seats: open_panel::SEATS,
        top: open_panel::TOP_STATE.into(),
        start: 0,
        shared: None,
        statements: vec![Statement {
            own: 0,
            guard: Vec::new(),
            branches: branches(1, 0, None, &mut Random::new(0, 0)),
        }],
    }
}

/// A question of the greatest length: exactly-ones, as many as there is room for, and then groups, each in brackets of its own.
fn doubled_brackets(seats: usize) -> Vec<u8> {
    let mut random = Random::new(0, 0);
    let size = Size {
        seats,
        top: 0,
        shared: None,
        statements: 1,
        branches: 1,
        nodes: NODES,
    };
    let mut guards = Guards {
        size,
        leaves: Leaves::Question,
        random: &mut random,
    };
    let leaves = NODES / 2;
    let mut exactly_ones = leaves;
    loop {
        let rows = (0..leaves).map(|place| {
            let leaf = if place < exactly_ones {
                Unary::One(guards.exactly_one(0))
            } else {
                guards.group(1, 0)
            };
            vec![Unary::Bracket(Expression(vec![vec![leaf]]))]
        });
        let marks = Expression(rows.collect()).marks();
        let mut question = lay_out(&marks, Layout::Tight, &mut Random::new(0, 0));
        if question.len() <= open_panel::QUESTION_BYTES {
            question.resize(open_panel::QUESTION_BYTES, b' ');
            return question;
        }
        exactly_ones -= 1;
    }
}

/// A call on a case and a room. What it answers is the length, or yes or no as 1 or 0; or nothing.
type Call = fn(&Case, &mut [u8]) -> Option<usize>;

/// An entry: its name, the library's form and the baseline's.
type Entry = (&'static str, Call, Call);

/// All entries about cards; the first takes no room.
const ENTRIES: [Entry; 4] = [
    (
        "judge",
        |case, _| open_panel::judge(&case.card).ok().map(|()| 0),
        |case, _| baseline::judge(&case.card).is_ok().then_some(0),
    ),
    (
        "write",
        |case, room| open_panel::write(&case.card, room).ok(),
        |case, room| baseline::write(&case.card, room).ok(),
    ),
    (
        "reduce",
        |case, room| open_panel::reduce(&case.card, room).ok(),
        |case, room| baseline::reduce(&case.card, room).ok(),
    ),
    (
        "show",
        |case, room| open_panel::show(&case.card, &case.seats, room).ok(),
        |case, room| baseline::panel(&case.card, &case.seats, room).ok(),
    ),
];

/// The entry that takes a question.
const ASK: Entry = (
    "ask",
    |Case {
         card,
         seats,
         question,
         ..
     },
     _| {
        let answer = open_panel::ask(card, question, seats);
        answer.ok().map(usize::from)
    },
    |Case {
         card,
         seats,
         question,
         ..
     },
     _| baseline::ask(card, question, seats).ok().map(usize::from),
);

/// The entry that takes a list of classes.
const WATCH: Entry = (
    "watch",
    |case, room| open_panel::watch(&case.card, &case.seats, &case.list, room).ok(),
    |case, room| baseline::watch(&case.card, &case.seats, &case.list, room).ok(),
);

/// The entry that says whether anyone can move.
const FIRST_MOVE: Entry = (
    "first_move",
    |case, _| {
        let first = open_panel::first_move(&case.card, &case.seats);
        first.ok().flatten()
    },
    |case, _| {
        let first = baseline::first_move(&case.card, &case.seats);
        first.ok().flatten()
    },
);

/// The entry that reckons odds, here after the most steps and in rows that are on its stack.
const ODDS: Entry = (
    "odds",
    |Case {
         card,
         seats,
         question,
         ..
     },
     _| {
        let aim = open_panel::Aim::Largest;
        let chance = open_panel::odds_in_own_rows(card, question, seats, ODDS_STEPS, aim);
        chance.ok().map(|chance| chance as usize)
    },
    |Case {
         card,
         seats,
         question,
         ..
     },
     _| {
        let aim = baseline::Aim::Largest;
        let [mut first, mut second] = [[0; open_panel::ODDS_ROW]; 2];
        let rows = (&mut first, &mut second);
        let chance = baseline::odds(card, question, seats, ODDS_STEPS, aim, rows.0, rows.1);
        chance.ok().map(|chance| chance as usize)
    },
);

/// The same for the table of stack, in rows that are not on it.
const ODDS_IN_LENT_ROWS: Entry = (
    "odds",
    |Case {
         card,
         seats,
         question,
         ..
     },
     _| {
        let mut rows = vec![0; 2 * open_panel::ODDS_ROW];
        let (first, second) = rows.split_at_mut(open_panel::ODDS_ROW);
        let aim = open_panel::Aim::Largest;
        let chance = open_panel::odds(card, question, seats, ODDS_STEPS, aim, first, second);
        chance.ok().map(|_| 0)
    },
    |Case {
         card,
         seats,
         question,
         ..
     },
     _| {
        let mut rows = vec![0; 2 * open_panel::ODDS_ROW];
        let (first, second) = rows.split_at_mut(open_panel::ODDS_ROW);
        let aim = baseline::Aim::Largest;
        let chance = baseline::odds(card, question, seats, ODDS_STEPS, aim, first, second);
        chance.ok().map(|_| 0)
    },
);

/// The last number in [`full_deck`].
const LAST_CARD: u16 = open_panel::DECK_CARDS as u16;

/// The entry that finds the last card of a deck.
const FIND: Entry = (
    "find",
    |case, _| {
        open_panel::find(&case.card, LAST_CARD)
            .ok()
            .map(<[u8]>::len)
    },
    |case, _| baseline::find(&case.card, LAST_CARD).ok().map(<[u8]>::len),
);

/// The entries of decks that are not measured for speed, and the one that finds a card in two.
const DECK_ENTRIES: [Entry; 3] = [
    (
        "judge_deck",
        |case, _| open_panel::judge_deck(&case.card).ok().map(|()| 0),
        |case, _| baseline::judge_deck(&case.card).ok().map(|_| 0),
    ),
    FIND,
    (
        "find_with",
        |case, _| {
            let found = open_panel::find_with(&case.card, &case.question, LAST_CARD);
            found.ok().map(<[u8]>::len)
        },
        |case, _| {
            let found = baseline::find_with(&case.card, &case.question, LAST_CARD);
            found.ok().map(<[u8]>::len)
        },
    ),
];

/// The entry that makes a deck.
const WRITE_DECK: Entry = (
    "write_deck",
    |case, room| open_panel::write_deck(&case.card, &case.question, room).ok(),
    |case, room| baseline::write_deck(&case.card, &case.question, room).ok(),
);

/// The entry that mends a deck. The list goes into the first bytes of the room, and the deck behind them; so much of the room is told.
const MEND: Entry = (
    "mend",
    |case, room| {
        let (list, room) = room.split_at_mut(room.len().min(LIST_ROOM));
        let mended = open_panel::mend(&case.card, room, list);
        mended.ok().map(|mended| LIST_ROOM + mended.deck)
    },
    |case, room| {
        let (list, room) = room.split_at_mut(room.len().min(LIST_ROOM));
        let mended = baseline::mend_into(&case.card, room, list);
        mended.ok().map(|mended| LIST_ROOM + mended.deck)
    },
);

/// The entry that converts a deck.
const CONVERT: Entry = (
    "convert",
    |case, room| open_panel::convert(&case.card, room).ok(),
    |case, room| baseline::convert_into(&case.card, room).ok(),
);

/// The number that a card gets when it is added: one below all others of [`live_deck`] and of [`deck`].
const ADDED: u16 = 0;

/// The entry that tidies a deck, which is the room.
const TIDY: Entry = (
    "tidy",
    |_, deck| open_panel::tidy(deck).ok(),
    |_, deck| baseline::tidy(deck).ok(),
);

/// The entry that adds a card to a deck, which is the room.
const ADD: Entry = (
    "add",
    |case, deck| open_panel::add(deck, ADDED, &case.question).ok(),
    |case, deck| baseline::add(deck, ADDED, &case.question).ok(),
);

/// The same for the table of stack, on a copy of the deck, as much of it as there is room for.
const COPY_ENTRIES: [Entry; 2] = [
    (
        TIDY.0,
        |case, room| TIDY.1(case, copied(case, room)),
        |case, room| TIDY.2(case, copied(case, room)),
    ),
    (
        ADD.0,
        |case, room| ADD.1(case, copied(case, room)),
        |case, room| ADD.2(case, copied(case, room)),
    ),
];

/// A copy of a deck in a room.
fn copied<'r>(case: &Case, room: &'r mut [u8]) -> &'r mut [u8] {
    let length = room.len().min(case.card.len());
    room[..length].copy_from_slice(&case.card[..length]);
    &mut room[..length]
}

/// A set of one deck.
fn deck_set(name: &'static str, deck: Vec<u8>) -> Set {
    Set {
        name,
        cases: vec![Case::new(deck, Vec::new())],
    }
}

/// Decks of the most cards: live ones, all of them kept; the same with every second entry wrong; and withdrawn ones, which are not read, in the longest deck.
fn mend_sets() -> Vec<Set> {
    let live = live_deck(&stored(), |card| baseline::judge(card).is_ok());
    let mut damaged = live.clone();
    for flag in flags(&mut damaged).step_by(2) {
        *flag = 7;
    }
    vec![
        deck_set("64 live cards", live),
        deck_set("64 live cards, every second entry wrong", damaged),
        deck_set("64 withdrawn cards, the longest deck", withdrawn_deck()),
    ]
}

/// Decks of the most cards: live ones with decimals, all of them written; live ones without, which are read and copied; and withdrawn ones as above.
fn convert_sets() -> Vec<Set> {
    let has_decimals =
        |card: &[u8]| baseline::judge(card).is_err() && baseline::judge_old(card).is_ok();
    let old = live_deck(&base(), has_decimals);
    let without = live_deck(&stored(), |card| baseline::judge(card).is_ok());
    vec![
        deck_set("64 live cards with decimals", old),
        deck_set("64 live cards without", without),
        deck_set("64 withdrawn cards, the longest deck", withdrawn_deck()),
    ]
}

/// Decks of the most cards: live ones without gaps, of which nothing is moved; the same behind a byte of gap; with every second withdrawn; and the
/// longest deck, of which the first is, so that all the others are moved.
fn tidy_sets() -> Vec<Set> {
    let live = live_deck(&stored(), |card| baseline::judge(card).is_ok());
    let mut gap = live.clone();
    gap.insert(1 + 8 * open_panel::DECK_CARDS, b'.');
    let (entries, _) = gap[1..1 + 8 * open_panel::DECK_CARDS].as_chunks_mut::<8>();
    for [_, _, low, high, ..] in entries {
        [*low, *high] = (u16::from_le_bytes([*low, *high]) + 1).to_le_bytes();
    }
    vec![
        deck_set("64 live cards, nothing to do", live),
        deck_set("64 live cards behind a byte of gap", gap),
        deck_set("64 cards, every second withdrawn", half_withdrawn()),
        deck_set(
            "64 cards, the first withdrawn, the longest deck",
            first_withdrawn(),
        ),
    ]
}

/// Card A, which becomes the first of its deck: the last of 64 to a deck with just the room for it at its end, to one of which every second is withdrawn,
/// and to the longest, of which the first is; and the longest card, to the longest deck, of which the last 32 are.
fn add_sets() -> Vec<Set> {
    let all = base();
    let card_a = all.first().map_or(&[][..], Input::card);
    let mut longest_card = card_a.to_vec();
    longest_card.resize(open_panel::CARD_BYTES, b' ');
    let mut live = live_deck(&stored(), |card| baseline::judge(card).is_ok());
    for flag in flags(&mut live).take(1) {
        *flag = 0;
    }
    let length = baseline::tidy(&mut live).expect("63 are live");
    live.resize(length + 8 + card_a.len(), 0);
    let mut last_withdrawn = deck();
    for flag in flags(&mut last_withdrawn).skip(32) {
        *flag = 0;
    }
    let with = |name, deck, card: &[u8]| Set {
        name,
        cases: vec![Case {
            question: card.to_vec(),
            ..Case::new(deck, Vec::new())
        }],
    };
    vec![
        with("card A to 63 live cards, room at the end", live, card_a),
        with(
            "card A to 64 cards, every second withdrawn",
            half_withdrawn(),
            card_a,
        ),
        with(
            "card A to 64 cards, the first withdrawn, the longest deck",
            first_withdrawn(),
            card_a,
        ),
        with(
            "a card of 16,384 bytes to 64 cards, the last 32 withdrawn, the longest deck",
            last_withdrawn,
            &longest_card,
        ),
    ]
}

/// A deck of the most middling cards, every second of them withdrawn.
fn half_withdrawn() -> Vec<u8> {
    let mut deck = live_deck(&stored(), |card| baseline::judge(card).is_ok());
    for flag in flags(&mut deck).step_by(2) {
        *flag = 0;
    }
    deck
}

/// The longest deck, of the most cards, the first of them withdrawn.
fn first_withdrawn() -> Vec<u8> {
    let mut deck = deck();
    for flag in flags(&mut deck).take(1) {
        *flag = 0;
    }
    deck
}

/// A deck of the first middling cards that are such, as many as there may be, all of them live.
fn live_deck(stored: &[Input], such: impl Fn(&[u8]) -> bool) -> Vec<u8> {
    let most = (open_panel::DECK_BYTES - 1) / open_panel::DECK_CARDS - 8;
    let cards = stored.iter().map(Input::card).filter(|card| {
        let length = card.len();
        (200..=most).contains(&length) && such(card)
    });
    let cards: Vec<&[u8]> = cards.take(open_panel::DECK_CARDS).collect();
    assert_eq!(cards.len(), open_panel::DECK_CARDS);
    let entries = (1..).zip(&cards).flat_map(|(number, card)| {
        let fields = [number, 0, card.len() as u16].map(u16::to_le_bytes);
        [fields.as_flattened(), &[1, 0]].concat()
    });
    let entries: Vec<u8> = entries.collect();
    open_panel::write_deck_to_vec(&entries, &cards.concat()).expect("it fits")
}

/// The flags of a deck of the most cards.
fn flags(deck: &mut [u8]) -> impl Iterator<Item = &mut u8> {
    deck[1 + 6..1 + 8 * open_panel::DECK_CARDS]
        .iter_mut()
        .step_by(8)
}

/// The longest deck, of the most cards, all of them withdrawn.
fn withdrawn_deck() -> Vec<u8> {
    let mut withdrawn = deck();
    flags(&mut withdrawn).for_each(|flag| *flag = 0);
    withdrawn
}

/// Contents of the most cards, all of them live, and bodies that make the longest deck, the last as long as the others leave it.
fn contents() -> (Vec<u8>, Vec<u8>) {
    let left = open_panel::DECK_BYTES - 1 - 8 * open_panel::DECK_CARDS;
    let body = left / open_panel::DECK_CARDS;
    let last_body = left - body * (open_panel::DECK_CARDS - 1);
    let entries = (1..=LAST_CARD).flat_map(|number| {
        let length = if number == LAST_CARD { last_body } else { body };
        let fields = [number, 0, length as u16].map(u16::to_le_bytes);
        [fields.as_flattened(), &[1, 0]].concat()
    });
    (entries.collect(), vec![0; left])
}

/// The deck of them.
fn deck() -> Vec<u8> {
    let (contents, bodies) = contents();
    open_panel::write_deck_to_vec(&contents, &bodies).expect("it fits")
}

fn full_deck() -> Set {
    Set {
        name: "the last of 64 cards",
        cases: vec![Case::new(deck(), Vec::new())],
    }
}

/// What is lent for the cards of a set.
#[derive(Clone, Copy, PartialEq, Eq)]
enum Lent {
    /// All of the room.
    Whole,
    /// Just as much of it as the text needs.
    JustFits,
    /// A copy of the deck, which is changed where it stands.
    Copy,
}

impl Lent {
    /// How much of the room that is for each of them.
    fn lengths(self, set: &Set, call: Call, room: &mut [u8]) -> Vec<usize> {
        let cases = set.cases.iter();
        cases
            .map(|case| match self {
                Lent::Whole => room.len(),
                Lent::JustFits => call(case, room).expect("the cards are accepted"),
                Lent::Copy => case.card.len(),
            })
            .collect()
    }
}

/// One side of a row: a call on all cases of a set, each in a room of its own length.
struct Side {
    call: Call,
    /// The room is a copy of the deck each time.
    in_place: bool,
    /// How often a round goes through the set.
    times: u32,
    /// Seconds to go through it once, in the best round so far.
    best: f64,
}

impl Side {
    /// Finds out how many times make a round, which warms up the processor for the rounds.
    fn new(call: Call, in_place: bool, set: &Set, lengths: &[usize], room: &mut [u8]) -> Side {
        let mut side = Side {
            call,
            in_place,
            times: 1,
            best: f64::INFINITY,
        };
        while side.time(set, lengths, room) < ROUND {
            side.times *= 2;
        }
        side
    }

    fn time(&self, set: &Set, lengths: &[usize], room: &mut [u8]) -> Duration {
        if self.in_place {
            return self.time_in_place(set, room);
        }
        let start = Instant::now();
        for _ in 0..self.times {
            for (case, length) in set.cases.iter().zip(lengths) {
                let room = &mut room[..*length];
                let length = (self.call)(black_box(case), room);
                assert!(black_box(length).is_some());
            }
        }
        start.elapsed()
    }

    /// The same without the time that it takes to copy the decks.
    fn time_in_place(&self, set: &Set, room: &mut [u8]) -> Duration {
        let mut spent = Duration::ZERO;
        for _ in 0..self.times {
            for case in &set.cases {
                let deck = black_box(copied(case, room));
                let start = Instant::now();
                let length = (self.call)(black_box(case), deck);
                assert!(black_box(length).is_some());
                spent += start.elapsed();
            }
        }
        spent
    }
}

/// A row of a table: an entry of the library and of the baseline, on one set.
struct Row<'a> {
    entry: &'static str,
    set: &'a Set,
    lengths: Vec<usize>,
    sides: [Side; 2],
}

impl<'a> Row<'a> {
    fn new(entry: Entry, set: &'a Set, lent: Lent, room: &mut [u8]) -> Row<'a> {
        let (entry, library, baseline) = entry;
        let lengths = lent.lengths(set, baseline, room);
        let in_place = lent == Lent::Copy;
        let sides = [library, baseline].map(|call| Side::new(call, in_place, set, &lengths, room));
        Row {
            entry,
            set,
            sides,
            lengths,
        }
    }

    /// Measures both sides once; which is first changes from round to round.
    fn round(&mut self, round: usize, room: &mut [u8]) {
        for turn in [round, round + 1] {
            let side = &mut self.sides[turn % 2];
            let spent = side.time(self.set, &self.lengths, room).as_secs_f64();
            side.best = side.best.min(spent / f64::from(side.times));
        }
    }

    fn print(&self) {
        let Row { entry, set, .. } = self;
        let calls = |seconds: f64| set.cases.len() as f64 / seconds;
        let per_byte = |seconds: f64| seconds * 1e9 / set.bytes() as f64;
        let [library, baseline] = self.sides.each_ref().map(|side| side.best);
        println!(
            "| {entry} | {} | {} | {:.0} | {:.2} | {:.0} | {:.2} | {:.2} |",
            set.name,
            set.bytes() / set.cases.len(),
            calls(library),
            per_byte(library),
            calls(baseline),
            per_byte(baseline),
            library / baseline
        );
    }
}

fn rows<'a>(entries: &[Entry], sets: &'a [Set], lent: Lent, room: &mut [u8]) -> Vec<Row<'a>> {
    let all = entries
        .iter()
        .flat_map(|entry| sets.iter().map(|set| (*entry, set)));
    all.map(|(entry, set)| Row::new(entry, set, lent, room))
        .collect()
}

fn print_table(rows: &[Row]) {
    println!("| Entry | Cards | Bytes | Library, calls/s | ns/byte | Baseline, calls/s | ns/byte | Library / baseline |");
    println!("|---|---|---:|---:|---:|---:|---:|---:|");
    rows.iter().for_each(Row::print);
}

/// How much stack the wrapper says that each entry takes, in the order of the table below.
const BOUNDS: [usize; 16] = [
    open_panel::stack::JUDGE,
    open_panel::stack::WRITE,
    open_panel::stack::REDUCE,
    open_panel::stack::SHOW,
    open_panel::stack::ASK,
    open_panel::stack::WATCH,
    open_panel::stack::FIRST_MOVE,
    open_panel::stack::ODDS,
    open_panel::stack::JUDGE_DECK,
    open_panel::stack::FIND,
    open_panel::stack::FIND_WITH,
    open_panel::stack::WRITE_DECK,
    open_panel::stack::MEND,
    open_panel::stack::CONVERT,
    open_panel::stack::TIDY,
    open_panel::stack::ADD,
];

/// The stack of every entry, on the inputs that need most: false where one takes more than it is said to.
fn print_stack() -> bool {
    let (cards, questions, watched, decks, parts, damaged, lent) = (
        deepest::cards(),
        deepest::questions(),
        deepest::watched(),
        deepest::decks(),
        deepest::deck_parts(),
        deepest::damaged(),
        deepest::lent(),
    );
    let reckoned: Vec<Case> = odds_sets()
        .into_iter()
        .flat_map(|set| set.cases)
        .chain(deepest::questions())
        .collect();
    let of_cards = ENTRIES.into_iter().map(|entry| (entry, &cards));
    let of_decks = DECK_ENTRIES.into_iter().map(|entry| (entry, &decks));
    let of_copies = COPY_ENTRIES.into_iter().map(|entry| (entry, &lent));
    let all = of_cards
        .chain([
            (ASK, &questions),
            (WATCH, &watched),
            (FIRST_MOVE, &cards),
            (ODDS_IN_LENT_ROWS, &reckoned),
        ])
        .chain(of_decks)
        .chain([(WRITE_DECK, &parts), (MEND, &damaged), (CONVERT, &damaged)])
        .chain(of_copies);
    println!("| Entry | Library, bytes of stack | Bound | Baseline, bytes of stack |\n|---|---:|---:|---:|");
    let mut kept = true;
    for (((entry, library, baseline), cases), bound) in all.zip(BOUNDS) {
        let [library, baseline] = [library, baseline].map(|call| stack::most(call, cases));
        println!("| {entry} | {library} | {bound} | {baseline} |");
        kept &= library <= bound;
    }
    kept
}

fn main() -> ExitCode {
    if env::args().nth(1).is_some_and(|word| word == "stack") {
        return if print_stack() {
            ExitCode::SUCCESS
        } else {
            ExitCode::FAILURE
        };
    }
    let (sets, question_sets, deck_sets) = (sets(), question_sets(), vec![full_deck()]);
    let (spectator_sets, first_move_sets) = (spectator_sets(), first_move_sets());
    let (odds_sets, shared_sets) = (odds_sets(), shared_sets());
    let (mend_sets, convert_sets) = (mend_sets(), convert_sets());
    let (tidy_sets, add_sets) = (tidy_sets(), add_sets());
    let [judge, _, _, show] = ENTRIES;
    let mut room = vec![0; open_panel::REDUCE_ROOM];
    let mut tables = [
        rows(&ENTRIES, &sets, Lent::Whole, &mut room),
        rows(&ENTRIES[1..], &sets, Lent::JustFits, &mut room),
        rows(&[ASK], &question_sets, Lent::Whole, &mut room),
        rows(&[WATCH], &spectator_sets, Lent::Whole, &mut room),
        rows(
            &[judge, FIRST_MOVE, show],
            &first_move_sets,
            Lent::Whole,
            &mut room,
        ),
        rows(&[ODDS], &odds_sets, Lent::Whole, &mut room),
        rows(&ENTRIES, &shared_sets, Lent::Whole, &mut room),
        rows(&[FIND], &deck_sets, Lent::Whole, &mut room),
        rows(&[MEND], &mend_sets, Lent::Whole, &mut room),
        rows(&[CONVERT], &convert_sets, Lent::Whole, &mut room),
        rows(&[TIDY], &tidy_sets, Lent::Copy, &mut room),
        rows(&[ADD], &add_sets, Lent::Copy, &mut room),
    ];
    for beside in [2, 3] {
        let judged = Row::new(judge, &sets[0], Lent::Whole, &mut room);
        tables[beside].insert(0, judged);
    }
    for round in 0..ROUNDS {
        for row in tables.iter_mut().flatten() {
            row.round(round, &mut room);
        }
    }
    let [always_enough, just_fit, questions, spectators, first_moves, odds, shared, decks, mended, converted, tidied, added] =
        tables;
    println!("In a room of {} bytes:\n", room.len());
    print_table(&always_enough);
    println!("\nIn rooms that just fit each text:\n");
    print_table(&just_fit);
    println!("\nQuestions, bytes of the card and the question together:\n");
    print_table(&questions);
    println!("\nWhat a spectator sees, beside judging the card:\n");
    print_table(&spectators);
    println!("\nWhether anyone can move, beside judging the card and its whole panel:\n");
    print_table(&first_moves);
    println!("\nOdds after {ODDS_STEPS} steps:\n");
    print_table(&odds);
    println!("\nCards whose seats share a number:\n");
    print_table(&shared);
    println!("\nA full deck:\n");
    print_table(&decks);
    println!("\nDecks mended:\n");
    print_table(&mended);
    println!("\nDecks converted:\n");
    print_table(&converted);
    println!("\nDecks tidied:\n");
    print_table(&tidied);
    println!("\nCards added, bytes of the deck and the card together:\n");
    print_table(&added);
    println!();
    print_stack();
    ExitCode::SUCCESS
}
