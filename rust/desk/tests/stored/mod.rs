//! Every refusal of the stored vectors that is of a card, seats, a question, a list of classes, nights or a box, with its reason.

use desk::reason::{
    of_added, of_converted, of_deck, of_mended, of_number, of_tidied, of_written, Given, Reason,
};
use open_panel::Refusal;
use vectors::stored::{file, Answer, Cases};

/// A stored refusal.
pub struct Stored {
    /// File, case and entry.
    pub name: String,
    /// The number and the place that are stored.
    pub refused: (u8, usize),
    /// What the desk says to it.
    pub reason: Reason,
}

/// Files of cases, files of answers, and their entries. An entry that is added is named here.
const FILES: [(&str, &str, &[&str]); 14] = [
    ("base", "panel", &["panel"]),
    ("edges", "edges", &["read"]),
    ("requests/2026-01", "requests/2026-01", &["ask"]),
    (
        "requests/2026-02",
        "requests/2026-02",
        &["box_find", "box_write"],
    ),
    ("requests/2026-03", "requests/2026-03", &["panel"]),
    ("requests/2026-04", "requests/2026-04", &["write"]),
    ("requests/2026-05", "requests/2026-05", &["spectator"]),
    (
        "requests/2026-06",
        "requests/2026-06",
        &["read", "write", "reduce", "panel", "ask"],
    ),
    ("requests/2026-07", "requests/2026-07", &["first_move"]),
    ("requests/2026-08", "requests/2026-08", &["odds"]),
    ("requests/2026-09", "requests/2026-09", &["mend"]),
    (
        "requests/2026-10",
        "requests/2026-10",
        &[
            "read",
            "write",
            "reduce",
            "panel",
            "ask",
            "spectator",
            "first_move",
            "odds",
        ],
    ),
    (
        "requests/2026-11",
        "requests/2026-11",
        &[
            "read",
            "write",
            "reduce",
            "panel",
            "ask",
            "spectator",
            "first_move",
            "odds",
            "mend",
            "convert",
        ],
    ),
    ("requests/2026-12", "requests/2026-12", &["tidy", "add"]),
];

/// The numbers of the refusals that are of a room or of rows, which no writer of rules lends.
const LENT: [u8; 2] = [10, 16];

/// All of them.
pub fn refusals() -> Vec<Stored> {
    let folder = concat!(env!("CARGO_MANIFEST_DIR"), "/../../vectors");
    let mut all = Vec::new();
    for (cases, answers, entries) in FILES {
        let name = cases;
        let answers = file(format!("{folder}/{answers}.expected"));
        let cases = Cases::new(&file(format!("{folder}/{cases}.cases")));
        let answers = cases.answers(&answers);
        for (case, answer) in answers.iter().enumerate() {
            let Answer::Refused(number, place) = *answer else {
                continue;
            };
            for entry in entries {
                let Some(pieces) = cases.call(case, entry).filter(|_| !LENT.contains(&number))
                else {
                    continue;
                };
                let refusal =
                    Refusal::new(number, place).expect("the library has no other refusals");
                all.push(Stored {
                    name: format!("{name} {case} {entry}"),
                    refused: (number, place),
                    reason: explained(entry, &pieces, refusal),
                });
            }
        }
    }
    all
}

/// Values as one would type them.
fn typed(values: &[u8]) -> Vec<u8> {
    let digit = |&value: &u8| if value < 10 { b'0' + value } else { b'x' };
    values.iter().map(digit).collect()
}

fn card_number(typed: &[u8]) -> u16 {
    let number = String::from_utf8_lossy(typed);
    number.parse().expect("a card number")
}

fn explained(entry: &str, pieces: &[Vec<u8>], refusal: Refusal) -> Reason {
    let none = Vec::new;
    let (seats, question, classes, nights) = match entry {
        "panel" | "first_move" => (typed(&pieces[1]), none(), none(), none()),
        "ask" => (typed(&pieces[2]), pieces[1].clone(), none(), none()),
        "spectator" => (typed(&pieces[1]), none(), typed(&pieces[2]), none()),
        "odds" => (
            typed(&pieces[2]),
            pieces[1].clone(),
            none(),
            pieces[3].clone(),
        ),
        "box_find" => {
            let number = card_number(&pieces[2]);
            let expansion = refusal.place().checked_sub(1 << 16);
            return match (refusal.number(), expansion) {
                (11, Some(place)) => of_deck(&pieces[1], place, refusal),
                (11, None) => of_deck(&pieces[0], refusal.place(), refusal),
                _ => of_number(number, &[&pieces[0], &pieces[1]], refusal),
            };
        }
        "box_write" => return of_written(&pieces[0], &pieces[1], refusal),
        "mend" => return of_mended(&pieces[0], refusal),
        "convert" => return of_converted(&pieces[0], refusal),
        "tidy" => return of_tidied(&pieces[0], refusal),
        "add" => return of_added(&pieces[0], card_number(&pieces[1]), &pieces[2], refusal),
        _ => (none(), none(), none(), none()),
    };
    let given = Given {
        card: &pieces[0],
        question: &question,
        seats: &seats,
        classes: &classes,
        nights: &nights,
    };
    given.reason(refusal)
}
