//! `desk`: rule cards checked, laid out, reduced, shown and asked about. `desk --help` says how.

mod boxes;
mod input;

use std::io::{self, Write};
use std::process::ExitCode;

use desk::chances::{night_by_night, with_chances};
use desk::reason::{Given, Of};
use desk::walk::summary;
use desk::{report, walk};
use open_panel::{Aim, Refusal, ODDS_STEPS};

use input::{values, wrong_words, Input};

const HELP: &str = include_str!("help.txt");

/// The options of each command; one with `=` takes a word behind it.
const OPTIONS: [(&str, &[&str]); 5] = [
    ("write", &["--check"]),
    ("panel", &["--chances"]),
    ("odds", &["--smallest"]),
    ("box", &["--withdrawn=", "--unread"]),
    ("help", &[]),
];

/// What was typed, sorted into words and options.
struct Words<'w> {
    words: Vec<&'w str>,
    options: Vec<(&'w str, &'w str)>,
}

impl<'w> Words<'w> {
    fn of(command: &str, typed: &'w [String]) -> Words<'w> {
        let known = OPTIONS
            .iter()
            .find(|(name, _)| *name == command)
            .map_or(&[][..], |(_, known)| known);
        let (mut words, mut options) = (Vec::new(), Vec::new());
        let mut rest = typed.iter();
        while let Some(word) = rest.next() {
            if word == "--" {
                words.extend(rest.by_ref().map(String::as_str));
            } else if !word.starts_with("--") {
                words.push(word.as_str());
            } else if known.contains(&word.as_str()) {
                options.push((word.as_str(), ""));
            } else if known.contains(&format!("{word}=").as_str()) {
                let Some(value) = rest.next() else {
                    wrong_words(&format!("`{word}` needs a word behind it"));
                };
                options.push((word.as_str(), value.as_str()));
            } else {
                wrong_words(&format!("`desk {command}` has no option `{word}`"));
            }
        }
        Words { words, options }
    }

    fn has(&self, option: &str) -> bool {
        self.options.iter().any(|(name, _)| *name == option)
    }
}

fn main() -> ExitCode {
    let typed: Vec<String> = std::env::args_os()
        .skip(1)
        .map(|word| word.to_string_lossy().into_owned())
        .collect();
    let Some((command, rest)) = typed.split_first() else {
        wrong_words("a command is due");
    };
    if matches!(&**command, "--help" | "-h" | "help")
        || rest
            .iter()
            .take_while(|word| *word != "--")
            .any(|word| word == "--help")
    {
        return put(HELP.as_bytes());
    }
    let words = Words::of(command, rest);
    match (&**command, &words.words[..]) {
        ("check", cards @ [_, ..]) => check(cards),
        ("write", [card]) if words.has("--check") => is_written(card),
        ("write", [card]) => texts(card, open_panel::write_to_vec),
        ("reduce", [card]) => texts(card, open_panel::reduce_to_vec),
        ("panel", [card, seats @ ..]) => panels(card, seats, words.has("--chances")),
        ("ask", [card, seats @ .., question]) if seats.len() <= 1 => {
            ask(card, seats.first().copied(), question)
        }
        ("first", [card, seats @ ..]) if seats.len() <= 1 => first(card, seats.first().copied()),
        ("watch", [card, seats @ .., classes]) if seats.len() <= 1 => {
            watch(card, seats.first().copied(), classes)
        }
        ("odds", [card, seats @ .., question, nights]) if seats.len() <= 1 => {
            let aim = if words.has("--smallest") {
                Aim::Smallest
            } else {
                Aim::Largest
            };
            odds(card, seats.first().copied(), question, nights, aim)
        }
        ("box", ["list", rest @ ..]) if words.options.is_empty() => boxes::list(rest),
        ("box", ["find", rest @ ..]) if words.options.is_empty() => boxes::find(rest),
        ("box", ["mend", rest @ ..]) if words.options.is_empty() => boxes::mend(rest),
        ("box", ["convert", rest @ ..]) if words.options.is_empty() => boxes::convert(rest),
        ("box", ["tidy", rest @ ..]) if words.options.is_empty() => boxes::tidy(rest),
        ("box", ["add", rest @ ..]) if words.options.is_empty() => boxes::add(rest),
        ("box", ["write", rest @ ..]) => {
            let withdrawn = words
                .options
                .iter()
                .filter(|(name, _)| *name == "--withdrawn");
            let withdrawn: Vec<&str> = withdrawn.map(|(_, value)| *value).collect();
            boxes::write(rest, &withdrawn, words.has("--unread"))
        }
        _ => {
            let usage = HELP
                .lines()
                .filter(|line| line.trim_start().starts_with(&format!("desk {command} ")));
            let usage: Vec<&str> = usage
                .map(|line| line.trim_start())
                .take_while(|line| !line.contains('#'))
                .collect();
            match &usage[..] {
                [] => wrong_words(&format!("there is no command `{command}`")),
                usage => wrong_words(&format!(
                    "the words do not fit; due is\n  {}",
                    usage.join("\n  ")
                )),
            }
        }
    }
}

/// Prints bytes. That nobody reads on is no fault.
fn put(bytes: &[u8]) -> ExitCode {
    let mut out = io::stdout().lock();
    match out.write_all(bytes).and_then(|()| out.flush()) {
        Err(error) if error.kind() != io::ErrorKind::BrokenPipe => {
            input::unreachable("standard output", &error)
        }
        _ => ExitCode::SUCCESS,
    }
}

/// Prints a refusal of what an entry was handed, part of it from an input.
fn refused(input: &Input, given: Given, refusal: Refusal) -> ExitCode {
    let of = Of::refusal(refusal);
    let reason = given.reason(refusal);
    let span = reason.span.clone();
    let in_input = |from: usize| {
        report::print(
            &input.name,
            &input.bytes,
            span.start + from..span.end + from,
            &reason,
        )
    };
    match of {
        Of::Card | Of::Table => in_input(input.card_from()),
        Of::Seats if input.seats() == Some(given.seats) => in_input(0),
        Of::Seats => report::print("seats", given.seats, span.clone(), &reason),
        Of::Question => report::print("question", given.question, span.clone(), &reason),
        Of::Classes => report::print("classes", given.classes, span.clone(), &reason),
        Of::Nights => report::print("nights", given.nights, span.clone(), &reason),
    }
    ExitCode::FAILURE
}

/// A seating that a card takes, in words: with the shared number apart, where the card has one.
fn seating(card: &[u8], typed: &[u8]) -> String {
    let walk = walk::card(card);
    match (walk.shares, typed) {
        (true, [seats @ .., shared]) => {
            let seats = String::from_utf8_lossy(seats);
            format!("seats {seats}, g {}", char::from(*shared))
        }
        _ => format!("seats {}", String::from_utf8_lossy(typed)),
    }
}

fn check(cards: &[&str]) -> ExitCode {
    let mut made = String::new();
    let mut all = ExitCode::SUCCESS;
    for name in cards {
        let input = Input::read(name);
        let (card, seats) = (input.card(), input.seats());
        let judged = match seats {
            Some(seats) => open_panel::first_move(card, &values(seats)).map(|_| ()),
            None => open_panel::judge(card),
        };
        match judged {
            Ok(()) => {
                made += &format!("{}: taken: {}", input.name, summary(card));
                match seats {
                    Some(seats) => made += &format!("; {}\n", seating(card, seats)),
                    None => made.push('\n'),
                }
            }
            Err(refusal) => {
                let seats = seats.unwrap_or_default();
                all = refused(
                    &input,
                    Given {
                        card,
                        seats,
                        ..Given::default()
                    },
                    refusal,
                );
            }
        }
    }
    put(made.as_bytes());
    all
}

fn texts(name: &str, entry: impl Fn(&[u8]) -> Result<Vec<u8>, Refusal>) -> ExitCode {
    let input = Input::read(name);
    let card = input.card();
    match entry(card) {
        Ok(text) => put(&text),
        Err(refusal) => refused(
            &input,
            Given {
                card,
                ..Given::default()
            },
            refusal,
        ),
    }
}

/// Is a card laid out as it is written?
fn is_written(name: &str) -> ExitCode {
    let input = Input::read(name);
    let card = input.card();
    let written = match open_panel::write_to_vec(card) {
        Ok(written) => written,
        Err(refusal) => {
            return refused(
                &input,
                Given {
                    card,
                    ..Given::default()
                },
                refusal,
            )
        }
    };
    if written == card {
        return ExitCode::SUCCESS;
    }
    let same = card
        .iter()
        .zip(&written)
        .take_while(|(here, there)| here == there)
        .count();
    let (line, column) = report::line_and_column(&input.bytes, input.card_from() + same);
    let from = written[..same]
        .iter()
        .rposition(|&byte| byte == b'\n')
        .map_or(0, |end| end + 1);
    let due = written[from..]
        .split(|&byte| byte == b'\n')
        .next()
        .unwrap_or_default();
    eprintln!("{}:{line}:{column}: laid out otherwise; due is", input.name);
    eprintln!(" {line:>3} | {}", String::from_utf8_lossy(due));
    ExitCode::FAILURE
}

/// The seats of a command: its word, or else the input's line.
fn seats_of<'t>(input: &'t Input, word: Option<&'t str>) -> &'t [u8] {
    match (word, input.seats()) {
        (Some(word), _) => word.as_bytes(),
        (None, Some(line)) => line,
        (None, None) => wrong_words(&format!(
            "{} has no line of seats: write them behind it, a digit each",
            input.name
        )),
    }
}

fn panels(name: &str, words: &[&str], chances: bool) -> ExitCode {
    let input = Input::read(name);
    let card = input.card();
    let all: Vec<&[u8]> = match words {
        [] => vec![seats_of(&input, None)],
        words => words.iter().map(|word| word.as_bytes()).collect(),
    };
    let mut made = String::new();
    for (place, seats) in all.iter().enumerate() {
        let panel = match open_panel::show_to_vec(card, &values(seats)) {
            Ok(panel) => String::from_utf8(panel).expect("a panel is ASCII"),
            Err(refusal) => {
                put(made.as_bytes());
                return refused(
                    &input,
                    Given {
                        card,
                        seats,
                        ..Given::default()
                    },
                    refusal,
                );
            }
        };
        if all.len() > 1 {
            made += if place > 0 { "\n" } else { "" };
            made += &format!("{}:\n", String::from_utf8_lossy(seats));
        }
        made += &if chances { with_chances(&panel) } else { panel };
    }
    put(made.as_bytes())
}

fn ask(name: &str, seats: Option<&str>, question: &str) -> ExitCode {
    let input = Input::read(name);
    let given = Given {
        card: input.card(),
        question: question.as_bytes(),
        seats: seats_of(&input, seats),
        ..Given::default()
    };
    match open_panel::ask(given.card, given.question, &values(given.seats)) {
        Ok(holds) => put(if holds { b"yes\n" } else { b"no\n" }),
        Err(refusal) => refused(&input, given, refusal),
    }
}

fn first(name: &str, seats: Option<&str>) -> ExitCode {
    let input = Input::read(name);
    let (card, seats) = (input.card(), seats_of(&input, seats));
    let number = match open_panel::first_move(card, &values(seats)) {
        Ok(number) => number,
        Err(refusal) => {
            return refused(
                &input,
                Given {
                    card,
                    seats,
                    ..Given::default()
                },
                refusal,
            )
        }
    };
    let Some(number) = number else {
        return put(b"nobody can move\n");
    };
    let (from, to) = walk::card(card).statements[number - 1];
    let (line, _) = report::line_and_column(&input.bytes, input.card_from() + from);
    let text = String::from_utf8_lossy(&card[from..to]).into_owned();
    let text: Vec<&str> = text.split_whitespace().collect();
    put(format!("statement {number}, line {line}: {}\n", text.join(" ")).as_bytes())
}

fn watch(name: &str, seats: Option<&str>, classes: &str) -> ExitCode {
    let input = Input::read(name);
    let given = Given {
        card: input.card(),
        seats: seats_of(&input, seats),
        classes: classes.as_bytes(),
        ..Given::default()
    };
    match open_panel::watch_to_vec(given.card, &values(given.seats), &values(given.classes)) {
        Ok(line) => put(&line),
        Err(refusal) => refused(&input, given, refusal),
    }
}

fn odds(name: &str, seats: Option<&str>, question: &str, nights: &str, aim: Aim) -> ExitCode {
    let input = Input::read(name);
    if nights.is_empty() || !nights.bytes().all(|byte| byte.is_ascii_digit()) {
        wrong_words(&format!(
            "`{nights}` is no number of nights from 0 to {ODDS_STEPS}"
        ));
    }
    let given = Given {
        card: input.card(),
        question: question.as_bytes(),
        seats: seats_of(&input, seats),
        nights: nights.as_bytes(),
        ..Given::default()
    };
    let seats = values(given.seats);
    // what no number of the machine's is large enough for is too many as well
    let nights = nights.parse().unwrap_or(usize::MAX);
    let chance =
        |night| open_panel::odds_in_own_rows(given.card, given.question, &seats, night, aim);
    // what is wrong is told before a line is printed, by the last night
    let all =
        chance(nights).and_then(|_| (0..=nights).map(chance).collect::<Result<Vec<u32>, _>>());
    match all {
        Ok(all) => put(night_by_night(&all).as_bytes()),
        Err(refusal) => refused(&input, given, refusal),
    }
}
