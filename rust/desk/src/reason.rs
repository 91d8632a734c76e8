//! Which of its reasons a refusal has, found from the bytes that were refused. The refusal's number and place are always the library's:
//! here only the sentence is found that fits what stands there. `desk/reasons.mjs` does the same for the page, and a test holds both to
//! each other.

use std::collections::BTreeSet;
use std::ops::Range;

use open_panel::{
    Refusal, CARD_BYTES, DECK_BYTES, DECK_CARDS, ODDS_ROW, ODDS_STEPS, QUESTION_BYTES, TOP_CLASS,
};

use crate::marks::{marks, Kind, Mark, NUMBER_DIGITS, WORD_DIGITS};
use crate::walk::{self, units, Group, Literal, One, Stop, Walk, UNIT};
use crate::words::{sentence, Fills};

/// A refusal in words.
#[derive(Clone, PartialEq, Eq, Debug)]
pub struct Reason {
    /// The library's refusal.
    pub refusal: Refusal,
    /// The name of the reason.
    pub name: &'static str,
    /// What was found and what was due.
    pub sentence: String,
    /// What may help.
    pub hint: Option<String>,
    /// The name of the hint.
    pub hint_name: Option<&'static str>,
    /// The bytes that it is about, from the refusal's place on.
    pub span: Range<usize>,
}

/// What an entry was handed, as it was typed; what it was not handed is empty.
#[derive(Clone, Copy, Default)]
pub struct Given<'t> {
    /// The card.
    pub card: &'t [u8],
    /// The question.
    pub question: &'t [u8],
    /// The seats, a digit each.
    pub seats: &'t [u8],
    /// The classes, a digit each.
    pub classes: &'t [u8],
    /// How many nights odds were asked for, in digits.
    pub nights: &'t [u8],
}

/// Which text a refusal is of.
#[derive(Clone, Copy, PartialEq, Eq, Debug)]
pub enum Of {
    /// The card.
    Card,
    /// The question.
    Question,
    /// The seats.
    Seats,
    /// The classes.
    Classes,
    /// The card, which is taken, but has too large a table for odds.
    Table,
    /// The nights.
    Nights,
}

impl Of {
    /// By the refusal's number.
    pub fn refusal(refusal: Refusal) -> Of {
        match refusal.number() {
            8 | 9 => Of::Seats,
            13 => Of::Classes,
            14 | 16 => Of::Table,
            15 => Of::Nights,
            21..=26 => Of::Question,
            _ => Of::Card,
        }
    }
}

impl<'t> Given<'t> {
    /// The text that a refusal is of.
    pub fn text(&self, of: Of) -> &'t [u8] {
        match of {
            Of::Card | Of::Table => self.card,
            Of::Question => self.question,
            Of::Seats => self.seats,
            Of::Classes => self.classes,
            Of::Nights => self.nights,
        }
    }

    /// Why the library refuses this.
    pub fn reason(&self, refusal: Refusal) -> Reason {
        match Of::refusal(refusal) {
            Of::Card => of_card(self.card, refusal),
            Of::Question => of_question(self.question, self.card, refusal),
            Of::Seats => of_seats(self.seats, self.card, refusal),
            Of::Classes => of_classes(self.classes, self.card, refusal),
            Of::Table => of_table(self.card, refusal),
            Of::Nights => of_nights(self.nights, refusal),
        }
    }
}

/// A reason before it is put in words.
struct Found {
    name: &'static str,
    fills: Fills,
    hint: Option<(&'static str, Fills)>,
    end: usize,
}

/// A reason with what is filled into its sentence, and the byte behind what it is about.
fn found(name: &'static str, end: usize, fills: Fills) -> Found {
    Found {
        name,
        fills,
        hint: None,
        end,
    }
}

impl Found {
    fn hint(mut self, name: &'static str, fills: Fills) -> Found {
        self.hint = Some((name, fills));
        self
    }

    fn said(self, refusal: Refusal, at: usize) -> Reason {
        Reason {
            refusal,
            name: self.name,
            sentence: sentence(self.name, &self.fills),
            hint_name: self.hint.as_ref().map(|(name, _)| *name),
            hint: self.hint.map(|(name, fills)| sentence(name, &fills)),
            span: at..self.end.max(at),
        }
    }
}

/// What no other sentence fits.
fn plain(number: u8, end: usize) -> Found {
    const NAMES: [&str; 19] = [
        "plain.1", "plain.2", "plain.3", "plain.4", "plain.5", "plain.6", "plain.7", "plain.8",
        "plain.9", "plain.10", "plain.11", "plain.12", "plain.13", "plain.14", "plain.15",
        "plain.16", "plain.17", "plain.18", "plain.19",
    ];
    found(NAMES[usize::from(number) - 1], end, vec![])
}

fn fill(value: impl ToString) -> String {
    value.to_string()
}

/// A number with a comma before each three digits.
pub fn grouped(number: usize) -> String {
    let digits = number.to_string();
    let mut made = String::new();
    for (place, digit) in digits.chars().enumerate() {
        if place > 0 && (digits.len() - place).is_multiple_of(3) {
            made.push(',');
        }
        made.push(digit);
    }
    made
}

/// How many of something: `1 seat`, `3 seats`.
fn many(count: usize, one: &str) -> String {
    format!(
        "{} {one}{}",
        grouped(count),
        if count == 1 { "" } else { "s" }
    )
}

/// Things one behind the other, with a word before the last.
fn listed(things: &[String], word: &str) -> String {
    match things {
        [] => String::new(),
        [one] => one.clone(),
        [first @ .., last] => format!("{} {word} {last}", first.join(", ")),
    }
}

/// The module line of a seat.
fn module_line(seat: usize) -> String {
    match seat {
        1 => "module process1".to_string(),
        _ => format!("module process{seat} = process1 [s1=s{seat}, s{seat}=s1] endmodule"),
    }
}

/// Text of a mark, cut short if it is long.
fn text_of(bytes: &[u8]) -> String {
    const LONGEST: usize = 40;
    let text: String = bytes
        .iter()
        .take(LONGEST)
        .map(|&byte| char::from(byte))
        .collect();
    text + if bytes.len() > LONGEST { ".." } else { "" }
}

/// Why a card is refused: 1 to 7 and 17.
fn of_card(card: &[u8], refusal: Refusal) -> Reason {
    let at = refusal.place();
    let reason = match refusal.number() {
        1 => long(card, "card", CARD_BYTES),
        2 => mark(card, at, "card"),
        number => {
            let walk = walk::card(card);
            let reason = match number {
                3 => shape(card, &walk, at, "card"),
                4 => limit(card, &walk, at, "guard"),
                5 => state(card, &walk, card, &walk, at),
                6 => word(card, &walk, at),
                7 => weight(card, &walk, at),
                17 => decimal(card, &walk, at),
                _ => None,
            };
            reason.unwrap_or_else(|| plain(number, at))
        }
    };
    reason.said(refusal, at)
}

/// Why a question about a card that is taken is refused: 21 to 26.
fn of_question(question: &[u8], card: &[u8], refusal: Refusal) -> Reason {
    let at = refusal.place();
    let reason = match refusal.number() - 20 {
        1 => long(question, "question", QUESTION_BYTES),
        2 => mark(question, at, "question"),
        number => {
            let on = walk::card(card);
            let walk = walk::question(question, &on);
            let reason = match number {
                3 => shape(question, &walk, at, "question"),
                4 => limit(question, &walk, at, "question"),
                5 => state(question, &walk, card, &on, at),
                _ => asked_group(&walk, &on, at),
            };
            reason.unwrap_or_else(|| plain(number, at))
        }
    };
    reason.said(refusal, at)
}

fn long(text: &[u8], what: &str, most: usize) -> Found {
    let lines = text.split(|&byte| byte == b'\n');
    let comments =
        lines.filter_map(|line| Some(line.len() - line.windows(2).position(|pair| pair == b"//")?));
    let comments: usize = comments.sum();
    let reason = found(
        "long",
        0,
        vec![
            ("what", fill(what)),
            ("bytes", many(text.len(), "byte")),
            ("most", grouped(most)),
        ],
    );
    match comments {
        0 => reason,
        _ => reason.hint("hint.comments", vec![("comments", grouped(comments))]),
    }
}

/// Characters that are often typed or pasted in place of a mark.
const TAKEN_FOR: [(char, &str); 22] = [
    ('\u{2018}', "'"),
    ('\u{2019}', "'"),
    ('\u{2032}', "'"),
    ('\u{b4}', "'"),
    ('\u{2013}', "->"),
    ('\u{2014}', "->"),
    ('\u{2212}', "->"),
    ('\u{2192}', "->"),
    ('\u{21d2}', "->"),
    ('\u{2260}', "!="),
    ('\u{ac}', "!"),
    ('\u{2227}', "&"),
    ('\u{2228}', "|"),
    ('\u{2026}', ".."),
    ('\u{2044}', "/"),
    ('\u{f7}', "/"),
    ('\u{2236}', ":"),
    ('\u{bd}', "1/2"),
    ('\u{bc}', "1/4"),
    ('\u{be}', "3/4"),
    ('\u{2153}', "1/3"),
    ('\u{2154}', "2/3"),
];

fn mark(text: &[u8], at: usize, what: &'static str) -> Found {
    let all = marks(text);
    let wrong = *all.last().expect("there is always a last mark");
    if wrong.kind != Kind::Wrong || wrong.at != at {
        return plain(2, at);
    }
    let bytes = wrong.of(text);
    let before = all
        .len()
        .checked_sub(2)
        .map(|place| all[place])
        .filter(|mark| mark.end == at);
    let next = text.get(at + 1).copied().unwrap_or(0);
    let weight_due = |marks: &[Mark]| {
        let last = marks.last().map(|mark| mark.of(text));
        matches!(last, Some(b"->" | b"+"))
    };
    if bytes[0].is_ascii_digit() {
        // as in `0,05`, where the zero is not too much
        let with_comma = match &all[..] {
            [before @ .., whole, comma, _] if weight_due(before) => {
                comma_for_point(text, *whole, *comma, wrong)
            }
            _ => None,
        };
        return match with_comma {
            Some(reason) => Found {
                end: wrong.end,
                ..reason
            },
            None => digits(bytes, wrong.end, weight_due(&all[..all.len() - 1])),
        };
    }
    match bytes[0] {
        b'.' if before.is_some_and(|mark| mark.of(text) == b"..") => {
            found("mark.third-point", at + 1, vec![])
                .hint("hint.write", vec![("mended", fill(".."))])
        }
        b'.' if next.is_ascii_digit() => {
            if before.is_some_and(|mark| mark.kind == Kind::Decimal) {
                return found("mark.second-point", at + 1, vec![]);
            }
            let end = at
                + 1
                + text[at + 1..]
                    .iter()
                    .take_while(|byte| byte.is_ascii_digit())
                    .count();
            let as_weight = weight_due(&all[..all.len() - 1]);
            let (hint, fills) = in_place_of(b"0", &text[at + 1..end], as_weight);
            let short = text_of(&text[at..end]);
            found("mark.point-first", end, vec![("found", short)]).hint(hint, fills)
        }
        b'.' => {
            let reason = found("mark.point", at + 1, vec![]);
            match before {
                Some(mark) if matches!(mark.kind, Kind::Number(_)) => {
                    reason.hint("hint.write", vec![("mended", text_of(mark.of(text)))])
                }
                _ => reason,
            }
        }
        b'-' => {
            found("mark.minus", at + 1, vec![]).hint("hint.write", vec![("mended", fill("->"))])
        }
        b'>' if before.is_some_and(|mark| mark.of(text) == b"=") => {
            found("mark.arrow", at + 1, vec![])
        }
        sign @ (b'<' | b'>') => found(
            "mark.compare",
            at + 1,
            vec![("found", fill(char::from(sign)))],
        ),
        b'_' => found("mark.underscore", at + 1, vec![]),
        _ => character(text, at, what),
    }
}

/// Digits that make no number, where a weight is due or not.
fn digits(bytes: &[u8], end: usize, as_weight: bool) -> Found {
    let (whole, further) = match bytes.iter().position(|&byte| byte == b'.') {
        Some(point) => (&bytes[..point], &bytes[point + 1..]),
        None => (bytes, &bytes[..0]),
    };
    let shown = text_of(bytes);
    if whole.len() > 1 && whole[0] == b'0' {
        let zeros = whole.iter().take_while(|&&byte| byte == b'0').count();
        let whole = &whole[zeros.min(whole.len() - 1)..];
        let (hint, fills) = match further {
            [] => ("hint.write", vec![("mended", text_of(whole))]),
            further => in_place_of(whole, further, as_weight),
        };
        return found("mark.zero", end, vec![("found", shown)]).hint(hint, fills);
    }
    let (name, digits) = if whole.len() > NUMBER_DIGITS {
        ("mark.digits", whole.len())
    } else {
        ("mark.further", further.len())
    };
    let reason = found(
        name,
        end,
        vec![
            ("found", shown),
            ("digits", fill(digits)),
            ("most", fill(NUMBER_DIGITS)),
        ],
    );
    match further {
        [] => reason,
        further => {
            let (hint, fills) = in_place_of(whole, further, as_weight);
            reason.hint(hint, fills)
        }
    }
}

/// A comma between digits, as some write a decimal.
fn comma_for_point(text: &[u8], whole: Mark, comma: Mark, further: Mark) -> Option<Found> {
    let digits = further.of(text);
    let written = touching(&[whole, comma, further])
        && matches!(whole.kind, Kind::Number(_))
        && comma.of(text) == b","
        && digits.iter().all(u8::is_ascii_digit);
    if !written {
        return None;
    }
    let shown = text_of(&text[whole.at..further.end]);
    let (hint, fills) = in_place_of(whole.of(text), digits, true);
    Some(found("shape.comma", comma.end, vec![("found", shown)]).hint(hint, fills))
}

/// Thirds and sixths, which many a decimal is meant for.
const THIRDS: [(u64, u64); 4] = [(1, 3), (2, 3), (1, 6), (5, 6)];

/// What may be written in place of a decimal: the fraction that it is, if it stands as a weight and that is one, or a fraction that it
/// is cut or rounded from.
fn in_place_of(whole: &[u8], further: &[u8], as_weight: bool) -> (&'static str, Fills) {
    const MOST_DIGITS: usize = 9;
    if !as_weight {
        return ("hint.decimal", vec![]);
    }
    if whole.len() > NUMBER_DIGITS || further.len() > MOST_DIGITS {
        return ("hint.chance", vec![]);
    }
    let value = |digits: &[u8]| {
        digits
            .iter()
            .fold(0, |value, &digit| 10 * value + u64::from(digit - b'0'))
    };
    let one: u64 = further.iter().fold(1, |one, _| 10 * one);
    let parts = value(whole) * one + value(further);
    if parts > one {
        return ("hint.at-most", vec![]);
    }
    let unit = u64::from(UNIT);
    let exact = (parts * unit).is_multiple_of(one);
    let exact = exact.then(|| fraction(parts, one));
    let comes_near = |&&(above, below): &&(u64, u64)| {
        let (cut, rounded) = (above * one / below, (2 * above * one + below) / (2 * below));
        further.len() > 1 && (parts == cut || parts == rounded)
    };
    let near = THIRDS.iter().find(comes_near);
    let near = near.map(|(above, below)| format!("{above}/{below}"));
    match (exact, near) {
        (Some(mended), Some(near)) => ("hint.either", vec![("mended", mended), ("near", near)]),
        (Some(mended), None) | (None, Some(mended)) => ("hint.write", vec![("mended", mended)]),
        (None, None) => ("hint.fraction", vec![("unit", grouped(UNIT as usize))]),
    }
}

/// A character that no mark has.
fn character(text: &[u8], at: usize, what: &'static str) -> Found {
    let here = &text[at..];
    let what = ("what", fill(what));
    if here.starts_with(b"\xef\xbb\xbf") {
        return found("mark.bom", at + 3, vec![what]).hint("hint.bom", vec![]);
    }
    let longest = here.len().min(4);
    let character =
        (1..=longest).find_map(|length| std::str::from_utf8(&here[..length]).ok()?.chars().next());
    let Some(character) = character.filter(|character| !character.is_control()) else {
        let code = format!("0x{:02X}", here[0]);
        return found("mark.byte", at + 1, vec![("code", code), what]);
    };
    let code = format!("U+{:04X}", u32::from(character));
    let shown = ("found", fill(character));
    let reason = match character.is_ascii() {
        true => found("mark.sign", at + 1, vec![shown, what]),
        false => found(
            "mark.character",
            at + character.len_utf8(),
            vec![shown, ("code", code), what],
        ),
    };
    let mended = TAKEN_FOR.iter().find(|(taken, _)| *taken == character);
    match (character, mended) {
        (_, Some((_, mended))) => reason.hint("hint.write", vec![("mended", fill(mended))]),
        ('#' | '*', _) => reason.hint("hint.comment", vec![]),
        ('%', _) => reason.hint("hint.chance", vec![]),
        ('\u{a0}' | '\u{2002}'..='\u{200b}' | '\u{202f}' | '\u{3000}', _) => {
            reason.hint("hint.space", vec![])
        }
        _ => reason,
    }
}

/// The words of cards.
const KEYWORDS: [&str; 6] = [
    "probabilistic",
    "nondeterministic",
    "global",
    "module",
    "endmodule",
    "init",
];

/// What other model languages call a mode.
const MODES: [(&str, &str); 3] = [
    ("dtmc", "probabilistic"),
    ("mdp", "nondeterministic"),
    ("ctmc", "probabilistic"),
];

fn shape(text: &[u8], walk: &Walk, at: usize, what: &'static str) -> Option<Found> {
    let stop = walk.stop.as_ref().filter(|stop| stop.limit.is_none())?;
    let mark = walk.marks[stop.mark];
    if mark.at != at {
        return None;
    }
    let due: Vec<String> = stop.due.iter().map(|due| due_in_words(due)).collect();
    let due = ("due", listed(&due, "or"));
    let shown = text_of(mark.of(text));
    let before = stop.mark.checked_sub(1).map(|place| walk.marks[place]);
    let behind = walk.marks.get(stop.mark + 1);
    if shown == "," && stop.within == "behind weight" {
        if let (Some(before), Some(behind)) = (before, behind) {
            let reason = comma_for_point(text, before, mark, *behind);
            if reason.is_some() {
                return reason;
            }
        }
    }
    let reason = match mark.kind {
        Kind::End => found("shape.ends", at, vec![("what", fill(what)), due]),
        _ if stop.within == "guard" && shown == "|" => found("shape.or", mark.end, vec![]),
        _ if stop.within == "group"
            && matches!(&*shown, "&" | "|")
            && !doubled(text, before, mark) =>
        {
            found(
                "shape.mixed",
                mark.end,
                vec![("found", fill(&shown)), ("sign", fill(&stop.due[0]))],
            )
        }
        _ => found("shape", mark.end, vec![("found", shown), due]),
    };
    Some(match shape_hint(text, walk, stop, what) {
        Some((name, fills)) => reason.hint(name, fills),
        None => reason,
    })
}

fn due_in_words(due: &str) -> String {
    match due {
        "@weight" => sentence("due.weight", &vec![]),
        "@role" => sentence("due.role", &vec![]),
        "@top" => sentence("due.top", &vec![]),
        "@below" => sentence("due.below", &vec![]),
        "@seat" => sentence("due.seat", &vec![]),
        "@end" => sentence("due.end", &vec![]),
        "@question-end" => sentence("due.question-end", &vec![]),
        "@value" => sentence("due.value", &vec![]),
        "@highest-value" => sentence("due.highest-value", &vec![]),
        mark => format!("`{mark}`"),
    }
}

fn touching(marks: &[Mark]) -> bool {
    marks.windows(2).all(|pair| pair[0].end == pair[1].at)
}

/// The same sign twice.
fn doubled(text: &[u8], before: Option<Mark>, mark: Mark) -> bool {
    before.is_some_and(|before| touching(&[before, mark]) && before.of(text) == mark.of(text))
}

fn shape_hint(
    text: &[u8],
    walk: &Walk,
    stop: &Stop,
    what: &'static str,
) -> Option<(&'static str, Fills)> {
    let mark = walk.marks[stop.mark];
    let before = stop.mark.checked_sub(1).map(|place| walk.marks[place]);
    let shown = text_of(mark.of(text));
    let mended = |name, mended: &str| Some((name, vec![("mended", fill(mended))]));
    if let Some(name) = shared_hint(text, walk, stop, what) {
        return Some((name, vec![]));
    }
    if mark.kind == Kind::Word {
        let lower = shown.to_ascii_lowercase();
        if lower != shown
            && (stop.due.contains(&lower)
                || stop.due.iter().any(|due| due == "@seat") && lower.starts_with('s'))
        {
            return mended("hint.case", &lower);
        }
        if let (Some((_, mode)), "mode") =
            (MODES.iter().find(|(word, _)| *word == shown), stop.within)
        {
            return mended("hint.mode", mode);
        }
        let numbered = |stem: &str| {
            lower.strip_prefix(stem).is_some_and(|rest| {
                !rest.is_empty() && rest.bytes().all(|byte| byte.is_ascii_digit())
            })
        };
        if numbered("s") || numbered("process") {
            return Some(("hint.word-number", vec![("most", fill(WORD_DIGITS))]));
        }
        if stop.within == "action" {
            return Some(("hint.action", vec![]));
        }
        let near = |due: &&String| KEYWORDS.contains(&due.as_str()) && distance(&lower, due) <= 2;
        let run_on =
            |due: &&String| KEYWORDS.contains(&due.as_str()) && shown.starts_with(due.as_str());
        if let Some(due) = stop.due.iter().find(run_on) {
            return mended("hint.blank", due);
        }
        if let Some(meant) = stop.due.iter().find(near) {
            return mended("hint.meant", meant);
        }
    }
    if doubled(text, before, mark) && matches!(&*shown, "&" | "|" | "=") {
        return mended("hint.single", &shown);
    }
    if mark.kind == Kind::Decimal {
        return Some(("hint.decimal", vec![]));
    }
    let seat = matches!(mark.kind, Kind::Seat(_));
    match stop.within {
        "guard" if shown == "|" => Some(("hint.or", vec![])),
        "group" if matches!(&*shown, "&" | "|") => Some(("hint.mixed", vec![])),
        "terms" | "term" => Some(("hint.terms", vec![])),
        "branch" => Some(("hint.semicolon", vec![])),
        "roles" if stop.due[0] == ";" => Some(("hint.roles", vec![])),
        "no statement" => Some(("hint.statement", vec![])),
        "lowest role" => Some(("hint.lowest", vec![])),
        "prime" if shown == "=" => Some(("hint.prime", vec![])),
        "condition" | "question" if seat => Some(("hint.condition", vec![])),
        "weight" if shown == "(" || seat => Some(("hint.weight", vec![])),
        "copies" => Some((
            "hint.copies",
            vec![("line", module_line(walk.modules.len() + 1))],
        )),
        "copy" | "copied" | "exchange" => Some((
            "hint.copy",
            vec![("line", module_line(copy_at(walk, stop.mark)))],
        )),
        _ => None,
    }
}

/// What may help where the shared number, or its declaration, does not fit.
fn shared_hint(text: &[u8], walk: &Walk, stop: &Stop, what: &str) -> Option<&'static str> {
    let shown = walk.marks[stop.mark].of(text);
    let behind = |more: usize| {
        let mark = walk.marks.get(stop.mark + more);
        mark.map_or(&b""[..], |mark| mark.of(text))
    };
    let name = walk::SHARED.as_bytes();
    let missing = match what {
        "question" => "hint.not-shared",
        _ => "hint.undeclared",
    };
    Some(match (stop.within, shown) {
        (_, b"global") => "hint.global",
        ("module", word) if word == name => "hint.undeclared",
        ("bracket" | "condition" | "question" | "literal" | "update", word)
            if word == name && !walk.shares =>
        {
            missing
        }
        ("literal", word) if word == name => "hint.test-alone",
        ("test", b"&" | b"|") => "hint.test-alone",
        ("condition" | "question", word) if word == name => "hint.test-brackets",
        ("update", word) if word == name => "hint.seat-first",
        ("branch", b"&") if walk.shares => "hint.set-once",
        ("branch", b"&") if behind(2) == name => missing,
        ("branch", b"(") if walk.shares && behind(1) == name => "hint.seat-first",
        ("shared prime", b"=") => "hint.shared-prime",
        ("lowest value", _) => "hint.lowest-value",
        ("declaration", _) if stop.due[0] == ";" => "hint.declaration",
        // in capitals it is the case that is wrong
        ("shared name", word) if !word.eq_ignore_ascii_case(name) => "hint.name",
        _ => return None,
    })
}

/// The number that the module around a mark has to have.
fn copy_at(walk: &Walk, mark: usize) -> usize {
    1 + walk.copies.iter().filter(|&&copy| copy <= mark).count()
}

/// How many letters have to be put, dropped or changed to make one word of another.
fn distance(one: &str, other: &str) -> usize {
    let other: Vec<char> = other.chars().collect();
    let mut row: Vec<usize> = (0..=other.len()).collect();
    for (i, letter) in one.chars().enumerate() {
        let mut corner = row[0];
        row[0] = i + 1;
        for j in 0..other.len() {
            let changed = corner + usize::from(letter != other[j]);
            corner = row[j + 1];
            row[j + 1] = changed.min(row[j] + 1).min(corner + 1);
        }
    }
    row[other.len()]
}

fn limit(text: &[u8], walk: &Walk, at: usize, part: &'static str) -> Option<Found> {
    let stop = walk.stop.as_ref()?;
    let mark = walk.marks[stop.mark];
    if mark.at != at {
        return None;
    }
    let most = |most: usize| ("most", fill(most));
    Some(match stop.limit? {
        "seats" => found("limit.seats", mark.end, vec![most(walk::SEATS)]),
        "statements" => found("limit.statements", mark.end, vec![most(walk::STATEMENTS)]),
        "branches" => found("limit.branches", mark.end, vec![most(walk::BRANCHES)]),
        "nodes" => found(
            "limit.nodes",
            mark.end,
            vec![most(walk::NODES), ("part", fill(part))],
        ),
        "depth" => found("limit.depth", mark.end, vec![most(walk::DEPTH)]),
        "shared" => found(
            "limit.shared",
            mark.end,
            vec![("found", text_of(mark.of(text))), most(walk::TOP as usize)],
        ),
        _ => found(
            "limit.top",
            mark.end,
            vec![("found", text_of(mark.of(text))), most(walk::TOP as usize)],
        ),
    })
}

/// A role or a value of the shared number, in a text, above those of the card.
fn state(text: &[u8], walk: &Walk, card: &[u8], on: &Walk, at: usize) -> Option<Found> {
    if let Some((mark, of)) = walk.values.iter().find(|(mark, _)| mark.at == at) {
        return Some(value_above(text, card, on, *mark, of));
    }
    let (mark, role) = walk.states.iter().find(|(mark, _)| mark.at == at)?;
    Some(above(text, card, on, *mark, role))
}

/// A value of the shared number above its highest.
fn value_above(text: &[u8], card: &[u8], on: &Walk, mark: Mark, of: &str) -> Found {
    let name = match of {
        "init" => "value.init",
        "test" => "value.test",
        _ => "value.branch",
    };
    let top = shared_top(card, on).unwrap_or_default();
    let fills = vec![("found", text_of(mark.of(text))), ("top", top.clone())];
    found(name, mark.end, fills).hint("hint.value", vec![("top", top)])
}

/// The highest value of the shared number as the card has it, if there is one.
fn shared_top(card: &[u8], walk: &Walk) -> Option<String> {
    walk.shared_top.map(|mark| text_of(mark.of(card)))
}

/// A role, in a text, above those of the card.
fn above(text: &[u8], card: &[u8], walk: &Walk, mark: Mark, role: &str) -> Found {
    let name = match role {
        "init" => "state.init",
        "own" => "state.own",
        "group" => "state.group",
        _ => "state.branch",
    };
    let top = walk.top.map_or(String::new(), |top| text_of(top.of(card)));
    let reason = found(
        name,
        mark.end,
        vec![("found", text_of(mark.of(text))), ("top", top.clone())],
    );
    reason.hint("hint.role", vec![("top", top)])
}

fn word(card: &[u8], walk: &Walk, at: usize) -> Option<Found> {
    if let Some(due) = walk.words.iter().find(|due| due.mark.at == at) {
        let shown = text_of(due.mark.of(card));
        let reason = found(
            "word",
            due.mark.end,
            vec![("found", shown), ("due", due.word.clone())],
        );
        let place = walk.marks.iter().position(|mark| mark.at == at)?;
        let line = vec![("line", module_line(copy_at(walk, place)))];
        return Some(match due.within {
            "copy" => reason.hint("hint.rising", line),
            "copied" | "exchange" => reason.hint("hint.copy", line),
            "own role" | "update" => reason.hint("hint.own", vec![]),
            _ => reason,
        });
    }
    let group = walk.groups.iter().find(|group| group.at == at)?;
    let seats = walk.modules.len();
    if let Some(reason) = unlike(group) {
        return Some(reason);
    }
    if let Some(reason) = module_missing(walk, group) {
        return Some(reason);
    }
    let first = group.literals.iter().any(|literal| literal.seat == 1);
    let faults = ("faults", faults(group, if first { 1 } else { 2 }, seats));
    if seats == 1 {
        let mended = spelled(&group.literals[0], group.any, 1, 1);
        return Some(
            found("group.one-seat", group.end, vec![faults])
                .hint("hint.write", vec![("mended", mended)]),
        );
    }
    let all = format!("{}, or {},", run_of_seats(1, seats), run_of_seats(2, seats));
    let reason = found("group.seats", group.end, vec![faults, ("all", all)]);
    let mended = spelled(
        &group.literals[0],
        group.any,
        if first { 1 } else { 2 },
        seats,
    );
    if wanted(walk) == Some(seats - 1) && mended.len() <= LONGEST_MENDED {
        let fills = vec![("mended", mended), ("seats", fill(seats))];
        return Some(reason.hint("hint.drop", fills));
    }
    Some(mend(reason, mended))
}

/// A group with two relations or two roles.
fn unlike(group: &Group) -> Option<Found> {
    let first = &group.literals[0];
    if group
        .literals
        .iter()
        .any(|literal| literal.differs != first.differs)
    {
        return Some(found("group.relations", group.end, vec![]).hint("hint.relations", vec![]));
    }
    let roles: BTreeSet<u32> = group.literals.iter().map(|literal| literal.state).collect();
    if roles.len() > 1 {
        let roles: Vec<String> = roles.iter().map(ToString::to_string).collect();
        let reason = found(
            "group.roles",
            group.end,
            vec![("roles", listed(&roles, "and"))],
        );
        return Some(reason.hint("hint.groups", vec![]));
    }
    None
}

/// The number of seats for which a group names each once, or each but the first.
fn covers(group: &Group) -> Option<usize> {
    let seats: BTreeSet<u32> = group.literals.iter().map(|literal| literal.seat).collect();
    let from = *seats.first()?;
    let last = *seats.last()?;
    let whole = seats.len() == group.literals.len() && (last - from + 1) as usize == seats.len();
    (whole && matches!(from, 1 | 2) && unlike(group).is_none()).then_some(last as usize)
}

/// The number of seats that all groups of a card speak of.
fn wanted(walk: &Walk) -> Option<usize> {
    let all: BTreeSet<Option<usize>> = walk.groups.iter().map(covers).collect();
    match all.len() {
        1 => all.into_iter().next()?,
        _ => None,
    }
}

/// All groups speak of more seats than there are modules: a line is missing.
fn module_missing(walk: &Walk, group: &Group) -> Option<Found> {
    let seats = walk.modules.len();
    let wanted = wanted(walk).filter(|wanted| *wanted > seats && *wanted <= walk::SEATS)?;
    let missing = (2..=wanted).find(|seat| !walk.modules.contains(&(*seat as u32)))?;
    let fills = vec![
        ("foreign", fill(wanted)),
        ("modules", many(seats, "module")),
        ("missing", fill(missing)),
    ];
    Some(
        found("group.module", group.end, fills)
            .hint("hint.module", vec![("line", module_line(missing))]),
    )
}

/// What is wrong with the seats of a group that has to name these.
fn faults(group: &Group, from: usize, to: usize) -> String {
    let named: Vec<usize> = group
        .literals
        .iter()
        .map(|literal| literal.seat as usize)
        .collect();
    let of = |name, seat: usize| sentence(name, &vec![("seat", fill(seat))]);
    let mut all = Vec::new();
    let distinct: BTreeSet<usize> = named.iter().copied().collect();
    let twice = distinct
        .iter()
        .filter(|&&seat| named.iter().filter(|&&other| other == seat).count() > 1);
    all.extend(twice.map(|&seat| of("fault.twice", seat)));
    all.extend(
        distinct
            .iter()
            .filter(|&&seat| seat == 0 || seat > to)
            .map(|&seat| of("fault.foreign", seat)),
    );
    let missing: Vec<usize> = (from..=to)
        .filter(|seat| !distinct.contains(seat))
        .collect();
    match &missing[..] {
        [] => {}
        [seat] => all.push(of("fault.missing", *seat)),
        seats => {
            let seats: Vec<String> = seats.iter().map(ToString::to_string).collect();
            all.push(sentence(
                "fault.missing-many",
                &vec![("seats", listed(&seats, "and"))],
            ));
        }
    }
    listed(&all, "and")
}

/// Seats one behind the other.
fn run_of_seats(from: usize, to: usize) -> String {
    match to - from {
        0 => format!("seat {from}"),
        1 => format!("the seats {from} and {to}"),
        _ => format!("the seats {from} to {to}"),
    }
}

/// A group of these seats with the relation and the role of a literal.
fn spelled(literal: &Literal, any: bool, from: usize, to: usize) -> String {
    let relation = if literal.differs { "!=" } else { "=" };
    let literals: Vec<String> = (from..=to)
        .map(|seat| format!("s{seat}{relation}{}", literal.state))
        .collect();
    format!("({})", literals.join(if any { " | " } else { " & " }))
}

/// The longest that a hint writes out.
const LONGEST_MENDED: usize = 80;

/// A hint that writes it out, unless that is long.
fn mend(reason: Found, mended: String) -> Found {
    if mended.len() > LONGEST_MENDED {
        return reason;
    }
    reason.hint("hint.write", vec![("mended", mended)])
}

fn asked_group(walk: &Walk, on: &Walk, at: usize) -> Option<Found> {
    let seats = on.modules.len();
    if let Some(one) = walk.ones.iter().find(|one| one.at == at) {
        return asked_one(one, seats);
    }
    let group = walk.groups.iter().find(|group| group.at == at)?;
    if let Some(reason) = unlike(group) {
        return Some(reason);
    }
    let mended = spelled(&group.literals[0], group.any, 1, seats);
    if covers(group) == Some(seats) {
        return Some(mend(
            found(
                "group.others",
                group.end,
                vec![("all", run_of_seats(1, seats))],
            ),
            mended,
        ));
    }
    let faults = ("faults", faults(group, 1, seats));
    Some(mend(
        found(
            "group.asked",
            group.end,
            vec![faults, ("all", run_of_seats(1, seats))],
        ),
        mended,
    ))
}

fn asked_one(one: &One, seats: usize) -> Option<Found> {
    let role = one.terms[0].literals[0].state;
    let wrong = |(place, term): &(usize, &Group)| {
        let seat = place + 1;
        let mut due: BTreeSet<usize> = (1..=seats).collect();
        let right = |literal: &Literal| {
            literal.state == role
                && literal.differs == (literal.seat as usize != seat)
                && due.remove(&(literal.seat as usize))
        };
        !term.literals.iter().all(right) || !due.is_empty()
    };
    let wrong = one
        .terms
        .iter()
        .enumerate()
        .take(seats)
        .find(wrong)
        .map(|(place, _)| place + 1);
    let Some(term) = wrong else {
        let fills = vec![("found", fill(one.terms.len())), ("seats", fill(seats))];
        return Some(found("one.terms", one.end, fills));
    };
    let literals =
        (1..=seats).map(|seat| format!("s{seat}{}{role}", if seat == term { "=" } else { "!=" }));
    let mended = format!("({})", literals.collect::<Vec<_>>().join(" & "));
    let fills = vec![("term", fill(term)), ("role", fill(role))];
    let reason = found("one.term", one.end, fills);
    Some(reason.hint("hint.one", vec![("term", fill(term)), ("mended", mended)]))
}

/// Parts of one as a fraction in lowest terms.
pub fn fraction(parts: u64, of: u64) -> String {
    let (mut a, mut b) = (parts, of);
    while b != 0 {
        (a, b) = (b, a % b);
    }
    match (parts / a, of / a) {
        (whole, 1) => whole.to_string(),
        (above, below) => format!("{above}/{below}"),
    }
}

/// A weight written as a decimal.
fn decimal(card: &[u8], walk: &Walk, at: usize) -> Option<Found> {
    let (mark, _) = walk.weights.iter().find(|(first, _)| first.at == at)?;
    let shown = mark.of(card);
    let point = shown.iter().position(|&byte| byte == b'.')?;
    let (hint, fills) = in_place_of(&shown[..point], &shown[point + 1..], true);
    Some(found("decimal", mark.end, vec![("found", text_of(shown))]).hint(hint, fills))
}

fn weight(card: &[u8], walk: &Walk, at: usize) -> Option<Found> {
    if let Some((first, last)) = walk.weights.iter().find(|(first, _)| first.at == at) {
        return wrong_weight(card, *first, *last);
    }
    let (mark, sum) = walk.sums.iter().find(|(mark, _)| mark.at == at)?;
    let (name, rest) = if *sum < UNIT {
        ("sum.less", UNIT - sum)
    } else {
        ("sum.more", sum - UNIT)
    };
    let one = u64::from(UNIT);
    let fills = vec![
        ("sum", fraction(u64::from(*sum), one)),
        ("rest", fraction(u64::from(rest), one)),
    ];
    Some(found(name, mark.end, fills))
}

fn wrong_weight(card: &[u8], first: Mark, last: Mark) -> Option<Found> {
    if units(first, (last != first).then_some(last)).is_some() {
        return None;
    }
    let shown = match first == last {
        true => text_of(first.of(card)),
        false => [text_of(first.of(card)), text_of(last.of(card))].join("/"),
    };
    let shown = ("found", shown);
    Some(match (first.kind, last.kind) {
        _ if first == last => found("weight.whole", last.end, vec![shown]),
        (_, Kind::Number(0)) => found("weight.nothing", last.end, vec![shown]),
        (_, Kind::Number(below)) if !UNIT.is_multiple_of(below) => {
            let fills = vec![
                shown,
                ("below", fill(below)),
                ("unit", grouped(UNIT as usize)),
            ];
            found("weight.divides", last.end, fills).hint("hint.below", vec![])
        }
        _ => found("weight.above", last.end, vec![shown]),
    })
}

/// Why seats are refused, as they were typed: 8 and 9. The card is one that is taken.
fn of_seats(typed: &[u8], card: &[u8], refusal: Refusal) -> Reason {
    let walk = walk::card(card);
    let (seats, top) = (
        walk.modules.len(),
        walk.top.map_or(String::new(), |top| text_of(top.of(card))),
    );
    let digits: Vec<u8> = typed.iter().copied().filter(u8::is_ascii_digit).collect();
    let mended = |name| (name, vec![("mended", text_of(&digits))]);
    let blank = typed.iter().position(|byte| matches!(byte, b' ' | b'\t'));
    let (at, reason) = if typed.starts_with(b"\xef\xbb\xbf") {
        (
            0,
            found("seats.bom", 3, vec![]).hint("hint.seats-bom", vec![]),
        )
    } else if typed.ends_with(b"\r") {
        let end = typed.len();
        (
            end - 1,
            found("seats.crlf", end, vec![]).hint("hint.crlf", vec![]),
        )
    } else if let Some(blank) = blank {
        let (name, fills) = mended("hint.digits");
        (
            blank,
            found("seats.blank", blank + 1, vec![]).hint(name, fills),
        )
    } else if refusal.number() == 8 {
        (0, seat_count(typed, card, &walk))
    } else {
        let at = refusal.place();
        let seat = ("seat", fill(at + 1));
        match typed.get(at) {
            Some(&byte) if walk.shares && at == seats => {
                let top = shared_top(card, &walk).unwrap_or_default();
                let (shown, length) = shown_character(&typed[at..], byte);
                let name = match byte.is_ascii_digit() {
                    true => "seats.value",
                    false => "seats.value-letter",
                };
                let fills = vec![("found", shown), ("top", top)];
                (at, found(name, at + length, fills))
            }
            Some(digit) if digit.is_ascii_digit() => {
                let fills = vec![seat, ("found", fill(char::from(*digit))), ("top", top)];
                (at, found("seats.role", at + 1, fills))
            }
            Some(&byte) => {
                let (shown, length) = shown_character(&typed[at..], byte);
                (
                    at,
                    found(
                        "seats.letter",
                        at + length,
                        vec![seat, ("found", shown), ("top", top)],
                    ),
                )
            }
            None => (at, plain(9, at)),
        }
    };
    reason.said(refusal, at)
}

/// Not as many digits as the card wants: one for each seat, and behind them one for the shared number.
fn seat_count(typed: &[u8], card: &[u8], walk: &Walk) -> Found {
    let seats = walk.modules.len();
    let start = walk.values.first().map(|(mark, _)| text_of(mark.of(card)));
    let Some(start) = start.filter(|_| walk.shares) else {
        let fills = vec![("found", many(typed.len(), "seat")), ("due", fill(seats))];
        return found("seats.count", typed.len(), fills);
    };
    if typed.len() == seats {
        let mended = text_of(typed) + &start;
        let fills = vec![("seats", many(seats, "seat"))];
        return found("seats.no-value", typed.len(), fills)
            .hint("hint.value-last", vec![("mended", mended)]);
    }
    let fills = vec![
        ("found", many(typed.len(), "digit")),
        ("seats", many(seats, "seat")),
    ];
    found("seats.digits", typed.len(), fills)
}

/// A character as it is shown, and how many bytes it has.
fn shown_character(bytes: &[u8], first: u8) -> (String, usize) {
    let longest = bytes.len().min(4);
    let character =
        (1..=longest).find_map(|length| std::str::from_utf8(&bytes[..length]).ok()?.chars().next());
    match character.filter(|character| !character.is_control()) {
        Some(character) => (fill(character), character.len_utf8()),
        None => (format!("0x{first:02X}"), 1),
    }
}

/// Why a list of classes is refused, as it was typed: 13. The card is one that is taken.
fn of_classes(typed: &[u8], card: &[u8], refusal: Refusal) -> Reason {
    let walk = walk::card(card);
    let top = walk.top.map_or(String::new(), |top| text_of(top.of(card)));
    let roles = 1 + top.parse::<usize>().unwrap_or(0);
    let most = ("most", fill(TOP_CLASS));
    let (at, reason) = if typed.len() != roles {
        let found_classes = match typed.len() {
            1 => "1 class".to_string(),
            count => format!("{count} classes"),
        };
        (
            0,
            found(
                "classes.count",
                typed.len(),
                vec![("found", found_classes), ("top", top)],
            ),
        )
    } else {
        let at = refusal.place();
        let role = ("role", fill(at));
        match typed.get(at) {
            Some(digit) if digit.is_ascii_digit() => (
                at,
                found(
                    "classes.high",
                    at + 1,
                    vec![role, ("found", fill(char::from(*digit))), most],
                ),
            ),
            Some(&byte) => {
                let (shown, length) = shown_character(&typed[at..], byte);
                (
                    at,
                    found(
                        "classes.letter",
                        at + length,
                        vec![role, ("found", shown), most],
                    ),
                )
            }
            None => (at, plain(13, at)),
        }
    };
    reason.said(refusal, at)
}

/// Why there are no odds of a card that is taken: 14.
fn of_table(card: &[u8], refusal: Refusal) -> Reason {
    let walk = walk::card(card);
    let (Some(mark), 14) = (walk.top, refusal.number()) else {
        return plain(refusal.number(), 0).said(refusal, 0);
    };
    let (seats, top) = (walk.modules.len(), text_of(mark.of(card)));
    let top = top.parse::<usize>().unwrap_or(0);
    let highest = shared_top(card, &walk).and_then(|top| top.parse::<usize>().ok());
    let values = highest.map_or(1, |highest| highest + 1);
    let fits = |seats, top| ways(seats, top) * values <= ODDS_ROW;
    let less = (0..top).rev().find(|&less| fits(seats, less));
    let fewer = (1..seats).rev().find(|&fewer| fits(fewer, top));
    let mut fills = vec![
        ("seats", many(seats, "seat")),
        ("top", fill(top)),
        ("found", grouped(ways(seats, top) * values)),
        ("most", fill(ODDS_ROW)),
    ];
    let mut hints = vec![
        ("seats", many(seats, "seat")),
        ("less", fill(less.unwrap_or(0))),
        ("top", fill(top)),
        ("fewer", many(fewer.unwrap_or(1), "seat")),
    ];
    let mut name = "odds.vectors";
    let mut hint = "hint.vectors";
    if values > 1 {
        name = "odds.pairs";
        fills.push(("ways", grouped(ways(seats, top))));
        fills.push(("values", fill(values)));
        // a lower highest value helps only where the seats and roles alone are not too many
        if let Some(lower) = (ODDS_ROW / ways(seats, top)).checked_sub(1) {
            hint = "hint.pairs";
            hints.push(("lower", fill(lower)));
        }
    }
    found(name, mark.end, fills)
        .hint(hint, hints)
        .said(refusal, mark.at)
}

/// Why odds of so many nights are refused: 15.
fn of_nights(nights: &[u8], refusal: Refusal) -> Reason {
    let fills = vec![("found", text_of(nights)), ("most", fill(ODDS_STEPS))];
    found("odds.nights", nights.len(), fills).said(refusal, 0)
}

/// In how many ways seats can be spread over the roles from 0 to the top.
fn ways(seats: usize, top: usize) -> usize {
    (1..=top).fold(1, |ways, role| ways * (seats + role) / role)
}

/// Bytes of an entry of a box.
pub const ENTRY: usize = 8;

/// Two bytes of a box as a number.
pub fn pair(bytes: &[u8], at: usize) -> usize {
    usize::from(u16::from_le_bytes([bytes[at], bytes[at + 1]]))
}

/// Why a box is refused, by the place in it: 11.
pub fn of_deck(deck: &[u8], place: usize, refusal: Refusal) -> Reason {
    let reason = match place.checked_sub(1) {
        None => whole_deck(deck),
        Some(within) => {
            field(deck, within / ENTRY, within % ENTRY).unwrap_or_else(|| plain(11, place))
        }
    };
    reason.said(refusal, place)
}

fn whole_deck(deck: &[u8]) -> Found {
    let bytes = ("bytes", many(deck.len(), "byte"));
    let Some(&count) = deck.first() else {
        return found("deck.empty", 0, vec![]);
    };
    let count = usize::from(count);
    if deck.len() > DECK_BYTES {
        return found("deck.long", 0, vec![bytes, ("most", grouped(DECK_BYTES))]);
    }
    if !(1..=DECK_CARDS).contains(&count) {
        return found(
            "deck.count",
            1,
            vec![("found", fill(count)), ("most", fill(DECK_CARDS))],
        );
    }
    let due = grouped(1 + ENTRY * count);
    found(
        "deck.short",
        1,
        vec![bytes, ("found", fill(count)), ("due", due)],
    )
}

/// A field of an entry, from 0, by the byte of the entry that it begins at.
fn field(deck: &[u8], entry: usize, byte: usize) -> Option<Found> {
    let at = 1 + ENTRY * entry;
    let this = deck.get(at..at + ENTRY)?;
    let name = ("entry", fill(entry + 1));
    let (number, offset, length) = (pair(this, 0), pair(this, 2), pair(this, 4));
    let end = |entry: usize| {
        let before = &deck[1 + ENTRY * entry..];
        pair(before, 2) + pair(before, 4)
    };
    Some(match byte {
        0 => {
            let last = pair(&deck[at.checked_sub(ENTRY)?..], 0);
            found(
                "deck.number",
                at + 2,
                vec![name, ("found", fill(number)), ("last", fill(last))],
            )
        }
        2 => {
            let contents = 1 + ENTRY * usize::from(deck[0]);
            let due = entry.checked_sub(1).map_or(contents, end);
            found(
                "deck.offset",
                at + 4,
                vec![name, ("found", grouped(offset)), ("due", grouped(due))],
            )
        }
        4 => {
            let fills = vec![
                name,
                ("found", grouped(offset + length)),
                ("due", grouped(deck.len())),
            ];
            found("deck.length", at + 6, fills)
        }
        6 => found("deck.flag", at + 7, vec![name, ("found", fill(this[6]))]),
        7 => found("deck.zero", at + 8, vec![name, ("found", fill(this[7]))]),
        _ => return None,
    })
}

/// Why a box is past mending: 11.
pub fn of_mended(deck: &[u8], refusal: Refusal) -> Reason {
    let reason = match contents_end(deck) {
        None => whole_deck(deck),
        Some(_) => {
            let count = usize::from(deck[0]);
            found("deck.nothing", 0, vec![("found", many(count, "card"))])
        }
    };
    reason.said(refusal, 0)
}

/// Where the contents of a box end, if it has all of them and is not too long.
fn contents_end(deck: &[u8]) -> Option<usize> {
    let count = usize::from(*deck.first()?);
    let end = 1 + ENTRY * count;
    let right = (1..=DECK_CARDS).contains(&count) && (end..=DECK_BYTES).contains(&deck.len());
    right.then_some(end)
}

/// What became of an entry of a box when that was mended.
#[derive(Clone, PartialEq, Eq, Debug)]
pub struct Became {
    /// The number of its card.
    pub number: usize,
    /// The rule for which it was dropped, from 1 on; 0 if it was kept.
    pub rule: usize,
    /// Why it was dropped.
    pub why: String,
}

/// What became of each entry of a box, by the lines of the library's list; without a list nothing was kept, and which rule an entry
/// breaks first is found here. None of a box whose count, contents or length are wrong.
pub fn of_entries(deck: &[u8], list: Option<&[u8]>) -> Vec<Became> {
    let Some(contents) = contents_end(deck) else {
        return Vec::new();
    };
    let mut lines = list.map(|list| list.split(|&byte| byte == b'\n'));
    let (mut last_number, mut last_end) = (None, contents);
    let mut all = Vec::new();
    for entry in 0..usize::from(deck[0]) {
        let this = &deck[1 + ENTRY * entry..][..ENTRY];
        let (number, offset, length) = (pair(this, 0), pair(this, 2), pair(this, 4));
        let (rule, why) = match lines.as_mut().map(|lines| lines.next().unwrap_or_default()) {
            Some(b"kept") => (0, String::new()),
            Some(line) => {
                let digit = line.last().map_or(0, |digit| digit.wrapping_sub(b'0'));
                let rule = usize::from(digit);
                (rule, of_rule(deck, entry, rule, last_number, last_end))
            }
            None => {
                let why = |rule| of_rule(deck, entry, rule, last_number, last_end);
                let rules = (1..=4).map(|rule| (rule, why(rule)));
                let broken = rules.into_iter().find(|(_, why)| !why.is_empty());
                broken.unwrap_or_default()
            }
        };
        if rule == 0 {
            (last_number, last_end) = (Some(number), offset + length);
        }
        all.push(Became { number, rule, why });
    }
    all
}

/// How an entry, from 0, breaks a rule of mending behind what was kept before it; nothing if it does not.
fn of_rule(
    deck: &[u8],
    entry: usize,
    rule: usize,
    last_number: Option<usize>,
    last_end: usize,
) -> String {
    let this = &deck[1 + ENTRY * entry..][..ENTRY];
    let (number, offset, length) = (pair(this, 0), pair(this, 2), pair(this, 4));
    let end = offset + length;
    let name = ("entry", fill(entry + 1));
    let (of, fills) = match (rule, last_number) {
        (1, _) if this[6] > 1 => ("deck.flag", vec![name, ("found", fill(this[6]))]),
        (1, _) if this[7] != 0 => ("deck.zero", vec![name, ("found", fill(this[7]))]),
        (2, Some(last)) if number <= last => (
            "deck.number",
            vec![name, ("found", fill(number)), ("last", fill(last))],
        ),
        (3, _) if offset < last_end => (
            "deck.offset",
            vec![name, ("found", grouped(offset)), ("due", grouped(last_end))],
        ),
        (3, _) if end > deck.len() => (
            "deck.length",
            vec![name, ("found", grouped(end)), ("due", grouped(deck.len()))],
        ),
        (4, _) if this[6] == 1 => {
            let card = deck.get(offset..end).unwrap_or_default();
            let Err(refusal) = open_panel::judge(card) else {
                return String::new();
            };
            let given = Given {
                card,
                ..Given::default()
            };
            let (number, place) = (refusal.number(), refusal.place());
            return format!(
                "refused {number} {place}: {}",
                given.reason(refusal).sentence
            );
        }
        _ => return String::new(),
    };
    sentence(of, &fills)
}

/// Why a box cannot be converted: 11, or 18, whose place is the number of a card.
pub fn of_converted(deck: &[u8], refusal: Refusal) -> Reason {
    match refusal {
        Refusal::NotConverted { card } => {
            let reason = not_converted(deck, card).unwrap_or_else(|| plain(18, 0));
            reason.said(refusal, 0)
        }
        _ => of_deck(deck, refusal.place(), refusal),
    }
}

/// Why this card of a sound box is not converted, if that can be told.
fn not_converted(deck: &[u8], card_number: u16) -> Option<Found> {
    let count = usize::from(*deck.first()?);
    let mut entries = deck[1..].chunks_exact(ENTRY).take(count);
    let entry = entries.find(|entry| pair(entry, 0) == usize::from(card_number))?;
    let card = &deck[pair(entry, 2)..][..pair(entry, 4)];
    let number = ("number", fill(card_number));
    let full = found(
        "deck.full",
        0,
        vec![number.clone(), ("most", grouped(DECK_BYTES))],
    );
    let live = entry[6] == 1;
    // alone in a box there is room for it, so that what is wrong is the card
    let alone = open_panel::write_deck_to_vec(entry, card).ok()?;
    if !live || open_panel::convert_to_vec(&alone).is_ok() {
        return Some(full);
    }
    let (fractions, from) = with_fractions(card);
    match open_panel::write_to_vec(&fractions) {
        Ok(written) => Some(found(
            "deck.layout",
            0,
            vec![
                number,
                ("bytes", many(written.len(), "byte")),
                ("most", grouped(CARD_BYTES)),
            ],
        )),
        // longer by its fractions: what it was refused for is not known
        Err(Refusal::Long) if card.len() <= CARD_BYTES => None,
        Err(refusal) => {
            let reason = of_card(&fractions, refusal);
            let mut fills = vec![number, ("place", grouped(from(refusal.place())))];
            let name = match refusal {
                Refusal::Decimal { .. } => {
                    fills.push(("found", text_of(&fractions[reason.span])));
                    "deck.decimal"
                }
                _ => {
                    fills.push(("why", reason.sentence));
                    "deck.refused"
                }
            };
            Some(found(name, 0, fills))
        }
    }
}

/// A card with the fractions that its decimals were taken for when they were weights, and for a place in that the place on the card. A
/// decimal that was no weight then stays, and is refused.
fn with_fractions(card: &[u8]) -> (Vec<u8>, impl Fn(usize) -> usize) {
    let mut made = Vec::new();
    // for each fraction where it ends, there and on the card
    let mut ends = vec![(0, 0)];
    for (mark, _) in walk::card(card).weights {
        let shown = String::from_utf8_lossy(mark.of(card));
        let Some((whole, further)) = shown.split_once('.') else {
            continue;
        };
        let hundredths = format!("{whole}{further:0<2}").parse();
        let (Ok(hundredths @ 0..=100), 1..=2) = (hundredths, further.len()) else {
            continue;
        };
        let (_, behind) = ends[ends.len() - 1];
        made.extend(&card[behind..mark.at]);
        made.extend(fraction(hundredths, 100).bytes());
        ends.push((made.len(), mark.end));
    }
    let (_, behind) = ends[ends.len() - 1];
    made.extend(&card[behind..]);
    let from = move |place: usize| {
        let before = ends.iter().rev().find(|(end, _)| *end <= place);
        let (there, here) = before.expect("the first is at the start");
        place - there + here
    };
    (made, from)
}

/// Why a box cannot be tidied: 11, or 12 for one without a live card.
pub fn of_tidied(deck: &[u8], refusal: Refusal) -> Reason {
    match refusal {
        Refusal::NoLiveCard => {
            let cards = usize::from(*deck.first().unwrap_or(&0));
            found("none.live", 0, vec![("found", many(cards, "card"))]).said(refusal, 0)
        }
        _ => of_deck(deck, refusal.place(), refusal),
    }
}

/// Why a card is not added to a box: what is wrong with the box, with the card, with its number, or with the room that is left.
pub fn of_added(deck: &[u8], number: u16, card: &[u8], refusal: Refusal) -> Reason {
    let place = refusal.place();
    match refusal {
        Refusal::Deck { .. } | Refusal::NoLiveCard => of_tidied(deck, refusal),
        Refusal::NotAdded { at: 0 } => {
            found("deck.cards", 0, vec![("most", fill(DECK_CARDS))]).said(refusal, 0)
        }
        Refusal::NotAdded { at } => {
            let reason = live_already(deck, at).unwrap_or_else(|| plain(19, at));
            reason.said(refusal, at)
        }
        Refusal::Room { needed } => {
            let fills = vec![
                ("number", fill(number)),
                ("bytes", many(needed, "byte")),
                ("most", grouped(DECK_BYTES)),
                ("missing", many(needed.saturating_sub(DECK_BYTES), "byte")),
            ];
            found("deck.room", place, fills).said(refusal, place)
        }
        _ => of_card(card, refusal),
    }
}

/// Which card of a sound box is live, by the place of its entry.
fn live_already(deck: &[u8], at: usize) -> Option<Found> {
    let entry = deck.get(at..at + ENTRY)?;
    let card = deck.get(pair(entry, 2)..)?.get(..pair(entry, 4))?;
    let what = match open_panel::judge(card) {
        Ok(()) => walk::summary(card),
        Err(_) => "a card that is refused".to_string(),
    };
    let fills = vec![
        ("number", fill(pair(entry, 0))),
        ("entry", fill(at / ENTRY + 1)),
        ("card", what),
    ];
    Some(found("deck.live", at + 2, fills))
}

/// Why no live card was found: 12. The boxes are sound.
pub fn of_number(number: u16, decks: &[&[u8]], refusal: Refusal) -> Reason {
    let numbers = |deck: &&[u8]| {
        let count = deck.first().map_or(0, |count| usize::from(*count));
        (0..count).any(|entry| pair(deck, 1 + ENTRY * entry) == usize::from(number))
    };
    let name = if decks.iter().any(numbers) {
        "none.withdrawn"
    } else {
        "none"
    };
    found(name, 0, vec![("number", fill(number))]).said(refusal, 0)
}

/// Why contents and bodies do not make a box: 11, from writing one. The place is in the contents, or their length.
pub fn of_written(contents: &[u8], bodies: &[u8], refusal: Refusal) -> Reason {
    let at = refusal.place();
    let entry = at / ENTRY;
    let name = ("entry", fill(entry + 1));
    let said = |byte: usize| fill(contents[at - at % ENTRY + byte]);
    let reason = if contents.len() / ENTRY > DECK_CARDS
        || contents.is_empty()
        || !contents.len().is_multiple_of(ENTRY)
    {
        found(
            "deck.contents",
            at,
            vec![
                ("found", many(contents.len(), "byte")),
                ("most", fill(DECK_CARDS)),
            ],
        )
    } else if at >= contents.len() {
        let lengths: usize = contents.chunks(ENTRY).map(|entry| pair(entry, 4)).sum();
        let together = 1 + contents.len() + bodies.len();
        if lengths == bodies.len() {
            found(
                "deck.written",
                at,
                vec![("found", grouped(together)), ("most", grouped(DECK_BYTES))],
            )
        } else {
            found(
                "deck.bodies",
                at,
                vec![
                    ("found", many(bodies.len(), "byte")),
                    ("due", grouped(lengths)),
                ],
            )
        }
    } else {
        match at % ENTRY {
            0 if entry > 0 => {
                let (last, number) = (pair(contents, at - ENTRY), pair(contents, at));
                found(
                    "deck.number",
                    at + 2,
                    vec![name, ("found", fill(number)), ("last", fill(last))],
                )
            }
            6 => found("deck.flag", at + 1, vec![name, ("found", said(6))]),
            7 => found("deck.zero", at + 1, vec![name, ("found", said(7))]),
            _ => plain(11, at),
        }
    };
    reason.said(refusal, at)
}
