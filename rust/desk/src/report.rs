//! A refusal as it is printed: where, what, the line with the place underlined, and a hint.

use std::env;
use std::io::{self, IsTerminal};
use std::ops::Range;

use crate::reason::Reason;

/// The widest part of a line that is shown.
const WIDEST: usize = 120;

/// Prints a refusal to standard error: the bytes of `text` that it is about, and what `text` is called.
pub fn print(name: &str, text: &[u8], span: Range<usize>, reason: &Reason) {
    let coloured = io::stderr().is_terminal() && env::var_os("NO_COLOR").is_none();
    eprint!("{}", report(name, text, span, reason, coloured));
}

/// A refusal as lines of text.
pub fn report(
    name: &str,
    text: &[u8],
    span: Range<usize>,
    reason: &Reason,
    coloured: bool,
) -> String {
    let (line, column) = line_and_column(text, span.start);
    let (number, place) = (reason.refusal.number(), reason.refusal.place());
    let head = format!("{name}:{line}:{column}: ");
    let said = format!("refused {number} {place}: {}", reason.sentence);
    let (shown, under) = snippet(text, &span);
    under_line(
        &head,
        &said,
        &line.to_string(),
        &shown,
        &under,
        reason.hint.as_deref(),
        coloured,
    )
}

/// A refusal of something that has no lines: what is shown of it, and what is underlined.
pub fn plain_report(name: &str, label: &str, shown: &str, under: &str, reason: &Reason) -> String {
    let (number, place) = (reason.refusal.number(), reason.refusal.place());
    let said = format!("refused {number} {place}: {}", reason.sentence);
    under_line(
        &format!("{name}: "),
        &said,
        label,
        shown,
        under,
        reason.hint.as_deref(),
        false,
    )
}

fn under_line(
    head: &str,
    said: &str,
    label: &str,
    shown: &str,
    under: &str,
    hint: Option<&str>,
    coloured: bool,
) -> String {
    let paint = |code: &str, text: &str| match coloured {
        true => format!("\x1b[{code}m{text}\x1b[0m"),
        false => text.to_string(),
    };
    let margin = " ".repeat(label.len().max(3));
    let mut made = format!("{}{}\n", paint("1", head), paint("1;31", said));
    if !under.is_empty() {
        made += &format!(" {label:>width$} | {shown}\n", width = margin.len());
        made += &format!(" {margin} | {}\n", paint("1;31", under));
    }
    if let Some(hint) = hint {
        made += &format!(" {margin} = {}\n", paint("36", &format!("hint: {hint}")));
    }
    made
}

/// Line and column of a byte, both from 1; a column is a character.
pub fn line_and_column(text: &[u8], at: usize) -> (usize, usize) {
    let before = &text[..at];
    let start = before
        .iter()
        .rposition(|&byte| byte == b'\n')
        .map_or(0, |end| end + 1);
    let line = before.iter().filter(|&&byte| byte == b'\n').count() + 1;
    (line, characters(&before[start..]).len() + 1)
}

/// The characters of a line, each as it is shown, with its length in bytes.
fn characters(line: &[u8]) -> Vec<(String, usize)> {
    let mut all = Vec::new();
    let mut rest = line;
    while let Some(&first) = rest.first() {
        let longest = rest.len().min(4);
        let valid = (1..=longest).find_map(|length| {
            Some((
                std::str::from_utf8(&rest[..length]).ok()?.chars().next()?,
                length,
            ))
        });
        let (shown, length) = match valid {
            Some(('\t', _)) => ("\t".to_string(), 1),
            Some(('\r', _)) => ("\\r".to_string(), 1),
            Some(('\u{feff}', length)) => ("<byte order mark>".to_string(), length),
            Some((character, length)) if !character.is_control() => (character.to_string(), length),
            _ => (format!("\\x{first:02x}"), 1),
        };
        all.push((shown, length));
        rest = &rest[length..];
    }
    all
}

/// The line of a span, and what underlines the span in it.
fn snippet(text: &[u8], span: &Range<usize>) -> (String, String) {
    let start = text[..span.start]
        .iter()
        .rposition(|&byte| byte == b'\n')
        .map_or(0, |end| end + 1);
    let end = text[start..]
        .iter()
        .position(|&byte| byte == b'\n')
        .map_or(text.len(), |end| start + end);
    // CR before LF is shown only where it is what is wrong
    let end = if text[start..end].ends_with(b"\r") && span.start < end - 1 {
        end - 1
    } else {
        end
    };
    let all = characters(&text[start..end.max(span.start)]);
    let (mut shown, mut under, mut at) = (String::new(), String::new(), start);
    let before = text[start..span.start].len();
    let from = if all.len() > WIDEST {
        before.saturating_sub(WIDEST / 2)
    } else {
        0
    };
    let cut = if from > 0 { ".." } else { "" };
    shown += cut;
    under += &" ".repeat(cut.len());
    let mut width = 0;
    for (character, length) in all {
        if at - start >= from {
            if width >= WIDEST {
                shown += "..";
                break;
            }
            width += 1;
            let here = span.contains(&at) || span.is_empty() && at == span.start;
            let sign = if here { '^' } else { ' ' };
            under += &match &*character {
                "\t" if sign == ' ' => "\t".to_string(),
                "\t" => "^\t".to_string(),
                other => sign.to_string().repeat(other.chars().count()),
            };
            shown += &character;
        }
        at += length;
    }
    // the end of the text is behind its last character
    if !under.contains('^') {
        under.push('^');
    }
    (shown, under.trim_end().to_string())
}
