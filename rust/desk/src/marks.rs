//! The marks of a card or a question, for saying what was found. What a text means is the library's to say: this only cuts it.

/// Most digits of a number, and behind a decimal's point.
pub const NUMBER_DIGITS: usize = 6;
/// Most digits of the number in a seat or module word.
pub const WORD_DIGITS: usize = 5;

/// What a mark is.
#[derive(Clone, Copy, PartialEq, Eq, Debug)]
pub enum Kind {
    /// A word that is no seat and no module.
    Word,
    /// `s` and a number.
    Seat(u32),
    /// `process` and a number.
    Module(u32),
    /// A number.
    Number(u32),
    /// A number with a point and further digits.
    Decimal,
    /// A sign.
    Sign,
    /// Bytes that make no mark.
    Wrong,
    /// The end of the text.
    End,
}

/// A mark and where it stands.
#[derive(Clone, Copy, PartialEq, Eq, Debug)]
pub struct Mark {
    /// What it is.
    pub kind: Kind,
    /// Its first byte.
    pub at: usize,
    /// The byte behind its last.
    pub end: usize,
}

impl Mark {
    /// Its bytes.
    pub fn of<'t>(&self, text: &'t [u8]) -> &'t [u8] {
        &text[self.at..self.end]
    }
}

/// All marks of a text, up to the first that is wrong, or else its end; that one is the last.
pub fn marks(text: &[u8]) -> Vec<Mark> {
    let mut marks = Vec::new();
    let mut at = 0;
    loop {
        at = behind_blanks(text, at);
        let mark = mark(text, at);
        at = mark.end;
        marks.push(mark);
        if matches!(mark.kind, Kind::Wrong | Kind::End) {
            return marks;
        }
    }
}

/// The end of the run of bytes from a place on that are such.
fn run(text: &[u8], from: usize, such: impl Fn(u8) -> bool) -> usize {
    let more = text[from..].iter().take_while(|&&byte| such(byte)).count();
    from + more
}

fn behind_blanks(text: &[u8], mut at: usize) -> usize {
    loop {
        at = run(text, at, |byte| {
            matches!(byte, b' ' | b'\t' | b'\r' | b'\n')
        });
        if !text[at..].starts_with(b"//") {
            return at;
        }
        at = run(text, at, |byte| byte != b'\n');
    }
}

fn mark(text: &[u8], at: usize) -> Mark {
    let made = |kind, end| Mark { kind, at, end };
    let Some(&first) = text.get(at) else {
        return made(Kind::End, at);
    };
    let digit = |byte: u8| byte.is_ascii_digit();
    if digit(first) {
        let end = run(text, at, digit);
        let whole = number(&text[at..end], NUMBER_DIGITS);
        if text.get(end) == Some(&b'.') && text.get(end + 1).copied().is_some_and(digit) {
            let last = run(text, end + 1, digit);
            let digits = last - end - 1;
            let kind = match whole {
                Some(_) if digits <= NUMBER_DIGITS => Kind::Decimal,
                _ => Kind::Wrong,
            };
            return made(kind, last);
        }
        return made(whole.map_or(Kind::Wrong, Kind::Number), end);
    }
    if first.is_ascii_alphabetic() {
        let end = run(text, at, |byte| {
            byte.is_ascii_alphanumeric() || byte == b'_'
        });
        let word = &text[at..end];
        let numbered = |stem: &[u8]| number(word.strip_prefix(stem)?, WORD_DIGITS);
        let kind = numbered(b"s").map(Kind::Seat);
        let kind = kind.or_else(|| numbered(b"process").map(Kind::Module));
        return made(kind.unwrap_or(Kind::Word), end);
    }
    if [&b".."[..], b"->", b"!="]
        .iter()
        .any(|sign| text[at..].starts_with(sign))
    {
        return made(Kind::Sign, at + 2);
    }
    let kind = match first {
        b'[' | b']' | b':' | b';' | b'=' | b'!' | b'&' | b'|' | b'(' | b')' | b'+' | b'\''
        | b',' | b'/' => Kind::Sign,
        _ => Kind::Wrong,
    };
    made(kind, at + 1)
}

/// Digits as a number, without a zero in front and not too many.
fn number(digits: &[u8], most: usize) -> Option<u32> {
    let good = matches!(digits, [b'0'] | [b'1'..=b'9', ..])
        && digits.len() <= most
        && digits.iter().all(u8::is_ascii_digit);
    good.then(|| value(digits))
}

fn value(digits: &[u8]) -> u32 {
    digits
        .iter()
        .fold(0, |value, digit| 10 * value + u32::from(digit - b'0'))
}
