//! Stored files, in the two forms that `vectors/README.md` tells.

use std::path::Path;
use std::{fs, str};

/// How large the rooms were when the base's answers were stored.
const ROOM: &[u8] = b"32768";

/// The bytes of a file.
pub fn file(path: impl AsRef<Path>) -> Vec<u8> {
    let path = path.as_ref();
    fs::read(path).unwrap_or_else(|error| panic!("{}: {error}", path.display()))
}

/// The base's inputs.
pub fn base() -> Vec<Input> {
    inputs(&file(concat!(
        env!("CARGO_MANIFEST_DIR"),
        "/../../vectors/base.cases"
    )))
}

/// Those of the base that were taken until decimals were retired, with fractions in their place.
pub fn fractions() -> Vec<Input> {
    inputs(&file(concat!(
        env!("CARGO_MANIFEST_DIR"),
        "/../../vectors/fractions.cases"
    )))
}

/// A file of cases.
pub enum Cases {
    /// What the panel program reads, one after the other. Each is a call of every entry of the base.
    Inputs(Vec<Input>),
    /// Calls: the entry's name and what it is handed.
    Calls(Vec<Vec<Vec<u8>>>),
}

impl Cases {
    /// Reads a file of cases, in either form.
    pub fn new(bytes: &[u8]) -> Cases {
        calls(bytes).map_or_else(|| Cases::Inputs(inputs(bytes)), Cases::Calls)
    }

    /// How many there are.
    pub fn count(&self) -> usize {
        match self {
            Cases::Inputs(inputs) => inputs.len(),
            Cases::Calls(calls) => calls.len(),
        }
    }

    /// What an entry is handed in the case of a number, if that is a call of it.
    pub fn call(&self, number: usize, entry: &str) -> Option<Vec<Vec<u8>>> {
        match self {
            Cases::Inputs(inputs) => inputs[number].call(entry),
            Cases::Calls(calls) => {
                let (name, pieces) = calls[number].split_first()?;
                (name == entry.as_bytes()).then(|| pieces.to_vec())
            }
        }
    }

    /// The answers of a file, one for each case; the last `case` that is due is where the next begins.
    pub fn answers<'a>(&self, mut rest: &'a [u8]) -> Vec<Answer<'a>> {
        let mut answers = Vec::new();
        for number in 0..self.count() {
            let heading = format!("case {number}\n");
            let behind = rest.strip_prefix(heading.as_bytes());
            let behind = behind.unwrap_or_else(|| panic!("`case {number}` is missing"));
            let next = format!("\ncase {}\n", number + 1);
            let end = behind
                .windows(next.len())
                .position(|part| part == next.as_bytes());
            let (answer, behind) = behind.split_at(end.map_or(behind.len(), |end| end + 1));
            answers.push(self.answer(answer));
            rest = behind;
        }
        assert!(rest.is_empty());
        answers
    }

    fn answer<'a>(&self, stored: &'a [u8]) -> Answer<'a> {
        if let Some(refusal) = refusal(stored) {
            return refusal;
        }
        match self {
            Cases::Inputs(_) => Answer::Text(stored),
            Cases::Calls(_) => counted(stored).map_or(Answer::Words(stored), Answer::Text),
        }
    }
}

/// What is stored as the answer to a call.
#[derive(Clone, Copy)]
pub enum Answer<'a> {
    /// A refusal: its number and its place.
    Refused(u8, usize),
    /// A text.
    Text(&'a [u8]),
    /// Anything else, as the entry's own words, with LF.
    Words(&'a [u8]),
}

impl<'a> Answer<'a> {
    /// A deck: `ok LENGTH`, LF, twice as many hex digits, LF.
    pub fn deck(&self) -> Option<Vec<u8>> {
        let Answer::Words(words) = self else {
            return None;
        };
        let (deck, behind) = digits(words)?;
        behind.is_empty().then_some(deck)
    }

    /// A mended deck, and behind it its list as a text: `ok LENGTH`, LF, so many bytes, LF.
    pub fn mended(&self) -> Option<(Vec<u8>, &'a [u8])> {
        let Answer::Words(words) = self else {
            return None;
        };
        let (deck, behind) = digits(words)?;
        Some((deck, counted(behind)?))
    }

    /// A deck that was changed where it stood: `length LENGTH`, LF, two hex digits for each byte that was lent, LF.
    pub fn changed(&self) -> Option<(usize, Vec<u8>)> {
        let Answer::Words(words) = self else {
            return None;
        };
        let (length, deck, behind) = digits_behind(b"length ", words)?;
        let right = behind.is_empty() && length <= deck.len();
        right.then_some((length, deck))
    }
}

impl Answer<'_> {
    /// Odds: `odds V`, LF, and the numbers of each row on a line; both rows are handed back as bytes.
    pub fn odds(&self) -> Option<(u32, Vec<u8>)> {
        let Answer::Words(words) = self else {
            return None;
        };
        let mut lines = str::from_utf8(words).ok()?.strip_suffix('\n')?.split('\n');
        let chance = lines.next()?.strip_prefix("odds ")?.parse().ok()?;
        let mut rows = Vec::new();
        for line in [lines.next()?, lines.next()?] {
            for number in line.split(' ') {
                rows.extend(number.parse::<u32>().ok()?.to_le_bytes());
            }
        }
        lines.next().is_none().then_some((chance, rows))
    }
}

/// `refused R P` and LF.
fn refusal(stored: &[u8]) -> Option<Answer<'_>> {
    let words = str::from_utf8(stored).ok()?;
    let (number, place) = words.strip_prefix("refused ")?.trim_end().split_once(' ')?;
    Some(Answer::Refused(number.parse().ok()?, place.parse().ok()?))
}

/// A deck in digits behind its length, and what stands behind its line.
fn digits(words: &[u8]) -> Option<(Vec<u8>, &[u8])> {
    let (length, deck, behind) = digits_behind(b"ok ", words)?;
    (length == deck.len()).then_some((deck, behind))
}

/// Bytes in digits on a line of their own, behind a line of a word and a number, and what stands behind.
fn digits_behind<'a>(word: &[u8], words: &'a [u8]) -> Option<(usize, Vec<u8>, &'a [u8])> {
    let end_of_line = |words: &[u8]| words.iter().position(|&byte| byte == b'\n');
    let words = words.strip_prefix(word)?;
    let (number, words) = words.split_at(end_of_line(words)?);
    let (digits, behind) = words[1..].split_at(end_of_line(&words[1..])?);
    let (pairs, rest) = digits.as_chunks::<2>();
    let byte = |pair: &[u8; 2]| u8::from_str_radix(str::from_utf8(pair).ok()?, 16).ok();
    let bytes: Vec<u8> = pairs.iter().map(byte).collect::<Option<_>>()?;
    let number = str::from_utf8(number).ok()?.parse().ok()?;
    rest.is_empty().then_some((number, bytes, &behind[1..]))
}

/// A text behind its length: `ok LENGTH`, LF, so many bytes, LF.
fn counted(stored: &[u8]) -> Option<&[u8]> {
    let behind = stored.strip_prefix(b"ok ")?;
    let end = behind.iter().position(|&byte| byte == b'\n')?;
    let length: usize = str::from_utf8(&behind[..end]).ok()?.parse().ok()?;
    behind[end + 1..]
        .strip_suffix(b"\n")
        .filter(|text| text.len() == length)
}

/// What the panel program reads: a line of seats and the card.
pub struct Input(Vec<u8>);

impl Input {
    fn parts(&self) -> (&[u8], &[u8]) {
        let Input(bytes) = self;
        match bytes.iter().position(|&byte| byte == b'\n') {
            Some(end) => (&bytes[..end], &bytes[end + 1..]),
            None => (bytes, &[]),
        }
    }

    /// Its card.
    pub fn card(&self) -> &[u8] {
        self.parts().1
    }

    /// Its seats.
    pub fn seats(&self) -> Vec<u8> {
        let states = self.parts().0.iter();
        states
            .map(|byte| match byte {
                b'0'..=b'9' => byte - b'0',
                _ => 255,
            })
            .collect()
    }

    fn call(&self, entry: &str) -> Option<Vec<Vec<u8>>> {
        let (card, room) = (self.card().to_vec(), ROOM.to_vec());
        Some(match entry {
            "program" => vec![self.0.clone()],
            "read" => vec![card],
            "write" | "reduce" => vec![card, room],
            "panel" => vec![card, self.seats(), room],
            _ => return None,
        })
    }
}

/// Records of a length in four bytes, low byte first, and so many bytes.
fn inputs(mut rest: &[u8]) -> Vec<Input> {
    let mut inputs = Vec::new();
    while !rest.is_empty() {
        let record = piece(&mut rest).expect("records are whole");
        inputs.push(Input(record.to_vec()));
    }
    inputs
}

/// Records of a number of pieces and so many of them, the first a name; nothing if the bytes are no such records.
fn calls(mut rest: &[u8]) -> Option<Vec<Vec<Vec<u8>>>> {
    let mut calls = Vec::new();
    while let Some((count, behind)) = rest.split_first() {
        rest = behind;
        let pieces = (0..*count).map(|_| piece(&mut rest).map(<[u8]>::to_vec));
        let pieces: Vec<_> = pieces.collect::<Option<_>>()?;
        let name = pieces.first()?;
        if !name
            .iter()
            .all(|byte| byte.is_ascii_lowercase() || *byte == b'_')
        {
            return None;
        }
        calls.push(pieces);
    }
    Some(calls)
}

fn piece<'a>(rest: &mut &'a [u8]) -> Option<&'a [u8]> {
    let (length, behind) = rest.split_first_chunk()?;
    let (piece, behind) = behind.split_at_checked(u32::from_le_bytes(*length) as usize)?;
    *rest = behind;
    Some(piece)
}
