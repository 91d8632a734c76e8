//! Marks, and how they are laid out as bytes.

use crate::random::Random;

const MOST_BYTES: usize = 23;

/// A mark, or a few bytes that look like one.
#[derive(Clone, Copy, PartialEq, Eq)]
pub struct Mark {
    length: u8,
    bytes: [u8; MOST_BYTES],
}

impl Mark {
    /// A mark of these bytes.
    pub fn new(text: &[u8]) -> Mark {
        let mut bytes = [0; MOST_BYTES];
        bytes[..text.len()].copy_from_slice(text);
        Mark {
            length: text.len() as u8,
            bytes,
        }
    }

    /// A number.
    pub fn number(number: usize) -> Mark {
        Mark::numbered(b"", number)
    }

    /// A seat word.
    pub fn seat(seat: usize) -> Mark {
        Mark::numbered(b"s", seat)
    }

    /// A module word.
    pub fn module(seat: usize) -> Mark {
        Mark::numbered(b"process", seat)
    }

    fn numbered(stem: &[u8], number: usize) -> Mark {
        let mut bytes = [0; MOST_BYTES];
        bytes[..stem.len()].copy_from_slice(stem);
        let mut digits = 1;
        while number / 10usize.pow(digits) > 0 {
            digits += 1;
        }
        let end = stem.len() + digits as usize;
        let mut rest = number;
        for place in (stem.len()..end).rev() {
            bytes[place] = b'0' + (rest % 10) as u8;
            rest /= 10;
        }
        Mark {
            length: end as u8,
            bytes,
        }
    }

    /// Its bytes.
    pub fn bytes(&self) -> &[u8] {
        &self.bytes[..self.length.into()]
    }

    /// Whether it is a number.
    pub fn is_number(&self) -> bool {
        self.bytes().iter().all(u8::is_ascii_digit)
    }

    /// What it is worth, if it is a number.
    pub fn value(&self) -> usize {
        let digits = self.bytes().iter().filter(|byte| byte.is_ascii_digit());
        digits.fold(0, |value, digit| 10 * value + usize::from(digit - b'0'))
    }

    /// Whether it is this stem and a number.
    pub fn is_numbered(&self, stem: &[u8]) -> bool {
        let rest = self.bytes().strip_prefix(stem);
        rest.is_some_and(|rest| !rest.is_empty() && rest.iter().all(u8::is_ascii_digit))
    }
}

/// How blanks are set between marks.
#[derive(Clone, Copy)]
pub enum Layout {
    /// Only where two marks would become one.
    Tight,
    /// One between any two marks.
    Blanks,
    /// Anything that separates, comments too, nearly anywhere.
    Loose,
}

impl Layout {
    /// Any layout.
    pub fn any(random: &mut Random) -> Layout {
        random.pick(&[Layout::Tight, Layout::Blanks, Layout::Loose])
    }
}

/// The bytes of some marks.
pub fn lay_out(marks: &[Mark], layout: Layout, random: &mut Random) -> Vec<u8> {
    let mut bytes = Vec::with_capacity(marks.len() * 4);
    if matches!(layout, Layout::Loose) && random.once_in(4) {
        separate(&mut bytes, random);
    }
    for (place, mark) in marks.iter().enumerate() {
        if place > 0 {
            let needed = would_merge(bytes.last().copied(), mark.bytes().first().copied());
            match layout {
                Layout::Tight if needed => bytes.push(b' '),
                Layout::Tight => {}
                Layout::Blanks => bytes.push(b' '),
                Layout::Loose if needed || random.once_in(3) => separate(&mut bytes, random),
                Layout::Loose => {}
            }
        }
        bytes.extend(mark.bytes());
    }
    if !matches!(layout, Layout::Tight) && random.once_in(2) {
        separate(&mut bytes, random);
    }
    bytes
}

fn would_merge(last: Option<u8>, first: Option<u8>) -> bool {
    let (Some(last), Some(first)) = (last, first) else {
        return false;
    };
    let in_word = |byte: u8| byte.is_ascii_alphanumeric() || byte == b'_';
    in_word(last) && in_word(first)
        || matches!(
            (last, first),
            (b'!', b'=') | (b'/', b'/') | (b'.', b'.') | (b'-', b'>')
        )
}

/// Puts something that separates.
fn separate(bytes: &mut Vec<u8>, random: &mut Random) {
    // A sign `/` would make any comment start one byte early.
    if bytes.last() == Some(&b'/') {
        bytes.push(b' ');
    }
    for _ in 0..random.between(1, 2) {
        match random.below(16) {
            0 => bytes.push(b'\t'),
            1 => bytes.extend(b"\r\n"),
            2 => bytes.extend(b"// <a> \xff\0 // s1=0\n"),
            3 => bytes.extend(random.pick(&[
                &b"//\n"[..],
                b"//\r0\n",
                b"// \x0b;\r\n",
                b"/// /\n",
                b"// 0.5\n",
            ])),
            4 => bytes.extend(b"   "),
            5..=8 => bytes.push(b'\n'),
            _ => bytes.push(b' '),
        }
    }
}
