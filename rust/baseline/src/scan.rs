//! From bytes to marks.
//!
//! The reader always knows which marks would fit, so it asks for them one by
//! one instead of being handed marks: most questions are one comparison. What
//! does not fit stops it, and only then [`first_outside`] goes through the rest
//! of the card by the full rules for marks.

use crate::limits::{FURTHER_DIGITS, NUMBER_DIGITS, WORD_DIGITS};
use crate::refusal::{Refusal, LIMIT, OUTSIDE, SHAPE};

/// Why reading stopped; where is the scanner's own place.
#[derive(Clone, Copy, PartialEq, Eq, Debug)]
pub(crate) enum Stop {
    /// What stands there does not continue the shape.
    Shape,
    /// What stands there passes a limit.
    Limit,
}

/// What was asked for, or the reason to stop.
pub(crate) type Fits<T> = Result<T, Stop>;

/// A weight as it is spelled.
#[derive(Clone, Copy)]
pub(crate) enum Spelled {
    Number(u32),
    Decimal {
        whole: u32,
        further: u32,
        digits: usize,
    },
    Fraction(u32, u32),
}

/// A place between two marks of a card or a question.
#[derive(Clone, Copy)]
pub(crate) struct Scanner<'a> {
    bytes: &'a [u8],
    /// Where the next mark, or what separates it from the last, starts.
    at: usize,
    /// Where the mark looked at last starts.
    mark: usize,
}

impl<'a> Scanner<'a> {
    pub(crate) fn new(bytes: &'a [u8]) -> Self {
        Scanner {
            bytes,
            at: 0,
            mark: 0,
        }
    }

    /// The byte at a place. Behind the end it is NUL, which no mark holds.
    #[inline(always)]
    fn byte(&self, at: usize) -> u8 {
        self.bytes.get(at).copied().unwrap_or(0)
    }

    /// Goes to the start of the next mark and gives that mark's first byte.
    #[inline(always)]
    pub(crate) fn peek(&mut self) -> u8 {
        let mut first = self.byte(self.at);
        if first <= b' ' || first == b'/' {
            self.at = past_gap(self.bytes, self.at);
            first = self.byte(self.at);
        }
        self.mark = self.at;
        first
    }

    /// Where the mark looked at last starts.
    #[inline(always)]
    pub(crate) fn mark(&self) -> usize {
        self.mark
    }

    /// Goes back to a mark, to stop there.
    pub(crate) fn back_to(&mut self, mark: usize) {
        self.at = mark;
    }

    /// What a stop here means. Up to here every mark was inside the rules, or it would have stopped us.
    #[cold]
    pub(crate) fn refusal(&self, stop: Stop) -> Refusal {
        match (first_outside(self.bytes, self.at), stop) {
            (Some(outside), _) => Refusal::new(OUTSIDE, outside),
            (None, Stop::Shape) => Refusal::new(SHAPE, self.at),
            (None, Stop::Limit) => Refusal::new(LIMIT, self.at),
        }
    }

    pub(crate) fn at_end(&mut self) -> bool {
        self.peek();
        self.at == self.bytes.len()
    }

    /// Takes a sign of one byte, if it stands there. Not for `!`, which `!=`
    /// also starts with.
    #[inline(always)]
    pub(crate) fn takes(&mut self, sign: u8) -> bool {
        let there = self.peek() == sign;
        if there {
            self.at += 1;
        }
        there
    }

    /// Asks for a sign of one byte.
    #[inline(always)]
    pub(crate) fn sign(&mut self, sign: u8) -> Fits<()> {
        if self.takes(sign) {
            Ok(())
        } else {
            Err(Stop::Shape)
        }
    }

    /// Asks for a sign of two bytes.
    #[inline(always)]
    pub(crate) fn long_sign(&mut self, sign: [u8; 2]) -> Fits<()> {
        if self.peek() == sign[0] && self.byte(self.at + 1) == sign[1] {
            self.at += 2;
            Ok(())
        } else {
            Err(Stop::Shape)
        }
    }

    /// Takes a `!` that is not the start of `!=`.
    #[inline(always)]
    pub(crate) fn takes_not(&mut self) -> bool {
        let there = self.peek() == b'!' && self.byte(self.at + 1) != b'=';
        if there {
            self.at += 1;
        }
        there
    }

    /// Asks for `=` or `!=`; the answer says whether it was the latter.
    #[inline(always)]
    pub(crate) fn relation(&mut self) -> Fits<bool> {
        if self.takes(b'=') {
            Ok(false)
        } else {
            self.long_sign(*b"!=").map(|()| true)
        }
    }

    /// Takes a keyword, if it stands there as a whole word.
    pub(crate) fn takes_keyword(&mut self, word: &[u8]) -> bool {
        self.peek();
        let end = self.at + word.len();
        let there = self.bytes.get(self.at..end) == Some(word) && !continues_word(self.byte(end));
        if there {
            self.at = end;
        }
        there
    }

    /// Asks for a keyword.
    pub(crate) fn keyword(&mut self, word: &[u8]) -> Fits<()> {
        if self.takes_keyword(word) {
            Ok(())
        } else {
            Err(Stop::Shape)
        }
    }

    /// Asks for a word made of this stem and a number.
    #[inline(always)]
    fn numbered_word(&mut self, stem: &[u8]) -> Fits<u32> {
        self.peek();
        let digits = self.at + stem.len();
        if self.bytes.get(self.at..digits) != Some(stem) {
            return Err(Stop::Shape);
        }
        match number_at(self.bytes, digits, WORD_DIGITS) {
            Some((number, end)) if !continues_word(self.byte(end)) => {
                self.at = end;
                Ok(number)
            }
            _ => Err(Stop::Shape),
        }
    }

    /// Asks for a seat word and gives its number.
    #[inline(always)]
    pub(crate) fn seat_word(&mut self) -> Fits<u32> {
        self.numbered_word(b"s")
    }

    /// Asks for a module word and gives its number.
    pub(crate) fn module_word(&mut self) -> Fits<u32> {
        self.numbered_word(b"process")
    }

    /// Asks for a number that is not part of a decimal.
    #[inline(always)]
    pub(crate) fn number(&mut self) -> Fits<u32> {
        self.peek();
        match number_at(self.bytes, self.at, NUMBER_DIGITS) {
            Some((number, end)) if !self.further_digits_at(end) => {
                self.at = end;
                Ok(number)
            }
            _ => Err(Stop::Shape),
        }
    }

    /// Asks for something spelled like a weight; [`Scanner::mark`] is then not
    /// its start.
    #[inline(always)]
    pub(crate) fn weight(&mut self) -> Fits<Spelled> {
        self.peek();
        let Some((number, end)) = number_at(self.bytes, self.at, NUMBER_DIGITS) else {
            return Err(Stop::Shape);
        };
        if self.further_digits_at(end) {
            let (further, digits) = self.further_digits(end + 1)?;
            self.at = end + 1 + digits;
            return Ok(Spelled::Decimal {
                whole: number,
                further,
                digits,
            });
        }
        self.at = end;
        if self.takes(b'/') {
            return Ok(Spelled::Fraction(number, self.number()?));
        }
        Ok(Spelled::Number(number))
    }

    /// Whether something spelled like a weight starts at the next mark.
    pub(crate) fn weight_starts(&mut self) -> bool {
        // Only the first mark of a weight counts, so this is not `weight`.
        self.peek();
        number_at(self.bytes, self.at, NUMBER_DIGITS).is_some()
    }

    /// Whether a point and a digit stand behind a number, which makes both a decimal.
    #[inline(always)]
    fn further_digits_at(&self, end: usize) -> bool {
        self.byte(end) == b'.' && self.byte(end + 1).is_ascii_digit()
    }

    /// The digits behind a decimal's point as a number, and how many there are.
    fn further_digits(&self, from: usize) -> Fits<(u32, usize)> {
        let mut value = 0;
        let mut digits = 0;
        while let digit @ b'0'..=b'9' = self.byte(from + digits) {
            if digits == FURTHER_DIGITS {
                return Err(Stop::Shape);
            }
            value = value * 10 + u32::from(digit - b'0');
            digits += 1;
        }
        Ok((value, digits))
    }
}

/// Whether a byte behind a word would belong to that word.
#[inline(always)]
fn continues_word(byte: u8) -> bool {
    byte.is_ascii_alphanumeric() || byte == b'_'
}

/// Past blanks and comments.
#[inline(always)]
fn past_gap(bytes: &[u8], mut at: usize) -> usize {
    loop {
        match bytes.get(at) {
            Some(b' ' | b'\t' | b'\r' | b'\n') => at += 1,
            Some(b'/') if bytes.get(at + 1) == Some(&b'/') => {
                // The LF itself is a blank and goes in the next round.
                let comment = &bytes[at..];
                at += comment
                    .iter()
                    .position(|&byte| byte == b'\n')
                    .unwrap_or(comment.len());
            }
            _ => return at,
        }
    }
}

/// The number whose run of digits starts at a place, and where the run ends;
/// nothing if there is no digit, a leading zero, or a digit too many.
#[inline(always)]
fn number_at(bytes: &[u8], from: usize, most_digits: usize) -> Option<(u32, usize)> {
    let digit = |at: usize| {
        let digit = bytes
            .get(at)
            .map_or(u8::MAX, |byte| byte.wrapping_sub(b'0'));
        (digit <= 9).then_some(u32::from(digit))
    };
    let mut value = digit(from)?;
    let mut end = from + 1;
    while let Some(next) = digit(end) {
        if value == 0 || end - from == most_digits {
            return None;
        }
        value = value * 10 + next;
        end += 1;
    }
    Some((value, end))
}

/// The first mark outside the rules at or behind a place where a mark, or what
/// separates marks, starts.
fn first_outside(bytes: &[u8], from: usize) -> Option<usize> {
    let run = |from: usize, belongs: fn(u8) -> bool| {
        let rest = &bytes[from..];
        let end = rest.iter().position(|&byte| !belongs(byte));
        from + end.unwrap_or(rest.len())
    };
    let byte = |at: usize| bytes.get(at).copied().unwrap_or(0);
    let mut at = past_gap(bytes, from);
    while at < bytes.len() {
        let end = match (bytes[at], byte(at + 1)) {
            (b'a'..=b'z' | b'A'..=b'Z', _) => run(at, continues_word),
            (b'0'..=b'9', _) => {
                let (_, end) = match number_at(bytes, at, NUMBER_DIGITS) {
                    Some(number) => number,
                    None => return Some(at),
                };
                if byte(end) == b'.' && byte(end + 1).is_ascii_digit() {
                    let further_end = run(end + 1, |byte| byte.is_ascii_digit());
                    if further_end - (end + 1) > FURTHER_DIGITS {
                        return Some(at);
                    }
                    further_end
                } else {
                    end
                }
            }
            (b'.', b'.') | (b'-', b'>') | (b'!', b'=') => at + 2,
            (
                b'[' | b']' | b':' | b';' | b'=' | b'!' | b'&' | b'|' | b'(' | b')' | b'+' | b'\''
                | b',' | b'/',
                _,
            ) => at + 1,
            _ => return Some(at),
        };
        at = past_gap(bytes, end);
    }
    None
}

#[cfg(test)]
mod tests {
    use super::first_outside;

    #[track_caller]
    fn outside(text: &str, place: Option<usize>) {
        assert_eq!(first_outside(text.as_bytes(), 0), place, "{text:?}");
    }

    #[test]
    fn points() {
        outside("1.", Some(1));
        outside(".5", Some(0));
        outside("...", Some(2));
        outside("1.0.0", Some(3));
        outside("1..2", None);
        outside("0..2", None);
        outside("1...2", Some(3));
    }

    #[test]
    fn numbers() {
        outside("123456", None);
        outside("1234567", Some(0));
        outside("007", Some(0));
        outside("00.5", Some(0));
        outside("01/2", Some(0));
        outside("0.123456", None);
        outside("0.1234567", Some(0));
        outside("123456.123456", None);
        outside("0x", None);
    }

    #[test]
    fn words_and_signs() {
        outside("s01 s123456 process007 a_1", None);
        outside("_a", Some(0));
        outside("a - b", Some(2));
        outside("a -> b", None);
        outside("a > b", Some(2));
        outside("!!=!", None);
        outside("a\0", Some(1));
        outside("\u{e9}", Some(0));
    }

    #[test]
    fn comments_hold_anything() {
        outside("1//2 \u{e9} < \0", None);
        outside("// <\n<", Some(5));
        outside("1 / / 2", None);
    }
}
