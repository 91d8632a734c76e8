//! Texts and the rooms that they are put into.

use crate::card::{Shared, SharedTest};
use crate::limits::UNIT;
use crate::refusal::{Refusal, ROOM};

/// Something that text is put into, one piece behind the other.
pub(crate) trait Text {
    fn bytes(&mut self, bytes: &[u8]);

    /// How many bytes have been put.
    fn length(&self) -> usize;

    /// Puts once more what lies between two former lengths.
    fn again(&mut self, from: usize, to: usize);

    #[inline(always)]
    fn byte(&mut self, byte: u8) {
        self.bytes(&[byte]);
    }

    /// A number below ten, such as a state.
    #[inline(always)]
    fn digit(&mut self, digit: u8) {
        self.byte(b'0' + digit);
    }

    /// Any number; nearly all have one digit or two.
    #[inline(always)]
    fn number(&mut self, number: u32) {
        match number {
            0..10 => self.digit(number as u8),
            10..100 => self.bytes(&[b'0' + (number / 10) as u8, b'0' + (number % 10) as u8]),
            _ => self.long_number(number),
        }
    }

    fn long_number(&mut self, number: u32) {
        let mut digits = [0; 10];
        let mut from = digits.len();
        let mut rest = number;
        while rest > 0 {
            from -= 1;
            digits[from] = b'0' + (rest % 10) as u8;
            rest /= 10;
        }
        self.bytes(&digits[from..]);
    }

    /// The shared number's declaration, a line of its own, if there is one.
    fn declaration(&mut self, shared: Option<Shared>) {
        if let Some(Shared { top, start }) = shared {
            self.bytes(b"global g : [0..");
            self.digit(top);
            self.bytes(b"] init ");
            self.digit(start);
            self.bytes(b";\n");
        }
    }

    /// A test of the shared number.
    fn shared_test(&mut self, SharedTest { differs, value }: SharedTest) {
        self.bytes(if differs { &b"(g!="[..] } else { b"(g=" });
        self.bytes(&[b'0' + value, b')']);
    }

    /// What a branch sets the shared number to.
    fn shared_update(&mut self, value: u8) {
        self.bytes(&[b'(', b'g', b'\'', b'=', b'0' + value, b')']);
    }

    /// A weight, in lowest terms.
    fn weight(&mut self, units: u32) {
        if units == 0 || units == UNIT {
            return self.digit((units == UNIT) as u8);
        }
        let common = greatest_common_divisor(units, UNIT);
        self.number(units / common);
        self.byte(b'/');
        self.number(UNIT / common);
    }
}

/// How long a declaration of the shared number is, and an update of it behind another one.
pub(crate) const DECLARATION: usize = "global g : [0..7] init 7;\n".len();
pub(crate) const SHARED_UPDATE: usize = " & (g'=7)".len();

/// The longest weight.
pub(crate) const WEIGHT_MOST: usize = "277199/277200".len();

fn greatest_common_divisor(mut a: u32, mut b: u32) -> u32 {
    while b != 0 {
        (a, b) = (b, a % b);
    }
    a
}

/// Something that can be printed, always as the same bytes.
pub(crate) trait Print {
    /// How long the text is at most, reckoned without walking through it.
    fn most(&self) -> usize;

    fn print<T: Text>(&self, text: &mut T);
}

/// Keeps no bytes, only their number.
struct Measured(usize);

impl Text for Measured {
    #[inline(always)]
    fn bytes(&mut self, bytes: &[u8]) {
        self.0 += bytes.len();
    }

    #[inline(always)]
    fn length(&self) -> usize {
        self.0
    }

    #[inline(always)]
    fn again(&mut self, from: usize, to: usize) {
        self.0 += to - from;
    }
}

/// A lent room that is known to be large enough, and how much of it is used.
struct Filled<'a> {
    room: &'a mut [u8],
    used: usize,
}

impl Text for Filled<'_> {
    #[inline(always)]
    fn bytes(&mut self, bytes: &[u8]) {
        let end = self.used + bytes.len();
        self.room[self.used..end].copy_from_slice(bytes);
        self.used = end;
    }

    #[inline(always)]
    fn length(&self) -> usize {
        self.used
    }

    #[inline(always)]
    fn again(&mut self, from: usize, to: usize) {
        self.room.copy_within(from..to, self.used);
        self.used += to - from;
    }
}

impl Text for Vec<u8> {
    #[inline(always)]
    fn bytes(&mut self, bytes: &[u8]) {
        self.extend_from_slice(bytes);
    }

    #[inline(always)]
    fn length(&self) -> usize {
        self.len()
    }

    #[inline(always)]
    fn again(&mut self, from: usize, to: usize) {
        self.extend_from_within(from..to);
    }
}

/// Prints into a lent room, or refuses before the first byte is written: a text that might not fit is measured first.
pub(crate) fn print_into<P: Print>(printed: &P, room: &mut [u8]) -> Result<usize, Refusal> {
    if room.len() < printed.most() {
        let needed = length_of(printed);
        if needed > room.len() {
            return Err(Refusal::new(ROOM, needed));
        }
    }
    Ok(put(printed, room))
}

/// How long a text is.
pub(crate) fn length_of<P: Print>(printed: &P) -> usize {
    let mut measured = Measured(0);
    printed.print(&mut measured);
    debug_assert!(measured.0 <= printed.most());
    measured.0
}

/// Prints into a room that is known to be large enough, and gives the text's length.
pub(crate) fn put<P: Print>(printed: &P, room: &mut [u8]) -> usize {
    let mut filled = Filled { room, used: 0 };
    printed.print(&mut filled);
    debug_assert!(filled.used <= printed.most());
    filled.used
}
