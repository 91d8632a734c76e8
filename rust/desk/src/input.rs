//! What a card is read from: a file or standard input, with or without the line of seats that the panel program reads.

use std::io::{self, Read};
use std::{fs, process};

/// A text that was named on the command line.
pub struct Input {
    /// How it was named.
    pub name: String,
    /// All of its bytes.
    pub bytes: Vec<u8>,
    /// Where the card begins: behind the seats' line, if there is one.
    card: usize,
}

/// The exit status for words that the command does not know.
pub const WRONG_WORDS: i32 = 2;

/// Says what is wrong with the words, and ends.
pub fn wrong_words(what: &str) -> ! {
    eprintln!("desk: {what}\nTry `desk --help`.");
    process::exit(WRONG_WORDS)
}

/// Says which file cannot be read or written, and ends.
pub fn unreachable(name: &str, error: &io::Error) -> ! {
    eprintln!("desk: {name}: {error}");
    process::exit(WRONG_WORDS)
}

/// The bytes of a file, or for `-` of standard input.
pub fn bytes_of(name: &str) -> Vec<u8> {
    let mut bytes = Vec::new();
    let read = match name {
        "-" => io::stdin().read_to_end(&mut bytes).map(|_| ()),
        _ => fs::read(name).map(|read| bytes = read),
    };
    if let Err(error) = read {
        unreachable(name, &error);
    }
    bytes
}

impl Input {
    /// Reads it.
    pub fn read(name: &str) -> Input {
        let bytes = bytes_of(name);
        let card = seats_line(&bytes);
        let name = if name == "-" { "standard input" } else { name };
        Input {
            name: name.to_string(),
            bytes,
            card,
        }
    }

    /// The card.
    pub fn card(&self) -> &[u8] {
        &self.bytes[self.card..]
    }

    /// Where the card begins.
    pub fn card_from(&self) -> usize {
        self.card
    }

    /// The seats' line, if there is one, without its LF.
    pub fn seats(&self) -> Option<&[u8]> {
        let line = &self.bytes[..self.card];
        (!line.is_empty()).then(|| line.strip_suffix(b"\n").unwrap_or(line))
    }
}

/// How long the seats' line is with its LF. No card begins with a digit, so what does is such a line.
fn seats_line(bytes: &[u8]) -> usize {
    let mark = b"\xef\xbb\xbf";
    let begins = bytes.strip_prefix(mark).unwrap_or(bytes);
    let blanks = begins
        .iter()
        .take_while(|byte| matches!(byte, b' ' | b'\t'))
        .count();
    if !begins.get(blanks).is_some_and(u8::is_ascii_digit) {
        return 0;
    }
    bytes
        .iter()
        .position(|&byte| byte == b'\n')
        .map_or(bytes.len(), |end| end + 1)
}

/// Each digit as its value, anything else as no role at all: as the panel program does.
pub fn values(typed: &[u8]) -> Vec<u8> {
    let value = |byte: &u8| {
        if byte.is_ascii_digit() {
            byte - b'0'
        } else {
            u8::MAX
        }
    };
    typed.iter().map(value).collect()
}
