//! The panel program, as a function from its input to its output.

use crate::limits::INPUT_BYTES;
use crate::panel::panel_text;

/// What a seat's byte means if it is no digit: a state that no card has.
const NO_STATE: u8 = u8::MAX;

/// The panel program: a line of seats and a card in, the panel or a refusal out.
pub fn program(input: &[u8]) -> Vec<u8> {
    let input = &input[..input.len().min(INPUT_BYTES)];
    let (line, card) = match input.iter().position(|&byte| byte == b'\n') {
        Some(end) => (&input[..end], &input[end + 1..]),
        None => (input, &[][..]),
    };
    let seats: Vec<u8> = line.iter().map(|&byte| state_of_digit(byte)).collect();
    match panel_text(card, &seats) {
        Ok(text) => text,
        Err(refusal) => format!("{refusal}\n").into_bytes(),
    }
}

fn state_of_digit(byte: u8) -> u8 {
    match byte {
        b'0'..=b'9' => byte - b'0',
        _ => NO_STATE,
    }
}

#[cfg(test)]
mod tests {
    use super::*;

    const CARD: &str = "probabilistic module process1 s1 : [0..1] init 0; \
        [] s1=0 -> 1:(s1'=1); endmodule";

    #[track_caller]
    fn prints(input: &str, output: &str) {
        let printed = program(input.as_bytes());
        assert_eq!(String::from_utf8_lossy(&printed), output);
    }

    #[test]
    fn panels_and_refusals() {
        let panel = "probabilistic\nseats 1 enabled 1\ncounts 1 0\nmove 0 1 277200\n";
        prints(&format!("0\n{CARD}"), panel);
        prints(&format!("2\n{CARD}"), "refused 9 0\n");
        prints(&format!("x\n{CARD}"), "refused 9 0\n");
        prints(&format!("0\r\n{CARD}"), "refused 8 0\n");
        prints(&format!("\n{CARD}"), "refused 8 0\n");
        prints("0\n<", "refused 2 0\n");
    }

    #[test]
    fn without_a_line_end_the_card_is_empty() {
        prints("", "refused 3 0\n");
        prints("0", "refused 3 0\n");
        prints(CARD, "refused 3 0\n");
    }

    #[test]
    fn nothing_is_read_behind_the_bound() {
        // The line's end is the last byte that is read, or the first that is not.
        let line = "0".repeat(INPUT_BYTES - 1);
        prints(&format!("{line}\n{CARD}"), "refused 3 0\n");
        let line = "0".repeat(INPUT_BYTES - 1 - CARD.len());
        prints(&format!("{line}\n{CARD}<"), "refused 8 0\n");
        let longer = "0".repeat(INPUT_BYTES);
        prints(&format!("{longer}\n{CARD}"), "refused 3 0\n");
    }
}
