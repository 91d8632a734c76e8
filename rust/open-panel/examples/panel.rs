//! Prints the panel of a card file and a seating: `panel CARD-FILE SEATS`, the
//! seats as digits, such as `001`.

mod shared;

use std::env;
use std::process::ExitCode;

fn main() -> ExitCode {
    let words: Vec<String> = env::args().skip(1).collect();
    let [file, seats] = &words[..] else {
        eprintln!("usage: panel CARD-FILE SEATS");
        return ExitCode::from(2);
    };
    let card = match shared::read(file) {
        Ok(card) => card,
        Err(code) => return code,
    };
    match open_panel::show_to_vec(&card, &shared::seats(seats)) {
        Ok(panel) => {
            print!("{}", String::from_utf8_lossy(&panel));
            ExitCode::SUCCESS
        }
        Err(refusal) => {
            match refusal.line_and_column(&card) {
                Some((line, column)) => eprintln!("{file}:{line}:{column}: {refusal}"),
                None => eprintln!("{file}: {refusal}"),
            }
            ExitCode::FAILURE
        }
    }
}
