//! Asks whether something is so at a seating: `ask CARD-FILE QUESTION SEATS`, the
//! seats as digits, such as `001`. Prints `yes` or `no`.

mod shared;

use std::env;
use std::process::ExitCode;

fn main() -> ExitCode {
    let words: Vec<String> = env::args().skip(1).collect();
    let [file, question, seats] = &words[..] else {
        eprintln!("usage: ask CARD-FILE QUESTION SEATS");
        return ExitCode::from(2);
    };
    let card = match shared::read(file) {
        Ok(card) => card,
        Err(code) => return code,
    };
    match open_panel::ask(&card, question.as_bytes(), &shared::seats(seats)) {
        Ok(holds) => {
            println!("{}", if holds { "yes" } else { "no" });
            ExitCode::SUCCESS
        }
        Err(refusal) => {
            match refusal.line_and_column(&card) {
                Some((line, column)) if !refusal.is_of_question() => {
                    eprintln!("{file}:{line}:{column}: {refusal}");
                }
                _ => eprintln!("{file}: {refusal}"),
            }
            ExitCode::FAILURE
        }
    }
}
