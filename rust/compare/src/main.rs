//! Runs the comparison: `compare [--seed N] [--inputs N] [--only K] [--threads N]`.
//!
//! Without words it tries 100,000 inputs and fails if any answer, text or byte
//! around it differs, or if something was tried too seldom. A fault names the
//! seed and the input, which `--only` tries again by itself and shows.

use std::ops::ControlFlow;
use std::panic::{catch_unwind, AssertUnwindSafe};
use std::process::ExitCode;
use std::sync::atomic::{AtomicBool, Ordering};
use std::time::Instant;
use std::{env, thread};

use compare::check::{Checker, Fault, LONG_ROOMS_ONCE_IN};
use compare::deck_check::check_lookup;
use compare::extremes::{extremes, shared_extremes};
use compare::inputs::Input;
use compare::random::Random;
use compare::tally::{Tally, INPUTS};

/// Once in so many inputs decks are tried too.
const DECKS_ONCE_IN: usize = 3;

struct Run {
    seed: u64,
    inputs: u64,
    only: Option<u64>,
    threads: u64,
}

fn words() -> Result<Run, String> {
    let threads = thread::available_parallelism().map_or(1, |threads| threads.get() as u64);
    let mut run = Run {
        seed: 1,
        inputs: INPUTS,
        only: None,
        threads,
    };
    let mut words = env::args().skip(1);
    while let Some(word) = words.next() {
        let number = words.next().and_then(|number| number.parse().ok());
        let number: u64 = number.ok_or_else(|| format!("{word} asks for a number"))?;
        match word.as_str() {
            "--seed" => run.seed = number,
            "--inputs" => run.inputs = number,
            "--only" => run.only = Some(number),
            "--threads" => run.threads = number.max(1),
            _ => return Err(format!("what is {word}?")),
        }
    }
    Ok(run)
}

fn main() -> ExitCode {
    let run = match words() {
        Ok(run) => run,
        Err(wrong) => {
            eprintln!("{wrong}\nusage: compare [--seed N] [--inputs N] [--only K] [--threads N]");
            return ExitCode::from(2);
        }
    };
    if let Some(index) = run.only {
        return only(&run, index);
    }
    let start = Instant::now();
    let mut tally = Tally::default();
    let outcome = largest().and_then(|()| all(&run, &mut tally));
    if let Err(fault) = outcome {
        println!("{fault}");
        return ExitCode::FAILURE;
    }
    println!(
        "{tally}\nseed {}, {:.1} s",
        run.seed,
        start.elapsed().as_secs_f64()
    );
    let shortfalls = tally.shortfalls();
    if run.inputs >= INPUTS && !shortfalls.is_empty() {
        println!("tried too seldom: {}", shortfalls.join("; "));
        return ExitCode::FAILURE;
    }
    println!("compare: the library and the baseline agree");
    ExitCode::SUCCESS
}

/// Tries the largest cards, which are the same in every run, in the long rooms too.
fn largest() -> Result<(), Fault> {
    let (mut checker, mut tally) = (Checker::new(1), Tally::default());
    for extreme in extremes().into_iter().chain(shared_extremes()) {
        guarded(|| checker.check(&extreme.input, &mut Random::new(0, 0), &mut tally))
            .map_err(|fault| format!("{}: {fault}", extreme.name))?;
    }
    Ok(())
}

/// Tries all inputs, some on each thread; the first fault ends the run.
fn all(run: &Run, tally: &mut Tally) -> Result<(), Fault> {
    let stop = AtomicBool::new(false);
    thread::scope(|scope| {
        let workers: Vec<_> = (0..run.threads)
            .map(|first| {
                let stop = &stop;
                scope.spawn(move || {
                    let mut checker = Checker::new(LONG_ROOMS_ONCE_IN);
                    let mut tally = Tally::default();
                    let indices = (first..run.inputs).step_by(run.threads as usize);
                    for index in indices {
                        if stop.load(Ordering::Relaxed) {
                            break;
                        }
                        if let Err(fault) = one(run.seed, index, &mut checker, &mut tally) {
                            stop.store(true, Ordering::Relaxed);
                            return Err(fault);
                        }
                    }
                    Ok(tally)
                })
            })
            .collect();
        for worker in workers {
            tally.add(&worker.join().map_err(|_| "a thread ended badly")??);
        }
        Ok(())
    })
}

/// Tries one input.
fn one(seed: u64, index: u64, checker: &mut Checker, tally: &mut Tally) -> Result<(), Fault> {
    let mut random = Random::new(seed, index);
    let mut kind = None;
    guarded(|| {
        let input = Input::new(&mut random);
        kind = Some(input.kind);
        checker.check(&input, &mut random, tally)?;
        if random.once_in(DECKS_ONCE_IN) {
            check_lookup(&mut random, &mut tally.decks)?;
            checker.check_deck_writer(&mut random, &mut tally.decks)?;
            checker.check_mending(&input, &mut random, tally)?;
            checker.check_converting(&input, &mut random, tally)?;
            checker.check_tidying(&input, &mut random, &mut tally.tidying)?;
        }
        Ok(())
    })
    .map_err(|fault| {
        let kind = kind.map_or(String::new(), |kind| format!(" ({kind:?})"));
        format!("input {index}{kind}: {fault}\nagain: compare --seed {seed} --only {index}")
    })
}

/// A panic is a fault too.
fn guarded(check: impl FnOnce() -> Result<(), Fault>) -> Result<(), Fault> {
    catch_unwind(AssertUnwindSafe(check)).unwrap_or_else(|_| Err("panic (see above)".to_owned()))
}

/// Tries one input and shows it.
fn only(run: &Run, index: u64) -> ExitCode {
    let input = Input::new(&mut Random::new(run.seed, index));
    println!(
        "kind {:?}\nseats {:?}\ncard, {} bytes:",
        input.kind,
        input.seats,
        input.card.len()
    );
    println!(
        "{}",
        input.card.escape_ascii().to_string().replace("\\n", "\n")
    );
    let show = |side: &str, what: &str, answer: String| println!("{side:<9}{what:<7}{answer}");
    let mut room = vec![0; open_panel::REDUCE_ROOM];
    let (card, seats) = (&input.card[..], &input.seats[..]);
    show(
        "baseline",
        "judge",
        format!("{:?}", baseline::judge(card).map(|_| 0)),
    );
    show(
        "baseline",
        "write",
        format!("{:?}", baseline::write(card, &mut room)),
    );
    show(
        "baseline",
        "reduce",
        format!("{:?}", baseline::reduce(card, &mut room)),
    );
    show(
        "baseline",
        "show",
        format!("{:?}", baseline::panel(card, seats, &mut room)),
    );
    let outcome = match one(
        run.seed,
        index,
        &mut Checker::new(LONG_ROOMS_ONCE_IN),
        &mut Tally::default(),
    ) {
        Ok(()) => ControlFlow::Continue("the library agrees".to_owned()),
        Err(fault) => ControlFlow::Break(fault),
    };
    match outcome {
        ControlFlow::Continue(said) => {
            println!("{said}");
            ExitCode::SUCCESS
        }
        ControlFlow::Break(fault) => {
            println!("{fault}");
            ExitCode::FAILURE
        }
    }
}
