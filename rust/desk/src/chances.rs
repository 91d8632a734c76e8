//! A panel's weights as chances.

use open_panel::{CERTAIN, UNIT};

use crate::reason::fraction;

/// A panel with each weight also as a fraction in lowest terms and in percent.
pub fn with_chances(panel: &str) -> String {
    let mut whole = u64::from(UNIT);
    let mut lines: Vec<(&str, Option<(String, String)>)> = Vec::new();
    for line in panel.lines() {
        let words: Vec<&str> = line.split(' ').collect();
        let number = |word: &str| word.parse::<u64>().expect("a panel has numbers there");
        match words[..] {
            ["probabilistic" | "nondeterministic"]
            | ["counts", ..]
            | ["shared", _]
            | ["choice", _] => lines.push((line, None)),
            ["seats", _, "enabled", enabled] => {
                // the weights of one choice come to one
                if panel.starts_with("probabilistic") {
                    whole *= number(enabled);
                }
                lines.push((line, None));
            }
            ["stay", weight]
            | ["stay", weight, _]
            | ["move", _, _, weight]
            | ["move", _, _, weight, _] => {
                let parts = number(weight);
                lines.push((line, Some((fraction(parts, whole), percent(parts, whole)))));
            }
            _ => panic!("a panel has no line `{line}`"),
        }
    }
    let chances = || {
        lines
            .iter()
            .filter_map(|(line, chance)| Some((line, chance.as_ref()?)))
    };
    let longest = chances().map(|(line, _)| line.len()).max().unwrap_or(0);
    let widest = chances()
        .map(|(_, (fraction, _))| fraction.len())
        .max()
        .unwrap_or(0);
    let mut made = String::new();
    for (line, chance) in &lines {
        match chance {
            Some((fraction, percent)) => {
                made += &format!("{line:longest$}  {fraction:>widest$}  {percent:>7}\n")
            }
            None => made += &format!("{line}\n"),
        }
    }
    made
}

/// Parts of a whole in percent, rounded to hundredths.
pub fn percent(parts: u64, whole: u64) -> String {
    let rounded = (parts * 20_000 + whole) / (2 * whole);
    match rounded {
        0 if parts > 0 => "<0.01%".to_string(),
        10_000 if parts < whole => ">99.99%".to_string(),
        _ => {
            let text = format!("{}.{:02}", rounded / 100, rounded % 100);
            format!("{}%", text.trim_end_matches('0').trim_end_matches('.'))
        }
    }
}

/// How wide a bar is.
const BAR: u32 = 40;

/// The chances of nights from 0 on, in millionths: a line for each, as a number, in percent and as a bar, which is empty for 0 alone and full
/// for 1 alone.
pub fn night_by_night(chances: &[u32]) -> String {
    let mut made = String::new();
    for (night, &chance) in chances.iter().enumerate() {
        let shown = format!("{}.{:06}", chance / CERTAIN, chance % CERTAIN);
        let percent = percent(chance.into(), CERTAIN.into());
        let long = u64::from(chance) * u64::from(BAR) / u64::from(CERTAIN);
        let bar = "#".repeat(long.max(u64::from(chance > 0)) as usize);
        made += &format!(
            "night {night:>2}  {shown}  {percent:>7}  |{bar:width$}|\n",
            width = BAR as usize
        );
    }
    made
}
