//! To every refusal of the stored vectors the desk has something to say, with the number and the place that are stored.

mod stored;

use desk::reason::of_entries;
use vectors::stored::{file, Answer, Cases};

/// Of what was mended the desk finds by itself what the library's list says, and why: so it does where nothing is kept and there is no list.
#[test]
fn every_dropped_entry_is_explained() {
    let folder = concat!(env!("CARGO_MANIFEST_DIR"), "/../../vectors/requests");
    let answers = file(format!("{folder}/2026-09.expected"));
    let cases = Cases::new(&file(format!("{folder}/2026-09.cases")));
    let (mut dropped, mut nothing_kept) = ([0; 5], 0);
    for (case, answer) in cases.answers(&answers).iter().enumerate() {
        let deck = &cases.call(case, "mend").expect("all are of this entry")[0];
        let found = of_entries(deck, None);
        if let Answer::Refused(11, _) = answer {
            assert!(found.iter().all(|entry| entry.rule > 0), "case {case}");
            nothing_kept += usize::from(!found.is_empty());
        }
        let Some((_, list)) = answer.mended() else {
            continue;
        };
        assert_eq!(found, of_entries(deck, Some(list)), "case {case}");
        for entry in found {
            dropped[entry.rule] += 1;
            assert_eq!(entry.rule > 0, !entry.why.is_empty(), "case {case}");
        }
    }
    assert!(dropped.iter().all(|&count| count > 20), "{dropped:?}");
    assert!(nothing_kept > 20, "{nothing_kept}");
}

#[test]
fn every_stored_refusal_is_explained() {
    let all = stored::refusals();
    for stored in &all {
        let (refusal, name) = (stored.reason.refusal, &stored.name);
        assert_eq!(
            (refusal.number(), refusal.place()),
            stored.refused,
            "{name}"
        );
        assert!(!stored.reason.sentence.is_empty(), "{name}");
        assert!(
            !stored.reason.name.starts_with("plain."),
            "{name}: {}",
            stored.reason.sentence
        );
    }
    let numbers: std::collections::BTreeSet<u8> =
        all.iter().map(|stored| stored.refused.0).collect();
    let due = (1..=9).chain(11..=15).chain(17..=19).chain(21..=26);
    let due = due.collect();
    assert_eq!(numbers, due);
    assert!(all.len() > 2_000, "{} refusals", all.len());
}
