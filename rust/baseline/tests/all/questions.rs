//! Questions: their meaning by seats, and both sides of each of their limits.

use crate::cards::{card, CARD_A};
use baseline::{ask, Refusal};

const PLAIN: &str = "[] s1=0 -> 1:(s1'=0);";

/// A group of all seats, with this relation and state, joined by this sign.
fn everyone(seats: usize, relation: &str, state: u8, sign: &str) -> String {
    let literals: Vec<String> = (1..=seats)
        .map(|seat| format!("s{seat}{relation}{state}"))
        .collect();
    format!("({})", literals.join(sign))
}

/// One term of an exactly-one, its literals starting with any seat.
fn only(seats: usize, only: usize, state: u8, first: usize) -> String {
    let literals: Vec<String> = (0..seats)
        .map(|place| (first + place) % seats + 1)
        .map(|seat| format!("s{seat}{}{state}", if seat == only { "=" } else { "!=" }))
        .collect();
    format!("({})", literals.join(" & "))
}

/// The group that says that exactly one seat is in a state.
fn exactly_one(seats: usize, state: u8, first: usize) -> String {
    let terms: Vec<String> = (1..=seats)
        .map(|seat| only(seats, seat, state, first))
        .collect();
    match seats {
        1 => terms.concat(),
        _ => format!("({})", terms.join(" | ")),
    }
}

/// A question, and what it means, seat by seat.
type Meant = (String, Box<dyn Fn(&[u8]) -> bool>);

fn meant(question: String, holds: impl Fn(&[u8]) -> bool + 'static) -> Meant {
    (question, Box::new(holds))
}

fn leaves(seats: usize, state: u8, first: usize) -> Vec<Meant> {
    vec![
        meant(everyone(seats, "=", state, " & "), move |seats| {
            seats.iter().all(|seat| *seat == state)
        }),
        meant(everyone(seats, "!=", state, "&"), move |seats| {
            seats.iter().all(|seat| *seat != state)
        }),
        meant(everyone(seats, "=", state, " | "), move |seats| {
            seats.contains(&state)
        }),
        meant(everyone(seats, "!=", state, "|"), move |seats| {
            seats.iter().any(|seat| *seat != state)
        }),
        meant(exactly_one(seats, state, first), move |seats| {
            seats.iter().filter(|seat| **seat == state).count() == 1
        }),
    ]
}

fn seatings(seats: usize, top: u8) -> Vec<Vec<u8>> {
    (0..seats).fold(vec![vec![]], |shorter, _| {
        let longer = |seating: &Vec<u8>| {
            let seating = seating.clone();
            (0..=top).map(move |state| [&seating[..], &[state]].concat())
        };
        shorter.iter().flat_map(longer).collect()
    })
}

/// Every leaf, alone and joined with others, at every seating of every small table.
#[test]
fn questions_hold_where_the_seats_say_so() {
    for seats in 1..=4 {
        let table = card(seats, 2, PLAIN);
        let states = (0..=2).flat_map(|state| leaves(seats, state, usize::from(state)));
        let leaves: Vec<Meant> = states.collect();
        for seating in seatings(seats, 2) {
            let holds = |question: &str| ask(table.as_bytes(), question.as_bytes(), &seating);
            let mut sorted = seating.clone();
            sorted.sort_unstable();
            for (one, one_means) in &leaves {
                let one_holds = one_means(&seating);
                assert_eq!(holds(one), Ok(one_holds), "{one} at {seating:?}");
                assert_eq!(holds(&format!("!({one})")), Ok(!one_holds));
                let reordered = ask(table.as_bytes(), one.as_bytes(), &sorted);
                assert_eq!(reordered, Ok(one_holds));
                for (place, (other, other_means)) in leaves.iter().enumerate() {
                    let other_holds = other_means(&seating);
                    let (third, third_means) = &leaves[(place + 7) % leaves.len()];
                    let third_holds = third_means(&seating);
                    // `&` binds before `|`, and `!` before both.
                    let meant = one_holds || !other_holds && third_holds;
                    let question = format!("{one} | !{other} & {third}");
                    assert_eq!(holds(&question), Ok(meant), "{question} at {seating:?}");
                    let meant = (one_holds || !other_holds) && third_holds;
                    let question = format!("({one}|!{other})&{third}");
                    assert_eq!(holds(&question), Ok(meant), "{question} at {seating:?}");
                }
            }
        }
    }
}

#[test]
fn no_answer_depends_on_the_order_of_seats() {
    let table = card(5, 3, PLAIN);
    let leaves: Vec<Meant> = (0..=3).flat_map(|state| leaves(5, state, 2)).collect();
    let sorted = seatings(5, 3).into_iter().filter(|seats| seats.is_sorted());
    for mut seats in sorted {
        for (question, _) in &leaves {
            let answer = ask(table.as_bytes(), question.as_bytes(), &seats);
            assert!(answer.is_ok());
            for _ in 0..5 {
                seats.rotate_left(1);
                seats.swap(1, 3);
                let again = ask(table.as_bytes(), question.as_bytes(), &seats);
                assert_eq!(again, answer, "{question} at {seats:?}");
            }
        }
    }
}

/// What a question is refused with; nothing if it is answered.
fn refusal(card: &str, question: &str, seats: &[u8]) -> Option<(u8, usize)> {
    ask(card.as_bytes(), question.as_bytes(), seats)
        .err()
        .map(|Refusal { number, place }| (number, place))
}

/// A question about card A, refused at what stands in it.
#[track_caller]
fn refused(question: &str, number: u8, at: &str) {
    let place = question.rfind(at).expect("stands in the question");
    let found = refusal(CARD_A, question, &[0, 0, 0]);
    assert_eq!(found, Some((number, place)), "{question}");
}

#[track_caller]
fn taken(question: &str) {
    assert_eq!(refusal(CARD_A, question, &[0, 0, 0]), None, "{question}");
}

#[test]
fn length() {
    let group = everyone(3, "=", 0, "&");
    let padded = |length: usize| group.clone() + &" ".repeat(length - group.len());
    taken(&padded(16_384));
    assert_eq!(refusal(CARD_A, &padded(16_385), &[0; 3]), Some((21, 0)));
    assert_eq!(refusal(CARD_A, &"<".repeat(16_385), &[]), Some((21, 0)));
    assert_eq!(refusal(CARD_A, "", &[]), Some((23, 0)));
    assert_eq!(refusal(CARD_A, " // (\n", &[]), Some((23, 6)));
}

#[test]
fn nodes() {
    let group = everyone(3, "=", 0, "&");
    let one = exactly_one(3, 0, 0);
    // 16 leaves with 15 joining signs, and one `!`.
    let full = format!("!{one}{}", format!(" | {group}").repeat(15));
    taken(&full);
    refused(&format!("{full}^").replace('^', " & "), 24, "& ");
    let full = format!("!{group}{} | ", format!(" & {one}").repeat(14));
    taken(&format!("{full}{group}"));
    refused(&format!("!{full}{group}"), 24, &group);
    // An exactly-one is counted at its outer bracket, and only if it is one.
    let outer = format!("!{full}{one}");
    let place = outer.len() - one.len();
    assert_eq!(refusal(CARD_A, &outer, &[0; 3]), Some((24, place)));
    refused(&format!("!{full}({group})"), 24, &group);
    refused(&format!("!{full}("), 23, "");
}

#[test]
fn depth() {
    let group = everyone(3, "=", 0, "&");
    let one = exactly_one(3, 0, 1);
    for inner in [&group, &one] {
        let nested =
            |depth: usize| format!("{}{inner}{}", "!(".repeat(depth / 2), ")".repeat(depth / 2));
        taken(&nested(8));
        let bracket = nested(8).replace(inner, &format!("({inner})"));
        assert_eq!(refusal(CARD_A, &bracket, &[0; 3]), Some((24, 8)));
        let negated = nested(8).replace(inner, &format!("!{inner}"));
        assert_eq!(refusal(CARD_A, &negated, &[0; 3]), Some((24, 8)));
    }
}

#[test]
fn digits_and_marks() {
    refused("(s1=123456 & s2=123456 & s3=123456)", 25, "123456 & s2");
    refused("(s1=262144 & s2=262144 & s3=262144)", 25, "262144 & s2");
    refused("(s1=1234567 & s2=0 & s3=0)", 22, "1234567");
    refused("(s1=0.123456)", 23, "0.123456");
    refused("(s1=0.1234567)", 22, "0.1234567");
    refused("(s1=00 & s2=0 & s3=0)", 22, "00");
    refused("(s123456=0)", 23, "s123456");
    refused("(s12345=0)", 26, "(");
    // A mark outside the rules counts before all other things but the length.
    refused("(s2=9)) <", 22, "<");
    refused("!!!!!!!!!< ", 22, "< ");
    refused("(s1=0.5)", 23, "0.5");
}

#[test]
fn where_an_exactly_one_starts() {
    // Two brackets and literals of both relations: from there on nothing else fits.
    refused("((s1=0 & s2!=0) & (s1=0))", 23, "& (");
    refused("((s1=0 & s2!=0) | !(s1=0))", 23, "!(");
    refused("((s1=0 & s2!=0) | ((s1=0)))", 23, "(s1");
    refused("((s1=0 & s2!=0) | (s1=0 | s2=0))", 23, "| s2");
    refused("((s1=0 & s2!=0)", 23, "");
    // Anything else is an expression in brackets.
    refused("((s1=0 | s2!=0))", 26, "(s1");
    refused("((s1=0 & s2=0))", 26, "(s1");
    refused("((s1=0 & s2!=0 | s3=0))", 23, "| s3");
    refused("(s1=0 & s2!=0 & s3!=0)", 26, "(");
    refused("(!(s1=0 & s2!=0 & s3!=0))", 26, "(s1");
    let terms = only(3, 1, 0, 0) + " | " + &only(3, 2, 0, 0);
    refused(&format!("!({terms})"), 26, "((");
    taken(&format!("({terms} | {})", only(3, 3, 0, 2)));
}

#[test]
fn exactly_ones_that_are_none() {
    let [first, second, third] = [1, 2, 3].map(|seat| only(3, seat, 0, seat));
    let joined = |terms: &[&str]| format!("({})", terms.join("|"));
    taken(&joined(&[&first, &second, &third]));
    let wrong = [
        joined(&[&first, &third, &second]),
        joined(&[&first, &second]),
        joined(&[&first]),
        joined(&[&first, &second, &third, &third]),
        joined(&[&first, &first, &third]),
        joined(&[&first, &second, "(s3=0)"]),
        joined(&[&first, &second, "(s1!=0&s2!=0&s3=1)"]),
        joined(&[&first, &second, "(s1!=0&s2!=0&s3=0&s3=0)"]),
        joined(&[&first, &second, "(s1!=0&s2!=0&s3=0&s4!=0)"]),
        joined(&[&first, &second, "(s1!=0&s2!=0&s3!=0)"]),
        joined(&["(s1=0&s2!=1&s3!=0)", &second, &third]),
        joined(&[&first, &only(3, 2, 9, 0), &third]),
        joined(&vec![&first[..]; 40]),
    ];
    for question in &wrong {
        assert_eq!(refusal(CARD_A, question, &[]), Some((26, 0)), "{question}");
    }
    let above = exactly_one(3, 3, 1);
    assert_eq!(refusal(CARD_A, &above, &[]), Some((25, 6)));
}

#[test]
fn one_seat() {
    let table = card(1, 1, PLAIN);
    let about = |question: &str| refusal(&table, question, &[0]);
    assert_eq!(about("(s1=0)"), None);
    assert_eq!(about("((s1=0))"), None);
    assert_eq!(about(&format!("{}(s1=0)", "!".repeat(8))), None);
    let nested = |depth: usize| "(".repeat(depth) + "(s1=0)" + &")".repeat(depth);
    assert_eq!(about(&nested(8)), None);
    assert_eq!(about(&nested(9)), Some((24, 8)));
    assert_eq!(about("((s1=0 & s1!=0))"), Some((26, 0)));
    assert_eq!(about("(s2=0)"), Some((26, 0)));
    assert_eq!(about("(s1=0 & s1=0)"), Some((26, 0)));
}

#[test]
fn order_of_refusals() {
    let others = "(s2=0 | s3=0)";
    refused(others, 26, "(");
    // The card's own, then the question's, then the seats'.
    let broken = CARD_A.replace("1/4", "1/3");
    let sum = broken.rfind(';').unwrap();
    assert_eq!(refusal(&broken, "<", &[9]), Some((7, sum)));
    assert_eq!(refusal(CARD_A, others, &[9]), Some((26, 0)));
    assert_eq!(refusal(CARD_A, "(s1=3&s2=3&s3=3)", &[9]), Some((25, 4)));
    let good = everyone(3, "=", 2, "&");
    assert_eq!(refusal(CARD_A, &good, &[9]), Some((8, 0)));
    assert_eq!(refusal(CARD_A, &good, &[0, 9, 3]), Some((9, 1)));
    // Among 25 and 26 the earlier place counts, behind any 23 and 24.
    let above = "(s1=3&s2=3&s3=3)";
    refused(&format!("{above} & {others}"), 25, "3&s2");
    refused(&format!("{others} & {above}"), 26, "(s2");
    refused(&format!("{others} & {above})"), 23, ")");
}
