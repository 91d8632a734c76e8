//! The number that all seats share: its declaration, tests and updates from both sides of each rule, the byte that a seating has for it, and what
//! texts, panels, questions, spectators and odds make of it.

use crate::cards::{card, CARD_A};
use baseline::{
    ask, first_move, judge, mend, odds, panel, reduce, watch, write, Aim, Refusal, Shared,
};

const PLAIN: &str = "[] s1=0 -> 1:(s1'=1);";
const UNTOUCHED: u8 = 0xa5;

/// A probabilistic card with the roles 0 and 1, this declaration behind its mode, and these statements.
fn declared(modules: usize, declaration: &str, statements: &str) -> String {
    let mode = "probabilistic\n";
    card(modules, 1, statements).replacen(mode, &format!("{mode}{declaration}\n"), 1)
}

/// The same with a shared number from 0 to 2 that starts at 1.
fn with_g(modules: usize, statements: &str) -> String {
    declared(modules, "global g : [0..2] init 1;", statements)
}

/// Wolves wake at night, which is 1; the last to act makes it day.
const NIGHT: &str = "[] s1=0 & (g=1) -> 1/2:(s1'=1) & (g'=2) + 1/4:(s1'=1) + 1/4:(s1'=0) & (g'=0);
[] s1=1 & !(g!=2) -> 1:(s1'=1);";

fn chosen(card: &str) -> String {
    card.replacen("probabilistic", "nondeterministic", 1)
}

fn refusal(text: &str) -> Option<(u8, usize)> {
    let refusal = judge(text.as_bytes()).err();
    refusal.map(|Refusal { number, place }| (number, place))
}

#[track_caller]
fn taken(text: &str) {
    assert_eq!(refusal(text), None, "{text}");
}

/// Refused at what stands last in the text.
#[track_caller]
fn refused(text: &str, number: u8, at: &str) {
    let place = text.rfind(at).expect("stands in the text");
    assert_eq!(refusal(text), Some((number, place)), "{text}");
}

/// What an entry puts into a room, and nothing else; or the refusal.
fn text(entry: impl Fn(&mut [u8]) -> Result<usize, Refusal>) -> Result<String, (u8, usize)> {
    let mut room = vec![UNTOUCHED; 4_000];
    let answer = entry(&mut room);
    let length = *answer.as_ref().unwrap_or(&0);
    assert!(room[length..].iter().all(|byte| *byte == UNTOUCHED));
    room.truncate(length);
    if let Ok(length) = answer {
        let mut exact = vec![UNTOUCHED; length];
        assert_eq!(entry(&mut exact), Ok(length));
        assert_eq!(exact, room);
        let mut short = vec![UNTOUCHED; length - 1];
        assert_eq!(entry(&mut short), Err(Refusal::new(10, length)));
        assert!(short.iter().all(|byte| *byte == UNTOUCHED));
    }
    answer
        .map(|_| String::from_utf8(room).unwrap())
        .map_err(|Refusal { number, place }| (number, place))
}

fn written(card: &str) -> String {
    text(|room| write(card.as_bytes(), room)).unwrap()
}

fn reduced(card: &str) -> String {
    text(|room| reduce(card.as_bytes(), room)).unwrap()
}

fn shown(card: &str, seats: &[u8]) -> Result<String, (u8, usize)> {
    text(|room| panel(card.as_bytes(), seats, room))
}

/// What a panel shows behind the line of the shared number, at two seats in state 0.
fn steps(card: &str, shared: u8) -> String {
    let panel = shown(card, &[0, 0, shared]).unwrap();
    let line = format!("counts 2 0\nshared {shared}\n");
    let (_, steps) = panel.split_once(&line).expect("has that line");
    steps.to_owned()
}

#[test]
fn its_declaration() {
    let with = |declaration: &str| declared(1, declaration, PLAIN);
    let declares = |text: &str| judge(text.as_bytes()).unwrap().shared();
    assert_eq!(declares(&card(1, 1, PLAIN)), None);
    for (declaration, top, start) in [
        ("global g : [0..0] init 0;", 0, 0),
        ("global g : [0..1] init 1;", 1, 1),
        ("global g:[0..7]init 0;", 7, 0),
        ("global\tg // night\n: [ 0 .. 7 ]\r\ninit 7 ;", 7, 7),
    ] {
        let due = Some(Shared { top, start });
        assert_eq!(declares(&with(declaration)), due, "{declaration}");
    }
    refused(&with("global g : [0..8] init 0;"), 4, "8] init");
    refused(&with("global g : [0..999999] init 0;"), 4, "999999");
    refused(&with("global g : [0..1000000] init 0;"), 2, "1000000");
    refused(&with("global g : [0..8] init 9;"), 4, "8] init");
    refused(&with("global g : [0..6] init 7;"), 5, "7;");
    refused(&with("global g : [0..0] init 1;"), 5, "1;\nmodule");
    refused(&with("global g : [0..7] init 999999;"), 5, "999999");
    // The low bits of this are 0.
    refused(&with("global g : [0..7] init 262144;"), 5, "262144");
    refused(&with("global g : [1..7] init 1;"), 3, "1..7");
    refused(&with("global g : [0..0.5] init 0;"), 3, "0.5");
    refused(&with("global g : [0..7] init 0"), 3, "module process1\ns1");
    refused(&with("global g : [0..7];"), 3, ";\nmodule process1");
    for name in ["h", "G", "gg", "g1", "s1", "global", "g_"] {
        let declaration = format!("global {name} : [0..7] init 0;");
        refused(&with(&declaration), 3, &format!("{name} : [0..7]"));
    }
    refused(&with("Global g : [0..7] init 0;"), 3, "Global");
    refused(&with("g : [0..7] init 0;"), 3, "g : [0..7]");
}

#[test]
fn it_stands_behind_the_mode_alone() {
    let declaration = "global g : [0..2] init 1;";
    let good = with_g(2, PLAIN);
    taken(&good);
    refused(
        &good.replace(
            "module process1",
            &format!("{declaration}\nmodule process1"),
        ),
        3,
        "global",
    );
    let plain = card(2, 1, PLAIN);
    let before = format!("{declaration}\n{plain}");
    assert_eq!(refusal(&before), Some((3, 0)));
    for behind in [
        "module process1\n",
        "init 0;\n",
        "(s1'=1);\n",
        "endmodule\n",
    ] {
        let elsewhere = plain.replacen(behind, &format!("{behind}{declaration}"), 1);
        refused(&elsewhere, 3, "global");
    }
    refused(&format!("{plain}{declaration}"), 3, "global");
}

#[test]
fn its_tests() {
    let with = |guard: &str| with_g(2, &format!("[] s1=0 & {guard} -> 1:(s1'=1);"));
    for guard in [
        "(g=0)",
        "(g!=2)",
        "( g // night\n = 2 )",
        "!(g=1) & !!(g!=1)",
        "((g=1) | (s2=0) & (g!=0))",
        "(((((((((g=0)))))))))",
        "!!!!!!!!(g=0)",
    ] {
        taken(&with(guard));
    }
    refused(&with("(g=3)"), 5, "3)");
    refused(&with("(g!=3)"), 5, "3)");
    refused(&with("(g=999999)"), 5, "999999");
    refused(&with("(g=256)"), 5, "256");
    refused(&with("(g=1000000)"), 2, "1000000");
    refused(&with("(g)"), 3, ") ->");
    refused(&with("(g=)"), 3, ") ->");
    refused(&with("(g'=0)"), 3, "'=0");
    refused(&with("(g=0.5)"), 3, "0.5");
    refused(&with("(g=s1)"), 3, "s1) ->");
    refused(&with("(g=0 & g=1)"), 3, "& g");
    refused(&with("(g=0 | s2=0)"), 3, "| s2");
    refused(&with("(s2=0 & g=0)"), 3, "g=0");
    refused(&with("g=0"), 3, "g=0");
    refused(&with("(h=0)"), 3, "h=0");
    refused(&with("(gg=0)"), 3, "gg=0");
    refused(&with("(g1=0)"), 3, "g1=0");
    refused(&with("(global=0)"), 3, "global=0");
    // A test adds no depth, and closes with its own bracket.
    refused(&with("((((((((((g=0))))))))))"), 4, "((g=0)");
    refused(&with("!!!!!!!!((g=0))"), 4, "((g=0)");
    refused(&with("!!!!!!!!!(g=0)"), 4, "!(g=0)");
    // Among the late refusals the earlier place counts.
    refused(&with("(g=3) & (s1=0)"), 5, "3) &");
    refused(&with("(s1=0) & (g=3)"), 6, "(s1=0)");
}

#[test]
fn a_test_is_one_node() {
    // 16 leaves with 15 joining signs, and one `!` for the thirty-second node.
    let full = format!("!(g=0){}", " & (g!=1)".repeat(15));
    let with = |guard: &str| with_g(1, &format!("[] s1=0 & {guard} -> 1:(s1'=1);"));
    taken(&with(&full));
    refused(&with(&format!("{full} & (g=0)")), 4, "& (g=0)");
    // 15 leaves, 14 signs, two `!` and one more sign: then the test itself is one too many.
    let one_less = format!("!!(g=0){} & ", " & (s1=0)".repeat(14));
    let last = with(&format!("{one_less}(g=0)"));
    refused(&last, 4, "(g=0)");
    refused(&with(&format!("{one_less}(g")), 4, "(g ->");
    refused(&with(&format!("{one_less}(")), 3, "->");
}

#[test]
fn its_updates() {
    let with = |branches: &str| with_g(2, &format!("[] s1=0 -> {branches};"));
    taken(&with("1:(s1'=1) & (g'=0)"));
    taken(&with("1/2:(s1'=1)&(g'=2)+1/2:(s1'=0)"));
    taken(&with("1/2:(s1'=1) + 1/2:(s1'=0) & ( g ' = 1 )"));
    taken(&with("0:(s1'=1) & (g'=2) + 1:(s1'=0)"));
    refused(&with("1:(s1'=1) & (g'=3)"), 5, "3);");
    refused(&with("1:(s1'=1) & (g'=262144)"), 5, "262144");
    refused(&with("1:(s1'=1) & (g'=1) & (g'=1)"), 3, "& (g'=1);");
    refused(&with("1:(g'=1) & (s1'=1)"), 3, "g'=1");
    refused(&with("1:(g'=1)"), 3, "g'=1");
    refused(&with("1:(s1'=1) & (s1'=1)"), 3, "s1'=1);");
    refused(&with("1:(s1'=1) & (g=1)"), 3, "=1);");
    refused(&with("1:(s1'=1) & (g'!=1)"), 3, "!=1");
    refused(&with("1:(s1'=1) & g'=1"), 3, "g'=1");
    refused(&with("1:(s1'=1) & ((g'=1))"), 3, "(g'=1)");
    refused(&with("1:(s1'=1 & g'=1)"), 3, "& g'");
    refused(&with("1:(s1'=1) | (g'=1)"), 3, "| (g'");
    refused(&with("1:(s1'=1) &"), 3, ";\nendmodule");
    for name in ["h", "G", "gg", "s2"] {
        let wrong = with(&format!("1:(s1'=1) & ({name}'=1)"));
        refused(&wrong, 3, &format!("{name}'=1"));
    }
    // Among the late refusals the earlier place counts.
    refused(&with("1:(s1'=2) & (g'=3)"), 5, "2) &");
    refused(&with("1/13:(s1'=1) & (g'=3)"), 7, "1/13");
    refused(&with("1/2:(s1'=1) & (g'=3)"), 5, "3);");
    refused(&with("1/2:(s1'=1) & (g'=2)"), 7, ";\nendmodule");
    let eight = format!("1:(s1'=1) & (g'=0){}", " + 0:(s1'=0) & (g'=2)".repeat(7));
    taken(&with(&eight));
    refused(&with(&format!("{eight} + 0/7:(s1'=0)")), 4, "0/7");
}

#[test]
fn a_card_without_it_is_read_as_before() {
    let guarded = |guard: &str| card(2, 1, &format!("[] s1=0 & {guard} -> 1:(s1'=1);"));
    refused(&guarded("(g=0)"), 3, "g=0");
    refused(&guarded("!(g=0)"), 3, "g=0");
    // There the bracket of a test is an expression's.
    refused(&guarded("((((((((g=0))))))))"), 3, "g=0");
    refused(&guarded("(((((((((g=0)))))))))"), 4, "(g=0");
    refused(&card(2, 1, "[] s1=0 -> 1:(s1'=1) & (g'=0);"), 3, "& (g'");
    refused(
        &card(2, 1, "[] s1=0 -> 1:(s1'=1) & (s1'=0);"),
        3,
        "& (s1'=0",
    );
    let about = |question: &str| asked(CARD_A, question, &[0, 0, 1]);
    assert_eq!(about("(g=0)"), Err((23, 1)));
    assert_eq!(about("(((((((((g=0)))))))))"), Err((24, 8)));
    assert_eq!(shown(CARD_A, &[0, 0, 1, 0]), Err((8, 0)));
    let panel = shown(CARD_A, &[0, 0, 1]).unwrap();
    assert!(panel.ends_with(
        "counts 2 1 0\nstay 207900\nmove 0 1 277200\nmove 0 2 277200\nmove 1 2 69300\n"
    ));
}

#[test]
fn written_and_read_again() {
    let spread = with_g(2, NIGHT)
        .replace("global g : [0..2]", "global g//\n:[0 ..2]")
        .replace("(g=1)", "( g\t= 1)")
        .replace(" & (g'=2)", "&(g '=2)");
    let due = with_g(2, NIGHT);
    assert_eq!(written(&spread), due);
    assert_eq!(written(&due), due);
    let read = |text: &str| judge(text.as_bytes()).unwrap();
    assert!(read(&spread) == read(&due));
    // What is another card: m, v, a test or an update of g, none of them seen at the seats.
    let others = [
        ("[0..2] init 1", "[0..3] init 1"),
        ("[0..2] init 1", "[0..2] init 2"),
        ("(g=1)", "(g=0)"),
        ("(g=1)", "(g!=1)"),
        ("(g'=2)", "(g'=1)"),
        (" & (g'=2)", ""),
        ("1/4:(s1'=1)", "1/4:(s1'=1) & (g'=1)"),
    ];
    for (old, new) in others {
        let other = due.replacen(old, new, 1);
        assert!(read(&other) != read(&due), "{new}");
        assert_eq!(written(&other), other);
    }
    let plain = card(2, 1, PLAIN);
    assert!(read(&plain) != read(&with_g(2, PLAIN)));
    let one = |guard: &str| {
        let text = with_g(2, &format!("[] s1=0 & {guard} -> 1:(s1'=1);"));
        let written = written(&text);
        let (_, behind) = written.split_once("s1=0 & ").unwrap();
        behind.split_once(" ->").unwrap().0.to_owned()
    };
    assert_eq!(one("((g=1))"), "(g=1)");
    assert_eq!(one("!((g=1) & (g!=0))"), "!((g=1) & (g!=0))");
    assert_eq!(one("!(!(g=1))"), "!!(g=1)");
    assert_eq!(one("((g=1) & (s2=0)|(g!=1))"), "((g=1) & (s2=0) | (g!=1))");
    assert_eq!(one("(g=1)&((g=2)&(g=0))"), "(g=1) & ((g=2) & (g=0))");
    assert_eq!(one("((g=1)&(g=2))&(g=0)"), "(g=1) & (g=2) & (g=0)");
}

#[test]
fn reduced_text() {
    let due = "\
probabilistic
global g : [0..2] init 1;
module generic_process
no_0 : [0..2] init 2;
no_1 : [0..2] init 0;
[] (no_0>0) & (g=1) -> 1/2:(no_0'=no_0-1) & (no_1'=min(no_1+1,2)) & (g'=2) + 1/4:(no_0'=no_0-1) & (no_1'=min(no_1+1,2)) + 1/4:(g'=0);
[] (no_0>1) & (g=1) -> 1/2:(no_0'=no_0-1) & (no_1'=min(no_1+1,2)) & (g'=2) + 1/4:(no_0'=no_0-1) & (no_1'=min(no_1+1,2)) + 1/4:(g'=0);
[] (no_1>0) & !(g!=2) -> 1:true;
[] (no_1>1) & !(g!=2) -> 1:true;
endmodule
";
    assert_eq!(reduced(&with_g(2, NIGHT)), due);
    // An update to the value that a test asks for stands all the same.
    let same = with_g(1, "[] s1=0 & ((g=1) | (g=2)) -> 1:(s1'=0) & (g'=1);");
    assert!(reduced(&same).contains("[] (no_0>0) & ((g=1) | (g=2)) -> 1:(g'=1);\n"));
}

#[test]
fn a_seating_has_one_more_byte() {
    let two = with_g(2, NIGHT);
    let wrong: [(&[u8], (u8, usize)); 10] = [
        (&[], (8, 0)),
        (&[0], (8, 0)),
        (&[0, 0], (8, 0)),
        (&[0, 0, 1, 0], (8, 0)),
        (&[9, 9, 9, 9], (8, 0)),
        (&[0, 0, 3], (9, 2)),
        (&[0, 0, 255], (9, 2)),
        (&[0, 2, 3], (9, 1)),
        (&[2, 0, 1], (9, 0)),
        // The shared number has its own highest value, and the states theirs.
        (&[0, 2, 2], (9, 1)),
    ];
    for (seats, due) in wrong {
        assert_eq!(shown(&two, seats), Err(due), "{seats:?}");
        assert_eq!(asked(&two, "(g=0)", seats), Err(due));
        assert_eq!(watched(&two, seats, &[0, 1]), Err(due));
        let first = first_move(two.as_bytes(), seats);
        assert_eq!(first, Err(Refusal::new(due.0, due.1)));
        let reckoned = chance(&two, "(g=0)", seats, 1);
        assert_eq!(reckoned, Err(due));
    }
    assert!(shown(&two, &[0, 0, 2]).is_ok());
    let low = declared(1, "global g : [0..0] init 0;", PLAIN);
    assert!(shown(&low, &[1, 0]).is_ok());
    assert_eq!(shown(&low, &[1, 1]), Err((9, 1)));
    let high = declared(1, "global g : [0..7] init 0;", PLAIN);
    assert!(shown(&high, &[1, 7]).is_ok());
    assert_eq!(shown(&high, &[1, 8]), Err((9, 1)));
}

#[test]
fn panels() {
    let due = "\
probabilistic
seats 2 enabled 2
counts 2 0
shared 1
stay 138600 0
move 0 1 138600 1
move 0 1 277200 2
";
    assert_eq!(shown(&with_g(2, NIGHT), &[0, 0, 1]).as_deref(), Ok(due));
    let due = "\
nondeterministic
seats 2 enabled 1
counts 1 1
shared 2
choice 2
stay 277200 2
";
    let night = chosen(&with_g(2, NIGHT));
    assert_eq!(shown(&night, &[0, 1, 2]).as_deref(), Ok(due));
    assert_eq!(shown(&night, &[1, 0, 2]).as_deref(), Ok(due));
    let printed = baseline::program(format!("102\n{night}").as_bytes());
    assert_eq!(printed, due.as_bytes());
}

#[test]
fn stuck_tables_show_it_too() {
    let night = with_g(2, NIGHT);
    let due = "probabilistic\nseats 2 enabled 1\ncounts 2 0\nshared 0\nstay 277200 0\n";
    assert_eq!(shown(&night, &[0, 0, 0]).as_deref(), Ok(due));
    let due =
        "nondeterministic\nseats 2 enabled 1\ncounts 0 2\nshared 1\nchoice 0\nstay 277200 1\n";
    assert_eq!(shown(&chosen(&night), &[1, 1, 1]).as_deref(), Ok(due));
    let first = |seats: &[u8]| first_move(night.as_bytes(), seats).unwrap();
    assert_eq!(first(&[0, 0, 0]), None);
    assert_eq!(first(&[0, 0, 1]), Some(1));
    assert_eq!(first(&[0, 0, 2]), None);
    assert_eq!(first(&[0, 1, 2]), Some(2));
    assert_eq!(first(&[1, 1, 1]), None);
}

#[test]
fn lines_by_what_becomes_of_it() {
    let both = |branches: &str| {
        let text = with_g(2, &format!("[] s1=0 -> {branches};"));
        let chosen_steps = steps(&chosen(&text), 1);
        (steps(&text, 1), chosen_steps.replacen("choice 1\n", "", 1))
    };
    let same = |branches: &str, twice: &str, once: &str| {
        assert_eq!(
            both(branches),
            (twice.to_owned(), once.to_owned()),
            "{branches}"
        );
    };
    // An update to the value that it has is no change of it.
    same("1:(s1'=0) & (g'=1)", "stay 554400 1\n", "stay 277200 1\n");
    same(
        "1/2:(s1'=1) & (g'=1) + 1/2:(s1'=1)",
        "move 0 1 554400 1\n",
        "move 0 1 277200 1\n",
    );
    same(
        "1/3:(s1'=0) & (g'=1) + 2/3:(s1'=0)",
        "stay 554400 1\n",
        "stay 277200 1\n",
    );
    // A branch that leaves the seat where it is and sets the number is a stay line, one for each new value.
    same(
        "1/4:(s1'=0) & (g'=2) + 1/4:(s1'=0) & (g'=0) + 1/4:(s1'=0) + 1/4:(s1'=0) & (g'=2)",
        "stay 138600 0\nstay 138600 1\nstay 277200 2\n",
        "stay 69300 0\nstay 69300 1\nstay 138600 2\n",
    );
    // Stays come first, then moves, each by the new value last.
    same(
        "1/8:(s1'=1) & (g'=2) + 1/8:(s1'=0) & (g'=2) + 1/4:(s1'=1) + 1/8:(s1'=1) & (g'=0) + 1/8:(s1'=0) & (g'=0) + 1/4:(s1'=0)",
        "stay 69300 0\nstay 138600 1\nstay 69300 2\nmove 0 1 69300 0\nmove 0 1 138600 1\nmove 0 1 69300 2\n",
        "stay 34650 0\nstay 69300 1\nstay 34650 2\nmove 0 1 34650 0\nmove 0 1 69300 1\nmove 0 1 34650 2\n",
    );
    same(
        "0:(s1'=1) & (g'=2) + 1:(s1'=0)",
        "stay 554400 1\n",
        "stay 277200 1\n",
    );
}

#[test]
fn moves_by_old_then_new_then_its_value() {
    let statements = "[] s1=1 -> 1/2:(s1'=0) & (g'=0) + 1/2:(s1'=0);
[] s1=0 -> 1/2:(s1'=2) & (g'=0) + 1/2:(s1'=1) & (g'=2);
[] s1=0 -> 1/2:(s1'=1) + 1/2:(s1'=0) & (g'=0);
[] s1=1 -> 1/2:(s1'=1) & (g'=0) + 1/2:(s1'=2);";
    let text = with_g(2, statements).replace("s1 : [0..1]", "s1 : [0..2]");
    let due = "\
probabilistic
seats 2 enabled 4
counts 1 1 0
shared 1
stay 277200 0
move 0 1 138600 1
move 0 1 138600 2
move 0 2 138600 0
move 1 0 138600 0
move 1 0 138600 1
move 1 2 138600 1
";
    assert_eq!(shown(&text, &[0, 1, 1]).as_deref(), Ok(due));
    assert_eq!(shown(&text, &[1, 0, 1]).as_deref(), Ok(due));
}

fn asked(card: &str, question: &str, seats: &[u8]) -> Result<bool, (u8, usize)> {
    ask(card.as_bytes(), question.as_bytes(), seats)
        .map_err(|Refusal { number, place }| (number, place))
}

#[test]
fn questions() {
    let night = with_g(2, NIGHT);
    let about = |question: &str, seats: &[u8]| asked(&night, question, seats);
    for shared in 0..3 {
        let at = [0, 1, shared];
        for value in 0..3 {
            assert_eq!(about(&format!("(g={value})"), &at), Ok(shared == value));
            assert_eq!(about(&format!("(g!={value})"), &at), Ok(shared != value));
            assert_eq!(about(&format!("!((g={value}))"), &at), Ok(shared != value));
        }
        let one = "((s1=1 & s2!=1) | (s1!=1 & s2=1))";
        assert_eq!(about(&format!("{one} & (g=2)"), &at), Ok(shared == 2));
        assert_eq!(about(&format!("(g=0) | {one}"), &at), Ok(true));
        assert_eq!(about("(g=0) | (g=1) & (s1=0 | s2=0)", &at), Ok(shared < 2));
    }
    let refused = |question: &str, number: u8, place: usize| {
        assert_eq!(
            about(question, &[0, 1, 1]),
            Err((number, place)),
            "{question}"
        );
    };
    refused("(g=3)", 25, 3);
    refused("(g!=3)", 25, 4);
    refused("(g=262144)", 25, 3);
    refused("(g=1000000)", 22, 3);
    refused("(g=3) & (s2=0)", 25, 3);
    refused("(s2=0) & (g=3)", 26, 0);
    refused("(s1=2 & s2=2) | (g=3)", 25, 4);
    refused("(g=0 & g=1)", 23, 5);
    refused("(g=0 & s1=0)", 23, 5);
    refused("(s1=0 & g=0)", 23, 8);
    refused("((s1=0 & s2!=0) | (g=0))", 23, 19);
    refused("((s1=0 & g=0) | (s1=0 & s2=0))", 23, 9);
    refused("(g'=0)", 23, 2);
    refused("(G=0)", 23, 1);
    refused("g=0", 23, 0);
    refused("(g", 23, 2);
    let full = format!("!(g=0){}", " | (g!=1)".repeat(15));
    assert_eq!(about(&full, &[0, 1, 1]), Ok(true));
    refused(&format!("{full} & (g=0)"), 24, full.len() + 1);
    refused(&format!("!!{}(g=0)", "(g=0) | ".repeat(15)), 24, 2 + 15 * 8);
    refused(&format!("{}(g=0)", "!".repeat(9)), 24, 8);
    assert_eq!(
        about(&format!("{}(g=1)", "!".repeat(8)), &[0, 1, 1]),
        Ok(true)
    );
    // The question before the seats, and the seats without the shared number's byte are too few.
    assert_eq!(about("(g=3)", &[0, 1]), Err((25, 3)));
    assert_eq!(about("(g=2)", &[0, 1]), Err((8, 0)));
}

fn watched(card: &str, seats: &[u8], list: &[u8]) -> Result<String, (u8, usize)> {
    text(|room| watch(card.as_bytes(), seats, list, room))
}

#[test]
fn a_spectator_does_not_see_it() {
    let night = with_g(2, NIGHT);
    for shared in 0..3 {
        let seen = watched(&night, &[0, 1, shared], &[3, 5]);
        assert_eq!(seen.as_deref(), Ok("classes 0 0 0 1 0 1 0 0\n"));
    }
    // The list has a class for each state, and none for the shared number.
    assert_eq!(watched(&night, &[0, 1, 0], &[3, 5, 0]), Err((13, 3)));
    assert_eq!(watched(&night, &[0, 1, 3], &[3, 5, 0]), Err((9, 2)));
}

fn chance(card: &str, question: &str, seats: &[u8], steps: usize) -> Result<u32, (u8, usize)> {
    rows(card, question, seats, steps, Aim::Largest).map(|(chance, _, _)| chance)
}

/// The chance, and both rows up to their last number that is not zero.
type Rows = (u32, Vec<u32>, Vec<u32>);

fn rows(
    card: &str,
    question: &str,
    seats: &[u8],
    steps: usize,
    aim: Aim,
) -> Result<Rows, (u8, usize)> {
    let [mut first, mut second] = [[7; 512]; 2];
    let (card, question) = (card.as_bytes(), question.as_bytes());
    let answer = odds(card, question, seats, steps, aim, &mut first, &mut second);
    let short = |row: &[u32]| {
        let end = row.iter().rposition(|number| *number != 0);
        row[..end.map_or(0, |end| end + 1)].to_vec()
    };
    if answer.is_err() {
        assert_eq!((first, second), ([7; 512], [7; 512]));
    }
    answer
        .map(|chance| (chance, short(&first), short(&second)))
        .map_err(|Refusal { number, place }| (number, place))
}

#[test]
fn odds_over_pairs() {
    const ONE: u32 = 1_000_000;
    // A coin that is thrown by day alone: heads makes it night.
    let coin = declared(
        1,
        "global g : [0..1] init 0;",
        "[] s1=0 & (g=0) -> 1/2:(s1'=0) & (g'=1) + 1/2:(s1'=1);",
    );
    // Vectors are 01 and 10, and each has two pairs.
    let reckoned = |question: &str, seats: &[u8], steps| {
        rows(&coin, question, seats, steps, Aim::Largest).unwrap()
    };
    let night = reckoned("(g=1)", &[0, 0], 0);
    assert_eq!(night, (0, vec![0, ONE, 0, ONE], vec![]));
    let night = reckoned("(g=1)", &[0, 0], 1);
    assert_eq!(
        night,
        (500_000, vec![0, ONE, 500_000, ONE], vec![0, ONE, 0, ONE])
    );
    assert_eq!(reckoned("(g=1)", &[0, 1], 9).0, ONE);
    assert_eq!(reckoned("(s1=1)", &[0, 0], 9).0, 500_000);
    assert_eq!(reckoned("(s1=1)", &[0, 1], 9).0, 0);
    assert_eq!(reckoned("(s1=1) & (g=1)", &[0, 0], 9).0, 0);
}

#[test]
fn odds_over_choices() {
    let statements = "[] s1=0 & (g=0) -> 1/2:(s1'=1) & (g'=1) + 1/2:(s1'=0);
[] s1=0 & (g=0) -> 1/4:(s1'=0) & (g'=1) + 3/4:(s1'=1);
[] s1=1 & (g=1) -> 1:(s1'=0) & (g'=0);";
    let text = chosen(&declared(1, "global g : [0..1] init 0;", statements));
    let reckoned =
        |question: &str, steps, aim| rows(&text, question, &[0, 0], steps, aim).unwrap().0;
    assert_eq!(reckoned("(g=1)", 1, Aim::Largest), 500_000);
    assert_eq!(reckoned("(g=1)", 1, Aim::Smallest), 250_000);
    assert_eq!(reckoned("(g=1)", 2, Aim::Largest), 750_000);
    assert_eq!(reckoned("(g=1)", 2, Aim::Smallest), 250_000);
    assert_eq!(reckoned("(s1=1) & (g=0)", 1, Aim::Largest), 750_000);
    assert_eq!(reckoned("(s1=1) & (g=0)", 1, Aim::Smallest), 0);
}

#[test]
fn pairs_are_counted() {
    let table = |seats: usize, top: usize, shared: usize| {
        let mode = format!("probabilistic\nglobal g : [0..{shared}] init 0;");
        let plain = card(seats, top as u32, "[] s1=0 -> 1:(s1'=0);");
        plain.replacen("probabilistic", &mode, 1)
    };
    let reckoned = |seats: usize, top: usize, shared: usize| {
        let mut seating = vec![top as u8; seats];
        seating.push(shared as u8);
        let (card, question) = (table(seats, top, shared), format!("(g={shared})"));
        rows(&card, &question, &seating, 0, Aim::Smallest).map(|(_, first, _)| first.len())
    };
    // No table has 505 to 524 pairs.
    for (seats, top, shared, pairs) in [
        (6, 3, 5, 504),
        (5, 4, 3, 504),
        (3, 6, 5, 504),
        (5, 5, 1, 504),
        (8, 4, 0, 495),
        (8, 3, 2, 495),
        (16, 0, 7, 8),
        (16, 1, 7, 136),
    ] {
        assert_eq!(reckoned(seats, top, shared), Ok(pairs));
    }
    for (seats, top, shared) in [
        (13, 2, 4),
        (10, 2, 7),
        (15, 2, 3),
        (8, 4, 1),
        (12, 3, 1),
        (5, 7, 0),
        (16, 7, 7),
    ] {
        assert_eq!(reckoned(seats, top, shared), Err((14, 0)));
    }
    // Behind the seats' refusals, and before that of the steps.
    let large = table(13, 2, 4);
    let refused = |seats: &[u8]| rows(&large, "(g=0)", seats, 33, Aim::Largest).unwrap_err();
    assert_eq!(refused(&[0; 13]), (8, 0));
    assert_eq!(
        refused(&[0, 0, 0, 0, 0, 0, 0, 0, 0, 0, 0, 0, 0, 5]),
        (9, 13)
    );
    assert_eq!(refused(&[0; 14]), (14, 0));
    assert_eq!(
        rows(&table(6, 3, 5), "(g=0)", &[0; 7], 33, Aim::Largest),
        Err((15, 0))
    );
}

#[test]
fn mending_reads_it() {
    let (good, bad) = (with_g(2, NIGHT), with_g(2, &NIGHT.replace("g=1", "g=3")));
    let undeclared = card(2, 1, NIGHT);
    let mut deck = vec![3];
    let mut offset = 1 + 3 * 8;
    for (number, body) in [(1u8, &bad), (2, &good), (3, &undeclared)] {
        let [low, high] = (body.len() as u16).to_le_bytes();
        let [from, from_high] = (offset as u16).to_le_bytes();
        deck.extend([number, 0, from, from_high, low, high, 1, 0]);
        offset += body.len();
    }
    deck.extend([bad, good.clone(), undeclared].concat().bytes());
    let (mended, list) = mend(&deck).unwrap();
    assert_eq!(list, b"dropped 4\nkept\ndropped 4\n");
    assert_eq!(&mended[9..], good.as_bytes());
}
