//! The chapter "Both sides of the edge" as a list of cards, seatings and panels,
//! with the step that a stuck table has.

use crate::cards::{card, CARD_A};

/// A card with a seating, and the panel or the refusal's number and place.
pub struct Edge {
    pub name: &'static str,
    pub card: Vec<u8>,
    pub seats: Vec<u8>,
    pub panel: Result<String, (u8, usize)>,
}

/// A place in a text, given by what stands there first.
fn place(text: &str, what: &str) -> usize {
    text.find(what).expect("stands in the text")
}

pub fn edges() -> Vec<Edge> {
    let mut edges = Vec::new();
    let mut edge = |name, card: &str, seats: &[u8], panel: Result<&str, (u8, usize)>| {
        edges.push(Edge {
            name,
            card: card.into(),
            seats: seats.into(),
            panel: panel.map(str::to_owned),
        });
    };

    let at_001 = "probabilistic\nseats 3 enabled 3\ncounts 2 1 0\nstay 207900\n\
        move 0 1 277200\nmove 0 2 277200\nmove 1 2 69300\n";
    edge("card A at 001", CARD_A, &[0, 0, 1], Ok(at_001));
    edge("card A at 100", CARD_A, &[1, 0, 0], Ok(at_001));
    edge(
        "card A at 012",
        CARD_A,
        &[0, 1, 2],
        Ok("probabilistic\nseats 3 enabled 1\ncounts 1 1 1\nstay 277200\n"),
    );
    edge(
        "card A as nondeterministic at 012",
        &CARD_A.replace("probabilistic", "nondeterministic"),
        &[0, 1, 2],
        Ok("nondeterministic\nseats 3 enabled 1\ncounts 1 1 1\nchoice 0\nstay 277200\n"),
    );
    edge(
        "card A at 011",
        CARD_A,
        &[0, 1, 1],
        Ok("probabilistic\nseats 3 enabled 2\ncounts 1 2 0\nstay 415800\nmove 1 2 138600\n"),
    );
    edge(
        "card A at 000",
        CARD_A,
        &[0, 0, 0],
        Ok("probabilistic\nseats 3 enabled 3\ncounts 3 0 0\nmove 0 1 415800\nmove 0 2 415800\n"),
    );
    edge(
        "card A as nondeterministic at 001",
        &CARD_A.replace("probabilistic", "nondeterministic"),
        &[0, 0, 1],
        Ok(
            "nondeterministic\nseats 3 enabled 2\ncounts 2 1 0\nchoice 1\nmove 0 1 138600\n\
            move 0 2 138600\nchoice 2\nstay 207900\nmove 1 2 69300\n",
        ),
    );

    let sevenths = card(1, 1, "[] s1=0 -> 1/7:(s1'=1) + 6/7:(s1'=0);");
    let moves_39600 = "probabilistic\nseats 1 enabled 1\ncounts 1 0\nstay 237600\nmove 0 1 39600\n";
    edge("a seventh", &sevenths, &[0], Ok(moves_39600));
    let elevenths = card(1, 1, "[] s1=0 -> 1/11:(s1'=1) + 10/11:(s1'=0);");
    let moves_25200 = "probabilistic\nseats 1 enabled 1\ncounts 1 0\nstay 252000\nmove 0 1 25200\n";
    edge("an eleventh", &elevenths, &[0], Ok(moves_25200));
    let thirteenths = card(1, 1, "[] s1=0 -> 1/13:(s1'=1) + 12/13:(s1'=0);");
    edge(
        "a thirteenth",
        &thirteenths,
        &[0],
        Err((7, place(&thirteenths, "1/13"))),
    );

    let other = card(2, 1, "[] s1=0 & (s2=0) -> 1:(s1'=1);");
    let both_move = "probabilistic\nseats 2 enabled 2\ncounts 2 0\nmove 0 1 554400\n";
    edge("one other in 0", &other, &[0, 0], Ok(both_move));
    let nobody = "probabilistic\nseats 2 enabled 1\ncounts 1 1\nstay 277200\n";
    edge("no other in 0", &other, &[0, 1], Ok(nobody));
    let first = card(2, 1, "[] s1=0 & (s1=0) -> 1:(s1'=1);");
    edge(
        "the first seat only",
        &first,
        &[0, 0],
        Err((6, place(&first, "(s1=0)"))),
    );

    // Decimals, whatever their digits.
    let three = card(1, 1, "[] s1=0 -> 0.005:(s1'=1) + 0.995:(s1'=0);");
    edge(
        "three further digits",
        &three,
        &[0],
        Err((17, place(&three, "0.005"))),
    );
    let two = card(1, 1, "[] s1=0 -> 0.05:(s1'=1) + 0.95:(s1'=0);");
    edge(
        "two further digits",
        &two,
        &[0],
        Err((17, place(&two, "0.05"))),
    );
    let twentieths = card(1, 1, "[] s1=0 -> 1/20:(s1'=1) + 19/20:(s1'=0);");
    let moves_13860 = "probabilistic\nseats 1 enabled 1\ncounts 1 0\nstay 263340\nmove 0 1 13860\n";
    edge("a twentieth", &twentieths, &[0], Ok(moves_13860));
    let turned = CARD_A.replace("(s2=0 | s3=0)", "(s3=0 | s2=0)");
    edge("a group in another order", &turned, &[0, 0, 1], Ok(at_001));

    edge("empty card", "", &[], Err((3, 0)));
    let plain = "[] s1=0 -> 1:(s1'=0);";
    let sixteen = "probabilistic\nseats 16 enabled 16\ncounts 16 0\nstay 4435200\n";
    edge("16 modules", &card(16, 1, plain), &[0; 16], Ok(sixteen));
    let seventeen = card(17, 1, plain);
    let last_module = place(&seventeen, "module process17");
    edge("17 modules", &seventeen, &[0; 17], Err((4, last_module)));
    let top_7 = "probabilistic\nseats 1 enabled 1\ncounts 1 0 0 0 0 0 0 0\nstay 277200\n";
    edge("top state 7", &card(1, 7, plain), &[0], Ok(top_7));
    let eight = card(1, 8, plain);
    edge("top state 8", &eight, &[0], Err((4, place(&eight, "8]"))));
    let nested = |depth: usize| {
        let (open, close) = ("(".repeat(depth), ")".repeat(depth));
        card(
            1,
            1,
            &format!("[] s1=0 & {open}(s1=0){close} -> 1:(s1'=0);"),
        )
    };
    let stays = "probabilistic\nseats 1 enabled 1\ncounts 1 0\nstay 277200\n";
    edge("8 brackets open", &nested(8), &[0], Ok(stays));
    let ninth = place(&nested(9), "(((((((((") + 8;
    edge("9 brackets open", &nested(9), &[0], Err((4, ninth)));
    let negated = |depth: usize| {
        card(
            1,
            1,
            &format!("[] s1=0 & {}(s1=0) -> 1:(s1'=0);", "!".repeat(depth)),
        )
    };
    edge("8 times `!`", &negated(8), &[0], Ok(stays));
    let ninth = place(&negated(9), "!!!!!!!!!") + 8;
    edge("9 times `!`", &negated(9), &[0], Err((4, ninth)));

    edge("a seat too few", CARD_A, &[0, 0], Err((8, 0)));
    edge("a seat too many", CARD_A, &[0, 0, 0, 0], Err((8, 0)));
    edge(
        "a seat above the top state",
        CARD_A,
        &[0, 3, 4],
        Err((9, 1)),
    );
    let unbracketed = card(2, 1, "[] s1=0 & (s2=0) | (s2=1) -> 1:(s1'=1);");
    edge(
        "`|` without a bracket",
        &unbracketed,
        &[0, 0],
        Err((3, place(&unbracketed, "|"))),
    );
    edges
}
