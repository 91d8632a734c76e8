//! Cards for tests.

pub const CARD_A: &str = "\
probabilistic
module process1
s1 : [0..2] init 0;
[] s1=0 & (s2=0 | s3=0) -> 1/2:(s1'=1) + 1/2:(s1'=2);
[] s1=1 & (s1!=2 & s2!=2 & s3!=2) -> 1/4:(s1'=2) + 3/4:(s1'=1);
endmodule
module process2 = process1 [s1=s2, s2=s1] endmodule
module process3 = process1 [s1=s3, s3=s1] endmodule
";

/// A probabilistic card with these modules, top state and statements.
pub fn card(modules: usize, top: u32, statements: &str) -> String {
    let mut card = format!(
        "probabilistic\nmodule process1\ns1 : [0..{top}] init 0;\n{statements}\nendmodule\n"
    );
    for i in 2..=modules {
        card += &format!("module process{i} = process1 [s1=s{i}, s{i}=s1] endmodule\n");
    }
    card
}
