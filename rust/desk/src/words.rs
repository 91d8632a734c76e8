//! The sentences of `desk/reasons.txt`, which the page reads too.

const SENTENCES: &str = include_str!("../../../desk/reasons.txt");

/// What is filled into a sentence, by name.
pub type Fills = Vec<(&'static str, String)>;

/// The sentence of a name, with what is filled in.
pub fn sentence(name: &str, fills: &Fills) -> String {
    let mut rest = template(name);
    let mut made = String::new();
    while let Some((before, behind)) = rest.split_once('{') {
        let (place, behind) = behind.split_once('}').expect("a bracket is closed");
        let fill = fills.iter().find(|(name, _)| *name == place);
        made += before;
        made += &fill.unwrap_or_else(|| panic!("{name} has no {place}")).1;
        rest = behind;
    }
    made + rest
}

/// A sentence before anything is filled in.
pub fn template(name: &str) -> &'static str {
    let lines = SENTENCES.lines().filter(|line| !line.starts_with('#'));
    let mut named = lines.filter_map(|line| line.split_once(" = "));
    let found = named.find(|(key, _)| *key == name);
    found
        .unwrap_or_else(|| panic!("there is no sentence {name}"))
        .1
}

/// The names of all sentences.
pub fn names() -> impl Iterator<Item = &'static str> {
    let lines = SENTENCES.lines().filter(|line| !line.starts_with('#'));
    lines.filter_map(|line| Some(line.split_once(" = ")?.0))
}
