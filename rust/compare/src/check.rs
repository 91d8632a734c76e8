//! One input, asked of both sides.

use baseline::{Card, Mode, Node, Refusal};
use open_panel::{REDUCE_ROOM, SHOW_ROOM, WRITE_ROOM};

use crate::by_seats;
use crate::cards::limits::{SEATS, STATEMENTS};
use crate::decimals::first_decimal;
use crate::first_moves::moves_first;
use crate::inputs::{Input, Kind};
use crate::marks::{lay_out, Layout};
use crate::model::{Expression, Model, Seating};
use crate::odds;
use crate::questions::Question;
use crate::random::Random;
use crate::reduced::Reduced;
use crate::shared::{SharedTally, Tried};
use crate::tally::Tally;
use crate::weights::UNIT;

/// What went wrong, in words.
pub type Fault = String;

/// Bytes on both sides of a room, and of what is only read, that nothing may touch.
pub(crate) const GUARD: usize = 64;
/// The longest room that is lent.
const STORE: usize = REDUCE_ROOM;
/// Once in so many inputs of a run the long rooms are lent too.
pub const LONG_ROOMS_ONCE_IN: usize = 6;

/// The lent rooms of both sides.
pub struct Checker {
    long_rooms_once_in: usize,
    pub(crate) rooms: Rooms,
    pub(crate) written: Vec<u8>,
    reduced: Vec<u8>,
    shown: Vec<u8>,
    surrounded: Vec<u8>,
}

/// A room among bytes of a known pattern.
pub(crate) struct Rooms {
    pattern: Vec<u8>,
    store: Vec<u8>,
    probes: u64,
}

impl Rooms {
    /// Asks the library once, with a room of this length, and holds answer, text and all other bytes to what is expected.
    pub(crate) fn probe(
        &mut self,
        what: &str,
        expected: Result<&[u8], Refusal>,
        length: usize,
        ask: impl FnOnce(&mut [u8]) -> Result<usize, open_panel::Refusal>,
    ) -> Result<(), Fault> {
        let expected = match expected {
            Ok(text) if text.len() > length => Err(Refusal::new(10, text.len())),
            other => other,
        };
        // The pattern moves on from probe to probe, so that no byte is always what a wrong write would put there.
        let from = (self.probes % 251) as usize;
        self.probes += 1;
        let whole = GUARD + length + GUARD;
        let pattern = &self.pattern[from..from + whole];
        let store = &mut self.store[..whole];
        store.copy_from_slice(pattern);
        let answer = ask(&mut store[GUARD..GUARD + length]);
        let answer = answer.map_err(|refusal| Refusal::new(refusal.number(), refusal.place()));
        if answer != expected.map(<[u8]>::len) {
            return Err(format!(
                "{what}, room {length}: the library says {answer:?}, and due is {:?}",
                expected.map(<[u8]>::len)
            ));
        }
        let text = expected.unwrap_or(&[]);
        let end = GUARD + text.len();
        if &store[GUARD..end] != text {
            let place = store[GUARD..end]
                .iter()
                .zip(text)
                .take_while(|(a, b)| a == b)
                .count();
            return Err(format!(
                "{what}, room {length}: the texts differ at byte {place}"
            ));
        }
        let touched = |range: std::ops::Range<usize>| store[range.clone()] != pattern[range];
        if touched(0..GUARD) || touched(GUARD + length..whole) {
            return Err(format!(
                "{what}, room {length}: a byte outside the room was written"
            ));
        }
        if touched(end..GUARD + length) {
            return Err(format!(
                "{what}, room {length}: the room was written where no text is"
            ));
        }
        Ok(())
    }
}

impl Rooms {
    /// The same with a room for a deck and one for a list, which have to be told by their lengths.
    pub(crate) fn probe_both(
        &mut self,
        what: &str,
        expected: Result<[&[u8]; 2], Refusal>,
        [room, list]: [usize; 2],
        ask: impl FnOnce(&mut [u8], &mut [u8]) -> Result<[usize; 2], open_panel::Refusal>,
    ) -> Result<(), Fault> {
        let expected = match expected {
            Ok([deck, _]) if deck.len() > room => Err(Refusal::new(10, deck.len())),
            Ok([_, lines]) if lines.len() > list => Err(Refusal::new(10, lines.len())),
            other => other,
        };
        let from = (self.probes % 251) as usize;
        self.probes += 1;
        let list_at = GUARD + room + GUARD;
        let whole = list_at + list + GUARD;
        let store = &mut self.store[..whole];
        store.copy_from_slice(&self.pattern[from..from + whole]);
        let (before_list, lists) = store.split_at_mut(list_at);
        let answer = ask(&mut before_list[GUARD..GUARD + room], &mut lists[..list]);
        let answer = answer.map_err(|refusal| Refusal::new(refusal.number(), refusal.place()));
        let lengths = expected.map(|texts| texts.map(<[u8]>::len));
        if answer != lengths {
            return Err(format!(
                "{what}, rooms {room} and {list}: the library says {answer:?}, and due is {lengths:?}"
            ));
        }
        // As all has to be afterwards.
        let mut due = self.pattern[from..from + whole].to_vec();
        for (place, text) in [GUARD, list_at]
            .into_iter()
            .zip(expected.unwrap_or_default())
        {
            due[place..place + text.len()].copy_from_slice(text);
        }
        let differs = store.iter().zip(&due).position(|(found, due)| found != due);
        differs.map_or(Ok(()), |place| {
            let (of, place) = match place.checked_sub(list_at) {
                None => ("deck's room", place as isize - GUARD as isize),
                Some(place) => ("list", place as isize),
            };
            Err(format!(
                "{what}, rooms {room} and {list}: byte {place} of the {of} is wrong"
            ))
        })
    }
}

impl Rooms {
    /// Asks the library once to change a deck where it stands, and holds answer, deck and the bytes around it to what is expected: the new
    /// deck and zeros behind it, or the deck as it was.
    pub(crate) fn probe_in_place(
        &mut self,
        what: &str,
        expected: Result<&[u8], Refusal>,
        deck: &[u8],
        ask: impl FnOnce(&mut [u8]) -> Result<usize, open_panel::Refusal>,
    ) -> Result<(), Fault> {
        let from = (self.probes % 251) as usize;
        self.probes += 1;
        let end = GUARD + deck.len();
        let pattern = &self.pattern[from..from + end + GUARD];
        let store = &mut self.store[..end + GUARD];
        store.copy_from_slice(pattern);
        let lent = &mut store[GUARD..end];
        lent.copy_from_slice(deck);
        let answer = ask(lent);
        let answer = answer.map_err(|refusal| Refusal::new(refusal.number(), refusal.place()));
        let length = expected.map(<[u8]>::len);
        let wrong = |fault: String| format!("{what}, {} bytes lent: {fault}", deck.len());
        if answer != length {
            return Err(wrong(format!(
                "the library says {answer:?}, and due is {length:?}"
            )));
        }
        let mut due = pattern.to_vec();
        let lent = &mut due[GUARD..end];
        match expected {
            Ok(new) => {
                let (used, behind) = lent.split_at_mut(new.len());
                used.copy_from_slice(new);
                behind.fill(0);
            }
            Err(_) => lent.copy_from_slice(deck),
        }
        let differs = store.iter().zip(&due).position(|(found, due)| found != due);
        differs.map_or(Ok(()), |place| {
            let place = place as isize - GUARD as isize;
            Err(wrong(format!("byte {place} of the deck is wrong")))
        })
    }
}

impl Checker {
    /// Lends the long rooms too, once in so many inputs.
    pub fn new(long_rooms_once_in: usize) -> Self {
        let mut random = Random::new(0, 0);
        Checker {
            long_rooms_once_in,
            rooms: Rooms {
                pattern: (0..STORE + 2 * GUARD + 251)
                    .map(|_| random.next() as u8)
                    .collect(),
                store: vec![0; STORE + 2 * GUARD],
                probes: 0,
            },
            written: vec![0; WRITE_ROOM],
            reduced: vec![0; REDUCE_ROOM],
            shown: vec![0; SHOW_ROOM],
            surrounded: Vec::new(),
        }
    }

    /// Asks both sides about an input.
    pub fn check(
        &mut self,
        input: &Input,
        random: &mut Random,
        tally: &mut Tally,
    ) -> Result<(), Fault> {
        let kind = input.kind;
        // Behind the card stand bytes that would change it, were they read.
        self.surrounded.clear();
        self.surrounded.extend([b'9'; GUARD]);
        self.surrounded.extend(&input.card);
        self.surrounded.extend([random.pick(b"0s/=_ \n."); GUARD]);
        let surrounded = std::mem::take(&mut self.surrounded);
        let card = &surrounded[GUARD..GUARD + input.card.len()];

        let judged = baseline::judge(card);
        let answer = open_panel::judge(card);
        let expected = judged.as_ref().map(|_| ()).map_err(|refusal| *refusal);
        if answer.map_err(|refusal| Refusal::new(refusal.number(), refusal.place())) != expected {
            return Err(format!(
                "judge: the library says {answer:?}, and due is {expected:?}"
            ));
        }
        if input.model.is_some() && expected.is_err() {
            return Err(format!("a card made to be valid is refused: {expected:?}"));
        }
        if let Some(misuse) = input.misuse {
            if expected.map_err(|refusal| refusal.number) != Err(misuse.refusal()) {
                return Err(format!("a card with {misuse:?} is judged {expected:?}"));
            }
            tally.shared.misused(misuse);
        }
        tally.decimals.card(card, expected);
        if let Some(model) = &input.without_decimals {
            let place = first_decimal(card).ok_or("a card made with decimals has none")?;
            if expected != Err(Refusal::new(17, place)) {
                return Err(format!("a card with decimals is judged {expected:?}"));
            }
            let fractions = lay_out(&model.marks(), Layout::any(random), random);
            if fractions.len() <= open_panel::CARD_BYTES {
                let (old, new) = (baseline::judge_old(card), baseline::judge(&fractions));
                if old.is_err() || old != new {
                    return Err("by the old rule decimals mean something else".to_owned());
                }
            }
        }

        let written = baseline::write(card, &mut self.written);
        let reduced = baseline::reduce(card, &mut self.reduced);
        let shown = baseline::panel(card, &input.seats, &mut self.shown);
        let written = written.map(|length| &self.written[..length]);
        let reduced = reduced.map(|length| &self.reduced[..length]);
        let shown = shown.map(|length| &self.shown[..length]);
        for refusal in [written.err(), reduced.err(), shown.err()]
            .into_iter()
            .flatten()
        {
            if refusal.number == 10 {
                return Err(format!(
                    "a room that is always enough was too small: {refusal}"
                ));
            }
        }

        tally.input(kind, judged.as_ref().err().or(shown.as_ref().err()));
        if let Ok(read) = &judged {
            tally_shared(read, &input.seats, shown.err(), &mut tally.shared);
        }
        match (&judged, &input.model) {
            (Err(refusal), _) => tally.refused(card, refusal),
            (Ok(_), Some(model)) => tally.six_digits += u64::from(model.has_weight_of_digits(6)),
            (Ok(_), None) => {}
        }
        let rooms = &mut self.rooms;
        let texts = [
            (Entry::Write, written),
            (Entry::Reduce, reduced),
            (Entry::Show, shown),
        ];
        let ask = |entry, room: &mut [u8]| match entry {
            Entry::Write => open_panel::write(card, room),
            Entry::Reduce => open_panel::reduce(card, room),
            Entry::Show => open_panel::show(card, &input.seats, room),
        };
        for (entry, expected) in texts {
            let lengths = room_lengths(expected.map(<[u8]>::len).ok(), random);
            for length in lengths.into_iter().flatten() {
                tally.room(expected.map(<[u8]>::len).ok(), length);
                rooms.probe(entry.name(), expected, length, |room| ask(entry, room))?;
            }
        }
        if let (Ok(read), true) = (&judged, random.once_in(self.long_rooms_once_in)) {
            for (entry, expected) in texts.into_iter().filter(|(_, text)| text.is_ok()) {
                let one_walk = entry.one_walk_room(read);
                for length in entry.long_rooms(read) {
                    tally.long_room(entry, length >= one_walk);
                    rooms.probe(entry.name(), expected, length, |room| ask(entry, room))?;
                }
            }
        }

        let has_shared = judged.as_ref().is_ok_and(|read| read.shared().is_some());
        if let (Ok(read), Ok(written)) = (&judged, written) {
            tally.groups(read);
            if written.len() <= open_panel::CARD_BYTES {
                tally.reread += 1;
                tally.shared.count(Tried::Reread, has_shared);
                if random.once_in(4) {
                    let judged = open_panel::judge(written);
                    judged.map_err(|refusal| format!("the written card is refused: {refusal}"))?;
                }
                let length = written.len();
                rooms.probe("the written card, written", Ok(written), length, |room| {
                    open_panel::write(written, room)
                })?;
                if random.once_in(4) {
                    let length = reduced.map_or(9, <[u8]>::len);
                    rooms.probe("the written card, reduced", reduced, length, |room| {
                        open_panel::reduce(written, room)
                    })?;
                    rooms.probe("the written card, shown", shown, 2_000, |room| {
                        open_panel::show(written, &input.seats, room)
                    })?;
                }
            } else {
                tally.too_long_written += 1;
            }
        }
        if let (Ok(read), Ok(shown)) = (&judged, shown) {
            adds_up(shown, has_shared, &mut tally.shared)?;
            let seats = reordered(&input.seats, read.seats(), random);
            tally.reordered += 1;
            tally.shared.count(Tried::Reordered, has_shared);
            rooms.probe(
                "the seats in another order",
                Ok(shown),
                shown.len() + 3,
                |room| open_panel::show(card, &seats, room),
            )?;
        }
        if let (Some(model), Ok(_)) = (&input.model, shown) {
            if by_seats::is_stuck(model, &input.seats) {
                tally.stuck[usize::from(model.probabilistic)] += 1;
                let stuck = match model.probabilistic {
                    true => Tried::StuckDrawing,
                    false => Tried::StuckChoosing,
                };
                tally.shared.count(stuck, has_shared);
                let panel = by_seats::panel(model, &input.seats);
                let room = panel.len();
                rooms.probe("a stuck table", Ok(panel.as_bytes()), room, |room| {
                    open_panel::show(card, &input.seats, room)
                })?;
            }
        }
        if let (Kind::Small, Some(model), Ok(reduced)) = (kind, &input.model, reduced) {
            let reduced = Reduced::read(reduced).ok_or("the reduced text cannot be read")?;
            starts_right(model, &reduced)?;
            for seats in model.seatings() {
                tally.seatings += 1;
                same_steps(model, &seats, &reduced)?;
                let panel = by_seats::panel(model, &seats);
                rooms.probe(
                    "the panel by seats",
                    Ok(panel.as_bytes()),
                    panel.len() + 7,
                    |room| open_panel::show(card, &seats, room),
                )?;
            }
            tally.small += 1;
            tally.shared.count(Tried::Small, has_shared);
            tally.shared.count(Tried::Wakes, wakes(model));
        }
        // Two questions where the card was made to be taken.
        for _ in 0..1 + usize::from(input.model.is_some()) {
            let question = Question::new(input, random);
            asks(card, input, &question, written.ok(), random, tally)?;
        }
        self.watches(card, input, random, tally)?;
        moves_first(card, input, random, tally)?;
        odds::reckons(card, input, random, tally)?;
        let rest = &surrounded[GUARD + input.card.len()..];
        if card != input.card
            || surrounded[..GUARD] != [b'9'; GUARD]
            || rest.iter().any(|byte| *byte != rest[0])
        {
            return Err("the card was written".to_owned());
        }
        self.surrounded = surrounded;
        Ok(())
    }
}

/// A seating with its seats in another order, of which there are so many; what stands behind them stays.
pub(crate) fn reordered(seating: &[u8], seats: usize, random: &mut Random) -> Vec<u8> {
    let mut bytes = seating.to_vec();
    random.shuffle(&mut bytes[..seats]);
    bytes
}

/// What an accepted card has of the shared number, and what a seating of it has, with the refusal that its panel gets.
fn tally_shared(card: &Card, bytes: &[u8], refusal: Option<Refusal>, tally: &mut SharedTally) {
    let more = bytes.len().checked_sub(card.seats());
    let Some(shared) = card.shared() else {
        tally.count(Tried::Superfluous, more == Some(1));
        return;
    };
    tally.top(shared.top);
    tally.count(Tried::Probabilistic, card.mode() == Mode::Probabilistic);
    tally.count(
        Tried::Nondeterministic,
        card.mode() == Mode::Nondeterministic,
    );
    let statements = card.statements().iter();
    let (mut tested, mut set, mut set_alone) = (false, false, false);
    for statement in statements {
        let is_test = |node: &Node| matches!(node, Node::Shared(_));
        tested |= card.guard(statement).iter().any(is_test);
        for branch in card.branches(statement) {
            set |= branch.shared.is_some();
            set_alone |= branch.shared.is_some() && branch.end == statement.own;
        }
    }
    tally.count(Tried::Tested, tested);
    tally.count(Tried::Set, set);
    tally.count(Tried::SetAlone, set_alone);
    tally.count(Tried::Unused, !tested && !set);
    tally.count(Tried::Lacking, more == Some(0));
    tally.count(Tried::Exceeding, more == Some(2));
    if let Some(Refusal { number: 9, place }) = refusal {
        tally.count(Tried::ValueAbove, place == card.seats());
        tally.count(Tried::SeatAbove, place < card.seats());
    }
}

/// Whether at some seats somebody can move at one value of the shared number, and nobody at another.
fn wakes(model: &Model) -> bool {
    let seatings: Vec<Vec<u8>> = model.seatings().collect();
    let mut tables = seatings.chunks(model.shared_values());
    tables.any(|values| {
        let stuck = |bytes: &Vec<u8>| by_seats::is_stuck(model, bytes);
        values.iter().any(stuck) && !values.iter().all(stuck)
    })
}

/// A question about an input, asked of both sides.
fn asks(
    card: &[u8],
    input: &Input,
    question: &Question,
    written: Option<&[u8]>,
    random: &mut Random,
    tally: &mut Tally,
) -> Result<(), Fault> {
    // Around the question stand bytes that would change it, were they read.
    let before = random.pick(b"!(9 ");
    let behind = random.pick(b"0)&/= ");
    let length = question.bytes.len();
    let mut surrounded = vec![before; GUARD];
    surrounded.extend(&question.bytes);
    surrounded.resize(GUARD + length + GUARD, behind);
    let asked = &surrounded[GUARD..GUARD + length];

    let ask = |card: &[u8], seats: &[u8]| {
        let answer = open_panel::ask(card, asked, seats);
        answer.map_err(|refusal| Refusal::new(refusal.number(), refusal.place()))
    };
    let fault = |what: &str, answer: Result<bool, Refusal>, due: Result<bool, Refusal>| {
        let (kind, question) = (question.kind, question.bytes.escape_ascii());
        format!("{what} ({kind:?}): the library says {answer:?}, and due is {due:?}\n{question}")
    };
    let due = baseline::ask(card, asked, &input.seats);
    let answer = ask(card, &input.seats);
    if answer != due {
        return Err(fault("ask", answer, due));
    }
    tally.question(question, input, answer);
    if let Err(refusal) = &answer {
        if refusal.number > 20 {
            tally.refused(asked, refusal);
        }
    }
    if surrounded[..GUARD] != [before; GUARD]
        || surrounded[GUARD..GUARD + length] != question.bytes
        || surrounded[GUARD + length..] != [behind; GUARD]
    {
        return Err("the question was written".to_owned());
    }
    // A damaged card may be taken, and be for another table.
    let models = question.model.as_ref().zip(input.model.as_ref());
    let tests_shared = question.tests_shared();
    match (models, due) {
        (Some(_), Err(refusal)) if refusal.number > 20 => {
            return Err(fault("a question made to be valid", answer, due));
        }
        (Some((asked, model)), Ok(_)) => {
            tally.by_seats += 1;
            tally.shared.count(Tried::AskedBySeats, tests_shared);
            says_the_same(asked, model.seating(&input.seats), due)
                .map_err(|meant| fault("ask, by seats", answer, Ok(meant)))?;
        }
        _ => {}
    }
    if due.is_err() {
        return Ok(());
    }
    let read = baseline::judge(card).map_err(|refusal| refusal.to_string())?;
    let seats = reordered(&input.seats, read.seats(), random);
    tally.questions_reordered += 1;
    let reordered = ask(card, &seats);
    if reordered != due {
        return Err(fault("ask, the seats in another order", reordered, due));
    }
    if let Some(written) = written.filter(|text| text.len() <= open_panel::CARD_BYTES) {
        if random.once_in(4) {
            let again = ask(written, &input.seats);
            if again != due {
                return Err(fault("ask, on the written card", again, due));
            }
        }
    }
    if let (Kind::Small, Some((asked, model))) = (input.kind, models) {
        for seats in model.seatings() {
            let answer = ask(card, &seats);
            tally.by_seats += 1;
            tally.shared.count(Tried::AskedBySeats, tests_shared);
            says_the_same(asked, model.seating(&seats), answer)
                .map_err(|meant| fault("ask, at every seating", answer, Ok(meant)))?;
        }
    }
    Ok(())
}

/// An answer against the seats: as the question is spelled, and with the seats of an exactly-one counted. What was meant is handed back if they differ.
fn says_the_same(
    question: &Expression,
    at: Seating,
    answer: Result<bool, Refusal>,
) -> Result<(), bool> {
    let meant = by_seats::holds(question, at);
    let counted = by_seats::holds_if_counted(question, at);
    if answer == Ok(meant) && meant == counted {
        return Ok(());
    }
    Err(meant)
}

/// An entry that puts a text into a room.
#[derive(Clone, Copy, PartialEq, Eq, Debug)]
pub enum Entry {
    /// The written card.
    Write,
    /// The reduced program.
    Reduce,
    /// The panel.
    Show,
}

impl Entry {
    /// All of them.
    pub const ALL: [Entry; 3] = [Entry::Write, Entry::Reduce, Entry::Show];

    /// What it is called.
    pub fn name(self) -> &'static str {
        match self {
            Entry::Write => "write",
            Entry::Reduce => "reduce",
            Entry::Show => "show",
        }
    }

    /// The least room into which the library puts this card's text without measuring it first.
    fn one_walk_room(self, card: &Card) -> usize {
        match self {
            Entry::Write => one_walk_write_room(card.seats(), card.statements().len()),
            Entry::Reduce => REDUCE_ROOM,
            Entry::Show => SHOW_ROOM,
        }
    }

    /// The room from which on one walk is enough, the room that is always enough, and those a byte shorter.
    fn long_rooms(self, card: &Card) -> Vec<usize> {
        let one_walk = self.one_walk_room(card);
        match self {
            Entry::Write => vec![one_walk - 1, one_walk, WRITE_ROOM - 1, WRITE_ROOM],
            Entry::Reduce | Entry::Show => vec![one_walk - 1, one_walk],
        }
    }
}

/// The library's bound for the written cards of so many seats and statements (crate `texts`).
const fn one_walk_write_room(seats: usize, statements: usize) -> usize {
    89 + statements * (337 + 144 * seats) + seats * 55
}

const _: () = assert!(one_walk_write_room(SEATS, STATEMENTS) == WRITE_ROOM);

/// The rooms to try: one that is a byte short, and one that just fits or a larger one; for a refusal any one.
pub(crate) fn room_lengths(text: Option<usize>, random: &mut Random) -> [Option<usize>; 2] {
    match text {
        Some(length) => [
            Some(if random.once_in(8) {
                random.below(length)
            } else {
                length - 1
            }),
            Some(if random.once_in(2) {
                length
            } else {
                length + random.between(1, 200)
            }),
        ],
        None => {
            let most = if random.once_in(16) { 20_000 } else { 400 };
            [Some(random.below(most)), None]
        }
    }
}

/// The weights on a panel: one unit for each pair that may be taken, or in each choice. Where there is a shared number it has its own line,
/// and every line of a weight ends in what it becomes.
fn adds_up(panel: &[u8], has_shared: bool, tally: &mut SharedTally) -> Result<(), Fault> {
    let panel = String::from_utf8_lossy(panel);
    let mut sums = Vec::new();
    let mut enabled = 0;
    let mut chooses = false;
    let mut shared = None;
    // What the last line of a weight says, but for the weight.
    let mut last: Option<[&str; 3]> = None;
    let (mut stays, mut moves, mut changes) = (false, false, false);
    for line in panel.lines() {
        let mut words: Vec<&str> = line.split(' ').collect();
        let mut after = None;
        if has_shared && matches!(words[0], "stay" | "move") {
            after = words.pop();
            changes |= after != shared;
        }
        match words[..] {
            ["probabilistic"] => sums.push(0),
            ["nondeterministic"] => chooses = true,
            ["seats", _, "enabled", number] => enabled = number.parse().map_err(|_| "no number")?,
            ["counts", ..] => {}
            ["shared", value] if has_shared && shared.is_none() && last.is_none() => {
                shared = Some(value);
            }
            ["choice", _] => {
                sums.push(0);
                last = None;
            }
            ["stay", weight] | ["move", _, _, weight] => {
                *sums.last_mut().ok_or("a weight under no choice")? +=
                    weight.parse::<u64>().map_err(|_| "no weight")?;
                let what = match words[..] {
                    [_, old, new, _] => [old, new, after.unwrap_or("")],
                    _ => ["", "", after.unwrap_or("")],
                };
                if last.is_some_and(|last| last >= what) {
                    return Err(format!("lines in another order:\n{panel}"));
                }
                let again = last.is_some_and(|last| last[..2] == what[..2]);
                stays |= again && what[0].is_empty();
                moves |= again && !what[0].is_empty();
                last = Some(what);
            }
            _ => return Err(format!("a line that no panel has: {line}")),
        }
    }
    if shared.is_some() != has_shared {
        return Err(format!("no shared number on the panel:\n{panel}"));
    }
    tally.count(Tried::Stays, stays);
    tally.count(Tried::Moves, moves);
    tally.count(Tried::Changes, changes);
    let unit = u64::from(UNIT);
    let right = if chooses {
        sums.len() as u64 == enabled && sums.iter().all(|sum| *sum == unit)
    } else {
        sums == [enabled * unit]
    };
    right
        .then_some(())
        .ok_or_else(|| format!("the weights do not add up:\n{panel}"))
}

/// The reduced program starts at the counts of the card's own start.
fn starts_right(model: &Model, reduced: &Reduced) -> Result<(), Fault> {
    let start = by_seats::counts(&vec![model.start as u8; model.seats], model.top);
    let copies = if model.probabilistic { model.seats } else { 1 };
    let shared = model.shared;
    let shared = shared.map(|shared| (shared.top as u64, shared.start as u64));
    let right = reduced.start == start
        && reduced.shared == shared
        && reduced.most.iter().all(|most| *most == model.seats as u64)
        && reduced.statements() == model.statements.len() * copies;
    right
        .then_some(())
        .ok_or_else(|| "the reduced program starts wrong".to_owned())
}

/// Demand 3 at one seating: the reduced program leads where the seats lead, with
/// the same weights. Where neither can do anything each has the one step that
/// changes nothing.
fn same_steps(model: &Model, seats: &[u8], reduced: &Reduced) -> Result<(), Fault> {
    let steps = by_seats::steps(model, seats);
    let counts = by_seats::counted(model, seats);
    let wrong = || format!("at {seats:?} the reduced program does not do what the seats do");
    if model.probabilistic {
        let mut of_seats = by_seats::Weights::new();
        for step in &steps {
            for (next, weight) in by_seats::by_counts(model, &step.after) {
                *of_seats.entry(next).or_default() += weight;
            }
        }
        let mut of_counts = by_seats::Weights::new();
        for statement in 0..reduced.statements() {
            for (next, weight) in reduced.steps(statement, &counts).into_iter().flatten() {
                *of_counts.entry(next).or_default() += weight;
            }
        }
        for of_one in [&mut of_seats, &mut of_counts] {
            if of_one.is_empty() {
                of_one.insert(counts.clone(), u64::from(UNIT));
            }
        }
        let stuck = by_seats::is_stuck(model, seats);
        if stuck && of_counts != by_seats::Weights::from([(counts, u64::from(UNIT))]) {
            return Err(wrong());
        }
        return (of_seats == of_counts).then_some(()).ok_or_else(wrong);
    }
    for statement in 0..model.statements.len() {
        let of_counts = reduced.steps(statement, &counts);
        let mut of_seats = steps
            .iter()
            .filter(|step| step.statement == statement)
            .peekable();
        let same = match &of_counts {
            None => of_seats.peek().is_none(),
            Some(after) => {
                of_seats.peek().is_some()
                    && of_seats.all(|step| by_seats::by_counts(model, &step.after) == *after)
            }
        };
        same.then_some(()).ok_or_else(wrong)?;
    }
    Ok(())
}
