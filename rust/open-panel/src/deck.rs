//! Decks: cards in a box, found by their numbers; damaged boxes mended, old ones converted, full ones tidied, and cards added.

use crate::{in_own_room, library, Answer, Refusal};

/// Longest deck, in bytes.
pub const DECK_BYTES: usize = 65_535;
/// Most cards in a deck.
pub const DECK_CARDS: usize = 64;
/// A room in which every list of [`mend`] fits: a line of ten bytes at most for each entry.
pub const LIST_ROOM: usize = 640;

/// A part of one of two decks.
#[derive(Clone, Copy, PartialEq, Eq, Hash, Debug)]
pub struct Part {
    /// It lies in the expansion, and not in the base.
    pub in_expansion: bool,
    /// Its first byte.
    pub offset: usize,
    /// How many bytes it has.
    pub length: usize,
}

impl Part {
    fn of<'d>(self, base: &'d [u8], expansion: &'d [u8]) -> &'d [u8] {
        let deck = if self.in_expansion { expansion } else { base };
        &deck[self.offset..self.offset + self.length]
    }
}

/// A part as the library hands it back.
#[repr(C)]
#[derive(PartialEq, Eq, Debug)]
pub(crate) struct RawPart {
    in_expansion: usize,
    offset: usize,
    length: usize,
}

// To the library it is three numbers of eight bytes, one behind the other.
const _: () = assert!(size_of::<RawPart>() == 24);

impl RawPart {
    /// What no library hands back.
    const UNSET: RawPart = RawPart {
        in_expansion: usize::MAX,
        offset: usize::MAX,
        length: usize::MAX,
    };
    const EMPTY: RawPart = RawPart {
        in_expansion: 0,
        offset: 0,
        length: 0,
    };
}

/// Says whether a deck is well formed; its cards are not read. Refusal: 11.
pub fn judge_deck(deck: &[u8]) -> Result<(), Refusal> {
    let value = library::box_judge(deck).into_result()?;
    assert_eq!(value, 0, "the library judges a deck without a value");
    Ok(())
}

/// The live card of this number, as it stands in a deck. Refusals: 11 and 12.
pub fn find(deck: &[u8], number: u16) -> Result<&[u8], Refusal> {
    locate(deck, number).map(|part| part.of(deck, &[]))
}

/// Where a deck has the live card of this number. Refusals: 11 and 12.
pub fn locate(deck: &[u8], number: u16) -> Result<Part, Refusal> {
    located(|part| library::box_find(deck, number, part))
}

/// The live card of this number, as it stands in an expansion, or else in the base. Refusals: 11 and 12.
///
/// ```
/// let entry = [5, 0, 0, 0, 4, 0, 1, 0];
/// let base = open_panel::write_deck_to_vec(&entry, b"base")?;
/// let expansion = open_panel::write_deck_to_vec(&entry, b"more")?;
/// assert_eq!(open_panel::find_with(&base, &expansion, 5), Ok(&b"more"[..]));
/// # Ok::<(), open_panel::Refusal>(())
/// ```
pub fn find_with<'d>(
    base: &'d [u8],
    expansion: &'d [u8],
    number: u16,
) -> Result<&'d [u8], Refusal> {
    locate_with(base, expansion, number).map(|part| part.of(base, expansion))
}

/// Where an expansion, or else the base, has the live card of this number. Refusals: 11 and 12.
pub fn locate_with(base: &[u8], expansion: &[u8], number: u16) -> Result<Part, Refusal> {
    located(|part| library::box_find_with(base, expansion, number, part))
}

fn located(find: impl FnOnce(&mut RawPart) -> Answer) -> Result<Part, Refusal> {
    let mut part = RawPart::UNSET;
    let answer = find(&mut part).into_result();
    if answer.is_err() {
        assert_eq!(part, RawPart::EMPTY, "a refused lookup has an empty part");
    }
    assert_eq!(answer?, 0, "the library finds without a value");
    Ok(Part {
        in_expansion: match part.in_expansion {
            0 => false,
            1 => true,
            other => panic!("there is no deck {other}"),
        },
        offset: part.offset,
        length: part.length,
    })
}

/// Puts a deck without gaps into a lent room: its contents are entries of eight bytes, whose offsets are not looked at, and its
/// bodies stand one behind the other. Refusals: 11, then 10.
pub fn write_deck(contents: &[u8], bodies: &[u8], room: &mut [u8]) -> Result<usize, Refusal> {
    library::box_write(contents, bodies, room).into_result()
}

/// The deck without gaps. Refusal: 11.
pub fn write_deck_to_vec(contents: &[u8], bodies: &[u8]) -> Result<Vec<u8>, Refusal> {
    in_own_room(DECK_BYTES, |room| write_deck(contents, bodies, room))
}

/// How much of its two rooms [`mend`] has filled.
#[derive(Clone, Copy, PartialEq, Eq, Hash, Debug)]
pub struct Mended {
    /// Bytes of the new deck.
    pub deck: usize,
    /// Bytes of the list.
    pub list: usize,
}

/// Puts what can be kept of a damaged deck into a lent room, as a deck without gaps, and a line for each of its entries into a
/// lent list: `kept`, or `dropped` and the first of four rules that the entry breaks. Refusals: 11 at 0, then 10 with the deck's
/// length, then 10 with the list's.
///
/// By rule 1 an entry's flag is 0 or 1 and its last byte 0; by rule 2 its number is higher than all kept before; by rule 3 its body
/// lies within the deck, behind the contents and the last body kept; by rule 4 its card is taken, if it is live. A card with a
/// decimal for a weight is not, so an old deck is [converted](convert) first. The new deck is never longer than the old one, so a
/// room of the old one's length is always enough; for the list [`LIST_ROOM`] is.
///
/// ```
/// // Of two withdrawn cards the second has a flag that is none.
/// let damaged = [2, 5, 0, 17, 0, 2, 0, 0, 0, 6, 0, 19, 0, 1, 0, 7, 0, b'a', b'b', b'c'];
/// let (mut room, mut list) = ([0; 20], [0; open_panel::LIST_ROOM]);
/// let mended = open_panel::mend(&damaged, &mut room, &mut list)?;
/// assert_eq!(room[..mended.deck], [1, 5, 0, 9, 0, 2, 0, 0, 0, b'a', b'b']);
/// assert_eq!(&list[..mended.list], b"kept\ndropped 1\n");
/// # Ok::<(), open_panel::Refusal>(())
/// ```
pub fn mend(deck: &[u8], room: &mut [u8], list: &mut [u8]) -> Result<Mended, Refusal> {
    // What no list is long.
    const UNSET: usize = usize::MAX;
    let mut listed = UNSET;
    let answer = library::mend(deck, room, list, &mut listed).into_result();
    if answer.is_err() {
        assert_eq!(listed, UNSET, "with a refusal there is no list");
    }
    let deck = answer?;
    assert!(listed <= list.len(), "a list lies in its room");
    Ok(Mended { deck, list: listed })
}

/// The mended deck, and the list of what became of each entry. Refusal: 11.
pub fn mend_to_vecs(deck: &[u8]) -> Result<(Vec<u8>, Vec<u8>), Refusal> {
    let mut list = vec![0; LIST_ROOM];
    let mut listed = 0;
    let mended = in_own_room(deck.len().min(DECK_BYTES), |room| {
        let mended = mend(deck, room, &mut list)?;
        listed = mended.list;
        Ok(mended.deck)
    })?;
    list.truncate(listed);
    list.shrink_to_fit();
    Ok((mended, list))
}

/// Puts a deck from before version 0.11.0, when a weight could be a decimal, into a lent room as one whose live cards are all
/// taken: its length is answered. A live card with such a weight stands there in its written form, in which every weight is `0`,
/// `1` or a fraction, and means what it meant; any other live card stands there as it was, and so does a withdrawn one, which is
/// not read. Numbers, flags and order stay, and gaps are closed. Refusals: 11, then 18, whose place is a card number, then 10.
///
/// A written form can be longer than the card was, and the new deck longer than the old one; a room of [`DECK_BYTES`] is always
/// enough.
///
/// ```
/// use open_panel::Refusal;
///
/// let old = b"probabilistic module process1 s1 : [0..1] init 0;
///     [] s1=0 -> 0.25:(s1'=0) + 0.75:(s1'=1); endmodule";
/// assert_eq!(open_panel::judge(old), Err(Refusal::Decimal { at: 65 }));
/// let deck = open_panel::write_deck_to_vec(&[5, 0, 0, 0, old.len() as u8, 0, 1, 0], old)?;
/// let mut room = [0; open_panel::DECK_BYTES];
/// let length = open_panel::convert(&deck, &mut room)?;
/// let card = open_panel::find(&room[..length], 5)?;
/// assert!(card.ends_with(b"[] s1=0 -> 1/4:(s1'=0) + 3/4:(s1'=1);\nendmodule\n"));
///
/// // What never was a card is named by its number.
/// let deck = open_panel::write_deck_to_vec(&[5, 0, 0, 0, 3, 0, 1, 0], b"0.5")?;
/// assert_eq!(open_panel::convert(&deck, &mut room), Err(Refusal::NotConverted { card: 5 }));
/// # Ok::<(), Refusal>(())
/// ```
pub fn convert(deck: &[u8], room: &mut [u8]) -> Result<usize, Refusal> {
    library::convert(deck, room).into_result()
}

/// The converted deck. Refusals: 11, then 18.
pub fn convert_to_vec(deck: &[u8]) -> Result<Vec<u8>, Refusal> {
    in_own_room(DECK_BYTES, |room| convert(deck, room))
}

/// Takes withdrawn cards out of a deck where it stands, closes its gaps, and answers its new length. The whole slice is the deck,
/// and what is unused at its end a gap; so it may be longer than the cards need. Live cards keep number, order and bytes, and are
/// not read; behind the new length stand zeros. Refusals: 11, then 12 if no card is live. They leave the deck as it was.
///
/// ```
/// // Card 5 is withdrawn and 6 live; a byte lies between them, and another behind them.
/// let mut deck = [2, 5, 0, 17, 0, 1, 0, 0, 0, 6, 0, 19, 0, 2, 0, 1, 0, b'a', 9, b'b', b'c', 9];
/// assert_eq!(open_panel::tidy(&mut deck), Ok(11));
/// assert_eq!(deck[..11], [1, 6, 0, 9, 0, 2, 0, 1, 0, b'b', b'c']);
/// assert_eq!(deck[11..], [0; 11]);
/// ```
pub fn tidy(deck: &mut [u8]) -> Result<usize, Refusal> {
    library::tidy(deck).into_result()
}

/// [Tidies](tidy) a deck, and makes it as short as it is then. Refusals: 11, then 12.
pub fn tidy_vec(deck: &mut Vec<u8>) -> Result<(), Refusal> {
    let length = tidy(deck)?;
    deck.truncate(length);
    Ok(())
}

/// [Tidies](tidy) a deck where it stands, puts a live card into it at its place by number, and answers its new length, behind
/// which stand zeros. The slice is all the room there is. A withdrawn card of that number leaves the deck. Refusals: 11, then 12 if
/// no card is live, 1 to 7 and 17 of the card, 19 if a live card has the number or [`DECK_CARDS`] cards are live, then 10. They
/// leave the deck as it was, and not tidied either.
///
/// ```
/// use open_panel::Refusal;
///
/// let card = b"nondeterministic module process1 s1 : [0..1] init 0;
///     [] s1=0 -> 1:(s1'=1); endmodule";
/// let mut deck = [0; open_panel::DECK_BYTES];
/// open_panel::write_deck(&[6, 0, 0, 0, 4, 0, 1, 0], b"base", &mut deck)?;
/// let length = open_panel::add(&mut deck, 5, card)?;
/// assert_eq!(open_panel::find(&deck[..length], 5), Ok(&card[..]));
/// assert_eq!(open_panel::find(&deck[..length], 6), Ok(&b"base"[..]));
///
/// // Card 6 is live, and its entry, now the second, starts at byte 9.
/// assert_eq!(open_panel::add(&mut deck, 6, card), Err(Refusal::NotAdded { at: 9 }));
/// # Ok::<(), Refusal>(())
/// ```
pub fn add(deck: &mut [u8], number: u16, card: &[u8]) -> Result<usize, Refusal> {
    library::add(deck, number, card).into_result()
}

/// [Adds](add) a live card to a deck, which grows as it needs to, up to [`DECK_BYTES`], and is as short as it can be then.
/// Refusals: those of [`add`], 10 only past [`DECK_BYTES`]. They leave the deck as it was.
///
/// ```
/// let card = b"nondeterministic module process1 s1 : [0..1] init 0;
///     [] s1=0 -> 1:(s1'=1); endmodule";
/// let mut deck = open_panel::write_deck_to_vec(&[6, 0, 0, 0, 4, 0, 1, 0], b"base")?;
/// open_panel::add_to_vec(&mut deck, 5, card)?;
/// assert_eq!(deck.len(), 1 + 2 * 8 + card.len() + 4);
/// # Ok::<(), open_panel::Refusal>(())
/// ```
pub fn add_to_vec(deck: &mut Vec<u8>, number: u16, card: &[u8]) -> Result<(), Refusal> {
    let length = match add(deck, number, card) {
        Err(Refusal::Room { needed }) if needed <= DECK_BYTES => {
            // What it grows by is a gap at its end, so nothing else about the deck is judged otherwise.
            deck.resize(needed, 0);
            add(deck, number, card).expect("a deck has the room that it has said is needed")
        }
        answer => answer?,
    };
    deck.truncate(length);
    Ok(())
}
