//! Decks for tests.

/// Card number, offset, length, flag, zero byte.
pub type Entry = (u16, usize, usize, u8, u8);

/// A deck of these entries, and behind them what is given.
pub fn deck(entries: &[Entry], behind: &[u8]) -> Vec<u8> {
    let mut deck = vec![entries.len() as u8];
    for &(number, offset, length, flag, zero) in entries {
        for field in [number, offset as u16, length as u16] {
            deck.extend(field.to_le_bytes());
        }
        deck.extend([flag, zero]);
    }
    deck.extend(behind);
    deck
}

/// A deck without gaps: card number, flag, body.
pub fn gapless(cards: &[(u16, u8, &str)]) -> Vec<u8> {
    let mut offset = 1 + 8 * cards.len();
    let mut entries = Vec::new();
    for (number, flag, body) in cards {
        entries.push((*number, offset, body.len(), *flag, 0));
        offset += body.len();
    }
    let bodies: String = cards.iter().map(|(_, _, body)| *body).collect();
    deck(&entries, bodies.as_bytes())
}
