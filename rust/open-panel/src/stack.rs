//! How many bytes of stack a call of each function takes at most, the library's and this crate's own together, on x86-64 and on aarch64.
//! They are not proved: `tests/stack.sh` measures every entry on the inputs that need most, and fails where one takes more.

/// [`judge`](crate::judge)
pub const JUDGE: usize = 10_240;
/// [`write`](crate::write)
pub const WRITE: usize = 11_264;
/// [`reduce`](crate::reduce)
pub const REDUCE: usize = 12_032;
/// [`show`](crate::show)
pub const SHOW: usize = 11_264;
/// [`ask`](crate::ask)
pub const ASK: usize = 10_752;
/// [`watch`](crate::watch)
pub const WATCH: usize = 10_752;
/// [`first_move`](crate::first_move)
pub const FIRST_MOVE: usize = 10_752;
/// [`odds`](crate::odds), in lent rows
pub const ODDS: usize = 12_160;
/// [`judge_deck`](crate::judge_deck)
pub const JUDGE_DECK: usize = 256;
/// [`find`](crate::find), [`locate`](crate::locate)
pub const FIND: usize = 256;
/// [`find_with`](crate::find_with), [`locate_with`](crate::locate_with)
pub const FIND_WITH: usize = 256;
/// [`write_deck`](crate::write_deck)
pub const WRITE_DECK: usize = 256;
/// [`mend`](crate::mend)
pub const MEND: usize = 11_008;
/// [`convert`](crate::convert), in a lent room
pub const CONVERT: usize = 12_160;
/// [`tidy`](crate::tidy)
pub const TIDY: usize = 256;
/// [`add`](crate::add), in a lent deck
pub const ADD: usize = 10_752;
