//! The library's own entries. `include/open_panel.h` says what each asks for.
#![allow(unsafe_code)]

use std::ffi::{c_char, CStr};

use crate::{Answer, RawPart};

extern "C" {
    fn open_panel_version() -> *const c_char;
    fn open_panel_words(number: u8) -> *const c_char;
    fn open_panel_judge(card: *const u8, card_len: usize) -> Answer;
    fn open_panel_write(card: *const u8, card_len: usize, room: *mut u8, room_len: usize)
        -> Answer;
    fn open_panel_reduce(
        card: *const u8,
        card_len: usize,
        room: *mut u8,
        room_len: usize,
    ) -> Answer;
    fn open_panel_show(
        card: *const u8,
        card_len: usize,
        seats: *const u8,
        seats_len: usize,
        room: *mut u8,
        room_len: usize,
    ) -> Answer;
    fn open_panel_ask(
        card: *const u8,
        card_len: usize,
        question: *const u8,
        question_len: usize,
        seats: *const u8,
        seats_len: usize,
    ) -> Answer;
    fn open_panel_watch(
        card: *const u8,
        card_len: usize,
        seats: *const u8,
        seats_len: usize,
        classes: *const u8,
        classes_len: usize,
        room: *mut u8,
        room_len: usize,
    ) -> Answer;
    fn open_panel_first_move(
        card: *const u8,
        card_len: usize,
        seats: *const u8,
        seats_len: usize,
    ) -> Answer;
    fn open_panel_odds(
        card: *const u8,
        card_len: usize,
        question: *const u8,
        question_len: usize,
        seats: *const u8,
        seats_len: usize,
        m: usize,
        largest: u8,
        first: *mut u32,
        first_len: usize,
        second: *mut u32,
        second_len: usize,
    ) -> Answer;
    fn open_panel_box_judge(deck: *const u8, deck_len: usize) -> Answer;
    fn open_panel_box_find(
        deck: *const u8,
        deck_len: usize,
        number: u16,
        part: *mut RawPart,
    ) -> Answer;
    fn open_panel_box_find_with(
        base: *const u8,
        base_len: usize,
        expansion: *const u8,
        expansion_len: usize,
        number: u16,
        part: *mut RawPart,
    ) -> Answer;
    fn open_panel_box_write(
        contents: *const u8,
        contents_len: usize,
        bodies: *const u8,
        bodies_len: usize,
        room: *mut u8,
        room_len: usize,
    ) -> Answer;
    fn open_panel_mend(
        deck: *const u8,
        deck_len: usize,
        room: *mut u8,
        room_len: usize,
        list: *mut u8,
        list_len: usize,
        listed: *mut usize,
    ) -> Answer;
    fn open_panel_convert(
        deck: *const u8,
        deck_len: usize,
        room: *mut u8,
        room_len: usize,
    ) -> Answer;
    fn open_panel_tidy(deck: *mut u8, deck_len: usize) -> Answer;
    fn open_panel_add(
        deck: *mut u8,
        deck_len: usize,
        number: u16,
        card: *const u8,
        card_len: usize,
    ) -> Answer;
}

// The library asks for nothing but pieces of memory, of which the rooms, the
// part, the rows or the deck that it changes are its alone while it runs: slices
// and references are that.

pub(crate) fn judge(card: &[u8]) -> Answer {
    // SAFETY: as above.
    unsafe { open_panel_judge(card.as_ptr(), card.len()) }
}

pub(crate) fn write(card: &[u8], room: &mut [u8]) -> Answer {
    // SAFETY: as above.
    unsafe { open_panel_write(card.as_ptr(), card.len(), room.as_mut_ptr(), room.len()) }
}

pub(crate) fn reduce(card: &[u8], room: &mut [u8]) -> Answer {
    // SAFETY: as above.
    unsafe { open_panel_reduce(card.as_ptr(), card.len(), room.as_mut_ptr(), room.len()) }
}

pub(crate) fn show(card: &[u8], seats: &[u8], room: &mut [u8]) -> Answer {
    // SAFETY: as above.
    unsafe {
        open_panel_show(
            card.as_ptr(),
            card.len(),
            seats.as_ptr(),
            seats.len(),
            room.as_mut_ptr(),
            room.len(),
        )
    }
}

pub(crate) fn ask(card: &[u8], question: &[u8], seats: &[u8]) -> Answer {
    // SAFETY: as above.
    unsafe {
        open_panel_ask(
            card.as_ptr(),
            card.len(),
            question.as_ptr(),
            question.len(),
            seats.as_ptr(),
            seats.len(),
        )
    }
}

pub(crate) fn watch(card: &[u8], seats: &[u8], classes: &[u8], room: &mut [u8]) -> Answer {
    // SAFETY: as above.
    unsafe {
        open_panel_watch(
            card.as_ptr(),
            card.len(),
            seats.as_ptr(),
            seats.len(),
            classes.as_ptr(),
            classes.len(),
            room.as_mut_ptr(),
            room.len(),
        )
    }
}

pub(crate) fn first_move(card: &[u8], seats: &[u8]) -> Answer {
    // SAFETY: as above.
    unsafe { open_panel_first_move(card.as_ptr(), card.len(), seats.as_ptr(), seats.len()) }
}

pub(crate) fn odds(
    card: &[u8],
    question: &[u8],
    seats: &[u8],
    steps: usize,
    largest: bool,
    first: &mut [u32],
    second: &mut [u32],
) -> Answer {
    // SAFETY: as above.
    unsafe {
        open_panel_odds(
            card.as_ptr(),
            card.len(),
            question.as_ptr(),
            question.len(),
            seats.as_ptr(),
            seats.len(),
            steps,
            largest.into(),
            first.as_mut_ptr(),
            first.len(),
            second.as_mut_ptr(),
            second.len(),
        )
    }
}

pub(crate) fn box_judge(deck: &[u8]) -> Answer {
    // SAFETY: as above.
    unsafe { open_panel_box_judge(deck.as_ptr(), deck.len()) }
}

pub(crate) fn box_find(deck: &[u8], number: u16, part: &mut RawPart) -> Answer {
    // SAFETY: as above.
    unsafe { open_panel_box_find(deck.as_ptr(), deck.len(), number, part) }
}

pub(crate) fn box_find_with(
    base: &[u8],
    expansion: &[u8],
    number: u16,
    part: &mut RawPart,
) -> Answer {
    // SAFETY: as above.
    unsafe {
        open_panel_box_find_with(
            base.as_ptr(),
            base.len(),
            expansion.as_ptr(),
            expansion.len(),
            number,
            part,
        )
    }
}

pub(crate) fn box_write(contents: &[u8], bodies: &[u8], room: &mut [u8]) -> Answer {
    // SAFETY: as above.
    unsafe {
        open_panel_box_write(
            contents.as_ptr(),
            contents.len(),
            bodies.as_ptr(),
            bodies.len(),
            room.as_mut_ptr(),
            room.len(),
        )
    }
}

pub(crate) fn mend(deck: &[u8], room: &mut [u8], list: &mut [u8], listed: &mut usize) -> Answer {
    // SAFETY: as above.
    unsafe {
        open_panel_mend(
            deck.as_ptr(),
            deck.len(),
            room.as_mut_ptr(),
            room.len(),
            list.as_mut_ptr(),
            list.len(),
            listed,
        )
    }
}

pub(crate) fn convert(deck: &[u8], room: &mut [u8]) -> Answer {
    // SAFETY: as above.
    unsafe { open_panel_convert(deck.as_ptr(), deck.len(), room.as_mut_ptr(), room.len()) }
}

pub(crate) fn tidy(deck: &mut [u8]) -> Answer {
    // SAFETY: as above.
    unsafe { open_panel_tidy(deck.as_mut_ptr(), deck.len()) }
}

pub(crate) fn add(deck: &mut [u8], number: u16, card: &[u8]) -> Answer {
    // SAFETY: as above.
    unsafe {
        open_panel_add(
            deck.as_mut_ptr(),
            deck.len(),
            number,
            card.as_ptr(),
            card.len(),
        )
    }
}

pub(crate) fn version() -> &'static str {
    // SAFETY: it takes nothing, and what it gives is a literal of the library.
    ascii(unsafe { CStr::from_ptr(open_panel_version()) })
}

pub(crate) fn words(number: u8) -> &'static str {
    // SAFETY: it takes any number, and what it gives is a literal of the library.
    ascii(unsafe { CStr::from_ptr(open_panel_words(number)) })
}

fn ascii(text: &'static CStr) -> &'static str {
    text.to_str().expect("the library's words are ASCII")
}
