//! How much stack a call uses: the stack below it is painted, and afterwards
//! looked at for the deepest word that is no longer paint.
#![allow(unsafe_code)]

use std::hint::black_box;
use std::mem::MaybeUninit;
use std::thread;

use crate::{Call, Case};

/// How many words of stack are painted; a call must use less.
const AREA: usize = 1 << 13;
const PAINT: u64 = 0xa5a5_a5a5_a5a5_a5a5;

/// Most bytes of stack that a call uses on any of the cases, give or take a few words: in a room that is always enough, in
/// rooms that just fit and that are a byte too short, and in none.
pub fn most(call: Call, cases: &[Case]) -> usize {
    thread::scope(|scope| {
        thread::Builder::new()
            .stack_size(1 << 20)
            .spawn_scoped(scope, || {
                let mut room = vec![0; open_panel::REDUCE_ROOM];
                let all = cases.iter().map(|case| in_rooms(call, case, &mut room));
                all.max().unwrap_or(0)
            })
            .expect("a thread starts")
            .join()
            .expect("a call ends")
    })
}

fn in_rooms(call: Call, case: &Case, room: &mut [u8]) -> usize {
    let (answer, whole) = used(call, case, room);
    let lengths = answer.map_or([0; 3], |length| [length.saturating_sub(1), length, 0]);
    let others = lengths.map(|length| used(call, case, &mut room[..length]).1);
    others.into_iter().fold(whole, usize::max)
}

fn used(call: Call, case: &Case, room: &mut [u8]) -> (Option<usize>, usize) {
    let start = paint();
    let answer = black_box(call)(black_box(case), room);
    let used = gone(start);
    assert!(used < 8 * AREA, "more than {} bytes of stack", 8 * AREA);
    (answer, used)
}

/// Paints the stack below its caller and says where the paint starts.
#[inline(never)]
fn paint() -> *const u64 {
    let mut area = MaybeUninit::<[u64; AREA]>::uninit();
    let start = black_box(area.as_mut_ptr()).cast::<u64>();
    for place in 0..AREA {
        // SAFETY: the place is within the area.
        unsafe { start.add(place).write_volatile(PAINT) };
    }
    start
}

/// How much of the paint is gone, in bytes, counted from its end. Nothing of the area
/// belongs to a frame by now, but it is still this thread's stack, and a large
/// frame of our own in its place would be written page by page as it is made.
#[inline(never)]
fn gone(start: *const u64) -> usize {
    let mut place = 0;
    // SAFETY: the place is within the thread's stack, which stays mapped.
    while place < AREA && unsafe { start.add(place).read_volatile() } == PAINT {
        place += 1;
    }
    8 * (AREA - place)
}
