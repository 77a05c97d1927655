//! The calls of the library for C, and all `unsafe` of this crate.
//!
//! What a caller owes stands in `bindings/c/juqabhino.h`, by number: (1) no pointer is null; (2) what is pointed to is
//! initialised; (3) no one writes to the inputs, and no one else touches the outputs; (4) an output overlaps nothing;
//! (5) lengths are less than 2^63; (6) both archives are linked; (7) no call comes from a signal handler or a forked child.
//!
//! Each call below is given slices and references, and for these 1 to 5 hold: the pointer of an empty slice is dangling and
//! not null; a slice is initialised, and no longer than `isize::MAX`; `&mut` is exclusive, and what is behind `&` does not
//! change. `build.rs` meets 6. A program that calls this crate from a signal handler breaks the rules of Rust's own
//! allocator first, and after `fork` in a process with threads those of the one who forked.

unsafe extern "C" {
    fn juqabhino_run(
        words: *const u8,
        words_len: usize,
        script: *const u8,
        script_len: usize,
        room: *mut u8,
        room_len: usize,
        told: *mut usize,
    ) -> u8;

    fn juqabhino_check(
        options: *const u8,
        options_len: usize,
        predicate: *const u8,
        predicate_len: usize,
        reads: *mut u8,
    ) -> u8;

    fn juqabhino_reason(
        options: *const u8,
        options_len: usize,
        predicate: *const u8,
        predicate_len: usize,
        room: *mut u8,
        room_len: usize,
        told: *mut usize,
    ) -> u8;

    fn juqabhino_hint(
        options: *const u8,
        options_len: usize,
        predicate: *const u8,
        predicate_len: usize,
        number: *mut u64,
        room: *mut u8,
        room_len: usize,
        told: *mut usize,
    ) -> u8;
}

pub(crate) const OK: u8 = 0;
pub(crate) const NONE: u8 = 1;
pub(crate) const USAGE: u8 = 2;
pub(crate) const SYNTAX: u8 = 3;
pub(crate) const NO_ROOM: u8 = 5;
pub(crate) const MEMORY: u8 = 6;
pub(crate) const ARENA_FULL: u8 = 8;
pub(crate) const TOO_LONG: u8 = 9;
pub(crate) const PREDICATE: u8 = 10;

/// A run: its status, with the output or the line of the refusal.
pub(crate) fn run(words: &[u8], script: &[u8]) -> (u8, Vec<u8>) {
    with_room(script.len().saturating_mul(4).max(4096), |room, told| {
        // SAFETY: duties 1 to 5 by the slices and references; `room` is zeroed; 6 and 7 as above.
        unsafe {
            juqabhino_run(
                words.as_ptr(),
                words.len(),
                script.as_ptr(),
                script.len(),
                room.as_mut_ptr(),
                room.len(),
                told,
            )
        }
    })
}

/// What a predicate reads: a status, and the answer where that is `OK`.
pub(crate) fn check(options: &[u8], predicate: &[u8]) -> (u8, u8) {
    let mut reads = 0;
    // SAFETY: duties 1 to 5 by the slices and the reference to an initialised local; 6 and 7 as above.
    let status = unsafe {
        juqabhino_check(
            options.as_ptr(),
            options.len(),
            predicate.as_ptr(),
            predicate.len(),
            &mut reads,
        )
    };
    (status, reads)
}

/// Why a predicate is off: a status, and the text where that is `OK`.
pub(crate) fn reason(options: &[u8], predicate: &[u8]) -> (u8, Vec<u8>) {
    with_room(256, |room, told| {
        // SAFETY: duties 1 to 5 by the slices and references; `room` is zeroed; 6 and 7 as above.
        unsafe {
            juqabhino_reason(
                options.as_ptr(),
                options.len(),
                predicate.as_ptr(),
                predicate.len(),
                room.as_mut_ptr(),
                room.len(),
                told,
            )
        }
    })
}

/// The first hint from a number on: a status, and the text where that is `OK`; the number is then that of the hint.
pub(crate) fn hint(options: &[u8], predicate: &[u8], number: &mut u64) -> (u8, Vec<u8>) {
    with_room(256, |room, told| {
        // SAFETY: duties 1 to 5 by the slices and references; `room` is zeroed; 6 and 7 as above.
        unsafe {
            juqabhino_hint(
                options.as_ptr(),
                options.len(),
                predicate.as_ptr(),
                predicate.len(),
                number,
                room.as_mut_ptr(),
                room.len(),
                told,
            )
        }
    })
}

/// Calls with room of a guessed length, and where that is too small once more with the length that is told.
fn with_room(guess: usize, mut call: impl FnMut(&mut [u8], &mut usize) -> u8) -> (u8, Vec<u8>) {
    let mut room = vec![0; guess];
    let mut told = 0;
    let mut status = call(&mut room, &mut told);
    if status == NO_ROOM {
        room = vec![0; told];
        status = call(&mut room, &mut told);
    }
    let length = if matches!(status, NONE | NO_ROOM) { 0 } else { told };
    room.truncate(length);
    (status, room)
}
