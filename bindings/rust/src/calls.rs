//! The fourteen calls of the library as they are, with numbers and lists; the only unsafe code. A slice of Rust is what the library asks of
//! a list: a pointer that is aligned and not null, to as many entries as the length says; and a slice lent as `&mut` overlaps no other.
//! Each but [`percent`] and [`severity`] answers a word, its number in the low eight bits: 0, or that of the refusal
//! ([`Refused::number`](crate::Refused::number)), and then every lent list is as it was, but that [`write()`] and the texts with 6 store the
//! length needed. Above the numbers 0x4A, 0x4B and 0x4C (R4a, R4b, R4c) stands a place, from 1; above any other 0. [`NOT_KEPT`] is no
//! refusal, and leaves every lent list too.
#![allow(unsafe_code)]

/// What [`find`] answers where the cue is not kept, [`memories`] for a kind that there is not, [`head`], [`levels`] and [`patch`] for a slot
/// or dimmer that the desk lacks.
pub const NOT_KEPT: u32 = 0xff;

/// How many values [`head`] tells.
pub const HEAD_VALUES: usize = 16;

/// How many values [`patch`] tells.
pub const PATCH_VALUES: usize = 3;

mod library {
    extern "C" {
        pub fn sphairune_needed(limits: *const u32, limits_n: usize, length: *mut usize, length_n: usize) -> u32;
        pub fn sphairune_empty(limits: *const u32, limits_n: usize, store: *mut u8, store_n: usize) -> u32;
        pub fn sphairune_load(
            limits: *const u32,
            limits_n: usize,
            store: *mut u8,
            store_n: usize,
            stream: *const u8,
            stream_n: usize,
            reports: *mut u64,
            reports_n: usize,
            totals: *mut u32,
            totals_n: usize,
        ) -> u32;
        pub fn sphairune_translate(
            limits: *const u32,
            limits_n: usize,
            store: *mut u8,
            store_n: usize,
            stream: *const u8,
            stream_n: usize,
            reports: *mut u64,
            reports_n: usize,
            totals: *mut u32,
            totals_n: usize,
        ) -> u32;
        pub fn sphairune_write(
            limits: *const u32,
            limits_n: usize,
            store: *const u8,
            store_n: usize,
            out: *mut u8,
            out_n: usize,
            length: *mut usize,
            length_n: usize,
        ) -> u32;
        pub fn sphairune_find(
            limits: *const u32,
            limits_n: usize,
            store: *const u8,
            store_n: usize,
            page: u32,
            whole: u32,
            tenths: u32,
            place: *mut usize,
            place_n: usize,
        ) -> u32;
        pub fn sphairune_memories(
            limits: *const u32,
            limits_n: usize,
            store: *const u8,
            store_n: usize,
            kind: u32,
            slots: *mut u32,
            slots_n: usize,
            count: *mut usize,
            count_n: usize,
        ) -> u32;
        pub fn sphairune_head(
            limits: *const u32,
            limits_n: usize,
            store: *const u8,
            store_n: usize,
            slot: u32,
            values: *mut u32,
            values_n: usize,
        ) -> u32;
        pub fn sphairune_levels(
            limits: *const u32,
            limits_n: usize,
            store: *const u8,
            store_n: usize,
            slot: u32,
            place: *mut usize,
            place_n: usize,
        ) -> u32;
        pub fn sphairune_patch(
            limits: *const u32,
            limits_n: usize,
            store: *const u8,
            store_n: usize,
            page: u32,
            dimmer: u32,
            values: *mut u32,
            values_n: usize,
        ) -> u32;
        pub fn sphairune_percent(level: u8) -> u32;
        pub fn sphairune_severity(condition: u32) -> u8;
        pub fn sphairune_time_text(tenths: u32, out: *mut u8, out_n: usize, length: *mut usize, length_n: usize) -> u32;
        pub fn sphairune_condition_text(condition: u32, out: *mut u8, out_n: usize, length: *mut usize, length_n: usize) -> u32;
    }
}

/// The bytes that a store needs, in `length`.
pub fn needed(limits: &[u32], length: &mut [usize]) -> u32 {
    unsafe { library::sphairune_needed(limits.as_ptr(), limits.len(), length.as_mut_ptr(), length.len()) }
}

/// Makes a store's needed bytes zero.
pub fn empty(limits: &[u32], store: &mut [u8]) -> u32 {
    unsafe { library::sphairune_empty(limits.as_ptr(), limits.len(), store.as_mut_ptr(), store.len()) }
}

/// Reads a stream into a store; in `totals` the count of reports, the four tallies and the closing number.
pub fn load(limits: &[u32], store: &mut [u8], stream: &[u8], reports: &mut [u64], totals: &mut [u32]) -> u32 {
    unsafe {
        library::sphairune_load(
            limits.as_ptr(),
            limits.len(),
            store.as_mut_ptr(),
            store.len(),
            stream.as_ptr(),
            stream.len(),
            reports.as_mut_ptr(),
            reports.len(),
            totals.as_mut_ptr(),
            totals.len(),
        )
    }
}

/// As [`load`], with translation: cues, groups and submasters are numbered anew.
pub fn translate(limits: &[u32], store: &mut [u8], stream: &[u8], reports: &mut [u64], totals: &mut [u32]) -> u32 {
    unsafe {
        library::sphairune_translate(
            limits.as_ptr(),
            limits.len(),
            store.as_mut_ptr(),
            store.len(),
            stream.as_ptr(),
            stream.len(),
            reports.as_mut_ptr(),
            reports.len(),
            totals.as_mut_ptr(),
            totals.len(),
        )
    }
}

/// Puts a store's show into `out`; its length in `length`, or with 6 the length needed.
pub fn write(limits: &[u32], store: &[u8], out: &mut [u8], length: &mut [usize]) -> u32 {
    unsafe {
        library::sphairune_write(
            limits.as_ptr(),
            limits.len(),
            store.as_ptr(),
            store.len(),
            out.as_mut_ptr(),
            out.len(),
            length.as_mut_ptr(),
            length.len(),
        )
    }
}

/// Where the levels of a kept cue begin, in `place`.
pub fn find(limits: &[u32], store: &[u8], page: u32, whole: u32, tenths: u32, place: &mut [usize]) -> u32 {
    unsafe {
        library::sphairune_find(
            limits.as_ptr(),
            limits.len(),
            store.as_ptr(),
            store.len(),
            page,
            whole,
            tenths,
            place.as_mut_ptr(),
            place.len(),
        )
    }
}

/// The slots of the kept memories of a kind (0 cues, 1 groups, 2 submasters), by page and number, in `slots`, as many as it has room for;
/// how many are kept, in `count`. Slots count from 1 through the whole store, cues, then groups, then submasters.
pub fn memories(limits: &[u32], store: &[u8], kind: u32, slots: &mut [u32], count: &mut [usize]) -> u32 {
    unsafe {
        library::sphairune_memories(
            limits.as_ptr(),
            limits.len(),
            store.as_ptr(),
            store.len(),
            kind,
            slots.as_mut_ptr(),
            slots.len(),
            count.as_mut_ptr(),
            count.len(),
        )
    }
}

/// The values of a slot's head: used, page, whole, tenths; link present, whole, tenths; UP present, fade, delay; DOWN present, fade, delay;
/// FOLLOWON present, time; zero bits. They are told as they stand, whether the store is in good form or not.
pub fn head(limits: &[u32], store: &[u8], slot: u32, values: &mut [u32]) -> u32 {
    unsafe { library::sphairune_head(limits.as_ptr(), limits.len(), store.as_ptr(), store.len(), slot, values.as_mut_ptr(), values.len()) }
}

/// Where a slot's levels begin, in `place`, whether the slot is used or not.
pub fn levels(limits: &[u32], store: &[u8], slot: u32, place: &mut [usize]) -> u32 {
    unsafe { library::sphairune_levels(limits.as_ptr(), limits.len(), store.as_ptr(), store.len(), slot, place.as_mut_ptr(), place.len()) }
}

/// What a dimmer is patched to: channel, 0 where it is unpatched, level, zero bits. They are told as they stand, whether the store is in
/// good form or not.
pub fn patch(limits: &[u32], store: &[u8], page: u32, dimmer: u32, values: &mut [u32]) -> u32 {
    unsafe {
        library::sphairune_patch(
            limits.as_ptr(),
            limits.len(),
            store.as_ptr(),
            store.len(),
            page,
            dimmer,
            values.as_mut_ptr(),
            values.len(),
        )
    }
}

/// A level in percent.
pub fn percent(level: u8) -> u32 {
    unsafe { library::sphairune_percent(level) }
}

/// The letter of a condition's severity.
pub fn severity(condition: u32) -> u8 {
    unsafe { library::sphairune_severity(condition) }
}

/// A time in tenths of a second as the written stream has it, in `out`; its length in `length`, or with 6 the length needed.
pub fn time_text(tenths: u32, out: &mut [u8], length: &mut [usize]) -> u32 {
    unsafe { library::sphairune_time_text(tenths, out.as_mut_ptr(), out.len(), length.as_mut_ptr(), length.len()) }
}

/// The standard's text for a condition in `out`; its length in `length`, or with 6 the length needed.
pub fn condition_text(condition: u32, out: &mut [u8], length: &mut [usize]) -> u32 {
    unsafe { library::sphairune_condition_text(condition, out.as_mut_ptr(), out.len(), length.as_mut_ptr(), length.len()) }
}
