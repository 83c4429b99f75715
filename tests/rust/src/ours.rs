//! The proved library's calls. What is lent for an answer is marked first, and a refusal has to leave the mark.

use crate::{Limits, Refused, Totals};
use sphairune::calls;

/// A lent word that the call has to leave alone where it refuses.
const MARK: usize = 0x5a5a_a5a5;

fn refused(answer: u32, length: usize) -> Refused {
    let (number, place) = (answer % 256, answer as usize / 256);
    assert!(number == 6 || length == MARK, "answer {answer:#x} touched the lent word");
    match (number, place) {
        (1, 0) => Refused::R1,
        (2, 0) => Refused::R2,
        (3, 0) => Refused::R3,
        (0x4a, 1..=2_048) => Refused::R4a(place),
        (0x4b, 1..=2_048) => Refused::R4b(place),
        (0x4c, 1..=2_048) => Refused::R4c(place),
        (5, 0) => Refused::R5,
        (6, 0) => Refused::R6(length),
        (7, 0) => Refused::R7,
        _ => panic!("the library answered {answer:#x}"),
    }
}

pub fn needed(limits: &Limits) -> Result<usize, Refused> {
    let mut length = [MARK];
    match calls::needed(limits, &mut length) {
        0 => Ok(length[0]),
        n => Err(refused(n, length[0])),
    }
}

pub fn empty(limits: &Limits, store: &mut [u8]) -> Result<(), Refused> {
    match calls::empty(limits, store) {
        0 => Ok(()),
        n => Err(refused(n, MARK)),
    }
}

pub fn load(limits: &Limits, store: &mut [u8], stream: &[u8], reports: &mut [u64]) -> Result<Totals, Refused> {
    told(|totals| calls::load(limits, store, stream, reports, totals))
}

pub fn translate(limits: &Limits, store: &mut [u8], stream: &[u8], reports: &mut [u64]) -> Result<Totals, Refused> {
    told(|totals| calls::translate(limits, store, stream, reports, totals))
}

fn told(load: impl FnOnce(&mut [u32]) -> u32) -> Result<Totals, Refused> {
    const TOTALS: [u32; 6] = [0xdead_beef; 6];
    let mut totals = TOTALS;
    let answer = load(&mut totals);
    if answer != 0 {
        assert_eq!(totals, TOTALS, "answer {answer:#x} touched the totals");
        return Err(refused(answer, MARK));
    }
    let [reports, blank, obeyed, passed, dropped, closing] = totals;
    Ok(Totals { reports, blank, obeyed, passed, dropped, closing })
}

pub fn write(limits: &Limits, store: &[u8], out: &mut [u8]) -> Result<usize, Refused> {
    let mut length = [MARK];
    match calls::write(limits, store, out, &mut length) {
        0 => Ok(length[0]),
        n => Err(refused(n, length[0])),
    }
}

/// Where in the store the levels of a kept cue begin.
pub fn find(limits: &Limits, store: &[u8], page: u32, whole: u32, tenths: u32) -> Result<Option<usize>, Refused> {
    let mut place = [MARK];
    match calls::find(limits, store, page, whole, tenths, &mut place) {
        0 => Ok(Some(place[0])),
        calls::NOT_KEPT => {
            assert_eq!(place[0], MARK, "a cue that is not kept has no place");
            Ok(None)
        }
        n => Err(refused(n, place[0])),
    }
}

/// The slots of the kept memories of a kind, as many as there is room for; and how many are kept.
pub fn memories(limits: &Limits, store: &[u8], kind: u32, slots: &mut [u32]) -> Result<Option<usize>, Refused> {
    let mut count = [MARK];
    match calls::memories(limits, store, kind, slots, &mut count) {
        0 => Ok(Some(count[0])),
        calls::NOT_KEPT => {
            assert_eq!(count[0], MARK, "a kind that there is not has no count");
            Ok(None)
        }
        n => Err(refused(n, count[0])),
    }
}

/// The values of a slot's head, as many as there is room for; whether the desk has such a slot.
pub fn head(limits: &Limits, store: &[u8], slot: u32, values: &mut [u32]) -> Result<bool, Refused> {
    match calls::head(limits, store, slot, values) {
        0 => Ok(true),
        calls::NOT_KEPT => Ok(false),
        n => Err(refused(n, MARK)),
    }
}

/// Where in the store a slot's levels begin.
pub fn levels(limits: &Limits, store: &[u8], slot: u32) -> Result<Option<usize>, Refused> {
    let mut place = [MARK];
    match calls::levels(limits, store, slot, &mut place) {
        0 => Ok(Some(place[0])),
        calls::NOT_KEPT => {
            assert_eq!(place[0], MARK, "a slot that the desk lacks has no place");
            Ok(None)
        }
        n => Err(refused(n, place[0])),
    }
}

/// A dimmer's channel, level and zero bits, as many as there is room for; whether the desk has such a dimmer.
pub fn patch(limits: &Limits, store: &[u8], page: u32, dimmer: u32, values: &mut [u32]) -> Result<bool, Refused> {
    match calls::patch(limits, store, page, dimmer, values) {
        0 => Ok(true),
        calls::NOT_KEPT => Ok(false),
        n => Err(refused(n, MARK)),
    }
}

pub fn percent(level: u8) -> u32 {
    calls::percent(level)
}

pub fn severity(condition: u32) -> u8 {
    calls::severity(condition)
}

pub fn time_text(tenths: u32, out: &mut [u8]) -> Result<usize, Refused> {
    let mut length = [MARK];
    match calls::time_text(tenths, out, &mut length) {
        0 => Ok(length[0]),
        n => Err(refused(n, length[0])),
    }
}

pub fn condition_text(condition: u32, out: &mut [u8]) -> Result<usize, Refused> {
    let mut length = [MARK];
    match calls::condition_text(condition, out, &mut length) {
        0 => Ok(length[0]),
        n => Err(refused(n, length[0])),
    }
}
