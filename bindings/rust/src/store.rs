//! What a store keeps, as the library's calls tell it: nothing here knows how its bytes lie.
use crate::calls::{self, HEAD_VALUES, NOT_KEPT, PATCH_VALUES};
use crate::{Desk, Refused};
use core::fmt;
use core::iter::FusedIterator;

/// The most slots that a desk has of one kind: 96 submasters on each of 8 pages.
pub const MOST_SLOTS: usize = 768;

/// The kinds of memory.
#[derive(Clone, Copy, Debug, PartialEq, Eq)]
pub enum Kind {
    /// Cues have times, follow-ons and links.
    Cue,
    /// Groups have levels alone.
    Group,
    /// Submasters have times, and numbers without tenths.
    Submaster,
}

impl Kind {
    /// Its number in [`calls::memories`].
    pub fn number(self) -> u32 {
        match self {
            Kind::Cue => 0,
            Kind::Group => 1,
            Kind::Submaster => 2,
        }
    }
}

/// A cue's or group's number, or a submaster's, which has no tenths. Orders by value; prints as `2.5` or `7`.
#[derive(Clone, Copy, Debug, PartialEq, Eq, PartialOrd, Ord)]
pub struct Number {
    /// 0 to 999.
    pub whole: u32,
    /// 0 to 9.
    pub tenths: u32,
}

impl fmt::Display for Number {
    fn fmt(&self, f: &mut fmt::Formatter<'_>) -> fmt::Result {
        match self.tenths {
            0 => write!(f, "{}", self.whole),
            tenths => write!(f, "{}.{}", self.whole, tenths),
        }
    }
}

/// The times of an UP or a DOWN, in tenths of a second.
#[derive(Clone, Copy, Debug, PartialEq, Eq)]
pub struct Fade {
    /// How long the fade takes.
    pub fade: u32,
    /// How long it waits; 0 where none was given.
    pub delay: u32,
}

/// A kept cue, group or submaster. Two are equal where all but the slot is: where they keep the same, wherever they stand.
#[derive(Clone, Copy, Debug, Eq)]
pub struct Memory<'a> {
    /// Where it stands, from 1: slots count through the whole store, cues, then groups, then submasters, as in [`Refused::R4a`].
    pub slot: u32,
    /// From 1.
    pub page: u32,
    /// Its number.
    pub number: Number,
    /// The cue that it links to. Cues alone have one.
    pub link: Option<Number>,
    /// As given: where only one of UP and DOWN was given, the other is `None`.
    pub up: Option<Fade>,
    /// As given.
    pub down: Option<Fade>,
    /// In tenths of a second. Cues alone have one.
    pub followon: Option<u32>,
    /// The very bytes of the store, channel 1 first.
    pub levels: &'a [u8],
}

impl PartialEq for Memory<'_> {
    fn eq(&self, other: &Self) -> bool {
        let kept = |m: &Self| (m.page, m.number, m.link, m.up, m.down, m.followon);
        kept(self) == kept(other) && self.levels == other.levels
    }
}

impl<'a> Memory<'a> {
    /// What a slot keeps, from the values of its head and its levels; `None` where it is not used.
    fn of(slot: u32, head: [u32; HEAD_VALUES], levels: &'a [u8]) -> Option<Memory<'a>> {
        let [used, page, whole, tenths, rest @ ..] = head;
        let [linked, link_whole, link_tenths, rest @ ..] = rest;
        let [up, up_fade, up_delay, down, down_fade, down_delay, follows, followon, _] = rest;
        let memory = Memory {
            slot,
            page,
            number: Number { whole, tenths },
            link: present(linked, Number { whole: link_whole, tenths: link_tenths }),
            up: present(up, Fade { fade: up_fade, delay: up_delay }),
            down: present(down, Fade { fade: down_fade, delay: down_delay }),
            followon: present(follows, followon),
            levels,
        };
        present(used, memory)
    }
}

/// A value, where its mark says that it is there.
fn present<T>(mark: u32, value: T) -> Option<T> {
    (mark == 1).then_some(value)
}

impl Desk {
    /// The kept memories of a kind, by page and number. Or R2, R3, R4a, R4b, R4c.
    pub fn memories(self, store: &[u8], kind: Kind) -> Result<Memories<'_>, Refused> {
        let (mut slots, mut count) = ([0; MOST_SLOTS], [0]);
        match calls::memories(&self.limits(), store, kind.number(), &mut slots, &mut count) {
            0 => Ok(Memories { desk: self, store, slots, count: count[0], given: 0 }),
            r => Err(Refused::of(r, 0)),
        }
    }

    /// What a slot keeps; `None` where it is not used, or the desk has no such slot. Or R2, R3. The store's form is not tested: of a
    /// damaged one this tells the bits as they stand.
    pub fn memory(self, store: &[u8], slot: u32) -> Result<Option<Memory<'_>>, Refused> {
        let (mut head, mut place) = ([0; HEAD_VALUES], [0]);
        match calls::head(&self.limits(), store, slot, &mut head) {
            0 => {}
            NOT_KEPT => return Ok(None),
            r => return Err(Refused::of(r, 0)),
        }
        match calls::levels(&self.limits(), store, slot, &mut place) {
            0 => Ok(Memory::of(slot, head, self.levels_at(store, place[0]))),
            NOT_KEPT => Ok(None),
            r => Err(Refused::of(r, 0)),
        }
    }

    /// What a dimmer is patched to; `None` where it is unpatched, or the desk has no such dimmer. Or R2, R3. The store's form is not
    /// tested: of a damaged one this tells the bits as they stand.
    pub fn patched(self, store: &[u8], page: u32, dimmer: u32) -> Result<Option<Patched>, Refused> {
        let mut values = [0; PATCH_VALUES];
        match calls::patch(&self.limits(), store, page, dimmer, &mut values) {
            0 => Ok(Patched::of(page, dimmer, values)),
            NOT_KEPT => Ok(None),
            r => Err(Refused::of(r, 0)),
        }
    }
}

/// The kept memories of a kind, by page and number.
#[derive(Clone, Debug)]
pub struct Memories<'a> {
    desk: Desk,
    store: &'a [u8],
    slots: [u32; MOST_SLOTS],
    count: usize,
    given: usize,
}

impl<'a> Iterator for Memories<'a> {
    type Item = Memory<'a>;

    /// The store is lent since the slots were listed, so that each of them still keeps a memory.
    fn next(&mut self) -> Option<Memory<'a>> {
        let &slot = self.slots[..self.count].get(self.given)?;
        self.given += 1;
        Some(self.desk.memory(self.store, slot).ok().flatten().expect("a slot that was listed keeps a memory"))
    }

    fn size_hint(&self) -> (usize, Option<usize>) {
        let left = self.count - self.given;
        (left, Some(left))
    }
}

impl ExactSizeIterator for Memories<'_> {}

impl FusedIterator for Memories<'_> {}

/// A patched dimmer.
#[derive(Clone, Copy, Debug, PartialEq, Eq)]
pub struct Patched {
    /// From 1.
    pub page: u32,
    /// From 1.
    pub dimmer: u32,
    /// From 1.
    pub channel: u32,
    /// The level at which the dimmer follows its channel.
    pub level: u8,
}

impl Patched {
    /// A dimmer's entry, from its values; `None` where it is unpatched.
    fn of(page: u32, dimmer: u32, [channel, level, _]: [u32; PATCH_VALUES]) -> Option<Patched> {
        (channel != 0).then_some(Patched { page, dimmer, channel, level: level as u8 })
    }
}

/// The patched dimmers, by page and dimmer.
#[derive(Clone, Debug)]
pub struct Patches<'a> {
    desk: Desk,
    store: &'a [u8],
    page: u32,
    dimmer: u32,
}

impl<'a> Patches<'a> {
    /// Of a store in good form.
    pub(crate) fn new(desk: Desk, store: &'a [u8]) -> Patches<'a> {
        Patches { desk, store, page: 1, dimmer: 0 }
    }

    /// The next dimmer of the desk, patched or not.
    fn step(&mut self) -> Option<(u32, u32)> {
        (self.page, self.dimmer) = if self.dimmer < self.desk.dimmers { (self.page, self.dimmer + 1) } else { (self.page + 1, 1) };
        (self.page <= self.desk.patch_pages).then_some((self.page, self.dimmer))
    }
}

impl Iterator for Patches<'_> {
    type Item = Patched;

    fn next(&mut self) -> Option<Patched> {
        while let Some((page, dimmer)) = self.step() {
            let patched = self.desk.patched(self.store, page, dimmer);
            if let Some(patched) = patched.expect("the desk and the store were tested when the walk began") {
                return Some(patched);
            }
        }
        None
    }
}
