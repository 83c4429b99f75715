//! The three kinds of memory, told alike.
use crate::show::Show;
use sphairune::Memory;

#[derive(Clone, Copy, PartialEq, Eq)]
pub enum Kind {
    Cue,
    Group,
    Submaster,
}

impl Kind {
    pub const ALL: [Kind; 3] = [Kind::Cue, Kind::Group, Kind::Submaster];

    pub fn name(self) -> &'static str {
        match self {
            Kind::Cue => "cue",
            Kind::Group => "group",
            Kind::Submaster => "submaster",
        }
    }

    /// By page and number.
    pub fn kept(self, show: &Show) -> Vec<Memory<'_>> {
        match self {
            Kind::Cue => show.cues(),
            Kind::Group => show.groups(),
            Kind::Submaster => show.submasters(),
        }
    }

    /// `cue 2.5 page 1`.
    pub fn named(self, m: &Memory) -> String {
        format!("{} {} page {}", self.name(), m.number, m.page)
    }
}
