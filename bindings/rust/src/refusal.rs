//! Refusals, with document 01's numbers and values.
use core::fmt;

/// Where a fault was met: a device by its place in the survey, and an adapter by its number. The number is 0 for the router itself, for an
/// xdomain and always for refusal 7; for 10 it is the missing number.
#[derive(Clone, Copy, Debug, PartialEq, Eq, Hash)]
pub struct Site {
    pub place: usize,
    pub adapter: u8,
}

/// Why a call gives no result. A refused call changes no lent buffer.
#[derive(Clone, Copy, Debug, PartialEq, Eq, Hash)]
pub enum Refusal {
    /// 1: a byte is above 127.
    NotAscii { place: usize },
    /// 2: output or scratch is shorter than a complete answer. Of `text`: also a text of more than 65,536 bytes, with its length.
    Short { needed: usize },
    /// 3: the head place of the first description group that breaks the rules; 16,384 if there are too many words.
    Descriptions { place: usize },
    /// 4: the same for the survey. Of a text: how many words were made before the line that may not stand there, or 16,384 if the survey is too long.
    Survey { place: usize },
    /// 5: registers read, but a router has none or an adapter fewer than three.
    FewRegisters(Site),
    /// 6: a named register lacks a field, a flag isn't one bit, or a flag is wanted of a nameless register. `field` gives no site.
    NoField(Option<Site>),
    /// 7: adapters under a device that isn't a router or has no ROUTER_CS_1, or not exactly 1 to Max Adapter in order.
    BadAdapters(Site),
    /// 8: a Gen T offset passes 65,535.
    GenTOffset(Site),
    /// 9: the path dump is missing and the adapter is no lane 1.
    NoPathDump(Site),
    /// 10: a hop's out adapter isn't on its router.
    NoOutAdapter(Site),
    /// 11: a parent route is needed at depth 0.
    NoParentRoute(Site),
    /// 12: a lane at depth 8 needs a downstream route.
    NoDownstreamRoute(Site),
    /// 13: a walk never ends.
    Endless,
    /// 14: the device or adapter asked for isn't there.
    Missing,
    /// A number that this crate doesn't know, from a later library.
    Other { number: u64, values: [u64; 7] },
}

impl Refusal {
    /// The refusal of an answer; 0 is none.
    pub(crate) fn of(answer: &[u64; 8]) -> Option<Refusal> {
        let [number, values @ ..] = *answer;
        let place = values[0] as usize;
        let site = Site { place, adapter: values[1] as u8 };
        Some(match number {
            0 => return None,
            1 => Refusal::NotAscii { place },
            2 => Refusal::Short { needed: place },
            3 => Refusal::Descriptions { place },
            4 => Refusal::Survey { place },
            5 => Refusal::FewRegisters(site),
            6 => Refusal::NoField(Some(site)),
            7 => Refusal::BadAdapters(site),
            8 => Refusal::GenTOffset(site),
            9 => Refusal::NoPathDump(site),
            10 => Refusal::NoOutAdapter(site),
            11 => Refusal::NoParentRoute(site),
            12 => Refusal::NoDownstreamRoute(site),
            13 => Refusal::Endless,
            14 => Refusal::Missing,
            _ => Refusal::Other { number, values },
        })
    }

    /// Document 01's number.
    pub fn number(&self) -> u64 {
        match *self {
            Refusal::NotAscii { .. } => 1,
            Refusal::Short { .. } => 2,
            Refusal::Descriptions { .. } => 3,
            Refusal::Survey { .. } => 4,
            Refusal::FewRegisters(_) => 5,
            Refusal::NoField(_) => 6,
            Refusal::BadAdapters(_) => 7,
            Refusal::GenTOffset(_) => 8,
            Refusal::NoPathDump(_) => 9,
            Refusal::NoOutAdapter(_) => 10,
            Refusal::NoParentRoute(_) => 11,
            Refusal::NoDownstreamRoute(_) => 12,
            Refusal::Endless => 13,
            Refusal::Missing => 14,
            Refusal::Other { number, .. } => number,
        }
    }
}

impl fmt::Display for Refusal {
    fn fmt(&self, f: &mut fmt::Formatter<'_>) -> fmt::Result {
        write!(f, "refused {}", self.number())?;
        match *self {
            Refusal::NotAscii { place } => write!(f, ": byte {place} is above 127"),
            Refusal::Short { needed } => write!(f, ": {needed} needed"),
            Refusal::Descriptions { place } => write!(f, ": descriptions break the rules at word {place}"),
            Refusal::Survey { place } => write!(f, ": the survey breaks the rules at word {place}"),
            Refusal::FewRegisters(s) => write!(f, ": too few registers, {s}"),
            Refusal::NoField(Some(s)) => write!(f, ": no such field or flag, {s}"),
            Refusal::NoField(None) => write!(f, ": no such field"),
            Refusal::BadAdapters(s) => write!(f, ": adapters not as its router says, {s}"),
            Refusal::GenTOffset(s) => write!(f, ": a Gen T offset passes 65,535, {s}"),
            Refusal::NoPathDump(s) => write!(f, ": the path dump is missing, {s}"),
            Refusal::NoOutAdapter(s) => write!(f, ": a hop's out adapter isn't on its router, {s}"),
            Refusal::NoParentRoute(s) => write!(f, ": no parent route at depth 0, {s}"),
            Refusal::NoDownstreamRoute(s) => write!(f, ": no downstream route at depth 8, {s}"),
            Refusal::Endless => write!(f, ": the walk never ends"),
            Refusal::Missing => write!(f, ": no such device or adapter"),
            Refusal::Other { .. } => Ok(()),
        }
    }
}

impl fmt::Display for Site {
    fn fmt(&self, f: &mut fmt::Formatter<'_>) -> fmt::Result {
        write!(f, "device {} adapter {}", self.place, self.adapter)
    }
}

impl core::error::Error for Refusal {}
