//! A proved reader of USB4 tunnel dumps: safe functions over libexport.a, which `rt lib` in crates/export builds.
//!
//! docs/01-scope.md decides what each call answers. A call gives a result, `None` for none or absent, or a [`Refusal`] with its number and
//! values; it takes any bytes, words and numbers, and after a refusal every lent buffer is as it was. The crate allocates nothing.
#![no_std]
#![deny(unsafe_code, missing_debug_implementations)]

#[allow(unsafe_code)]
mod raw;
mod refusal;
mod words;

pub use refusal::{Refusal, Site};
pub use words::{records, Hop, Path, PathName, Paths, Record, Tunnel, TunnelType, Tunnels};

/// Most words of descriptions, and of a survey.
pub const MAX_WORDS: usize = 16_384;
/// Most bytes of a text.
pub const MAX_TEXT: usize = 65_536;
/// The words that a single walk can need.
pub const MAX_PATH_WORDS: usize = 8_193;
/// The words of our descriptions.
pub const OUR_WORDS: usize = 91;

// An enum by document 01's numbers. The library gives no other number, and one from a later library is Unknown, as the field has it.
macro_rules! numbered {
    ($(#[$doc:meta])* $name:ident { $($case:ident = $number:literal),* $(,)? }) => {
        $(#[$doc])*
        #[derive(Clone, Copy, Debug, PartialEq, Eq, Hash)]
        pub enum $name { $($case = $number),* }

        impl $name {
            fn of(number: u64) -> $name {
                match number {
                    $($number => $name::$case,)*
                    _ => $name::Unknown,
                }
            }
        }
    };
}

numbered! {
    /// Kinds of adapters.
    Kind {
        Unknown = 0,
        Inactive = 1,
        Lane = 2,
        HostInterface = 3,
        DisplayPortIn = 4,
        DisplayPortOut = 5,
        PcieDown = 6,
        PcieUp = 7,
        Usb3Down = 8,
        Usb3Up = 9,
        Usb3GenTDown = 10,
        Usb3GenTUp = 11,
    }
}

numbered! {
    /// States of adapters.
    State {
        Unknown = 0,
        Disabled = 1,
        Enabled = 2,
        Training = 3,
        Cl0 = 4,
        Cl0sTx = 5,
        Cl0sRx = 6,
        Cl1 = 7,
        Cl2 = 8,
        Cld = 9,
    }
}

numbered! {
    /// Link speeds.
    Speed {
        Unknown = 0,
        Gen2 = 1,
        Gen3 = 2,
        Gen4 = 3,
    }
}

/// Spaces of registers.
#[derive(Clone, Copy, Debug, PartialEq, Eq, Hash)]
pub enum Space {
    Router = 0,
    Adapter = 1,
    Path = 2,
}

/// What an accepted survey holds.
#[derive(Clone, Copy, Debug, PartialEq, Eq, Hash)]
pub struct Loaded {
    pub devices: usize,
    /// Valid path entries.
    pub entries: usize,
}

/// What is said of an adapter.
#[derive(Clone, Copy, Debug, PartialEq, Eq, Hash)]
pub struct Adapter {
    pub kind: Kind,
    pub state: State,
    pub lane0: bool,
    pub lane1: bool,
    /// The least HopID, if the kind has one.
    pub min_hop: Option<u16>,
    pub enabled: bool,
}

// What an answer says: a refusal, none, or the result's words.
fn result(answer: raw::Answer) -> Result<Option<[u64; 6]>, Refusal> {
    if let Some(refusal) = Refusal::of(&answer) {
        return Err(refusal);
    }
    let [_, found, result @ ..] = answer;
    Ok((found == 1).then_some(result))
}

// A result of one number.
fn number(answer: raw::Answer) -> Result<Option<u64>, Refusal> {
    Ok(result(answer)?.map(|r| r[0]))
}

// A number of a call that has no none.
fn always(answer: raw::Answer) -> Result<u64, Refusal> {
    Ok(number(answer)?.unwrap_or(0))
}

/// A hexadecimal number of 16, 32 or 64 bits; none if it is no number, doesn't fit, or `bits` is another number. Never refused.
pub fn parse_hex(text: &[u8], bits: u32) -> Result<Option<u64>, Refusal> {
    number(raw::parse_hex(text, bits))
}

/// A line of a dump, or none if it gives no record. Refused: 1.
pub fn parse_line(line: &[u8]) -> Result<Option<Record>, Refusal> {
    Ok(result(raw::parse_line(line))?.map(|r| Record {
        offset: r[0] as u16,
        relative_offset: r[1] as u16,
        cap_id: r[2] as u16,
        vs_id: r[3] as u16,
        value: r[4] as u32,
    }))
}

/// A dump's records, sorted by offset: the words of `output` that hold them, for [`records`]. Every word of `scratch` is then 0. Refused: 1,
/// then 2. `(dump.len() + 1) / 2` words of each are always enough.
pub fn read_dump<'a>(dump: &[u8], scratch: &mut [u32], output: &'a mut [u32]) -> Result<&'a [u32], Refusal> {
    let records = always(raw::read_dump(dump, scratch, output))?;
    Ok(&output[..4 * records as usize])
}

/// Our descriptions: the words of `output` that hold them, of which there are [`OUR_WORDS`]. Refused: 2.
pub fn our_descriptions(output: &mut [u32]) -> Result<&[u32], Refusal> {
    let words = always(raw::our_descriptions(output))?;
    Ok(&output[..words as usize])
}

/// Whether description words follow the rules. Refused: 3.
pub fn check_descriptions(words: &[u32]) -> Result<(), Refusal> {
    result(raw::check_descriptions(words)).map(|_| ())
}

/// The head place of the description that names a register, or none if it is nameless. Ids are 0 where there are none. Refused: 3.
pub fn describe(
    descriptions: &[u32],
    space: Space,
    kind: Kind,
    relative_offset: u16,
    cap_id: u16,
    vs_id: u16,
) -> Result<Option<usize>, Refusal> {
    let answer = raw::describe(descriptions, space as u32, kind as u32, relative_offset.into(), cap_id.into(), vs_id.into());
    Ok(number(answer)?.map(|place| place as usize))
}

/// A field, by name or short name, of the register whose description has its head at a place, in a value of that register. Refused: 3, 6.
pub fn field(descriptions: &[u32], place: usize, value: u32, name: &[u8]) -> Result<u32, Refusal> {
    match always(raw::field(descriptions, place, value, name)) {
        Err(Refusal::NoField(_)) => Err(Refusal::NoField(None)),
        answer => Ok(answer? as u32),
    }
}

/// A text of document 01's program as survey words: the words of `output` that hold them. Refused: 2 for the text's length, 1, 4, then 2.
/// [`MAX_WORDS`] are always enough.
pub fn text<'a>(text: &[u8], output: &'a mut [u32]) -> Result<&'a [u32], Refusal> {
    let words = always(raw::text(text, output))?;
    Ok(&output[..words as usize])
}

/// Whether survey words follow the rules. Refused: 4.
pub fn check_survey(words: &[u32]) -> Result<(), Refusal> {
    result(raw::check_survey(words)).map(|_| ())
}

/// Whether a survey is accepted, and its numbers of devices and valid path entries. Refused: 3 to 9.
pub fn load(descriptions: &[u32], survey: &[u32]) -> Result<Loaded, Refusal> {
    let r = result(raw::load(descriptions, survey))?.unwrap_or_default();
    Ok(Loaded { devices: r[0] as usize, entries: r[1] as usize })
}

/// An adapter of the device at a place. Refused: 3 to 9, 14.
pub fn adapter(descriptions: &[u32], survey: &[u32], place: usize, adapter: u8) -> Result<Adapter, Refusal> {
    let r = result(raw::adapter(descriptions, survey, place, adapter))?.unwrap_or_default();
    Ok(Adapter {
        kind: Kind::of(r[0]),
        state: State::of(r[1]),
        lane0: r[2] == 1,
        lane1: r[3] == 1,
        min_hop: u16::try_from(r[4]).ok(),
        enabled: r[5] == 1,
    })
}

/// An adapter's link speed. Refused: 3 to 9, 14, 6.
pub fn link_speed(descriptions: &[u32], survey: &[u32], place: usize, adapter: u8) -> Result<Speed, Refusal> {
    Ok(Speed::of(always(raw::link_speed(descriptions, survey, place, adapter))?))
}

/// An adapter's largest HopID, if it has one. Refused: 3 to 9, 14, 6.
pub fn max_hop(descriptions: &[u32], survey: &[u32], place: usize, adapter: u8) -> Result<Option<u16>, Refusal> {
    Ok(number(raw::max_hop(descriptions, survey, place, adapter))?.map(|hop| hop as u16))
}

/// The place of a device's parent, if it has one. Refused: 3 to 9, 14, 6, 11.
pub fn parent(descriptions: &[u32], survey: &[u32], place: usize) -> Result<Option<usize>, Refusal> {
    Ok(number(raw::parent(descriptions, survey, place))?.map(|place| place as usize))
}

/// The walk from an adapter and HopID: a path without a name, or none. Refused: 3 to 9, 14, 6 and 10 to 13 as met, 2 last.
/// [`MAX_PATH_WORDS`] are always enough.
pub fn walk<'a>(
    descriptions: &[u32],
    survey: &[u32],
    place: usize,
    adapter: u8,
    hop: u16,
    output: &'a mut [u32],
) -> Result<Option<Path<'a>>, Refusal> {
    let words = number(raw::walk(descriptions, survey, place, adapter, hop, output))?;
    Ok(words.and_then(|n| Path::split(&output[..n as usize])).map(|(path, _)| path))
}

/// The tunnels from an adapter, a list that may be empty, or absent. Refused: 3 to 9, 14, 6 and 10 to 13 as met, 2 last.
pub fn discover<'a>(
    descriptions: &[u32],
    survey: &[u32],
    place: usize,
    adapter: u8,
    output: &'a mut [u32],
) -> Result<Option<Tunnels<'a>>, Refusal> {
    let words = number(raw::discover(descriptions, survey, place, adapter, output))?;
    Ok(words.map(|n| Tunnels::new(&output[..n as usize])))
}

// README.md's example is compiled and run with the tests.
#[cfg(doctest)]
#[doc = include_str!("../../README.md")]
struct Readme;
