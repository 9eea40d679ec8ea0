//! Records of dump words, and tunnels, paths and hops of result words, read where they stand. Total on any words: on words that the library
//! didn't write, an iterator ends before the first part that isn't whole.

/// A register as a dump's line gives it.
#[derive(Clone, Copy, Debug, PartialEq, Eq, Hash)]
pub struct Record {
    pub offset: u16,
    pub relative_offset: u16,
    pub cap_id: u16,
    pub vs_id: u16,
    pub value: u32,
}

/// The records of dump words, four words each, as `read_dump` writes them.
pub fn records(words: &[u32]) -> impl ExactSizeIterator<Item = Record> + '_ {
    words.chunks_exact(4).map(|w| Record {
        offset: w[0] as u16,
        relative_offset: (w[1] >> 16) as u16,
        cap_id: w[1] as u16,
        vs_id: w[2] as u16,
        value: w[3],
    })
}

/// Types of tunnels.
#[derive(Clone, Copy, Debug, PartialEq, Eq, Hash)]
pub enum TunnelType {
    Usb3,
    DisplayPort,
    Pcie,
    Dma,
}

/// Names of paths.
#[derive(Clone, Copy, Debug, PartialEq, Eq, Hash)]
pub enum PathName {
    Usb3Down,
    Usb3Up,
    Video,
    AuxTx,
    AuxRx,
    PcieDown,
    PcieUp,
    DmaTx,
    DmaRx,
}

/// A hop: the device's place, and by which adapter and HopID it comes in and goes out.
#[derive(Clone, Copy, Debug, PartialEq, Eq, Hash)]
pub struct Hop {
    pub place: usize,
    pub in_adapter: u8,
    pub in_hop: u16,
    pub out_adapter: u8,
    pub out_hop: u16,
}

/// A path; a single walk's has no name.
#[derive(Clone, Copy, Debug, PartialEq, Eq)]
pub struct Path<'a> {
    pub name: Option<PathName>,
    hops: &'a [u32],
}

/// A tunnel; closed if it has more than one path and the last leaves by the device and adapter where the first entered.
#[derive(Clone, Copy, Debug, PartialEq, Eq)]
pub struct Tunnel<'a> {
    pub kind: TunnelType,
    pub closed: bool,
    paths: &'a [u32],
}

/// The paths of a tunnel, in order.
#[derive(Clone, Debug)]
pub struct Paths<'a>(&'a [u32]);

/// The tunnels of result words, in order.
#[derive(Clone, Debug)]
pub struct Tunnels<'a>(&'a [u32]);

// The head of a kind that words begin with, and the words after it.
fn head(words: &[u32], kind: u32) -> Option<(u32, &[u32])> {
    let (&head, rest) = words.split_first()?;
    (head >> 28 == kind).then_some((head, rest))
}

impl<'a> Path<'a> {
    /// The path that words begin with, and the words after it.
    pub fn split(words: &'a [u32]) -> Option<(Path<'a>, &'a [u32])> {
        let (head, rest) = head(words, 9)?;
        let (hops, rest) = rest.split_at_checked(2 * (head & 0xffff) as usize)?;
        let name = match head >> 16 & 0xf {
            0 => Some(PathName::Usb3Down),
            1 => Some(PathName::Usb3Up),
            2 => Some(PathName::Video),
            3 => Some(PathName::AuxTx),
            4 => Some(PathName::AuxRx),
            5 => Some(PathName::PcieDown),
            6 => Some(PathName::PcieUp),
            7 => Some(PathName::DmaTx),
            8 => Some(PathName::DmaRx),
            _ => None,
        };
        Some((Path { name, hops }, rest))
    }

    pub fn hops(&self) -> impl ExactSizeIterator<Item = Hop> + 'a {
        self.hops.chunks_exact(2).map(|w| Hop {
            place: (w[0] >> 16 & 0xfff) as usize,
            in_adapter: (w[0] >> 8) as u8,
            out_adapter: w[0] as u8,
            in_hop: (w[1] >> 16) as u16,
            out_hop: w[1] as u16,
        })
    }
}

impl<'a> Tunnel<'a> {
    pub fn paths(&self) -> Paths<'a> {
        Paths(self.paths)
    }

    /// Where it comes from: the first hop of its first path.
    pub fn source(&self) -> Option<Hop> {
        self.paths().next()?.hops().next()
    }
}

impl<'a> Tunnels<'a> {
    pub fn new(words: &'a [u32]) -> Tunnels<'a> {
        Tunnels(words)
    }

    /// The words of the tunnels that are left.
    pub fn words(&self) -> &'a [u32] {
        self.0
    }
}

impl<'a> Iterator for Paths<'a> {
    type Item = Path<'a>;

    fn next(&mut self) -> Option<Path<'a>> {
        let (path, rest) = Path::split(self.0)?;
        self.0 = rest;
        Some(path)
    }
}

impl<'a> Iterator for Tunnels<'a> {
    type Item = Tunnel<'a>;

    fn next(&mut self) -> Option<Tunnel<'a>> {
        let (head, after) = head(self.0, 8)?;
        let kind = match head & 0xf {
            0 => TunnelType::Usb3,
            1 => TunnelType::DisplayPort,
            2 => TunnelType::Pcie,
            3 => TunnelType::Dma,
            _ => return None,
        };
        let mut rest = after;
        for _ in 0..head >> 8 & 0xff {
            rest = Path::split(rest)?.1;
        }
        self.0 = rest;
        let paths = &after[..after.len() - rest.len()];
        Some(Tunnel { kind, closed: head >> 16 & 1 == 1, paths })
    }
}

impl core::iter::FusedIterator for Paths<'_> {}
impl core::iter::FusedIterator for Tunnels<'_> {}
