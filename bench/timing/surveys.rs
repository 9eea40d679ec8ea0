//! Devices as survey words, as dumps in files and as the program's text; and the Rust's own loading of them.

use std::fmt::Write as _;
use std::fs;
use std::path::{Path, PathBuf};

use tbtools::{Device, Kind, Version};

pub const LANE: u32 = 1;
pub const HOST: u32 = 2;
pub const DP_IN: u32 = 0x0e0101;
pub const DP_OUT: u32 = 0x0e0102;
pub const PCIE_DOWN: u32 = 0x100101;
pub const PCIE_UP: u32 = 0x100102;
pub const USB3_DOWN: u32 = 0x200101;
pub const USB3_UP: u32 = 0x200102;

// ---- devices ------------------------------------------------------------------------------

#[derive(Clone, Copy)]
pub struct Register {
    pub offset: u32,
    pub relative: u32,
    pub cap: u32,
    pub vs: u32,
    pub value: u32,
}

pub enum Paths {
    NotRead,
    Read(Vec<Register>),
    Missing,
}

pub struct Adapter {
    pub registers: Vec<Register>,
    pub paths: Paths,
}

/// A device: a USB4 router, or an xdomain, of which nothing is read.
pub struct Router {
    pub route: u64,
    pub xdomain: bool,
    pub registers: Vec<Register>,
    pub adapters: Vec<Adapter>,
}

/// The registers of a capability that begins at an offset.
pub fn capability(at: u32, cap: u32, vs: u32, count: u32) -> Vec<Register> {
    (0..count).map(|i| Register { offset: at + i, relative: i, cap, vs, value: 0x01010101 * i }).collect()
}

/// ROUTER_CS_0 and on; ROUTER_CS_1 has Upstream Adapter and Max Adapter.
pub fn router(route: u64, count: u32, upstream: u32, adapters: Vec<Adapter>) -> Router {
    let mut registers = capability(0, 0, 0, count);
    registers[1].value = (adapters.len() as u32) << 14 | upstream << 8;
    Router { route, xdomain: false, registers, adapters }
}

pub fn xdomain(route: u64) -> Router {
    Router { route, xdomain: true, registers: Vec::new(), adapters: Vec::new() }
}

/// ADP_CS_0 and on, with the adapter's type in ADP_CS_2 and Max Input HopID in ADP_CS_5 if that is there.
pub fn basic(count: u32, kind: u32, most: u32) -> Vec<Register> {
    let mut registers = capability(0, 0, 0, count);
    registers[2].value = kind;
    if count > 5 {
        registers[5].value = most;
    }
    registers
}

/// The lane capability: LANE_ADP_CS_1 has CL0 and Gen 3.
pub fn lane_capability(at: u32) -> Vec<Register> {
    let mut registers = capability(at, 1, 0, 3);
    registers[1].value = 2 << 26 | 4 << 16;
    registers
}

/// The first word of a valid path entry.
pub fn leads(hop: u32, out: u32, out_hop: u32) -> Register {
    Register { offset: 2 * hop, relative: 0, cap: 0, vs: 0, value: 1 << 31 | out << 11 | out_hop }
}

/// A path entry's first word; a valid one leads to HopID 8 of adapter 2.
pub fn path(hop: u32, valid: bool) -> Register {
    let first = leads(hop, 2, 8);
    if valid { first } else { Register { value: 0, ..first } }
}

/// Both words of a path entry, as the kernel prints them.
pub fn both(first: Register) -> [Register; 2] {
    [first, Register { offset: first.offset + 1, relative: 1, value: 0, ..first }]
}

/// A lane without its capability, with so many HopIDs.
pub fn lane(most: u32, dump: Vec<Register>) -> Adapter {
    Adapter { registers: basic(6, LANE, most), paths: Paths::Read(dump) }
}

/// A protocol adapter that is enabled: both of its flags are set.
pub fn protocol(kind: u32, dump: Vec<Register>) -> Adapter {
    let mut registers = [basic(6, kind, 9), capability(0x39, 4, 0, 1)].concat();
    registers[6].value = 3 << 30;
    Adapter { registers, paths: Paths::Read(dump) }
}

/// Routers of 1,024 words, with lane 0, lane 1, PCIe up and PCIe down. Of the HopIDs of lane 0 each eighth is in use.
pub fn kernel(routers: usize) -> Vec<Router> {
    let entry = |h: u32| both(path(h, h % 8 == 0 && h > 0));
    let lane0 = || Adapter {
        registers: [basic(9, LANE, 86), lane_capability(0x10), capability(0x20, 6, 0, 20)].concat(),
        paths: Paths::Read((0..1).chain(8..87).flat_map(entry).collect()),
    };
    let lane1 = || Adapter { registers: [basic(9, LANE, 86), lane_capability(0x10)].concat(), paths: Paths::Missing };
    let pcie = |kind| {
        let mut registers = [basic(9, kind, 8), capability(0x39, 4, 0, 1)].concat();
        registers[9].value = 1 << 31;
        Adapter { registers, paths: Paths::Read(both(path(8, true)).to_vec()) }
    };
    (0..routers as u64).map(|i| router(i, 26, 1, vec![lane0(), lane1(), pcie(PCIE_UP), pcie(PCIE_DOWN)])).collect()
}

/// Four lanes with long path dumps: first words alone, and all of them valid.
pub fn entries(words: usize) -> Vec<Router> {
    let each = (words as u32 - 208) / 16;
    let lane = || Adapter {
        registers: [basic(9, LANE, 7 + each), lane_capability(0x10)].concat(),
        paths: Paths::Read((8..8 + each).map(|h| path(h, true)).collect()),
    };
    vec![router(0, 2, 1, vec![lane(), lane(), lane(), lane()])]
}

/// Four lanes with vendor capabilities of 64 nameless registers each before the lane capability, and no ADP_CS_5.
pub fn nameless(words: usize) -> Vec<Router> {
    let each = (words as u32 - 144) / 16;
    let vendor = |i: u32| Register { offset: 0x10 + i, relative: i % 64, cap: 5, vs: 1 + i / 64, value: i };
    let lane = || Adapter {
        registers: [basic(5, LANE, 0), (0..each).map(vendor).collect(), lane_capability(0x10 + each)].concat(),
        paths: Paths::NotRead,
    };
    vec![router(0, 2, 1, vec![lane(), lane(), lane(), lane()])]
}

/// Two routers, one below lane 1 of the other: a walk from there, at HopID 8, goes to and fro for so many hops, and ends at a PCIe adapter.
pub fn steps(hops: u32) -> Vec<Router> {
    let lane = |side: u32| {
        let on = |i: u32| if i + 1 == hops { (2, 8) } else { (1, 8 + i.div_ceil(2)) };
        let dump = (0..hops).filter(|i| i % 2 == side).map(|i| leads(8 + i / 2, on(i).0, on(i).1)).collect();
        Adapter { registers: basic(3, LANE, 0), paths: Paths::Read(dump) }
    };
    let pcie = |kind| Adapter { registers: basic(3, kind, 0), paths: Paths::NotRead };
    vec![router(0, 2, 2, vec![lane(0), pcie(PCIE_DOWN)]), router(1, 2, 1, vec![lane(1), pcie(PCIE_UP)])]
}

/// The survey's words: routers' registers were read.
pub fn words(routers: &[Router]) -> Vec<u32> {
    let group = |space: u32, r: &Register| [5 << 28 | space << 16 | r.offset, r.relative << 16 | r.cap, r.vs, r.value];
    let mut out = Vec::new();
    for d in routers {
        let head = if d.xdomain { 2 << 24 | 1 } else { 1 << 24 | 3 };
        out.extend([3 << 28 | head, 0, d.route as u32, (d.route >> 32) as u32]);
        out.extend(d.registers.iter().flat_map(|r| group(0, r)));
        for (i, a) in d.adapters.iter().enumerate() {
            let (mark, dump) = match &a.paths {
                Paths::NotRead => (0, &[][..]),
                Paths::Read(dump) => (1, &dump[..]),
                Paths::Missing => (2, &[][..]),
            };
            out.push(4 << 28 | mark << 9 | 1 << 8 | (i as u32 + 1));
            out.extend(a.registers.iter().flat_map(|r| group(0, r)));
            out.extend(dump.iter().flat_map(|r| group(1, r)));
        }
    }
    out
}

/// A dump's lines, as the kernel prints them.
pub fn lines(registers: &[Register], is_path: bool) -> String {
    let mut out = String::new();
    for r in registers {
        write!(out, "0x{:04x} {:4} ", r.offset, r.relative).unwrap();
        if is_path {
            writeln!(out, "0x{:02x} 0x{:08x}", r.offset / 2, r.value).unwrap();
        } else {
            writeln!(out, "0x{:02x} 0x{:02x} 0x{:08x}", r.cap, r.vs, r.value).unwrap();
        }
    }
    out
}

/// The program's text.
pub fn text(routers: &[Router]) -> String {
    let mut out = String::new();
    for d in routers {
        writeln!(out, "@{} 0 {:x}\n@usb4", if d.xdomain { "xdomain" } else { "router" }, d.route).unwrap();
        if d.xdomain {
            continue;
        }
        write!(out, "@regs\n{}", lines(&d.registers, false)).unwrap();
        for (i, a) in d.adapters.iter().enumerate() {
            write!(out, "@adapter {}\n@regs\n{}", i + 1, lines(&a.registers, false)).unwrap();
            match &a.paths {
                Paths::NotRead => (),
                Paths::Read(dump) => write!(out, "@paths\n{}", lines(dump, true)).unwrap(),
                Paths::Missing => writeln!(out, "@nopaths").unwrap(),
            }
        }
    }
    out
}

// ---- the Rust -----------------------------------------------------------------------------

/// A dump file's name and contents.
pub type Dump = (PathBuf, String);

/// The dump files of a survey, below folders of its own.
pub fn dumps(name: &str, routers: &[Router]) -> Vec<Dump> {
    let header = "# offset relative_offset cap_id vs_cap_id value\n";
    let dump = |registers: &[Register], is_path| format!("{header}{}", lines(registers, is_path));
    let mut files = Vec::new();
    for (place, d) in routers.iter().enumerate().filter(|(_, d)| !d.xdomain) {
        let top = Path::new("thunderbolt").join(format!("{name}-{place}"));
        files.push((top.join("regs"), dump(&d.registers, false)));
        for (i, a) in d.adapters.iter().enumerate() {
            let port = top.join(format!("port{}", i + 1));
            files.push((port.join("regs"), dump(&a.registers, false)));
            if let Paths::Read(registers) = &a.paths {
                files.push((port.join("path"), dump(registers, true)));
            }
        }
    }
    files
}

/// Makes the files with their folders; how many.
pub fn make(files: &[Dump]) -> usize {
    for (path, contents) in files {
        fs::create_dir_all(path.parent().unwrap()).unwrap();
        fs::write(path, contents).unwrap();
    }
    files.len()
}

fn device(name: &str, place: usize, d: &Router) -> Device {
    Device::new(
        format!("{name}-{place}"),
        if d.xdomain { Kind::Xdomain } else { Kind::Router },
        0,
        d.route,
        0,
        0,
        0,
        0,
        None,
        None,
        None,
        None,
        None,
        None,
        None,
        None,
        Some(Version { major: 2, minor: 0 }),
        None,
        None,
        None,
        None,
        None,
        None,
        None,
        None,
        None,
        None,
        None,
        PathBuf::new(),
    )
}

/// The Rust's own loading of one device.
fn load_device(name: &str, place: usize, d: &Router) -> Device {
    let mut device = device(name, place, d);
    if d.xdomain {
        return device;
    }
    device.read_registers().unwrap();
    device.read_adapters().unwrap();
    for (i, a) in d.adapters.iter().enumerate() {
        if !matches!(a.paths, Paths::NotRead) {
            device.adapter_mut(i as u8 + 1).unwrap().read_paths().unwrap();
        }
    }
    device
}

pub fn loaded(name: &str, routers: &[Router]) -> Vec<Device> {
    routers.iter().enumerate().map(|(place, d)| load_device(name, place, d)).collect()
}

/// How many devices and path entries there are, as `accepted_under_ours` gives it.
pub fn counted(devices: &[Device]) -> usize {
    let adapters = devices.iter().flat_map(|d| d.adapters().into_iter().flatten());
    65536 * devices.len() + adapters.map(|a| a.paths().map_or(0, |p| p.len())).sum::<usize>()
}
