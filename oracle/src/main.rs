//! `oracle`: drives the unchanged Rust with the text that document 01 defines for its program.
//! See README.md for the modes. Nothing in here decides behaviour that the Rust decides; what
//! document 01 adds (the closed mark, loading order, words, the text format) is marked (01).

use std::alloc::{GlobalAlloc, Layout, System};
use std::cell::RefCell;
use std::fmt::Write as _;
use std::io::{Read, Write as _};
use std::os::fd::FromRawFd;
use std::panic::{AssertUnwindSafe, catch_unwind};
use std::path::{Path, PathBuf};
use std::sync::Mutex;
use std::sync::atomic::{AtomicUsize, Ordering::SeqCst};

use tbtools::debugfs::{self, Adapter, BitFields, Metadata, Name, Register, Speed, State, Type};
use tbtools::tunnel::{self, Tunnel};
use tbtools::{Device, Kind, Version, util};

// ---- a walk that never ends ---------------------------------------------------------------
//
// The only loop of the Rust that may never end pushes a hop each round, and a walk that ends
// stands at no (device, adapter, HopID) twice, so it has at most as many hops as there are valid
// entries. While a discovery runs, a single allocation far above what that many hops can take
// means a ring: the answer is written and the process ends there. No patch of the Rust is needed.

struct Watch;
static LIMIT: AtomicUsize = AtomicUsize::new(0);
static REFUSALS: AtomicUsize = AtomicUsize::new(0);
/// In place of a way to print refusals: a walk has this process to itself, and a ring is its exit code.
const IN_CHILD: usize = 3;

fn out_and_exit(msg: &[u8], code: i32) -> ! {
    unsafe {
        libc::write(1, msg.as_ptr().cast(), msg.len());
        libc::_exit(code)
    }
}

fn check(size: usize) {
    let limit = LIMIT.load(SeqCst);
    if limit != 0 && size > limit {
        match REFUSALS.load(SeqCst) {
            0 => out_and_exit(b"loops\n", 0),
            IN_CHILD => out_and_exit(b"", 13),
            _ => out_and_exit(b"refused 13\n", 0),
        }
    }
}

unsafe impl GlobalAlloc for Watch {
    unsafe fn alloc(&self, l: Layout) -> *mut u8 {
        check(l.size());
        unsafe { System.alloc(l) }
    }
    unsafe fn dealloc(&self, p: *mut u8, l: Layout) {
        unsafe { System.dealloc(p, l) }
    }
    unsafe fn realloc(&self, p: *mut u8, l: Layout, n: usize) -> *mut u8 {
        check(n);
        unsafe { System.realloc(p, l, n) }
    }
}

#[global_allocator]
static WATCH: Watch = Watch;

extern "C" fn on_alarm(_: libc::c_int) {
    out_and_exit(b"timeout\n", 3)
}

// ---- panics -------------------------------------------------------------------------------

thread_local! {
    static LAST: RefCell<(String, String)> = const { RefCell::new((String::new(), String::new())) };
}

fn install_hook() {
    std::panic::set_hook(Box::new(|info| {
        let msg = if let Some(s) = info.payload().downcast_ref::<&str>() {
            s.to_string()
        } else if let Some(s) = info.payload().downcast_ref::<String>() {
            s.clone()
        } else {
            String::from("?")
        };
        let at = info.location().map_or(String::from("?"), |l| {
            let file = Path::new(l.file()).file_name().map_or("?".into(), |f| f.to_string_lossy());
            format!("{file}:{}", l.line())
        });
        LAST.with(|l| *l.borrow_mut() = (msg, at));
    }));
}

#[derive(Clone, Debug)]
struct Panic {
    msg: String,
    at: String,
}

/// Runs a piece of the Rust; a panic comes back as its message and source line.
fn run<T>(f: impl FnOnce() -> T) -> Result<T, Panic> {
    catch_unwind(AssertUnwindSafe(f)).map_err(|_| {
        LAST.with(|l| {
            let (msg, at) = l.borrow().clone();
            Panic { msg: msg.trim_end().to_string(), at }
        })
    })
}

/// (01) The refusal number that a panic of the Rust stands for.
fn refusal_of(p: &Panic) -> u32 {
    let m = p.msg.as_str();
    if m.starts_with("index out of bounds") {
        5
    } else if m.starts_with("BitField ") {
        6
    } else if m.starts_with("attempt to add with overflow")
        || m.starts_with("attempt to multiply with overflow")
    {
        8
    } else if m.starts_with("called `Option::unwrap()` on a `None` value")
        && p.at.starts_with("tunnel.rs")
    {
        10
    } else if m.starts_with("attempt to subtract with overflow") {
        11
    } else if m.starts_with("attempt to shift left with overflow") {
        12
    } else {
        99
    }
}

/// A loading or discovery that doesn't come to a result.
#[derive(Clone, Debug)]
struct Fault {
    number: u32,
    /// Device place and adapter as document 01 numbers them.
    place: Option<(usize, u8)>,
    /// What the Rust did: a panic's message, an error, or the driver's own words.
    text: String,
}

impl Fault {
    fn panic(p: &Panic, place: Option<(usize, u8)>) -> Self {
        Fault {
            number: refusal_of(p),
            place,
            text: format!("panic: {} ({})", p.msg, p.at),
        }
    }
    fn line(&self) -> String {
        match (REFUSALS.load(SeqCst), self.place) {
            (0, _) => (),
            (2, Some((d, a))) => return format!("refused {} {d} {a}\n", self.number),
            _ => return format!("refused {}\n", self.number),
        }
        let place = match self.place {
            Some((d, a)) => format!(" at {d}:{a}"),
            None => String::new(),
        };
        format!("{}{place} [{}]\n", self.text, self.number)
    }
}

// ---- (01) the program's text --------------------------------------------------------------

enum Paths {
    NotRead,
    Read(Vec<u8>),
    Missing,
}

struct AdapterText {
    number: u8,
    regs: Option<Vec<u8>>,
    paths: Paths,
}

struct DeviceText {
    kind: Kind,
    domain: u32,
    route: u64,
    usb4: bool,
    regs: Option<Vec<u8>>,
    adapters: Vec<AdapterText>,
}

fn note(line: usize, what: &str) {
    eprintln!("note: line {line}: {what}");
}

/// Reads the text; Err is "bad input" with the line number and reason.
fn parse_text(text: &[u8]) -> Result<Vec<DeviceText>, (u32, String)> {
    if let Some(i) = text.iter().position(|b| *b > 127) {
        return Err((1, format!("byte {i} is above 127")));
    }
    let mut devices: Vec<DeviceText> = Vec::new();
    // How far we are: 0 no device, 1 device, 2 after @usb4, 3 device registers, 4 adapter,
    // 5 adapter registers, 6 path dump, 7 after @nopaths.
    let mut at = 0;
    for (i, line) in text.split_inclusive(|b| *b == b'\n').enumerate() {
        let n = i + 1;
        let s = std::str::from_utf8(line.strip_suffix(b"\n").unwrap_or(line)).unwrap();
        let bad = |why: &str| Err((4, format!("line {n}: {why}")));
        if !s.starts_with('@') {
            if s.split_ascii_whitespace().next().is_some_and(|t| t.starts_with('@')) {
                note(n, "blanks before a marker: taken as a line that is no marker");
            }
            let device = devices.last_mut();
            match (at, device) {
                (3, Some(d)) => d.regs.as_mut().unwrap().extend_from_slice(line),
                (5, Some(d)) => {
                    let a = d.adapters.last_mut().unwrap();
                    a.regs.as_mut().unwrap().extend_from_slice(line)
                }
                (6, Some(d)) => match &mut d.adapters.last_mut().unwrap().paths {
                    Paths::Read(dump) => dump.extend_from_slice(line),
                    _ => unreachable!(),
                },
                _ => {
                    if Register::parse_debugfs(s).is_some() {
                        return bad("a record outside a dump");
                    }
                }
            }
            continue;
        }
        let tokens: Vec<&str> = s.split_ascii_whitespace().collect();
        let want = match tokens[0] {
            "@router" | "@xdomain" => 3,
            "@adapter" => 2,
            _ => 1,
        };
        if tokens.len() != want {
            return bad("a marker with too few or too many tokens");
        }
        match tokens[0] {
            "@router" | "@xdomain" => {
                let Ok(domain) = tokens[1].parse::<u32>() else {
                    return bad("bad domain");
                };
                let Some(route) = util::parse_hex::<u64>(tokens[2]) else {
                    return bad("bad route");
                };
                devices.push(DeviceText {
                    kind: if tokens[0] == "@router" { Kind::Router } else { Kind::Xdomain },
                    domain,
                    route,
                    usb4: false,
                    regs: None,
                    adapters: Vec::new(),
                });
                at = 1;
            }
            "@usb4" => {
                if at != 1 {
                    return bad("misplaced @usb4");
                }
                devices.last_mut().unwrap().usb4 = true;
                at = 2;
            }
            "@regs" => {
                if at == 1 || at == 2 {
                    let d = devices.last_mut().unwrap();
                    if d.kind != Kind::Router {
                        return bad("registers of a device that is no router");
                    }
                    d.regs = Some(Vec::new());
                    at = 3;
                } else if at == 4 {
                    let d = devices.last_mut().unwrap();
                    d.adapters.last_mut().unwrap().regs = Some(Vec::new());
                    at = 5;
                } else {
                    return bad("misplaced @regs");
                }
            }
            "@adapter" => {
                if at == 0 {
                    return bad("misplaced @adapter");
                }
                let number = match tokens[1].parse::<u16>() {
                    Ok(v) if (1..=255).contains(&v) => v as u8,
                    _ => return bad("bad adapter number"),
                };
                if number > 9 {
                    note(n, "adapter number read as decimal");
                }
                devices.last_mut().unwrap().adapters.push(AdapterText {
                    number,
                    regs: None,
                    paths: Paths::NotRead,
                });
                at = 4;
            }
            "@paths" | "@nopaths" => {
                if at != 4 && at != 5 {
                    return bad("misplaced path marker");
                }
                let a = devices.last_mut().unwrap().adapters.last_mut().unwrap();
                if tokens[0] == "@paths" {
                    a.paths = Paths::Read(Vec::new());
                    at = 6;
                } else {
                    a.paths = Paths::Missing;
                    at = 7;
                }
            }
            _ => return bad("unknown marker"),
        }
    }
    Ok(devices)
}

// ---- the temp debugfs tree ----------------------------------------------------------------

/// The folder while it stands, so that an exit by a driver error can remove it too.
static FOLDER: Mutex<Option<PathBuf>> = Mutex::new(None);

struct Tree;

fn remove_folder() {
    if let Some(dir) = FOLDER.lock().unwrap().take() {
        let _ = std::env::set_current_dir("/");
        let _ = std::fs::remove_dir_all(dir);
    }
}

impl Tree {
    fn new() -> Self {
        let base = std::env::temp_dir();
        for i in 0.. {
            let dir = base.join(format!("oracle-{}-{i}", std::process::id()));
            match std::fs::create_dir(&dir) {
                Ok(()) => {
                    std::env::set_current_dir(&dir).unwrap();
                    std::fs::create_dir("thunderbolt").unwrap();
                    *FOLDER.lock().unwrap() = Some(dir);
                    return Tree;
                }
                Err(e) if e.kind() == std::io::ErrorKind::AlreadyExists => (),
                Err(e) => driver_error(&format!("{}: {e}", dir.display())),
            }
        }
        unreachable!()
    }
    fn write(&self, name: &str, data: &[u8]) {
        let path = Path::new("thunderbolt").join(name);
        std::fs::create_dir_all(path.parent().unwrap()).unwrap();
        std::fs::write(path, data).unwrap();
    }
}

impl Drop for Tree {
    fn drop(&mut self) {
        remove_folder()
    }
}

/// Each place has its own name, so that two devices with one domain and route don't share files.
fn kernel_name(place: usize, d: &DeviceText) -> String {
    format!("{place}_{}-{:x}", d.domain, d.route)
}

fn device_of(place: usize, d: &DeviceText) -> Device {
    let version = d.usb4.then_some(Version { major: 2, minor: 0 });
    Device::new(
        kernel_name(place, d),
        d.kind.clone(),
        d.domain,
        d.route,
        0,
        0,
        0,
        0,
        None,
        None,
        None,
        None,
        None,
        None,
        None,
        None,
        version,
        None,
        None,
        None,
        None,
        None,
        None,
        None,
        None,
        None,
        None,
        None,
        PathBuf::new(),
    )
}

fn driver_error(what: &str) -> ! {
    eprintln!("oracle: {what}");
    remove_folder();
    std::process::exit(2)
}

/// Loads the devices in document 01's order: the same calls as the Rust's `read_adapters`, with
/// each adapter's `read_paths` right after its `read_registers`. If nothing is met, the adapters
/// that stay are those of the Rust's own `read_adapters` and `read_paths`.
fn load(texts: &[DeviceText]) -> Result<Vec<Device>, Fault> {
    let tree = Tree::new();
    for (place, d) in texts.iter().enumerate() {
        let name = kernel_name(place, d);
        if let Some(dump) = &d.regs {
            tree.write(&format!("{name}/regs"), dump);
        }
        for a in &d.adapters {
            // Under a number that stands twice the files would mix; that is 7 anyway.
            if let Some(dump) = &a.regs {
                tree.write(&format!("{name}/port{}/regs", a.number), dump);
            }
            if let Paths::Read(dump) = &a.paths {
                tree.write(&format!("{name}/port{}/path", a.number), dump);
            }
        }
    }

    let mut devices = Vec::new();
    for (place, d) in texts.iter().enumerate() {
        let mut device = device_of(place, d);
        let seven = |text: &str| {
            Err(Fault {
                number: 7,
                place: Some((place, 0)),
                text: format!("refused by the driver: {text}"),
            })
        };
        if d.regs.is_some() {
            match run(|| device.read_registers()) {
                Ok(Ok(())) => (),
                Ok(Err(e)) => driver_error(&format!("read_registers: {e}")),
                Err(p) => return Err(Fault::panic(&p, Some((place, 0)))),
            }
        }
        if !d.adapters.is_empty() {
            if !device.is_router() {
                return seven("adapters of a device that is no router");
            }
            let field = |r: Result<Option<u8>, Panic>| match r {
                Ok(v) => Ok(v),
                Err(p) => Err(Fault::panic(&p, Some((place, 0)))),
            };
            let Some(max) = field(run(|| device.max_adapter()))? else {
                return seven("adapters, but no ROUTER_CS_1");
            };
            let Some(upstream) = field(run(|| device.upstream_adapter()))? else {
                driver_error("max_adapter without upstream_adapter")
            };
            if !d.adapters.iter().map(|a| a.number).eq(1..=max) {
                return seven(&format!("adapters aren't 1 to {max} in order"));
            }
            for a in &d.adapters {
                let here = Some((place, a.number));
                let mut adapter = match run(|| device.read_adapter(a.number, a.number == upstream))
                {
                    Ok(Ok(adapter)) => adapter,
                    Ok(Err(e)) => driver_error(&format!("read_adapter: {e}")),
                    Err(p) => return Err(Fault::panic(&p, here)),
                };
                match run(|| adapter.read_registers()) {
                    Ok(Ok(())) => (),
                    Ok(Err(e)) => driver_error(&format!("Adapter::read_registers: {e}")),
                    Err(p) => return Err(Fault::panic(&p, here)),
                }
                if !matches!(a.paths, Paths::NotRead) {
                    match run(|| adapter.read_paths()) {
                        Ok(Ok(())) => (),
                        Ok(Err(e)) if e.kind() == std::io::ErrorKind::NotFound => {
                            return Err(Fault {
                                number: 9,
                                place: here,
                                text: format!("error: read_paths: {e}"),
                            });
                        }
                        Ok(Err(e)) => driver_error(&format!("read_paths: {e}")),
                        Err(p) => return Err(Fault::panic(&p, here)),
                    }
                }
            }
            // The Rust's own sequence; after the above it can't fail.
            match run(|| device.read_adapters()) {
                Ok(Ok(())) => (),
                e => driver_error(&format!("read_adapters differs: {e:?}")),
            }
            for a in &d.adapters {
                if !matches!(a.paths, Paths::NotRead) {
                    match run(|| device.adapter_mut(a.number).unwrap().read_paths()) {
                        Ok(Ok(())) => (),
                        e => driver_error(&format!("read_paths differs: {e:?}")),
                    }
                }
            }
        }
        devices.push(device);
    }
    Ok(devices)
}

/// Runs a discovery with the limit on single allocations, which only a ring passes.
fn watched<T>(devices: &[Device], f: impl FnOnce() -> T) -> Result<T, Panic> {
    let entries: usize = devices
        .iter()
        .flat_map(|d| d.adapters().into_iter().flatten())
        .map(|a| a.paths().map_or(0, |p| p.len()))
        .sum();
    // Room for a tunnel for each of 65,536 HopIDs, and for twice the hops of the longest walk.
    let tunnels = 65_536 * std::mem::size_of::<Tunnel>();
    let hops = 4 * entries * std::mem::size_of::<tunnel::Hop>();
    LIMIT.store(tunnels.max(hops), SeqCst);
    let r = run(f);
    LIMIT.store(0, SeqCst);
    r
}

// ---- results ------------------------------------------------------------------------------

fn place_of(devices: &[Device], d: &Device) -> usize {
    devices.iter().position(|x| std::ptr::eq(x, d)).unwrap()
}

fn hop_lines(out: &mut String, devices: &[Device], hops: &[tunnel::Hop]) {
    for h in hops {
        let e = h.entry();
        writeln!(
            out,
            "{} {} {} {} {}",
            place_of(devices, h.device()),
            e.in_adapter(),
            e.in_hop(),
            e.out_adapter(),
            e.out_hop()
        )
        .unwrap();
    }
}

/// (01) Closed.
fn is_closed(t: &Tunnel) -> bool {
    let first = &t.paths()[0];
    let last = t.paths().last().unwrap();
    t.paths().len() > 1
        && std::ptr::eq(last.dst_device(), first.src_device())
        && last.dst_adapter().adapter() == first.src_adapter().adapter()
}

fn tunnel_lines(out: &mut String, devices: &[Device], t: &Tunnel) {
    writeln!(
        out,
        "{} from {}:{} paths {} {}",
        t.kind(),
        place_of(devices, t.src_device()),
        t.src_adapter().adapter(),
        t.paths().len(),
        if is_closed(t) { "closed" } else { "open" }
    )
    .unwrap();
    for p in t.paths() {
        writeln!(out, "{} hops {}", p.name(), p.hops().len()).unwrap();
        hop_lines(out, devices, p.hops());
    }
}

/// (01) Result words.
fn hop_words(words: &mut Vec<u32>, devices: &[Device], hops: &[tunnel::Hop]) {
    for h in hops {
        let e = h.entry();
        words.push(
            10 << 28
                | (place_of(devices, h.device()) as u32) << 16
                | (e.in_adapter() as u32) << 8
                | e.out_adapter() as u32,
        );
        words.push((e.in_hop() as u32) << 16 | e.out_hop() as u32);
    }
}

/// (01) A single walk's path, with name 9.
fn path_words(devices: &[Device], p: &tunnel::Path) -> Vec<u32> {
    let mut words = vec![9 << 28 | 9 << 16 | p.hops().len() as u32];
    hop_words(&mut words, devices, p.hops());
    words
}

fn tunnel_words(words: &mut Vec<u32>, devices: &[Device], t: &Tunnel) {
    const NAMES: [&str; 9] = [
        "USB 3 Down",
        "USB 3 Up",
        "Video",
        "AUX TX",
        "AUX RX",
        "PCIe Down",
        "PCIe Up",
        "DMA TX",
        "DMA RX",
    ];
    words.push(
        8 << 28
            | (is_closed(t) as u32) << 16
            | (t.paths().len() as u32) << 8
            | match t.kind() {
                tunnel::Type::Usb3 => 0,
                tunnel::Type::DisplayPort => 1,
                tunnel::Type::Pcie => 2,
                tunnel::Type::Dma => 3,
            },
    );
    for p in t.paths() {
        let name = NAMES.iter().position(|n| *n == p.name()).unwrap() as u32;
        words.push(9 << 28 | name << 16 | p.hops().len() as u32);
        hop_words(words, devices, p.hops());
    }
}

// ---- where a discovery panicked ------------------------------------------------------------
//
// The Rust's panic doesn't say at which device and adapter. These two mirror the Rust's order of
// calls, made of the Rust's own calls, and only name the place; the panic itself is the Rust's.

fn locate_walk<'a>(
    devices: &'a [Device],
    mut device: &'a Device,
    mut adapter: &'a Adapter,
    mut in_hop: u16,
) -> Option<(usize, u8)> {
    while let Some(e) = adapter.path(in_hop) {
        let here = place_of(devices, device);
        let Some(out) = device.adapter(e.out_adapter()) else {
            return Some((here, e.out_adapter()));
        };
        if out.is_upstream() {
            match run(|| out.upstream_device(devices)) {
                Err(_) => return Some((here, out.adapter())),
                Ok(None) => return None,
                Ok(Some(dev)) => {
                    adapter = dev.adapter(dev.downstream_adapter(device)?)?;
                    device = dev;
                }
            }
        } else {
            match run(|| out.downstream_device(devices)) {
                Err(_) => return Some((here, out.adapter())),
                Ok(None) => return None,
                Ok(Some(dev)) => {
                    device = dev;
                    match run(|| dev.upstream_adapter()) {
                        Err(_) => return Some((place_of(devices, dev), 0)),
                        Ok(n) => adapter = device.adapter(n?)?,
                    }
                }
            }
        }
        in_hop = e.out_hop();
    }
    None
}

fn locate_discover<'a>(
    devices: &'a [Device],
    device: &'a Device,
    adapter: &'a Adapter,
) -> Option<(usize, u8)> {
    let here = (place_of(devices, device), adapter.adapter());
    let walk = |d: &'a Device, a: &'a Adapter, h: u16| -> Result<Option<u16>, Option<(usize, u8)>> {
        match run(|| {
            Tunnel::discover_path("", d, a, h, devices)
                .map(|p| p.hops().last().unwrap().entry().out_hop())
        }) {
            Ok(v) => Ok(v),
            Err(_) => Err(locate_walk(devices, d, a, h)),
        }
    };
    match adapter.kind() {
        Type::Usb3Down | Type::PcieDown | Type::DisplayPortIn => {
            let starts: &[u16] = if adapter.kind() == Type::DisplayPortIn { &[9, 8] } else { &[8] };
            for h in starts {
                if let Err(p) = walk(device, adapter, *h) {
                    return p;
                }
            }
            let p = run(|| Tunnel::discover_path("", device, adapter, 8, devices)).ok()??;
            locate_walk(devices, p.dst_device(), p.dst_adapter(), 8)
        }
        Type::HostInterface => {
            let Ok(max) = run(|| adapter.max_hop()) else {
                return Some(here);
            };
            for ring in adapter.min_hop()?..=max? {
                if let Err(p) = walk(device, adapter, ring) {
                    return p;
                }
                'rx: for d in devices.iter().filter(|d| d.is_xdomain()) {
                    let Ok(parent) = run(|| d.parent_from(devices)) else {
                        return Some((place_of(devices, d), 0));
                    };
                    let Some(parent) = parent else { continue };
                    let Some(n) = parent.downstream_adapter(d) else { continue };
                    let Some(down) = parent.adapter(n) else { break };
                    let Some(min) = down.min_hop() else { break };
                    let Ok(max) = run(|| down.max_hop()) else {
                        return Some((place_of(devices, parent), n));
                    };
                    let Some(max) = max else { break };
                    for h in min..=max {
                        match walk(parent, down, h) {
                            Err(p) => return p,
                            Ok(Some(last)) if last == ring => break 'rx,
                            _ => (),
                        }
                    }
                }
            }
            None
        }
        _ => None,
    }
}

// ---- modes --------------------------------------------------------------------------------

fn stdin_bytes() -> Vec<u8> {
    let mut data = Vec::new();
    std::io::stdin().lock().read_to_end(&mut data).unwrap();
    data
}

fn finish(out: &str) -> ! {
    LIMIT.store(0, SeqCst);
    std::io::stdout().write_all(out.as_bytes()).unwrap();
    std::io::stdout().flush().unwrap();
    std::process::exit(0)
}

fn texts() -> Vec<DeviceText> {
    texts_of(&stdin_bytes())
}

fn texts_of(data: &[u8]) -> Vec<DeviceText> {
    if REFUSALS.load(SeqCst) != 0 && data.len() > 65_536 {
        finish("refused 2\n");
    }
    match parse_text(data) {
        Ok(t) => {
            let words = survey_words(&t).len();
            if words > 16_384 {
                if REFUSALS.load(SeqCst) != 0 {
                    finish("refused 4\n");
                }
                eprintln!("note: {words} survey words, more than 16384");
            }
            t
        }
        Err((n, why)) => {
            eprintln!("bad input: {why}");
            if REFUSALS.load(SeqCst) != 0 {
                finish(&format!("refused {n}\n"));
            }
            finish("bad input\n")
        }
    }
}

fn loaded() -> Vec<Device> {
    loaded_from(&texts())
}

fn loaded_from(texts: &[DeviceText]) -> Vec<Device> {
    match load(texts) {
        Ok(d) => d,
        Err(f) => finish(&f.line()),
    }
}

/// (01) Survey words of the text; the records are the Rust's.
fn survey_words(texts: &[DeviceText]) -> Vec<u32> {
    let mut w = Vec::new();
    let records = |w: &mut Vec<u32>, dump: &[u8], path: u32| {
        let mut regs: Vec<Register> = dump
            .split_inclusive(|b| *b == b'\n')
            .filter_map(|l| Register::parse_debugfs(std::str::from_utf8(l).unwrap()))
            .collect();
        regs.sort_by_key(|r| r.offset());
        for r in regs {
            w.push(5 << 28 | path << 16 | r.offset() as u32);
            w.push((r.relative_offset() as u32) << 16 | r.cap_id() as u32);
            w.push(r.vs_cap_id() as u32);
            w.push(r.value());
        }
    };
    for d in texts {
        let kind = if d.kind == Kind::Router { 1 } else { 2 };
        w.push(3 << 28 | kind << 24 | (d.regs.is_some() as u32) << 1 | d.usb4 as u32);
        w.push(d.domain);
        w.push(d.route as u32);
        w.push((d.route >> 32) as u32);
        if let Some(dump) = &d.regs {
            records(&mut w, dump, 0);
        }
        for a in &d.adapters {
            let paths = match a.paths {
                Paths::NotRead => 0,
                Paths::Read(_) => 1,
                Paths::Missing => 2,
            };
            w.push(4 << 28 | paths << 9 | (a.regs.is_some() as u32) << 8 | a.number as u32);
            if let Some(dump) = &a.regs {
                records(&mut w, dump, 0);
            }
            if let Paths::Read(dump) = &a.paths {
                records(&mut w, dump, 1);
            }
        }
    }
    w
}

/// (01) Description words of the JSON in use: router, adapter, path space, each in JSON order.
fn description_words() -> Vec<u32> {
    let json: serde_json::Value = serde_json::from_str(include_dir::registers()).unwrap();
    let mut w = Vec::new();
    let num = |v: &serde_json::Value, k: &str| v.get(k).map(|n| n.as_u64().unwrap() as u32);
    let text = |v: &serde_json::Value, k: &str| {
        v.get(k).map_or(String::new(), |s| s.as_str().unwrap().to_string())
    };
    let name = |w: &mut Vec<u32>, s: &str| {
        for four in s.as_bytes().chunks(4) {
            w.push(four.iter().enumerate().fold(0, |a, (i, b)| a | (*b as u32) << (8 * i)));
        }
    };
    for (space, key) in ["router", "adapter", "path"].iter().enumerate() {
        for d in json.get(key).unwrap().as_array().unwrap() {
            let (cap, vs) = (num(d, "cap_id"), num(d, "vs_cap_id"));
            let n = text(d, "name");
            w.push(
                1 << 28
                    | (space as u32) << 26
                    | (cap.is_some() as u32) << 25
                    | (vs.is_some() as u32) << 24
                    | (n.len() as u32) << 16
                    | num(d, "offset").unwrap(),
            );
            w.push(cap.unwrap_or(0) << 16 | vs.unwrap_or(0));
            w.push(d.get("adapter_type").map_or(0, |list| {
                list.as_array().unwrap().iter().fold(1 << 12, |a, t| {
                    a | 1 << Type::from(t.as_str().unwrap()) as u32
                })
            }));
            name(&mut w, &n);
            for f in d.get("bitfields").into_iter().flat_map(|f| f.as_array().unwrap()) {
                let (n, s) = (text(f, "name"), text(f, "short_name"));
                w.push(
                    2 << 28
                        | num(f, "start_bit").unwrap() << 23
                        | num(f, "end_bit").unwrap() << 18
                        | (n.len() as u32) << 8
                        | s.len() as u32,
                );
                name(&mut w, &n);
                name(&mut w, &s);
            }
        }
    }
    w
}

fn program() {
    program_of(&loaded())
}

fn program_of(devices: &[Device]) -> ! {
    let mut out = String::new();
    let mut count = 0;
    for device in devices {
        let Some(adapters) = device.adapters() else { continue };
        for adapter in adapters {
            match watched(devices, || Tunnel::discover(device, adapter, devices)) {
                Err(p) => finish(&Fault::panic(&p, locate_discover(devices, device, adapter)).line()),
                Ok(None) => (),
                Ok(Some(tunnels)) => {
                    let mut words = Vec::new();
                    for t in &tunnels {
                        count += 1;
                        tunnel_lines(&mut out, devices, t);
                        tunnel_words(&mut words, devices, t);
                    }
                    if words.len() > 16_384 {
                        if REFUSALS.load(SeqCst) != 0 {
                            finish("refused 2\n");
                        }
                        eprintln!(
                            "note: {}:{} answers {} words, more than 16384",
                            place_of(devices, device),
                            adapter.adapter(),
                            words.len()
                        );
                    }
                }
            }
        }
    }
    finish(&format!("tunnels {count}\n{out}"))
}

fn asked<'a>(devices: &'a [Device], place: &str, adapter: &str) -> (&'a Device, &'a Adapter) {
    let device = place.parse::<usize>().ok().and_then(|p| devices.get(p));
    let found = device.and_then(|d| Some((d, d.adapter(adapter.parse().ok()?)?)));
    match found {
        Some(f) => f,
        None => finish("refused 14\n"),
    }
}

fn word_lines(words: &[u32]) -> String {
    words.iter().fold(String::new(), |mut s, w| {
        writeln!(s, "{w:#010x}").unwrap();
        s
    })
}

fn discover(place: &str, adapter: &str, as_words: bool) {
    let devices = loaded();
    let (d, a) = asked(&devices, place, adapter);
    match watched(&devices, || Tunnel::discover(d, a, &devices)) {
        Err(p) => finish(&Fault::panic(&p, locate_discover(&devices, d, a)).line()),
        Ok(None) => finish("absent\n"),
        Ok(Some(tunnels)) => {
            let mut out = String::new();
            if as_words {
                let mut words = Vec::new();
                tunnels.iter().for_each(|t| tunnel_words(&mut words, &devices, t));
                writeln!(out, "words {}", words.len()).unwrap();
                out.push_str(&word_lines(&words));
            } else {
                writeln!(out, "tunnels {}", tunnels.len()).unwrap();
                tunnels.iter().for_each(|t| tunnel_lines(&mut out, &devices, t));
            }
            finish(&out)
        }
    }
}

fn walk(place: &str, adapter: &str, hop: &str, as_words: bool) {
    let Ok(hop) = hop.parse::<u16>() else { driver_error("HOPID: decimal of 16 bits") };
    let devices = loaded();
    let (d, a) = asked(&devices, place, adapter);
    match watched(&devices, || Tunnel::discover_path("walk", d, a, hop, &devices)) {
        Err(p) => finish(&Fault::panic(&p, locate_walk(&devices, d, a, hop)).line()),
        Ok(None) => finish("absent\n"),
        Ok(Some(p)) if as_words => {
            let words = path_words(&devices, &p);
            finish(&format!("words {}\n{}", words.len(), word_lines(&words)))
        }
        Ok(Some(p)) => {
            let mut out = format!("hops {}\n", p.hops().len());
            hop_lines(&mut out, &devices, p.hops());
            finish(&out)
        }
    }
}

fn shown<T: std::fmt::Display>(r: Result<Option<T>, Panic>) -> String {
    match r {
        Ok(Some(v)) => v.to_string(),
        Ok(None) => String::from("none"),
        Err(p) => format!("panic({})", p.msg),
    }
}

fn adapters() {
    let devices = loaded();
    let mut out = String::new();
    for (place, d) in devices.iter().enumerate() {
        for a in d.adapters().into_iter().flatten() {
            let state = match a.state() {
                State::Unknown => "Unknown",
                State::Disabled => "Disabled",
                State::Enabled => "Enabled",
                State::Training => "Training",
                State::Cl0 => "Cl0",
                State::Cl0sTx => "Cl0sTx",
                State::Cl0sRx => "Cl0sRx",
                State::Cl1 => "Cl1",
                State::Cl2 => "Cl2",
                State::Cld => "Cld",
            };
            let speed = run(|| {
                Some(match a.link_speed() {
                    Speed::Unknown => "Unknown",
                    Speed::Gen2 => "Gen2",
                    Speed::Gen3 => "Gen3",
                    Speed::Gen4 => "Gen4",
                })
            });
            writeln!(
                out,
                "{place}:{} kind {:?} state {state} speed {} lane0 {} lane1 {} min {} max {} enabled {} upstream {} entries {}",
                a.adapter(),
                a.kind(),
                shown(speed),
                a.is_lane0(),
                a.is_lane1(),
                shown(Ok(a.min_hop())),
                shown(run(|| a.max_hop())),
                a.is_enabled(),
                a.is_upstream(),
                a.paths().map_or(0, |p| p.len())
            )
            .unwrap();
            for p in a.paths().into_iter().flatten() {
                writeln!(out, "{} {} {}", p.in_hop(), p.out_adapter(), p.out_hop()).unwrap();
            }
        }
    }
    finish(&out)
}

fn record(r: &Register) -> String {
    format!(
        "{} {} {} {} {}",
        r.offset(),
        r.relative_offset(),
        r.cap_id(),
        r.vs_cap_id(),
        r.value()
    )
}

fn names() {
    let devices = loaded();
    let mut out = String::new();
    let mut list = |place: usize, n: u8, space: &str, regs: Option<&Vec<Register>>| {
        for r in regs.into_iter().flatten() {
            let name = r.name().unwrap_or("-");
            writeln!(out, "{place}:{n} {space} {} {name}", record(r)).unwrap();
        }
    };
    for (place, d) in devices.iter().enumerate() {
        list(place, 0, "router", d.registers());
        for a in d.adapters().into_iter().flatten() {
            list(place, a.adapter(), "adapter", a.registers());
            list(place, a.adapter(), "path", a.path_registers());
        }
    }
    finish(&out)
}

const TYPES: [Type; 12] = [
    Type::Unknown,
    Type::Inactive,
    Type::Lane,
    Type::HostInterface,
    Type::DisplayPortIn,
    Type::DisplayPortOut,
    Type::PcieDown,
    Type::PcieUp,
    Type::Usb3Down,
    Type::Usb3Up,
    Type::Usb3GenTDown,
    Type::Usb3GenTUp,
];

/// A register named as `read_registers` and `read_paths` do it: the candidates, then `set_metadata`.
fn named(space: u32, kind: Type, relative: u16, cap: u16, vs: u16, value: u32) -> Register {
    let line = format!("0 {relative} {cap:x} {vs:x} {value:x}");
    let mut r = Register::parse_debugfs(&line).unwrap();
    let candidates = match space {
        0 => Metadata::with_router_offset(relative),
        1 => Metadata::with_adapter_type_and_offset("adapter", kind, relative),
        2 => Metadata::with_adapter_type_and_offset("path", kind, relative),
        _ => driver_error("a space is 0, 1 or 2"),
    };
    if let Some(candidates) = candidates {
        r.set_metadata(candidates);
    }
    r
}

/// Lines `SPACE KIND RELATIVE CAP VS VALUE NAME`, numbers in decimal, the wanted name as hex pairs.
/// The answer: the register's name as hex pairs or `-`; whether the wanted name is that name; the
/// value of the field and of the flag of the wanted name, each a number or `panic`.
fn fields() {
    each_line(|l| {
        let t: Vec<&str> = l.split(' ').collect();
        let [space, kind, relative, cap, vs, value, wanted] = t[..] else { driver_error("no question") };
        let n = |s: &str| s.parse::<u32>().unwrap_or_else(|_| driver_error("no number"));
        let wanted = unhex(wanted.as_bytes()).and_then(|b| String::from_utf8(b).ok());
        let Some(wanted) = wanted else { driver_error("no name") };
        let kind = TYPES[n(kind) as usize];
        let r = named(n(space), kind, n(relative) as u16, n(cap) as u16, n(vs) as u16, n(value));
        let name = r.name().map_or(String::from("-"), |s| s.bytes().map(|b| format!("{b:02x}")).collect());
        let is = r.name().is_some_and(|n| n.to_lowercase() == wanted.to_lowercase());
        let shown = |v: Result<u32, Panic>| match v {
            Ok(v) => v.to_string(),
            Err(p) if refusal_of(&p) == 6 => String::from("panic"),
            Err(p) => driver_error(&format!("{} ({})", p.msg, p.at)),
        };
        let field = shown(run(|| r.field(&wanted)));
        let flag = shown(run(|| r.flag(&wanted) as u32));
        format!("{name} {} {field} {flag}", is as u32)
    })
}

fn parent() {
    let devices = loaded();
    let mut out = String::new();
    for (place, d) in devices.iter().enumerate() {
        let r = run(|| d.parent_from(&devices).map(|p| place_of(&devices, p)));
        writeln!(out, "{place} {}", shown(r)).unwrap();
    }
    finish(&out)
}

fn downstream() {
    let devices = loaded();
    let mut out = String::new();
    for (i, d) in devices.iter().enumerate() {
        for (j, e) in devices.iter().enumerate() {
            match run(|| d.downstream_adapter(e)) {
                Ok(None) => (),
                r => writeln!(out, "{i} {j} {}", shown(r)).unwrap(),
            }
        }
    }
    finish(&out)
}

fn lines() -> Vec<String> {
    let data = stdin_bytes();
    data.split_inclusive(|b| *b == b'\n')
        .map(|l| {
            let l = l.strip_suffix(b"\n").unwrap_or(l);
            match std::str::from_utf8(l) {
                Ok(s) if s.is_ascii() => s.to_string(),
                _ => finish("bad input\n"),
            }
        })
        .collect()
}

fn each_line(f: impl Fn(&str) -> String) {
    let out: String = lines().iter().map(|l| f(l) + "\n").collect();
    finish(&out)
}

fn routes() {
    each_line(|l| {
        let t: Vec<&str> = l.split_ascii_whitespace().collect();
        let (Some(route), Some(n)) = (
            t.first().and_then(|t| util::parse_hex::<u64>(t)),
            t.get(1).and_then(|t| t.parse::<u8>().ok()),
        ) else {
            return String::from("bad input");
        };
        let text = DeviceText {
            kind: Kind::Router,
            domain: 0,
            route,
            usb4: false,
            regs: None,
            adapters: Vec::new(),
        };
        let depth = device_of(0, &text).depth();
        let lane = |up| Adapter::new(0, route, depth, n, Type::Lane, None, false, up);
        let hex = |r: Result<Option<u64>, Panic>| shown(r.map(|v| v.map(|v| format!("{v:#x}"))));
        format!(
            "{depth} {} {}",
            hex(run(|| lane(true).upstream_route())),
            hex(run(|| lane(false).downstream_route()))
        )
    })
}

fn dump() {
    let data = stdin_bytes();
    let tree = Tree::new();
    tree.write("dump", &data);
    let r = debugfs::read(&PathBuf::from("thunderbolt/dump"), None, None);
    drop(tree);
    match r {
        Ok(regs) => finish(&regs.iter().map(|r| record(r) + "\n").collect::<String>()),
        Err(e) => finish(&format!("error: {e}\n")),
    }
}

// ---- many cases in one run ----------------------------------------------------------------
//
// One case a line, its bytes in hex (`-` for none), so that a case may hold any byte, LF too.
// The answer to each is a line of words, each a blank and eight hex digits.

fn unhex(s: &[u8]) -> Option<Vec<u8>> {
    if s == b"-" {
        return Some(Vec::new());
    }
    if s.is_empty() || s.len() % 2 != 0 {
        return None;
    }
    let digit = |b: u8| (b as char).to_digit(16);
    s.chunks(2).map(|p| Some((digit(p[0])? * 16 + digit(p[1])?) as u8)).collect()
}

fn number_words(v: Option<u64>) -> Vec<u32> {
    v.map_or(Vec::new(), |v| vec![v as u32, (v >> 32) as u32])
}

fn line_words(r: &Register) -> Vec<u32> {
    let (o, rel, cap, vs) = (r.offset(), r.relative_offset(), r.cap_id(), r.vs_cap_id());
    vec![o.into(), rel.into(), cap.into(), vs.into(), r.value()]
}

/// (01) The record in the form of group 5, bit 16 clear.
fn dump_words(r: &Register) -> [u32; 4] {
    [
        5 << 28 | r.offset() as u32,
        (r.relative_offset() as u32) << 16 | r.cap_id() as u32,
        r.vs_cap_id() as u32,
        r.value(),
    ]
}

fn batch_answer(kind: &str, case: &str, tree: &Tree) -> Vec<u32> {
    match kind {
        "line" => Register::parse_debugfs(case).map_or(Vec::new(), |r| line_words(&r)),
        "hex16" => number_words(util::parse_hex::<u16>(case).map(u64::from)),
        "hex32" => number_words(util::parse_hex::<u32>(case).map(u64::from)),
        "hex64" => number_words(util::parse_hex::<u64>(case)),
        "dec16" => number_words(case.parse::<u16>().ok().map(u64::from)),
        "dec32" => number_words(case.parse::<u32>().ok().map(u64::from)),
        "survey" => match parse_text(case.as_bytes()) {
            Ok(t) => {
                let words = survey_words(&t);
                [vec![1 << 28 | words.len() as u32], words].concat()
            }
            Err((n, _)) => vec![refusal_word(n, 0, 0)],
        },
        "dump" => {
            tree.write("dump", case.as_bytes());
            match debugfs::read(&PathBuf::from("thunderbolt/dump"), None, None) {
                Ok(regs) => regs.iter().flat_map(dump_words).collect(),
                Err(e) => driver_error(&format!("read: {e}")),
            }
        }
        _ => driver_error("unknown kind; see README.md"),
    }
}

fn batch(kind: &str) {
    let data = stdin_bytes();
    let tree = Tree::new();
    let mut out = String::new();
    for (i, l) in data.split_inclusive(|b| *b == b'\n').enumerate() {
        let bad = |why: &str| -> ! { driver_error(&format!("case {}: {why}", i + 1)) };
        let l = l.strip_suffix(b"\n").unwrap_or(l);
        let Some(bytes) = unhex(l) else { bad("no hex pairs") };
        // The Rust takes any UTF-8; document 01 refuses a byte above 127, so the Rust isn't asked.
        let case = match std::str::from_utf8(&bytes) {
            Ok(s) if s.is_ascii() => s,
            _ => bad("a byte above 127"),
        };
        match run(|| batch_answer(kind, case, &tree)) {
            Ok(words) => words.iter().for_each(|w| write!(out, " {w:08x}").unwrap()),
            Err(p) => bad(&format!("panic: {} ({})", p.msg, p.at)),
        }
        out.push('\n');
    }
    drop(tree);
    finish(&out)
}

/// What `program` prints of each text, a case as in `batch`, the answer as hex pairs. Each text has a process of its own, which a
/// walk that never ends takes with it.
fn programs() {
    let mut out = String::new();
    for (i, l) in lines().iter().enumerate() {
        let Some(text) = unhex(l.as_bytes()) else { driver_error(&format!("case {}: no hex pairs", i + 1)) };
        let mut ends = [0; 2];
        let mut printed = Vec::new();
        unsafe {
            if libc::pipe(ends.as_mut_ptr()) != 0 {
                driver_error("pipe");
            }
            let child = libc::fork();
            if child == 0 {
                libc::dup2(ends[1], 1);
                libc::alarm(timeout());
                program_of(&loaded_from(&texts_of(&text)))
            }
            libc::close(ends[1]);
            std::fs::File::from_raw_fd(ends[0]).read_to_end(&mut printed).unwrap();
            let mut status = 0;
            if child < 0 || libc::waitpid(child, &mut status, 0) != child || status != 0 {
                driver_error(&format!("case {}: its process failed", i + 1));
            }
        }
        printed.iter().for_each(|b| write!(out, "{b:02x}").unwrap());
        out.push('\n');
    }
    finish(&out)
}

// ---- many surveys in one run --------------------------------------------------------------
//
// A survey comes as words and is written out as dumps for the Rust to read. make-loads says what
// questions and answers are.

/// (01) The devices of survey words, which must be well formed, with a dump line for each register.
fn word_texts(words: &[u32]) -> Option<Vec<DeviceText>> {
    const KINDS: [Kind; 6] =
        [Kind::Domain, Kind::Router, Kind::Xdomain, Kind::Retimer, Kind::Service, Kind::Unknown];
    let mut devices: Vec<DeviceText> = Vec::new();
    let mut rest = words;
    while let Some(&w) = rest.first() {
        let size = if w >> 28 == 4 { 1 } else { 4 };
        let group = rest.get(..size)?;
        rest = &rest[size..];
        match w >> 28 {
            3 => devices.push(DeviceText {
                kind: KINDS.get((w >> 24 & 15) as usize)?.clone(),
                domain: group[1],
                route: (group[3] as u64) << 32 | group[2] as u64,
                usb4: w & 1 != 0,
                regs: (w & 2 != 0).then(Vec::new),
                adapters: Vec::new(),
            }),
            4 => devices.last_mut()?.adapters.push(AdapterText {
                number: w as u8,
                regs: (w >> 8 & 1 != 0).then(Vec::new),
                paths: match w >> 9 & 3 {
                    0 => Paths::NotRead,
                    1 => Paths::Read(Vec::new()),
                    2 => Paths::Missing,
                    _ => return None,
                },
            }),
            5 => {
                let (ids, vs, value) = (group[1], group[2], group[3]);
                let line = format!("{:x} {} {:x} {vs:x} {value:x}\n", w as u16, ids >> 16, ids as u16);
                let device = devices.last_mut()?;
                let dump = match (w >> 16 & 1, device.adapters.last_mut()) {
                    (0, None) => device.regs.as_mut()?,
                    (0, Some(a)) => a.regs.as_mut()?,
                    (_, Some(AdapterText { paths: Paths::Read(dump), .. })) => dump,
                    _ => return None,
                };
                dump.extend_from_slice(line.as_bytes());
            }
            _ => return None,
        }
    }
    Some(devices)
}

fn refusal_word(number: u32, place: usize, adapter: u8) -> u32 {
    15 << 28 | number << 24 | (place as u32) << 8 | adapter as u32
}

/// An answer: none is 0, a value has bit 28, a panic is the refusal that it stands for.
fn answer_word(r: Result<Option<u32>, Panic>, place: usize, adapter: u8) -> u32 {
    match r {
        Ok(None) => 0,
        Ok(Some(v)) => 1 << 28 | v,
        Err(p) => refusal_word(refusal_of(&p), place, adapter),
    }
}

fn route_words(r: Result<Option<u64>, Panic>, place: usize, adapter: u8) -> Vec<u32> {
    match r {
        Ok(Some(v)) => vec![2 << 28, v as u32, (v >> 32) as u32],
        other => vec![answer_word(other.map(|_| None), place, adapter)],
    }
}

fn device_answers(devices: &[Device], place: usize) -> Vec<u32> {
    let d = &devices[place];
    let (kind, usb4) = (d.kind() as u32, d.usb4_version().is_some() as u32);
    let upstream = run(|| d.upstream_adapter());
    // (01) In `parent_from`, 11 names a router's upstream adapter, 6 the router itself.
    let named = match &upstream {
        Ok(Some(n)) => *n,
        _ => 0,
    };
    let parent = run(|| d.parent_from(devices).map(|p| place_of(devices, p) as u32));
    vec![
        3 << 28 | kind << 8 | usb4 << 4 | d.depth(),
        d.domain_index(),
        d.route() as u32,
        (d.route() >> 32) as u32,
        answer_word(upstream.map(|n| n.map(u32::from)), place, 0),
        answer_word(parent, place, named),
    ]
}

fn cap_word(a: &Adapter, cap: u16) -> u32 {
    let start = |part: &[Register]| {
        let all = a.registers().unwrap();
        all.iter().position(|r| std::ptr::eq(r, &part[0])).unwrap()
    };
    let part = run(|| a.find_cap(cap).map(|p| ((start(p) << 12) + start(p) + p.len()) as u32));
    answer_word(part, 0, 0)
}

fn adapter_answers(a: &Adapter, place: usize) -> Vec<u32> {
    let n = a.adapter();
    let info = a.kind() as u32
        | (a.state() as u32) << 4
        | (a.is_lane0() as u32) << 8
        | (a.is_lane1() as u32) << 9
        | (a.is_enabled() as u32) << 10;
    let mut words = vec![
        answer_word(Ok(Some(info)), place, n),
        answer_word(Ok(a.min_hop().map(u32::from)), place, n),
        answer_word(run(|| Some(a.link_speed() as u32)), place, n),
        answer_word(run(|| a.max_hop().map(u32::from)), place, n),
        cap_word(a, 1),
        cap_word(a, 4),
        cap_word(a, 6),
    ];
    words.extend(route_words(run(|| a.upstream_route()), place, n));
    words.extend(route_words(run(|| a.downstream_route()), place, n));
    words
}

fn path_word(a: &Adapter, hop: u16) -> u32 {
    let entry = a.path(hop);
    answer_word(Ok(entry.map(|e| (e.out_adapter() as u32) << 16 | e.out_hop() as u32)), 0, 0)
}

/// A walk's answer: 0 for none, a path's words, or the refusal that a panic stands for.
fn walk_words(devices: &[Device], place: usize, adapter: &Adapter, hop: u16) -> Option<Vec<u32>> {
    let d = &devices[place];
    match watched(devices, || Tunnel::discover_path("walk", d, adapter, hop, devices)) {
        Ok(p) => Some(p.map_or(vec![0], |p| path_words(devices, &p))),
        Err(p) => {
            let (at, number) = locate_walk(devices, d, adapter, hop)?;
            Some(vec![refusal_word(refusal_of(&p), at, number)])
        }
    }
}

/// A discovery's answer: 0 for none, the number of words and the words of a list, or the refusal that a panic stands for.
fn list_words(devices: &[Device], place: usize, adapter: &Adapter) -> Option<Vec<u32>> {
    let d = &devices[place];
    match watched(devices, || Tunnel::discover(d, adapter, devices)) {
        Ok(None) => Some(vec![0]),
        Ok(Some(tunnels)) => {
            let mut words = vec![0];
            tunnels.iter().for_each(|t| tunnel_words(&mut words, devices, t));
            words[0] = 1 << 28 | (words.len() - 1) as u32;
            Some(words)
        }
        Err(p) => {
            let (at, number) = locate_discover(devices, d, adapter)?;
            Some(vec![refusal_word(refusal_of(&p), at, number)])
        }
    }
}

/// The words that a piece gives in a process of its own, which a walk that never ends takes with it: 13.
fn in_child(f: impl FnOnce() -> Option<Vec<u32>>) -> Vec<u32> {
    let mut ends = [0; 2];
    unsafe {
        if libc::pipe(ends.as_mut_ptr()) != 0 {
            driver_error("pipe");
        }
        let child = libc::fork();
        if child == 0 {
            REFUSALS.store(IN_CHILD, SeqCst);
            libc::alarm(timeout());
            let words = f().unwrap_or_else(|| out_and_exit(b"", 2));
            let bytes: Vec<u8> = words.iter().flat_map(|w| w.to_le_bytes()).collect();
            let sent = std::fs::File::from_raw_fd(ends[1]).write_all(&bytes);
            out_and_exit(b"", sent.is_err() as i32)
        }
        libc::close(ends[1]);
        let mut bytes = Vec::new();
        std::fs::File::from_raw_fd(ends[0]).read_to_end(&mut bytes).unwrap();
        let mut status = 0;
        if child < 0 || libc::waitpid(child, &mut status, 0) != child || !libc::WIFEXITED(status) {
            driver_error("a walk's process failed");
        }
        match libc::WEXITSTATUS(status) {
            0 => bytes.chunks(4).map(|b| u32::from_le_bytes(b.try_into().unwrap())).collect(),
            13 => vec![refusal_word(13, 0, 0)],
            n => driver_error(&format!("a walk's process ended with {n}")),
        }
    }
}

/// The words of all questions and answers about one survey.
fn load_words(survey: &[u32], questions: &[u32]) -> Option<Vec<u32>> {
    let loaded = load(&word_texts(survey)?);
    let mut out = Vec::new();
    let mut asked = questions.iter().copied();
    while let Some(q) = asked.next() {
        out.push(q);
        let (place, number) = ((q >> 8 & 0xfffff) as usize, q as u8);
        let devices = match &loaded {
            Ok(d) => d,
            Err(f) => {
                let (place, adapter) = f.place?;
                if matches!(q >> 28, 3 | 4 | 6 | 7) {
                    out.push(asked.next()?);
                }
                out.push(refusal_word(f.number, place, adapter));
                continue;
            }
        };
        let adapter = devices.get(place).and_then(|d| d.adapter(number));
        match q >> 28 {
            0 => {
                let entries: usize = devices
                    .iter()
                    .flat_map(|d| d.adapters().into_iter().flatten())
                    .map(|a| a.paths().map_or(0, |p| p.len()))
                    .sum();
                out.push(1 << 28 | (devices.len() << 14) as u32 | entries as u32);
            }
            1 if place < devices.len() => out.extend(device_answers(devices, place)),
            2 => out.extend(adapter_answers(adapter?, place)),
            3 => {
                let hop = asked.next()?;
                out.extend([hop, path_word(adapter?, hop as u16)]);
            }
            4 => {
                let cap = asked.next()?;
                out.extend([cap, cap_word(adapter?, cap as u16)]);
            }
            6 => {
                let start = asked.next()?;
                let adapter = adapter?;
                out.push(start);
                out.extend(in_child(|| walk_words(devices, place, adapter, start as u16)));
            }
            7 => {
                let adapter = adapter?;
                out.push(asked.next()?);
                out.extend(in_child(|| list_words(devices, place, adapter)));
            }
            _ => return None,
        }
    }
    Some(out)
}

fn loads() {
    let mut out = String::new();
    for (i, l) in lines().iter().enumerate() {
        let bad = |why: &str| -> ! { driver_error(&format!("survey {}: {why}", i + 1)) };
        let words: Option<Vec<u32>> =
            l.split(' ').map(|t| u32::from_str_radix(t, 16).ok()).collect();
        let Some(words) = words else { bad("no words") };
        let n = words[0] as usize;
        if words.len() - 1 < n {
            bad("too few words");
        }
        let Some(words) = load_words(&words[1..=n], &words[n + 1..]) else { bad("no question") };
        words.iter().for_each(|w| write!(out, " {w:08x}").unwrap());
        out.push('\n');
    }
    finish(&out)
}

fn timeout() -> u32 {
    std::env::var("ORACLE_TIMEOUT").ok().and_then(|t| t.parse().ok()).unwrap_or(600)
}

fn main() {
    include_dir::load();
    install_hook();
    unsafe {
        libc::signal(libc::SIGALRM, on_alarm as extern "C" fn(libc::c_int) as libc::sighandler_t);
        libc::alarm(timeout());
    }
    let args: Vec<String> = std::env::args().skip(1).collect();
    let args: Vec<&str> = args.iter().map(|s| s.as_str()).collect();
    fn none<T: std::fmt::Display>(v: Option<T>) -> String {
        v.map_or(String::from("none"), |v| v.to_string())
    }
    match args.as_slice() {
        [] => program(),
        ["program"] => {
            REFUSALS.store(1, SeqCst);
            program()
        }
        ["refusals"] => {
            REFUSALS.store(2, SeqCst);
            program()
        }
        ["line"] => each_line(|l| {
            Register::parse_debugfs(l).map_or(String::from("none"), |r| record(&r))
        }),
        ["dump"] => dump(),
        ["batch", kind] => batch(kind),
        ["programs"] => {
            REFUSALS.store(1, SeqCst);
            programs()
        }
        ["hex16"] => each_line(|l| none(util::parse_hex::<u16>(l))),
        ["hex32"] => each_line(|l| none(util::parse_hex::<u32>(l))),
        ["hex64"] => each_line(|l| none(util::parse_hex::<u64>(l))),
        ["adapters"] => adapters(),
        ["names"] => names(),
        ["fields"] => fields(),
        ["walk", place, adapter, hop] => walk(place, adapter, hop, false),
        ["walkwords", place, adapter, hop] => walk(place, adapter, hop, true),
        ["discover", place, adapter] => discover(place, adapter, false),
        ["words", place, adapter] => discover(place, adapter, true),
        ["descriptions"] => finish(&word_lines(&description_words())),
        ["survey"] => finish(&word_lines(&survey_words(&texts()))),
        ["routes"] => routes(),
        ["parent"] => parent(),
        ["downstream"] => downstream(),
        ["loads"] => loads(),
        _ => driver_error("unknown mode; see README.md"),
    }
}
