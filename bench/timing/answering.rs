//! The whole program, text in and printed text out: ours and the oracle's as processes, and both in this process without what only the oracle needs.

use std::cell::RefCell;
use std::fmt::Write as _;
use std::fs::{self, File};
use std::path::Path;
use std::process::{Command, Stdio};

use tbtools::Device;
use tbtools::tunnel::Tunnel;

use crate::loading::json;
use crate::row;
use crate::surveys::{Adapter, Dump, HOST, LANE, PCIE_DOWN, PCIE_UP, Paths, Register, Router};
use crate::surveys::{basic, both, capability, dumps, kernel, lane, leads, lines, loaded, make, router, text, xdomain};

#[link(name = "answering", kind = "static")]
unsafe extern "C" {
    fn answer_text(text: *const u8, length: usize, buffer: *mut u8, room: usize) -> usize;
}

/// As much as the program has for an adapter's lines.
const ROOM: usize = 786_432;

// ---- texts --------------------------------------------------------------------------------

/// A host and a router below it, with a PCIe tunnel; so many HopIDs that aren't in use, half of them on each lane.
fn two(unused: u32) -> Vec<Router> {
    let spare = |n: u32| (11..11 + n).flat_map(|h| both(Register { value: 0, ..leads(h, 0, 0) }));
    let lane = |hop: u32, n: u32| {
        let dump = both(leads(hop, 2, 8)).into_iter().chain(spare(n)).collect();
        Adapter { registers: basic(3, LANE, 0), paths: Paths::Read(dump) }
    };
    let pcie = |kind, on| {
        let mut registers = [basic(3, kind, 0), capability(0x39, 4, 0, 1)].concat();
        registers[3].value = 1 << 31;
        Adapter { registers, paths: Paths::Read(vec![leads(8, 1, on)]) }
    };
    vec![
        router(0, 2, 63, vec![lane(10, unused / 2), pcie(PCIE_DOWN, 9)]),
        router(1, 2, 1, vec![lane(9, unused - unused / 2), pcie(PCIE_UP, 10)]),
    ]
}

/// The same, and another host behind a lane: a host interface with 12 rings, two of them in use.
fn three(unused: u32) -> Vec<Router> {
    let mut all = two(unused);
    let top = all.remove(0);
    let interface = Adapter { registers: basic(6, HOST, 12), paths: Paths::Read(vec![leads(1, 4, 9), leads(5, 4, 10)]) };
    let mut adapters = top.adapters;
    adapters.push(interface);
    adapters.push(lane(20, vec![leads(9, 3, 1), leads(10, 3, 5)]));
    all.insert(0, router(0, 2, 63, adapters));
    all.push(xdomain(4));
    all
}

/// The most HopIDs that a text of so many bytes has room for.
fn fitted(bytes: usize, survey: fn(u32) -> Vec<Router>) -> Option<Vec<Router>> {
    let each: usize = lines(&both(leads(1000, 0, 0)), true).len();
    let mut unused = bytes.checked_sub(text(&survey(0)).len())? / each;
    while text(&survey(unused as u32)).len() > bytes {
        unused -= 1;
    }
    Some(survey(unused as u32))
}

// ---- both sides ---------------------------------------------------------------------------

fn place(devices: &[Device], d: &Device) -> usize {
    devices.iter().position(|x| std::ptr::eq(x, d)).unwrap()
}

/// What the Rust finds, printed as document 01 says.
fn printed(devices: &[Device]) -> String {
    let (mut out, mut count) = (String::new(), 0);
    for d in devices {
        for a in d.adapters().into_iter().flatten() {
            for t in Tunnel::discover(d, a, devices).into_iter().flatten() {
                count += 1;
                let (first, last) = (&t.paths()[0], t.paths().last().unwrap());
                let closed = t.paths().len() > 1
                    && std::ptr::eq(last.dst_device(), first.src_device())
                    && last.dst_adapter().adapter() == first.src_adapter().adapter();
                writeln!(
                    out,
                    "{} from {}:{} paths {} {}",
                    t.kind(),
                    place(devices, t.src_device()),
                    t.src_adapter().adapter(),
                    t.paths().len(),
                    if closed { "closed" } else { "open" }
                )
                .unwrap();
                for p in t.paths() {
                    writeln!(out, "{} hops {}", p.name(), p.hops().len()).unwrap();
                    for h in p.hops() {
                        let (e, at) = (h.entry(), place(devices, h.device()));
                        writeln!(out, "{at} {} {} {} {}", e.in_adapter(), e.in_hop(), e.out_adapter(), e.out_hop()).unwrap();
                    }
                }
            }
        }
    }
    format!("tunnels {count}\n{out}")
}

/// A process on a text, and what it prints.
fn process(program: &[String], input: &str) -> String {
    let made = Command::new(&program[0]).args(&program[1..]).stdin(Stdio::from(File::open(input).unwrap())).output().unwrap();
    assert!(made.status.success(), "{program:?} failed");
    String::from_utf8(made.stdout).unwrap()
}

/// The command in a variable of the environment.
fn command(name: &str) -> Vec<String> {
    std::env::var(name).unwrap().split(' ').map(String::from).collect()
}

fn time(rounds: usize, series: &str, size: usize, routers: &[Router]) {
    let text = text(routers);
    fs::write("text", &text).unwrap();
    let label = format!("{}{size}", series.replace(' ', ""));
    let files = dumps(&label, routers);
    make(&files);
    // The oracle makes its files in a folder of its own, and removes it.
    let fresh: Vec<Dump> = files.iter().map(|(path, contents)| (Path::new("fresh").join(path), contents.clone())).collect();
    let made_and_removed = || {
        let made = make(&fresh);
        fs::remove_dir_all("fresh").unwrap();
        made
    };
    let (ours, its) = (command("TUNNELS"), command("ORACLE"));
    let answer = process(&ours, "text");
    assert_eq!(answer, process(&its, "text"), "not what the oracle prints");
    assert_eq!(answer, printed(&loaded(&label, routers)), "not what the Rust finds");
    let buffer = RefCell::new(vec![0; ROOM]);
    let answered = || {
        let mut buffer = buffer.borrow_mut();
        unsafe { answer_text(text.as_ptr(), text.len(), buffer.as_mut_ptr(), buffer.len()) }
    };
    assert!(answer.starts_with(&format!("tunnels {}\n", answered())), "not what the program prints");
    row(
        rounds,
        "program",
        series,
        size,
        &[("bytes", text.len()), ("tunnels", answered())],
        &[
            ("ours", &|| process(&ours, "text").len()),
            ("rust", &|| process(&its, "text").len()),
            ("ours_inside", &answered),
            ("rust_inside", &|| printed(&loaded(&label, routers)).len()),
            ("files", &made_and_removed),
            ("json", &json),
        ],
    );
}

pub fn run(rounds: usize) {
    let nothing = [String::from("true")];
    fs::write("text", "").unwrap();
    row(rounds, "once", "starting a process that does nothing", 0, &[], &[("time", &|| process(&nothing, "text").len())]);
    for size in (10..=16).map(|n| 1 << n) {
        time(rounds, "a PCIe tunnel", size, &fitted(size, two).expect("a text that is short enough"));
    }
    for size in (11..=16).map(|n| 1 << n) {
        time(rounds, "PCIe and DMA tunnels", size, &fitted(size, three).expect("a text that is short enough"));
    }
    for routers in [1, 2, 4, 8] {
        time(rounds, "routers as the kernel prints", 8192 * routers, &kernel(routers));
    }
}
