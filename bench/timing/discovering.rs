//! Discovery on a loaded survey: the proved `discovery::discover_in`, and the Rust's `Tunnel::discover` on the same devices.

use std::cell::RefCell;
use std::hint::black_box;

use tbtools::Device;
use tbtools::tunnel::Tunnel;

use crate::loading::accepted;
use crate::surveys::{Adapter, DP_IN, DP_OUT, HOST, PCIE_DOWN, PCIE_UP, Paths, Register, Router, USB3_DOWN, USB3_UP};
use crate::surveys::{basic, dumps, lane, leads, loaded, make, protocol, router, words, xdomain};
use crate::{Many, row_of_many};

#[link(name = "discovering", kind = "static")]
unsafe extern "C" {
    fn discover_on(
        survey: *const u32,
        words: usize,
        place: usize,
        adapter: u8,
        output: *mut u32,
        room: usize,
        times: usize,
    ) -> usize;
}

/// As many words as the program has for an answer.
const ROOM: usize = 16384;

// ---- surveys ------------------------------------------------------------------------------

/// A host: lane 1, and a host interface as adapter 2; so many xdomains stand behind the lane.
fn host(lane: Adapter, rings: u32, dump: Vec<Register>, xdomains: usize) -> Vec<Router> {
    let interface = Adapter { registers: basic(6, HOST, rings), paths: Paths::Read(dump) };
    let top = router(0, 2, 63, vec![lane, interface]);
    std::iter::once(top).chain((0..xdomains).map(|_| xdomain(1))).collect()
}

/// As many rings as the lane has HopIDs; those in use lead out and in, by HopID ring + 7.
fn rings(rings: u32, used: &[u32], xdomains: usize) -> Vec<Router> {
    let back = used.iter().map(|r| leads(7 + r, 2, *r)).collect();
    let out = used.iter().map(|r| leads(*r, 1, 7 + r)).collect();
    host(lane(7 + rings, back), rings, out, xdomains)
}

/// 40 rings, four in use, and a lane with so many entries, all to the host interface; four, spread evenly, to the rings in use.
fn crowded(entries: u32) -> Vec<Router> {
    let (step, used) = (entries / 4, [1, 2, 3, 40]);
    let to = |i: u32| if i % step == step / 2 { used[(i / step) as usize] } else { 1000 };
    let dump = (0..entries).map(|i| leads(8 + i, 2, to(i))).collect();
    host(lane(7 + entries, dump), 40, used.map(|r| leads(r, 1, 8 + r)).to_vec(), 1)
}

/// A thousand rings, none in use, a lane with so many entries that lead nowhere near them, and no xdomain: nothing is to be searched.
fn unsearched(entries: u32) -> Vec<Router> {
    host(lane(7 + entries, (0..entries).map(|i| leads(8 + i, 2, 2000)).collect()), 1000, Vec::new(), 0)
}

/// A tunnel from adapter 2 of a host to adapter 2 of a router so deep, through lanes 1 and 2 of those between.
/// Each pair is a path's HopID at its adapters and between them: those down first, then those up.
fn deep(depth: u32, kinds: [u32; 2], down: &[(u32, u32)], up: &[(u32, u32)]) -> Vec<Router> {
    let starts = |paths: &[(u32, u32)]| paths.iter().map(|(at, on)| leads(*at, 1, *on)).collect();
    let ends = |paths: &[(u32, u32)]| paths.iter().map(|(at, on)| leads(*on, 2, *at)).collect();
    let through = |paths: &[(u32, u32)], out| paths.iter().map(|(_, on)| leads(*on, out, *on)).collect();
    let mut all = vec![router(0, 2, 63, vec![lane(20, ends(up)), protocol(kinds[0], starts(down))])];
    let mut route = 1;
    for level in 1..depth {
        all.push(router(route, 2, 1, vec![lane(20, through(down, 2)), lane(20, through(up, 1))]));
        route |= 2 << (8 * level);
    }
    all.push(router(route, 2, 1, vec![lane(20, ends(down)), protocol(kinds[1], starts(up))]));
    all
}

// ---- both sides ---------------------------------------------------------------------------

/// The tunnels from adapter 2 of the first device, on both sides.
struct Source {
    survey: Vec<u32>,
    devices: Vec<Device>,
    output: RefCell<Vec<u32>>,
}

impl Source {
    fn new(name: &str, routers: &[Router]) -> Self {
        make(&dumps(name, routers));
        let output = RefCell::new(vec![0; ROOM]);
        let source = Source { survey: words(routers), devices: loaded(name, routers), output };
        assert_eq!(source.shape(), source.expected(), "not what the Rust finds");
        source
    }

    /// How many words, discovered so many times.
    fn ours(&self, times: usize) -> usize {
        let mut output = self.output.borrow_mut();
        let (survey, place, adapter) = (&self.survey, black_box(0), black_box(2));
        unsafe { discover_on(survey.as_ptr(), survey.len(), place, adapter, output.as_mut_ptr(), output.len(), times) }
    }

    fn theirs(&self, times: usize) -> usize {
        (0..times).map(|_| black_box(self.its_tunnels()).len()).max().unwrap_or(0)
    }

    fn its_tunnels(&self) -> Vec<Tunnel<'_>> {
        let d = &self.devices[0];
        Tunnel::discover(d, d.adapter(black_box(2)).unwrap(), &self.devices).expect("no list")
    }

    /// The number of hops of each path, tunnel by tunnel, by the words.
    fn shape(&self) -> Vec<Vec<usize>> {
        let count = self.ours(1);
        let output = self.output.borrow();
        let (mut at, mut found) = (0, Vec::new());
        while at < count {
            let paths = output[at] >> 8 & 255;
            at += 1;
            let mut hops = Vec::new();
            for _ in 0..paths {
                hops.push(output[at] as usize & 65535);
                at += 1 + 2 * hops.last().unwrap();
            }
            found.push(hops);
        }
        assert_eq!(at, count, "not so many words, or refused");
        found
    }

    fn expected(&self) -> Vec<Vec<usize>> {
        self.its_tunnels().iter().map(|t| t.paths().iter().map(|p| p.hops().len()).collect()).collect()
    }
}

// ---- timing -------------------------------------------------------------------------------

pub fn run(rounds: usize) {
    let time = |table: &str, series: &str, size: u32, routers: &[Router]| {
        let source = Source::new("f", routers);
        let numbers = [
            ("devices", source.devices.len()),
            ("entries", accepted(&source.survey) & 65535),
            ("tunnels", source.shape().len()),
            ("words", source.ours(1)),
        ];
        let calls: [Many; 2] = [("ours", &|times| source.ours(times)), ("rust", &|times| source.theirs(times))];
        row_of_many(rounds, table, series, size as usize, &numbers, &calls);
    };
    for n in (4..=10).map(|n| 1 << n) {
        time("sparse", "no entries", n, &rings(n, &[], 1));
    }
    for n in (4..=10).map(|n| 1 << n) {
        time("sparse", "four rings in use", n, &rings(n, &[1, n / 3, n / 2, n], 1));
    }
    for n in (4..=10).map(|n| 1 << n) {
        time("sparse", "no entries, 100 xdomains", n, &rings(n, &[], 100));
    }
    for n in (4..=10).map(|n| 1 << n) {
        time("dense", "all rings in use", n, &rings(n, &(1..=n).collect::<Vec<_>>(), 1));
    }
    for n in (4..=10).map(|n| 1 << n) {
        time("dense", "40 rings, four in use, entries at all HopIDs", n, &crowded(n));
    }
    for n in (4..=10).map(|n| 1 << n) {
        time("dense", "1,000 rings, none in use, no xdomain, entries at all HopIDs", n, &unsearched(n));
    }
    for depth in 1..=7 {
        time("deep", "PCIe", depth, &deep(depth, [PCIE_DOWN, PCIE_UP], &[(8, 9)], &[(8, 10)]));
    }
    for depth in 1..=7 {
        time("deep", "USB 3", depth, &deep(depth, [USB3_DOWN, USB3_UP], &[(8, 9)], &[(8, 10)]));
    }
    for depth in 1..=7 {
        time("deep", "DisplayPort", depth, &deep(depth, [DP_IN, DP_OUT], &[(8, 9), (9, 11)], &[(8, 10)]));
    }
}
