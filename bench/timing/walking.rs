//! Walks on a loaded survey: the proved `walk::tally`, and the Rust's `discover_path` on the same devices.

use std::hint::black_box;

use tbtools::tunnel::{self, Tunnel};
use tbtools::{Device, debugfs};

use crate::loading::accepted;
use crate::{Many, row_of_many};
use crate::surveys::{Router, dumps, entries, kernel, loaded, make, steps, words};

#[link(name = "discovering", kind = "static")]
unsafe extern "C" {
    fn walk_on(survey: *const u32, words: usize, place: usize, adapter: u8, hop: u16) -> u64;
    fn walks_on(survey: *const u32, words: usize, place: usize, adapter: u8, hop: u16, times: usize) -> usize;
}

// ---- both sides ---------------------------------------------------------------------------

/// One start, on both sides.
struct Start {
    survey: Vec<u32>,
    devices: Vec<Device>,
    place: usize,
    adapter: u8,
    hop: u16,
}

impl Start {
    fn new(name: &str, routers: &[Router], place: usize, adapter: u8, hop: u16) -> Self {
        make(&dumps(name, routers));
        let start = Start { survey: words(routers), devices: loaded(name, routers), place, adapter, hop };
        assert_eq!(start.ours(), start.expected(), "not where the Rust comes");
        assert_eq!(start.most(1) as u64, start.ours() >> 48, "not so many hops");
        start
    }

    fn ours(&self) -> u64 {
        unsafe { walk_on(self.survey.as_ptr(), self.survey.len(), self.place, self.adapter, self.hop) }
    }

    /// The most hops of so many walks. The start is handed over once for all of them.
    fn most(&self, times: usize) -> usize {
        let (place, adapter, hop) = (black_box(self.place), black_box(self.adapter), black_box(self.hop));
        unsafe { walks_on(self.survey.as_ptr(), self.survey.len(), place, adapter, hop, times) }
    }

    /// The Rust's adapter, which its walk is given.
    fn its_adapter(&self) -> &debugfs::Adapter {
        self.devices[self.place].adapter(self.adapter).unwrap()
    }

    fn its_path<'a>(&'a self, device: &'a Device, adapter: &'a debugfs::Adapter, hop: u16) -> Option<tunnel::Path<'a>> {
        Tunnel::discover_path("walk", device, adapter, hop, &self.devices)
    }

    /// As `most`.
    fn its_most(&self, adapter: &debugfs::Adapter, times: usize) -> usize {
        let (device, adapter, hop) = (black_box(&self.devices[self.place]), black_box(adapter), black_box(self.hop));
        (0..times).map(|_| self.its_path(device, adapter, hop).map_or(0, |p| p.hops().len())).max().unwrap_or(0)
    }

    /// The Rust's answer, as `walk_on` gives it.
    fn expected(&self) -> u64 {
        self.its_path(&self.devices[self.place], self.its_adapter(), self.hop).map_or(0, |p| {
            let (last, e) = (p.dst_device(), p.hops().last().unwrap().entry());
            let at = self.devices.iter().position(|d| std::ptr::eq(d, last)).unwrap() as u64;
            (p.hops().len() as u64) << 48 | at << 32 | (e.out_adapter() as u64) << 24 | e.out_hop() as u64
        })
    }
}

// ---- timing -------------------------------------------------------------------------------

pub fn run(rounds: usize) {
    let time = |series: &str, size: usize, start: &Start| {
        let adapter = start.its_adapter();
        let there = adapter.paths().map_or(0, |p| p.len());
        let numbers = [("hops", (start.ours() >> 48) as usize), ("entries", accepted(&start.survey) & 65535), ("there", there)];
        let calls: [Many; 2] = [("ours", &|times| start.most(times)), ("rust", &|times| start.its_most(adapter, times))];
        row_of_many(rounds, "walks", series, size, &numbers, &calls);
    };
    let none: [(&str, Vec<Router>, u8, u16); 4] = [
        ("no hop: two routers", steps(4), 1, 100),
        ("no hop: a lane with HopIDs in use", kernel(16), 1, 9),
        ("no hop: a lane without a path dump", kernel(16), 2, 8),
        ("no hop: a long path dump", entries(16384), 1, 7),
    ];
    for (i, (series, routers, adapter, hop)) in none.iter().enumerate() {
        let start = Start::new(&format!("d{i}"), routers, 0, *adapter, *hop);
        assert_eq!(start.ours(), 0, "a path");
        time(series, 0, &start);
    }
    for hops in (0..=11).map(|n| 1 << n) {
        let start = Start::new(&format!("e{hops}"), &steps(hops), 0, 1, 8);
        assert_eq!(start.ours() >> 48, hops as u64, "another number of hops");
        time("to and fro", hops as usize, &start);
    }
}
