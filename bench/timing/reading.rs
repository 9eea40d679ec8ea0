//! Lines and dumps: the proved `register::parse_debugfs` and `dump::read`, the Rust's `parse_debugfs` and `read`, and a plain loop in C.

use std::cell::RefCell;
use std::fmt::Write as _;
use std::fs::{self, File};
use std::hint::black_box;
use std::io::{BufRead, BufReader};
use std::path::{Path, PathBuf};

use tbtools::debugfs::{self, Register};

use crate::row;

#[link(name = "reading", kind = "static")]
unsafe extern "C" {
    fn line_record(line: *const u8, length: usize) -> u64;
    fn line_ids(line: *const u8, length: usize) -> u64;
    fn read_on(dump: *const u8, length: usize, scratch: *mut u32, scratch_room: usize, output: *mut u32, room: usize) -> usize;
}

#[link(name = "cut", kind = "static")]
unsafe extern "C" {
    fn cut(text: *const u8, length: usize, lines: *mut usize, bytes: *mut usize) -> usize;
}

const NONE: u64 = u64::MAX;

// ---- lines --------------------------------------------------------------------------------

fn record(line: &str) -> u64 {
    unsafe { line_record(line.as_ptr(), line.len()) }
}

/// A register of the Rust, as `line_record` gives it.
fn its_record(line: &str) -> u64 {
    Register::parse_debugfs(line).map_or(NONE, |r| (r.offset() as u64) << 48 | (r.relative_offset() as u64) << 32 | r.value() as u64)
}

/// The same of bytes, which its file reader makes a text of.
fn its_record_of_bytes(line: &str) -> u64 {
    std::str::from_utf8(line.as_bytes()).map_or(NONE, its_record)
}

fn its_ids(line: &str) -> u64 {
    Register::parse_debugfs(line).map_or(0, |r| (r.cap_id() as u64) << 16 | r.vs_cap_id() as u64)
}

fn sum(lines: &[String], of: fn(&str) -> u64) -> usize {
    lines.iter().fold(0, |sum: u64, line| sum.wrapping_add(of(line))) as usize
}

fn time_lines(rounds: usize, series: &str, size: usize, line: impl Fn(u32) -> String) {
    let lines: Vec<String> = (0..512).map(|i| line(i as u32 * 40503 % 65536)).collect();
    for l in &lines {
        let ours = (record(l), unsafe { line_ids(l.as_ptr(), l.len()) });
        assert_eq!(ours, (its_record(l), its_ids(l)), "{l}: not what the Rust reads");
    }
    let bytes = lines.iter().map(|l| l.len()).sum();
    row(
        rounds,
        "lines",
        series,
        size,
        &[("bytes", bytes)],
        &[
            ("ours", &|| sum(black_box(&lines), record)),
            ("rust", &|| sum(black_box(&lines), its_record)),
            ("rust_bytes", &|| sum(black_box(&lines), its_record_of_bytes)),
        ],
    );
}

fn five(i: u32) -> String {
    format!("0x{i:04x} {:4} 0x{:02x} 0x{:02x} 0x{:08x}", i % 64, i % 7, i % 5, i.wrapping_mul(2654435761))
}

fn four(i: u32) -> String {
    format!("0x{i:04x} {:4} 0x{:02x} 0x{:08x}", i % 2, i / 2 % 256, i.wrapping_mul(2654435761))
}

/// Too few tokens, or one that is no number: by turns the first, the second and the last.
fn bad(i: u32) -> String {
    match i % 4 {
        0 => format!("0x{i:04x} {:4} 0x{:02x}", i % 64, i % 7),
        1 => format!("0x{:05x} {:4} 0x00 0x00 0x00000000", 65536 + i, i % 64),
        2 => format!("0x{i:04x} {:4} 0x00 0x00 0x00000000", 65536 + i),
        _ => format!("0x{i:04x} {:4} 0x00 0x00 0x0000000g", i % 64),
    }
}

fn comment(_: u32) -> String {
    String::from("# offset relative_offset cap_id vs_cap_id value")
}

fn mixed(i: u32) -> String {
    [five, four, five, bad, five, four, comment, five][(i / 3) as usize % 8](i)
}

/// Five tokens and more that are ignored, up to so many bytes.
fn long(i: u32, length: usize) -> String {
    let mut line = five(i);
    while line.len() < length {
        line.push_str(" 0x12345678");
    }
    line.truncate(length);
    line
}

// ---- dumps --------------------------------------------------------------------------------

/// A dump, and room for any dump so long, a word a byte; or exactly as much as its records need.
pub struct Read<'a> {
    dump: &'a [u8],
    scratch: RefCell<Vec<u32>>,
    output: RefCell<Vec<u32>>,
}

impl<'a> Read<'a> {
    pub fn of(dump: &'a [u8]) -> Self {
        Self::with(dump, dump.len())
    }

    pub fn exactly(dump: &'a [u8]) -> Self {
        let records = |l: &&[u8]| Register::parse_debugfs(std::str::from_utf8(l).unwrap()).is_some();
        Self::with(dump, 4 * dump.split(|b| *b == b'\n').filter(records).count())
    }

    fn with(dump: &'a [u8], words: usize) -> Self {
        Read { dump, scratch: RefCell::new(vec![0; words]), output: RefCell::new(vec![0; words]) }
    }

    pub fn ours(&self) -> usize {
        let (mut scratch, mut output) = (self.scratch.borrow_mut(), self.output.borrow_mut());
        unsafe {
            read_on(black_box(self.dump.as_ptr()), self.dump.len(), scratch.as_mut_ptr(), scratch.len(), output.as_mut_ptr(), output.len())
        }
    }
}

/// The words of the Rust's registers.
fn its_words(registers: &[Register]) -> Vec<u32> {
    let ids = |r: &Register| (r.relative_offset() as u32) << 16 | r.cap_id() as u32;
    registers.iter().flat_map(|r| [5 << 28 | r.offset() as u32, ids(r), r.vs_cap_id() as u32, r.value()]).collect()
}

/// The file by itself, through a buffer as the Rust has it.
fn file(path: &Path) -> usize {
    let mut reader = BufReader::new(File::open(path).unwrap());
    let mut bytes = 0;
    loop {
        let part = black_box(reader.fill_buf().unwrap()).len();
        if part == 0 {
            return bytes;
        }
        bytes += part;
        reader.consume(part);
    }
}

fn cuts(dump: &[u8]) -> [usize; 3] {
    let [mut lines, mut bytes] = [0; 2];
    let tokens = unsafe { cut(black_box(dump.as_ptr()), dump.len(), &mut lines, &mut bytes) };
    [tokens, lines, bytes]
}

/// Lines of five tokens, 33 bytes each; their offsets are spread over all that there are.
fn dump(length: usize, order: fn(usize, usize) -> usize) -> String {
    let mut out = String::new();
    let count = length / 33;
    for i in 0..count {
        let offset = (order(i, count) * 65536 / count) as u32;
        writeln!(out, "{}", five(offset)).unwrap();
    }
    // What is left is a comment, so that the dump has the length.
    let left = length - out.len();
    if left > 0 {
        writeln!(out, "{:#<1$}", "", left - 1).unwrap();
    }
    out
}

fn time_dumps(rounds: usize, series: &str, exact: bool, order: fn(usize, usize) -> usize) {
    for length in (10..=22).map(|n| 1 << n) {
        let dump = dump(length, order);
        assert_eq!(dump.len(), length);
        let path = PathBuf::from("dump");
        fs::write(&path, &dump).unwrap();
        let read = if exact { Read::exactly(dump.as_bytes()) } else { Read::of(dump.as_bytes()) };
        let its = debugfs::read(&path, None, None).unwrap();
        assert_eq!(read.ours(), its.len(), "not so many records as in the Rust");
        assert!(read.output.borrow().starts_with(&its_words(&its)), "not the Rust's records");
        let tokens = dump.lines().map(|l| l.split_ascii_whitespace().count()).sum();
        assert_eq!(cuts(dump.as_bytes())[..2], [tokens, dump.lines().count()], "not the dump's tokens");
        row(
            rounds,
            "dumps",
            series,
            length,
            &[("bytes", length), ("records", its.len())],
            &[
                ("ours", &|| read.ours()),
                ("rust", &|| debugfs::read(&path, None, None).unwrap().len()),
                ("c", &|| cuts(dump.as_bytes())[2]),
                ("file", &|| file(&path)),
            ],
        );
    }
}

pub fn run(rounds: usize) {
    time_lines(rounds, "five tokens", 0, five);
    time_lines(rounds, "four tokens", 0, four);
    time_lines(rounds, "comments", 0, comment);
    time_lines(rounds, "bad lines", 0, bad);
    time_lines(rounds, "mixed", 0, mixed);
    for length in (6..=12).map(|n| 1 << n) {
        time_lines(rounds, "long lines", length, |i| long(i, length));
    }
    time_dumps(rounds, "offsets rise", false, |i, _| i);
    time_dumps(rounds, "offsets rise, exact room", true, |i, _| i);
    time_dumps(rounds, "offsets fall", false, |i, count| count - 1 - i);
    // An odd step that shares no factor with most counts.
    time_dumps(rounds, "offsets mixed", false, |i, count| i * 7919 % count);
}
