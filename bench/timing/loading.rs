//! Loading: the proved `acceptance::accepted` on survey words, and the Rust's own loading of the same devices from dumps.

use std::hint::black_box;
use std::path::PathBuf;

use tbtools::debugfs;

use crate::reading::Read;
use crate::row;
use crate::surveys::{Router, counted, dumps, entries, kernel, loaded, make, nameless, words};

#[link(name = "timing", kind = "static")]
unsafe extern "C" {
    fn accepted_under_ours(survey: *const u32, words: usize) -> usize;
}

const SIZES: [usize; 5] = [1024, 2048, 4096, 8192, 16384];

pub fn accepted(survey: &[u32]) -> usize {
    unsafe { accepted_under_ours(black_box(survey.as_ptr()), survey.len()) }
}

/// The part of the Rust's loading that reads the files to registers.
fn read(files: &[PathBuf]) -> usize {
    files.iter().map(|f| debugfs::read(f, None, None).unwrap().len()).sum()
}

/// The Rust's parsing of its descriptions, which it does once.
pub fn json() -> usize {
    let parsed: serde_json::Value = serde_json::from_str(black_box(include_dir::registers())).unwrap();
    black_box(&parsed).as_object().unwrap().len()
}

pub fn run(rounds: usize) {
    row(rounds, "once", "an empty survey, ours", 0, &[], &[("time", &|| accepted(&[]))]);
    row(rounds, "once", "parsing the JSON of our descriptions, the Rust", 0, &[], &[("time", &json)]);
    let cases: [(&str, &str, fn(usize) -> Vec<Router>); 3] = [
        ("a", "as the kernel prints", |words| kernel(words / 1024)),
        ("b", "valid path entries", entries),
        ("c", "nameless registers", nameless),
    ];
    for (name, series, survey) in cases {
        for size in SIZES {
            let routers = survey(size);
            let survey = words(&routers);
            assert_eq!(survey.len(), size);
            let label = format!("{name}{size}");
            let files = dumps(&label, &routers);
            make(&files);
            let answer = accepted(&survey);
            assert_eq!(answer, counted(&loaded(&label, &routers)), "not what the Rust loads");
            let paths: Vec<PathBuf> = files.iter().map(|(path, _)| path.clone()).collect();
            let read_by_us: Vec<Read> = files.iter().map(|(_, contents)| Read::of(contents.as_bytes())).collect();
            let ours_of_dumps = || read_by_us.iter().map(Read::ours).sum();
            assert_eq!(read(&paths), ours_of_dumps(), "not what the Rust reads");
            assert_eq!(4 * read(&paths), size - 8 * routers.len(), "not the survey's registers");
            row(
                rounds,
                "loading",
                series,
                size,
                &[("entries", answer % 65536)],
                &[
                    ("ours", &|| accepted(&survey)),
                    ("rust", &|| counted(&loaded(&label, &routers))),
                    ("ours_reading", &ours_of_dumps),
                    ("rust_reading", &|| read(&paths)),
                    ("making", &|| make(&files)),
                ],
            );
        }
    }
}
