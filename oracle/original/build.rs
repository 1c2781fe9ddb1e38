//! Makes an opened copy of the original below target/oracle/src: private fields and functions that the comparison looks at become `pub`.
//!
//! Nothing else is changed, and each replacement has to hit exactly once, or the build stops.
use std::fs;
use std::path::Path;

/// A file of the original, and the text in it that `pub` is put before.
const OPENED: &[(&str, &str)] = &[
    ("greenwald_khanna.rs", "summary: Vec<Tuple<T>>,"),
    ("greenwald_khanna.rs", "fn band(delta: usize, p: usize)"),
    ("ckms/mod.rs", "mod entry;"),
    ("ckms/mod.rs", "mod store;"),
    ("ckms/mod.rs", "insert_threshold: usize,"),
    ("ckms/mod.rs", "inserts: usize,"),
    ("ckms/mod.rs", "samples: Store<T>,"),
    ("ckms/store.rs", "g_sum: u32,"),
    ("ckms/store.rs", "inner_cap: usize, // maximum"),
    ("ckms/store.rs", "n: usize,   // total"),
];

const FILES: &[&str] = &["greenwald_khanna.rs", "histogram.rs", "ckms/mod.rs", "ckms/entry.rs", "ckms/store.rs"];

fn main() {
    let from = Path::new("../quantiles-0.7.1/src");
    let to = Path::new("../../target/oracle/src");
    fs::create_dir_all(to.join("ckms")).expect("target/oracle/src can be made");
    for file in FILES {
        let path = from.join(file);
        let mut text = fs::read_to_string(&path).expect("the original stands beside this crate");
        for &(_, private) in OPENED.iter().filter(|opened| opened.0 == *file) {
            // Items and fields begin a line, so a line's start and its indentation come before them.
            let hits: Vec<usize> =
                text.match_indices(private).map(|hit| hit.0).filter(|&at| text[..at].trim_end_matches(' ').ends_with('\n')).collect();
            assert_eq!(hits.len(), 1, "{}: a line that begins with {:?}", file, private);
            text.insert_str(hits[0], "pub ");
        }
        // A copy that is already right keeps its time, so that cargo does not build it again.
        let copy = to.join(file);
        if fs::read_to_string(&copy).ok().as_ref() != Some(&text) {
            fs::write(&copy, text).expect("target/oracle/src can be written");
        }
        println!("cargo:rerun-if-changed={}", path.display());
        println!("cargo:rerun-if-changed={}", copy.display());
    }
    println!("cargo:rerun-if-changed=build.rs");
}
