//! Reads each file of the folder `BPLIST_FILES`. If both crates accept a file, they must read the same value.

use bplist::Plist;
use compare_plist::same;
use std::{env, fs, io, thread};

/// The crate plist builds the tree of a value, so files with larger trees are skipped.
const MOST_NODES: u64 = 100_000;

/// The deepest of these files needs this much.
const STACK: usize = 1 << 30;

/// Returns true if both crates accept the file, after comparing its values.
fn is_compared(name: &str, file: &[u8]) -> bool {
    let ours = match Plist::open(file) {
        Ok(plist) => plist,
        Err(_) => return false,
    };
    if ours.nodes().unwrap() > MOST_NODES {
        return false;
    }
    let theirs = match plist::Value::from_reader(io::Cursor::new(file)) {
        Ok(value) => value,
        Err(_) => return false,
    };
    assert!(
        same(ours.root(), &theirs),
        "{name}: {:?} and {theirs:?}",
        ours.root()
    );
    true
}

fn compare() {
    let folder = env::var_os("BPLIST_FILES").expect("BPLIST_FILES names a folder of files");
    let mut compared = 0;
    for entry in fs::read_dir(folder).unwrap() {
        let path = entry.unwrap().path();
        if is_compared(&path.display().to_string(), &fs::read(&path).unwrap()) {
            compared += 1;
        }
    }
    println!("compared {compared} files");
    assert!(compared > 0);
}

#[test]
fn files() {
    thread::Builder::new()
        .stack_size(STACK)
        .spawn(compare)
        .unwrap()
        .join()
        .unwrap();
}
