//! outline FILE: prints the whole value, one line for each member, indented by its depth.

use std::error::Error;
use std::{env, fs};

use bplist::{Plist, Value};

/// A small file may hold a very large tree, so its size is looked at before the walk.
const MOST_NODES: u64 = 100_000;

fn print(label: &str, value: Value<'_, '_>, depth: usize) {
    let indent = "  ".repeat(depth);
    match value {
        Value::Dict(dict) => {
            println!("{indent}{label}dict of {}", dict.len());
            for (key, member) in dict {
                print(&format!("{key}: "), member, depth + 1);
            }
        }
        Value::Array(array) => {
            println!("{indent}{label}array of {}", array.len());
            for member in array {
                print("", member, depth + 1);
            }
        }
        Value::Text(text) => println!("{indent}{label}{text}"),
        leaf => println!("{indent}{label}{leaf:?}"),
    }
}

fn main() -> Result<(), Box<dyn Error>> {
    let name = env::args().nth(1).ok_or("usage: outline FILE")?;
    let file = fs::read(&name)?;
    let plist = Plist::open(&file).map_err(|error| format!("{name}: {error}"))?;
    if plist.nodes()? > MOST_NODES || plist.summary().height > 1000 {
        return Err(format!("{name}: the tree is too large").into());
    }
    print("", plist.root(), 0);
    Ok(())
}
