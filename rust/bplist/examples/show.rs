//! show FILE [PATH]: prints the value at a path (a JSON Pointer), or why there is none.

use std::error::Error;
use std::{env, fs};

use bplist::{Plist, Value};

fn main() -> Result<(), Box<dyn Error>> {
    let words: Vec<String> = env::args().skip(1).collect();
    let (name, path) = match words.as_slice() {
        [name] => (name, ""),
        [name, path] => (name, path.as_str()),
        _ => return Err("usage: show FILE [PATH]".into()),
    };
    let file = fs::read(name)?;
    let plist = Plist::open(&file).map_err(|error| format!("{name}: {error}"))?;
    match plist.at(path)? {
        Value::Int(number) => println!("int {number}"),
        Value::Text(text) => println!("text {text}"),
        Value::Array(array) => println!("array of {}", array.len()),
        Value::Dict(dict) => println!("dict of {}", dict.len()),
        other => println!("{other:?}"),
    }
    Ok(())
}
