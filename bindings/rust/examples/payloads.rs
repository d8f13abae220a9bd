//! Prints what the library says of payloads that nothing has checked: for each line of a file, `names HEX` or `usages HEX`, a line.
//!
//! usage: payloads FILE
mod payload;

use payload::{names, refusal, usages};
use std::error::Error;
use std::{env, fs};

fn from_hex(digits: &str) -> Result<Vec<u8>, Box<dyn Error>> {
    let octets = digits
        .as_bytes()
        .chunks(2)
        .map(|octet| Ok(u8::from_str_radix(std::str::from_utf8(octet)?, 16)?));
    octets.collect()
}

fn main() -> Result<(), Box<dyn Error>> {
    let file = env::args_os().nth(1).ok_or("usage: payloads FILE")?;
    for line in fs::read_to_string(file)?.lines() {
        let (kind, digits) = line
            .split_once(' ')
            .ok_or("a line is a word and hex digits")?;
        let read = if kind == "names" { names } else { usages };
        let words = read(&from_hex(digits)?).unwrap_or_else(|error| vec![refusal(error)]);
        let words: String = words.iter().map(|word| format!(" {word}")).collect();
        println!("{kind}:{words}");
    }
    Ok(())
}
