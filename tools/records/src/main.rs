//! Command records from text and back, for tests and people.
//!
//!     records make < TEXT > RECORDS
//!     records show < RECORDS > TEXT
//!
//! A line of text is a mark, a key word and, for DF and CH, a value word; numbers are decimal, or
//! RAIL:PARAMETER for a key. What follows a `#` is left out, and so is an empty line.

use std::io::{Read, Write};
use std::process::ExitCode;

/// "Ten bytes: a mark of two ASCII letters in the order written here, a key word, a value word"
const LENGTH: usize = 10;

struct Record {
    mark: String,
    key: u32,
    value: u32,
}

fn takes_value(mark: &str) -> Result<bool, String> {
    match mark {
        "DF" | "CH" => Ok(true),
        "FD" | "RM" | "ST" => Ok(false),
        _ => Err(format!("unknown mark {mark}")),
    }
}

fn number(text: &str) -> Result<u32, String> {
    text.parse()
        .map_err(|_| format!("not a 32-bit number: {text}"))
}

/// A key may be written as rail and parameter: rail times 65,536 plus parameter.
fn key(text: &str) -> Result<u32, String> {
    let Some((rail, parameter)) = text.split_once(':') else {
        return number(text);
    };
    let (rail, parameter) = (number(rail)?, number(parameter)?);
    if rail > 65_535 || parameter > 65_535 {
        return Err(format!("rail or parameter above 65535: {text}"));
    }
    Ok(rail * 65_536 + parameter)
}

/// The record of a line, or none if the line says nothing.
fn read_line(line: &str) -> Result<Option<Record>, String> {
    let said = line.split('#').next().unwrap_or("");
    let parts: Vec<&str> = said.split_whitespace().collect();
    let Some((mark, words)) = parts.split_first() else {
        return Ok(None);
    };
    let value = match (takes_value(mark)?, words) {
        (true, [_, value]) => number(value)?,
        (false, [_]) => 0,
        _ => return Err(format!("wrong number of words: {}", said.trim())),
    };
    let key = key(words[0])?;
    let mark = mark.to_string();
    Ok(Some(Record { mark, key, value }))
}

fn bytes_of(record: &Record) -> Vec<u8> {
    let mut bytes = record.mark.as_bytes().to_vec();
    bytes.extend(record.key.to_le_bytes());
    bytes.extend(record.value.to_le_bytes());
    bytes
}

fn make(text: &str) -> Result<Vec<u8>, String> {
    let mut bytes = Vec::new();
    for (at, line) in text.lines().enumerate() {
        let record = read_line(line).map_err(|why| format!("line {}: {why}", at + 1))?;
        bytes.extend(record.iter().flat_map(bytes_of));
    }
    Ok(bytes)
}

fn word(bytes: &[u8]) -> u32 {
    u32::from_le_bytes([bytes[0], bytes[1], bytes[2], bytes[3]])
}

/// The line of a record; a spare word that is not zero has no text.
fn line_of(bytes: &[u8]) -> Result<String, String> {
    let mark = String::from_utf8_lossy(&bytes[..2]);
    let (key, value) = (word(&bytes[2..6]), word(&bytes[6..]));
    match (takes_value(&mark)?, value) {
        (true, _) => Ok(format!("{mark} {key} {value}\n")),
        (false, 0) => Ok(format!("{mark} {key}\n")),
        (false, _) => Err(format!("spare word {value}")),
    }
}

fn show(bytes: &[u8]) -> Result<Vec<u8>, String> {
    let mut text = String::new();
    for (at, record) in bytes.chunks(LENGTH).enumerate() {
        let place = at * LENGTH;
        if record.len() < LENGTH {
            return Err(format!("place {place}: cut short"));
        }
        text += &line_of(record).map_err(|why| format!("place {place}: {why}"))?;
    }
    Ok(text.into_bytes())
}

fn run() -> Result<(), String> {
    let way = std::env::args().nth(1).unwrap_or_default();
    let mut input = Vec::new();
    std::io::stdin()
        .read_to_end(&mut input)
        .map_err(|why| why.to_string())?;
    let output = match way.as_str() {
        "make" => make(&String::from_utf8(input).map_err(|why| why.to_string())?)?,
        "show" => show(&input)?,
        _ => return Err("usage: records make|show < INPUT > OUTPUT".to_string()),
    };
    std::io::stdout()
        .write_all(&output)
        .map_err(|why| why.to_string())
}

fn main() -> ExitCode {
    match run() {
        Ok(()) => ExitCode::SUCCESS,
        Err(why) => {
            eprintln!("{why}");
            ExitCode::FAILURE
        }
    }
}
