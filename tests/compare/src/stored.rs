//! The vectors that scripts of tests/ store: records in `data/vectors`, and in `stdout` the answers to them, one after the other.

use crate::library::{Left, Refusal, GUARD};
use std::fs;

/// The records: a length of 32 bits, little-endian, and as many bytes.
fn records(bytes: &[u8]) -> Vec<Vec<u8>> {
    let mut rest = bytes;
    let mut records = Vec::new();
    while let [a, b, c, d, behind @ ..] = rest {
        let (record, next) = behind.split_at(u32::from_le_bytes([*a, *b, *c, *d]) as usize);
        records.push(record.to_vec());
        rest = next;
    }
    records
}

/// Holds the answers to the vectors of an operation, each so many records, to those that are stored.
pub fn hold(
    operation: &str,
    each: usize,
    answer: impl Fn(&[Vec<u8>]) -> Result<String, String>,
) -> Result<(), String> {
    let folder = format!("{}/../{operation}", env!("CARGO_MANIFEST_DIR"));
    let read = |name: &str| fs::read(format!("{folder}/{name}")).map_err(|why| why.to_string());
    let records = records(&read("data/vectors")?);
    let stored = String::from_utf8(read("stdout")?).map_err(|why| why.to_string())?;
    let mut rest = stored.as_str();
    for (number, vector) in records.chunks(each).enumerate() {
        let at = |why| format!("vector {number} of {operation}: {why}");
        let text = answer(vector).map_err(at)?;
        rest = rest.strip_prefix(&text).ok_or_else(|| at(text))?;
    }
    match rest.is_empty() && !records.is_empty() {
        true => println!("vectors of {operation}: {}", records.len() / each),
        false => return Err(format!("more answers than vectors of {operation}: {rest}")),
    }
    Ok(())
}

/// The number of 64 bits at a place of a record.
pub fn number(record: &[u8], at: usize) -> u64 {
    u64::from_le_bytes(record[at..at + 8].try_into().expect("8 bytes"))
}

/// What is written into an area, so many bytes at its start; those after them have to be as they were.
pub fn written(area: &[u8], length: usize) -> Result<&[u8], String> {
    let (written, rest) = area.split_at(length);
    match rest.iter().all(|&byte| byte == GUARD) {
        true => Ok(written),
        false => Err("bytes after the output are written".to_string()),
    }
}

/// The line of a refusal.
pub fn refused(refusal: Refusal) -> String {
    format!("refused {} {}\n", refusal.number, refusal.place)
}

/// The line of an answer that fills an area: the bytes written in hexadecimal digits, or the refusal.
pub fn filled((out, answer): Left) -> Result<String, String> {
    let written = written(&out, answer.unwrap_or(0))?;
    let digits: String = written.iter().map(|byte| format!("{byte:02x}")).collect();
    Ok(answer.map_or_else(refused, |_| digits + "\n"))
}
