//! Lists that the programs must not be content with: answers that are damaged,
//! and lists that they cannot take.

use crate::record::{stored, Record};

/// No call has this number.
const UNKNOWN: u16 = u16::MAX;
/// Longer than any list that a program has room for.
const LONG: usize = 1 << 21;

/// Of each call's records the first is damaged in its number, the middle one in
/// the first byte of its outputs, the last one in their last byte.
fn differ(records: &mut [Record]) {
    let mut calls: Vec<u16> = records.iter().map(|record| record.call).collect();
    calls.sort_unstable();
    calls.dedup();
    for call in calls {
        let of_call = |record: &&mut Record| record.call == call;
        let mut own: Vec<&mut Record> = records.iter_mut().filter(of_call).collect();
        let (middle, last) = (own.len() / 2, own.len() - 1);
        own[0].number += 1;
        if let Some(byte) = own[middle].outputs().next() {
            *byte ^= 1;
        }
        if let Some(byte) = own[last].outputs().last() {
            *byte ^= 128;
        }
    }
}

/// The list of these records with damage of a kind.
pub fn damaged(mut records: Vec<Record>, kind: &str) -> Result<Vec<u8>, String> {
    match kind {
        "differ" => differ(&mut records),
        "unknown" => records[0].call = UNKNOWN,
        "long" => return Ok(vec![0; LONG]),
        _ => (),
    }
    let mut bytes = stored(&records)?;
    match kind {
        "short" => bytes.truncate(bytes.len() - 1),
        "behind" => bytes.push(0),
        "differ" | "unknown" => (),
        _ => return Err(format!("{kind} is no kind of damage")),
    }
    Ok(bytes)
}
