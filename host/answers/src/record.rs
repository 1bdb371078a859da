//! A case as it is stored; `crates/replay/README.md` has the format, which
//! `crates/sequences` shares.

/// Every NaN that is answered is stored with this pattern.
const NAN: u64 = 0x7ff8_0000_0000_0000;
/// What each byte of an output is before the call.
pub const FILL: u8 = 165;

pub struct Record {
    pub call: u16,
    /// The number answered; 0 for a leaf.
    pub number: u32,
    /// The lists that the call reads, then its outputs as it leaves them.
    pub lists: Vec<Vec<u8>>,
    /// How many of them are read.
    pub read: usize,
}

impl Record {
    /// The bytes of its outputs.
    pub fn outputs(&mut self) -> impl Iterator<Item = &mut u8> {
        self.lists[self.read..].iter_mut().flatten()
    }
}

pub fn u16_bytes(numbers: &[u16]) -> Vec<u8> {
    numbers.iter().flat_map(|n| n.to_le_bytes()).collect()
}

pub fn float_bytes(floats: &[f64]) -> Vec<u8> {
    floats.iter().flat_map(|v| v.to_le_bytes()).collect()
}

/// Floats that are answered.
pub fn answer_bytes(floats: &[f64]) -> Vec<u8> {
    let bits = |v: &f64| if v.is_nan() { NAN } else { v.to_bits() };
    floats.iter().flat_map(|v| bits(v).to_le_bytes()).collect()
}

/// A u16 of the format; everything that is stored is small enough.
fn put(out: &mut Vec<u8>, number: usize) -> Result<(), String> {
    let number = u16::try_from(number).map_err(|_| format!("{number} is no u16"))?;
    out.extend(number.to_le_bytes());
    Ok(())
}

/// The whole list.
pub fn stored(records: &[Record]) -> Result<Vec<u8>, String> {
    let mut out = Vec::new();
    put(&mut out, records.len())?;
    for record in records {
        put(&mut out, usize::from(record.call))?;
        put(&mut out, record.number as usize)?;
        for list in &record.lists {
            put(&mut out, list.len())?;
            out.extend(list);
        }
    }
    Ok(out)
}
