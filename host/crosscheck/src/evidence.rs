//! Evidence records of 16 bytes.

use crate::fault::{self, fault, Fault};

pub const RECORD_BYTES: usize = 16;

#[derive(Clone, Copy, PartialEq, Eq, Debug)]
pub enum Claim {
    Target(u32),
    Void,
    Late,
}

#[derive(Clone, Copy, PartialEq, Eq, Debug)]
pub enum Record {
    Grow { row: u32, way: u32 },
    Walk { row: u32, way: u32, claim: Claim },
}

pub fn read_record(bytes: &[u8]) -> Result<Record, Fault> {
    if bytes.len() != RECORD_BYTES {
        return Err(fault(fault::LENGTH, 0, 0));
    }
    let four =
        |at: usize| u32::from_le_bytes([bytes[at], bytes[at + 1], bytes[at + 2], bytes[at + 3]]);
    let (row, way, target) = (four(4), four(8), four(12));
    let zeros = bytes[2] == 0 && bytes[3] == 0;
    let walk = |claim| Record::Walk { row, way, claim };
    match (bytes[0], bytes[1], target) {
        (b'G', 0, 0) if zeros => Ok(Record::Grow { row, way }),
        (b'W', b'R', _) if zeros => Ok(walk(Claim::Target(target))),
        (b'W', b'V', 0) if zeros => Ok(walk(Claim::Void)),
        (b'W', b'L', 0) if zeros => Ok(walk(Claim::Late)),
        _ => Err(fault(fault::LETTERS, 0, 0)),
    }
}

pub fn write_record(record: Record) -> [u8; RECORD_BYTES] {
    let (kind, letter, row, way, target) = match record {
        Record::Grow { row, way } => (b'G', 0, row, way, 0),
        Record::Walk { row, way, claim } => match claim {
            Claim::Target(target) => (b'W', b'R', row, way, target),
            Claim::Void => (b'W', b'V', row, way, 0),
            Claim::Late => (b'W', b'L', row, way, 0),
        },
    };
    let mut bytes = [0; RECORD_BYTES];
    bytes[0] = kind;
    bytes[1] = letter;
    bytes[4..8].copy_from_slice(&row.to_le_bytes());
    bytes[8..12].copy_from_slice(&way.to_le_bytes());
    bytes[12..16].copy_from_slice(&target.to_le_bytes());
    bytes
}
