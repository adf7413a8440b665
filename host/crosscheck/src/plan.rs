//! Plans, read from records of 24 bytes.

use crate::fault::{self, fault, Fault};
use crate::stream::Stream;

pub const RECORD_BYTES: usize = 24;
pub const MOST_TASKS: usize = 8;

pub struct Task {
    pub priority: u8,
    pub best: u16,
    pub worst: u16,
    pub deadline: u16,
    pub stream: Stream,
}

/// The tasks of a plan's bytes, or the first refusal.
pub fn read_plan(bytes: &[u8]) -> Result<Vec<Task>, Fault> {
    let mut tasks = Vec::new();
    for record in bytes.chunks(RECORD_BYTES) {
        let number = tasks.len() as u32 + 1;
        let task = read_record(record).map_err(|(refusal, at)| fault(refusal, number, at))?;
        if tasks.len() == MOST_TASKS {
            return Err(fault(fault::PLAN_FULL, number, 0));
        }
        tasks.push(task);
    }
    if tasks.is_empty() {
        return Err(fault(fault::PLAN_EMPTY, 0, 0));
    }
    Ok(tasks)
}

/// One task, or a refusal's number and the offset of the field at fault.
fn read_record(record: &[u8]) -> Result<Task, (u8, u32)> {
    if record.len() != RECORD_BYTES {
        return Err((fault::RECORD_LENGTH, 0));
    }
    let two = |at: usize| u16::from_le_bytes([record[at], record[at + 1]]);
    let periodic = match record[0] {
        b'P' => true,
        b'S' => false,
        _ => return Err((fault::KIND, 0)),
    };

    let (priority, best, worst, deadline) = (record[1], two(2), two(4), two(6));
    let task_fields = [
        (1, priority >= 1),
        (2, best >= 1),
        (4, (best..=1_000).contains(&worst)),
        (6, (worst..=1_023).contains(&deadline)),
    ];
    first_wrong(&task_fields).map_or(Ok(()), |at| Err((fault::TASK_BOUNDS, at)))?;

    let (offset, tenth, twelfth) = (two(8), two(10), two(12));
    let stream_fields = if periodic {
        [
            (8, offset <= 4_000),
            (10, (1..=4_000).contains(&tenth)),
            (12, twelfth < tenth),
        ]
    } else {
        [
            (8, offset <= 4_000),
            (10, tenth >= 1),
            (12, (tenth..=4_000).contains(&twelfth)),
        ]
    };
    first_wrong(&stream_fields).map_or(Ok(()), |at| Err((fault::STREAM_BOUNDS, at)))?;

    if let Some(at) = (14..RECORD_BYTES).find(|&at| record[at] != 0) {
        return Err((fault::ZERO_BYTES, at as u32));
    }
    let stream = if periodic {
        Stream::Periodic {
            period: tenth,
            jitter: twelfth,
            offset,
        }
    } else {
        Stream::Sporadic {
            least: tenth,
            greatest: twelfth,
            offset,
        }
    };
    Ok(Task {
        priority,
        best,
        worst,
        deadline,
        stream,
    })
}

/// The offset of the first field that is not as it has to be.
fn first_wrong(fields: &[(u32, bool)]) -> Option<u32> {
    fields.iter().find(|&&(_, right)| !right).map(|&(at, _)| at)
}
