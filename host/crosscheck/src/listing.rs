//! The listing of a plan and of evidence, by the rules.

use crate::evidence;
use crate::fault::Fault;
use crate::plan::read_plan;
use crate::table::{Stage, Table};
use std::fmt::{Display, Formatter};

/// How the work ended.
#[derive(Clone, Copy, PartialEq, Eq, PartialOrd, Ord, Debug)]
pub enum Ending {
    Complete,
    LateOverlap,
    LateDeadline,
    Walking,
    /// The part that was refused, P, E or S, and the refusal's number.
    Refused(char, u8),
}

impl Display for Ending {
    fn fmt(&self, f: &mut Formatter<'_>) -> std::fmt::Result {
        match self {
            Ending::Complete => write!(f, "complete"),
            Ending::LateOverlap => write!(f, "late O"),
            Ending::LateDeadline => write!(f, "late D"),
            Ending::Walking => write!(f, "walking"),
            Ending::Refused(part, number) => write!(f, "refused {part} {number}"),
        }
    }
}

pub struct Listing {
    pub text: String,
    pub tasks: usize,
    pub rows: usize,
    /// The ways walked by steps, after all evidence was taken.
    pub steps: u64,
    /// The stage of the table, and the refusal, as far as there are any.
    pub endings: Vec<Ending>,
}

/// The refusal that ended the work, and the part that was refused.
struct Halt {
    part: char,
    fault: Fault,
}

impl Halt {
    fn line(&self) -> String {
        let Fault { number, places } = self.fault;
        format!("refused {} {number} {} {}\n", self.part, places.0, places.1)
    }

    fn ending(&self) -> Ending {
        Ending::Refused(self.part, self.fault.number)
    }
}

pub fn listing(plan: &[u8], evidence: &[u8]) -> Listing {
    let tasks = match read_plan(plan) {
        Ok(tasks) => tasks,
        Err(fault) => {
            let halt = Halt { part: 'P', fault };
            return Listing {
                text: halt.line(),
                tasks: 0,
                rows: 0,
                steps: 0,
                endings: vec![halt.ending()],
            };
        }
    };
    let mut table = Table::open(&tasks);
    let taken = take_all(&mut table, evidence);
    let walked_by_evidence = table.walked;
    let halt = taken.and_then(|()| step_out(&mut table)).err();
    Listing {
        text: table_lines(&table) + &halt.as_ref().map_or(String::new(), Halt::line),
        tasks: tasks.len(),
        rows: table.held(),
        steps: table.walked - walked_by_evidence,
        endings: std::iter::once(stage_ending(table.stage))
            .chain(halt.as_ref().map(Halt::ending))
            .collect(),
    }
}

/// Takes all evidence; the first refusal ends this.
fn take_all(table: &mut Table, evidence: &[u8]) -> Result<(), Halt> {
    for record in evidence.chunks(evidence::RECORD_BYTES) {
        table
            .take(record)
            .map_err(|fault| Halt { part: 'E', fault })?;
    }
    Ok(())
}

/// Steps until the table is not walking; the first refusal ends this.
fn step_out(table: &mut Table) -> Result<(), Halt> {
    while table.is_walking() {
        table.step().map_err(|fault| Halt { part: 'S', fault })?;
    }
    Ok(())
}

fn table_lines(table: &Table) -> String {
    let mut text = String::new();
    for (task, times) in (1..).zip(&table.times) {
        text += &match times {
            Some(times) => format!("{task} {} {}\n", times.least, times.greatest),
            None => format!("{task} - -\n"),
        };
    }
    let counts = format!("{} {}", table.held(), table.walked);
    text += &match table.stage {
        Stage::Walking => format!("walking {counts}\n"),
        Stage::Complete => format!("complete {counts}\n"),
        Stage::Late(late) => format!("late {counts} {} {}\n", late.task + 1, late.cause),
    };
    text
}

fn stage_ending(stage: Stage) -> Ending {
    match stage {
        Stage::Walking => Ending::Walking,
        Stage::Complete => Ending::Complete,
        Stage::Late(late) if late.cause == 'O' => Ending::LateOverlap,
        Stage::Late(_) => Ending::LateDeadline,
    }
}
