//! Drawn plans: mostly small and valid, some that have to be refused.

use crate::plan::{MOST_TASKS, RECORD_BYTES};
use crate::random::Random;

/// How large the numbers of a plan are.
#[derive(Clone, Copy)]
enum Style {
    /// Light load, so that the table is often complete.
    Calm,
    /// Light load where every arrival can be late, so that states have many ways.
    Loose,
    /// Small numbers of any kind.
    Tight,
    /// Long jobs, so that response times are long.
    Long,
    /// Numbers from all that the bounds allow.
    Wide,
}

/// The offsets of the fields of two bytes.
const FIELDS: [usize; 6] = [2, 4, 6, 8, 10, 12];

/// Numbers at the bounds of each field and beside them.
const EDGES: [[u16; 6]; 6] = [
    [0, 1, 2, 1_000, 1_001, 65_535],
    [0, 1, 999, 1_000, 1_001, 65_535],
    [0, 1, 1_022, 1_023, 1_024, 65_535],
    [0, 1, 3_999, 4_000, 4_001, 65_535],
    [0, 1, 3_999, 4_000, 4_001, 65_535],
    [0, 1, 3_999, 4_000, 4_001, 65_535],
];

pub fn draw_plan(random: &mut Random) -> Vec<u8> {
    let mut plan = valid_plan(random);
    match random.below(16) {
        0 => spoil_bytes(&mut plan, random),
        1 => spoil_length(&mut plan, random),
        2 => overfill(&mut plan, random),
        3 | 4 => spoil_field(&mut plan, random),
        _ => {}
    }
    plan
}

fn valid_plan(random: &mut Random) -> Vec<u8> {
    let most = *random.pick(&[2, 3, 4, MOST_TASKS]);
    let tasks = 1 + random.below(most);
    let style = *random.pick(&[
        Style::Calm,
        Style::Calm,
        Style::Calm,
        Style::Loose,
        Style::Tight,
        Style::Tight,
        Style::Long,
        Style::Wide,
    ]);
    let beat = random.within(tasks as u16..=2 * tasks as u16 + 3);
    (0..tasks)
        .flat_map(|_| valid_record(style, beat, random))
        .collect()
}

/// A record within its bounds. The tasks of a calm plan share a beat, which their periods are multiples of.
fn valid_record(style: Style, beat: u16, random: &mut Random) -> [u8; RECORD_BYTES] {
    let periodic = !random.one_in(3);
    let (best, worst, deadline, offset, tenth, slack);
    match style {
        Style::Calm => {
            best = 1;
            worst = if random.one_in(4) { 2 } else { 1 };
            deadline = beat.max(worst) + random.within(0..=beat);
            offset = if random.one_in(3) {
                random.within(0..=4)
            } else {
                0
            };
            tenth = beat * random.within(1..=2);
            slack = if random.one_in(4) { 1 } else { 0 };
        }
        Style::Loose => {
            best = 1;
            worst = 1;
            deadline = beat;
            offset = 0;
            tenth = beat + 2;
            slack = 1;
        }
        Style::Tight => {
            best = random.within(1..=3);
            worst = best + random.within(0..=2);
            deadline = worst + random.within(0..=6);
            offset = random.within(0..=3);
            tenth = random.within(1..=9);
            slack = random.within(0..=3);
        }
        Style::Long => {
            best = random.within(8..=40);
            worst = best + random.within(0..=1);
            deadline = random.within(worst..=1_023);
            offset = random.within(0..=2);
            tenth = random.within(60..=180);
            slack = 0;
        }
        Style::Wide => {
            best = random.within(1..=1_000);
            worst = random.within(best..=1_000);
            deadline = random.within(worst..=1_023);
            offset = random.within(0..=4_000);
            tenth = random.within(1..=4_000);
            slack = random.within(0..=4_000);
        }
    }
    let twelfth = if periodic {
        slack.min(tenth - 1)
    } else {
        (tenth + slack).min(4_000)
    };
    let mut record = [0; RECORD_BYTES];
    record[0] = if periodic { b'P' } else { b'S' };
    let highest = *random.pick(&[4, 255]);
    record[1] = random.within(1..=highest) as u8;
    for (at, number) in FIELDS
        .into_iter()
        .zip([best, worst, deadline, offset, tenth, twelfth])
    {
        put_two(&mut record, at, number);
    }
    record
}

fn put_two(bytes: &mut [u8], at: usize, number: u16) {
    bytes[at..at + 2].copy_from_slice(&number.to_le_bytes());
}

/// The offset of some record of a plan that has whole records.
fn some_record(plan: &[u8], random: &mut Random) -> usize {
    random.below(plan.len() / RECORD_BYTES) * RECORD_BYTES
}

/// Puts one to three random bytes anywhere, or random bytes everywhere.
fn spoil_bytes(plan: &mut [u8], random: &mut Random) {
    if random.one_in(8) {
        plan.fill_with(|| random.byte());
        return;
    }
    for _ in 0..=random.below(3) {
        let at = random.below(plan.len());
        plan[at] = random.byte();
    }
}

/// Leaves no record, cuts the last one, or adds a short one.
fn spoil_length(plan: &mut Vec<u8>, random: &mut Random) {
    let odd = 1 + random.below(RECORD_BYTES - 1);
    match random.below(4) {
        0 => plan.clear(),
        1 => plan.extend(random.bytes(odd)),
        _ => plan.truncate(plan.len() - odd),
    }
}

/// Puts a number that may be out of bounds into one to two fields of one record.
fn spoil_field(plan: &mut [u8], random: &mut Random) {
    let record = some_record(plan, random);
    for _ in 0..=random.below(2) {
        match random.below(9) {
            0 => plan[record] = *random.pick(b"PSps\0Q"),
            1 => plan[record + 1] = 0,
            2 => plan[record + 14 + random.below(10)] = 1 + random.byte() % 255,
            _ => {
                let field = random.below(FIELDS.len());
                put_two(plan, record + FIELDS[field], *random.pick(&EDGES[field]));
            }
        }
    }
}

/// Comes to nine records and more, of which the ninth may be wrong as well.
fn overfill(plan: &mut Vec<u8>, random: &mut Random) {
    while plan.len() <= MOST_TASKS * RECORD_BYTES {
        plan.extend(valid_record(Style::Tight, 1, random));
    }
    let ninth = &mut plan[MOST_TASKS * RECORD_BYTES..];
    match random.below(4) {
        0 => spoil_field(ninth, random),
        1 => plan.truncate(MOST_TASKS * RECORD_BYTES + 1 + random.below(RECORD_BYTES - 1)),
        _ => {}
    }
    if random.one_in(3) {
        let length = random.below(100);
        plan.extend(random.bytes(length));
    }
}
