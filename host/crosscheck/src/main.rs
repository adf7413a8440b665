//! crosscheck COUNT SEED
//!
//! Compares the text of the exported call, byte by byte, with that of a second implementation of the rules, on drawn
//! plans and evidence.

mod draw_evidence;
mod draw_plan;
mod evidence;
mod fault;
mod library;
mod listing;
mod plan;
mod random;
mod slot;
mod stream;
mod table;
mod tally;

use draw_evidence::draw_evidence;
use draw_plan::draw_plan;
use library::EmptyAs;
use listing::listing;
use random::Random;
use std::process::ExitCode;
use tally::Tally;

/// The least length of a place, and the answer for a shorter one.
const PLACE_BYTES: usize = 512;
const PLACE_SHORT: i32 = -9;

/// The greatest length of a text.
const TEXT_BYTES: usize = 212;

/// At most so many bytes stand before and after a place, and have to stay as they are.
const MOST_MARGIN: usize = 64;

/// So many cases show every ending.
const CASES_FOR_ALL_ENDINGS: u64 = 5_000;

struct Case {
    plan: Vec<u8>,
    evidence: Vec<u8>,
    empty: EmptyAs,
}

fn hex(bytes: &[u8]) -> String {
    bytes.iter().map(|byte| format!("{byte:02x}")).collect()
}

/// Calls the library with a place of some length, in the midst of random bytes, and says what is not as it has to be.
fn compare(case: &Case, text: &str, length: usize, random: &mut Random) -> Result<(), String> {
    let margin = 1 + random.below(MOST_MARGIN);
    let before = random.bytes(length + 2 * margin);
    let mut after = before.clone();
    let place = &mut after[margin..margin + length];
    let answer = library::call(&case.plan, &case.evidence, place, case.empty);
    let (expected, written) = if length < PLACE_BYTES {
        (PLACE_SHORT, "")
    } else {
        (text.len() as i32, text)
    };
    let mut right = before;
    right[margin..margin + written.len()].copy_from_slice(written.as_bytes());
    if answer == expected && after == right {
        return Ok(());
    }
    let shown = usize::try_from(answer).unwrap_or(0).min(length);
    Err(format!(
        "place of {length} bytes: the call answers {answer}, and has to answer {expected}; bytes as they have to be: {}\n\
         the call wrote:\n{}\nby the rules:\n{text}",
        after == right,
        String::from_utf8_lossy(&after[margin..margin + shown]),
    ))
}

/// Draws one case, and compares.
fn check_case(tally: &mut Tally, random: &mut Random) -> Result<(), String> {
    let plan = draw_plan(random);
    let (kind, evidence) = draw_evidence(&plan, random);
    let empty = *random.pick(&[EmptyAs::Address, EmptyAs::Null]);
    let listed = listing(&plan, &evidence);
    tally.add(kind, &evidence, &listed);
    if matches!(empty, EmptyAs::Null) && (plan.is_empty() || evidence.is_empty()) {
        tally.null_addresses += 1;
    }
    let case = Case {
        plan,
        evidence,
        empty,
    };

    let wider = PLACE_BYTES + random.below(300);
    let length = *random.pick(&[PLACE_BYTES, wider]);
    let mut compared = compare(&case, &listed.text, length, random);
    if compared.is_ok() && random.one_in(8) {
        tally.short_places += 1;
        let shorter = random.below(PLACE_BYTES);
        let length = *random.pick(&[0, PLACE_BYTES - 1, shorter]);
        compared = compare(&case, &listed.text, length, random);
    }
    if listed.text.len() > TEXT_BYTES {
        compared = Err(format!("a text of {} bytes", listed.text.len()));
    }
    compared.map_err(|why| {
        let (plan, evidence) = (hex(&case.plan), hex(&case.evidence));
        format!("{why}\nplan {plan}\nevidence {evidence}")
    })
}

fn main() -> ExitCode {
    let numbers: Vec<u64> = std::env::args()
        .skip(1)
        .filter_map(|word| word.parse().ok())
        .collect();
    let [count, seed] = numbers[..] else {
        eprintln!("usage: crosscheck COUNT SEED");
        return ExitCode::from(2);
    };
    let mut random = Random::new(seed);
    let mut tally = Tally::default();
    for number in 1..=count {
        if let Err(why) = check_case(&mut tally, &mut random) {
            println!("crosscheck: case {number} of seed {seed} differs\n{why}");
            return ExitCode::FAILURE;
        }
    }
    tally.print(seed);
    let unseen = tally.unseen();
    if count >= CASES_FOR_ALL_ENDINGS && !unseen.is_empty() {
        println!("crosscheck: never seen: {unseen:?}");
        return ExitCode::FAILURE;
    }
    ExitCode::SUCCESS
}
