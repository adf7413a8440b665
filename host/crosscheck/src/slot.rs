//! States of a plan, and the slot rule under the dispatch rule Priority.

use crate::plan::Task;
use crate::stream::{Answer, Position};
use std::cmp::Reverse;

#[derive(Clone, Copy, PartialEq, Eq, Hash, Debug)]
pub struct Job {
    work: u16,
    age: u16,
}

#[derive(Clone, PartialEq, Eq, Hash, Debug)]
pub struct State {
    positions: Vec<Position>,
    jobs: Vec<Option<Job>>,
    /// The task picked in the slot before if its job stayed, counted from 1, else 0.
    last: usize,
}

/// A job that ended: its task, counted from 0, and its response time.
#[derive(Clone, Copy, Debug)]
pub struct Ended {
    pub task: usize,
    pub response: u16,
}

/// Why a slot is late, and for which task, counted from 0.
#[derive(Clone, Copy, Debug)]
pub struct Lateness {
    pub task: usize,
    pub cause: char,
}

pub enum Outcome {
    Void,
    Late(Lateness, Option<Ended>),
    Next(State, Option<Ended>),
}

pub fn start(tasks: &[Task]) -> State {
    State {
        positions: tasks.iter().map(|task| task.stream.first()).collect(),
        jobs: vec![None; tasks.len()],
        last: 0,
    }
}

/// The number of ways of a state: twice the product of those of the streams.
pub fn ways(tasks: &[Task], state: &State) -> u32 {
    2 * tasks
        .iter()
        .zip(&state.positions)
        .map(|(task, &position)| task.stream.ways(position).len() as u32)
        .product::<u32>()
}

/// What a way of a state leads to.
pub fn outcome(tasks: &[Task], state: &State, way: u32) -> Outcome {
    let arrivals = ways(tasks, state) / 2;
    if way >= 2 * arrivals {
        return Outcome::Void;
    }
    let stays = way >= arrivals;
    let answers = answers(tasks, state, way % arrivals);
    let positions = answers.iter().map(|answer| answer.after).collect();
    let mut jobs = state.jobs.clone();

    let overlap = (0..tasks.len()).find(|&task| answers[task].arrival && jobs[task].is_some());
    if let Some(task) = overlap {
        return if stays {
            Outcome::Void
        } else {
            Outcome::Late(Lateness { task, cause: 'O' }, None)
        };
    }
    for (job, answer) in jobs.iter_mut().zip(&answers) {
        if answer.arrival {
            *job = Some(Job { work: 0, age: 0 });
        }
    }

    let picked = pick(tasks, &jobs);
    let mut ends = false;
    let mut chooses = false;
    if let Some(task) = picked {
        let job = jobs[task]
            .as_mut()
            .expect("a task that is picked has a job");
        job.work += 1;
        chooses = (tasks[task].best..tasks[task].worst).contains(&job.work);
        ends = job.work >= tasks[task].worst || (chooses && !stays);
    }
    if stays && !chooses {
        return Outcome::Void;
    }

    for job in jobs.iter_mut().flatten() {
        job.age += 1;
    }
    let ended = picked.filter(|_| ends).map(|task| {
        let job = jobs[task].take().expect("a job that ends is there");
        Ended {
            task,
            response: job.age,
        }
    });
    let missed = (0..tasks.len())
        .find(|&task| jobs[task].is_some_and(|job| job.age >= tasks[task].deadline));
    if let Some(task) = missed {
        return Outcome::Late(Lateness { task, cause: 'D' }, ended);
    }
    let last = match picked {
        Some(task) if !ends => task + 1,
        _ => 0,
    };
    let next = State {
        positions,
        jobs,
        last,
    };
    Outcome::Next(next, ended)
}

/// The answers of the streams for a mixed number of their ways, the first task least.
fn answers(tasks: &[Task], state: &State, mixed: u32) -> Vec<Answer> {
    let mut left = mixed as usize;
    tasks
        .iter()
        .zip(&state.positions)
        .map(|(task, &position)| {
            let ways = task.stream.ways(position);
            let answer = ways[left % ways.len()];
            left /= ways.len();
            answer
        })
        .collect()
}

/// The greatest priority that has a job, and among equals the smaller task.
fn pick(tasks: &[Task], jobs: &[Option<Job>]) -> Option<usize> {
    (0..tasks.len())
        .filter(|&task| jobs[task].is_some())
        .max_by_key(|&task| (tasks[task].priority, Reverse(task)))
}
