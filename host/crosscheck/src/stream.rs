//! Arrival streams of the two kinds.

pub enum Stream {
    Periodic {
        period: u16,
        jitter: u16,
        offset: u16,
    },
    Sporadic {
        least: u16,
        greatest: u16,
        offset: u16,
    },
}

#[derive(Clone, Copy, PartialEq, Eq, Hash, Debug)]
pub enum Position {
    /// So many slots before slot o.
    Countdown(u16),
    /// Kind P: slots since the stretch began, and whether it has had its arrival.
    Phase { phase: u16, served: bool },
    /// Kind S: slots since the last arrival.
    Gap(u16),
}

/// What a way answers.
#[derive(Clone, Copy)]
pub struct Answer {
    pub arrival: bool,
    pub after: Position,
}

fn quiet(after: Position) -> Answer {
    Answer {
        arrival: false,
        after,
    }
}

fn arrival(after: Position) -> Answer {
    Answer {
        arrival: true,
        after,
    }
}

const STRETCH: Position = Position::Phase {
    phase: 0,
    served: false,
};

impl Stream {
    pub fn first(&self) -> Position {
        match *self {
            Stream::Periodic { offset: 0, .. } => STRETCH,
            Stream::Periodic { offset, .. } | Stream::Sporadic { offset, .. } => {
                Position::Countdown(offset)
            }
        }
    }

    /// The ways at a position, in the order of their numbers.
    pub fn ways(&self, position: Position) -> Vec<Answer> {
        match (self, position) {
            (Stream::Periodic { .. }, Position::Countdown(1)) => vec![quiet(STRETCH)],
            (Stream::Sporadic { .. }, Position::Countdown(0)) => vec![arrival(Position::Gap(1))],
            (_, Position::Countdown(left)) => vec![quiet(Position::Countdown(left - 1))],
            (&Stream::Periodic { period, jitter, .. }, Position::Phase { phase, served }) => {
                let next = |served| match phase + 1 {
                    end if end == period => STRETCH,
                    phase => Position::Phase { phase, served },
                };
                if served {
                    vec![quiet(next(true))]
                } else if phase < jitter {
                    vec![quiet(next(false)), arrival(next(true))]
                } else {
                    vec![arrival(next(true))]
                }
            }
            (
                &Stream::Sporadic {
                    least, greatest, ..
                },
                Position::Gap(gap),
            ) => {
                if gap < least {
                    vec![quiet(Position::Gap(gap + 1))]
                } else if gap < greatest {
                    vec![quiet(Position::Gap(gap + 1)), arrival(Position::Gap(1))]
                } else {
                    vec![arrival(Position::Gap(1))]
                }
            }
            _ => unreachable!("a position of the other kind"),
        }
    }
}
