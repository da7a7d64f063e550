//! Times the original and this project on the same input: in one process and one run, on one thread, in turn, the best of
//! several. The caller makes the input, and both sides have run once on it before the first time is taken.

use std::time::{Duration, Instant};

use crate::pages::{Kind, KINDS, LINED};

/// How often each side is timed, at the most and at the least; between them, until the time is up.
const MOST_TURNS: u32 = 25;
const LEAST_TURNS: u32 = 5;
const TIME: Duration = Duration::from_millis(800);

/// What is timed: these kinds of pages, or all where there is none.
pub struct Bench(Vec<Kind>);

impl Bench {
    /// No side of a stage is called more often.
    pub const MOST_CALLS: usize = MOST_TURNS as usize + 1;

    /// Memory that is given back is kept from now on, and none is asked of the system afresh: the original allocates in
    /// every call, and is to find pages that were touched before, as the memory that we are lent was.
    pub fn new(kinds: Vec<Kind>) -> Self {
        const M_TRIM_THRESHOLD: i32 = -1;
        const M_MMAP_MAX: i32 = -4;
        extern "C" {
            fn mallopt(parameter: i32, value: i32) -> i32;
        }
        let set = unsafe { mallopt(M_MMAP_MAX, 0) & mallopt(M_TRIM_THRESHOLD, -1) };
        assert!(set == 1, "the allocator takes no options");
        Bench(kinds)
    }

    /// The kinds of pages that are timed; a page of one dot never is.
    pub fn kinds(&self) -> Vec<Kind> {
        let asked = |kind: &Kind| self.0.is_empty() || self.0.contains(kind);
        KINDS
            .into_iter()
            .filter(|kind| *kind != Kind::Dot)
            .filter(asked)
            .collect()
    }

    /// The kinds with many lines or many glyphs in a line that are timed.
    pub fn lined(&self) -> Vec<Kind> {
        let asked = |kind: &Kind| self.0.is_empty() || self.0.contains(kind);
        LINED.into_iter().filter(asked).collect()
    }

    /// One line, `STAGE PAGE ratio R, ours A, the Rust B milliseconds`: the Rust's time over ours, then both. Each side hands its
    /// answers to `black_box` itself.
    pub fn stage(&mut self, stage: &str, page: &str, mut rust: impl FnMut(), mut ours: impl FnMut()) {
        let [times] = self.together(|| [Times::once(&mut rust, &mut ours)]);
        self.line(stage, page, times);
    }

    /// The line of a stage with these times.
    pub fn line(&mut self, stage: &str, page: &str, times: Times) {
        let [rust, ours] = [times.rust, times.ours].map(|time| time.as_secs_f64() * 1e3);
        println!(
            "{stage} {page} ratio {:.2}, ours {ours:.2}, the Rust {rust:.2} milliseconds",
            rust / ours
        );
    }

    /// One line, `STAGE PAGE ours A, the Rust B nanoseconds a dot`.
    pub fn per_dot(&mut self, stage: &str, page: &str, dots: usize, mut rust: impl FnMut(), mut ours: impl FnMut()) {
        let [times] = self.together(|| [Times::once(&mut rust, &mut ours)]);
        let each = |time: Duration| time.as_secs_f64() * 1e9 / dots as f64;
        println!(
            "{stage} {page} ours {:.3}, the Rust {:.3} nanoseconds a dot",
            each(times.ours),
            each(times.rust)
        );
    }

    /// The best times of stages that are timed in turn, each once a turn.
    pub fn together<const N: usize>(&mut self, mut turn: impl FnMut() -> [Times; N]) -> [Times; N] {
        turn();
        let start = Instant::now();
        let mut best = turn();
        for done in 1..MOST_TURNS {
            if done >= LEAST_TURNS && start.elapsed() > TIME * N as u32 {
                break;
            }
            let times = turn();
            best = std::array::from_fn(|i| best[i].best(times[i]));
        }
        best
    }
}

/// How long each side takes.
#[derive(Clone, Copy)]
pub struct Times {
    pub rust: Duration,
    pub ours: Duration,
}

impl Times {
    /// Of one call.
    pub fn once(rust: impl FnOnce(), ours: impl FnOnce()) -> Self {
        Times {
            rust: timed(rust),
            ours: timed(ours),
        }
    }

    fn best(self, other: Times) -> Self {
        Times {
            rust: self.rust.min(other.rust),
            ours: self.ours.min(other.ours),
        }
    }

    /// What is left of both sides without a part, if anything is.
    pub fn less(self, part: Times) -> Option<Self> {
        let left = |whole: Duration, part: Duration| whole.checked_sub(part).filter(|left| !left.is_zero());
        Some(Times {
            rust: left(self.rust, part.rust)?,
            ours: left(self.ours, part.ours)?,
        })
    }
}

fn timed(work: impl FnOnce()) -> Duration {
    let start = Instant::now();
    work();
    start.elapsed()
}
