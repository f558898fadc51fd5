//! Rounds in which every contender runs once, in turn.

use crate::compare::random::XorShift;
use std::hint::black_box;

/// The lent outputs that all contenders write to, so that none has better
/// memory than another.
pub struct Space<P> {
    pub bytes: Vec<u8>,
    pub values: Vec<P>,
}

/// One thing to be timed.
pub struct Contender<'a, P> {
    pub who: Who,
    pub operation: Operation,
    pub run: Box<Run<'a, P>>,
}

/// What it does with the lent outputs, and answers.
pub type Run<'a, P> = dyn Fn(&mut Space<P>) -> u64 + 'a;

impl<'a, P> Contender<'a, P> {
    pub fn new(
        who: Who,
        operation: Operation,
        run: impl Fn(&mut Space<P>) -> u64 + 'a,
    ) -> Contender<'a, P> {
        Contender { who, operation, run: Box::new(run) }
    }
}

macro_rules! named {
    ($(#[$about:meta])* $type:ident: $($case:ident $name:literal),*) => {
        $(#[$about])*
        #[derive(Clone, Copy, Debug, PartialEq, Eq)]
        pub enum $type {
            $($case),*
        }

        impl $type {
            pub const ALL: &'static [$type] = &[$($type::$case),*];

            pub const fn name(self) -> &'static str {
                match self {
                    $($type::$case => $name),*
                }
            }
        }
    };
}

named!(
    /// Whose code is timed.
    Who: Ours "Gwizdorad", Tuned "tuned Rust", PlainC "plain C", Memcpy "memcpy", Lz4 "lz4",
    Zstd "zstd", Zfp "zfp", Blosc "blosc"
);
named!(
    /// What it does. Pack has room for anything, `PackExact` for its bytes.
    Operation: Pack "pack", PackExact "pack exact", Length "length", Check "check",
    Unpack "unpack", Probe "probe", Copy "copy"
);

/// Seconds of one run.
#[derive(Clone, Copy, Debug, PartialEq)]
pub struct Timing {
    pub who: Who,
    pub operation: Operation,
    pub median: f64,
    pub minimum: f64,
}

/// How often to run, and the clock to read seconds from.
#[derive(Clone, Copy)]
pub struct Watch {
    pub rounds: usize,
    pub clock: fn() -> f64,
}

/// Times every contender once a round, each round in another order, so that
/// none always follows the same.
pub fn timed<P>(contenders: &[Contender<P>], space: &mut Space<P>, watch: Watch) -> Vec<Timing> {
    let mut rng = XorShift::seeded(1, 5);
    let mut order: Vec<usize> = (0..contenders.len()).collect();
    let mut seconds = vec![Vec::with_capacity(watch.rounds); contenders.len()];
    for _ in 0..watch.rounds {
        shuffle(&mut order, &mut rng);
        for &index in &order {
            let start = (watch.clock)();
            black_box((contenders[index].run)(black_box(space)));
            seconds[index].push((watch.clock)() - start);
        }
    }
    let timings = contenders.iter().zip(seconds);
    timings.map(|(contender, seconds)| timing(contender, seconds)).collect()
}

fn shuffle(order: &mut [usize], rng: &mut XorShift) {
    for last in (1..order.len()).rev() {
        order.swap(last, rng.below(last as u64 + 1) as usize);
    }
}

fn timing<P>(contender: &Contender<P>, mut seconds: Vec<f64>) -> Timing {
    seconds.sort_by(f64::total_cmp);
    Timing {
        who: contender.who,
        operation: contender.operation,
        median: seconds[seconds.len() / 2],
        minimum: seconds[0],
    }
}
