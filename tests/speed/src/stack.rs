//! How much stack a call needs: it runs in a child process, on a thread of which so much is already used, and the
//! most that may be used without a crash is found by bisection.

use crate::answer::{Call, Variant};
use crate::draft::Draft;
use crate::sheets::*;
use crate::worst::{longest_walk, sets_of, AMPLE};
use crate::{library, ours};
use std::env;
use std::error::Error;
use std::hint::black_box;
use std::process::{Command, Stdio};
use std::thread;

/// The thread's stack.
const STACK: usize = 4 << 20;

/// The sheets that take each call deepest: case, sheet, the KB that include/kgs.h states, rows, call.
pub fn cases() -> Vec<(&'static str, &'static str, u64, Draft, Call)> {
    let [solve, plain] = [Call::Solve { start: 1, limit: 64 }, Call::SolvePlain { start: 1, limit: 64 }];
    let paths = Call::Paths { start: 1, limit: 64, room: AMPLE };
    let kuhn = |variant| Call::Kuhn { variant, iterations: 100 };
    vec![
        ("solve", "63 decisions and a terminal", 256, chain(63, Kinds::Decisions), solve),
        ("solve, chance in turn", "63 levels and a terminal", 256, chain(63, Kinds::InTurn), solve),
        ("plain", "63 decisions and a terminal", 256, chain(63, Kinds::Decisions), plain),
        ("paths", "63 levels of one edge", 96, made(|maker| maker.chain(63, 1, Kinds::Decisions)), paths),
        ("sets", "1,023 sets", 32, sets_of(1_023, 1, 1_023, 2, 2_000), Call::Sets { room: AMPLE }),
        ("topology", "a chain of 1,024 nodes", 384, longest_walk(), Call::Topology),
        (
            "opening alone",
            "64 KB, rows shuffled",
            384,
            refused_last(arranged(keyed_rows(1 << 16), Order::Shuffled)),
            Call::Topology,
        ),
        ("Kuhn, Vanilla", "none", 16, Draft::default(), kuhn(Variant::Vanilla)),
        ("Kuhn, CfrPlus", "none", 16, Draft::default(), kuhn(Variant::CfrPlus)),
        ("Kuhn, LinearCfr", "none", 16, Draft::default(), kuhn(Variant::LinearCfr)),
    ]
}

/// The child process: a case, or for any other name an empty call, below so many frames.
pub fn child(case: &str, frames: usize) -> Result<(), Box<dyn Error>> {
    let Some((.., draft, call)) = cases().into_iter().find(|&(name, ..)| name == case) else {
        return run_below(frames, || ());
    };
    let bytes = draft.encode();
    let mut buffer = vec![0; AMPLE];
    let expected = library::answer(&call, &bytes).refusal().number;
    run_below(frames, move || {
        if ours::run(&call, &bytes, &mut buffer) != expected {
            std::process::abort();
        }
    })
}

/// Runs `call` on a thread below so many frames, and prints how far below the thread's start that is.
fn run_below(frames: usize, mut call: impl FnMut() + Send + 'static) -> Result<(), Box<dyn Error>> {
    let thread = thread::Builder::new().stack_size(STACK).spawn(move || {
        let top = 0u8;
        let bottom = descend(frames, &mut call);
        (black_box(&top) as *const u8 as usize) - bottom
    })?;
    println!("{}", thread.join().map_err(|_| "the call panicked")?);
    Ok(())
}

/// Goes so many frames down and then calls; gives the place on the stack from which it called.
#[inline(never)]
fn descend(frames: usize, call: &mut dyn FnMut()) -> usize {
    let frame = black_box([0u8; 192]);
    if frames > 0 {
        let bottom = descend(frames - 1, call);
        black_box(&frame);
        return bottom;
    }
    call();
    black_box(&frame).as_ptr() as usize
}

/// How far below the thread's start the case can still be called.
pub fn deepest(case: &str) -> Result<usize, Box<dyn Error>> {
    let (mut low, mut high) = (0, STACK / 200);
    let mut depth = survives(case, low)?.ok_or("the call does not end well on a large stack")?;
    while high - low > 1 {
        let middle = (low + high) / 2;
        match survives(case, middle)? {
            Some(reached) => (low, depth) = (middle, reached),
            None => high = middle,
        }
    }
    Ok(depth)
}

/// The depth that the child printed, if it came to an end.
fn survives(case: &str, frames: usize) -> Result<Option<usize>, Box<dyn Error>> {
    let child =
        Command::new(env::current_exe()?).args(["stack", case, &frames.to_string()]).stderr(Stdio::null()).output()?;
    match child.status.success() {
        true => Ok(Some(String::from_utf8(child.stdout)?.trim().parse()?)),
        false => Ok(None),
    }
}
