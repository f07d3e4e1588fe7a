//! Plays a case of tools/benchmarks/cases.py through the original's calls:
//!
//! ```text
//! original CASE ENTRIES ROUNDS on|off
//! ```
//!
//! The words, what is printed and what is measured are those of c/typed.c, which makes the same calls in the same order. As an SDK of another
//! language has to, it copies what comes in into a buffer of the original's, and what goes out into one of its own, and makes the texts of each call.

mod cases;
mod player;

use cases::CASES;
use player::{Given, Player};
use std::env;
use std::ffi::{c_char, c_void, CStr};
use std::hint::black_box;
use std::process::ExitCode;
use std::ptr;
use std::time::Instant;

extern "C" {
    fn dlsym(handle: *mut c_void, name: *const c_char) -> *mut c_void;
}

/// What heap.c counts, or 0 without it.
fn counted(name: &CStr) -> u64 {
    // SAFETY: the name ends with a NUL, and no handle means all of the program.
    let found = unsafe { dlsym(ptr::null_mut(), name.as_ptr()) };
    if found.is_null() {
        return 0;
    }
    // SAFETY: heap.c defines these names as functions of no argument that return a number.
    let count: extern "C" fn() -> u64 = unsafe { std::mem::transmute(found) };
    count()
}

/// What callgrind counts alone.
#[no_mangle]
#[inline(never)]
pub fn measured(play: fn(&mut Player), player: &mut Player) {
    play(player);
    black_box(player);
}

fn report(play: fn(&mut Player), player: &mut Player, rounds: u32) {
    let mut least = u128::MAX;
    for _ in 0..rounds {
        player.begin_round();
        counted(c"heap_mark");
        let from = Instant::now();
        measured(play, player);
        least = least.min(from.elapsed().as_nanos());
    }
    let (peak, allocations, copied) = (counted(c"heap_peak"), counted(c"heap_count"), counted(c"heap_copied"));
    println!("{player} ns={least} peak={peak} allocations={allocations} copied={copied}");
}

fn run(words: &[String]) -> Result<(), String> {
    let [_, name, entries, rounds, cancellation] = words else {
        return Err("usage: original CASE ENTRIES ROUNDS on|off".to_owned());
    };
    let case = CASES.iter().find(|it| it.name == name);
    let case = case.ok_or_else(|| format!("there is no case {name}"))?;
    let number = |text: &String| text.parse::<u32>().map_err(|it| format!("{text}: {it}"));
    let mut given = Given::new(number(entries)?, case.cut);
    (case.give)(&mut given);
    let mut player = Player::new(given, cancellation == "on");
    report(case.play, &mut player, number(rounds)?);
    Ok(())
}

fn main() -> ExitCode {
    let words: Vec<String> = env::args().collect();
    match run(&words) {
        Ok(()) => ExitCode::SUCCESS,
        Err(text) => {
            eprintln!("original: {text}");
            ExitCode::FAILURE
        }
    }
}
