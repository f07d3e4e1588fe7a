//! What a call takes, in nanoseconds of the processor: the best of some rounds, of 1,000 calls each. With `allocations`
//! it is how many allocations a call makes, by a library that counts them and is preloaded.
//! usage: bench ROUNDS [allocations]

use palqytun::{frames, NotificationHandle, Options, PayloadOptions, Result, Target, Vm};
use std::os::raw::{c_char, c_int, c_long, c_ulonglong, c_void};

const CALLS: u32 = 1000;
const PROCESS: c_int = 2;

#[repr(C)]
struct Timespec {
    seconds: c_long,
    nanoseconds: c_long,
}

extern "C" {
    fn clock_gettime(clock: c_int, it: *mut Timespec) -> c_int;
    fn dlsym(library: *mut c_void, name: *const c_char) -> *mut c_void;
}

fn now() -> f64 {
    let mut it = Timespec { seconds: 0, nanoseconds: 0 };
    // SAFETY: the pointer is valid.
    unsafe { clock_gettime(PROCESS, &mut it) };
    it.seconds as f64 * 1e9 + it.nanoseconds as f64
}

fn allocations() -> f64 {
    // SAFETY: the name ends with a zero, and what has it is a function of this type.
    unsafe {
        let found = dlsym(std::ptr::null_mut(), b"palqytun_allocations\0".as_ptr().cast());
        assert!(!found.is_null(), "nothing counts allocations");
        std::mem::transmute::<*mut c_void, extern "C" fn() -> c_ulonglong>(found)() as f64
    }
}

fn begun() -> Result<Vm> {
    let mut vm = Vm::new("application/vnd.restate.invocation.v7", &Options::default())?;
    vm.notify_input(&frames::frame_of(r#"Start id="abc" debug_id="abc" known_entries=1"#)?)?;
    vm.notify_input(&frames::frame_of(r#"Input value="Till""#)?)?;
    vm.sys_input()?;
    vm.sys_sleep("", 1000)?;
    Ok(vm)
}

fn best_of(rounds: u32, read: fn() -> f64, case: impl Fn(&mut Vm) -> Result<()>) -> Result<f64> {
    let mut best = f64::INFINITY;
    for _ in 0..rounds {
        let mut vm = begun()?;
        let begin = read();
        for _ in 0..CALLS {
            case(&mut vm)?;
        }
        best = best.min((read() - begin) / f64::from(CALLS));
    }
    Ok(best)
}

fn main() -> Result<()> {
    let rounds = std::env::args().nth(1).and_then(|it| it.parse().ok()).unwrap_or(1);
    let read = if std::env::args().count() > 2 { allocations } else { now };
    let (target, stable) =
        (Target { service: "Greeter", handler: "greet", ..Target::default() }, PayloadOptions::STABLE);
    println!("sleep {:.1}", best_of(rounds, read, |vm| vm.sys_sleep("", 1000).map(|_| ()))?);
    println!("state {:.1}", best_of(rounds, read, |vm| vm.sys_state_set("key", b"value", "", stable))?);
    println!("call {:.1}", best_of(rounds, read, |vm| vm.sys_call(&target, b"Ada", "", stable).map(|_| ()))?);
    println!("await {:.1}", best_of(rounds, read, |vm| vm.do_await(NotificationHandle::from(17)).map(|_| ()))?);
    Ok(())
}
