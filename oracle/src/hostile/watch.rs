//! The watch over a call: a signal or too long a time ends the program with the export's name, the seed and the call's number.

use std::{
    ffi::c_void,
    process,
    sync::atomic::{AtomicU64, Ordering::Relaxed},
    sync::OnceLock,
};

static SEED: AtomicU64 = AtomicU64::new(0);
static NUMBER: AtomicU64 = AtomicU64::new(0);
static LIMIT: AtomicU64 = AtomicU64::new(0);
/// The call that the last tick met, and how many ticks have met it.
static MET: AtomicU64 = AtomicU64::new(u64::MAX);
static TICKS: AtomicU64 = AtomicU64::new(0);
static NAMES: OnceLock<Vec<&'static str>> = OnceLock::new();
/// The command by which the call is made again.
static AGAIN: OnceLock<String> = OnceLock::new();

// glibc's for x86-64
#[repr(C)]
struct Action {
    handler: extern "C" fn(i32),
    mask: [u64; 16],
    flags: i32,
    restorer: usize,
}

#[repr(C)]
struct Stack {
    at: *mut c_void,
    flags: i32,
    size: usize,
}

extern "C" {
    fn sigaction(signal: i32, action: *const Action, old: *mut Action) -> i32;
    fn sigaltstack(stack: *const Stack, old: *mut Stack) -> i32;
    fn setitimer(which: i32, every: *const [i64; 4], old: *mut [i64; 4]) -> i32;
    fn _exit(status: i32) -> !;
}

const ON_STACK: i32 = 0x0800_0000;
const RESTART: i32 = 0x1000_0000;
/// SIGILL, SIGTRAP, SIGABRT, SIGBUS, SIGFPE, SIGSEGV.
const CRASHES: [i32; 6] = [4, 5, 6, 7, 8, 11];
/// The timer of the processor's time, and its signal.
const PROF: i32 = 2;
const SIGPROF: i32 = 27;

pub fn start(seed: u64, names: Vec<&'static str>, limit: u64, again: String) {
    SEED.store(seed, Relaxed);
    LIMIT.store(limit, Relaxed);
    let _ = (NAMES.set(names), AGAIN.set(again));
    // a stack of its own: a call that overruns the stack must be told too
    let stack = Stack { at: Box::leak(vec![0u8; 1 << 16].into_boxed_slice()).as_mut_ptr().cast(), flags: 0, size: 1 << 16 };
    let on = |signal: i32, handler| unsafe {
        let action = Action { handler, mask: [0; 16], flags: ON_STACK | RESTART, restorer: 0 };
        sigaction(signal, &action, std::ptr::null_mut())
    };
    unsafe { sigaltstack(&stack, std::ptr::null_mut()) };
    CRASHES.iter().for_each(|signal| assert_eq!(on(*signal, crashed), 0));
    assert_eq!(on(SIGPROF, tick), 0);
    every(1);
}

pub fn stop() {
    every(0);
}

fn every(seconds: i64) {
    unsafe { setitimer(PROF, &[seconds, 0, seconds, 0], std::ptr::null_mut()) };
}

/// The call that comes next.
#[inline]
pub fn at(number: u64) {
    NUMBER.store(number, Relaxed);
}

extern "C" fn crashed(signal: i32) {
    tell(&format!("signal {signal}"));
    unsafe { _exit(1) }
}

extern "C" fn tick(_: i32) {
    let number = NUMBER.load(Relaxed);
    if MET.swap(number, Relaxed) != number {
        TICKS.store(0, Relaxed);
    } else if TICKS.fetch_add(1, Relaxed) + 1 >= LIMIT.load(Relaxed) {
        tell(&format!("it takes more than {} seconds", LIMIT.load(Relaxed)));
        unsafe { _exit(1) }
    }
}

/// A check that failed: says which call it was, and ends the program.
pub fn fault(what: &str) -> ! {
    tell(what);
    process::exit(1)
}

// It allocates, also after a signal: what is called here never does, so no allocation was cut short.
fn tell(what: &str) {
    let (seed, number) = (SEED.load(Relaxed), NUMBER.load(Relaxed));
    let names = NAMES.get().map_or(&[][..], |names| &names[..]);
    let name = names.get((number % names.len().max(1) as u64) as usize).unwrap_or(&"");
    let again = AGAIN.get().map_or("", |again| &again[..]);
    println!("FAULT in {name}: {what}\n  again: {again} --seed {seed} --from {number} --calls 1");
}
