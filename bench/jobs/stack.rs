//! The stack that the calls use: a painted one, looked at afterwards.

use crate::instructions::measured;
use crate::reels::{job, pairs, samples_of, Job, Reel, Sound, JOBS, OWN_REELS, REELS};
use crate::wave::both_calls;
use std::alloc::{alloc, dealloc, Layout};
use std::ffi::c_void;
use std::ptr::null_mut;

/// The size of glibc's `pthread_attr_t` on x86-64.
#[repr(C)]
struct ThreadSettings([u64; 7]);

extern "C" {
    fn pthread_attr_init(settings: *mut ThreadSettings) -> i32;
    fn pthread_attr_setstack(settings: *mut ThreadSettings, stack: *mut u8, length: usize) -> i32;
    fn pthread_create(thread: *mut u64, settings: *const ThreadSettings, work: extern "C" fn(*mut c_void) -> *mut c_void, word: *mut c_void) -> i32;
    fn pthread_join(thread: u64, answer: *mut *mut c_void) -> i32;
}

type Case = (Job, Reel, Vec<f32>);

/// A pitch of 25/32, at which the rate conversion of every reel has 32 phases, N/gcd(N, O) of docs/RULES.md, "Rate".
const PHASES: Job = job("32-phases", 1.0, 0.78125);

/// Two seconds of every job on its reels, and a flush at the highest rate with the most channels.
fn cases() -> Vec<Case> {
    let widest = Reel { name: "widest", rate: 500_000, channels: 32, seconds: 0, sound: Sound::Voice(4_000) };
    let of_phases = REELS.map(|reel| (PHASES, reel));
    let reels = pairs().chain(of_phases).map(|(job, reel)| (job, reel, samples_of(Reel { seconds: 2, ..reel })));
    let flushes = JOBS.into_iter().chain(OWN_REELS.map(|(job, _)| job)).map(|job| (job, widest, Vec::new()));
    reels.chain(flushes).collect()
}

/// The cases that it is handed, on our side, and a WAVE file.
extern "C" fn every_call(cases: *mut c_void) -> *mut c_void {
    for (job, reel, samples) in unsafe { &*cases.cast::<Vec<Case>>() } {
        measured(true, job, reel, samples);
    }
    both_calls();
    null_mut()
}

extern "C" fn no_call(_: *mut c_void) -> *mut c_void {
    null_mut()
}

/// The bytes of a painted stack that a thread with this work on the cases has changed.
fn stack_of(work: extern "C" fn(*mut c_void) -> *mut c_void, cases: &mut Vec<Case>) -> usize {
    const LENGTH: usize = 1 << 20;
    const PAINT: u8 = 0xa5;
    let layout = Layout::from_size_align(LENGTH, 4_096).expect("a layout");
    unsafe {
        let stack = alloc(layout);
        assert!(!stack.is_null());
        stack.write_bytes(PAINT, LENGTH);
        let (mut settings, mut thread) = (ThreadSettings([0; 7]), 0);
        assert_eq!(pthread_attr_init(&mut settings), 0);
        assert_eq!(pthread_attr_setstack(&mut settings, stack, LENGTH), 0);
        assert_eq!(pthread_create(&mut thread, &settings, work, (cases as *mut Vec<Case>).cast()), 0);
        assert_eq!(pthread_join(thread, null_mut()), 0);
        let untouched = std::slice::from_raw_parts(stack, LENGTH).iter().take_while(|&&byte| byte == PAINT).count();
        dealloc(stack, layout);
        LENGTH - untouched
    }
}

/// The calls' stack, with the few frames of this program above them.
pub fn measure_stack() {
    let mut cases = cases();
    println!("stack: {} bytes at most", stack_of(every_call, &mut cases) - stack_of(no_call, &mut cases));
}
