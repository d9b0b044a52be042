//! How many bytes of stack a call uses: the stack below is painted, the call made, and the deepest byte that
//! changed looked up. Good for a benchmark's line; nothing rests on it.

use std::hint::black_box;

/// As far down as is painted; calls that go deeper are not measured rightly.
const DEPTH: usize = 512 * 1024;
/// Left alone: the painting's own frame.
const NEAR: usize = 512;
const PAINT: u8 = 0xa5;

/// Runs the call on a fresh thread with room to spare.
pub fn bytes_used(call: impl Fn() + Send) -> usize {
    std::thread::scope(|scope| {
        let room = std::thread::Builder::new().stack_size(4 * DEPTH);
        let measured = room.spawn_scoped(scope, move || measure(&call)).expect("a thread");
        measured.join().expect("the call returns")
    })
}

#[inline(never)]
fn measure(call: &dyn Fn()) -> usize {
    let mut mark = 0u8;
    let here = black_box(&mut mark) as *mut u8 as usize;
    // Safety: the thread's stack has these bytes, and nothing lives there yet.
    let below = |depth: usize| (here - depth) as *mut u8;
    (NEAR..DEPTH).for_each(|depth| unsafe { below(depth).write_volatile(PAINT) });
    call();
    let changed = |depth: &usize| unsafe { below(*depth).read_volatile() } != PAINT;
    (NEAR..DEPTH).rev().find(changed).unwrap_or(NEAR)
}
