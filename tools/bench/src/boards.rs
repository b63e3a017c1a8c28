//! The two boards behind one signature: coded calls and how many times to make them all, each time on a new board.
//! The calls are decoded once, ahead of the runs. The result is the sum of the runs' digests.

use crate::workload::{decode, largest};
use independent::deferred::Deferred;
use independent::door::{Door, Refused};
use independent::lock::{Answer, LockRefusal};

#[link(name = "benchboard", kind = "static")]
#[link(name = "libc_c", kind = "static")]
extern "C" {
    fn benchboard_deferred(codes: *const u16, len: usize, times: u32) -> u64;
}

pub fn proved(codes: &[u16], times: u32) -> u64 {
    // The function reads `len` numbers from the pointer and writes to none.
    unsafe { benchboard_deferred(codes.as_ptr(), codes.len(), times) }
}

pub fn plain(codes: &[u16], times: u32) -> u64 {
    let calls: Vec<_> = codes.chunks_exact(7).map(decode).collect();
    let mut sum = 0u64;
    for _ in 0..times {
        let mut door = Door::new(largest(), Deferred::default());
        let mut digest = 0;
        for &call in &calls {
            digest = extended(digest, door.call(call));
        }
        sum = sum.wrapping_add(digest);
    }
    sum
}

fn extended(digest: u64, answer: Result<Answer, Refused>) -> u64 {
    digest.wrapping_mul(31).wrapping_add(code(answer))
}

/// The answer as a number: its kind above, what it carries below.
fn code(answer: Result<Answer, Refused>) -> u64 {
    match answer {
        Ok(Answer::Ok) => 1 << 16,
        Ok(Answer::Step) => 2 << 16,
        Ok(Answer::Wait) => 3 << 16,
        Ok(Answer::Lost) => 4 << 16,
        Ok(Answer::In) => 5 << 16,
        Ok(Answer::Out) => 6 << 16,
        Ok(Answer::Added(count)) => (7 << 16) + u64::from(count),
        Ok(Answer::Count(count)) => (8 << 16) + u64::from(count),
        Err(refused) => (9 << 16) + number(refused),
    }
}

fn number(refused: Refused) -> u64 {
    match refused {
        Refused::NoCard => 2,
        Refused::Malformed => 3,
        Refused::Differs => 4,
        Refused::Lock(LockRefusal::NotAllowed) => 5,
        Refused::Lock(LockRefusal::NoSuch) => 6,
        Refused::Lock(LockRefusal::NotFree) => 7,
        Refused::Lock(LockRefusal::Memory(_)) => 8,
    }
}
