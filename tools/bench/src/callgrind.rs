//! The requests to callgrind: count from 0, and write what was counted under a name. Outside of valgrind they do
//! nothing.

use std::ffi::CString;

/// The numbers of callgrind's requests follow on its own two letters.
const BASE: u64 = (b'C' as u64) << 24 | (b'T' as u64) << 16;
const ZERO_STATS: u64 = BASE + 1;
const DUMP_STATS_AT: u64 = BASE + 3;

#[cfg(target_arch = "x86_64")]
fn request(number: u64, argument: u64) {
    let arguments = [number, argument, 0, 0, 0, 0];
    // Valgrind knows these rotations, which together change nothing, and reads the six numbers behind rax.
    unsafe {
        std::arch::asm!(
            "rol rdi, 3", "rol rdi, 13", "rol rdi, 61", "rol rdi, 51",
            "xchg rbx, rbx",
            in("rax") arguments.as_ptr(),
            inout("rdx") 0u64 => _,
        );
    }
}

/// The count of the machine instructions that `run` takes is written as `name`.
pub fn counted(name: &str, run: impl FnOnce() -> u64) -> u64 {
    let name = CString::new(name).expect("a name has no byte 0");
    request(ZERO_STATS, 0);
    let result = std::hint::black_box(run());
    request(DUMP_STATS_AT, name.as_ptr() as u64);
    result
}
