//! Tells callgrind what to count. Valgrind knows a request by a sequence of instructions that
//! changes nothing on a real processor, where it costs a few cycles. Its option --toggle-collect
//! would name a function instead, but it loses track of calls and returns on aarch64.

/// CALLGRIND_TOGGLE_COLLECT of callgrind.h, and no arguments.
static REQUEST: [usize; 6] = [0x4354_0002, 0, 0, 0, 0, 0];

/// Begins to count, or ends it.
#[cfg(target_arch = "aarch64")]
#[inline(always)]
pub fn toggle() {
    // SAFETY: x12 is turned by 128 bits in all, and x10 is not changed; x3 takes the answer.
    unsafe {
        core::arch::asm!(
            "ror x12, x12, #3", "ror x12, x12, #13", "ror x12, x12, #51", "ror x12, x12, #61",
            "orr x10, x10, x10",
            inout("x3") 0usize => _, in("x4") REQUEST.as_ptr(),
        );
    }
}

#[cfg(target_arch = "x86_64")]
#[inline(always)]
pub fn toggle() {
    // SAFETY: rdi is turned by 128 bits in all, and rbx is not changed; rdx takes the answer.
    unsafe {
        core::arch::asm!(
            "rol rdi, 3", "rol rdi, 13", "rol rdi, 61", "rol rdi, 51",
            "xchg rbx, rbx",
            inout("rdx") 0usize => _, in("rax") REQUEST.as_ptr(),
        );
    }
}

#[cfg(not(any(target_arch = "aarch64", target_arch = "x86_64")))]
pub fn toggle() {}
