//! The deepest stack of a call: it is run on a stack of its own that was painted before, and what it wrote is found
//! afterwards.

use std::arch::asm;

const BYTES: usize = 1 << 20;
const PAINT: u8 = 0xA5;

/// Runs the call that stands at `data`.
extern "C" fn run<F: FnMut()>(data: *mut F) {
    unsafe { (*data)() }
}

/// How many bytes below its start the call wrote to.
fn depth<F: FnMut()>(mut call: F) -> usize {
    let mut stack = vec![PAINT; BYTES];
    let top = (stack.as_mut_ptr() as usize + BYTES) & !15;
    unsafe {
        asm!(
            "mov r12, rsp",
            "mov rsp, {top}",
            "call {run}",
            "mov rsp, r12",
            top = in(reg) top,
            run = in(reg) run::<F> as extern "C" fn(*mut F),
            in("rdi") &mut call as *mut F,
            out("r12") _,
            clobber_abi("C"),
        );
    }
    let untouched = stack.iter().position(|&byte| std::hint::black_box(byte) != PAINT).unwrap_or(BYTES);
    top - (stack.as_ptr() as usize + untouched)
}

/// The deepest stack of a call, less that of an empty one.
pub fn deepest<F: FnMut()>(call: F) -> usize {
    depth(call).saturating_sub(depth(|| {}))
}
