//! How deep a call goes: it runs on a painted stack of its own, and the paint that is left is counted.

/// Prints how many bytes of stack the call used; the frames of the measure itself, as an empty call has them, are taken
/// off.
pub fn tell(words: &str, mut call: impl FnMut()) {
    match (deepest(&mut call), deepest(&mut || {})) {
        (Some(used), Some(empty)) => println!("| {words} | {} |", used - empty),
        _ => println!("| {words} | not measured on this machine |"),
    }
}

#[cfg(target_arch = "x86_64")]
fn deepest(call: &mut dyn FnMut()) -> Option<usize> {
    use std::arch::asm;

    const SIZE: usize = 4 << 20;
    const PAINT: u8 = 0xA5;

    extern "C" fn run(call: *mut &mut dyn FnMut()) {
        // SAFETY: `deepest` hands down a pointer to its own live variable.
        unsafe { (*call)() }
    }

    let mut call = call;
    let mut stack = vec![PAINT; SIZE];
    let top = (stack.as_mut_ptr() as usize + SIZE) & !15;
    // SAFETY: `top` is the aligned end of memory that lives until the old stack is back, r12 is kept by the callee, and
    // nothing that is called unwinds.
    unsafe {
        asm!(
            "mov r12, rsp",
            "mov rsp, {top}",
            "call {run}",
            "mov rsp, r12",
            top = in(reg) top,
            run = in(reg) run as extern "C" fn(*mut &mut dyn FnMut()),
            in("rdi") &mut call as *mut &mut dyn FnMut(),
            out("r12") _,
            clobber_abi("C"),
        );
    }
    let left = stack.iter().take_while(|byte| **byte == PAINT).count();
    Some(SIZE - left)
}

#[cfg(not(target_arch = "x86_64"))]
fn deepest(_: &mut dyn FnMut()) -> Option<usize> {
    None
}
