//! The deepest stack of a call: it is made on a stack of its own that was painted before, which is
//! then looked through from the far end for the first byte that is not paint. Twice with different
//! paint, since a byte written may have the paint's value.
//!
//! Included: arguments that the call takes on the stack, return addresses, the frames of all that is
//! called (`memcpy` of the C library too), and the red zone. Not included: frames reserved but never
//! written, and signal frames.

use std::arch::asm;

const ROOM: usize = 1 << 16;

/// Bytes of stack below the end that `make` is given twice.
fn painted(mut make: impl FnMut(*mut u8)) -> usize {
    let mut deepest = 0;
    for paint in [0xA5u8, 0x3C] {
        let mut stack = vec![u128::from_ne_bytes([paint; 16]); ROOM / 16];
        make(stack.as_mut_ptr_range().end.cast::<u8>());
        let left = stack
            .iter()
            .flat_map(|word| word.to_ne_bytes())
            .take_while(|&byte| byte == paint)
            .count();
        deepest = deepest.max(ROOM - left);
    }
    deepest
}

/// Makes a call with up to six words of arguments on a stack that ends here.
///
/// SAFETY: the function takes these arguments by C's convention and needs at most `ROOM` bytes; the end
/// is a multiple of 16.
unsafe fn on(end: *mut u8, function: *const (), [a, b, c, d, e, f]: [usize; 6]) {
    asm!(
        "mov r12, rsp",
        "mov rsp, r13",
        "call r14",
        "mov rsp, r12",
        out("r12") _,
        in("r13") end,
        in("r14") function,
        in("rdi") a,
        in("rsi") b,
        in("rdx") c,
        in("rcx") d,
        in("r8") e,
        in("r9") f,
        clobber_abi("C"),
    );
}

/// The stack of a function with up to six words of arguments; it is called twice.
///
/// SAFETY: the function takes these arguments by C's convention and needs at most `ROOM` bytes.
pub unsafe fn of_function(function: *const (), arguments: [usize; 6]) -> usize {
    painted(|end| on(end, function, arguments))
}

struct Call<'a>(&'a mut dyn FnMut());

extern "C" fn make(call: &mut Call<'_>) {
    (call.0)();
}

/// The stack of a call of any arguments, with the frames of the two Rust functions that make it. It is
/// called twice, each time on the value as it was.
pub fn of_call<T: Clone>(value: &mut T, call: impl Fn(&mut T)) -> usize {
    let before = value.clone();
    painted(|end| {
        value.clone_from(&before);
        let mut call = || call(value);
        let mut context = Call(&mut call);
        let argument = &raw mut context as usize;
        // SAFETY: `make` takes one pointer to a live context.
        unsafe { on(end, make as *const (), [argument, 0, 0, 0, 0, 0]) };
    })
}
