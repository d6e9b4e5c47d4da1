//! The stack that the entry points take: they are called on a stack of our own, painted before, and read afterwards.

use crate::corpus::Pair;
use crate::table;

/// The workspace that the entry points for comparing bring.
pub const WORKSPACE_BYTES: usize = 8 * 8_192;

/// Bytes of stack below the caller, at most, over some pairs; None on a machine whose stack we cannot change.
pub struct Used {
    pub gaps: usize,
    pub gap: usize,
    pub judge: usize,
}

#[cfg(not(target_arch = "x86_64"))]
pub fn used(_pairs: &[Pair]) -> Option<Used> {
    None
}

#[cfg(target_arch = "x86_64")]
pub fn used(pairs: &[Pair]) -> Option<Used> {
    let mut used = Used { gaps: 0, gap: 0, judge: 0 };
    let request =
        portal::ffi::RawRequest { principal: b"p", action: b"a", resource: b"r", ..Default::default() };
    let raise = |most: &mut usize, call: &mut dyn FnMut() -> u64| *most = (*most).max(painted::used_by(call));
    for pair in pairs {
        let [first, second] = &pair.stored;
        let mut values = [0; portal::ffi::VALUES_BYTES];
        raise(&mut used.gaps, &mut || portal::ffi::gaps(first, second));
        raise(&mut used.gap, &mut || portal::ffi::gap(first, second, 0, &mut values));
        raise(&mut used.judge, &mut || portal::ffi::judge(first, &request));
    }
    Some(used)
}

pub fn text(used: &Used) -> String {
    let beside = |bytes: usize| format!("{} + {WORKSPACE_BYTES}", bytes.saturating_sub(WORKSPACE_BYTES));
    let rows = [
        vec!["bytes of stack, workspace apart".to_string(), String::new()],
        vec!["stamenhum_gaps".to_string(), beside(used.gaps)],
        vec!["stamenhum_gap".to_string(), beside(used.gap)],
        vec!["stamenhum_judge".to_string(), used.judge.to_string()],
    ];
    table::aligned(&rows)
}

#[cfg(target_arch = "x86_64")]
mod painted {
    use std::arch::asm;

    const WORDS: usize = 1 << 17;
    const PAINT: u64 = 0xA5A5_5A5A_C3C3_3C3C;

    type Call<'a> = &'a mut dyn FnMut() -> u64;

    /// The bytes between the top of the stack and the lowest word that the call wrote.
    pub fn used_by(call: Call) -> usize {
        let mut stack = vec![PAINT; WORDS];
        let mut call = call;
        let top = stack.as_mut_ptr_range().end;
        // SAFETY: the stack pointer is set to the end of a block of our own, aligned to 16 bytes, kept in a register that
        // the called function saves, and set back. The call neither unwinds nor keeps a pointer to that stack.
        unsafe {
            asm!(
                "mov r12, rsp",
                "mov rsp, {top}",
                "and rsp, -16",
                "call {enter}",
                "mov rsp, r12",
                top = in(reg) top,
                enter = sym enter,
                in("rdi") &mut call as *mut Call,
                out("r12") _,
                clobber_abi("C"),
            );
        }
        let untouched = stack.iter().take_while(|&&word| word == PAINT).count();
        (WORDS - untouched) * size_of::<u64>()
    }

    extern "C" fn enter(call: *mut Call) {
        // SAFETY: `used_by` hands in a pointer to a call that it holds alone.
        let _ = unsafe { (*call)() };
    }
}
