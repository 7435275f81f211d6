//! How much stack a C function takes.
//!
//! The function is called on a stack of its own, painted from end to end. The deepest byte that has lost its paint says
//! how far down the function went. Two paints are tried, so a byte that is written cannot look like one that is not.
//! Nothing of the harness stands on that stack: what is measured is the function, however the harness was built.

use std::arch::asm;

/// An argument of a C function. A buffer is its pointer and its length; the function gets a copy.
#[derive(Clone, Debug)]
pub enum Argument {
    Number(u32),
    Float(f32),
    Buffer(Vec<u8>),
}

impl From<u32> for Argument {
    fn from(number: u32) -> Argument {
        Argument::Number(number)
    }
}

impl From<f32> for Argument {
    fn from(float: f32) -> Argument {
        Argument::Float(float)
    }
}

impl From<&[u8]> for Argument {
    fn from(buffer: &[u8]) -> Argument {
        Argument::Buffer(buffer.to_vec())
    }
}

/// Far more than any call may take.
const ROOM: usize = 1 << 20;

/// The stack begins at an address that divides by this, so that frames lie alike in every run.
const PAGE: usize = 4_096;

const PAINTS: [u8; 2] = [0xA5, 0x5A];

/// Calls a function. Returns its number and the bytes of stack that it took, those of its return address too. Arguments
/// that the caller puts on the stack are not counted.
///
/// # Safety
/// The function takes these arguments, and returns a number.
pub unsafe fn taken(function: *const (), arguments: &[Argument]) -> (u32, usize) {
    let [first, second] = PAINTS.map(|paint| unsafe { painted(paint, function, arguments) });
    assert_eq!(first.0, second.0, "one call, two numbers");
    (first.0, first.1.max(second.1))
}

unsafe fn painted(paint: u8, function: *const (), arguments: &[Argument]) -> (u32, usize) {
    let mut buffers: Vec<Vec<u8>> = Vec::new();
    let (mut words, mut floats): (Vec<u64>, Vec<f32>) = (Vec::new(), Vec::new());
    for argument in arguments {
        match argument {
            Argument::Number(number) => words.push(u64::from(*number)),
            Argument::Float(float) => floats.push(*float),
            Argument::Buffer(bytes) => {
                let mut buffer = bytes.clone();
                words.extend([buffer.as_mut_ptr() as u64, buffer.len() as u64]);
                buffers.push(buffer);
            }
        }
    }
    // Six words go into registers, and the others on the stack, the first one lowest. Floats have registers of their own.
    words.resize(words.len().max(6), 0);
    let on_stack: Vec<u8> = words.split_off(6).into_iter().flat_map(u64::to_le_bytes).collect();
    assert!(floats.len() <= 3, "more floats than registers for them here");
    floats.resize(3, 0.0);

    let mut stack = vec![paint; ROOM + PAGE];
    let end = stack.len() - stack.as_ptr_range().end as usize % PAGE;
    let top = end - on_stack.len().next_multiple_of(16);
    stack[top..top + on_stack.len()].copy_from_slice(&on_stack);
    let number: u32;
    asm!(
        "xchg rsp, r12",
        "call r13",
        "mov rsp, r12",
        inout("r12") stack.as_mut_ptr().add(top) => _,
        in("r13") function,
        in("rdi") words[0],
        in("rsi") words[1],
        in("rdx") words[2],
        in("rcx") words[3],
        in("r8") words[4],
        in("r9") words[5],
        in("xmm0") floats[0],
        in("xmm1") floats[1],
        in("xmm2") floats[2],
        lateout("eax") number,
        clobber_abi("C"),
    );
    let untouched = stack.iter().position(|byte| *byte != paint).unwrap();
    assert!(untouched > 0, "a call that takes all of the {ROOM} bytes that it was given");
    (number, top.saturating_sub(untouched))
}
