// How deep a call goes: it is made on a stack of its own, which is filled with a pattern before. x86-64 alone, as the
// library.
use std::arch::asm;

const WORDS: usize = 4_096; // 32 KiB
const PATTERN: u64 = 0x6B8B_4567_327B_23C6;
const IN_REGISTERS: usize = 6; // the first arguments of a C function; the others stand on the stack, 8 bytes each

#[repr(align(16))]
struct Words([u64; WORDS]);

pub struct Stack {
    words: Box<Words>,
}

// What a call returned, and how many bytes of the stack it took: from the end of the arguments that stand there to the
// lowest place that was written, the return address being in between.
pub struct Made {
    pub returned: u32,
    pub bytes: usize,
}

impl Stack {
    pub fn new() -> Stack {
        Stack { words: Box::new(Words([PATTERN; WORDS])) }
    }

    // Makes a call by the C convention: six arguments in registers, the others from the top of the stack on, the first
    // of them lowest, at a multiple of 16.
    //
    // SAFETY: the function takes these arguments, whole numbers or pointers, and may be called with them; it returns a
    // number of 32 bits, and 32 KiB of stack are enough.
    pub unsafe fn call(&mut self, function: *const (), arguments: &[u64]) -> Made {
        let words = &mut self.words.0;
        let (registers, stacked) = arguments.split_at(IN_REGISTERS);
        let first = (WORDS - stacked.len()) & !1;
        let end = first + stacked.len();
        words[first..end].copy_from_slice(stacked);
        let top = words.as_mut_ptr().add(first);
        let returned: u64;
        asm!(
            "mov r12, rsp",
            "mov rsp, r13",
            "call r14",
            "mov rsp, r12",
            out("r12") _,
            in("r13") top,
            in("r14") function,
            in("rdi") registers[0],
            in("rsi") registers[1],
            in("rdx") registers[2],
            in("rcx") registers[3],
            in("r8") registers[4],
            in("r9") registers[5],
            lateout("rax") returned,
            clobber_abi("sysv64"),
        );
        let lowest = words.iter().position(|&word| word != PATTERN).unwrap_or(end);
        assert!(lowest > WORDS / 8, "the stack is too short to be sure");
        words[lowest..].fill(PATTERN);
        Made { returned: returned as u32, bytes: (end - lowest) * size_of::<u64>() }
    }
}

// How many bytes of so many arguments stand on the stack.
pub fn stacked_bytes(arguments: usize) -> usize {
    arguments.saturating_sub(IN_REGISTERS) * size_of::<u64>()
}
