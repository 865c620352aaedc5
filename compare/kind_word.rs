//! The kind word of a process record by 02's A7: the kind, and the stack of a user process, below which its sections lie.

use crate::rules::{Fault, KERNEL, PAGE};
use std::ops::Range;

/// Where the sections of a user process may begin, and where its stack ends, whatever its length.
pub const USER_START: u64 = 0x0000_1000;
pub const STACK_END: u64 = 0x8000_0000;

/// "The kind is now bits 0 to 7 of its word."
pub fn kind(word: u32) -> u32 {
    word & 0xff
}

/// Bits 8 to 15.
pub fn stack_bits(word: u32) -> u32 {
    word >> 8 & 0xff
}

/// "6 is now for kind 2 and up, or kind 1 on the kernel", "also for any bit set above 15, or any of bits 8 to 15 on the kernel".
pub fn draws_6(process_record: usize, word: u32) -> bool {
    match process_record {
        0 => word != 0,
        _ => kind(word) > 1 || word >> 16 != 0,
    }
}

/// "In a user process's kind word, bits 8 to 15 give the stack pages, 0 meaning sixteen."
pub fn stack_pages(word: u32, fault: Fault) -> u64 {
    match stack_bits(word) {
        _ if fault == Fault::SixteenAlways => 16,
        0 => 16,
        pages => pages.into(),
    }
}

/// The addresses of a user process's stack.
pub fn stack(word: u32, fault: Fault) -> Range<u64> {
    STACK_END - PAGE * stack_pages(word, fault)..STACK_END
}

/// Where the sections of a process may lie. "The range for sections ends just below that process's stack."
pub fn section_range(process_record: usize, word: u32, fault: Fault) -> Range<u64> {
    if process_record == 0 {
        return KERNEL;
    }
    let end = stack(word, fault).start;
    match fault {
        Fault::RangePageHigher => USER_START..end + PAGE,
        _ => USER_START..end,
    }
}
