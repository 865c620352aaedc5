//! 02's rule (A6) for the sections that are used straight from flash, and take no RAM.

use crate::kind_word;
use crate::memory::Memory;
use crate::rules::{Board, Fault, Process, Section, NOCOPY, PAGE, WRITABLE};

/// What keeps a section out of flash that is of a process of kind 1, "with neither NOCOPY nor writable".
#[derive(Clone, Copy, PartialEq, Eq, Debug)]
pub enum Cause {
    Offset,
    ImageEnd,
    ByteBefore,
    ByteAfter,
}

/// The first byte of a section's first flash page, and the one after its last. The pages are counted from flash's start.
pub fn page_bytes(section: &Section) -> (u64, u64) {
    let end = section.offset + section.size;
    (section.offset / PAGE * PAGE, end.next_multiple_of(PAGE))
}

/// All causes that hold. "If its flash offset and virtual address agree modulo 4,096, all its flash pages lie wholly in the image, and
/// the flash bytes of those pages outside the section are zero": outside are the bytes of another section too.
pub fn causes(section: &Section, flash: &[u8], fault: Fault) -> Vec<Cause> {
    let (from, to) = page_bytes(section);
    let end = match fault {
        Fault::ImageEndPassed => flash.len() as u64 + 1,
        _ => flash.len() as u64,
    };
    let nonzero = |low: u64, high: u64| {
        let inside = |at: u64| (at as usize).min(flash.len());
        fault != Fault::NeighboursKept
            && flash[inside(low)..inside(high)]
                .iter()
                .any(|&byte| byte != 0)
    };
    let tried = [
        (Cause::Offset, section.offset % PAGE != section.va % PAGE),
        (Cause::ImageEnd, to > end),
        (Cause::ByteBefore, nonzero(from, section.offset)),
        (Cause::ByteAfter, nonzero(section.offset + section.size, to)),
    ];
    let holding = tried.into_iter().filter(|(_, holds)| *holds);
    holding.map(|(cause, _)| cause).collect()
}

/// Sections of user processes of kind 1 "with neither NOCOPY nor writable", by record.
pub fn candidates(board: &Board) -> Vec<bool> {
    let mut all = vec![false; board.sections.len()];
    let of_kind_1 = |process: &&Process| kind_word::kind(process.kind_word) == 1;
    for process in board.processes.iter().filter(of_kind_1) {
        for i in process.sections.clone() {
            let section = &board.sections[i];
            all[i] = !section.has(NOCOPY) && !section.has(WRITABLE);
        }
    }
    all
}

/// By record: whether the section is used straight from flash.
pub fn sections(board: &Board, flash: Memory, fault: Fault) -> Vec<bool> {
    let candidates = candidates(board).into_iter().zip(&board.sections);
    candidates
        .map(|(candidate, section)| candidate && causes(section, flash.bytes, fault).is_empty())
        .collect()
}
