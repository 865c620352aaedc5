//! The second program's own Sv32 reader, from 01's part "Entries", and 02's (A6) answer for a page's bytes.

use crate::memory::Memory;
use crate::rules::Fault;

/// What the reader answers at an address. `rights`: read 1, write 2, execute 4, user 8.
#[derive(Clone, Copy, PartialEq, Eq, Debug)]
pub enum Found {
    Absent,
    Reserved,
    Page { rights: u32, number: u32 },
}

/// A page table entry, read. `number` is a physical page number of 22 bits.
enum Entry {
    Absent,
    Reserved,
    Pointer { number: u32 },
    Page { rights: u32, number: u32 },
}

/// "An entry reads as absent, reserved, a pointer or a page."
fn decode(word: u32) -> Entry {
    let rights = (word >> 1) & 15;
    let number = word >> 10;
    match (word & 1, rights & 7) {
        (0, _) if word == 22 => Entry::Reserved,
        (0, _) => Entry::Absent,
        (_, 0) => Entry::Pointer { number },
        _ => Entry::Page { rights, number },
    }
}

/// Write without read is answered absent, at both levels.
fn writes_without_read(rights: u32) -> bool {
    rights & 3 == 2
}

/// Entry `index` of the table in physical page `number`; none if the table is not wholly inside RAM.
pub fn entry(ram: Memory, number: u32, index: u32) -> Option<u32> {
    let at = ram.place(number)? + index as usize * 4;
    let word = &ram.bytes[at..at + 4];
    Some(u32::from_le_bytes([word[0], word[1], word[2], word[3]]))
}

/// The walk from the root table in physical page `root` to the page that holds `address`.
pub fn walk(ram: Memory, root: u32, address: u32) -> Found {
    let inner = (address >> 12) & 1023;
    let Some(word) = entry(ram, root, address >> 22) else {
        return Found::Absent;
    };
    let leaf = match decode(word) {
        Entry::Absent => return Found::Absent,
        Entry::Reserved => return Found::Reserved,
        Entry::Page { rights, number } => {
            // A root-level page is one of 4 MiB, and must lie on a border of 4 MiB.
            if writes_without_read(rights) || number % 1024 != 0 {
                return Found::Absent;
            }
            return Found::Page {
                rights,
                number: number + inner,
            };
        }
        Entry::Pointer { number } => number,
    };
    let Some(word) = entry(ram, leaf, inner) else {
        return Found::Absent;
    };
    match decode(word) {
        Entry::Absent | Entry::Pointer { .. } => Found::Absent,
        Entry::Reserved => Found::Reserved,
        Entry::Page { rights, .. } if writes_without_read(rights) => Found::Absent,
        Entry::Page { rights, number } => Found::Page { rights, number },
    }
}

/// Where the 4,096 bytes of a page are, counted from the area's first byte.
#[derive(Clone, Copy, PartialEq, Eq, Debug)]
pub enum Part {
    Empty,
    Ram(usize),
    Flash(usize),
}

/// "As part of RAM or part of flash, uncopied, and is an empty part where no page is found or it lies wholly in neither; RAM goes first
/// if both hold it."
pub fn part(ram: Memory, flash: Memory, found: Found, fault: Fault) -> Part {
    let Found::Page { number, .. } = found else {
        return Part::Empty;
    };
    match (ram.place(number), flash.place(number)) {
        (Some(_), Some(at)) if fault == Fault::FlashFirst => Part::Flash(at),
        (Some(at), _) => Part::Ram(at),
        (None, Some(at)) => Part::Flash(at),
        (None, None) => Part::Empty,
    }
}

pub fn part_bytes<'a>(ram: Memory<'a>, flash: Memory<'a>, part: Part) -> &'a [u8] {
    match part {
        Part::Empty => &[],
        Part::Ram(at) => ram.page(at),
        Part::Flash(at) => flash.page(at),
    }
}
