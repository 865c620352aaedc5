//! The reader on tables that no loader writes, and on RAM and flash at any places: the library's walk and page against the own walker's.

use crate::check::{compare_walk, unchanged, Tally};
use crate::ffi::{Lent, Memories};
use crate::memory::Area;
use crate::rng::Rng;
use crate::rules::{Boot, Fault, PAGE};
use crate::walker::{self, Part};

/// A page number in an area, or next to it.
fn draw_near(rng: &mut Rng, area: Area) -> u32 {
    let first = area.from().div_ceil(PAGE);
    (first + rng.below(area.pages() + 2)).wrapping_sub(1) as u32
}

/// A page table entry of any kind. Pointers are into RAM for the most part, pages into RAM or flash.
fn draw_entry(rng: &mut Rng, ram: Area, flash: Area) -> u32 {
    let mut number = |area| match rng.below(8) {
        0 => rng.word(),
        1 => rng.word() << 10, // a border of 4 MiB
        _ => draw_near(rng, area),
    };
    let (table, in_ram, in_flash) = (number(ram) << 10, number(ram) << 10, number(flash) << 10);
    let page = rng.pick(&[in_ram, in_flash]);
    let high_bits = if rng.chance(30) {
        rng.word() & 0x3e0
    } else {
        0
    };
    match rng.below(20) {
        0..=7 => table | 1 | high_bits | if rng.chance(20) { 16 } else { 0 }, // a pointer
        8 => in_flash | 1,                                                    // a pointer too
        9..=12 => page | 1 | rng.word() & 0x3ff,                              // a page, most likely
        13 => rng.word() << 20 | 1 | rng.word() & 0x3ff, // of 4 MiB, on its border
        14 => page | 5 | high_bits | rng.word() & 0x18,  // write without read
        15 => 22,
        16 => 22 | high_bits,
        17 => 22 | page,
        18 => rng.word() & !1,
        _ => rng.word(),
    }
}

/// Any start and any length, up to some pages; the end may pass 2^32.
fn draw_area(rng: &mut Rng, most: u64) -> Area {
    let odd_length = if rng.chance(40) { rng.below(PAGE) } else { 0 };
    let len = rng.below(most) * PAGE + odd_length;
    let page = match rng.below(6) {
        0 => 0,
        1 => (1 << 20) - 1 - rng.below(8),
        2 => (1 << 20) - (len / PAGE).max(1),
        _ => rng.below(1 << 20),
    };
    let odd_start = match rng.below(10) {
        0..=5 => 0,
        6 => rng.pick(&[1, 2, 3, 4, 4092, 4095]),
        _ => rng.below(PAGE),
    };
    Area {
        start: (page * PAGE + odd_start) as u32,
        len,
    }
}

/// Flash: anywhere, or at, in or around RAM, whole pages off its start or not.
fn draw_flash(rng: &mut Rng, ram: Area) -> Area {
    let area = draw_area(rng, 5);
    let off = rng.below((ram.pages() + 4) * PAGE);
    let off = rng.pick(&[off, off / PAGE * PAGE, 0]);
    let near = (ram.from() + off).wrapping_sub(2 * PAGE) as u32;
    Area {
        start: rng.pick(&[area.start, near, near]),
        ..area
    }
}

/// RAM full of such entries, and flash, both at any start and of any length.
pub fn malformed(rng: &mut Rng) -> Memories {
    let ram = draw_area(rng, 7);
    let flash = draw_flash(rng, ram);
    let mut bytes = rng.bytes(ram.len);
    // Words on physical addresses that are multiples of 4, as tables have them.
    let first = (ram.from().wrapping_neg() % 4).min(ram.len) as usize;
    for word in bytes[first..].chunks_exact_mut(4) {
        word.copy_from_slice(&draw_entry(rng, ram, flash).to_le_bytes());
    }
    let (shift, flash_shift) = (rng.index(8), rng.index(8));
    Memories {
        ram: Lent::new(&bytes, shift).at(ram.start),
        flash: Lent::new(&rng.bytes(flash.len), flash_shift).at(flash.start),
    }
}

/// Page numbers of root tables: in RAM, at its edges, in flash, at 2^32, and such as would wrap into RAM.
pub fn draw_root(rng: &mut Rng, lent: &Memories) -> u32 {
    let ram = lent.ram.memory().area();
    let inside = (ram.from() / PAGE + rng.below(ram.pages() + 3)).saturating_sub(1) as u32;
    match rng.below(16) {
        4 => draw_near(rng, lent.flash.memory().area()),
        0 => inside.wrapping_add(rng.pick(&[1 << 20, 1 << 22, 1 << 31, 3 << 20])),
        1 => (1 << 20) - 3 + rng.below(8) as u32,
        2 => rng.word(),
        3 => rng.pick(&[
            0,
            1,
            (1 << 20) - 1,
            1 << 20,
            (1 << 22) - 1,
            1 << 22,
            u32::MAX,
        ]),
        _ => inside,
    }
}

/// Any address; in half of the draws the first of some at which there is a page in RAM or in flash, if there is one.
pub fn draw_address(rng: &mut Rng, lent: &Memories, root: u32) -> u32 {
    let (ram, flash) = (lent.ram.memory(), lent.flash.memory());
    let mut address = rng.word();
    for _ in 0..rng.pick(&[0, 16]) {
        let found = walker::walk(ram, root, address);
        if walker::part(ram, flash, found, Fault::None) != Part::Empty {
            break;
        }
        address = rng.word();
    }
    address
}

fn compare_one(
    lent: &mut Memories,
    root: u32,
    address: u32,
    fault: Fault,
    rng: &mut Rng,
    tally: &mut Tally,
) -> Result<(), String> {
    let want = walker::walk(lent.ram.memory(), root, address);
    compare_walk(lent, root, address, want, fault, rng, tally)
}

pub fn compare_malformed(fault: Fault, rng: &mut Rng, tally: &mut Tally) -> Result<(), String> {
    let mut lent = malformed(rng);
    let (ram, flash) = (lent.ram.bytes().to_vec(), lent.flash.bytes().to_vec());
    for _ in 0..160 {
        let root = draw_root(rng, &lent);
        let address = draw_address(rng, &lent, root);
        compare_one(&mut lent, root, address, fault, rng, tally)
            .map_err(|error| format!("malformed tables: {error}"))?;
    }
    unchanged("RAM of malformed tables", &lent.ram, &ram)?;
    unchanged("flash beside malformed tables", &lent.flash, &flash)
}

/// A loaded RAM in which some entries of the tables are then spoilt.
pub fn compare_spoilt(
    boot: &Boot,
    lent: &mut Memories,
    fault: Fault,
    rng: &mut Rng,
    tally: &mut Tally,
) -> Result<(), String> {
    let (area, flash) = (lent.ram.memory().area(), lent.flash.memory().area());
    let (near, pages) = (area.from() / PAGE, area.pages());
    let last = *boot.plan.processes().end();
    for _ in 0..rng.between(1, 8) {
        let process = rng.between(1, last.into()) as u32;
        let telling: Vec<u32> = boot.plan.telling_pages(process).collect();
        let page = rng.pick(&telling);
        let root = boot.plan.root(process);
        // The entry in the root, or the one in the leaf table that the root's entry points to.
        let mut at = (u64::from(root) - near) * PAGE + u64::from(page >> 10) * 4;
        if rng.chance(70) {
            let bytes = lent.ram.bytes();
            let from = at as usize;
            let entry = u32::from_le_bytes([
                bytes[from],
                bytes[from + 1],
                bytes[from + 2],
                bytes[from + 3],
            ]);
            let leaf = (u64::from(entry >> 10)).wrapping_sub(near);
            if leaf < pages {
                at = leaf * PAGE + u64::from(page % 1024) * 4;
            }
        }
        let entry = draw_entry(rng, area, flash).to_le_bytes();
        lent.ram.bytes_mut()[at as usize..at as usize + 4].copy_from_slice(&entry);
        for near_page in [page - 1, page, page + 1, page ^ 1024, page ^ 512] {
            for root in [root, boot.plan.root(1)] {
                let address = near_page << 12 | rng.word() >> 20;
                compare_one(lent, root, address, fault, rng, tally)
                    .map_err(|error| format!("spoilt tables: {error}"))?;
            }
        }
    }
    Ok(())
}
