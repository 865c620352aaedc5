//! The generated inputs: valid boards, boards damaged at the boundary of each refusal, mangled and
//! random blocks, each with a flash image and dirty RAM.

use crate::draft::{self, Draft, ProcessRecord, RegionRecord, SectionRecord};
use crate::kind_word;
use crate::memory::{Area, Memory};
use crate::rng::Rng;
use crate::rules::{self, Fault, EXECUTABLE, NOCOPY, PAGE};
use crate::small;

pub struct Case {
    /// What kind of case it is, for the report.
    pub what: String,
    pub block: Vec<u8>,
    pub flash: Vec<u8>,
    pub flash_start: u32,
    pub ram: Vec<u8>,
    pub start: u32,
}

impl Case {
    pub fn memory_of_flash(&self) -> Memory<'_> {
        Memory {
            bytes: &self.flash,
            start: self.flash_start,
        }
    }

    pub fn memory_of_ram(&self) -> Memory<'_> {
        Memory {
            bytes: &self.ram,
            start: self.start,
        }
    }
}

/// Case `number` of the run with this seed. The first are those of the small board: P1 to P12, then A7's.
pub fn generate(seed: u64, number: u64) -> Case {
    let mut rng = Rng::new(seed, number, 0);
    let (what, draft) = match small::marked(number) {
        Some(mut marked) => {
            rng.fill(&mut marked.draft.flash);
            (marked.name, marked.draft)
        }
        None => match rng.below(100) {
            0..=39 => ("valid board".to_string(), draft::valid(&mut rng, 0)),
            40..=83 => damaged(&mut rng),
            84..=93 => return mangled(&mut rng),
            _ => return random(&mut rng),
        },
    };
    finish(&mut rng, what, draft.block(), draft)
}

fn finish(rng: &mut Rng, what: String, block: Vec<u8>, draft: Draft) -> Case {
    Case {
        what,
        block,
        ram: dirty_ram(rng, draft.ram_len),
        flash: draft.flash,
        flash_start: draft.flash_start,
        start: draft.start,
    }
}

/// RAM as it may be found: noise for the most part, else all zeros, all ones, or like page tables.
pub fn dirty_ram(rng: &mut Rng, len: u64) -> Vec<u8> {
    match rng.below(16) {
        0 => vec![0; len as usize],
        1 => vec![0xff; len as usize],
        2 => {
            let mut ram = rng.bytes(len);
            for word in ram.chunks_exact_mut(4) {
                word[0] = [0, 1, 0x16, 0x53, 0x5b, 0xd7][word[1] as usize % 6];
            }
            ram
        }
        _ => rng.bytes(len),
    }
}

/// A valid board with one to three damages, each on one or the other side of a refusal's boundary.
fn damaged(rng: &mut Rng) -> (String, Draft) {
    // In most cases with room for what a harmless damage may need more.
    let room = if rng.chance(80) { 12 } else { 0 };
    let mut draft = draft::valid(rng, room);
    let count = if rng.chance(75) { 1 } else { rng.between(2, 3) };
    let mut what = "damaged at".to_string();
    for _ in 0..count {
        // 6, 8, 11 and 13, which have the most causes, more often than the others.
        let number = match rng.between(1, 18) {
            14..=15 => 11,
            16 => 13,
            17 => 6,
            18 => 8,
            number => number,
        };
        what += &format!(" {number}");
        damage(rng, &mut draft, number);
    }
    (what, draft)
}

fn damage(rng: &mut Rng, draft: &mut Draft, number: u64) {
    match number {
        1 => damage_ram(rng, draft),
        2 => draft.length = Some(rng.pick(&[0, 1, 4, 31, 31, 32, 33])),
        3 => {
            let format = rng.word();
            draft.header.push((
                0,
                rng.pick(&[0, 1, 2, 3, 257, 0x0100_0000, 0x8000_0001, u32::MAX, format]),
            ));
        }
        4 => damage_counts(rng, draft),
        5 => damage_offsets(rng, draft),
        6 if rng.chance(60) => damage_kind_word(rng, draft),
        6 => damage_process(rng, draft),
        7 => damage_section(rng, draft),
        8 if rng.chance(60) => damage_by_stack(rng, draft),
        8 => damage_section_place(rng, draft),
        9 => damage_flash(rng, draft),
        10 => damage_entry(rng, draft),
        11 if rng.chance(50) => damage_region_by_flash(rng, draft),
        11 => damage_region(rng, draft),
        12 => damage_ram_pages(rng, draft),
        _ => {
            damage_flash_place(rng, draft);
            // What is tried before 13, and what after.
            match rng.below(8) {
                0..=1 => damage_ram(rng, draft),
                2..=3 => draft.length = Some(rng.pick(&[0, 31, 31, 32])),
                _ => {}
            }
        }
    }
}

/// 1: RAM not of whole pages, over 4,096 pages, at an odd start, or past 2^32; and the last that pass.
fn damage_ram(rng: &mut Rng, draft: &mut Draft) {
    match rng.below(10) {
        0 => draft.ram_len += 1,
        1 => draft.ram_len -= draft.ram_len.min(1),
        2 => draft.ram_len += rng.between(1, 4095),
        3 => draft.ram_len = rng.below(4096),
        4 => draft.start = draft.start.wrapping_add(rng.pick(&[1, 2, 4, 2048, 4095])),
        5 => draft.start |= rng.below(4096) as u32,
        6 => {
            draft.ram_len = draft.ram_len.max(PAGE);
            draft.start = ((1 << 32) - draft.ram_len) as u32; // ends at 2^32
        }
        7 => {
            draft.ram_len = draft.ram_len.max(2 * PAGE);
            let past = if rng.chance(60) {
                1
            } else {
                rng.between(1, draft.ram_len / PAGE - 1)
            };
            draft.start = ((1 << 32) - draft.ram_len + past * PAGE) as u32;
        }
        8 if rng.chance(25) => draft.ram_len = rng.pick(&[4096, 4097, 4097, 4098]) * PAGE,
        8 => draft.ram_len += PAGE / 2,
        _ => {
            draft.ram_len = 0;
            draft.start = draft.start.wrapping_add(rng.pick(&[0, 0, 1]));
        }
    }
}

/// 4: counts outside their bounds, some of which would wrap into the right offsets.
fn damage_counts(rng: &mut Rng, draft: &mut Draft) {
    let (p, s, r) = (
        draft.processes.len() as u32,
        draft.sections.len() as u32,
        draft.regions.len() as u32,
    );
    match rng.below(8) {
        0 => draft
            .header
            .push((2, rng.pick(&[0, 1, 16, 17, p + (1 << 28), u32::MAX]))),
        1 => draft
            .header
            .push((4, rng.pick(&[0, 1, 64, 65, s + (1 << 28), u32::MAX]))),
        2 => draft
            .header
            .push((6, rng.pick(&[32, 33, r + (1 << 29), u32::MAX]))),
        // Tight and consistent, but one record too many, or just the most there may be.
        3 => {
            let most = rng.pick(&[16, 17]);
            while draft.processes.len() < most {
                draft.processes.push(ProcessRecord {
                    entry: 0x1000,
                    first: s,
                    count: 1,
                    kind_word: 0,
                });
            }
        }
        4 => {
            let most = rng.pick(&[64, 65]);
            while draft.sections.len() < most {
                draft.sections.push(SectionRecord {
                    va: 0x1000,
                    size: 1,
                    offset: 0,
                    flags: NOCOPY,
                });
            }
        }
        5 => {
            let most = rng.pick(&[32, 33]);
            while draft.regions.len() < most {
                let start = draft
                    .regions
                    .last()
                    .map_or(0, |r| r.start.wrapping_add(r.pages.wrapping_mul(4096)));
                draft.regions.push(RegionRecord { start, pages: 1 });
            }
        }
        // Too few: no process, or no section.
        6 => draft.processes.clear(),
        _ => draft.sections.clear(),
    }
}

/// 5: an offset or a length that is not the tight one.
fn damage_offsets(rng: &mut Rng, draft: &mut Draft) {
    let block = Draft {
        length: None,
        ..draft.clone()
    }
    .block();
    let word = |i: usize| {
        u32::from_le_bytes([
            block[4 * i],
            block[4 * i + 1],
            block[4 * i + 2],
            block[4 * i + 3],
        ])
    };
    let off = rng.pick(&[1, u32::MAX, 4, 8, 16, 16u32.wrapping_neg(), 1 << 31, 1 << 8]);
    match rng.below(8) {
        0..=3 => {
            let index = rng.pick(&[1, 3, 5, 7]);
            draft.header.push((index, word(index).wrapping_add(off)));
        }
        4 => draft.length = Some(block.len() + rng.pick(&[1, 3, 8, 4096])),
        5 => draft.length = Some(block.len() - rng.pick(&[1, 4, 8])),
        6 => {
            // The two lengths agree with each other, but are not tight.
            draft.length = Some(block.len() + 8);
            draft.header.push((1, block.len() as u32 + 8));
        }
        _ => {
            draft.header.push((5, word(7)));
            draft.header.push((7, word(5)));
        }
    }
}

/// 6: every bit of the kind word, on the kernel and on users.
fn damage_kind_word(rng: &mut Rng, draft: &mut Draft) {
    if draft.processes.is_empty() {
        return;
    }
    let last = draft.processes.len() - 1;
    let any = rng.index(last + 1);
    let process = &mut draft.processes[rng.pick(&[0, any, any, last])];
    process.kind_word = draft::draw_kind_word(rng, process.kind_word);
}

/// 6: counts and sums of the process records.
fn damage_process(rng: &mut Rng, draft: &mut Draft) {
    if draft.processes.is_empty() {
        return;
    }
    let last = draft.processes.len() - 1;
    let i = rng.index(last + 1);
    let next = (i + 1).min(last);
    let taken = draft.processes[i].count;
    match rng.below(10) {
        0..=1 => draft.processes[i].count = 0,
        2 => {
            draft.processes[i].first =
                draft.processes[i]
                    .first
                    .wrapping_add(rng.pick(&[1, u32::MAX, 1 << 31]))
        }
        3 => {
            draft.processes[i].count =
                taken.wrapping_add(rng.pick(&[1, u32::MAX, u32::MAX - taken]))
        }
        4 => draft.processes[last].count = draft.processes[last].count.wrapping_add(1),
        5 => draft.processes[last].count = draft.processes[last].count.saturating_sub(1),
        6 if next > i => {
            // All sections go to the next process: every sum is right, one count is 0.
            draft.processes[next].first = draft.processes[i].first;
            draft.processes[next].count = draft.processes[next].count.wrapping_add(taken);
            draft.processes[i].count = 0;
        }
        7 if next > i && taken > 1 => {
            // One section goes to the next process: every sum is right.
            draft.processes[i].count -= 1;
            draft.processes[next].first = draft.processes[next].first.wrapping_sub(1);
            draft.processes[next].count = draft.processes[next].count.wrapping_add(1);
        }
        8 if next > i => {
            // A sum that comes back by wrapping at 32 bits.
            draft.processes[i].count = taken.wrapping_sub(1);
            draft.processes[next].first =
                draft.processes[i].first.wrapping_add(taken).wrapping_sub(1);
            draft.processes[next].count = u32::MAX;
        }
        _ => draft.sections.push(SectionRecord {
            va: 0x1000,
            size: 1,
            offset: 0,
            flags: NOCOPY,
        }),
    }
}

/// 7: sizes and flags.
fn damage_section(rng: &mut Rng, draft: &mut Draft) {
    if draft.sections.is_empty() {
        return;
    }
    let i = rng.index(draft.sections.len());
    let section = &mut draft.sections[i];
    match rng.below(7) {
        0 => section.size = 0,
        1 => section.flags |= 8,
        2 => section.flags |= 1 << rng.between(3, 31),
        3 => section.flags = rng.pick(&[6, 7]),
        4 => {
            section.flags |= NOCOPY;
            section.offset = rng.pick(&[1, 4096, 1 << 31, u32::MAX]);
        }
        // Harmless ones: NOCOPY with each other flag.
        5 => {
            section.flags |= NOCOPY;
            section.offset = 0;
        }
        _ => section.size = 1,
    }
}

/// 8: one off at either end of the owner's range, and at the previous section's last page.
fn damage_section_place(rng: &mut Rng, draft: &mut Draft) {
    if draft.sections.is_empty() {
        return;
    }
    let i = rng.index(draft.sections.len());
    let Some(owner) = draft.owner(i) else { return };
    let first = draft.processes[owner].first as usize;
    let last = draft.last_section(owner).unwrap_or(i);
    let range = draft.section_range(owner);
    match rng.below(10) {
        0..=1 => {
            let va = range.start as u32 - rng.pick(&[0, 0, 1, 4096]);
            draft.move_section(first, va);
        }
        2..=3 => {
            let va = (range.end as u32).wrapping_sub(draft.sections[last].size);
            draft.move_section(last, va.wrapping_add(rng.pick(&[0, 0, 1, 4096])));
        }
        4..=6 if i > first => {
            // On the page of the previous section's end, or on the one above it.
            let page = draft.sections[i - 1].last_page() + rng.below(2);
            let inside = rng.pick(&[0, 0, 4095, 2048]);
            draft.move_section(i, (page * PAGE + inside) as u32);
        }
        7 if i > first => draft.sections.swap(i, i - 1),
        8 => {
            let va = rng.pick(&[
                0,
                0x0fff,
                0x7ff0_1000,
                0x7fff_0000,
                0x7fff_c000,
                0x8000_0000,
                0xffbf_ffff,
                0xffc0_0000,
                0xfff0_0000,
                u32::MAX,
            ]);
            draft.move_section(i, va);
        }
        // Sizes whose end would wrap back into the range.
        _ => {
            let va = draft.sections[i].va;
            let wrapped = (range.start as u32).wrapping_add(16).wrapping_sub(va);
            draft.sections[i].size = rng.pick(&[u32::MAX, wrapped, va.wrapping_neg(), 1 << 31]);
        }
    }
}

/// 8: a last section at the edge of its process's stack, of any length, or at the edge that four or sixteen pages would have.
fn damage_by_stack(rng: &mut Rng, draft: &mut Draft) {
    if draft.processes.len() < 2 || draft.sections.is_empty() {
        return;
    }
    let i = rng.between(1, draft.processes.len() as u64 - 1) as usize;
    let Some(last) = draft.last_section(i) else {
        return;
    };
    let process = &mut draft.processes[i];
    if rng.chance(70) {
        process.set_stack_bits(draft::draw_stack_bits(rng));
    }
    let pages = kind_word::stack_pages(process.kind_word, Fault::None);
    let pages = rng.pick(&[pages, pages, pages, 4, 16]);
    let end = (kind_word::STACK_END - PAGE * pages) as u32;
    let section = &mut draft.sections[last];
    if rng.chance(40) {
        section.size = rng.pick(&[1, 2, 4095, 4096, 4097]);
    }
    let past = rng.pick(&[0, 0, 0, 1, 1, 1, 2, 4096, u32::MAX]);
    let va = end.wrapping_add(past).wrapping_sub(section.size);
    draft.move_section(last, va);
}

/// 9: copied sections that end with flash, or one past it.
fn damage_flash(rng: &mut Rng, draft: &mut Draft) {
    let copied: Vec<usize> = (0..draft.sections.len())
        .filter(|&i| draft.sections[i].copied())
        .collect();
    if copied.is_empty() {
        draft.flash.clear();
        return;
    }
    let len = draft.flash_len();
    let section = &mut draft.sections[copied[rng.index(copied.len())]];
    let end = section.offset_end();
    match rng.below(8) {
        0..=1 => section.offset = len.saturating_sub(section.size.into()) as u32,
        2..=3 => section.offset = len.saturating_sub(section.size.into()) as u32 + 1,
        4 => draft.flash.truncate(end as usize),
        5 => draft.flash.truncate(end as usize - 1),
        6 => section.offset = rng.pick(&[u32::MAX, section.size.wrapping_neg(), 1 << 31]),
        _ => draft.flash.clear(),
    }
}

/// 10: entry points one off at either end of an executable section, or in a wrong section.
fn damage_entry(rng: &mut Rng, draft: &mut Draft) {
    if draft.processes.is_empty() || draft.sections.is_empty() {
        return;
    }
    let process = rng.index(draft.processes.len());
    let (first, count) = (
        draft.processes[process].first as usize,
        draft.processes[process].count as usize,
    );
    let own: Vec<SectionRecord> = draft
        .sections
        .iter()
        .copied()
        .skip(first)
        .take(count)
        .collect();
    let executable: Vec<SectionRecord> = own
        .iter()
        .copied()
        .filter(|r| r.flags & EXECUTABLE != 0)
        .collect();
    let other = draft.sections[rng.index(draft.sections.len())];
    let entry = &mut draft.processes[process].entry;
    match (rng.below(8), executable.is_empty()) {
        (0..=4, false) => {
            let section = executable[rng.index(executable.len())];
            let end = section.va.wrapping_add(section.size);
            *entry = rng.pick(&[
                section.va.wrapping_sub(1),
                section.va,
                end.wrapping_sub(1),
                end,
            ]);
        }
        (5, _) if !own.is_empty() => *entry = own[rng.index(own.len())].va,
        (6, _) => *entry = other.va,
        _ => *entry ^= 1 << rng.below(32),
    }
}

/// 11: regions at the edges of RAM, of the region before, of 2^32 and of the total.
fn damage_region(rng: &mut Rng, draft: &mut Draft) {
    if draft.regions.is_empty() {
        draft.regions.push(RegionRecord {
            start: 0x1000,
            pages: 1,
        });
    }
    let i = rng.index(draft.regions.len());
    let pages = draft.regions[i].pages.min(64);
    let ram_from = u64::from(draft.start);
    let ram_to = ram_from + draft.ram_len;
    // In half of the cases the region stands alone, so that only its own place decides.
    let alone = rng.chance(50);
    let total: u64 = draft.regions.iter().map(|r| u64::from(r.pages)).sum();
    let (start, pages) = match rng.below(16) {
        0 => (
            u64::from(draft.regions[i].start) + rng.pick(&[1, 2048, 4095]),
            pages,
        ),
        1 => (draft.regions[i].start.into(), 0),
        2 => ((1 << 32) - u64::from(pages) * PAGE, pages),
        3 => ((1 << 32) - u64::from(pages) * PAGE, pages + 1),
        4 => (
            draft.regions[i].start.into(),
            rng.pick(&[1 << 20, (1 << 20) + 1, 1 << 31, u32::MAX]),
        ),
        5..=6 if i > 0 => {
            let before = draft.regions[i - 1];
            let end = u64::from(before.start) + u64::from(before.pages) * PAGE;
            (end.saturating_sub(rng.pick(&[0, 4096])), pages)
        }
        // Touching RAM from below or above, or sharing its first or last page.
        7..=8 => (
            ram_from.saturating_sub(u64::from(pages) * PAGE) + rng.pick(&[0, 4096]),
            pages,
        ),
        9..=10 => (ram_to.saturating_sub(rng.pick(&[0, 4096])), pages),
        11 => (
            ram_from.saturating_sub(PAGE),
            (draft.ram_len / PAGE) as u32 + 2,
        ),
        12 => {
            // Empty RAM inside a region shares no address with it.
            draft.ram_len = 0;
            (ram_from.saturating_sub(PAGE), 3)
        }
        13 => (ram_to + 2048, pages),
        _ => {
            let most: u32 = rng.pick(&[4096, 4097]);
            let here = if alone {
                0
            } else {
                total - u64::from(draft.regions[i].pages)
            };
            (
                draft.regions[i].start.into(),
                most.saturating_sub(here as u32).max(1),
            )
        }
    };
    draft.regions[i] = RegionRecord {
        start: start as u32,
        pages,
    };
    if alone {
        draft.regions = vec![draft.regions[i]];
    }
}

/// 11: regions at the edges of flash: touching it from below or above, on its first or its last page, around it; and an empty image in a
/// region.
fn damage_region_by_flash(rng: &mut Rng, draft: &mut Draft) {
    let from = u64::from(draft.flash_start);
    let pages = rng.between(1, 3);
    if rng.chance(40) {
        // A last page of which one byte or all but one is in the image.
        let len = draft.flash.len().next_multiple_of(PAGE as usize);
        draft.flash.resize(len + rng.pick(&[1, 4095]), 0);
    }
    let end = from + draft.flash_len().next_multiple_of(PAGE);
    let start = match rng.below(10) {
        0 => from.wrapping_sub(pages * PAGE),
        1 => from.wrapping_sub((pages - 1) * PAGE),
        2..=3 => end,
        4..=6 => end - PAGE.min(end),
        7..=8 => {
            draft.empty_flash();
            from.wrapping_sub(PAGE)
        }
        _ => from.wrapping_sub(PAGE),
    };
    let long = draft.flash_len().div_ceil(PAGE) + 2;
    draft.regions = vec![RegionRecord {
        start: start as u32,
        pages: rng.pick(&[pages, pages, pages, long]) as u32,
    }];
}

/// 13: flash at an odd start, at and past 2^32, and at the edges of RAM.
fn damage_flash_place(rng: &mut Rng, draft: &mut Draft) {
    let whole = draft.flash_len().next_multiple_of(PAGE);
    let (ram_from, ram_to) = (draft.area_of_ram().from(), draft.area_of_ram().to());
    let top = 1u64 << 32;
    let odd = rng.pick(&[0, 1, 2048, 4095]);
    let some = PAGE * rng.below(whole / PAGE + 1);
    let one_byte_more = rng.chance(40);
    let start = match rng.below(16) {
        0..=1 => u64::from(draft.flash_start) + odd,
        2 => {
            draft.empty_flash();
            rng.pick(&[draft.flash_start.into(), ram_from + PAGE, top - PAGE]) + odd
        }
        // Up to 2^32, or past it.
        3..=4 => top - whole,
        5 => top - some,
        // Up to RAM from below, and sharing some of it.
        6..=8 => ram_from.wrapping_sub(whole),
        9 => ram_from.wrapping_sub(some),
        // From the end of RAM on, from its last page on, or from any.
        10..=11 => ram_to,
        12 => ram_to.wrapping_sub(PAGE),
        13 => ram_from + PAGE * rng.below(draft.ram_len / PAGE + 1),
        14 => {
            draft.empty_flash();
            ram_from + PAGE * rng.below(draft.ram_len / PAGE + 1)
        }
        _ => {
            // Empty RAM in flash shares no address with it.
            draft.ram_len = 0;
            ram_from.wrapping_sub(some)
        }
    };
    if one_byte_more && !draft.flash.is_empty() {
        draft.flash.resize(whole as usize + 1, 0);
    }
    draft.flash_start = start as u32;
}

/// 12: RAM with just the pages needed, one or some fewer; and trackers on the border of one page.
fn damage_ram_pages(rng: &mut Rng, draft: &mut Draft) {
    if rng.chance(25) {
        draft.ram_len = rng.below((draft.ram_len / PAGE).max(16)) * PAGE;
        return;
    }
    // The exact number can only be counted while the other records are sound.
    let flash = draft.memory_of_flash().area();
    let no_ram = Area { start: 0, len: 0 };
    if rules::read_board(&draft.block(), flash, no_ram, Fault::None).is_err() {
        return;
    }
    let exact = draft.exact_pages();
    match rng.below(3) {
        0 if exact < 4096 => {
            // One region such that RAM and I/O pages fill one tracker page, or are one too many.
            let pages = 4096 - exact as u32 + rng.below(2) as u32;
            let far = |start: &u32| {
                let near = [draft.start, draft.flash_start];
                near.iter().all(|at| at.abs_diff(*start) > 0x1000_0000)
            };
            let starts = [0x3000_0000, 0x8000_0000, 0xc000_0000];
            let start = starts.into_iter().find(far).unwrap_or(0);
            draft.regions = vec![RegionRecord { start, pages }];
            draft.ram_len = exact * PAGE;
        }
        1 => draft.ram_len = exact * PAGE,
        _ => draft.ram_len = (exact - 1) * PAGE,
    }
}

/// Words that lie on some boundary.
const ODD_WORDS: [u32; 24] = [
    0,
    1,
    2,
    4,
    5,
    7,
    16,
    17,
    32,
    33,
    64,
    0x0400,
    0x0401,
    4095,
    4096,
    0x1000_0000,
    0x7ffe_ffff,
    0x7fff_0000,
    0x7fff_bfff,
    0x7fff_c000,
    0x8000_0000,
    0xffc0_0000,
    0xfff0_0000,
    u32::MAX,
];

/// A valid board whose block is then cut, lengthened, or changed in some bits or words.
fn mangled(rng: &mut Rng) -> Case {
    let mut draft = draft::valid(rng, 0);
    let mut block = draft.block();
    match rng.below(4) {
        0 => block.truncate(rng.index(block.len() + 1)),
        1 => {
            for _ in 0..rng.between(1, 4) {
                let at = rng.index(block.len());
                block[at] ^= 1 << rng.below(8);
            }
        }
        _ => {
            for _ in 0..rng.between(1, 3) {
                let at = rng.index(block.len() / 4) * 4;
                let word = if rng.chance(70) {
                    rng.pick(&ODD_WORDS)
                } else {
                    rng.word()
                };
                block[at..at + 4].copy_from_slice(&word.to_le_bytes());
            }
        }
    }
    if rng.chance(20) {
        draft.flash.truncate(rng.index(draft.flash.len() + 1));
    }
    finish(rng, "mangled block".to_string(), block, draft)
}

/// Noise: a block of noise alone, or with a right header, or with a right header and likely words.
fn random(rng: &mut Rng) -> Case {
    let (p, s, r) = (rng.between(1, 3), rng.between(1, 5), rng.below(3));
    let mut block = rng.bytes(32 + 16 * p + 16 * s + 8 * r);
    let kind = rng.below(3);
    if kind == 0 {
        let len = rng.below(400);
        block = rng.bytes(len);
    } else {
        let header = [
            1,
            block.len() as u64,
            p,
            32,
            s,
            32 + 16 * p,
            r,
            32 + 16 * p + 16 * s,
        ];
        for (i, word) in header.iter().enumerate() {
            block[4 * i..4 * i + 4].copy_from_slice(&(*word as u32).to_le_bytes());
        }
    }
    if kind == 2 {
        for word in block[32..].chunks_exact_mut(4) {
            word.copy_from_slice(&rng.pick(&ODD_WORDS).to_le_bytes());
        }
    }
    let draft = random_places(rng);
    finish(rng, "random block".to_string(), block, draft)
}

/// RAM and flash of any length, anywhere.
fn random_places(rng: &mut Rng) -> Draft {
    let odd = if rng.chance(20) { rng.below(4096) } else { 0 };
    let mut start =
        || (rng.below(1 << 20) * PAGE + if rng.chance(10) { rng.below(4096) } else { 0 }) as u32;
    let (start, flash_start) = (start(), start());
    let flash_len = rng.below(9000);
    Draft {
        flash: rng.bytes(flash_len),
        flash_start,
        ram_len: rng.below(40) * PAGE + odd,
        start,
        ..Draft::default()
    }
}
