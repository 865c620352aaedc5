//! Boot blocks in the making: records that can be changed one by one, and valid boards of all sizes.

use crate::images;
use crate::kind_word;
use crate::memory::{Area, Memory};
use crate::rng::Rng;
use crate::rules::{Board, Fault, Plan, Process, Region, Section, EXECUTABLE, NOCOPY, PAGE};
use std::ops::Range;

#[derive(Clone, Copy)]
pub struct ProcessRecord {
    pub entry: u32,
    pub first: u32,
    pub count: u32,
    pub kind_word: u32,
}

impl ProcessRecord {
    pub fn words(&self) -> [u32; 4] {
        [self.entry, self.first, self.count, self.kind_word]
    }

    pub fn set_stack_bits(&mut self, bits: u32) {
        self.kind_word = self.kind_word & !0xff00 | bits << 8;
    }
}

#[derive(Clone, Copy)]
pub struct SectionRecord {
    pub va: u32,
    pub size: u32,
    pub offset: u32,
    pub flags: u32,
}

impl SectionRecord {
    pub fn copied(&self) -> bool {
        self.flags & NOCOPY == 0
    }

    fn first_page(&self) -> u64 {
        u64::from(self.va) / PAGE
    }

    /// The last page; for size 0 the page of the address.
    pub fn last_page(&self) -> u64 {
        (u64::from(self.va) + u64::from(self.size.max(1)) - 1) / PAGE
    }

    /// Where its bytes end in flash.
    pub fn offset_end(&self) -> u64 {
        u64::from(self.offset) + u64::from(self.size)
    }
}

#[derive(Clone, Copy)]
pub struct RegionRecord {
    pub start: u32,
    pub pages: u32,
}

#[derive(Clone, Default)]
pub struct Draft {
    pub processes: Vec<ProcessRecord>,
    pub sections: Vec<SectionRecord>,
    pub regions: Vec<RegionRecord>,
    /// Header words to be overwritten, by index.
    pub header: Vec<(usize, u32)>,
    /// The block's true length where it is not the tight one.
    pub length: Option<usize>,
    pub flash: Vec<u8>,
    pub flash_start: u32,
    pub ram_len: u64,
    pub start: u32,
}

impl Draft {
    pub fn flash_len(&self) -> u64 {
        self.flash.len() as u64
    }

    pub fn memory_of_flash(&self) -> Memory<'_> {
        Memory {
            bytes: &self.flash,
            start: self.flash_start,
        }
    }

    pub fn area_of_ram(&self) -> Area {
        Area {
            start: self.start,
            len: self.ram_len,
        }
    }

    pub fn block(&self) -> Vec<u8> {
        let (p, s, r) = (
            self.processes.len(),
            self.sections.len(),
            self.regions.len(),
        );
        let offsets = [
            32,
            32 + 16 * p,
            32 + 16 * p + 16 * s,
            32 + 16 * p + 16 * s + 8 * r,
        ];
        let mut words = [1, offsets[3], p, offsets[0], s, offsets[1], r, offsets[2]]
            .map(|word| word as u32)
            .to_vec();
        for (index, value) in &self.header {
            words[*index] = *value;
        }
        words.extend(self.processes.iter().flat_map(ProcessRecord::words));
        words.extend(
            self.sections
                .iter()
                .flat_map(|r| [r.va, r.size, r.offset, r.flags]),
        );
        words.extend(self.regions.iter().flat_map(|r| [r.start, r.pages]));
        let mut block: Vec<u8> = words.iter().flat_map(|word| word.to_le_bytes()).collect();
        if let Some(length) = self.length {
            block.resize(length, 0);
        }
        block
    }

    /// The board as the rules know it; only for drafts that are not damaged.
    fn board(&self) -> Board {
        let process = |r: &ProcessRecord| Process {
            entry: r.entry,
            sections: r.first as usize..(r.first + r.count) as usize,
            kind_word: r.kind_word,
        };
        let section = |r: &SectionRecord| Section {
            va: r.va.into(),
            size: r.size.into(),
            offset: r.offset.into(),
            flags: r.flags,
        };
        let region = |r: &RegionRecord| Region {
            start: r.start.into(),
            pages: r.pages.into(),
        };
        Board {
            processes: self.processes.iter().map(process).collect(),
            sections: self.sections.iter().map(section).collect(),
            regions: self.regions.iter().map(region).collect(),
        }
    }

    /// The smallest number of RAM pages on which the draft boots.
    pub fn exact_pages(&self) -> u64 {
        let mut pages = 0;
        loop {
            let ram = Area {
                start: 0,
                len: pages * PAGE,
            };
            let flash = self.memory_of_flash();
            let needed = Plan::new(self.board(), flash, ram, Fault::None).needed();
            if needed <= pages {
                return pages;
            }
            pages = needed;
        }
    }

    /// An image of no bytes, and no section that is in it.
    pub fn empty_flash(&mut self) {
        self.flash.clear();
        for section in &mut self.sections {
            section.flags |= NOCOPY;
            section.offset = 0;
        }
    }

    /// The process record that owns a section, if the records still say so.
    pub fn owner(&self, section: usize) -> Option<usize> {
        let section = section as u64;
        self.processes.iter().position(|r| {
            let first = u64::from(r.first);
            first <= section && section < first + u64::from(r.count)
        })
    }

    /// The last section of a process, as far as there are so many.
    pub fn last_section(&self, process: usize) -> Option<usize> {
        let record = self.processes[process];
        let end = u64::from(record.first) + u64::from(record.count);
        end.min(self.sections.len() as u64)
            .checked_sub(1)
            .map(|last| last as usize)
    }

    /// Where the sections of a process may lie.
    pub fn section_range(&self, process: usize) -> Range<u64> {
        kind_word::section_range(process, self.processes[process].kind_word, Fault::None)
    }

    /// Moves a section, and its process's entry point with it if that lies in it.
    pub fn move_section(&mut self, section: usize, va: u32) {
        let old = self.sections[section];
        if let Some(owner) = self.owner(section) {
            let entry = &mut self.processes[owner].entry;
            if entry.wrapping_sub(old.va) < old.size {
                *entry = va.wrapping_add(entry.wrapping_sub(old.va));
            }
        }
        self.sections[section].va = va;
    }
}

/// How large a board is to be.
struct Size {
    processes: (u64, u64),
    sections: u64,
    section_pages: u64,
    regions: (u64, u64),
    /// RAM pages that the sections are to be stretched to; 0: as they come.
    target: u64,
    /// Whether most sections are to be used straight from flash.
    straight: bool,
}

fn draw_size(rng: &mut Rng) -> Size {
    let size = |processes, sections, section_pages, regions| Size {
        processes,
        sections,
        section_pages,
        regions,
        target: 0,
        straight: false,
    };
    match rng.below(100) {
        0..=15 => Size {
            straight: true,
            ..size((2, 5), rng.between(2, 10), 3, (0, 2))
        },
        16..=49 => size((1, 3), rng.between(1, 6), 3, (0, 2)),
        50..=84 => size((1, 16), rng.between(1, 64), 4, (0, 8)),
        85..=93 => size((16, 16), 64, 3, (32, 32)),
        94..=97 => Size {
            target: rng.between(200, 1000),
            ..size((1, 8), rng.between(1, 20), 4, (0, 32))
        },
        98 => Size {
            target: rng.between(1000, 4096),
            ..size((2, 16), rng.between(2, 64), 4, (0, 32))
        },
        _ => Size {
            target: 4096,
            ..size((2, 16), rng.between(2, 64), 4, (0, 32))
        },
    }
}

/// A block, flash and RAM that boot, with at least `room` pages free if there can be so many.
pub fn valid(rng: &mut Rng, room: u64) -> Draft {
    let size = draw_size(rng);
    let mut draft = Draft::default();
    let stacks = rng.pick(&[0, 100, 60, 60]);
    for (i, count) in draw_counts(rng, &size).into_iter().enumerate() {
        let bits = draw_stack_bits(rng);
        let has_bits = i > 0 && rng.chance(stacks);
        draft.processes.push(ProcessRecord {
            entry: 0,
            first: draft.sections.len() as u32,
            count,
            kind_word: if has_bits { bits << 8 } else { 0 },
        });
        let range = draft.section_range(i);
        place_sections(rng, &mut draft.sections, range, count, size.section_pages);
    }
    draw_regions(rng, &mut draft, size.regions);
    if size.target > 0 {
        stretch(rng, &mut draft, size.target);
    }
    if rng.chance(40) {
        make_twin(rng, &mut draft);
    }
    draw_kinds(rng, &mut draft, size.straight);
    draw_entries(rng, &mut draft);
    images::draw(rng, &mut draft, size.straight);
    let exact = draft.exact_pages();
    let spare = match rng.below(10) {
        0..=2 => 0,
        3 => 1,
        4..=7 => rng.between(1, 16),
        _ => rng.between(1, 100),
    };
    draft.ram_len = (exact + spare + room).min(exact.max(4096)) * PAGE;
    lay_out(rng, &mut draft);
    draft
}

/// Bits 8 to 15 of a kind word: the default, the least, those that 02 names, the most, and any.
pub fn draw_stack_bits(rng: &mut Rng) -> u32 {
    let any = rng.below(256) as u32;
    rng.pick(&[0, 0, 1, 1, 4, 4, 4, 16, 16, 255, 255, any])
}

/// A kind word with any of its bits set or turned, alone or with others; and such as are just none too many.
pub fn draw_kind_word(rng: &mut Rng, before: u32) -> u32 {
    let bit = 1 << rng.below(32);
    let stack = draw_stack_bits(rng) << 8;
    let kind = rng.below(256) as u32;
    match rng.below(16) {
        0..=4 => bit,
        5..=6 => before ^ bit,
        7 => bit | 1 << rng.below(32),
        8 => stack | bit,
        9..=10 => stack | rng.pick(&[1, 2, 2, 3, 128, 255, kind]),
        11..=12 => stack | rng.pick(&[0, 1]),
        13 => rng.pick(&[1, 2, 3, 255, kind]),
        14 => rng.pick(&[0xff, 0xff00, 0xff01, 0xffff, 0xffff_0000, u32::MAX]),
        _ => rng.word(),
    }
}

/// How many sections each process has.
fn draw_counts(rng: &mut Rng, size: &Size) -> Vec<u32> {
    let p = rng.between(size.processes.0, size.processes.1);
    let s = size.sections.clamp(p, 64);
    let mut counts = vec![1; p as usize];
    for _ in p..s {
        let i = rng.index(counts.len());
        counts[i] += 1;
    }
    counts
}

/// Sections of one process, rising: close together, over 4 MiB borders, far apart, at either end.
fn place_sections(
    rng: &mut Rng,
    sections: &mut Vec<SectionRecord>,
    range: Range<u64>,
    count: u32,
    most: u64,
) {
    let (low, high) = (range.start / PAGE, range.end / PAGE);
    let most = most.min((high - low) / u64::from(count));
    let lengths: Vec<u64> = (0..count).map(|_| rng.between(1, most)).collect();
    let mut still: u64 = lengths.iter().sum();
    let mut next = low;
    for (i, pages) in lengths.iter().copied().enumerate() {
        let room = high - next - still;
        let last = i + 1 == count as usize;
        let border = (next / 1024 + 1) * 1024;
        let gap = match rng.below(20) {
            0..=4 => 0,
            5..=8 => rng.below(20),
            9..=12 => (border - rng.between(0, pages)).saturating_sub(next),
            13..=14 if last => room,
            15..=16 if last => room.saturating_sub(rng.below(1020)),
            _ => rng.below(room + 1),
        };
        let first = next + gap.min(room);
        next = first + pages;
        still -= pages;
        sections.push(draw_section(rng, first, pages));
    }
}

/// A section over exactly these pages, at any sub-page offset and of any length that does so.
fn draw_section(rng: &mut Rng, first: u64, pages: u64) -> SectionRecord {
    let (from, to) = if pages == 2 && rng.chance(20) {
        (4095, 1) // two bytes over a page border
    } else {
        let from = match rng.below(10) {
            0..=3 => 0,
            4 => 4095,
            _ => rng.below(PAGE),
        };
        let to = match rng.below(10) {
            0..=3 => PAGE,
            4 => 1,
            _ => rng.between(1, PAGE),
        };
        (
            from,
            if pages == 1 && to <= from {
                rng.between(from + 1, PAGE)
            } else {
                to
            },
        )
    };
    SectionRecord {
        va: (first * PAGE + from) as u32,
        size: ((pages - 1) * PAGE + to - from) as u32,
        offset: 0,
        flags: rng.below(6) as u32,
    }
}

/// Region page counts; `lay_out` gives them their places.
fn draw_regions(rng: &mut Rng, draft: &mut Draft, range: (u64, u64)) {
    let count = rng.between(range.0, range.1);
    let mut left = match rng.below(10) {
        0..=5 => (count * 4).min(4096),
        6 => 4096,
        7..=8 => rng.between(3900, 4090), // RAM and I/O pages together near one tracker page
        _ => rng.between(count, 4096),
    };
    for i in 0..count {
        let rest = count - i - 1;
        let pages = if rest == 0 && rng.chance(50) {
            left
        } else {
            rng.between(1, (left - rest) * 2 / (rest + 2))
        };
        let pages = pages.clamp(1, left - rest);
        left -= pages;
        draft.regions.push(RegionRecord {
            start: 0,
            pages: pages as u32,
        });
    }
}

/// Lengthens and shortens last sections until the board needs about `target` pages, if it can be done.
fn stretch(rng: &mut Rng, draft: &mut Draft, target: u64) {
    for _ in 0..8 {
        let exact = draft.exact_pages();
        if exact == target {
            return;
        }
        let process = rng.index(draft.processes.len());
        let record = draft.processes[process];
        let high = draft.section_range(process).end / PAGE;
        let section = &mut draft.sections[(record.first + record.count - 1) as usize];
        if exact < target {
            let room = high - 1 - section.last_page();
            section.size += ((target - exact).min(room) * PAGE) as u32;
        } else {
            let surplus = section.last_page() - section.first_page();
            let fewer = (exact - target).min(surplus.saturating_sub(1));
            section.size -= (fewer * PAGE) as u32;
        }
    }
    // Too much after all: a process's last section is cut to one byte.
    for process in 0..draft.processes.len() {
        if draft.exact_pages() <= 4096 {
            return;
        }
        let record = draft.processes[process];
        draft.sections[(record.first + record.count - 1) as usize].size = 1;
    }
}

/// Gives a section the form of another, so that the two can be the same bytes of flash.
fn make_twin(rng: &mut Rng, draft: &mut Draft) {
    let of = draft.sections[rng.index(draft.sections.len())];
    let i = rng.index(draft.sections.len());
    let section = &mut draft.sections[i];
    let va = section.first_page() * PAGE + u64::from(of.va) % PAGE;
    let twin = SectionRecord {
        va: va as u32,
        size: of.size,
        ..*section
    };
    if twin.last_page() <= section.last_page() {
        *section = twin;
    }
}

/// Every process gets an executable section and an entry point in it, often its first or last byte.
fn draw_entries(rng: &mut Rng, draft: &mut Draft) {
    for process in &mut draft.processes {
        let chosen = (process.first as u64 + rng.below(process.count.into())) as usize;
        let section = &mut draft.sections[chosen];
        section.flags = section.flags & NOCOPY | EXECUTABLE;
        let inside = match rng.below(4) {
            0 => 0,
            1 => section.size - 1,
            _ => rng.below(section.size.into()) as u32,
        };
        process.entry = section.va + inside;
    }
}

/// Kinds of the user processes, beside their stack bits: all 0, all 1, or any.
fn draw_kinds(rng: &mut Rng, draft: &mut Draft, straight: bool) {
    let percent = rng.pick(&[0, 100, 60, 60]);
    for i in 1..draft.processes.len() {
        let process = &mut draft.processes[i];
        process.kind_word |= u32::from(straight || rng.chance(percent));
        let sections = process.first as usize..(process.first + process.count) as usize;
        for section in draft.sections[sections].iter_mut().filter(|_| straight) {
            section.flags = rng.pick(&[0, 0, EXECUTABLE, EXECUTABLE, 1, 2]);
        }
    }
}

/// Gives RAM, flash and the regions places that share nothing: touching, far apart, from 0, up to 2^32. An empty image may be anywhere.
fn lay_out(rng: &mut Rng, draft: &mut Draft) {
    let mut lengths: Vec<u64> = draft.regions.iter().map(|r| u64::from(r.pages)).collect();
    let ram_at = rng.index(lengths.len() + 1);
    lengths.insert(ram_at, draft.ram_len / PAGE);
    let flash_at = rng.index(lengths.len() + 1);
    lengths.insert(flash_at, draft.flash_len().div_ceil(PAGE));
    let mut starts = draw_starts(rng, &lengths);
    draft.flash_start = starts.remove(flash_at);
    draft.start = starts.remove(ram_at);
    for (region, start) in draft.regions.iter_mut().zip(starts) {
        region.start = start;
    }
    if draft.flash.is_empty() && rng.chance(50) {
        let page_of_ram = rng.below(draft.ram_len / PAGE) * PAGE;
        let anywhere = rng.word() & 0xffff_f000;
        draft.flash_start = rng.pick(&[draft.start + page_of_ram as u32, anywhere]);
    }
}

/// Rising addresses for areas of so many pages, one after the other.
fn draw_starts(rng: &mut Rng, lengths: &[u64]) -> Vec<u32> {
    let space = (1 << 20) - lengths.iter().sum::<u64>();
    let mut gaps: Vec<u64> = lengths.iter().map(|_| rng.below(space + 1)).collect();
    gaps.sort_unstable();
    for i in 0..gaps.len() {
        if i > 0 && rng.chance(30) {
            gaps[i] = gaps[i - 1];
        }
    }
    if rng.chance(15) {
        gaps[0] = 0;
    }
    if rng.chance(15) {
        gaps[lengths.len() - 1] = space;
    }
    let mut before = 0;
    let mut starts = Vec::new();
    for (gap, length) in gaps.iter().zip(lengths) {
        starts.push(((gap + before) * PAGE) as u32);
        before += length;
    }
    starts
}
