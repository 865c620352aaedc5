//! 01's rules for one call of the loader, as 02 changes them, written a second time.
//!
//! The structure is not that of a loader: first what each process sees is worked out from the block
//! (a map from virtual page to reserved or to rights and a use), then the uses that take a page of RAM are
//! put in 01's order, then the bytes of each are worked out, and last they are laid over RAM.

use crate::kind_word;
use crate::memory::{Area, Memory};
use crate::straight;
use std::collections::{BTreeMap, BTreeSet};
use std::ops::Range;

pub const PAGE: u64 = 4096;
const END: u64 = 1 << 32;

pub const NOCOPY: u32 = 1;
pub const WRITABLE: u32 = 2;
pub const EXECUTABLE: u32 = 4;

/// Where the kernel's sections may lie, and what the top of the address space holds.
pub const KERNEL: Range<u64> = 0xffc0_0000..0xfff0_0000;
const BLOCK_COPY_PAGE: u32 = 0xfff00;
pub const TRACKER_PAGE: u32 = 0xfff40;
pub const LIST_PAGE: u32 = 0xfff80;
/// The root entry of the kernel's leaf table.
const KERNEL_ENTRY: u32 = 1023;

/// Rights as `rigpollen_walk` numbers them.
const READ: u32 = 1;
const WRITE: u32 = 2;
const EXECUTE: u32 = 4;
const BY_USER: u32 = 8;

/// The flags of a page's entry: 1, the rights times 2, and by 02 (A1) "accessed (64), and writable ones dirty (128) too".
fn page_flags(rights: u32) -> u32 {
    let dirty = if rights & WRITE != 0 { 128 } else { 0 };
    1 | rights << 1 | 64 | dirty
}

/// Faults that can be switched on here to try the comparison: 01's five (the third has two halves), those of the block writer, those of
/// a record's offset, those of sections used straight from flash, and those of the stack's pages.
#[derive(Clone, Copy, PartialEq, Eq)]
pub enum Fault {
    None,
    PartBeforeKept,
    PagesBySize,
    LeafPerSection,
    LeafForStack,
    CopyThenRefuse,
    OffsetOfFlash,
    FirstComputed,
    TouchedBefore22,
    TailCleared,
    SixBefore22,
    PartRecordDropped,
    ProcessesSkipped,
    RegionsOfSixteen,
    WrittenWithoutOffset,
    NeighboursKept,
    ImageEndPassed,
    FlashLeafLeftOut,
    ThirteenFirst,
    ThirteenAfterTwo,
    EmptyShares,
    LastFlashPageFree,
    FlashFirst,
    SixteenAlways,
    RangePageHigher,
}

pub const FAULTS: [(Fault, &str); 24] = [
    (
        Fault::PartBeforeKept,
        "1 the part of a page before the section is not cleared",
    ),
    (
        Fault::PagesBySize,
        "2 a section's pages are size / 4,096 rounded up",
    ),
    (
        Fault::LeafPerSection,
        "3 a leaf table for each section of a 4 MiB block",
    ),
    (
        Fault::LeafForStack,
        "3 a leaf table for the stack beside the one of block 511",
    ),
    (
        Fault::CopyThenRefuse,
        "4 copying until RAM runs out, then refusing",
    ),
    (
        Fault::OffsetOfFlash,
        "5 the sub-page offset is that of flash",
    ),
    (
        Fault::FirstComputed,
        "A2 the first section is computed, not the caller's",
    ),
    (Fault::TouchedBefore22, "A2 the buffer is touched before 22"),
    (
        Fault::TailCleared,
        "A2 the buffer is cleared beyond the block",
    ),
    (Fault::SixBefore22, "A2 6 is tried before 22"),
    (
        Fault::PartRecordDropped,
        "A2 words after the last whole record are dropped",
    ),
    (
        Fault::ProcessesSkipped,
        "A5 a section record's offset is without the process records",
    ),
    (
        Fault::RegionsOfSixteen,
        "A5 a region record's offset is by 16 bytes a record",
    ),
    (
        Fault::WrittenWithoutOffset,
        "A5 the writer's 6 has offset 0",
    ),
    (
        Fault::NeighboursKept,
        "A6 the flash bytes beside a section need not be zero",
    ),
    (
        Fault::ImageEndPassed,
        "A6 a section's last flash page may end one byte past the image",
    ),
    (
        Fault::FlashLeafLeftOut,
        "A6 no leaf table for a section in flash",
    ),
    (Fault::ThirteenFirst, "A6 13 is tried before 1"),
    (Fault::ThirteenAfterTwo, "A6 13 is tried after 2"),
    (Fault::EmptyShares, "A6 an empty image in RAM draws 13"),
    (
        Fault::LastFlashPageFree,
        "A6 a region may be on the page in which the image ends",
    ),
    (Fault::FlashFirst, "A6 flash goes first if both hold a page"),
    (
        Fault::SixteenAlways,
        "A7 every user process has sixteen stack pages",
    ),
    (
        Fault::RangePageHigher,
        "A7 the range for sections ends a page higher than the stack",
    ),
];

#[derive(Clone)]
pub struct Section {
    pub va: u64,
    pub size: u64,
    pub offset: u64,
    pub flags: u32,
}

impl Section {
    pub fn has(&self, flag: u32) -> bool {
        self.flags & flag != 0
    }

    fn end(&self) -> u64 {
        self.va + self.size
    }

    fn last_page(&self) -> u64 {
        (self.end() - 1) / PAGE
    }

    /// The virtual pages that hold a byte of the section.
    fn pages(&self, fault: Fault) -> Range<u32> {
        let first = self.va / PAGE;
        let past = match fault {
            Fault::PagesBySize => first + self.size.div_ceil(PAGE),
            _ => self.last_page() + 1,
        };
        first as u32..past as u32
    }

    /// The 4,096 bytes of one of its pages: byte j of the section at va + j, zero elsewhere.
    fn page_bytes(&self, flash: &[u8], page: u32, fault: Fault) -> Vec<u8> {
        let mut bytes = vec![0; PAGE as usize];
        if self.has(NOCOPY) {
            return bytes;
        }
        let va = match fault {
            Fault::OffsetOfFlash => self.va / PAGE * PAGE + self.offset % PAGE,
            _ => self.va,
        };
        let base = u64::from(page) * PAGE;
        let low = va.max(base);
        let high = (va + self.size).min(base + PAGE);
        if low < high {
            let from = (self.offset + low - va) as usize;
            let count = (high - low) as usize;
            let at = (low - base) as usize;
            bytes[at..at + count].copy_from_slice(&flash[from..from + count]);
        }
        bytes
    }
}

#[derive(Clone)]
pub struct Process {
    pub entry: u32,
    pub sections: Range<usize>,
    pub kind_word: u32,
}

#[derive(Clone)]
pub struct Region {
    pub start: u64,
    pub pages: u64,
}

/// A boot block, read.
#[derive(Clone)]
pub struct Board {
    pub processes: Vec<Process>,
    pub sections: Vec<Section>,
    pub regions: Vec<Region>,
}

impl Board {
    pub fn io_pages(&self) -> u64 {
        self.regions.iter().map(|region| region.pages).sum()
    }

    /// The tight offsets and length of its block.
    fn tight(&self) -> [u64; 4] {
        let counts = [
            self.processes.len(),
            self.sections.len(),
            self.regions.len(),
        ];
        tight(counts.map(|count| count as u64))
    }
}

/// A record that is checked: its place, and by 02 (A5) "the byte offset of the record within the block".
#[derive(Clone, Copy)]
pub struct Record {
    pub place: u32,
    pub offset: u32,
}

impl Record {
    /// "On success and for every number but 6 to 11, place and offset are 0."
    pub const NONE: Record = Record {
        place: 0,
        offset: 0,
    };

    /// Record `i` of the list at byte `list` of the block, whose records have so many bytes.
    fn nth(i: usize, list: u64, bytes: u64) -> Record {
        Record {
            place: i as u32,
            offset: (list + bytes * i as u64) as u32,
        }
    }
}

/// A refusal: its number and the refused record.
pub struct Refusal(pub u32, pub Record);

fn refuse_if(cause: bool, number: u32, record: Record) -> Result<(), Refusal> {
    if cause {
        Err(Refusal(number, record))
    } else {
        Ok(())
    }
}

/// The words of a record or of the header.
fn words<const N: usize>(block: &[u8], at: usize) -> [u32; N] {
    std::array::from_fn(|i| {
        let from = at + 4 * i;
        u32::from_le_bytes([
            block[from],
            block[from + 1],
            block[from + 2],
            block[from + 3],
        ])
    })
}

/// Whether there may be so many processes, sections and regions.
pub fn within_bounds([p, s, r]: [u64; 3]) -> bool {
    (1..=16).contains(&p) && (1..=64).contains(&s) && r <= 32
}

/// The tight offsets of the three lists of records, and the tight length.
pub fn tight([p, s, r]: [u64; 3]) -> [u64; 4] {
    [
        32,
        32 + 16 * p,
        32 + 16 * p + 16 * s,
        32 + 16 * p + 16 * s + 8 * r,
    ]
}

pub fn is_unfit_ram(ram: Area) -> bool {
    ram.len % PAGE != 0 || ram.pages() > 4096 || ram.from() % PAGE != 0 || ram.to() > END
}

/// The causes of 13, by 02 (A6): "if flash's start is not a multiple of 4,096, its end passes 2^32, or it shares an address with RAM".
pub fn causes_of_13(flash: Area, ram: Area, fault: Fault) -> [bool; 3] {
    let shares = match fault {
        Fault::EmptyShares => flash.from() < ram.to() && ram.from() < flash.to(),
        _ => flash.shares(ram.from(), ram.to()),
    };
    [flash.from() % PAGE != 0, flash.to() > END, shares]
}

/// Refusals 1 to 11 and 13, in 01's order; 13 comes "after 1".
pub fn read_board(block: &[u8], flash: Area, ram: Area, fault: Fault) -> Result<Board, Refusal> {
    let one = (is_unfit_ram(ram), 1);
    let thirteen = (causes_of_13(flash, ram, fault).contains(&true), 13);
    let two = (block.len() < 32, 2);
    let order = match fault {
        Fault::ThirteenFirst => [thirteen, one, two],
        Fault::ThirteenAfterTwo => [one, two, thirteen],
        _ => [one, thirteen, two],
    };
    for (cause, number) in order {
        refuse_if(cause, number, Record::NONE)?;
    }
    let board = read_block(block)?;
    check_sections(&board, flash.len, fault)?;
    check_entries(&board)?;
    check_regions(&board, flash, ram, fault)?;
    Ok(board)
}

/// Refusals 2 to 6: the block's records.
pub fn read_block(block: &[u8]) -> Result<Board, Refusal> {
    refuse_if(block.len() < 32, 2, Record::NONE)?;
    let [format, length, p, p_at, s, s_at, r, r_at] = words::<8>(block, 0);
    refuse_if(format != 1, 3, Record::NONE)?;
    let counts = [p, s, r].map(u64::from);
    refuse_if(!within_bounds(counts), 4, Record::NONE)?;
    let tight = tight(counts);
    refuse_if(
        [p_at, s_at, r_at, length].map(u64::from) != tight || block.len() as u64 != tight[3],
        5,
        Record::NONE,
    )?;
    let processes = read_processes(block, p as usize, s as usize)?;
    let sections = (0..s as usize)
        .map(|i| {
            let [va, size, offset, flags] = words::<4>(block, tight[1] as usize + 16 * i);
            Section {
                va: va.into(),
                size: size.into(),
                offset: offset.into(),
                flags,
            }
        })
        .collect();
    let regions = (0..r as usize)
        .map(|i| {
            let [start, pages] = words::<2>(block, tight[2] as usize + 8 * i).map(u64::from);
            Region { start, pages }
        })
        .collect();
    Ok(Board {
        processes,
        sections,
        regions,
    })
}

/// Refusal 6. The last sum is tried as part of the last record.
pub fn read_processes(block: &[u8], p: usize, s: usize) -> Result<Vec<Process>, Refusal> {
    let mut processes = Vec::new();
    let mut sum = 0u64;
    for i in 0..p {
        let record = Record::nth(i, 32, 16);
        let [entry, first, count, kind_word] = words::<4>(block, record.offset as usize);
        let after = sum + u64::from(count);
        let wrong = kind_word::draws_6(i, kind_word)
            || count == 0
            || u64::from(first) != sum
            || after > s as u64
            || (i + 1 == p && after != s as u64);
        refuse_if(wrong, 6, record)?;
        processes.push(Process {
            entry,
            sections: sum as usize..after as usize,
            kind_word,
        });
        sum = after;
    }
    Ok(processes)
}

/// Refusals 7, 8 and 9, all three for one section before the next.
pub fn check_sections(board: &Board, flash_len: u64, fault: Fault) -> Result<(), Refusal> {
    let [_, list, ..] = board.tight();
    for (owner, process) in board.processes.iter().enumerate() {
        let range = kind_word::section_range(owner, process.kind_word, fault);
        let mut previous: Option<&Section> = None;
        for i in process.sections.clone() {
            let section = &board.sections[i];
            let record = Record::nth(i, list, 16);
            let malformed = section.size == 0
                || section.flags > 7
                || (section.has(WRITABLE) && section.has(EXECUTABLE))
                || (section.has(NOCOPY) && section.offset != 0);
            refuse_if(malformed, 7, record)?;
            let misplaced = section.va < range.start
                || section.end() > range.end
                || previous.is_some_and(|before| section.va / PAGE <= before.last_page());
            refuse_if(misplaced, 8, record)?;
            refuse_if(
                !section.has(NOCOPY) && section.offset + section.size > flash_len,
                9,
                record,
            )?;
            previous = Some(section);
        }
    }
    Ok(())
}

/// Refusal 10.
fn check_entries(board: &Board) -> Result<(), Refusal> {
    let [list, ..] = board.tight();
    for (i, process) in board.processes.iter().enumerate() {
        let entry = u64::from(process.entry);
        let inside = board.sections[process.sections.clone()]
            .iter()
            .any(|section| section.has(EXECUTABLE) && section.va <= entry && entry < section.end());
        refuse_if(!inside, 10, Record::nth(i, list, 16))?;
    }
    Ok(())
}

/// Refusal 11. "A region that shares one with flash draws 11": an address that holds a byte of the image.
pub fn check_regions(
    board: &Board,
    mut flash: Area,
    ram: Area,
    fault: Fault,
) -> Result<(), Refusal> {
    if fault == Fault::LastFlashPageFree {
        flash.len = flash.pages() * PAGE;
    }
    let [_, _, list, _] = board.tight();
    let mut before = 0;
    let mut total = 0;
    for (i, region) in board.regions.iter().enumerate() {
        let (start, pages) = (region.start, region.pages);
        let end = start + PAGE * pages;
        total += pages;
        let wrong = start % PAGE != 0
            || pages == 0
            || end > END
            || start < before
            || ram.shares(start, end)
            || flash.shares(start, end)
            || total > 4096;
        refuse_if(wrong, 11, Record::nth(i, list, 8))?;
        before = end;
    }
    Ok(())
}

/// What a page is for. All but the section pages that are in flash are taken from RAM. Processes are numbered from 1.
#[derive(Clone, Copy, PartialEq, Eq, PartialOrd, Ord, Debug)]
pub enum Use {
    Section {
        process: u32,
        section: usize,
        page: u32,
    },
    Tracker {
        part: u32,
    },
    ProcessList,
    BlockCopy,
    Root {
        process: u32,
    },
    Leaf {
        process: u32,
        nth: usize,
    },
}

/// What a process sees on one virtual page.
#[derive(Clone, Copy, Debug)]
pub enum Sight {
    Reserved,
    Page { rights: u32, page: Use },
}

/// What a process sees: virtual pages that are not in the map are absent.
pub type View = BTreeMap<u32, Sight>;

/// The section pages of a process, and the reserved stack of a user process.
fn own_view(board: &Board, process: u32, fault: Fault) -> View {
    let mut view = View::new();
    let owner = &board.processes[process as usize - 1];
    for section in owner.sections.clone() {
        let record = &board.sections[section];
        let rights = READ
            | if record.has(WRITABLE) { WRITE } else { 0 }
            | if record.has(EXECUTABLE) { EXECUTE } else { 0 }
            | if process > 1 { BY_USER } else { 0 };
        for page in record.pages(fault) {
            view.insert(
                page,
                Sight::Page {
                    rights,
                    page: Use::Section {
                        process,
                        section,
                        page,
                    },
                },
            );
        }
    }
    if process > 1 {
        let stack = kind_word::stack(owner.kind_word, fault);
        let pages = (stack.start / PAGE) as u32..(stack.end / PAGE) as u32;
        view.extend(pages.map(|page| (page, Sight::Reserved)));
    }
    view
}

/// What every process sees in the top 4 MiB: the kernel's sections, the block copy, the tracker and the process list.
fn kernel_view(kernel: &View, tracker_pages: u32) -> View {
    let mut view = kernel.clone();
    view.insert(
        BLOCK_COPY_PAGE,
        Sight::Page {
            rights: READ,
            page: Use::BlockCopy,
        },
    );
    for part in 0..tracker_pages {
        let page = Use::Tracker { part };
        view.insert(
            TRACKER_PAGE + part,
            Sight::Page {
                rights: READ | WRITE,
                page,
            },
        );
    }
    view.insert(
        LIST_PAGE,
        Sight::Page {
            rights: READ,
            page: Use::ProcessList,
        },
    );
    view
}

/// A leaf table of a process: its 4 MiB block (its index in the root) and the virtual pages it maps.
struct Leaf {
    block: u32,
    pages: Vec<u32>,
}

/// The section that is seen, if it is one.
fn section_of(sight: &Sight) -> Option<usize> {
    match sight {
        Sight::Page {
            page: Use::Section { section, .. },
            ..
        } => Some(*section),
        _ => None,
    }
}

/// One leaf table for each 4 MiB block in which the process sees something of its own, rising.
fn leaves(view: &View, straight: &[bool], fault: Fault) -> Vec<Leaf> {
    let mut tables: Vec<Leaf> = Vec::new();
    let mut last = None;
    for (&page, sight) in view {
        let block = page >> 10;
        let section = section_of(sight);
        let parted = match fault {
            Fault::LeafPerSection => section.is_some() && section != last,
            Fault::LeafForStack => section.is_none() && last.is_some(),
            _ => false,
        };
        match tables.last_mut() {
            Some(table) if table.block == block && !parted => table.pages.push(page),
            _ => tables.push(Leaf {
                block,
                pages: vec![page],
            }),
        }
        last = section;
    }
    if fault == Fault::FlashLeafLeftOut {
        let outside = |sight: &Sight| !section_of(sight).is_some_and(|section| straight[section]);
        let seen = view.iter().filter(|(_, sight)| outside(sight));
        let blocks: BTreeSet<u32> = seen.map(|(page, _)| page >> 10).collect();
        tables.retain(|table| blocks.contains(&table.block));
    }
    tables
}

/// All uses that take a page of RAM, in 01's order. `own` has what each process sees, the kernel's sections too.
fn order_of_pages(
    own: &[View],
    straight: &[bool],
    tracker_pages: u32,
    leaves: &[Vec<Leaf>],
) -> Vec<Use> {
    let mut order: Vec<Use> = Vec::new();
    // A process's sections rise, so the order of their pages is that of the virtual pages.
    for view in own[1..].iter().chain([&own[0]]) {
        let in_flash = |sight: &Sight| section_of(sight).is_some_and(|i| straight[i]);
        let in_ram = view.values().filter(|sight| !in_flash(sight));
        order.extend(in_ram.filter_map(|sight| match sight {
            Sight::Page { page, .. } => Some(*page),
            Sight::Reserved => None,
        }));
    }
    order.extend((0..tracker_pages).map(|part| Use::Tracker { part }));
    order.extend([Use::ProcessList, Use::BlockCopy]);
    for (process, tables) in (1..).zip(leaves) {
        order.push(Use::Root { process });
        order.extend((0..tables.len()).map(|nth| Use::Leaf { process, nth }));
    }
    order
}

/// What each process sees, and which pages are taken for it, in 01's order.
pub struct Plan {
    pub board: Board,
    ram: Area,
    flash_start: u32,
    /// By section: whether it is used straight from flash.
    pub straight: Vec<bool>,
    fault: Fault,
    /// By process, from process 1; each without the kernel's 4 MiB.
    own: Vec<View>,
    kernel: View,
    leaves: Vec<Vec<Leaf>>,
    order: Vec<Use>,
    index: BTreeMap<Use, usize>,
    pub tracker_pages: u64,
}

impl Plan {
    pub fn new(board: Board, flash: Memory, ram: Area, fault: Fault) -> Plan {
        let straight = straight::sections(&board, flash, fault);
        Plan::with(board, straight, flash.start, ram, fault)
    }

    /// The plan where these sections are used straight from flash.
    pub fn with(
        board: Board,
        straight: Vec<bool>,
        flash_start: u32,
        ram: Area,
        fault: Fault,
    ) -> Plan {
        let last = board.processes.len() as u32;
        let tracker_pages = (ram.pages() + board.io_pages()).div_ceil(PAGE);
        let mut own: Vec<View> = (1..=last)
            .map(|process| own_view(&board, process, fault))
            .collect();
        let kernel = kernel_view(&own[0], tracker_pages as u32);
        let mut all_leaves = vec![vec![Leaf {
            block: KERNEL_ENTRY,
            pages: kernel.keys().copied().collect(),
        }]];
        all_leaves.extend(own[1..].iter().map(|view| leaves(view, &straight, fault)));
        let order = order_of_pages(&own, &straight, tracker_pages as u32, &all_leaves);
        own[0].clear();
        let index = order
            .iter()
            .enumerate()
            .map(|(i, page)| (*page, i))
            .collect();
        Plan {
            board,
            ram,
            flash_start,
            straight,
            fault,
            own,
            kernel,
            leaves: all_leaves,
            order,
            index,
            tracker_pages,
        }
    }

    /// The four lost pages and all taken ones.
    pub fn needed(&self) -> u64 {
        4 + self.order.len() as u64
    }

    pub fn processes(&self) -> std::ops::RangeInclusive<u32> {
        1..=self.board.processes.len() as u32
    }

    /// The part of the map that tells what the process sees in this 4 MiB block.
    fn view_of(&self, process: u32, page: u32) -> &View {
        if page >> 10 == KERNEL_ENTRY {
            &self.kernel
        } else {
            &self.own[process as usize - 1]
        }
    }

    pub fn sight(&self, process: u32, page: u32) -> Option<Sight> {
        self.view_of(process, page).get(&page).copied()
    }

    /// Every virtual page at which the process sees anything, rising, but of its stack only the two pages at either end.
    pub fn telling_pages(&self, process: u32) -> impl Iterator<Item = u32> + '_ {
        let own = &self.own[process as usize - 1];
        let is_reserved = |page: u32| matches!(own.get(&page), Some(Sight::Reserved));
        let inner = move |page: u32| is_reserved(page.wrapping_sub(2)) && is_reserved(page + 2);
        own.keys()
            .chain(self.kernel.keys())
            .copied()
            .filter(move |&page| !inner(page))
    }

    /// The RAM page of a use: after the top four, downwards.
    fn ram_page(&self, page: Use) -> u64 {
        self.ram.pages() - 5 - self.index[&page] as u64
    }

    /// The page of flash, counted from its start, that a use is on; none if it takes a page of RAM.
    pub fn flash_page(&self, page: Use) -> Option<u64> {
        match page {
            Use::Section { section, page, .. } if self.straight[section] => {
                let record = &self.board.sections[section];
                Some(record.offset / PAGE + u64::from(page) - record.va / PAGE)
            }
            _ => None,
        }
    }

    pub fn physical(&self, page: Use) -> u32 {
        let number = match self.flash_page(page) {
            Some(number) => u64::from(self.flash_start) / PAGE + number,
            None => self.ram.from() / PAGE + self.ram_page(page),
        };
        number as u32
    }

    /// The physical page number of a process's root table, found by the order of pages.
    pub fn root(&self, process: u32) -> u32 {
        self.physical(Use::Root { process })
    }

    /// What stands in a RAM page after a boot, in words for a report.
    pub fn describe(&self, ram_page: u64) -> String {
        let pages = self.ram.pages();
        if ram_page + 4 >= pages {
            return "lost page".to_string();
        }
        match self.order.get((pages - 5 - ram_page) as usize) {
            Some(page) => format!("{page:?}"),
            None => "free page".to_string(),
        }
    }

    /// "RAM pages rising, then regions in record order; 0 is free, else the owner's number."
    fn tracker(&self) -> Vec<u8> {
        let mut bytes = vec![0; (self.tracker_pages * PAGE) as usize];
        for page in self.ram.pages() - 4..self.ram.pages() {
            bytes[page as usize] = 1;
        }
        for page in &self.order {
            bytes[self.ram_page(*page) as usize] = match page {
                Use::Section { process, .. } => *process as u8,
                _ => 1,
            };
        }
        bytes
    }

    /// Three words for each process: satp, entry point, stack pointer.
    fn process_list(&self) -> Vec<u32> {
        (1..)
            .zip(&self.board.processes)
            .flat_map(|(number, process)| {
                let satp = (1 << 31) + (number << 22) + self.root(number);
                [
                    satp,
                    process.entry,
                    if number == 1 { 0 } else { 0x8000_0000 },
                ]
            })
            .collect()
    }

    fn root_table(&self, process: u32) -> Vec<u32> {
        let mut entries = vec![0; 1024];
        for (nth, leaf) in self.leaves[process as usize - 1].iter().enumerate() {
            entries[leaf.block as usize] = self.physical(Use::Leaf { process, nth }) * 1024 + 1;
        }
        entries[KERNEL_ENTRY as usize] = self.physical(Use::Leaf { process: 1, nth: 0 }) * 1024 + 1;
        entries
    }

    fn leaf_table(&self, process: u32, nth: usize) -> Vec<u32> {
        let mut entries = vec![0; 1024];
        for &page in &self.leaves[process as usize - 1][nth].pages {
            entries[(page % 1024) as usize] = match self.view_of(process, page)[&page] {
                Sight::Reserved => 22,
                Sight::Page { rights, page } => self.physical(page) * 1024 + page_flags(rights),
            };
        }
        entries
    }

    /// Every use, those on pages of flash last.
    fn uses(&self) -> Vec<Use> {
        let mut uses = self.order.clone();
        let seen = self.own.iter().flat_map(View::values);
        uses.extend(seen.filter_map(|sight| match sight {
            Sight::Page { page, .. } => self.flash_page(*page).map(|_| *page),
            Sight::Reserved => None,
        }));
        uses
    }

    /// The 4,096 bytes of every use.
    fn contents(&self, block: &[u8], flash: &[u8]) -> BTreeMap<Use, Vec<u8>> {
        let tracker = self.tracker();
        let bytes = |page: Use| match page {
            Use::Section { section, page, .. } => {
                self.board.sections[section].page_bytes(flash, page, self.fault)
            }
            Use::Tracker { part } => {
                let from = part as usize * PAGE as usize;
                tracker[from..from + PAGE as usize].to_vec()
            }
            Use::BlockCopy => padded(block.to_vec()),
            Use::ProcessList => word_bytes(&self.process_list()),
            Use::Root { process } => word_bytes(&self.root_table(process)),
            Use::Leaf { process, nth } => word_bytes(&self.leaf_table(process, nth)),
        };
        let uses = self.uses().into_iter();
        uses.map(|page| (page, bytes(page))).collect()
    }

    /// Where the bytes that are written begin in a page: 0, but for fault 1.
    fn written_from(&self, page: Use) -> usize {
        match page {
            Use::Section { section, page, .. } if self.fault == Fault::PartBeforeKept => {
                let va = self.board.sections[section].va;
                if va / PAGE == u64::from(page) {
                    (va % PAGE) as usize
                } else {
                    0
                }
            }
            _ => 0,
        }
    }
}

fn padded(mut bytes: Vec<u8>) -> Vec<u8> {
    bytes.resize(PAGE as usize, 0);
    bytes
}

fn word_bytes(list: &[u32]) -> Vec<u8> {
    padded(list.iter().flat_map(|word| word.to_le_bytes()).collect())
}

/// What a boot leaves: the plan, and the bytes that are to be seen on the page of each use, in flash too.
pub struct Boot {
    pub plan: Plan,
    contents: BTreeMap<Use, Vec<u8>>,
}

impl Boot {
    pub fn bytes(&self, page: Use) -> &[u8] {
        &self.contents[&page]
    }
}

/// The whole of what 01 says about one call: number, place, pages taken, pages free, tracker pages, and 02's (A5) offset;
/// RAM afterwards; and what the processes see if it boots.
pub struct Outcome {
    pub answer: [u32; 6],
    pub image: Vec<u8>,
    pub boot: Option<Boot>,
}

/// "On refusal the three counts are 0."
fn refused(Refusal(number, record): Refusal, image: Vec<u8>, fault: Fault) -> Outcome {
    let offset = match (fault, number) {
        (Fault::ProcessesSkipped, 7..=9) => 32 + 16 * record.place,
        (Fault::RegionsOfSixteen, 11) => record.offset + 8 * record.place,
        _ => record.offset,
    };
    Outcome {
        answer: [number, record.place, 0, 0, 0, offset],
        image,
        boot: None,
    }
}

pub fn load(block: &[u8], flash: Memory, ram: Memory, fault: Fault) -> Outcome {
    let lent = ram.area();
    let mut image = ram.bytes.to_vec();
    let board = match read_board(block, flash.area(), lent, fault) {
        Ok(board) => board,
        Err(refusal) => return refused(refusal, image, fault),
    };
    let plan = Plan::new(board, flash, lent, fault);
    if plan.needed() > lent.pages() {
        if fault == Fault::CopyThenRefuse {
            copy_while_it_lasts(&plan, flash.bytes, &mut image);
        }
        return refused(Refusal(12, Record::NONE), image, fault);
    }
    let contents = plan.contents(block, flash.bytes);
    for page in &plan.order {
        let at = (plan.ram_page(*page) * PAGE) as usize;
        let from = plan.written_from(*page);
        image[at + from..at + PAGE as usize].copy_from_slice(&contents[page][from..]);
    }
    let free = lent.pages() - plan.needed();
    let answer = [
        0,
        0,
        plan.needed() as u32,
        free as u32,
        plan.tracker_pages as u32,
        0,
    ];
    Outcome {
        answer,
        image,
        boot: Some(Boot { plan, contents }),
    }
}

/// What a process starts with: 0 and its three words of the process list; else the refusal's number, or 31 where there is
/// no such process, and no words.
pub fn started(outcome: &Outcome, process: u32) -> (u32, Vec<u32>) {
    match &outcome.boot {
        None => (outcome.answer[0], Vec::new()),
        Some(boot) if !boot.plan.processes().contains(&process) => (31, Vec::new()),
        Some(boot) => {
            let at = 3 * (process as usize - 1);
            (0, boot.plan.process_list()[at..at + 3].to_vec())
        }
    }
}

/// Fault 4: section pages are written until RAM runs out.
fn copy_while_it_lasts(plan: &Plan, flash: &[u8], image: &mut [u8]) {
    for (i, page) in plan.order.iter().enumerate() {
        let Some(ram_page) = plan.ram.pages().checked_sub(5 + i as u64) else {
            return;
        };
        if let Use::Section { section, page, .. } = *page {
            let at = (ram_page * PAGE) as usize;
            let bytes = plan.board.sections[section].page_bytes(flash, page, Fault::None);
            image[at..at + PAGE as usize].copy_from_slice(&bytes);
        }
    }
}
