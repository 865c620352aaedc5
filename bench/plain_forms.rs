//! The loader of `plain.rs` in the forms that document 01 names ("The shape of some places"): a page allocator that hands out one
//! page and returns itself, each page lent as its own 4,096 bytes, and a table built as 1,024 entries and then stored. The checks
//! are those of `plain.rs`.

use crate::plain::*;

type Page = [u8; PAGE];
type Table = [u32; ENTRIES as usize];

#[derive(Clone, Copy)]
struct PageAllocator {
    left: usize,
}

impl PageAllocator {
    fn allocate(self) -> (usize, PageAllocator) {
        (
            self.left - 1,
            PageAllocator {
                left: self.left - 1,
            },
        )
    }
}

fn lend(ram: &mut [u8], k: usize) -> &mut Page {
    (&mut ram[k * PAGE..(k + 1) * PAGE]).try_into().unwrap()
}

/// Page i of a section.
fn load_page(page: &mut Page, section: Section, flash: &[u8], i: usize) {
    if section.flags & NOCOPY != 0 {
        page.fill(0);
        return;
    }
    let offset = section.address as usize % PAGE;
    let at = offset.saturating_sub(i * PAGE);
    let skipped = (i * PAGE).saturating_sub(offset);
    let from = section.flash_offset as usize + skipped;
    let count = (section.size as usize - skipped).min(PAGE - at);
    page[at..at + count].copy_from_slice(&flash[from..from + count]);
    if count < PAGE {
        page[..at].fill(0);
        page[at + count..].fill(0);
    }
}

/// All sections in RAM.
fn load_sections(
    plan: &Plan,
    flash: &[u8],
    ram: &mut [u8],
    mut next: PageAllocator,
) -> PageAllocator {
    let users = plan.records.processes().skip(1);
    for process in users.chain(plan.records.processes().take(1)) {
        for section in plan.sections_in_ram(process) {
            for i in 0..section.pages() {
                let (k, rest) = next.allocate();
                load_page(lend(ram, k), section, flash, i);
                next = rest;
            }
        }
    }
    next
}

/// The page tracker.
fn load_tracker(plan: &Plan, ram: &mut [u8], mut next: PageAllocator) -> PageAllocator {
    let pages = ram.len() / PAGE;
    for i in 0..plan.tracker {
        let (k, rest) = next.allocate();
        let page = lend(ram, k);
        page.fill(0);
        if i == 0 {
            plan.track_owners(page, pages);
        }
        next = rest;
    }
    next
}

fn store(page: &mut Page, entries: &Table) {
    for i in 0..entries.len() {
        page[4 * i..4 * i + 4].copy_from_slice(&entries[i].to_le_bytes());
    }
}

/// Entries for `count` pages from index `at` of a table on: the first is `entry`, each next one for the page above or below, by `step`.
fn map(entries: &mut Table, at: usize, count: usize, mut entry: u32, step: u32) {
    for to in &mut entries[at..at + count] {
        *to = entry;
        entry = entry.wrapping_add(step);
    }
}

/// The tables of one process. RAM starts at physical page `base`.
struct Tables<'a> {
    ram: &'a mut [u8],
    base: u32,
    next: PageAllocator,
    root: Table,
    /// The last leaf table, its root slot and its page.
    leaf: Table,
    open: Option<(u32, usize)>,
}

impl<'a> Tables<'a> {
    /// The leaf table for a root slot that is not below the last one.
    fn leaf(&mut self, slot: u32) -> &mut Table {
        if !matches!(self.open, Some((open, _)) if open == slot) {
            self.store_leaf();
            let (k, rest) = self.next.allocate();
            self.next = rest;
            self.open = Some((slot, k));
            self.root[slot as usize] = (self.base + k as u32) << 10 | POINTER;
            self.leaf = [0; ENTRIES as usize];
        }
        &mut self.leaf
    }

    fn store_leaf(&mut self) {
        if let Some((_, k)) = self.open {
            store(lend(self.ram, k), &self.leaf);
        }
    }

    /// Maps a section from its first page's entry on.
    fn map_section(&mut self, section: Section, mut entry: u32, step: u32) {
        let (mut from, end) = (section.first_page(), section.last_page() + 1);
        while from < end {
            let slot = from / ENTRIES;
            let to = end.min((slot + 1) * ENTRIES);
            let count = to - from;
            map(
                self.leaf(slot),
                (from % ENTRIES) as usize,
                count as usize,
                entry,
                step,
            );
            entry = entry.wrapping_add(step.wrapping_mul(count));
            from = to;
        }
    }
}

/// All tables, the kernel's first, and the list of their roots in page `list`. The tracker's first page is page `tracker`.
fn load_tables(
    plan: &Plan,
    ram: &mut [u8],
    base: u32,
    list: usize,
    tracker: usize,
    mut next: PageAllocator,
) {
    let pages = ram.len() / PAGE;
    let kernel_leaf = base + next.left as u32 - 2;
    let mut section_top = tracker + 1 + plan.kernel_pages();
    lend(ram, list).fill(0);
    for (i, process) in plan.records.processes().enumerate() {
        let (root, rest) = next.allocate();
        list_process(
            lend(ram, list),
            i + 1,
            process.entry_point,
            base + root as u32,
        );
        let mut tables = Tables {
            ram,
            base,
            next: rest,
            root: [0; ENTRIES as usize],
            leaf: [0; ENTRIES as usize],
            open: None,
        };
        for (section, in_flash) in plan.sections(process) {
            let flags = section.page_flags(i > 0);
            if let Some(page) = in_flash {
                tables.map_section(section, page << 10 | flags, UP);
            } else {
                let page = base + section_top as u32 - 1;
                tables.map_section(section, page << 10 | flags, DOWN);
                section_top -= section.pages();
            }
        }
        if i == 0 {
            let leaf = tables.leaf(KERNEL_SLOT as u32);
            let (list, first) = (base + list as u32, base + tracker as u32);
            map(leaf, 0x300, 1, (list - 1) << 10 | READ, DOWN);
            map(leaf, 0x340, plan.tracker, first << 10 | READ | WRITE, DOWN);
            map(leaf, 0x380, 1, list << 10 | READ, DOWN);
            section_top = pages - TOP_PAGES;
        } else {
            let stack = (ENTRIES - process.stack_pages()) as usize;
            tables.leaf(STACK_SLOT)[stack..].fill(RESERVED);
        }
        tables.store_leaf();
        tables.root[KERNEL_SLOT] = kernel_leaf << 10 | POINTER;
        store(lend(tables.ram, root), &tables.root);
        next = tables.next;
    }
}

/// Loads the block's programs from flash into RAM, which start at these physical addresses, or refuses and leaves RAM as it came.
pub fn load(block: &[u8], flash: &[u8], flash_start: u32, ram: &mut [u8], start: u32) -> Answer {
    let plan = match check(block, flash, flash_start, ram.len(), start) {
        Ok(plan) => plan,
        Err(refusal) => return refusal.answer(),
    };
    let pages = ram.len() / PAGE;
    let below_top = PageAllocator {
        left: pages - TOP_PAGES,
    };
    let after_sections = load_sections(&plan, flash, ram, below_top);
    let (list, after_list) = load_tracker(&plan, ram, after_sections).allocate();
    let (copy, after_copy) = after_list.allocate();
    let page = lend(ram, copy);
    page[..block.len()].copy_from_slice(block);
    page[block.len()..].fill(0);
    let tracker = after_sections.left - 1;
    load_tables(&plan, ram, start / PAGE as u32, list, tracker, after_copy);
    plan.answer(pages)
}
