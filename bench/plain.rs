//! Document 01's loader in plain Rust, as document 02's requests leave it, written for speed: what the proved loader is timed
//! against. Every record is read where it lies, memory is set and copied in runs as long as they come, and tables are written
//! straight into their pages.

pub const PAGE: usize = 4096;
const SPACE: u64 = 1 << 32;

/// Entries of a table, and the root slots with a leaf table whatever the sections.
pub const ENTRIES: u32 = 1024;
pub const STACK_SLOT: u32 = 511;
pub const KERNEL_SLOT: usize = 1023;

pub const TOP_PAGES: usize = 4;
const STACK_POINTER: u32 = 0x8000_0000;
const DEFAULT_STACK_PAGES: u32 = 16;

/// Flags of a section.
pub const NOCOPY: u32 = 1;
const WRITABLE: u32 = 2;
const EXECUTABLE: u32 = 4;

/// Entries of a table: a pointer, a reserved stack page, and pages by their rights, accessed and, where writable, dirty.
pub const POINTER: u32 = 1;
pub const RESERVED: u32 = 22;
pub const READ: u32 = 1 | 2 | 64;
pub const WRITE: u32 = 4 | 128;
const EXECUTE: u32 = 8;
const USER: u32 = 16;

/// From a page's entry to that of the page above it, and below it.
pub const UP: u32 = 1 << 10;
pub const DOWN: u32 = UP.wrapping_neg();

#[repr(C)]
#[derive(Default)]
pub struct Answer {
    pub number: u32,
    pub place: u32,
    pub taken: u32,
    pub free: u32,
    pub tracker: u32,
    pub offset: u32,
}

fn word(bytes: &[u8], at: usize) -> u32 {
    u32::from_le_bytes(bytes[at..at + 4].try_into().unwrap())
}

fn put_word(bytes: &mut [u8], at: usize, word: u32) {
    bytes[at..at + 4].copy_from_slice(&word.to_le_bytes());
}

fn is_zero(bytes: &[u8]) -> bool {
    bytes.iter().fold(0, |all, byte| all | byte) == 0
}

#[derive(Clone, Copy)]
pub struct Process {
    pub entry_point: u32,
    first: u32,
    sections: u32,
    kind_word: u32,
}

impl Process {
    fn read(record: &[u8]) -> Process {
        Process {
            entry_point: word(record, 0),
            first: word(record, 4),
            sections: word(record, 8),
            kind_word: word(record, 12),
        }
    }

    fn kind(self) -> u32 {
        self.kind_word & 0xFF
    }

    /// The pages that are reserved for a user process's stack.
    pub fn stack_pages(self) -> u32 {
        match self.kind_word >> 8 & 0xFF {
            0 => DEFAULT_STACK_PAGES,
            pages => pages,
        }
    }
}

#[derive(Clone, Copy)]
pub struct Section {
    pub address: u32,
    pub size: u32,
    pub flash_offset: u32,
    pub flags: u32,
}

impl Section {
    fn read(record: &[u8]) -> Section {
        Section {
            address: word(record, 0),
            size: word(record, 4),
            flash_offset: word(record, 8),
            flags: word(record, 12),
        }
    }

    fn end(self) -> u64 {
        self.address as u64 + self.size as u64
    }

    pub fn first_page(self) -> u32 {
        self.address / PAGE as u32
    }

    /// Of a section that ends inside the address space.
    pub fn last_page(self) -> u32 {
        (self.address + (self.size - 1)) / PAGE as u32
    }

    pub fn pages(self) -> usize {
        (self.last_page() + 1 - self.first_page()) as usize
    }

    /// The flags of its pages' entries.
    pub fn page_flags(self, user: bool) -> u32 {
        let mut flags = READ;
        if self.flags & WRITABLE != 0 {
            flags |= WRITE;
        }
        if self.flags & EXECUTABLE != 0 {
            flags |= EXECUTE;
        }
        if user {
            flags |= USER;
        }
        flags
    }

    fn unfit(self) -> bool {
        self.size == 0
            || self.flags > 7
            || self.flags & (WRITABLE | EXECUTABLE) == WRITABLE | EXECUTABLE
            || self.flags & NOCOPY != 0 && self.flash_offset != 0
    }

    /// Whether its flash pages, those of the image that hold a byte of it, can be mapped as they are.
    fn is_whole_in_flash(self, flash: &[u8]) -> bool {
        let from = self.flash_offset as usize;
        let end = from + self.size as usize;
        let first = from / PAGE * PAGE;
        let past = end.div_ceil(PAGE) * PAGE;
        from - first == self.address as usize % PAGE
            && past <= flash.len()
            && is_zero(&flash[first..from])
            && is_zero(&flash[end..past])
    }

    fn holds_code_at(self, address: u32) -> bool {
        self.flags & EXECUTABLE != 0 && self.address <= address && (address as u64) < self.end()
    }
}

/// A refusal: its number, its place, and the byte offset in the block of the refused record.
pub struct Refusal(u32, usize, usize);

impl Refusal {
    pub fn answer(self) -> Answer {
        Answer {
            number: self.0,
            place: self.1 as u32,
            offset: self.2 as u32,
            ..Answer::default()
        }
    }
}

/// The records of a block that is laid out as it should be.
#[derive(Clone, Copy)]
pub struct Records<'a> {
    processes: &'a [u8],
    sections: &'a [u8],
    regions: &'a [u8],
}

impl<'a> Records<'a> {
    /// Refusals 2 to 5.
    fn read(block: &'a [u8]) -> Result<Records<'a>, Refusal> {
        if block.len() < 32 {
            return Err(Refusal(2, 0, 0));
        }
        if word(block, 0) != 1 {
            return Err(Refusal(3, 0, 0));
        }
        let (p, s, r) = (word(block, 8), word(block, 16), word(block, 24));
        if p.wrapping_sub(1) > 15 || s.wrapping_sub(1) > 63 || r > 32 {
            return Err(Refusal(4, 0, 0));
        }
        let sections_at = 32 + 16 * p;
        let regions_at = sections_at + 16 * s;
        let length = regions_at + 8 * r;
        if word(block, 12) != 32
            || word(block, 20) != sections_at
            || word(block, 28) != regions_at
            || word(block, 4) != length
            || block.len() != length as usize
        {
            return Err(Refusal(5, 0, 0));
        }
        let (rest, regions) = block.split_at(regions_at as usize);
        let (rest, sections) = rest.split_at(sections_at as usize);
        Ok(Records {
            processes: &rest[32..],
            sections,
            regions,
        })
    }

    pub fn process_count(self) -> usize {
        self.processes.len() / 16
    }

    pub fn processes(self) -> impl DoubleEndedIterator<Item = Process> + 'a {
        self.processes.chunks_exact(16).map(Process::read)
    }

    /// The sections of a process that drew no 6.
    fn sections(self, process: Process) -> impl Iterator<Item = Section> + 'a {
        let from = 16 * process.first as usize;
        self.sections[from..from + 16 * process.sections as usize]
            .chunks_exact(16)
            .map(Section::read)
    }

    fn refuse_process(self, number: u32, i: usize) -> Refusal {
        Refusal(number, i, 32 + 16 * i)
    }

    fn refuse_section(self, number: u32, n: usize) -> Refusal {
        Refusal(number, n, 32 + self.processes.len() + 16 * n)
    }

    fn refuse_region(self, number: u32, i: usize) -> Refusal {
        let regions_at = 32 + self.processes.len() + self.sections.len();
        Refusal(number, i, regions_at + 8 * i)
    }

    /// Refusal 6.
    fn check_processes(self) -> Result<(), Refusal> {
        let s = self.sections.len() as u64 / 16;
        let mut sum = 0u64;
        for (i, process) in self.processes().enumerate() {
            // A user process has kind 0 or 1 and any stack bits.
            let allowed = if i == 0 { 0 } else { 0xFF01 };
            if process.kind_word & !allowed != 0
                || process.sections == 0
                || process.first as u64 != sum
            {
                return Err(self.refuse_process(6, i));
            }
            sum += process.sections as u64;
            if sum > s {
                return Err(self.refuse_process(6, i));
            }
        }
        if sum != s {
            return Err(self.refuse_process(6, self.process_count() - 1));
        }
        Ok(())
    }

    /// Refusals 7, 8 and 9.
    fn check_sections(self, flash: u64) -> Result<(), Refusal> {
        let mut n = 0;
        for (i, process) in self.processes().enumerate() {
            let (first, end) = if i == 0 {
                (0xFFC0_0000, 0xFFF0_0000)
            } else {
                let stack = PAGE as u32 * process.stack_pages();
                (0x0000_1000, (STACK_POINTER - stack) as u64)
            };
            let mut above = 0;
            for section in self.sections(process) {
                if section.unfit() {
                    return Err(self.refuse_section(7, n));
                }
                if section.address < first || section.end() > end || section.first_page() < above {
                    return Err(self.refuse_section(8, n));
                }
                above = section.last_page() + 1;
                let flash_end = section.flash_offset as u64 + section.size as u64;
                if section.flags & NOCOPY == 0 && flash_end > flash {
                    return Err(self.refuse_section(9, n));
                }
                n += 1;
            }
        }
        Ok(())
    }

    /// Refusal 10.
    fn check_entry_points(self) -> Result<(), Refusal> {
        for (i, process) in self.processes().enumerate() {
            if !self
                .sections(process)
                .any(|section| section.holds_code_at(process.entry_point))
            {
                return Err(self.refuse_process(10, i));
            }
        }
        Ok(())
    }

    /// Refusal 11. Returns the I/O pages.
    fn check_regions(self, ram: Addresses, flash: Addresses) -> Result<u64, Refusal> {
        let (mut previous_end, mut total) = (0u64, 0u64);
        for (i, record) in self.regions.chunks_exact(8).enumerate() {
            let start = word(record, 0) as u64;
            let pages = word(record, 4) as u64;
            let end = start + 4096 * pages;
            total += pages;
            if start % 4096 != 0
                || pages == 0
                || end > SPACE
                || start < previous_end
                || ram.meet(Addresses { start, end })
                || flash.meet(Addresses { start, end })
                || total > 4096
            {
                return Err(self.refuse_region(11, i));
            }
            previous_end = end;
        }
        Ok(total)
    }

    /// The section pages of all processes in RAM, and their tables; and the sections that are used straight from flash, bit n for
    /// section record n.
    fn count_pages(self, flash: &[u8]) -> (usize, u64) {
        let (mut pages, mut straight) = (2, 0);
        let mut n = 0;
        for (i, process) in self.processes().enumerate() {
            let (mut tables, mut above) = (1, 0);
            for section in self.sections(process) {
                if process.kind() == 1
                    && section.flags & (NOCOPY | WRITABLE) == 0
                    && section.is_whole_in_flash(flash)
                {
                    straight |= 1 << n;
                } else {
                    pages += section.pages();
                }
                n += 1;
                let last = section.last_page() / ENTRIES;
                tables += last + 1 - above.max(section.first_page() / ENTRIES);
                above = last + 1;
            }
            if i > 0 {
                pages += (tables + (above <= STACK_SLOT) as u32) as usize;
            }
        }
        (pages, straight)
    }
}

/// The addresses from `start` up to `end`.
#[derive(Clone, Copy)]
struct Addresses {
    start: u64,
    end: u64,
}

impl Addresses {
    fn new(start: u32, length: usize) -> Addresses {
        Addresses {
            start: start as u64,
            end: start as u64 + length as u64,
        }
    }

    fn meet(self, other: Addresses) -> bool {
        self.start.max(other.start) < self.end.min(other.end)
    }
}

/// What a block that boots asks for. `straight` has bit n where the section of record n is used straight from flash, and `flash_page` is
/// flash's first physical page.
pub struct Plan<'a> {
    pub records: Records<'a>,
    pub needed: usize,
    pub tracker: usize,
    straight: u64,
    flash_page: u32,
}

impl<'a> Plan<'a> {
    /// The sections of a process, each with its first physical page in flash where it is used straight from there.
    pub fn sections(&self, process: Process) -> impl Iterator<Item = (Section, Option<u32>)> + 'a {
        let (mut straight, flash_page) = (self.straight >> process.first, self.flash_page);
        self.records.sections(process).map(move |section| {
            let page = flash_page + section.flash_offset / PAGE as u32;
            let in_flash = (straight & 1 != 0).then_some(page);
            straight >>= 1;
            (section, in_flash)
        })
    }

    /// The sections of a process that are in RAM.
    pub fn sections_in_ram(&self, process: Process) -> impl Iterator<Item = Section> + 'a {
        self.sections(process)
            .filter_map(|(section, in_flash)| in_flash.is_none().then_some(section))
    }

    fn pages_in_ram(&self, process: Process) -> usize {
        self.sections_in_ram(process).map(Section::pages).sum()
    }

    pub fn answer(&self, pages: usize) -> Answer {
        Answer {
            number: 0,
            place: 0,
            taken: self.needed as u32,
            free: (pages - self.needed) as u32,
            tracker: self.tracker as u32,
            offset: 0,
        }
    }

    /// The kernel's section pages.
    pub fn kernel_pages(&self) -> usize {
        let kernel = self.records.processes().take(1);
        kernel.map(|process| self.pages_in_ram(process)).sum()
    }

    /// The owners of all RAM pages, in a page that is zero.
    pub fn track_owners(&self, owners: &mut [u8], pages: usize) {
        owners[pages - self.needed..pages].fill(1);
        let mut end = pages - TOP_PAGES;
        for (i, process) in self.records.processes().enumerate().skip(1) {
            let count = self.pages_in_ram(process);
            owners[end - count..end].fill(i as u8 + 1);
            end -= count;
        }
    }
}

/// All refusals.
pub fn check<'a>(
    block: &'a [u8],
    flash: &[u8],
    flash_start: u32,
    ram: usize,
    start: u32,
) -> Result<Plan<'a>, Refusal> {
    let ram_addresses = Addresses::new(start, ram);
    let flash_addresses = Addresses::new(flash_start, flash.len());
    if ram % PAGE != 0 || ram / PAGE > 4096 || start % 4096 != 0 || ram_addresses.end > SPACE {
        return Err(Refusal(1, 0, 0));
    }
    if flash_start % 4096 != 0 || flash_addresses.end > SPACE || flash_addresses.meet(ram_addresses)
    {
        return Err(Refusal(13, 0, 0));
    }
    let records = Records::read(block)?;
    records.check_processes()?;
    records.check_sections(flash.len() as u64)?;
    records.check_entry_points()?;
    let io_pages = records.check_regions(ram_addresses, flash_addresses)? as usize;
    let pages = ram / PAGE;
    let tracker = (pages + io_pages + PAGE - 1) / PAGE;
    let (counted, straight) = records.count_pages(flash);
    // The process list and the copy of the block have a page each.
    let needed = TOP_PAGES + counted + tracker + 2;
    if needed > pages {
        return Err(Refusal(12, 0, 0));
    }
    Ok(Plan {
        records,
        needed,
        tracker,
        straight,
        flash_page: flash_start / PAGE as u32,
    })
}

/// Copies a section into its pages, the last of which is the lowest, and clears what is before and after it.
fn copy_section(pages: &mut [u8], section: Section, flash: &[u8]) {
    let from = section.flash_offset as usize;
    let mut bytes = &flash[from..from + section.size as usize];
    let mut offset = section.address as usize % PAGE;
    let first = pages.len() - PAGE;
    let after = pages.len() - offset - bytes.len();
    pages[first..first + offset].fill(0);
    pages[PAGE - after..PAGE].fill(0);
    for page in pages.rchunks_exact_mut(PAGE) {
        let (here, rest) = bytes.split_at(bytes.len().min(PAGE - offset));
        page[offset..offset + here.len()].copy_from_slice(here);
        bytes = rest;
        offset = 0;
    }
}

/// All sections in RAM, below page `top`. Returns the page below which they end.
fn load_sections(plan: &Plan, flash: &[u8], ram: &mut [u8], mut top: usize) -> usize {
    let users = plan.records.processes().skip(1);
    for process in users.chain(plan.records.processes().take(1)) {
        for section in plan.sections_in_ram(process) {
            let count = section.pages();
            let pages = &mut ram[(top - count) * PAGE..top * PAGE];
            if section.flags & NOCOPY != 0 {
                pages.fill(0);
            } else {
                copy_section(pages, section, flash);
            }
            top -= count;
        }
    }
    top
}

/// Entries for `count` pages from index `at` of a table on: the first is `entry`, each next one for the page above or below, by `step`.
fn map(table: &mut [u8], at: usize, count: usize, mut entry: u32, step: u32) {
    for bytes in table[4 * at..4 * (at + count)].chunks_exact_mut(4) {
        bytes.copy_from_slice(&entry.to_le_bytes());
        entry = entry.wrapping_add(step);
    }
}

/// The tables of one process: `top` is the page below which they lie, all zero, and RAM starts at physical page `base`.
struct Tables<'a> {
    ram: &'a mut [u8],
    base: u32,
    root: usize,
    top: usize,
    /// The root slot of the last leaf table.
    slot: Option<u32>,
}

impl<'a> Tables<'a> {
    fn new(ram: &'a mut [u8], base: u32, top: usize) -> Tables<'a> {
        Tables {
            ram,
            base,
            root: top - 1,
            top: top - 1,
            slot: None,
        }
    }

    /// The leaf table for a root slot that is not below the last one.
    fn leaf(&mut self, slot: u32) -> &mut [u8] {
        if self.slot != Some(slot) {
            self.slot = Some(slot);
            self.top -= 1;
            self.point(slot as usize, self.base + self.top as u32);
        }
        &mut self.ram[self.top * PAGE..(self.top + 1) * PAGE]
    }

    fn point(&mut self, slot: usize, leaf: u32) {
        put_word(self.ram, self.root * PAGE + 4 * slot, leaf << 10 | POINTER);
    }

    /// Maps a section from its first page's entry on.
    fn map_section(&mut self, section: Section, mut entry: u32, step: u32) {
        let (mut from, end) = (section.first_page(), section.last_page() + 1);
        while from < end {
            let slot = from / ENTRIES;
            let to = end.min((slot + 1) * ENTRIES);
            let count = to - from;
            map(
                self.leaf(slot),
                (from % ENTRIES) as usize,
                count as usize,
                entry,
                step,
            );
            entry = entry.wrapping_add(step.wrapping_mul(count));
            from = to;
        }
    }

    /// Maps the block's copy, the tracker and the process list. The tracker lies below page `tracker`, the other two below it.
    fn map_shared(&mut self, tracker: usize, tracker_pages: usize) {
        let first = self.base + tracker as u32 - 1;
        let list = first - tracker_pages as u32;
        let leaf = self.leaf(KERNEL_SLOT as u32);
        map(leaf, 0x300, 1, (list - 1) << 10 | READ, DOWN);
        map(leaf, 0x340, tracker_pages, first << 10 | READ | WRITE, DOWN);
        map(leaf, 0x380, 1, list << 10 | READ, DOWN);
    }

    fn reserve_stack(&mut self, pages: u32) {
        let from = 4 * (ENTRIES - pages) as usize;
        for bytes in self.leaf(STACK_SLOT)[from..].chunks_exact_mut(4) {
            bytes.copy_from_slice(&RESERVED.to_le_bytes());
        }
    }
}

/// The process list's words of process q.
pub fn list_process(list: &mut [u8], q: usize, entry_point: u32, root: u32) {
    let at = 12 * (q - 1);
    put_word(list, at, 0x8000_0000 + 0x40_0000 * q as u32 + root);
    put_word(list, at + 4, entry_point);
    put_word(list, at + 8, if q == 1 { 0 } else { STACK_POINTER });
}

/// All tables, which end with `ram` as it is lent here, and the list of their roots. `tracker` is the page below which the tracker
/// lies.
fn load_tables(
    plan: &Plan,
    ram: &mut [u8],
    list: &mut [u8],
    base: u32,
    tracker: usize,
    pages: usize,
) {
    let mut top = ram.len() / PAGE;
    ram[(pages - plan.needed) * PAGE..].fill(0);
    let kernel_leaf = base + top as u32 - 2;
    let mut section_top = tracker + plan.kernel_pages();
    for (i, process) in plan.records.processes().enumerate() {
        let mut tables = Tables::new(ram, base, top);
        list_process(list, i + 1, process.entry_point, base + tables.root as u32);
        for (section, in_flash) in plan.sections(process) {
            let flags = section.page_flags(i > 0);
            if let Some(page) = in_flash {
                tables.map_section(section, page << 10 | flags, UP);
            } else {
                let page = base + section_top as u32 - 1;
                tables.map_section(section, page << 10 | flags, DOWN);
                section_top -= section.pages();
            }
        }
        if i == 0 {
            tables.map_shared(tracker, plan.tracker);
            section_top = pages - TOP_PAGES;
        } else {
            tables.reserve_stack(process.stack_pages());
            tables.point(KERNEL_SLOT, kernel_leaf);
        }
        top = tables.top;
    }
}

/// Loads the block's programs from flash into RAM, which start at these physical addresses, or refuses and leaves RAM as it came.
pub fn load(block: &[u8], flash: &[u8], flash_start: u32, ram: &mut [u8], start: u32) -> Answer {
    let plan = match check(block, flash, flash_start, ram.len(), start) {
        Ok(plan) => plan,
        Err(refusal) => return refusal.answer(),
    };
    let pages = ram.len() / PAGE;
    let tracker = load_sections(&plan, flash, ram, pages - TOP_PAGES);
    let list = tracker - plan.tracker - 1;
    // All pages that are zero but for some words of theirs.
    let (tables, above) = ram.split_at_mut((list - 1) * PAGE);
    let (copy, above) = above.split_at_mut(PAGE);
    let (list, above) = above.split_at_mut(PAGE);
    above[..plan.tracker * PAGE].fill(0);
    plan.track_owners(
        &mut above[(plan.tracker - 1) * PAGE..plan.tracker * PAGE],
        pages,
    );
    copy[..block.len()].copy_from_slice(block);
    copy[block.len()..].fill(0);
    list.fill(0);
    load_tables(&plan, tables, list, start / PAGE as u32, tracker, pages);
    plan.answer(pages)
}
