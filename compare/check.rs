//! One case: the library's answer, RAM, walks and pages against what the rules say.

use crate::cases::{self, Case};
use crate::demand3;
use crate::ffi::{self, Lent, Memories};
use crate::met::{Kind, Met};
use crate::reached;
use crate::reader;
use crate::rng::Rng;
use crate::rules::{self, Boot, Fault, Outcome, Sight, PAGE};
use crate::walker::{self, Found, Part};
use crate::writer;

/// Cases by the number of their answer.
#[derive(Default)]
pub struct Numbers {
    pub all: [u64; 14],
    /// Those refused at a record after the first where there is more than one process: a wrong offset shows there.
    pub later: [u64; 14],
}

impl Numbers {
    pub fn count(&mut self, case: &Case, want: &Outcome) {
        let [number, place, ..] = want.answer;
        self.all[number as usize] += 1;
        // A record is refused only after 2 to 5: byte 8 is the process count.
        let later = place > 0 && case.block[8] > 1;
        self.later[number as usize] += u64::from(later);
    }

    /// What never came up.
    pub fn missing(&self) -> Option<String> {
        let all = self.all.iter().position(|&count| count == 0);
        let later = (6..=11).find(|&number| self.later[number] == 0);
        all.map(|number| format!("number {number}"))
            .or(later.map(|number| format!("number {number} after record 0")))
    }
}

/// What a run has compared so far.
#[derive(Default)]
pub struct Tally {
    pub numbers: Numbers,
    pub met: Met,
    pub walks: u64,
    pub pages: u64,
    /// Pairs of RAMs on which a block boots, and those whose new RAM draws 1, 11 or 13.
    pub pairs: u64,
    pub pairs_refused: u64,
    /// Pairs in which the new RAM's tracker has a page more.
    pub pairs_longer_tracker: u64,
    pub writer: writer::Tally,
}

pub fn compare(case: &Case, fault: Fault, rng: &mut Rng, tally: &mut Tally) -> Result<(), String> {
    let (flash, ram) = (case.memory_of_flash(), case.memory_of_ram());
    let want = rules::load(&case.block, flash, ram, fault);
    let mut lent = compare_load(case, &want, rng)?;
    tally.numbers.count(case, &want);
    tally.met.case(case, &want);
    if let Some(boot) = &want.boot {
        reached::check(boot, lent.ram.memory(), lent.flash.memory())?;
        for process in boot.plan.processes() {
            compare_view(boot, &mut lent, process, fault, rng, tally)?;
        }
        if rng.below(300) == 0 {
            compare_all_addresses(boot, &mut lent, fault, rng, tally)?;
        }
        let large = case.ram.len() > 2 << 20;
        if !large || rng.chance(25) {
            demand3::compare(case, &want, boot, &mut lent, fault, rng, tally)?;
        }
        unchanged("RAM, by the reader", &lent.ram, &want.image)?;
        if !large && rng.chance(30) {
            reader::compare_spoilt(boot, &mut lent, fault, rng, tally)?;
        }
        unchanged("flash, by the reader", &lent.flash, &case.flash)?;
    }
    reader::compare_malformed(fault, rng, tally)
}

/// Both loading entries, each call on a RAM of its own: `rigpollen_answer` with a slice that holds the
/// whole answer and, in half of the cases, with one that does not; then `rigpollen_load`. Then the entries without RAM.
/// Gives back RAM as the first call left it, and flash.
pub fn compare_load(case: &Case, want: &Outcome, rng: &mut Rng) -> Result<Memories, String> {
    let mut block = Lent::new(&case.block, rng.index(8));
    let mut flash = Lent::new(&case.flash, rng.index(8)).at(case.flash_start);
    let whole = want.answer.len();
    let mut lengths = vec![whole + rng.index(3)];
    if rng.chance(50) {
        lengths.push(rng.index(whole));
    }
    let mut first = None;
    for len in lengths {
        let mut ram = Lent::new(&case.ram, rng.index(8)).at(case.start);
        let got = ffi::answer(&mut block, &mut flash, &mut ram, len);
        compare_words("rigpollen_answer", got, len, want.answer[0], &want.answer)?;
        compare_lent("rigpollen_answer", case, want, &block, &flash, &ram)?;
        first.get_or_insert(ram);
    }
    let mut ram = Lent::new(&case.ram, rng.index(8)).at(case.start);
    let number = ffi::load(&mut block, &mut flash, &mut ram);
    if number != want.answer[0] {
        return Err(format!(
            "rigpollen_load returns {number}; the rules give {:?}",
            want.answer
        ));
    }
    compare_lent("rigpollen_load", case, want, &block, &flash, &ram)?;
    compare_without_ram(case, want, &mut block, &mut flash, rng)?;
    unchanged("entries without RAM: the block", &block, &case.block)?;
    unchanged("entries without RAM: flash", &flash, &case.flash)?;
    let ram = first.unwrap_or(ram);
    Ok(Memories { ram, flash })
}

/// The entries that are lent no RAM: the answer, and the words of every process, of number 0, of the number after the
/// last and of any number.
fn compare_without_ram(
    case: &Case,
    want: &Outcome,
    block: &mut Lent,
    flash: &mut Lent,
    rng: &mut Rng,
) -> Result<(), String> {
    let ram = case.memory_of_ram().area();
    let len = rng.index(9);
    let got = ffi::check(block, flash, ram, len);
    compare_words("rigpollen_check", got, len, want.answer[0], &want.answer)?;
    let last = want
        .boot
        .as_ref()
        .map_or(0, |boot| *boot.plan.processes().end());
    for process in (0..=last + 1).chain([rng.word()]) {
        let len = rng.index(8);
        let got = ffi::process(block, flash, ram, process, len);
        let (number, words) = rules::started(want, process);
        let entry = format!("rigpollen_process of process {process}");
        compare_words(&entry, got, len, number, &words)?;
    }
    Ok(())
}

/// The returned number, the words of the slice, and that what lies beyond stays.
pub fn compare_words(
    entry: &str,
    (number, words): (u32, ffi::AnswerWords),
    len: usize,
    want_number: u32,
    want_words: &[u32],
) -> Result<(), String> {
    let wanted = ffi::answer_words(want_words, len);
    if number == want_number && words == wanted {
        return Ok(());
    }
    let slice = ffi::ANSWER_AT..ffi::ANSWER_AT + len;
    let stray = (0..words.len()).any(|at| !slice.contains(&at) && words[at] != wanted[at]);
    Err(format!(
        "{entry} returns {number} and leaves {:?} in a slice of {len} words{}; \
         the rules give {want_number} and {want_words:?}",
        &words[slice],
        if stray {
            ", and changed words outside it"
        } else {
            ""
        },
    ))
}

/// RAM is what the rules give; block, flash and all guards are as they were.
fn compare_lent(
    entry: &str,
    case: &Case,
    want: &Outcome,
    block: &Lent,
    flash: &Lent,
    ram: &Lent,
) -> Result<(), String> {
    compare_ram(entry, ram, want)?;
    unchanged(&format!("{entry}: the block"), block, &case.block)?;
    unchanged(&format!("{entry}: flash"), flash, &case.flash)
}

fn first_difference(got: &[u8], want: &[u8]) -> Option<usize> {
    if got == want {
        return None;
    }
    got.iter().zip(want).position(|(a, b)| a != b)
}

/// Every byte of RAM, and the guards around it.
fn compare_ram(entry: &str, ram: &Lent, want: &Outcome) -> Result<(), String> {
    if let Some(at) = first_difference(ram.bytes(), &want.image) {
        let page = at as u64 / PAGE;
        let part = match &want.boot {
            Some(boot) => boot.plan.describe(page),
            None => format!("refused with {}", want.answer[0]),
        };
        return Err(format!(
            "{entry}: RAM byte {at:#x} (page {page}, {part}, byte {} of it) is {:#04x}; the rules give {:#04x}",
            at as u64 % PAGE, ram.bytes()[at], want.image[at]
        ));
    }
    guards(&format!("{entry}: RAM"), ram)
}

/// Every byte of an area against what the rules give, and the guards around it.
pub fn compare_bytes(what: &str, area: &Lent, want: &[u8]) -> Result<(), String> {
    if let Some(at) = first_difference(area.bytes(), want) {
        return Err(format!(
            "{what}: byte {at:#x} is {:#04x}; the rules give {:#04x}",
            area.bytes()[at],
            want[at]
        ));
    }
    guards(what, area)
}

fn guards(what: &str, area: &Lent) -> Result<(), String> {
    match area.changed_guard() {
        Some(at) => Err(format!(
            "{what} ({} bytes): a guard byte was changed at {at}",
            area.bytes().len()
        )),
        None => Ok(()),
    }
}

pub fn unchanged(what: &str, area: &Lent, before: &[u8]) -> Result<(), String> {
    if let Some(at) = first_difference(area.bytes(), before) {
        return Err(format!(
            "{what}: byte {at:#x} was changed from {:#04x} to {:#04x}",
            before[at],
            area.bytes()[at]
        ));
    }
    guards(what, area)
}

/// One walk by the library, with a `page` slice of 0 to 3 words, and the bytes of the page, against one answer.
pub fn compare_walk(
    lent: &mut Memories,
    root: u32,
    address: u32,
    want: Found,
    fault: Fault,
    rng: &mut Rng,
    tally: &mut Tally,
) -> Result<(), String> {
    let len = rng.index(4);
    let ram = &mut lent.ram;
    let got = ffi::walk(ram, root, address, len);
    tally.walks += 1;
    let wanted = ffi::page_words(want, len);
    if got != wanted {
        return Err(format!(
            "rigpollen_walk (RAM {:#x} bytes at {:#x}, root {root:#x}, address {address:#010x}, {len} words) gives {:x?};\n  \
             wanted is {want:x?}, so {wanted:x?}",
            ram.bytes().len(), ram.start, got
        ));
    }
    compare_page(lent, root, address, want, fault, rng, tally)
}

/// How many bytes are lent for a page's.
fn draw_room(want: Found, rng: &mut Rng) -> usize {
    match (want, rng.below(8)) {
        (Found::Page { .. }, 0..=4) => rng.pick(&[4095, 4096, 4096, 4097, 5000, 8192]),
        (Found::Page { .. }, 5) => rng.index(PAGE as usize),
        (_, 6) => 0,
        _ => rng.index(40),
    }
}

/// The bytes of a page by the library, with a `bytes` area of any length, against those in RAM and flash.
fn compare_page(
    lent: &mut Memories,
    root: u32,
    address: u32,
    want: Found,
    fault: Fault,
    rng: &mut Rng,
    tally: &mut Tally,
) -> Result<(), String> {
    let len = draw_room(want, rng);
    let (returned, got) = ffi::page(lent, root, address, len);
    tally.pages += 1;
    let (ram, flash) = (lent.ram.memory(), lent.flash.memory());
    let part = walker::part(ram, flash, want, fault);
    let bytes = walker::part_bytes(ram, flash, part);
    let wanted = ffi::part_around(bytes, len);
    if returned != bytes.len() as u64 || got != wanted {
        let what = match first_difference(&got, &wanted) {
            Some(at) => format!(
                " and {:#04x} for {:#04x} at byte {}",
                got[at],
                wanted[at],
                at as i64 - ffi::AROUND as i64
            ),
            None => String::new(),
        };
        return Err(format!(
            "rigpollen_page (RAM {:#x} bytes at {:#x}, flash {:#x} at {:#x}, root {root:#x}, address {address:#010x}, {len} bytes) returns \
             {returned}{what}; wanted is {want:x?}, so {part:x?}",
            ram.bytes.len(), ram.start, flash.bytes.len(), flash.start
        ));
    }
    count_page(lent, root, want, part, len, &mut tally.met);
    Ok(())
}

fn count_page(lent: &Memories, root: u32, want: Found, part: Part, len: usize, met: &mut Met) {
    let (ram, flash) = (lent.ram.memory(), lent.flash.memory());
    let in_flash_alone = ram.place(root).is_none() && flash.place(root).is_some();
    met.count(Kind::RootInFlash, in_flash_alone);
    let Found::Page { number, .. } = want else {
        return;
    };
    let from = u64::from(number) * PAGE;
    let part_of_ram = ram.area().shares(from, from + PAGE);
    let part_of_flash = flash.area().shares(from, from + PAGE);
    let both = flash.place(number).is_some();
    let (in_ram, in_flash) = (matches!(part, Part::Ram(_)), matches!(part, Part::Flash(_)));
    let empty = part == Part::Empty;
    met.count(Kind::PageInRam, in_ram && !part_of_flash);
    met.count(Kind::PageInFlash, in_flash && !part_of_ram);
    met.count(Kind::PageInBoth, in_ram && both);
    met.count(Kind::PagePartlyInRam, in_flash && part_of_ram);
    met.count(
        Kind::PagePartlyInBoth,
        empty && part_of_ram && part_of_flash,
    );
    met.count(Kind::PageInNeither, empty && !part_of_ram && !part_of_flash);
    met.count(Kind::PagePast, in_flash && number >= 1 << 20);
    met.count(Kind::PageCut, !empty && 0 < len && len < PAGE as usize);
}

/// One address of one process: the library's walk and the own walker against what the process is to see.
fn compare_address(
    boot: &Boot,
    lent: &mut Memories,
    process: u32,
    address: u32,
    fault: Fault,
    rng: &mut Rng,
    tally: &mut Tally,
) -> Result<(), String> {
    let plan = &boot.plan;
    let (root, at) = (plan.root(process), address % PAGE as u32);
    let (want, byte) = match plan.sight(process, address >> 12) {
        None => (Found::Absent, None),
        Some(Sight::Reserved) => (Found::Reserved, None),
        Some(Sight::Page { rights, page }) => (
            Found::Page {
                rights,
                number: plan.physical(page),
            },
            Some(boot.bytes(page)[at as usize]),
        ),
    };
    let whose = |error| format!("process {process}: {error}");
    compare_walk(lent, root, address, want, fault, rng, tally).map_err(whose)?;
    let own = walker::walk(lent.ram.memory(), root, address);
    if own != want {
        return Err(whose(format!(
            "the own walker finds {own:x?} at {address:#010x}; the process is to see {want:x?}"
        )));
    }
    let got = shown(lent, want).get(at as usize).copied();
    if got != byte {
        return Err(whose(format!(
            "byte at {address:#010x} is {got:x?}; the process is to see {byte:x?}"
        )));
    }
    Ok(())
}

/// The bytes that RAM or flash holds where a page is answered.
fn shown(lent: &Memories, found: Found) -> &[u8] {
    let (ram, flash) = (lent.ram.memory(), lent.flash.memory());
    walker::part_bytes(ram, flash, walker::part(ram, flash, found, Fault::None))
}

/// A process at every telling page, at both neighbours, and at random addresses.
fn compare_view(
    boot: &Boot,
    lent: &mut Memories,
    process: u32,
    fault: Fault,
    rng: &mut Rng,
    tally: &mut Tally,
) -> Result<(), String> {
    for page in boot.plan.telling_pages(process) {
        for near in [page - 1, page, page + 1] {
            // A neighbour at which something is seen has its own turn, or is within the stack.
            if near >= 1 << 20 || (near != page && boot.plan.sight(process, near).is_some()) {
                continue;
            }
            let inside = match rng.below(4) {
                0 => 0,
                1 => 4095,
                _ => rng.below(PAGE) as u32,
            };
            compare_address(boot, lent, process, near << 12 | inside, fault, rng, tally)?;
        }
        if let Some(Sight::Page { page: used, rights }) = boot.plan.sight(process, page) {
            let number = boot.plan.physical(used);
            if shown(lent, Found::Page { rights, number }) != boot.bytes(used) {
                return Err(format!("process {process}: the bytes of virtual page {page:#x} are not those it is to see"));
            }
        }
    }
    for _ in 0..24 {
        let address = draw_address(rng);
        compare_address(boot, lent, process, address, fault, rng, tally)?;
    }
    Ok(())
}

/// Any address, one in the 4 MiB of the stack or of the kernel, one among those of 255 stack pages, or one at a limit.
fn draw_address(rng: &mut Rng) -> u32 {
    match rng.below(5) {
        0 => rng.word(),
        1 => 0x7fc0_0000 | rng.word() >> 10,
        2 => 0xffc0_0000 | rng.word() >> 10,
        3 => 0x7ff0_0000 | rng.word() >> 12,
        _ => rng.pick(&[
            0,
            0xfff,
            0x7ff0_0fff,
            0x7ff0_1000,
            0x7ffe_ffff,
            0x7fff_0000,
            0x7fff_bfff,
            0x7fff_c000,
            0x7fff_ffff,
            0x8000_0000,
            0xfff4_2000,
            u32::MAX,
        ]),
    }
}

/// Every one of the 2^20 virtual pages of one process.
fn compare_all_addresses(
    boot: &Boot,
    lent: &mut Memories,
    fault: Fault,
    rng: &mut Rng,
    tally: &mut Tally,
) -> Result<(), String> {
    let process = rng.between(1, *boot.plan.processes().end() as u64) as u32;
    for page in 0..1 << 20 {
        compare_address(boot, lent, process, page << 12, fault, rng, tally)?;
    }
    Ok(())
}

/// RAM for a second call with the same block and flash.
pub fn other_ram(case: &Case, rng: &mut Rng, len: u64, start: u32) -> Case {
    Case {
        what: String::new(),
        block: case.block.clone(),
        flash: case.flash.clone(),
        flash_start: case.flash_start,
        ram: cases::dirty_ram(rng, len),
        start,
    }
}
