//! The kinds of case that 02's A6 and A7 are about, and how often a run has met each.

use crate::cases::Case;
use crate::kind_word;
use crate::memory::Area;
use crate::rules::{self, Board, Fault, Outcome, Plan, Refusal, PAGE};
use crate::straight::{self, Cause};
use std::collections::{BTreeMap, BTreeSet};
use std::ops::Range;

const END: u64 = 1 << 32;
/// Where sixteen pages of stack begin, and where four do.
const DEFAULT_STACK: u64 = 0x7fff_0000;
const OLD_STACK: u64 = 0x7fff_c000;

macro_rules! kinds {
    ($($kind:ident $name:literal)*) => {
        #[derive(Clone, Copy)]
        pub enum Kind { $($kind),* }
        pub const NAMES: &[&str] = &[$($name),*];
    };
}

kinds! {
    // Kind words; there is no other cause of 6 at the record.
    KernelOfOne "6 for kind 1 on the kernel"
    KernelWithStack "6 for stack bits alone on the kernel"
    KernelAbove15 "6 for bits above 15 alone on the kernel"
    UserOfTwo "6 for kind 2 on a user process"
    UserOfMore "6 for kind 3 and up on a user process"
    UserOfMoreWithStack "6 for kind 2 and up with stack bits on a user process"
    UserAbove15 "6 for bits above 15 alone on a user process"
    UserAbove15WithStack "6 for bits above 15 with stack bits on a user process"
    OneWithStack "boot with kind 1 and stack bits"
    ZeroWithStack "boot with kind 0 and stack bits"
    // A section that ends with the last byte below its process's stack, and one that ends one byte further; by the stack bits.
    BelowDefault "boot with a section up to the stack, bits 0"
    BelowOne "boot with a section up to the stack, bits 1"
    BelowFour "boot with a section up to the stack, bits 4"
    BelowSixteen "boot with a section up to the stack, bits 16"
    BelowMost "boot with a section up to the stack, bits 255"
    BelowOther "boot with a section up to the stack, other bits"
    IntoDefault "8 for one byte of the stack alone, bits 0"
    IntoOne "8 for one byte of the stack alone, bits 1"
    IntoFour "8 for one byte of the stack alone, bits 4"
    IntoSixteen "8 for one byte of the stack alone, bits 16"
    IntoMost "8 for one byte of the stack alone, bits 255"
    IntoOther "8 for one byte of the stack alone, other bits"
    // What sixteen pages change.
    OldBlock "8 for bits 0 that four pages would spare"
    OldLimit "8 for bits 0 of a section up to 0x7FFFBFFF"
    OnDefault "boot with a section on a page of the default stack"
    OnOldStack "boot with a section on a page of the last four"
    // Sections of kind 1 on boards that boot or draw 12; "alone": there is no other cause.
    Straight "section used from flash"
    StraightPages "section used from flash, over more pages than one"
    StraightSlots "section used from flash, over more leaf tables than one"
    StraightToEnd "section used from flash, whose last page ends with the image"
    ByOffset "section copied for its offset alone"
    ByImageEnd "section copied for the image's end alone"
    ByByteBefore "section copied for bytes before it alone"
    ByByteAfter "section copied for bytes after it alone"
    BySection "section copied for a section of its process alone"
    TwoProcesses "flash page in two processes"
    TwoPages "flash page at two virtual pages of a process"
    LeafOfFlash "leaf table for pages of flash alone"
    Spared "boot that would draw 12 if every section were copied"
    ByLastByte "section copied for one byte that the image lacks"
    ByPageStart "section copied for its first page's first byte alone"
    ByNextBefore "section copied for the byte next before it alone"
    ByNextAfter "section copied for the byte next after it alone"
    ByPageEnd "section copied for its last page's last byte alone"
    Refused "12 that would boot if no section were copied for A6's causes"
    // Flash's place.
    StartOdd "13 for flash's start alone"
    EndPast "13 for flash's end alone"
    EndPastByte "13 for one byte past 2^32 alone"
    SharesRam "13 for an address of RAM alone"
    SharesByte "13 for one byte of RAM alone"
    EmptyOdd "13 with an empty image"
    AfterOne "1 where 13 has a cause"
    BeforeTwo "13 where 2 has a cause"
    EndsAtTop "flash up to 2^32"
    BelowRam "flash that touches RAM from below"
    AboveRam "flash that touches RAM from above"
    EmptyInRam "empty image inside RAM"
    AroundNoRam "empty RAM inside flash"
    // Regions.
    InFlash "11 for an address of flash alone"
    OnLastPage "11 for a last page that is not whole in the image"
    AfterFlash "region on the page after the image's last byte"
    AfterPart "region after a last page that is not whole in the image"
    BelowFlash "region that touches flash from below"
    AroundEmpty "empty image inside a region"
    // Kinds and stacks of processes.
    NineOfOne "9 in a process of kind 1"
    LaterAbove15 "6 for bits above 15 after record 1"
    LaterInto "8 for one byte of the stack alone, of process 3 and up"
    StacksDiffer "boot with stacks of three lengths and more"
    StraightBelow "section used from flash, up to the stack"
    StraightWithStack "section used from flash, of a process with stack bits"
    // What rigpollen_page answers with.
    PageInRam "page in RAM"
    PageInFlash "page in flash"
    PageInBoth "page in RAM and in flash"
    PagePartlyInRam "page partly in RAM and wholly in flash"
    PagePartlyInBoth "page partly in RAM and partly in flash"
    PageInNeither "page with no byte in RAM or in flash"
    PagePast "page of flash past 2^32"
    PageCut "page with room for a part of it"
    RootInFlash "root table in flash alone"
    // Demand 3.
    PairStraight "pair of RAM with a section in flash"
    PairRefused "second RAM that draws 13"
}

/// The kinds that also a file of cases (case_file.rs) must meet.
pub const OF_A_FILE: Range<usize> = 0..Kind::ByLastByte as usize;

/// Kinds by the stack bits.
const BELOW: [(u32, Kind); 5] = [
    (0, Kind::BelowDefault),
    (1, Kind::BelowOne),
    (4, Kind::BelowFour),
    (16, Kind::BelowSixteen),
    (255, Kind::BelowMost),
];
const INTO: [(u32, Kind); 5] = [
    (0, Kind::IntoDefault),
    (1, Kind::IntoOne),
    (4, Kind::IntoFour),
    (16, Kind::IntoSixteen),
    (255, Kind::IntoMost),
];

fn by_bits(kinds: [(u32, Kind); 5], other: Kind, bits: u32) -> Kind {
    let known = kinds.into_iter().find(|(known, _)| *known == bits);
    known.map_or(other, |(_, kind)| kind)
}

pub struct Met {
    pub kinds: Vec<u64>,
    /// Kind words of one bit that decided, by bit: the kernel's, and those of users.
    pub bits: [[u64; 32]; 2],
}

impl Default for Met {
    fn default() -> Met {
        Met {
            kinds: vec![0; NAMES.len()],
            bits: [[0; 32]; 2],
        }
    }
}

impl Met {
    pub fn count(&mut self, kind: Kind, holds: bool) {
        self.kinds[kind as usize] += u64::from(holds);
    }

    /// The first kind of these that was never met, or the first bit, if any kind is asked for.
    pub fn missing(&self, mut kinds: Range<usize>) -> Option<String> {
        let whose = ["the kernel's", "a user's"].into_iter().zip(&self.bits);
        let bit = whose
            .filter(|_| !kinds.is_empty())
            .find_map(|(whose, bits)| {
                let bit = bits.iter().position(|&count| count == 0)?;
                Some(format!("{whose} kind word with bit {bit} alone"))
            });
        let kind = kinds.find(|&kind| self.kinds[kind] == 0);
        kind.map(|kind| format!("a {}", NAMES[kind])).or(bit)
    }

    /// What a case is, by its answer.
    pub fn case(&mut self, case: &Case, want: &Outcome) {
        let number = want.answer[0];
        let (flash, ram) = (case.memory_of_flash().area(), case.memory_of_ram().area());
        self.place(flash, ram, number, case.block.len());
        match (number, rules::read_block(&case.block)) {
            (6, _) => self.kind_word(&case.block, want.answer[1]),
            (8, Ok(board)) => self.in_stack(&board, want.answer[1] as usize),
            (0 | 9 | 11 | 12, Ok(board)) => {
                if number == 0 {
                    self.stacks(&board);
                }
                self.nine(&board, want);
                self.regions(&board, flash, ram, number);
                if number % 12 == 0 {
                    self.sections(&board, case);
                    self.pages_needed(board, case, number);
                }
            }
            _ => {}
        }
    }

    fn place(&mut self, flash: Area, ram: Area, number: u32, block_len: usize) {
        let causes = rules::causes_of_13(flash, ram, Fault::None);
        let refused = number == 13;
        let shared = flash.to().min(ram.to()) as i64 - flash.from().max(ram.from()) as i64;
        let empty = flash.len == 0;
        let inside = |at: u64, area: Area| area.from() < at && at < area.to();
        let unfit = causes.contains(&true);
        let touching = !empty && ram.len > 0;
        let alone = |cause| refused && causes == cause;
        self.count(Kind::StartOdd, alone([true, false, false]));
        self.count(Kind::EndPast, alone([false, true, false]));
        self.count(
            Kind::EndPastByte,
            alone([false, true, false]) && flash.to() == END + 1,
        );
        self.count(Kind::SharesRam, alone([false, false, true]));
        self.count(Kind::SharesByte, alone([false, false, true]) && shared == 1);
        self.count(Kind::EmptyOdd, refused && empty);
        self.count(Kind::AfterOne, number == 1 && unfit);
        self.count(Kind::BeforeTwo, refused && block_len < 32);
        if number != 1 && !refused {
            self.count(Kind::EndsAtTop, !empty && flash.to() == END);
            self.count(Kind::BelowRam, touching && flash.to() == ram.from());
            self.count(Kind::AboveRam, touching && ram.to() == flash.from());
            self.count(Kind::EmptyInRam, empty && inside(flash.from(), ram));
            self.count(Kind::AroundNoRam, ram.len == 0 && inside(ram.from(), flash));
        }
    }

    /// A record refused with 6.
    fn kind_word(&mut self, block: &[u8], place: u32) {
        let at = 32 + 16 * place as usize + 12;
        let word = u32::from_le_bytes([block[at], block[at + 1], block[at + 2], block[at + 3]]);
        let mut sound = block.to_vec();
        sound[at..at + 4].fill(0);
        if rules::read_block(&sound).is_err_and(|Refusal(_, record)| record.place == place) {
            return;
        }
        self.bit(place, word);
        let (kind, stack, above) = (word & 0xff, word & 0xff00, word & 0xffff_0000);
        if place == 0 {
            self.count(Kind::KernelOfOne, word == 1);
            self.count(Kind::KernelWithStack, word == stack);
            self.count(Kind::KernelAbove15, word == above);
            return;
        }
        self.count(Kind::UserOfTwo, above == 0 && kind == 2);
        self.count(Kind::UserOfMore, above == 0 && kind > 2);
        self.count(Kind::UserOfMoreWithStack, above == 0 && stack != 0);
        self.count(Kind::UserAbove15, kind <= 1 && stack == 0);
        self.count(Kind::UserAbove15WithStack, kind <= 1 && stack != 0);
        self.count(Kind::LaterAbove15, kind <= 1 && place > 1);
    }

    /// A kind word of which one bit is set, at a process record.
    fn bit(&mut self, place: u32, word: u32) {
        if word.is_power_of_two() {
            self.bits[usize::from(place > 0)][word.trailing_zeros() as usize] += 1;
        }
    }

    /// The stacks of a board that boots.
    fn stacks(&mut self, board: &Board) {
        let mut lengths = BTreeSet::new();
        for (place, process) in (1..).zip(&board.processes[1..]) {
            let word = process.kind_word;
            let bits = kind_word::stack_bits(word);
            let stack = kind_word::stack(word, Fault::None);
            let ends = board.sections[process.sections.clone()].iter();
            let end = ends.map(|section| section.va + section.size).max();
            let below = by_bits(BELOW, Kind::BelowOther, bits);
            let of_one = kind_word::kind(word) == 1;
            self.bit(place, word);
            self.count(below, end == Some(stack.start));
            self.count(Kind::OnDefault, end > Some(DEFAULT_STACK));
            self.count(Kind::OnOldStack, end > Some(OLD_STACK));
            self.count(Kind::OneWithStack, of_one && bits != 0);
            self.count(Kind::ZeroWithStack, !of_one && bits != 0);
            lengths.insert(stack.start);
        }
        self.count(Kind::StacksDiffer, lengths.len() > 2);
    }

    /// A section refused with 8, of a user process.
    fn in_stack(&mut self, board: &Board, place: usize) {
        let mut owners = board.processes.iter();
        let Some(owner) = owners.position(|process| process.sections.contains(&place)) else {
            return;
        };
        let section = &board.sections[place];
        let (end, word) = (section.va + section.size, board.processes[owner].kind_word);
        let bits = kind_word::stack_bits(word);
        let spared = |change: &dyn Fn(&mut Board)| {
            let mut board = board.clone();
            change(&mut board);
            let refused = rules::check_sections(&board, END, Fault::None).err();
            refused.map_or(true, |Refusal(_, record)| record.place as usize != place)
        };
        let one_byte = owner > 0
            && end == kind_word::stack(word, Fault::None).start + 1
            && (section.size == 1 || spared(&|board| board.sections[place].size -= 1));
        self.count(by_bits(INTO, Kind::IntoOther, bits), one_byte);
        self.count(Kind::LaterInto, one_byte && owner > 1);
        let by_four =
            owner > 0 && bits == 0 && spared(&|board| board.processes[owner].kind_word |= 4 << 8);
        self.count(Kind::OldBlock, by_four);
        self.count(Kind::OldLimit, by_four && end == OLD_STACK);
    }

    fn nine(&mut self, board: &Board, want: &Outcome) {
        let [number, place, ..] = want.answer;
        let mut owner = board.processes.iter();
        let owner = owner.find(|process| process.sections.contains(&(place as usize)));
        self.count(
            Kind::NineOfOne,
            number == 9 && owner.is_some_and(|process| kind_word::kind(process.kind_word) == 1),
        );
    }

    fn regions(&mut self, board: &Board, flash: Area, ram: Area, number: u32) {
        let without = |len: u64| {
            let flash = Area { len, ..flash };
            rules::check_regions(board, flash, ram, Fault::None).is_ok()
        };
        let part = flash.len % PAGE != 0;
        if number == 11 {
            self.count(Kind::InFlash, without(0));
            self.count(Kind::OnLastPage, part && without(flash.pages() * PAGE));
        }
        if number % 12 != 0 {
            return;
        }
        let empty = flash.len == 0;
        for region in &board.regions {
            let (from, to) = (region.start, region.start + region.pages * PAGE);
            let after = !empty && from == flash.to().next_multiple_of(PAGE);
            self.count(Kind::AfterFlash, after);
            self.count(Kind::AfterPart, after && part);
            self.count(Kind::BelowFlash, !empty && to == flash.from());
            let around = from < flash.from() && flash.from() < to;
            self.count(Kind::AroundEmpty, empty && around);
        }
    }

    fn sections(&mut self, board: &Board, case: &Case) {
        let candidates = straight::candidates(board);
        let mut reached: BTreeMap<u64, u32> = BTreeMap::new();
        for (number, process) in (1..).zip(&board.processes) {
            for i in process.sections.clone().filter(|&i| candidates[i]) {
                let section = &board.sections[i];
                let causes = straight::causes(section, &case.flash, Fault::None);
                self.section(section, &causes, case.flash.len() as u64);
                self.lone_byte(section, &causes, &case.flash);
                let (from, to) = straight::page_bytes(section);
                if causes.is_empty() {
                    self.above_straight(section, process.kind_word);
                    for page in from / PAGE..to / PAGE {
                        let other = reached.insert(page, number);
                        self.count(Kind::TwoProcesses, other.is_some_and(|q| q != number));
                        self.count(Kind::TwoPages, other == Some(number));
                    }
                }
                let beside = process.sections.clone().any(|j| {
                    let other = &board.sections[j];
                    let end = other.offset + other.size;
                    let shares = |low: u64, high: u64| other.offset.max(low) < end.min(high);
                    let own_end = section.offset + section.size;
                    !other.has(rules::NOCOPY)
                        && (shares(from, section.offset) || shares(own_end, to))
                });
                let alone = matches!(causes[..], [Cause::ByteBefore] | [Cause::ByteAfter]);
                self.count(Kind::BySection, alone && beside);
            }
        }
    }

    /// The stack above a section that is used from flash.
    fn above_straight(&mut self, section: &rules::Section, word: u32) {
        let stack = kind_word::stack(word, Fault::None);
        let up_to = section.va + section.size == stack.start;
        self.count(Kind::StraightBelow, up_to);
        self.count(Kind::StraightWithStack, kind_word::stack_bits(word) != 0);
    }

    fn section(&mut self, section: &rules::Section, causes: &[Cause], flash_len: u64) {
        let (from, to) = straight::page_bytes(section);
        let straight = causes.is_empty();
        self.count(Kind::Straight, straight);
        self.count(Kind::StraightPages, straight && to - from > PAGE);
        self.count(Kind::StraightToEnd, straight && to == flash_len);
        let slots = |at: u64| at / PAGE / 1024;
        let over_slots = slots(section.va) != slots(section.va + section.size - 1);
        self.count(Kind::StraightSlots, straight && over_slots);
        self.count(Kind::ByOffset, *causes == [Cause::Offset]);
        self.count(Kind::ByImageEnd, *causes == [Cause::ImageEnd]);
        self.count(
            Kind::ByLastByte,
            *causes == [Cause::ImageEnd] && to == flash_len + 1,
        );
        self.count(Kind::ByByteBefore, *causes == [Cause::ByteBefore]);
        self.count(Kind::ByByteAfter, *causes == [Cause::ByteAfter]);
    }

    /// A section that one byte beside it keeps out of flash.
    fn lone_byte(&mut self, section: &rules::Section, causes: &[Cause], flash: &[u8]) {
        if !matches!(causes, [Cause::ByteBefore] | [Cause::ByteAfter]) {
            return;
        }
        let (from, to) = straight::page_bytes(section);
        let end = section.offset + section.size;
        let beside = (from..section.offset).chain(end..to);
        let bytes: Vec<u64> = beside.filter(|&at| flash[at as usize] != 0).collect();
        let alone = |at: u64| bytes == [at];
        let before = *causes == [Cause::ByteBefore];
        self.count(Kind::ByPageStart, before && alone(from));
        self.count(Kind::ByNextBefore, before && alone(section.offset - 1));
        self.count(Kind::ByNextAfter, !before && alone(end));
        self.count(Kind::ByPageEnd, !before && alone(to - 1));
    }

    fn pages_needed(&mut self, board: Board, case: &Case, number: u32) {
        let ram = case.memory_of_ram().area();
        let straight = straight::sections(&board, case.memory_of_flash(), Fault::None);
        let fits = |straight: Vec<bool>| {
            let plan = Plan::with(board.clone(), straight, case.flash_start, ram, Fault::None);
            plan.needed() <= ram.pages()
        };
        let none = vec![false; board.sections.len()];
        self.count(Kind::Spared, number == 0 && !fits(none));
        let all = straight::candidates(&board);
        self.count(Kind::Refused, number == 12 && fits(all));
        self.count(Kind::LeafOfFlash, has_leaf_of_flash(&board, &straight));
    }
}

/// Whether a user process has a 4 MiB block of its own in which all is in flash.
fn has_leaf_of_flash(board: &Board, straight: &[bool]) -> bool {
    const STACK_BLOCK: u64 = 511;
    board.processes.iter().skip(1).any(|process| {
        let mut in_ram: BTreeMap<u64, bool> = BTreeMap::new();
        for i in process.sections.clone() {
            let section = &board.sections[i];
            let last = (section.va + section.size - 1) / PAGE;
            for block in section.va / PAGE / 1024..=last / 1024 {
                *in_ram.entry(block).or_default() |= !straight[i];
            }
        }
        in_ram.remove(&STACK_BLOCK);
        in_ram.values().any(|in_ram| !in_ram)
    })
}
