//! 01's small board: its cases P1 to P12 and those of 02's A7 are the first cases of a run, and its figures are what the
//! second program itself is held against before it is used. So are figures of a board with a section in flash.

use crate::draft::{Draft, ProcessRecord, RegionRecord, SectionRecord};
use crate::memory::Memory;
use crate::rules::{self, Fault, Outcome, PAGE};
use crate::writer;

pub struct Marked {
    pub name: String,
    pub draft: Draft,
    /// Number, place and free pages that 01 gives, and 02's (A5) offset: process record i is at byte 32 + 16i of this block, section
    /// record n at 64 + 16n, region record i at 112 + 8i.
    expected: [u32; 4],
}

fn board() -> Draft {
    let section = |va, size, offset, flags| SectionRecord {
        va,
        size,
        offset,
        flags,
    };
    Draft {
        processes: vec![
            ProcessRecord {
                entry: 0xffc0_0010,
                first: 0,
                count: 1,
                kind_word: 0,
            },
            ProcessRecord {
                entry: 0x0001_0020,
                first: 1,
                count: 2,
                kind_word: 0,
            },
        ],
        sections: vec![
            section(0xffc0_0000, 256, 0, 4),
            section(0x0001_0020, 64, 256, 4),
            section(0x0002_0000, 4096, 0, 3),
        ],
        regions: vec![RegionRecord {
            start: 0xf000_0000,
            pages: 2,
        }],
        flash: vec![0x5a; 320],
        flash_start: 0x2000_0000,
        ram_len: 16 * PAGE,
        start: 0x4000_0000,
        ..Draft::default()
    }
}

/// The last of 01's twelve has two halves.
const P_CASES: u64 = 13;

/// P1 to P12, then A7's: those of the stack's edges, and every bit of the kernel's kind word and of process 2's.
pub fn marked(number: u64) -> Option<Marked> {
    let Some(after) = number.checked_sub(P_CASES) else {
        return p_case(number);
    };
    match STACK_FIGURES.get(after as usize) {
        Some(figures) => Some(stack_case(figures)),
        None => bit_case(after - STACK_FIGURES.len() as u64),
    }
}

fn p_case(number: u64) -> Option<Marked> {
    let mut draft = board();
    let (name, expected) = match number {
        0 => ("P1", [0, 0, 1, 0]),
        1 => {
            draft.ram_len = 15 * PAGE;
            ("P2", [0, 0, 0, 0])
        }
        2 => {
            draft.ram_len = 14 * PAGE;
            ("P3", [12, 0, 0, 0])
        }
        3 => {
            draft.length = Some(0);
            ("P4", [2, 0, 0, 0])
        }
        4 => {
            draft.processes[1].entry = 0x0001_005f;
            ("P5", [0, 0, 1, 0])
        }
        5 => {
            draft.processes[1].entry = 0x0001_0060;
            ("P6", [10, 1, 0, 48])
        }
        6 => {
            draft.flash.truncate(319);
            ("P7", [9, 1, 0, 80])
        }
        7 => {
            draft.sections[2].va = 0x0001_0060;
            ("P8", [8, 2, 0, 96])
        }
        8 => {
            draft.sections[2].va = 0x0001_1000;
            ("P9", [0, 0, 1, 0])
        }
        // "P10 and P11 now carry four in process 2's bits."
        9 => {
            draft.processes[1].kind_word = 0x0400;
            draft.sections[2].va = 0x7fff_b000;
            ("P10", [0, 0, 1, 0])
        }
        10 => {
            draft.processes[1].kind_word = 0x0400;
            draft.sections[2].va = 0x7fff_b001;
            ("P11", [8, 2, 0, 96])
        }
        11 => {
            draft.regions[0].start = 0x4000_f000;
            ("P12 inside", [11, 0, 0, 112])
        }
        12 => {
            draft.regions[0].start = 0x4001_0000;
            ("P12 after", [0, 0, 1, 0])
        }
        _ => return None,
    };
    Some(Marked {
        name: name.to_string(),
        draft,
        expected,
    })
}

/// The kernel's and process 2's kind word, B's address (it has 4,096 bytes), and number, place, free pages and offset.
type StackFigures = ([u32; 2], u32, [u32; 4]);

const BOOTS: [u32; 4] = [0, 0, 1, 0];
const B_REFUSED: [u32; 4] = [8, 2, 0, 96];
const KERNEL_REFUSED: [u32; 4] = [6, 0, 0, 32];
const PROCESS_2_REFUSED: [u32; 4] = [6, 1, 0, 48];

/// B up to the last byte below the stack and one byte further, with kind 0 and kind 1; B where four, fifteen or sixteen pages decide; and
/// kind words with more bits than one.
const STACK_FIGURES: [StackFigures; 42] = [
    ([0, 0x0000], 0x7ffe_f000, BOOTS),
    ([0, 0x0000], 0x7ffe_f001, B_REFUSED),
    ([0, 0x0001], 0x7ffe_f000, BOOTS),
    ([0, 0x0001], 0x7ffe_f001, B_REFUSED),
    ([0, 0x0100], 0x7fff_e000, BOOTS),
    ([0, 0x0100], 0x7fff_e001, B_REFUSED),
    ([0, 0x0101], 0x7fff_e000, BOOTS),
    ([0, 0x0101], 0x7fff_e001, B_REFUSED),
    ([0, 0x0401], 0x7fff_b000, BOOTS),
    ([0, 0x0401], 0x7fff_b001, B_REFUSED),
    ([0, 0x1000], 0x7ffe_f000, BOOTS),
    ([0, 0x1000], 0x7ffe_f001, B_REFUSED),
    ([0, 0x1001], 0x7ffe_f000, BOOTS),
    ([0, 0x1001], 0x7ffe_f001, B_REFUSED),
    ([0, 0xff00], 0x7ff0_0000, BOOTS),
    ([0, 0xff00], 0x7ff0_0001, B_REFUSED),
    ([0, 0xff01], 0x7ff0_0000, BOOTS),
    ([0, 0xff01], 0x7ff0_0001, B_REFUSED),
    ([0, 0x0000], 0x7fff_b000, B_REFUSED),
    ([0, 0x0000], 0x7fff_0000, B_REFUSED),
    ([0, 0x0001], 0x7fff_b000, B_REFUSED),
    ([0, 0x0400], 0x7fff_0000, BOOTS),
    ([0, 0x0400], 0x7fff_c000, B_REFUSED),
    ([0, 0x0100], 0x7fff_c000, BOOTS),
    ([0, 0x0100], 0x7fff_f000, B_REFUSED),
    ([0, 0x0f00], 0x7fff_0000, BOOTS),
    ([0, 0x0f00], 0x7fff_0001, B_REFUSED),
    ([0, 0x1000], 0x7fff_0000, B_REFUSED),
    ([0, 0x1100], 0x7ffe_e000, BOOTS),
    ([0, 0x1100], 0x7ffe_e001, B_REFUSED),
    ([0, 0x1100], 0x7ffe_f000, B_REFUSED),
    ([0, 0xfe00], 0x7ff0_1000, BOOTS),
    ([0, 0xff00], 0x7ff0_1000, B_REFUSED),
    ([0, 0x0402], 0x0002_0000, PROCESS_2_REFUSED),
    ([0, 0xffff], 0x0002_0000, PROCESS_2_REFUSED),
    ([0, 0x0001_0400], 0x0002_0000, PROCESS_2_REFUSED),
    ([0, 0x8000_0001], 0x0002_0000, PROCESS_2_REFUSED),
    ([0, 0x0001_0000], 0x7fff_b000, PROCESS_2_REFUSED),
    ([0x0401, 0], 0x0002_0000, KERNEL_REFUSED),
    ([0xff00, 0x0400], 0x0002_0000, KERNEL_REFUSED),
    ([0x0001_0000, 0x0002], 0x0002_0000, KERNEL_REFUSED),
    ([u32::MAX, u32::MAX], 0x7fff_b000, KERNEL_REFUSED),
];

fn stack_case((kind_words, b, expected): &StackFigures) -> Marked {
    let mut draft = board();
    for (process, kind_word) in draft.processes.iter_mut().zip(kind_words) {
        process.kind_word = *kind_word;
    }
    draft.sections[2].va = *b;
    Marked {
        name: format!("small board, kind words {kind_words:x?}, B at {b:x}"),
        draft,
        expected: *expected,
    }
}

/// Bit 0 is kind 1, bits 8 to 15 are 1 to 128 pages of stack; no other bit is for a user process, and none for the kernel.
fn bit_case(number: u64) -> Option<Marked> {
    let (process, bit) = (number / 32, number % 32);
    let (whose, expected) = match (process, bit) {
        (0, _) => ("the kernel's", KERNEL_REFUSED),
        (1, 0 | 8..=15) => ("process 2's", BOOTS),
        (1, _) => ("process 2's", PROCESS_2_REFUSED),
        _ => return None,
    };
    let mut draft = board();
    draft.processes[process as usize].kind_word = 1 << bit;
    Some(Marked {
        name: format!("small board, {whose} kind word with bit {bit}"),
        draft,
        expected,
    })
}

fn word(ram: &[u8], page: usize, index: usize) -> u32 {
    let at = page * PAGE as usize + index * 4;
    u32::from_le_bytes([ram[at], ram[at + 1], ram[at + 2], ram[at + 3]])
}

fn load(draft: &Draft) -> Outcome {
    let ram = Memory {
        bytes: &vec![0xee; draft.ram_len as usize],
        start: draft.start,
    };
    rules::load(&draft.block(), draft.memory_of_flash(), ram, Fault::None)
}

/// Number, place, free pages and offset against those of the papers.
fn check_answer(name: &str, draft: &Draft, expected: [u32; 4]) -> Result<(), String> {
    let answer = load(draft).answer;
    let got = [answer[0], answer[1], answer[3], answer[5]];
    if got == expected {
        return Ok(());
    }
    Err(format!(
        "{name}: the rules here give {got:?}, the papers {expected:?}"
    ))
}

/// Page, word in it, value.
fn check_words(name: &str, ram: &[u8], figures: &[(usize, usize, u32)]) -> Result<(), String> {
    for &(page, index, value) in figures {
        let got = word(ram, page, index);
        if got != value {
            return Err(format!("{name}, page {page}, word {index}: the rules here give {got:#x}, the papers {value:#x}"));
        }
    }
    Ok(())
}

/// The second program against the papers' own figures.
pub fn check_rules() -> Result<(), String> {
    for marked in (0..).map_while(marked) {
        check_answer(&marked.name, &marked.draft, marked.expected)?;
    }
    let draft = board();
    let ram = load(&draft).image;
    // Entries of A and B, and of the kernel's pages, with the flags of 02 (A1); root entries, satp words.
    let figures = [
        (2, 16, 0x1000_2c5b),
        (2, 32, 0x1000_28d7),
        (4, 0, 0x1000_244b),
        (4, 768, 0x1000_1843),
        (4, 832, 0x1000_20c7),
        (4, 896, 0x1000_1c43),
        (3, 0, 0x1000_0801),
        (3, 511, 0x1000_0401),
        (3, 1023, 0x1000_1001),
        (5, 1023, 0x1000_1001),
        (7, 0, 0x8044_0005),
        (7, 3, 0x8084_0003),
        (7, 5, 0x8000_0000),
        (6, 0, 1),
        (0, 0, 0xeeee_eeee),
        (12, 0, 0xeeee_eeee),
    ];
    check_words("small board", &ram, &figures)?;
    let owners = |number| {
        ram[8 * 4096..8 * 4096 + 16]
            .iter()
            .filter(|&&byte| byte == number)
            .count()
    };
    if (owners(0), owners(1), owners(2)) != (1, 13, 2) {
        return Err("small board: the tracker here does not count 1 free page, 13 of process 1, 2 of process 2".to_string());
    }
    check_stacks()?;
    check_flash()?;
    check_writer(&draft)
}

/// "The reserved entries are that many, all in block 511", which has page 1; "stack pointers stay".
fn check_stacks() -> Result<(), String> {
    for (kind_word, first) in [
        (0, 1008),
        (0x0100, 1023),
        (0x0400, 1020),
        (0x1000, 1008),
        (0xff00, 769),
    ] {
        let mut draft = board();
        draft.processes[1].kind_word = kind_word;
        let mut figures = vec![(3, 511, 0x1000_0401), (7, 5, 0x8000_0000)];
        figures.extend((0..first).map(|entry| (1, entry, 0)));
        figures.extend((first..1024).map(|entry| (1, entry, 22)));
        let name = format!("small board, kind word {kind_word:#x}");
        check_words(&name, &load(&draft).image, &figures)?;
    }
    Ok(())
}

/// The small board with A in flash: process 2 is of kind 1, A is at byte 0x1020 of an image of two pages, and zeros are around it.
fn flash_board() -> Draft {
    let mut draft = board();
    draft.processes[1].kind_word = 1;
    draft.sections[1].offset = 0x1020;
    draft.flash = vec![0; 0x2000];
    draft.flash[..256].fill(0x5a);
    draft.flash[0x1020..0x1060].fill(0x5a);
    draft
}

/// What makes 02's rule (A6), 13 or 11 hold or not on the flash board, with number, place, free pages and offset. Two pages are free
/// where A is in flash, one where it is copied.
const FLASH_FIGURES: [(&str, fn(&mut Draft), [u32; 4]); 22] = [
    ("A in flash", |_| {}, [0, 0, 2, 0]),
    ("kind 0", |d| d.processes[1].kind_word = 0, [0, 0, 1, 0]),
    ("kind 2", |d| d.processes[1].kind_word = 2, [6, 1, 0, 48]),
    (
        "kind 1 and stack bits",
        |d| d.processes[1].kind_word = 0x0401,
        [0, 0, 2, 0],
    ),
    (
        "kind 0 and stack bits",
        |d| d.processes[1].kind_word = 0x0400,
        [0, 0, 1, 0],
    ),
    (
        "kernel of kind 1",
        |d| d.processes[0].kind_word = 1,
        [6, 0, 0, 32],
    ),
    ("offset", |d| d.sections[1].offset = 0x1021, [0, 0, 1, 0]),
    ("byte before", |d| d.flash[0x101f] = 1, [0, 0, 1, 0]),
    ("page's first byte", |d| d.flash[0x1000] = 1, [0, 0, 1, 0]),
    ("page before", |d| d.flash[0xfff] = 1, [0, 0, 2, 0]),
    ("byte after", |d| d.flash[0x1060] = 1, [0, 0, 1, 0]),
    ("page's last byte", |d| d.flash[0x1fff] = 1, [0, 0, 1, 0]),
    ("a byte less", |d| d.flash.truncate(0x1fff), [0, 0, 1, 0]),
    ("a byte more", |d| d.flash.resize(0x2001, 1), [0, 0, 2, 0]),
    ("odd start", |d| d.flash_start += 2048, [13, 0, 0, 0]),
    ("to 2^32", |d| d.flash_start = 0xffff_e000, [0, 0, 2, 0]),
    ("past 2^32", |d| d.flash_start = 0xffff_f000, [13, 0, 0, 0]),
    ("to RAM", |d| d.flash_start = 0x3fff_e000, [0, 0, 2, 0]),
    ("into RAM", |d| d.flash_start = 0x3fff_f000, [13, 0, 0, 0]),
    ("after RAM", |d| d.flash_start = 0x4001_0000, [0, 0, 2, 0]),
    (
        "region after flash",
        |d| d.regions[0].start = 0x2000_2000,
        [0, 0, 2, 0],
    ),
    (
        "region on flash's last page",
        |d| d.regions[0].start = 0x2000_1000,
        [11, 0, 0, 112],
    ),
];

/// "Its entries then name flash pages": page 0x20001 is A's, and B is on RAM page 11.
fn check_flash() -> Result<(), String> {
    for (name, change, expected) in FLASH_FIGURES {
        let mut draft = flash_board();
        change(&mut draft);
        check_answer(&format!("board with A in flash, {name}"), &draft, expected)?;
    }
    let figures = [
        (3, 16, 0x0800_045b),
        (3, 32, 0x1000_2cd7),
        (4, 0, 0x1000_0c01),
        (4, 511, 0x1000_0801),
        (2, 1007, 0),
        (2, 1008, 22),
        (8, 3, 0x8084_0004),
    ];
    check_words(
        "board with A in flash",
        &load(&flash_board()).image,
        &figures,
    )
}

/// "Block 120 bytes: p 2 at 32, s 3 at 64, r 1 at 112": from its records, the writer here makes it in a buffer of 121 bytes. With kind 2
/// or a bit above 15 in process record 1 it refuses 6 at 1, byte 48; with any bit in record 0, 6 at 0, byte 32.
fn check_writer(draft: &Draft) -> Result<(), String> {
    let block = draft.block();
    let words: Vec<u32> = (0..30).map(|i| word(&block, 0, i)).collect();
    let mut lists = [&words[8..16], &words[16..28], &words[28..30]].map(<[u32]>::to_vec);
    let written = writer::write(&lists, &[0xee; 121], Fault::None);
    let header: [u32; 8] = std::array::from_fn(|i| word(&written.buffer, 0, i));
    if written.answer != [0, 0, 120, 0]
        || header != [1, 120, 2, 32, 3, 64, 1, 112]
        || written.buffer != [&block[..], &[0xee]].concat()
    {
        return Err(format!(
            "small board: the writer here gives {:?} and the header {header:?}",
            written.answer
        ));
    }
    let written = [0, 0, 120, 0];
    for (kind_words, expected) in [
        ([0, 1], written),
        ([0, 2], [6, 1, 0, 48]),
        ([0, 0xff01], written),
        ([0, 0x0402], [6, 1, 0, 48]),
        ([0, 0x0001_0000], [6, 1, 0, 48]),
        ([0x0400, 0], [6, 0, 0, 32]),
    ] {
        [lists[0][3], lists[0][7]] = kind_words;
        let answer = writer::write(&lists, &[0xee; 121], Fault::None).answer;
        if answer != expected {
            return Err(format!(
                "small board, kind words {kind_words:x?}: the writer here gives {answer:?}"
            ));
        }
    }
    Ok(())
}
