//! Cases as one file, for the library on another machine (rv32/cases.c). All is 32-bit words, little-endian; bytes are filled up with
//! zeros to whole words.
//!
//! RAM is not in the file, nor is the writer's buffer: their word k before a call is `dirt` of the case's number and k.
//!
//! The number of cases, and the damage (0; rv32/cases.c). Then of each case:
//!
//! - its number in the run; RAM's start and length in bytes; the block's and flash's length; flash's start
//! - the answer's six words
//! - how many calls for a process, and of each the process, the number returned, how many words it puts, and three words
//! - walks by way of the loaded tables: how many, and of each the root's page number and the address; what `rigpollen_walk` returns, and
//!   two words; what `rigpollen_page` returns, whose bytes it puts (0 none, 1 RAM's, 2 flash's), and where they are, counted from the
//!   area's first byte
//! - the bytes of the block and of flash
//! - of each page of RAM (the last may be cut) what it is after the load: 0 as before, 1 zero, 2 other bytes, and then these
//! - tables that no loader writes, in RAM: where it starts, its length, its bytes; flash beside it, in the same way; and walks on them
//! - how many calls of the block writer, and of each the words of its three lists and the bytes of its buffer, the answer's four words,
//!   the lists, and what is written

use crate::cases::{self, Case};
use crate::check;
use crate::lists;
use crate::memory::Memory;
use crate::met::{self, Met};
use crate::reader;
use crate::rng::Rng;
use crate::rules::{self, Fault, Outcome, PAGE};
use crate::walker::{self, Found, Part};
use crate::writer::{self, Job};
use std::fs::File;
use std::io::{BufWriter, Write};

/// RAM over this size makes the file and the run long: so many such cases are written, and the rest are left out.
const LARGE_RAM: usize = 1 << 20;
const LARGE_CASES: u64 = 2;
const WALKS_OF_A_PROCESS: usize = 12;
const WALKS_OF_ODD_TABLES: usize = 24;
/// Every so many cases have calls of the writer, with lists of at most so many words.
const CASES_PER_WRITING: u64 = 4;
const LIST_WORDS: usize = 2000;

/// Part of a file, and the places of what is expected, by name.
#[derive(Default)]
struct Out {
    bytes: Vec<u8>,
    places: Vec<(&'static str, usize)>,
}

impl Out {
    fn words(&mut self, words: &[u32]) {
        words
            .iter()
            .for_each(|word| self.bytes.extend(word.to_le_bytes()));
    }

    fn padded(&mut self, bytes: &[u8]) {
        self.bytes.extend(bytes);
        self.bytes.resize(self.bytes.len().next_multiple_of(4), 0);
    }

    /// What comes next is expected of the library. The first of a name is kept.
    fn mark(&mut self, name: &'static str) {
        if self.places.iter().all(|(known, _)| *known != name) {
            self.places.push((name, self.bytes.len()));
        }
    }

    /// One walk; `names` are those of what `rigpollen_walk` and `rigpollen_page` give.
    fn walk(&mut self, read: Reading, address: u32, names: [&'static str; 2]) {
        let Reading { ram, flash, root } = read;
        let found = walker::walk(ram, root, address);
        let (number, words) = match found {
            Found::Absent => (0, [0, 0]),
            Found::Reserved => (1, [0, 0]),
            Found::Page { rights, number } => (2, [rights, number]),
        };
        self.words(&[root, address]);
        self.mark(names[0]);
        self.words(&[number, words[0], words[1]]);
        let (area, at) = match walker::part(ram, flash, found, Fault::None) {
            Part::Empty => (0, 0),
            Part::Ram(at) => (1, at),
            Part::Flash(at) => (2, at),
        };
        self.mark(names[1]);
        let length = if area == 0 { 0 } else { PAGE as u32 };
        self.words(&[length, area, at as u32]);
    }

    fn memory(&mut self, memory: Memory) {
        self.words(&[memory.start, memory.bytes.len() as u32]);
        self.padded(memory.bytes);
    }
}

/// What a walk is on.
#[derive(Clone, Copy)]
struct Reading<'a> {
    ram: Memory<'a>,
    flash: Memory<'a>,
    root: u32,
}

fn dirt(number: u32, k: u32) -> u32 {
    k.wrapping_add(number.wrapping_mul(0x10001))
        .wrapping_mul(0x9e37_79b1)
}

fn dirty_ram(number: u64, len: usize) -> Vec<u8> {
    let words = len.div_ceil(4) as u32;
    let mut ram: Vec<u8> = (0..words)
        .flat_map(|k| dirt(number as u32, k).to_le_bytes())
        .collect();
    ram.truncate(len);
    ram
}

/// Every process, number 0, the number after the last, and 31.
fn write_processes(out: &mut Out, want: &Outcome) {
    let last = want
        .boot
        .as_ref()
        .map_or(0, |boot| *boot.plan.processes().end());
    out.words(&[last + 3]);
    for process in (0..=last + 1).chain([31]) {
        let (number, mut words) = rules::started(want, process);
        let count = words.len() as u32;
        words.resize(3, 0);
        out.words(&[process]);
        out.mark("process");
        out.words(&[number, count]);
        out.words(&words);
    }
}

fn write_walks(out: &mut Out, case: &Case, want: &Outcome, rng: &mut Rng) {
    let Some(boot) = &want.boot else {
        out.words(&[0]);
        return;
    };
    let processes = boot.plan.processes();
    out.words(&[*processes.end() * WALKS_OF_A_PROCESS as u32]);
    for process in processes {
        let telling: Vec<u32> = boot.plan.telling_pages(process).collect();
        for _ in 0..WALKS_OF_A_PROCESS {
            let near = rng.below(3) as u32;
            let page = rng.pick(&telling).wrapping_add(near).wrapping_sub(1);
            let address = page << 12 | rng.below(PAGE) as u32;
            let read = Reading {
                ram: Memory {
                    bytes: &want.image,
                    start: case.start,
                },
                flash: case.memory_of_flash(),
                root: boot.plan.root(process),
            };
            out.walk(read, address, ["walk", "page"]);
        }
    }
}

fn write_ram_after(out: &mut Out, case: &Case, want: &Outcome) {
    let pages = case.ram.chunks(PAGE as usize);
    for (before, after) in pages.zip(want.image.chunks(PAGE as usize)) {
        if before == after {
            out.words(&[0]);
        } else if after.iter().all(|&byte| byte == 0) {
            out.words(&[1]);
        } else {
            out.words(&[2]);
            out.mark("RAM");
            out.padded(after);
        }
    }
}

fn write_odd_tables(out: &mut Out, rng: &mut Rng) {
    let lent = reader::malformed(rng);
    let (ram, flash) = (lent.ram.memory(), lent.flash.memory());
    out.memory(ram);
    out.memory(flash);
    out.words(&[WALKS_OF_ODD_TABLES as u32]);
    for _ in 0..WALKS_OF_ODD_TABLES {
        let root = reader::draw_root(rng, &lent);
        let address = reader::draw_address(rng, &lent, root);
        let read = Reading { ram, flash, root };
        let names = ["walk of odd tables", "page of odd tables"];
        out.walk(read, address, names);
    }
}

/// The records of the case's block, and generated lists. Counts the calls by number.
fn write_writings(
    out: &mut Out,
    number: u64,
    case: &Case,
    rng: &mut Rng,
    numbers: &mut writer::Numbers,
) {
    let mut jobs: Vec<Job> = Vec::new();
    if number % CASES_PER_WRITING == 0 {
        jobs.extend(writer::job_of(&case.block, rng));
        jobs.push(lists::generate(rng));
        jobs.retain(|job| job.lists.iter().all(|list| list.len() <= LIST_WORDS));
    }
    out.words(&[jobs.len() as u32]);
    for job in &jobs {
        let buffer = dirty_ram(number, job.buffer.len());
        let want = writer::write(&job.lists, &buffer, Fault::None);
        out.words(&job.lists.each_ref().map(|list| list.len() as u32));
        out.words(&[buffer.len() as u32]);
        out.mark("writer's answer");
        out.words(&want.answer[..3]);
        out.mark("writer's offset");
        out.words(&want.answer[3..]);
        job.lists.iter().for_each(|list| out.words(list));
        out.mark("written block");
        out.padded(&want.buffer[..want.answer[2] as usize]);
        numbers.count(want.answer);
    }
}

fn write_case(out: &mut Out, number: u64, case: &Case, want: &Outcome, rng: &mut Rng) {
    let lengths = [&case.ram, &case.block, &case.flash].map(|area| area.len() as u32);
    out.words(&[number as u32, case.start]);
    out.words(&lengths);
    out.words(&[case.flash_start]);
    out.mark("answer");
    out.words(&want.answer[..5]);
    out.mark("offset");
    out.words(&want.answer[5..]);
    write_processes(out, want);
    write_walks(out, case, want, rng);
    out.padded(&case.block);
    out.padded(&case.flash);
    write_ram_after(out, case, want);
    write_odd_tables(out, rng);
}

/// The first `count` cases of a seed, with their numbers in the run, but for most of those with a large RAM. RAM holds `dirt`.
fn drawn(seed: u64, count: u64) -> impl Iterator<Item = (u64, Case)> {
    let mut large = 0;
    (0..)
        .map(move |number| (number, cases::generate(seed, number)))
        .filter(move |(_, case)| {
            large += u64::from(case.ram.len() > LARGE_RAM);
            case.ram.len() <= LARGE_RAM || large <= LARGE_CASES
        })
        .take(count as usize)
        .map(|(number, mut case)| {
            case.ram = dirty_ram(number, case.ram.len());
            (number, case)
        })
}

/// Writes `count` cases of a seed. Prints where the first case has the first of what is expected, by name, and how often each number came
/// up.
pub fn write(path: &str, seed: u64, count: u64) -> Result<(), String> {
    let failed = |error| format!("{path}: {error}");
    let mut file = BufWriter::new(File::create(path).map_err(failed)?);
    let mut out = Out::default();
    let mut numbers = check::Numbers::default();
    let mut writings = writer::Numbers::default();
    let mut met = Met::default();
    out.words(&[count as u32, 0]);
    for (number, case) in drawn(seed, count) {
        let (flash, ram) = (case.memory_of_flash(), case.memory_of_ram());
        let want = rules::load(&case.block, flash, ram, Fault::None);
        let mut rng = Rng::new(seed, number, 2);
        write_case(&mut out, number, &case, &want, &mut rng);
        write_writings(&mut out, number, &case, &mut rng, &mut writings);
        for (name, at) in std::mem::take(&mut out.places) {
            if number == 0 {
                println!("place {at} {name}");
            }
        }
        file.write_all(&out.bytes).map_err(failed)?;
        out.bytes.clear();
        numbers.count(&case, &want);
        met.case(&case, &want);
    }
    file.flush().map_err(failed)?;
    let cases_met = met.missing(met::OF_A_FILE);
    let missing = numbers.missing().or(writings.missing()).or(cases_met);
    if let Some(never) = missing.filter(|_| count >= 1000) {
        return Err(format!("{never} never came up in {count} cases"));
    }
    println!(
        "compare: {count} cases of seed {seed} written; by number {:?}; the writer's {:?}",
        numbers.all, writings.all
    );
    Ok(())
}
