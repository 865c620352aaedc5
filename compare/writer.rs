//! 02's block writer (A2), written a second time, and the library's held against it: on generated lists, and on the records of every
//! generated block that draws none of 2 to 5. What was written is read back.

use crate::cases::Case;
use crate::check::{self, compare_words};
use crate::ffi::{self, Lent, LentWords};
use crate::lists;
use crate::memory::Memory;
use crate::rng::Rng;
use crate::rules::{self, Board, Fault, Record, Refusal, PAGE};

/// The words of the process, section and region records.
pub type Lists = [Vec<u32>; 3];
pub const RECORD_WORDS: [usize; 3] = [4, 4, 2];
const LIST_NAMES: [&str; 3] = ["process", "section", "region"];

/// How often each number of the writer came up, and 6 at a record after the first, where a wrong offset shows.
pub struct Numbers {
    pub all: [(u32, u64); 4],
    pub later: u64,
}

impl Default for Numbers {
    fn default() -> Numbers {
        Numbers {
            all: [0, 6, 21, 22].map(|number| (number, 0)),
            later: 0,
        }
    }
}

impl Numbers {
    pub fn count(&mut self, [number, place, ..]: [u32; 4]) {
        let counts = self.all.iter_mut().filter(|(known, _)| *known == number);
        counts.for_each(|(_, count)| *count += 1);
        self.later += u64::from(number == 6 && place > 0);
    }

    /// What never came up.
    pub fn missing(&self) -> Option<String> {
        let never = self.all.iter().find(|(_, count)| *count == 0);
        match never {
            Some((number, _)) => Some(format!("the writer's number {number}")),
            None if self.later == 0 => Some("the writer's 6 after record 0".to_string()),
            None => None,
        }
    }
}

/// What a run has compared of the writer.
#[derive(Default)]
pub struct Tally {
    /// Of generated lists.
    pub numbers: Numbers,
    /// Blocks that were written from generated lists and read.
    pub read_back: u64,
    /// Generated blocks whose records were written to the same bytes.
    pub written_back: u64,
}

// The rules

/// Number, place, length and offset; and the buffer afterwards.
pub struct Written {
    pub answer: [u32; 4],
    pub buffer: Vec<u8>,
}

pub fn write(lists: &Lists, buffer: &[u8], fault: Fault) -> Written {
    let mut buffer = buffer.to_vec();
    let answer = match block(lists, buffer.len(), fault) {
        Ok(block) => {
            let (written, tail) = buffer.split_at_mut(block.len());
            written.copy_from_slice(&block);
            if fault == Fault::TailCleared {
                tail.fill(0);
            }
            [0, 0, block.len() as u32, 0]
        }
        Err(Refusal(number, record)) => {
            if fault == Fault::TouchedBefore22 && number == 22 {
                buffer
                    .iter_mut()
                    .zip([1, 0, 0, 0])
                    .for_each(|(byte, new)| *byte = new);
            }
            let offset = match fault {
                Fault::WrittenWithoutOffset => 0,
                _ => record.offset,
            };
            [number, record.place, 0, offset]
        }
    };
    Written { answer, buffer }
}

/// "Refusals: 21 for counts outside 01's bounds, then 22 for a buffer under the tight length (both place 0), then 6 as in 01." A list that
/// is not whole records has no count, and draws 21 too.
fn block(lists: &Lists, room: usize, fault: Fault) -> Result<Vec<u8>, Refusal> {
    let mut lists = lists.clone();
    if fault == Fault::PartRecordDropped {
        drop_part_records(&mut lists);
    }
    let counts = counts(&lists);
    if !is_whole(&lists) || !rules::within_bounds(counts) {
        return Err(Refusal(21, Record::NONE));
    }
    if fault == Fault::FirstComputed {
        compute_firsts(&mut lists[0]);
    }
    let block = laid_out(&lists);
    let unfit = rules::read_processes(&block, counts[0] as usize, counts[1] as usize).err();
    let short = (room < block.len()).then_some(Refusal(22, Record::NONE));
    let refusal = match fault {
        Fault::SixBefore22 => unfit.or(short),
        _ => short.or(unfit),
    };
    refusal.map_or(Ok(block), Err)
}

fn is_whole(lists: &Lists) -> bool {
    lists
        .iter()
        .zip(RECORD_WORDS)
        .all(|(list, words)| list.len() % words == 0)
}

/// Whole records of each list.
pub fn counts(lists: &Lists) -> [u64; 3] {
    std::array::from_fn(|i| (lists[i].len() / RECORD_WORDS[i]) as u64)
}

/// The tight block of these records.
fn laid_out(lists: &Lists) -> Vec<u8> {
    let [p, s, r] = counts(lists);
    let [p_at, s_at, r_at, length] = rules::tight([p, s, r]);
    let header = [1, length, p, p_at, s, s_at, r, r_at].map(|word| word as u32);
    let words = header.iter().chain(lists.iter().flatten());
    words.flat_map(|word| word.to_le_bytes()).collect()
}

fn drop_part_records(lists: &mut Lists) {
    for (list, words) in lists.iter_mut().zip(RECORD_WORDS) {
        list.truncate(list.len() / words * words);
    }
}

fn compute_firsts(processes: &mut [u32]) {
    let mut sum = 0u32;
    for record in processes.chunks_exact_mut(4) {
        record[1] = sum;
        sum = sum.wrapping_add(record[2]);
    }
}

// The comparison

/// Lists and a buffer to be given to the writer.
pub struct Job {
    pub lists: Lists,
    pub buffer: Vec<u8>,
}

/// One generated job; and the case's block, if it draws none of 2 to 5, from its records: it is written back, or draws the same 6.
pub fn compare(case: &Case, fault: Fault, rng: &mut Rng, tally: &mut Tally) -> Result<(), String> {
    let job = lists::generate(rng);
    let (answer, block) = compare_job(&job, fault, rng)?;
    tally.numbers.count(answer);
    if answer[0] == 0 {
        read_back(&block, &job.lists, rng)
            .map_err(|error| format!("the block written from {}: {error}", job.describe()))?;
        tally.read_back += 1;
    }
    if let Some(job) = job_of(&case.block, rng) {
        let (answer, block) = compare_job(&job, fault, rng)?;
        if answer[0] == 0 && block != case.block {
            return Err("the block, written back from its records, is not the same".to_string());
        }
        tally.written_back += u64::from(answer[0] == 0);
    }
    Ok(())
}

impl Job {
    fn describe(&self) -> String {
        let words = self.lists.each_ref().map(Vec::len);
        format!(
            "lists of {words:?} words and a buffer of {} bytes",
            self.buffer.len()
        )
    }
}

/// The library's answer, buffer and lists after a call against the rules; gives back the answer and what was written.
fn compare_job(job: &Job, fault: Fault, rng: &mut Rng) -> Result<([u32; 4], Vec<u8>), String> {
    let want = write(&job.lists, &job.buffer, fault);
    let entry = format!("rigpollen_write_block, {}", job.describe());
    let mut lists = job.lists.each_ref().map(|list| LentWords::new(list));
    let mut buffer = Lent::new(&job.buffer, rng.index(8));
    let len = rng.index(8);
    let got = ffi::write_block(&mut lists, &mut buffer, len);
    compare_words(&entry, got, len, want.answer[0], &want.answer)?;
    check::compare_bytes(&format!("{entry}: the buffer"), &buffer, &want.buffer)?;
    for ((name, list), before) in LIST_NAMES.iter().zip(&lists).zip(&job.lists) {
        if let Some(at) = list.changed(before) {
            return Err(format!(
                "{entry}: the list of {name} records or a guard word was changed at word {at}"
            ));
        }
    }
    Ok((
        want.answer,
        buffer.bytes()[..want.answer[2] as usize].to_vec(),
    ))
}

/// Lengths past 2^32 of lists and of the buffer. In 32 bits those of the lists would be right, and that of the buffer too short.
pub fn compare_far() -> Result<(), String> {
    let record = [0, 0, 1, 0];
    let mut far = ffi::Far::new(&record)?;
    for i in 0..3 {
        for past in [1 << 32, RECORD_WORDS[i] as u64 * (1 << 32)] {
            let mut words = [4, 4, 2];
            words[i] += past;
            let answer = far.write_block(words, 4096);
            if answer != [21, 0, 0, 0] {
                return Err(format!("rigpollen_write_block, lists of {words:?} words: answers {answer:?}; the rules give [21, 0, 0, 0]"));
            }
        }
    }
    let block = laid_out(&[record.to_vec(), record.to_vec(), record[..2].to_vec()]);
    let room = (1 << 32) + block.len() as u64 - 1;
    let answer = far.write_block([4, 4, 2], room);
    let want = [0, 0, block.len() as u32, 0];
    if answer != want || !far.written().starts_with(&block) {
        return Err(format!("rigpollen_write_block, a buffer of {room} bytes: answers {answer:?}; the rules give {want:?} and the block"));
    }
    Ok(())
}

/// "Reading what it wrote gives the same records", by the rules here; and neither they nor the library refuse it with any of 2 to 6.
fn read_back(block: &[u8], lists: &Lists, rng: &mut Rng) -> Result<(), String> {
    let board = rules::read_block(block).map_err(|Refusal(number, record)| {
        format!(
            "the rules refuse it with {number} at {}, byte {}",
            record.place, record.offset
        )
    })?;
    if records(&board) != *lists {
        return Err("other records are read here".to_string());
    }
    let (len, start) = (
        rng.below(12) * PAGE,
        rng.pick(&[0, 0x4000_0000, 0x4000_0001]),
    );
    let flash = Memory {
        bytes: &[],
        start: rng.pick(&[0x2000_0000, 0x2000_0000, 0x2000_0800]),
    };
    let ram = Memory {
        bytes: &vec![0; len as usize],
        start,
    };
    let want = rules::load(block, flash, ram, Fault::None).answer;
    let mut lent = Lent::new(block, rng.index(8));
    let mut empty = Lent::new(&[], 0).at(flash.start);
    let got = ffi::check(&mut lent, &mut empty, ram.area(), want.len());
    if (2..=6).contains(&got.0) {
        return Err(format!("rigpollen_check refuses it with {}", got.0));
    }
    compare_words("rigpollen_check", got, want.len(), want[0], &want)
}

/// The records of a block that was read.
fn records(board: &Board) -> Lists {
    let process = |r: &rules::Process| {
        let sections = &r.sections;
        [
            r.entry,
            sections.start as u32,
            sections.len() as u32,
            r.kind_word,
        ]
    };
    let section = |r: &rules::Section| [r.va as u32, r.size as u32, r.offset as u32, r.flags];
    let region = |r: &rules::Region| [r.start as u32, r.pages as u32];
    [
        board.processes.iter().flat_map(process).collect(),
        board.sections.iter().flat_map(section).collect(),
        board.regions.iter().flat_map(region).collect(),
    ]
}

/// The records of a block that draws none of 2 to 5, and a buffer with room for them.
pub fn job_of(block: &[u8], rng: &mut Rng) -> Option<Job> {
    if let Err(Refusal(2..=5, _)) = rules::read_block(block) {
        return None;
    }
    let words: Vec<u32> = block
        .chunks_exact(4)
        .map(|word| u32::from_le_bytes([word[0], word[1], word[2], word[3]]))
        .collect();
    let [p_at, s_at, r_at] = [3, 5, 7].map(|i| words[i] as usize / 4);
    let lists = [&words[p_at..s_at], &words[s_at..r_at], &words[r_at..]];
    let spare = rng.pick(&[0, 1, 7, 100]);
    let buffer = rng.bytes(block.len() as u64 + spare);
    Some(Job {
        lists: lists.map(<[u32]>::to_vec),
        buffer,
    })
}
