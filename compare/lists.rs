//! The generated lists for the block writer: counts at and around their bounds, lists that are not whole records, every cause of 6, and
//! buffers of all lengths.

use crate::draft::{self, ProcessRecord};
use crate::rng::Rng;
use crate::rules;
use crate::writer::{counts, Job, Lists, RECORD_WORDS};

/// Each damage is drawn without regard to the others, so that one refusal stands before another.
pub fn generate(rng: &mut Rng) -> Job {
    let [p, mut s, r] = draw_counts(rng);
    let mut processes = sound_processes(rng, p, s);
    if rng.chance(45) {
        for _ in 0..rng.pick(&[1, 1, 1, 2]) {
            damage(rng, &mut processes, &mut s);
        }
    }
    let mut words = |count: u64| (0..count).map(|_| rng.word()).collect::<Vec<u32>>();
    let (sections, regions) = (words(4 * s), words(2 * r));
    let processes = processes.iter().flat_map(ProcessRecord::words);
    let mut lists = [processes.collect(), sections, regions];
    if rng.chance(8) {
        part_record(rng, &mut lists);
    }
    let len = draw_buffer_length(rng, rules::tight(counts(&lists))[3]);
    let buffer = rng.bytes(len);
    Job { lists, buffer }
}

fn draw_counts(rng: &mut Rng) -> [u64; 3] {
    let p = rng.between(1, 16);
    let p = rng.pick(&[p, p, 1, 2, 15, 16]);
    let s = rng.between(p, 64);
    let s = rng.pick(&[s, s, s, p, p + 1, 1, 63, 64, 64]);
    let r = rng.below(33);
    let mut counts = [p, s, rng.pick(&[r, r, 0, 1, 31, 32])];
    if rng.chance(18) {
        let outside: [&[u64]; 3] = [
            &[0, 17, 17, 18, 32],
            &[0, 65, 65, 66, 128],
            &[33, 33, 34, 64],
        ];
        for i in [rng.index(3), rng.index(3)] {
            counts[i] = match rng.below(40) {
                0 => counts[i] + (1 << 16), // as it was, in 16 bits
                1..=4 => counts[i] + (1 << 8),
                _ => rng.pick(outside[i]),
            };
        }
    }
    counts
}

/// Records that draw no 6, if there are sections for all.
fn sound_processes(rng: &mut Rng, p: u64, s: u64) -> Vec<ProcessRecord> {
    let mut records: Vec<ProcessRecord> = (0..p)
        .map(|i| ProcessRecord {
            entry: rng.word(),
            first: 0,
            count: 1,
            kind_word: if i > 0 { sound_kind_word(rng) } else { 0 },
        })
        .collect();
    for _ in p..if p == 0 { 0 } else { s } {
        let i = rng.index(records.len());
        records[i].count += 1;
    }
    follow(&mut records);
    records
}

/// Kind 0 or 1 of a user process, with any stack bits.
fn sound_kind_word(rng: &mut Rng) -> u32 {
    let bits = draft::draw_stack_bits(rng);
    let bits = rng.pick(&[0, bits]);
    u32::from(rng.chance(40)) | bits << 8
}

/// Every first section is the sum, modulo 2^32, of the counts before it.
fn follow(records: &mut [ProcessRecord]) {
    let mut sum = 0u32;
    for record in records {
        record.first = sum;
        sum = sum.wrapping_add(record.count);
    }
}

/// One cause of 6, or what is just none, at the first, the middle, the last or any record.
fn damage(rng: &mut Rng, records: &mut [ProcessRecord], s: &mut u64) {
    let Some(last) = records.len().checked_sub(1) else {
        return;
    };
    let any = rng.index(records.len());
    let i = rng.pick(&[0, last / 2, last, any]);
    let bit = 1 << rng.below(32);
    let off = rng.pick(&[1, u32::MAX, bit]);
    let record = &mut records[i];
    match rng.below(13) {
        0..=4 => record.kind_word = draft::draw_kind_word(rng, record.kind_word),
        5 => record.count = 0,
        6 => record.first = rng.pick(&[u32::MAX, 0, record.first.wrapping_add(off)]),
        7 => record.count = rng.pick(&[u32::MAX, record.count.wrapping_add(off)]),
        8 => {
            // The same, with all first sections in step: the sum alone is wrong.
            record.count = rng.pick(&[0, u32::MAX, record.count.wrapping_add(off)]);
            follow(records);
        }
        9 => move_section(rng, records, i),
        10 => wrap_sums(rng, records, i),
        11 => *s += 1,
        _ => *s = s.saturating_sub(1),
    }
}

/// One section of a record, or all of them, go to the one after it: every sum is right, and a count may be 0.
fn move_section(rng: &mut Rng, records: &mut [ProcessRecord], i: usize) {
    let j = (i + 1) % records.len();
    let moved = rng.pick(&[1, records[i].count]).min(records[i].count);
    records[i].count -= moved;
    records[j].count = records[j].count.wrapping_add(moved);
    follow(records);
}

/// The sums pass 2^32 and come back to the section count: at one record, back to a sum before it; or by two of half each.
fn wrap_sums(rng: &mut Rng, records: &mut [ProcessRecord], i: usize) {
    let last = records.len() - 1;
    let back = rng.between(1, u64::from(records[i].first).max(1)) as u32;
    let lost = if rng.chance(50) {
        records[i].count.wrapping_add(back)
    } else {
        1 << 31
    };
    records[i].count = records[i].count.wrapping_sub(lost);
    records[last].count = records[last].count.wrapping_add(lost);
    follow(records);
}

/// A list ends within a record.
fn part_record(rng: &mut Rng, lists: &mut Lists) {
    let i = rng.index(3);
    let part = rng.between(1, RECORD_WORDS[i] as u64 - 1) as usize;
    if rng.chance(50) {
        lists[i].truncate(lists[i].len().saturating_sub(part));
    } else {
        lists[i].extend((0..part).map(|_| rng.word()));
    }
}

fn draw_buffer_length(rng: &mut Rng, tight: u64) -> u64 {
    match rng.below(20) {
        0..=5 => tight,
        6..=8 => tight - 1,
        9..=11 => tight + 1,
        12..=16 => tight + rng.below(5000),
        17 => 0,
        18 => rng.pick(&[1, 4, 31, 32, 33]),
        _ => rng.below(tight),
    }
}
