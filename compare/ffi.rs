//! The seven C entries of the library, and areas to lend to them with guard bytes or guard words on both sides.

use crate::memory::{Area, Memory};
use crate::rules::PAGE;
use crate::walker::Found;
use std::sync::atomic::{AtomicU64, Ordering};

extern "C" {
    fn rigpollen_load(
        block: *const u8,
        block_len: u64,
        flash: *const u8,
        flash_len: u64,
        flash_start: u32,
        ram: *mut u8,
        ram_len: u64,
        ram_start: u32,
    ) -> u32;
    fn rigpollen_answer(
        block: *const u8,
        block_len: u64,
        flash: *const u8,
        flash_len: u64,
        flash_start: u32,
        ram: *mut u8,
        ram_len: u64,
        ram_start: u32,
        answer: *mut u32,
        answer_len: u64,
    ) -> u32;
    fn rigpollen_check(
        block: *const u8,
        block_len: u64,
        flash: *const u8,
        flash_len: u64,
        flash_start: u32,
        ram_len: u64,
        ram_start: u32,
        answer: *mut u32,
        answer_len: u64,
    ) -> u32;
    fn rigpollen_process(
        block: *const u8,
        block_len: u64,
        flash: *const u8,
        flash_len: u64,
        flash_start: u32,
        ram_len: u64,
        ram_start: u32,
        process: u32,
        words: *mut u32,
        words_len: u64,
    ) -> u32;
    fn rigpollen_walk(
        ram: *const u8,
        ram_len: u64,
        ram_start: u32,
        root: u32,
        address: u32,
        page: *mut u32,
        page_len: u64,
    ) -> u32;
    fn rigpollen_page(
        ram: *const u8,
        ram_len: u64,
        ram_start: u32,
        flash: *const u8,
        flash_len: u64,
        flash_start: u32,
        root: u32,
        address: u32,
        bytes: *mut u8,
        bytes_len: u64,
    ) -> u64;
    fn rigpollen_write_block(
        processes: *const u32,
        process_words: u64,
        sections: *const u32,
        section_words: u64,
        regions: *const u32,
        region_words: u64,
        buffer: *mut u8,
        buffer_len: u64,
        answer: *mut u32,
        answer_len: u64,
    ) -> u32;
}

/// More than a page of guard on each side, so that a store one page off is seen too.
const GUARD: usize = 4096 + 64;

fn guard_byte(at: usize) -> u8 {
    (at as u8).wrapping_mul(29) ^ 0xa5
}

/// A byte area to be lent, in the middle of guard bytes. RAM and flash have a physical start.
pub struct Lent {
    all: Vec<u8>,
    from: usize,
    len: usize,
    pub start: u32,
}

impl Lent {
    /// `shift` moves the area in memory, so that it does not always start on an even address.
    pub fn new(bytes: &[u8], shift: usize) -> Lent {
        let from = GUARD + shift;
        let mut all = Vec::with_capacity(from + bytes.len() + GUARD);
        all.extend((0..from).map(guard_byte));
        all.extend_from_slice(bytes);
        all.extend((all.len()..all.len() + GUARD).map(guard_byte));
        Lent {
            all,
            from,
            len: bytes.len(),
            start: 0,
        }
    }

    pub fn at(self, start: u32) -> Lent {
        Lent { start, ..self }
    }

    pub fn memory(&self) -> Memory<'_> {
        Memory {
            bytes: self.bytes(),
            start: self.start,
        }
    }

    pub fn bytes(&self) -> &[u8] {
        &self.all[self.from..self.from + self.len]
    }

    pub fn bytes_mut(&mut self) -> &mut [u8] {
        &mut self.all[self.from..self.from + self.len]
    }

    /// Where a guard byte has changed, counted from the start of the area; none if all are as they were.
    pub fn changed_guard(&self) -> Option<i64> {
        let end = self.from + self.len;
        (0..self.from)
            .chain(end..self.all.len())
            .find(|&at| self.all[at] != guard_byte(at))
            .map(|at| at as i64 - self.from as i64)
    }

    fn pointer(&mut self) -> *mut u8 {
        self.bytes_mut().as_mut_ptr()
    }
}

/// RAM and flash as they are lent to the reader.
pub struct Memories {
    pub ram: Lent,
    pub flash: Lent,
}

/// What lies in the words around a lent list, and around and in an `answer`, `words` or `page` slice, before a call.
fn word_pattern(at: usize) -> u32 {
    0xc3a5_0f00 + at as u32
}

const GUARD_WORDS: usize = 64;

/// A list of words to be lent, in the middle of guard words.
pub struct LentWords {
    all: Vec<u32>,
    len: usize,
}

impl LentWords {
    pub fn new(words: &[u32]) -> LentWords {
        let mut all: Vec<u32> = (0..GUARD_WORDS).map(word_pattern).collect();
        all.extend_from_slice(words);
        all.extend((all.len()..all.len() + GUARD_WORDS).map(word_pattern));
        LentWords {
            all,
            len: words.len(),
        }
    }

    /// Where a word of the list or a guard word has changed, counted from the start of the list.
    pub fn changed(&self, before: &[u32]) -> Option<i64> {
        let list = GUARD_WORDS..GUARD_WORDS + self.len;
        let as_before = |at| match list.contains(&at) {
            true => self.all[at] == before[at - GUARD_WORDS],
            false => self.all[at] == word_pattern(at),
        };
        (0..self.all.len())
            .find(|&at| !as_before(at))
            .map(|at| at as i64 - GUARD_WORDS as i64)
    }

    fn pointer(&mut self) -> *const u32 {
        self.all[GUARD_WORDS..].as_mut_ptr()
    }
}

/// Where the slice begins among the words.
pub const ANSWER_AT: usize = 4;
/// The words of an `answer` or `words` slice of up to 8 words, with guard words on both sides.
pub type AnswerWords = [u32; 16];

/// What the words must be after a call that puts `answer` into a slice of `len` words.
pub fn answer_words(answer: &[u32], len: usize) -> AnswerWords {
    std::array::from_fn(|at| match at.checked_sub(ANSWER_AT) {
        Some(i) if i < len.min(answer.len()) => answer[i],
        _ => word_pattern(at),
    })
}

const PAGE_AT: usize = 2;
/// The words of a `page` slice of up to 3 words, with guard words on both sides.
pub type PageWords = [u32; 7];

/// What the words must be after `rigpollen_walk` with a slice of `len` words, and the number it returns.
pub fn page_words(found: Found, len: usize) -> (u32, PageWords) {
    let mut words: PageWords = std::array::from_fn(word_pattern);
    let number = match found {
        Found::Absent => 0,
        Found::Reserved => 1,
        Found::Page { rights, number } => {
            let answer = [rights, number];
            let fit = len.min(2);
            words[PAGE_AT..PAGE_AT + fit].copy_from_slice(&answer[..fit]);
            2
        }
    };
    (number, words)
}

pub fn load(block: &mut Lent, flash: &mut Lent, ram: &mut Lent) -> u32 {
    // Each pointer and length names one area that lives until after the call.
    unsafe {
        rigpollen_load(
            block.pointer(),
            block.len as u64,
            flash.pointer(),
            flash.len as u64,
            flash.start,
            ram.pointer(),
            ram.len as u64,
            ram.start,
        )
    }
}

pub fn answer(
    block: &mut Lent,
    flash: &mut Lent,
    ram: &mut Lent,
    len: usize,
) -> (u32, AnswerWords) {
    let mut words: AnswerWords = std::array::from_fn(word_pattern);
    let slice = &mut words[ANSWER_AT..ANSWER_AT + len];
    // As above; `slice` has `len` words.
    let number = unsafe {
        rigpollen_answer(
            block.pointer(),
            block.len as u64,
            flash.pointer(),
            flash.len as u64,
            flash.start,
            ram.pointer(),
            ram.len as u64,
            ram.start,
            slice.as_mut_ptr(),
            len as u64,
        )
    };
    (number, words)
}

pub fn check(block: &mut Lent, flash: &mut Lent, ram: Area, len: usize) -> (u32, AnswerWords) {
    let mut words: AnswerWords = std::array::from_fn(word_pattern);
    let slice = &mut words[ANSWER_AT..ANSWER_AT + len];
    // As above; `slice` has `len` words.
    let number = unsafe {
        rigpollen_check(
            block.pointer(),
            block.len as u64,
            flash.pointer(),
            flash.len as u64,
            flash.start,
            ram.len,
            ram.start,
            slice.as_mut_ptr(),
            len as u64,
        )
    };
    (number, words)
}

pub fn process(
    block: &mut Lent,
    flash: &mut Lent,
    ram: Area,
    process: u32,
    len: usize,
) -> (u32, AnswerWords) {
    let mut words: AnswerWords = std::array::from_fn(word_pattern);
    let slice = &mut words[ANSWER_AT..ANSWER_AT + len];
    // As above; `slice` has `len` words.
    let number = unsafe {
        rigpollen_process(
            block.pointer(),
            block.len as u64,
            flash.pointer(),
            flash.len as u64,
            flash.start,
            ram.len,
            ram.start,
            process,
            slice.as_mut_ptr(),
            len as u64,
        )
    };
    (number, words)
}

pub fn walk(ram: &mut Lent, root: u32, address: u32, len: usize) -> (u32, PageWords) {
    let mut words: PageWords = std::array::from_fn(word_pattern);
    let slice = &mut words[PAGE_AT..PAGE_AT + len];
    // As above; `slice` has `len` words.
    let number = unsafe {
        rigpollen_walk(
            ram.pointer(),
            ram.len as u64,
            ram.start,
            root,
            address,
            slice.as_mut_ptr(),
            len as u64,
        )
    };
    (number, words)
}

/// Guard bytes on each side of a `bytes` area.
pub const AROUND: usize = 64;

/// A `bytes` area of `len` bytes with guard bytes on both sides, after a call that puts `part` there.
pub fn part_around(part: &[u8], len: usize) -> Vec<u8> {
    let mut all: Vec<u8> = (0..AROUND + len + AROUND).map(guard_byte).collect();
    let fit = len.min(part.len());
    all[AROUND..AROUND + fit].copy_from_slice(&part[..fit]);
    all
}

/// The length that is returned, and the `bytes` area of `len` bytes with its guard bytes.
pub fn page(memories: &mut Memories, root: u32, address: u32, len: usize) -> (u64, Vec<u8>) {
    let Memories { ram, flash } = memories;
    let mut all = part_around(&[], len);
    let slice = &mut all[AROUND..AROUND + len];
    // As above; `slice` has `len` bytes.
    let returned = unsafe {
        rigpollen_page(
            ram.pointer(),
            ram.len as u64,
            ram.start,
            flash.pointer(),
            flash.len as u64,
            flash.start,
            root,
            address,
            slice.as_mut_ptr(),
            len as u64,
        )
    };
    (returned, all)
}

/// The library's bytes of a page, of which at most `room` are looked at; `None` if the length is neither 0 nor 4,096.
pub fn page_bytes(
    memories: &mut Memories,
    root: u32,
    address: u32,
    room: usize,
) -> Option<Vec<u8>> {
    let (returned, mut all) = page(memories, root, address, room);
    all.truncate(AROUND + room.min(returned as usize));
    all.drain(..AROUND);
    (returned == 0 || returned == PAGE).then_some(all)
}

/// `lists` are the process, section and region records.
pub fn write_block(
    lists: &mut [LentWords; 3],
    buffer: &mut Lent,
    len: usize,
) -> (u32, AnswerWords) {
    let [processes, sections, regions] = lists;
    let mut words: AnswerWords = std::array::from_fn(word_pattern);
    let slice = &mut words[ANSWER_AT..ANSWER_AT + len];
    // As above; `slice` has `len` words.
    let number = unsafe {
        rigpollen_write_block(
            processes.pointer(),
            processes.len as u64,
            sections.pointer(),
            sections.len as u64,
            regions.pointer(),
            regions.len as u64,
            buffer.pointer(),
            buffer.len as u64,
            slice.as_mut_ptr(),
            len as u64,
        )
    };
    (number, words)
}

extern "C" {
    fn mmap(at: *mut u8, len: usize, rights: i32, flags: i32, file: i32, from: i64) -> *mut u8;
    fn mprotect(at: *mut u8, len: usize, rights: i32) -> i32;
    fn munmap(at: *mut u8, len: usize) -> i32;
}

const FAR_PAGE: usize = 4096;

/// `len` bytes of zero that can be read, and their first page written.
fn far_area(len: usize) -> Result<*mut u8, String> {
    const READ: i32 = 1;
    const WRITE: i32 = 2;
    const PRIVATE_ANONYMOUS_UNRESERVED: i32 = 0x4022;
    // New memory, and a page of it.
    let at = unsafe {
        mmap(
            std::ptr::null_mut(),
            len,
            READ,
            PRIVATE_ANONYMOUS_UNRESERVED,
            -1,
            0,
        )
    };
    if at as isize == -1 || unsafe { mprotect(at, FAR_PAGE, READ | WRITE) } != 0 {
        return Err(format!("no addresses for an area of {len} bytes"));
    }
    Ok(at)
}

/// Areas for the writer with lengths past 2^32: one for all three lists, and a buffer. A store after a first page is a signal.
pub struct Far {
    lists: *mut u32,
    buffer: *mut u8,
}

impl Drop for Far {
    fn drop(&mut self) {
        unsafe {
            munmap(self.lists.cast(), Far::LIST_BYTES);
            munmap(self.buffer, Far::BUFFER_BYTES);
        }
    }
}

impl Far {
    const LIST_BYTES: usize = (1 << 36) + FAR_PAGE;
    const BUFFER_BYTES: usize = (1 << 32) + FAR_PAGE;

    /// Every list begins with these words.
    pub fn new(words: &[u32; 4]) -> Result<Far, String> {
        let lists = far_area(Self::LIST_BYTES)?.cast::<u32>();
        // The first page can be written.
        unsafe { lists.copy_from_nonoverlapping(words.as_ptr(), words.len()) };
        Ok(Far {
            lists,
            buffer: far_area(Self::BUFFER_BYTES)?,
        })
    }

    /// The number returned, place, length and offset.
    pub fn write_block(&mut self, words: [u64; 3], room: u64) -> [u32; 4] {
        let most = *words.iter().max().unwrap_or(&0);
        assert!(most <= Self::LIST_BYTES as u64 / 4 && room <= Self::BUFFER_BYTES as u64);
        let mut answer = [u32::MAX; 4];
        // The areas are as long as is said; the lists may share their bytes.
        let number = unsafe {
            rigpollen_write_block(
                self.lists,
                words[0],
                self.lists,
                words[1],
                self.lists,
                words[2],
                self.buffer,
                room,
                answer.as_mut_ptr(),
                answer.len() as u64,
            )
        };
        [number, answer[1], answer[2], answer[3]]
    }

    /// The buffer's first page.
    pub fn written(&self) -> &[u8] {
        unsafe { std::slice::from_raw_parts(self.buffer, FAR_PAGE) }
    }
}

/// The library's walk as one answer; none if the number is none of the three.
pub fn found(ram: &mut Lent, root: u32, address: u32) -> Option<Found> {
    let (number, words) = walk(ram, root, address, 2);
    match number {
        0 => Some(Found::Absent),
        1 => Some(Found::Reserved),
        2 => Some(Found::Page {
            rights: words[PAGE_AT],
            number: words[PAGE_AT + 1],
        }),
        _ => None,
    }
}

// If the library ends the program by a signal (a stray store, a failed check of its own), the case
// must still be named. The handler does no more than write a line and leave.

static SEED: AtomicU64 = AtomicU64::new(0);
static CASE: AtomicU64 = AtomicU64::new(0);

extern "C" {
    fn signal(number: i32, handler: extern "C" fn(i32)) -> usize;
    fn write(file: i32, bytes: *const u8, len: usize) -> isize;
    fn _exit(status: i32) -> !;
}

extern "C" fn on_signal(number: i32) {
    say(b"compare: seed ");
    say_number(SEED.load(Ordering::Relaxed));
    say(b" case ");
    say_number(CASE.load(Ordering::Relaxed));
    say(b": the program was ended by signal ");
    say_number(number as u64);
    say(b" inside this case\n");
    unsafe { _exit(1) }
}

fn say(text: &[u8]) {
    unsafe { write(2, text.as_ptr(), text.len()) };
}

fn say_number(mut value: u64) {
    let mut digits = [b'0'; 20];
    let mut from = digits.len();
    loop {
        from -= 1;
        digits[from] = b'0' + (value % 10) as u8;
        value /= 10;
        if value == 0 {
            break;
        }
    }
    say(&digits[from..]);
}

pub fn name_case_on_signals() {
    // SIGILL, SIGTRAP, SIGABRT, SIGBUS, SIGFPE and SIGSEGV of Linux.
    for number in [4, 5, 6, 7, 8, 11] {
        unsafe { signal(number, on_signal) };
    }
}

pub fn note_case(seed: u64, case: u64) {
    SEED.store(seed, Ordering::Relaxed);
    CASE.store(case, Ordering::Relaxed);
}
