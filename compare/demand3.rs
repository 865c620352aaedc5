//! Demand 3 by running: the same block, flash and flash's start on a RAM and on another with as many pages or more.
//! What every process sees is the same on both, with 01's two exceptions and no more.

use crate::cases::Case;
use crate::check::{self, Tally};
use crate::ffi::{self, Memories};
use crate::memory::Area;
use crate::met::Kind;
use crate::rng::Rng;
use crate::rules::{self, Boot, Fault, Outcome, LIST_PAGE, PAGE, TRACKER_PAGE};
use crate::walker::Found;
use std::collections::BTreeSet;

/// A RAM with as many pages or more: its length and start. Some draw 1, 11 or 13.
fn draw_ram(rng: &mut Rng, boot: &Boot, flash: Area, pages: u64) -> (u64, u32) {
    let board = &boot.plan.board;
    let to_longer_tracker = (4097 - board.io_pages().min(4096)).saturating_sub(pages);
    let more = match rng.below(12) {
        0..=2 => 0,
        3 => 1,
        4..=7 => rng.below(40),
        8..=10 if to_longer_tracker <= 200 => to_longer_tracker + rng.below(3),
        8..=10 => rng.below(100),
        _ if rng.chance(5) => rng.below(4097 - pages),
        _ => rng.below(pages),
    };
    let pages = (pages + more).min(4096);
    let room = (1 << 20) - pages;
    let page = match rng.below(14) {
        0 => 0,
        1 => room,
        // Touching flash, or on its first or its last page.
        12 => (flash.to().div_ceil(PAGE) - rng.pick(&[0, 0, 1]).min(flash.pages())).min(room),
        13 => (flash.from() / PAGE).saturating_sub(pages - rng.pick(&[0, 0, 1])),
        2 if !board.regions.is_empty() => {
            let region = &board.regions[rng.index(board.regions.len())];
            rng.pick(&[region.start / PAGE, region.start / PAGE + region.pages])
                .min(room)
        }
        _ => rng.below(room + 1),
    };
    match rng.below(40) {
        0 => (pages * PAGE + rng.below(PAGE), (page * PAGE) as u32),
        1 => (pages * PAGE, (page * PAGE + rng.below(PAGE)) as u32),
        _ => (pages * PAGE, (page * PAGE) as u32),
    }
}

/// One of the two RAMs, loaded.
struct Side<'a> {
    lent: &'a mut Memories,
    boot: &'a Boot,
}

impl Side<'_> {
    /// What a process sees on a virtual page, by the library's reader: the answer and the page's bytes.
    fn sees(&mut self, process: u32, page: u32) -> Result<(Found, Vec<u8>), String> {
        let root = self.boot.plan.root(process);
        let found = ffi::found(&mut self.lent.ram, root, page << 12)
            .ok_or_else(|| format!("rigpollen_walk of process {process} at page {page:#x} gives no number of its three"))?;
        let is_page = matches!(found, Found::Page { .. });
        let room = if is_page { PAGE as usize } else { 1 };
        let bytes = ffi::page_bytes(self.lent, root, page << 12, room).ok_or_else(|| {
            format!(
                "rigpollen_page of process {process} at page {page:#x} gives no length of its two"
            )
        })?;
        if is_page == bytes.is_empty() {
            return Err(format!(
                "process {process} sees {found:x?} and {} bytes at page {page:#x}",
                bytes.len()
            ));
        }
        Ok((found, bytes))
    }
}

/// Absent, reserved, or the rights of a page; the physical number is no part of what is seen.
fn rights(found: Found) -> Option<Option<u32>> {
    match found {
        Found::Absent => None,
        Found::Reserved => Some(None),
        Found::Page { rights, .. } => Some(Some(rights)),
    }
}

pub fn compare(
    case: &Case,
    want: &Outcome,
    boot: &Boot,
    lent: &mut Memories,
    fault: Fault,
    rng: &mut Rng,
    tally: &mut Tally,
) -> Result<(), String> {
    let flash = case.memory_of_flash().area();
    let (len, start) = draw_ram(rng, boot, flash, case.ram.len() as u64 / PAGE);
    let new = check::other_ram(case, rng, len, start);
    let which = |error| format!("on a second RAM of {len:#x} bytes at {start:#x}: {error}");
    let (new_flash, new_ram) = (new.memory_of_flash(), new.memory_of_ram());
    let new_want = rules::load(&new.block, new_flash, new_ram, fault);
    let mut new_lent = check::compare_load(&new, &new_want, rng).map_err(which)?;

    // "Boots on the larger if it draws neither 1 nor 11", and by 02 (A6) "its new RAM must not draw 13 either".
    let new_boot = match (&new_want.boot, new_want.answer[0]) {
        (Some(new_boot), _) => new_boot,
        (None, 1 | 11 | 13) => {
            tally.pairs_refused += 1;
            tally.met.count(Kind::PairRefused, new_want.answer[0] == 13);
            return Ok(());
        }
        (None, number) => {
            return Err(which(format!(
                "the block boots on the smaller, but here draws {number}"
            )))
        }
    };
    if want.answer[2] - want.answer[4] != new_want.answer[2] - new_want.answer[4] {
        return Err(which(format!(
            "pages taken less tracker pages differ: {:?}, {:?}",
            want.answer, new_want.answer
        )));
    }
    tally.pairs += 1;
    tally.pairs_longer_tracker += u64::from(new_want.answer[4] > want.answer[4]);
    let straight = new_boot.plan.straight.contains(&true);
    tally.met.count(Kind::PairStraight, straight);

    let mut old = Side { lent, boot };
    let mut new = Side {
        lent: &mut new_lent,
        boot: new_boot,
    };
    for process in boot.plan.processes() {
        // The telling pages of either, with their neighbours; all pages of some 4 MiB blocks; and some pages anywhere.
        let telling = boot
            .plan
            .telling_pages(process)
            .chain(new_boot.plan.telling_pages(process));
        let near = telling.flat_map(|page| [page - 1, page, page + 1]);
        let mut pages: BTreeSet<u32> = near.collect();
        let whole: BTreeSet<u32> = pages
            .iter()
            .map(|page| page >> 10)
            .filter(|_| rng.chance(2))
            .collect();
        pages.extend(
            whole
                .iter()
                .flat_map(|block| (0..1024).map(move |page| block << 10 | page)),
        );
        pages.extend((0..100).map(|_| rng.word() >> 12));
        for page in pages.range(..1 << 20) {
            compare_page(&mut old, &mut new, process, *page, tally).map_err(which)?;
        }
    }
    check::unchanged("flash, by the reader", &new_lent.flash, &case.flash).map_err(which)?;
    check::unchanged("RAM, by the reader", &new_lent.ram, &new_want.image).map_err(which)
}

fn compare_page(
    old: &mut Side,
    new: &mut Side,
    process: u32,
    page: u32,
    tally: &mut Tally,
) -> Result<(), String> {
    tally.walks += 2;
    tally.pages += 2;
    let processes = *old.boot.plan.processes().end() as usize;
    let (old_tracker, new_tracker) = (old.boot.plan.tracker_pages, new.boot.plan.tracker_pages);
    let (old_found, old_bytes) = old.sees(process, page)?;
    let (new_found, new_bytes) = new.sees(process, page)?;
    let tracker_part = u64::from(page.wrapping_sub(TRACKER_PAGE));
    if (old_tracker..new_tracker).contains(&tracker_part) {
        return Ok(()); // only the new RAM's tracker has this page
    }
    if rights(old_found) != rights(new_found) {
        return Err(format!("process {process} sees {old_found:x?} on the first and {new_found:x?} here at page {page:#x}"));
    }
    if tracker_part < old_tracker || old_bytes == new_bytes {
        return Ok(());
    }
    let satp = |at: usize| page == LIST_PAGE && at % 12 < 4 && at / 12 < processes;
    match (0..old_bytes.len()).find(|&at| old_bytes[at] != new_bytes[at] && !satp(at)) {
        Some(at) => Err(format!(
            "process {process} sees byte {:#04x} on the first and {:#04x} here at {:#010x}",
            old_bytes[at],
            new_bytes[at],
            page << 12 | at as u32
        )),
        None => Ok(()),
    }
}
