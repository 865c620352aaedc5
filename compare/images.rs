//! The flash images of generated boards: where copied sections are in them, where they end, and what is beside the sections.

use crate::draft::{Draft, SectionRecord};
use crate::rng::Rng;
use crate::rules::PAGE;

/// Images have no more pages, but for the longest section.
const MOST_PAGES: u64 = 128;

/// The image and the offsets; with `straight`, such that most sections that may be used straight from flash are.
pub fn draw(rng: &mut Rng, draft: &mut Draft, straight: bool) {
    let copied: Vec<&mut SectionRecord> =
        draft.sections.iter_mut().filter(|r| r.copied()).collect();
    draft.flash = if copied.is_empty() {
        let len = rng.below(6000);
        let len = rng.pick(&[0, 0, len]);
        rng.bytes(len)
    } else if !straight && rng.chance(20) {
        scattered(rng, copied)
    } else {
        on_pages(rng, copied, straight)
    };
}

/// Noise, with the sections anywhere in it.
fn scattered(rng: &mut Rng, sections: Vec<&mut SectionRecord>) -> Vec<u8> {
    let longest = sections
        .iter()
        .map(|r| u64::from(r.size))
        .max()
        .unwrap_or(0);
    let spare = if rng.chance(30) { 0 } else { rng.below(6000) };
    let len = longest + spare;
    for section in sections {
        let most = len - u64::from(section.size);
        section.offset = match rng.below(10) {
            0 => 0,
            1..=2 => most,
            _ => rng.below(most + 1),
        } as u32;
    }
    rng.bytes(len)
}

/// The sections on pages of their own or on those of another, most at the sub-page offset of their address, with zeros beside them for
/// the most part.
fn on_pages(rng: &mut Rng, mut sections: Vec<&mut SectionRecord>, straight: bool) -> Vec<u8> {
    let lengths: Vec<u64> = sections.iter().map(|r| pages(r)).collect();
    let (most, total) = (lengths.iter().max().copied(), lengths.iter().sum::<u64>());
    let most = most.unwrap_or(0);
    let room = match rng.below(6) {
        _ if straight => total + rng.below(3),
        0 => most + rng.below(4),
        1..=2 => (most + total) / 2,
        _ => total + rng.below(3),
    };
    draw_offsets(rng, &mut sections, room.min(MOST_PAGES).max(most));
    let ends = sections.iter().map(|r| r.offset_end());
    let len = draw_length(rng, ends.max().unwrap_or(0));
    let mut flash = match rng.below(8) {
        0 if !straight => rng.bytes(len),
        _ => vec![0; len as usize],
    };
    for section in &sections {
        let bytes = section.offset as usize..section.offset_end() as usize;
        if rng.chance(93) {
            rng.fill(&mut flash[bytes]);
        }
    }
    for _ in 0..rng.pick(&[0, 0, 1, 2]) {
        let section = &sections[rng.index(sections.len())];
        put_beside(rng, &mut flash, section);
    }
    flash
}

/// The flash pages of a section at the sub-page offset of its address.
fn pages(section: &SectionRecord) -> u64 {
    (u64::from(section.va) % PAGE + u64::from(section.size)).div_ceil(PAGE)
}

/// Offsets in an image of `room` pages: on the pages after the section before, on those of a section of the same form, on a page that
/// another has, on the last, or on any.
fn draw_offsets(rng: &mut Rng, sections: &mut [&mut SectionRecord], room: u64) {
    let mut next = 0;
    for i in 0..sections.len() {
        let (done, rest) = sections.split_at_mut(i);
        let section = &mut *rest[0];
        let (inside, size) = (u64::from(section.va) % PAGE, u64::from(section.size));
        let form = |r: &SectionRecord| (u64::from(r.va) % PAGE, u64::from(r.size));
        let twin = done.iter().find(|r| form(r) == (inside, size));
        let last = room - pages(section);
        let page = match (rng.below(20), twin) {
            (0..=13, Some(twin)) => u64::from(twin.offset) / PAGE,
            (17, _) if i > 0 => u64::from(done[rng.index(i)].offset) / PAGE,
            (18, _) => last,
            (19, _) => rng.below(last + 1),
            _ => next,
        };
        let page = page.min(last);
        let most = (room - page) * PAGE - size;
        let any = rng.below(most + 1) % PAGE;
        let other = rng.pick(&[any, any, inside + 1, inside ^ 2048]).min(most);
        let agrees = rng.chance(85);
        section.offset = (page * PAGE + if agrees { inside } else { other }) as u32;
        next = page + pages(section);
    }
}

/// An image that ends around the end of the page in which the last section ends, or with the section.
fn draw_length(rng: &mut Rng, end: u64) -> u64 {
    let page_end = end.next_multiple_of(PAGE);
    let len = match rng.below(12) {
        0..=4 => page_end,
        5..=6 => page_end - 1,
        7 => page_end + 1,
        8 => page_end + rng.below(PAGE),
        9 => page_end - rng.below(4),
        10 => end,
        _ => rng.between(end, page_end),
    };
    len.max(end)
}

/// A byte that is not zero on the section's first or last page: next to it, at the page's other end, or anywhere between.
fn put_beside(rng: &mut Rng, flash: &mut [u8], section: &SectionRecord) {
    let (offset, end) = (u64::from(section.offset), section.offset_end());
    let (from, to) = (offset / PAGE * PAGE, end.next_multiple_of(PAGE));
    let any = if rng.chance(50) {
        rng.between(from, offset)
    } else {
        rng.between(end, to)
    };
    let at = rng.pick(&[offset.wrapping_sub(1), from, end, to - 1, any]);
    let beside = (from..offset).contains(&at) || (end..to).contains(&at);
    if let Some(byte) = flash.get_mut(at as usize).filter(|_| beside) {
        *byte = rng.pick(&[1, 0x80, 0xff]);
    }
}
