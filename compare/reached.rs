//! What user processes reach by way of the tables as they stand in RAM, whatever the rules put there. "Flash pages have no tracker byte
//! and may be reached by two processes, read-only; one owner and one virtual page is said of RAM pages only."

use crate::memory::Memory;
use crate::rules::{Boot, Use, PAGE};
use crate::walker::{self, Found};
use std::collections::BTreeMap;

/// The kernel's slot is in every root table.
const USER_SLOTS: u32 = 1023;
const WRITE: u32 = 2;

pub fn check(boot: &Boot, ram: Memory, flash: Memory) -> Result<(), String> {
    let plan = &boot.plan;
    let pages = ram.area().pages() as usize;
    let Some(at) = ram.place(plan.physical(Use::Tracker { part: 0 })) else {
        return Err("the tracker is outside RAM".to_string());
    };
    let owners = &ram.page(at)[..pages];
    let mut reached: BTreeMap<usize, (u32, u32)> = BTreeMap::new();
    for process in plan.processes().skip(1) {
        for (page, rights, number) in pages_of(ram, plan.root(process)) {
            let whose = format!("process {process}, virtual page {page:#x}");
            let Some(at) = ram.place(number) else {
                if rights & WRITE != 0 || flash.place(number).is_none() {
                    return Err(format!("{whose}: page {number:#x} with rights {rights:#x} is neither in RAM nor one of flash to be read"));
                }
                continue;
            };
            let ram_page = at / PAGE as usize;
            if u32::from(owners[ram_page]) != process {
                return Err(format!(
                    "{whose}: the owner of RAM page {ram_page} is process {}",
                    owners[ram_page]
                ));
            }
            if let Some(other) = reached.insert(ram_page, (process, page)) {
                return Err(format!("{whose}: RAM page {ram_page} is reached by process {} at virtual page {:#x} too", other.0, other.1));
            }
        }
    }
    // A tracker byte of a user process is that of a RAM page it reaches.
    let owned = owners.iter().filter(|&&owner| owner > 1).count();
    let rest = &ram.page(at)[pages..];
    if owned != reached.len() || rest.iter().any(|&byte| byte != 0) {
        return Err(format!(
            "user processes own {owned} tracker bytes and reach {} RAM pages",
            reached.len()
        ));
    }
    Ok(())
}

/// Virtual page, rights and physical page of every page below the kernel's slot.
fn pages_of(ram: Memory, root: u32) -> Vec<(u32, u32, u32)> {
    let slots = (0..USER_SLOTS).filter(|&slot| walker::entry(ram, root, slot) != Some(0));
    let pages = slots.flat_map(|slot| slot << 10..(slot + 1) << 10);
    let found = pages.map(|page| (page, walker::walk(ram, root, page << 12)));
    found
        .filter_map(|(page, found)| match found {
            Found::Page { rights, number } => Some((page, rights, number)),
            _ => None,
        })
        .collect()
}
