//! The plain Rust loaders as entries for C.

mod plain;
mod plain_forms;

use plain::Answer;
use std::slice::{from_raw_parts, from_raw_parts_mut};

type Load = fn(&[u8], &[u8], u32, &mut [u8], u32) -> Answer;

macro_rules! entry {
    ($name:ident, $load:expr) => {
        /// # Safety
        /// The areas are as `bench/loaders.h` says.
        #[no_mangle]
        pub unsafe extern "C" fn $name(
            block: *const u8,
            block_length: u64,
            flash: *const u8,
            flash_length: u64,
            flash_start: u32,
            ram: *mut u8,
            ram_length: u64,
            ram_start: u32,
            answer: *mut Answer,
        ) {
            let load: Load = $load;
            *answer = load(
                from_raw_parts(block, block_length as usize),
                from_raw_parts(flash, flash_length as usize),
                flash_start,
                from_raw_parts_mut(ram, ram_length as usize),
                ram_start,
            );
        }
    };
}

entry!(plain_load, plain::load);
entry!(plain_forms_load, plain_forms::load);
