//! The independent second program: it does by the rules of 01 and 02 what the library does, in another way, and
//! compares the two on generated inputs. It shares no code and no definitions with the library.
//!
//!   compare [--cases N] [--seed S]     compare N cases (20,000)
//!   compare --seed S --case K          compare case K of that seed alone
//!   compare --faults [--seed S]        switch faults on here, one at a time: each must be found
//!   compare --write FILE [--cases N] [--seed S]   write N cases with what the rules give to a file

mod case_file;
mod cases;
mod check;
mod demand3;
mod draft;
mod ffi;
mod images;
mod kind_word;
mod lists;
mod memory;
mod met;
mod reached;
mod reader;
mod rng;
mod rules;
mod small;
mod straight;
mod walker;
mod writer;

use check::Tally;
use rng::Rng;
use rules::Fault;
use std::ops::Range;
use std::process::ExitCode;

const SEED: u64 = 20_250;
const CASES: u64 = 20_000;
/// From how many cases on each kind of case (met.rs) must be met.
const KIND_CASES: u64 = 5_000;
/// Within how many cases a fault must be found.
const FAULT_CASES: u64 = 500;

struct Options {
    cases: u64,
    seed: u64,
    case: Option<u64>,
    faults: bool,
    write: Option<String>,
}

fn options() -> Result<Options, String> {
    let mut options = Options {
        cases: CASES,
        seed: SEED,
        case: None,
        faults: false,
        write: None,
    };
    let mut args = std::env::args().skip(1);
    while let Some(arg) = args.next() {
        let mut number = || {
            let text = args.next().ok_or_else(|| format!("{arg} needs a number"))?;
            text.parse::<u64>()
                .map_err(|_| format!("{arg} needs a number, not {text:?}"))
        };
        match arg.as_str() {
            "--cases" => options.cases = number()?,
            "--seed" => options.seed = number()?,
            "--case" => options.case = Some(number()?),
            "--faults" => options.faults = true,
            "--write" => options.write = Some(args.next().ok_or("--write needs a file")?),
            _ => {
                return Err(format!(
                    "unknown argument {arg:?}; known are --cases N, --seed S, --case K, --faults, --write FILE"
                ))
            }
        }
    }
    Ok(options)
}

fn one_case(seed: u64, number: u64, fault: Fault, tally: &mut Tally) -> Result<(), String> {
    ffi::note_case(seed, number);
    let case = cases::generate(seed, number);
    check::compare(&case, fault, &mut Rng::new(seed, number, 1), tally)
        .and_then(|()| {
            let mut rng = Rng::new(seed, number, 3);
            writer::compare(&case, fault, &mut rng, &mut tally.writer)
        })
        .and_then(|()| match number {
            0 => writer::compare_far(),
            _ => Ok(()),
        })
        .map_err(|error| format!("seed {seed} case {number} ({}): {error}", case.what))
}

fn compare_cases(options: &Options) -> Result<(), String> {
    let mut tally = Tally::default();
    println!("compare: seed {}, {} cases", options.seed, options.cases);
    for number in 0..options.cases {
        one_case(options.seed, number, Fault::None, &mut tally)?;
    }
    tell(&tally);
    let all = met::NAMES.len();
    let kinds = if options.cases < KIND_CASES { 0 } else { all };
    all_came_up(&tally, 0..kinds).map_err(|never| format!("{never} in {} cases", options.cases))?;
    println!("compare: {} cases agree", options.cases);
    Ok(())
}

fn tell(tally: &Tally) {
    println!("number  cases  after record 0");
    let numbers = &tally.numbers;
    for (number, count) in numbers.all.iter().enumerate() {
        println!("{number:6}  {count:5}  {:14}", numbers.later[number]);
    }
    println!("     met  kind of case");
    for (name, count) in met::NAMES.iter().zip(&tally.met.kinds) {
        println!("{count:8}  {name}");
    }
    for (whose, bits) in ["the kernel's", "a user's"].iter().zip(tally.met.bits) {
        println!("{whose} kind word with one bit, from bit 0 on: {bits:?}");
    }
    println!("walks compared: {}, pages: {}", tally.walks, tally.pages);
    println!(
        "pairs of RAM compared: {} ({} with a longer tracker); refused on the second by 1, 11 or 13: {}",
        tally.pairs, tally.pairs_longer_tracker, tally.pairs_refused
    );
    let writer = &tally.writer;
    println!("writer's number  cases");
    for (number, count) in writer.numbers.all {
        println!("{number:15}  {count}");
    }
    println!("writer's 6 after record 0: {}", writer.numbers.later);
    println!(
        "written and read: {}; blocks written back from their records: {}",
        writer.read_back, writer.written_back
    );
}

/// Every number of the loader and of the writer, those of a record also after record 0, these kinds of case, and both round trips.
fn all_came_up(tally: &Tally, kinds: Range<usize>) -> Result<(), String> {
    let writer = &tally.writer;
    let missing = tally.numbers.missing().or(writer.numbers.missing());
    if let Some(never) = missing.or(tally.met.missing(kinds)) {
        return Err(format!("{never} never came up"));
    }
    if writer.read_back == 0 || writer.written_back == 0 {
        return Err("no block was read back, or none written back,".to_string());
    }
    Ok(())
}

/// Each fault must be found, in a case in which the rules without the fault agree with the library.
fn compare_faults(seed: u64) -> Result<(), String> {
    for (fault, name) in rules::FAULTS {
        let difference = (0..FAULT_CASES).find_map(|number| {
            one_case(seed, number, fault, &mut Tally::default())
                .err()
                .map(|error| (number, error))
        });
        let Some((number, error)) = difference else {
            return Err(format!(
                "fault {name}: not found within {FAULT_CASES} cases of seed {seed}"
            ));
        };
        one_case(seed, number, Fault::None, &mut Tally::default())?;
        let error = error
            .replace("\n ", "")
            .replace("the rules give", "the rules with the fault give");
        println!("fault {name}: found, {error}");
    }
    Ok(())
}

fn run() -> Result<(), String> {
    let options = options()?;
    small::check_rules()?;
    if let Some(path) = &options.write {
        return case_file::write(path, options.seed, options.cases);
    }
    ffi::name_case_on_signals();
    match options.case {
        _ if options.faults => compare_faults(options.seed),
        Some(number) => {
            one_case(options.seed, number, Fault::None, &mut Tally::default())?;
            println!("compare: seed {} case {number} agrees", options.seed);
            Ok(())
        }
        None => compare_cases(&options),
    }
}

fn main() -> ExitCode {
    match run() {
        Ok(()) => ExitCode::SUCCESS,
        Err(error) => {
            eprintln!("compare: {error}");
            ExitCode::FAILURE
        }
    }
}
