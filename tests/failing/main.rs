//! Memory, disks and writers that fail, one call after the other: tests/failures lays these files
//! in the place of the src/main.rt of bitemporal_cli, with fixtures.rs and old_stores.rs of
//! tests/library beside them, and builds them without a proof. They are Rattle's, and have another
//! ending since no crate of the repository has them.
//!
//! The words are a part and, for `store` and `closed`, the file of a store; standard input has a
//! script. Each test of the other parts prints a line `ok WHAT`; where one fails, the part ends
//! with a line on standard error and another status than 0. `rt try` keeps no executable, so with
//! `--keep-program FILE` the program copies itself.
#![tactic(auto)]

mod copies;
mod disks;
mod fixtures;
mod memory;
mod moves;
mod old_stores;
mod opened;
mod stores;
mod writers;

use command_line::words_of;
use std::io::Read;
use std::test::Fail;
use std::{env, fs, str};

/// Runs a part over a script.
fn run(rt: &HostRuntime, part: &str, file: &str, script: &str) -> Result<(), Fail> {
    match part {
        "statements" => memory::statements(rt, script),
        "again" => memory::again(rt, script),
        "opens" => memory::opens(rt, script),
        "copies" => copies::copies(rt, script),
        "new_store" => memory::new_store(rt),
        "audits" => memory::audits(rt, script),
        "queries" => memory::queries(rt),
        "reports" => memory::reports(rt, script),
        "moves" => moves::failing(rt),
        "log" => disks::log(rt, script),
        "database" => disks::database(rt, script),
        "writers" => writers::failing(rt, script),
        "store" => stores::run_over(rt, file, script, false),
        "closed" => stores::run_over(rt, file, script, true),
        _ => Err("no such part")?,
    }
}

fn main(rt: HostRuntime) -> Result<(), Fail> {
    let words = words_of(rt.alloc(), env::args(&rt))?;
    let part = words[1].as_str();
    let file = if words.len() > 2 {
        words[2].as_str()
    } else {
        ""
    };
    if part == "--keep-program" {
        let _size = fs::copy(&rt, words[0].as_str(), file)?;
        return Ok(());
    }
    let mut script = Vec::new(rt.alloc());
    rt.stdin().read_to_end(&mut script)?;
    run(&rt, part, file, str::from_utf8(script.as_slice())?)
}
