//! Worked examples of calls that no line of a script makes: those of tables, sets and streams, and those of closures with a
//! state. Some use values whose clone fails, or values that are equal by a part of them. Each line of the output is the result
//! of a call, or an entry of a result.
#![tactic(auto)]

mod coarse;
mod joins;
mod keys;
mod many;
mod maps;
mod moved;
mod refused;
mod sets;
mod streams;
mod stubborn;
mod tables;
mod updates;

use std::alloc::AllocError;
use std::process::ExitCode;

/// Makes all calls.
fn run(rt: &HostRuntime) -> Result<(), AllocError> {
    tables::all(rt)?;
    sets::all(rt)?;
    streams::all(rt)?;
    joins::all(rt)?;
    many::all(rt)?;
    maps::all(rt)?;
    updates::all(rt)?;
    coarse::all(rt)?;
    refused::all(rt)?;
    moved::all(rt)?;
    keys::all(rt)
}

fn main(rt: HostRuntime) -> ExitCode {
    match run(&rt) {
        Ok(()) => ExitCode::SUCCESS,
        Err(_) => ExitCode::FAILURE,
    }
}
