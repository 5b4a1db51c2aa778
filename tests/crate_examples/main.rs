//! The examples of the Rust crate's documentation, written anew: the same input, and the answers that the Rust crate gives.
#![tactic(auto)]

mod answers;
mod changes;
mod entries;
mod extends;
mod joins;
mod looks;
mod makes;
mod many_maps;
mod many_streams;
mod operators;
mod routes;
mod tour;
mod walks;

use std::process::ExitCode;

fn main(rt: HostRuntime) -> ExitCode {
    let alloc = rt.alloc();
    let groups = [
        makes::all(&rt, alloc),
        looks::all(&rt, alloc),
        walks::all(&rt, alloc),
        entries::all(&rt, alloc),
        changes::all(&rt, alloc),
        extends::all(&rt, alloc),
        operators::all(&rt, alloc),
        tour::all(&rt, alloc),
        joins::all(&rt, alloc),
        many_maps::all(&rt, alloc),
        many_streams::all(&rt, alloc),
        routes::all(&rt, alloc),
    ];
    if groups.iter().all(|are_right| *are_right) {
        ExitCode::SUCCESS
    } else {
        ExitCode::FAILURE
    }
}
