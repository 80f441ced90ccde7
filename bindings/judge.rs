//! Judges a proof from Rust. usage: judge ROSTER PROOF. It ends with the status of `depot judge`.
mod depot;
use std::{env, fs, process};

fn main() {
    let files: Vec<Vec<u8>> = env::args().skip(1).map(|name| fs::read(name).unwrap_or_else(|_| process::exit(5))).collect();
    let [roster, proof] = &files[..] else { process::exit(1) };
    let told = depot::judge(roster, proof);
    println!("status {} node {} kind {}", told.status, told.node, told.kind);
    process::exit(told.status as i32);
}
