//! Each planted fault of faults.txt against the model: how many calls until it is found.
//!
//!     faults [--calls N] [--seeds N,N,N] [--only NAME]
//!
//! Ends with 0 if every fault was found within N calls with every seed.

use bench::differ::{run, Run};
use std::process::ExitCode;

fn main() -> ExitCode {
    let (mut calls, mut seeds, mut only) = (1_000_000u64, vec![1u64, 2, 3], None);
    let mut args = std::env::args().skip(1);
    while let Some(arg) = args.next() {
        let value = args.next().unwrap_or_default();
        let numbers: Option<Vec<u64>> = value.split(',').map(|n| n.parse().ok()).collect();
        match (arg.as_str(), numbers) {
            ("--calls", Some(n)) => calls = n[0],
            ("--seeds", Some(n)) => seeds = n,
            ("--only", _) => only = Some(value),
            _ => {
                eprintln!("faults [--calls N] [--seeds N,N,N] [--only NAME]");
                return ExitCode::from(2);
            }
        }
    }
    std::panic::set_hook(Box::new(|_| {})); // a fault may well panic: that counts as found
    println!("each fault against the model, at most {calls} calls a seed\n");
    let head: String = seeds.iter().map(|s| format!(" seed {s} |")).collect();
    println!("| fault | what is planted |{head} seen first as |\n|---|---|{}---|", "---:|".repeat(seeds.len()));
    let (mut all, mut missed, mut latest) = (0, 0, 0);
    let mut best = vec![];
    for (name, what, mut store) in bench::faults::all() {
        if only.as_deref().is_some_and(|o| o != name) {
            continue;
        }
        all += 1;
        let mut cells = String::new();
        let mut seen = String::new();
        let mut worst = Some(0);
        for seed in &seeds {
            match run(store.as_mut(), &Run { max_image: 262_144, ..Run::new(*seed, calls) }, &mut |_| {}) {
                Ok(_) => {
                    cells += " NOT FOUND |";
                    worst = None;
                }
                Err(d) => {
                    cells += &format!(" {} |", d.call_number);
                    worst = worst.map(|w: u64| w.max(d.call_number));
                    if seen.is_empty() {
                        seen = format!("{}: {}", d.call.line().split(' ').next().unwrap(), d.what);
                    }
                    if only.is_some() {
                        println!("{}", d.report("model", name));
                    }
                }
            }
        }
        match worst {
            None => missed += 1,
            Some(w) => {
                latest = latest.max(w);
                best.push(w);
            }
        }
        println!("| {name} | {what} |{cells} {seen} |");
    }
    best.sort_unstable();
    let median = best.get(best.len() / 2).copied().unwrap_or(0);
    println!("\n{all} faults, {} found with every seed: half of them within {median} calls, the last after {latest}; {missed} not found", all - missed);
    if missed == 0 {
        ExitCode::SUCCESS
    } else {
        ExitCode::FAILURE
    }
}
