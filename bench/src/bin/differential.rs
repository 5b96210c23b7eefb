//! The differential run.
//!
//!     differential [--calls N] [--seed N] [--against naive|lean|library|model] [--max-image BYTES]
//!                  [--out DIR] [--careful-from CALL]
//!
//! A program that doesn't come back from a call leaves no report: run the same seed again with
//! --careful-from and the last number of calls that was told; what DIR holds then is the call.
//!
//! Ends with 0 if no call differed, 1 at the first difference (report, scripts and images are
//! then in DIR), 2 if it was called wrongly.

use bench::differ::{run, Met, Run};
use bench::store::Store;
use std::path::PathBuf;
use std::process::ExitCode;
use std::time::Instant;

fn against(name: &str) -> Option<Box<dyn Store>> {
    match name {
        "naive" => Some(Box::new(bench::naive::Naive)),
        "model" => Some(Box::new(bench::model::Model::new())),
        "lean" => Some(Box::new(bench::model::Model::lean())),
        #[cfg(feature = "library")]
        "library" => Some(Box::new(bench::library::Library::new())),
        _ => None,
    }
}

fn main() -> ExitCode {
    let mut calls = 1_000_000u64;
    let mut seed = 1u64;
    let mut right = if cfg!(feature = "library") { "library".to_string() } else { "naive".to_string() };
    let mut max_image = 64 * 65_536usize;
    let mut out = PathBuf::from("difference");
    let mut careful = None;
    let mut args = std::env::args().skip(1);
    while let Some(arg) = args.next() {
        let value = args.next();
        let number = value.as_deref().and_then(|v| v.replace('_', "").parse::<u64>().ok());
        match (arg.as_str(), value, number) {
            ("--calls", _, Some(n)) => calls = n,
            ("--seed", _, Some(n)) => seed = n,
            ("--max-image", _, Some(n)) => max_image = n as usize,
            ("--careful-from", _, Some(n)) => careful = Some(n),
            ("--against", Some(name), _) => right = name,
            ("--out", Some(dir), _) => out = dir.into(),
            (arg, _, _) => {
                eprintln!("not understood: {arg}");
                eprintln!("differential [--calls N] [--seed N] [--against naive|lean|library|model] [--max-image BYTES] [--out DIR] [--careful-from CALL]");
                return ExitCode::from(2);
            }
        }
    }
    let Some(mut store) = against(&right) else {
        eprintln!("no program named {right} in this build");
        return ExitCode::from(2);
    };
    println!("model against {}: {calls} calls, seed {seed}, images up to {max_image} bytes", store.name());
    let began = Instant::now();
    let mut progress = |met: &Met| {
        let seconds = began.elapsed().as_secs_f64();
        let rate = met.calls as f64 / seconds;
        println!("{:>12} calls  {:>6.0} s  {:>9.0} calls a second  no difference", met.calls, seconds, rate);
    };
    let every = (calls / 20).clamp(1, 500_000);
    let what = Run { seed, calls, max_image, every, careful: careful.map(|n| (n, out.clone())) };
    match run(store.as_mut(), &what, &mut progress) {
        Ok(met) => {
            print!("{}", met.report());
            println!("NO DIFFERENCE in {} calls, seed {seed}, {:.1} s", met.calls, began.elapsed().as_secs_f64());
            ExitCode::SUCCESS
        }
        Err(difference) => {
            print!("{}", difference.report("model", &right));
            match difference.save(&out, "model", &right) {
                Ok(report) => {
                    println!("written: {} (and call.script, call.img; history.script, history.img)", report.display())
                }
                Err(error) => println!("could not write to {}: {error}", out.display()),
            }
            println!(
                "replay: drive (images up to 64 KiB) on a copy of {0}/call.img with {0}/call.script,",
                out.display()
            );
            println!(
                "        or: cargo run --release --bin replay -- {0}/call.script {0}/call.img {right}",
                out.display()
            );
            ExitCode::from(1)
        }
    }
}
