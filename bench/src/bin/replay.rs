//! Replays a script on an image with the model, and with another program if one is named.
//!
//!     replay SCRIPT IMAGE [naive|library]
//!
//! The image file is not changed. Without the file (`-`) the image is all FF, of the script's
//! sizes. Prints each call, its answer, and the stores (sector, block, kind) of the model.
//! Ends with 1 if the two programs differ.

use bench::differ::buffer_before;
use bench::model::Model;
use bench::script;
use bench::store::Store;
use std::process::ExitCode;

fn main() -> ExitCode {
    let args: Vec<String> = std::env::args().skip(1).collect();
    if args.len() < 2 {
        eprintln!("replay SCRIPT IMAGE|- [naive|library]");
        return ExitCode::from(2);
    }
    let text = std::fs::read_to_string(&args[0]).expect("the script can be read");
    let (sector_size, count, calls) = match script::parse(&text) {
        Ok(it) => it,
        Err(line) => {
            eprintln!("line {line} of the script is not understood");
            return ExitCode::from(2);
        }
    };
    let mut image = if args[1] == "-" {
        vec![0xFF; sector_size * count]
    } else {
        std::fs::read(&args[1]).expect("the image can be read")
    };
    let mut other: Option<Box<dyn Store>> = match args.get(2).map(String::as_str) {
        None => None,
        Some("naive") => Some(Box::new(bench::naive::Naive)),
        #[cfg(feature = "library")]
        Some("library") => Some(Box::new(bench::library::Library::new())),
        Some(name) => {
            eprintln!("no program named {name} in this build");
            return ExitCode::from(2);
        }
    };
    let mut second = image.clone();
    let mut model = Model::traced();
    for call in calls {
        let mut line = call.line();
        line.truncate(120);
        let mut buffer = buffer_before(call.buffer_length());
        let mut buffer_2 = buffer.clone();
        let answer = call.make(&mut model, &mut image, sector_size, count, &mut buffer);
        println!(
            "{line}\n= {} stores {} turns {} length {}",
            answer.number, answer.stores, answer.turns, answer.length
        );
        if answer.number == 0 && call.buffer_length() > 0 {
            println!("  value {}", script::hex(&buffer[..answer.length as usize]));
        }
        if call.kind() != 0 {
            for made in &model.trace {
                println!("  {} {} {}", made.sector, made.block, made.kind.word());
            }
        }
        if let Some(other) = &mut other {
            let theirs = call.make(other.as_mut(), &mut second, sector_size, count, &mut buffer_2);
            if theirs != answer || second != image || buffer != buffer_2 {
                println!(
                    "DIFFERENT: {} answers {theirs:?}; images equal: {}; buffers equal: {}",
                    other.name(),
                    second == image,
                    buffer == buffer_2
                );
                return ExitCode::from(1);
            }
        }
    }
    ExitCode::SUCCESS
}
