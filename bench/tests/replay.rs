//! A difference is reported with a script and an image that show it again, to the programs of this package and, where
//! GUST_DRIVE names it, to the driver.

use std::io::Write;
use std::path::Path;
use std::process::{Command, Stdio};

use bench::differ::{run, Run};
use bench::model::Model;
use bench::script;
use bench::store::*;

/// The model, but a delete that turns leaves one wrong byte.
struct Wrong(Model);

impl Store for Wrong {
    fn name(&self) -> String {
        "wrong".into()
    }
    fn format(&mut self, image: &mut [u8], s: usize, c: usize, a: u32) -> Answer {
        self.0.format(image, s, c, a)
    }
    fn mount(&mut self, image: &mut [u8], s: usize, c: usize, a: u32) -> Answer {
        self.0.mount(image, s, c, a)
    }
    fn read(&mut self, image: &[u8], s: usize, c: usize, id: u32, buffer: &mut [u8]) -> Answer {
        self.0.read(image, s, c, id, buffer)
    }
    fn write(&mut self, image: &mut [u8], s: usize, c: usize, id: u32, value: &[u8], a: u32) -> Answer {
        self.0.write(image, s, c, id, value, a)
    }
    fn delete(&mut self, image: &mut [u8], s: usize, c: usize, id: u32, a: u32) -> Answer {
        let answer = self.0.delete(image, s, c, id, a);
        if answer.turns > 0 {
            image[3] ^= 1;
        }
        answer
    }
}

/// What the driver prints for a script on a copy of an image, and what it leaves of it.
fn driven(drive: &str, dir: &Path, name: &str) -> (String, Vec<u8>) {
    let image = dir.join("driven.img");
    std::fs::copy(dir.join(name).with_extension("img"), &image).unwrap();
    let script = std::fs::read(dir.join(name).with_extension("script")).unwrap();
    let mut child =
        Command::new(drive).arg(&image).stdin(Stdio::piped()).stdout(Stdio::piped()).spawn().expect("the driver runs");
    let mut input = child.stdin.take().unwrap();
    let feeder = std::thread::spawn(move || input.write_all(&script).unwrap());
    let output = child.wait_with_output().unwrap();
    feeder.join().unwrap();
    (String::from_utf8(output.stdout).unwrap(), std::fs::read(image).unwrap())
}

#[test]
fn scripts_and_images_show_it_again() {
    for seed in 1..=5 {
        let found = run(&mut Wrong(Model::new()), &Run { max_image: 4096, ..Run::new(seed, 1_000_000) }, &mut |_| {});
        let d = found.err().expect("the wrong byte is found");
        let dir = std::env::temp_dir().join(format!("bench-replay-{}-{seed}", std::process::id()));
        let report = d.save(&dir, "model", "wrong").unwrap();
        assert!(std::fs::read_to_string(report).unwrap().contains("images differ"));

        // one call on the image before it
        let text = std::fs::read_to_string(dir.join("call.script")).unwrap();
        let (size, count, calls) = script::parse(&text).unwrap();
        assert!(calls.len() == 1 && calls[0] == d.call);
        let before = std::fs::read(dir.join("call.img")).unwrap();
        let (mut a, mut b) = (before.clone(), before.clone());
        let answer = calls[0].make(&mut Model::new(), &mut a, size, count, &mut []);
        calls[0].make(&mut Wrong(Model::new()), &mut b, size, count, &mut []);
        assert_eq!(
            (a.clone(), b),
            (std::fs::read(dir.join("after-left.img")).unwrap(), std::fs::read(dir.join("after-right.img")).unwrap())
        );

        // the history leads there
        let text = std::fs::read_to_string(dir.join("history.script")).unwrap();
        let (size, count, calls) = script::parse(&text).unwrap();
        let mut image = std::fs::read(dir.join("history.img")).unwrap();
        for (n, call) in calls.iter().enumerate() {
            if n + 1 == calls.len() {
                assert_eq!(image, before);
            }
            let mut buffer = vec![0; call.buffer_length()];
            call.make(&mut Model::new(), &mut image, size, count, &mut buffer);
        }
        assert_eq!(image, a);

        // and the driver shows both
        if let Ok(drive) = std::env::var("GUST_DRIVE") {
            let (text, left) = driven(&drive, &dir, "call");
            assert!(text.starts_with(&format!("stores {} turns {}\n", answer.stores, answer.turns)), "{text}");
            assert_eq!(left, a);
            assert_eq!(driven(&drive, &dir, "history").1, a);
        }
        std::fs::remove_dir_all(dir).unwrap();
    }
}

#[test]
fn lines_are_read_as_they_are_written() {
    for line in [
        "format",
        "format 3",
        "mount",
        "mount 0",
        "write 7 0a0bff",
        "write 4294967295 - 12",
        "delete 5",
        "delete 5 0",
        "read 8 0",
    ] {
        assert_eq!(script::text(128, 2, &[script::Call::parse(line).unwrap()]), format!("128 2\n{line}\n"));
    }
    for line in ["", "formats", "write 1", "write 1 0", "write 1 zz", "write -1 00", "delete", "read", "mount x"] {
        assert_eq!(script::Call::parse(line), None, "{line}");
    }
}

/// The same seed gives the same run; other seeds others.
#[test]
fn a_seed_is_a_run() {
    let report = |seed| {
        run(&mut Model::new(), &Run { max_image: 65_536, ..Run::new(seed, 20_000) }, &mut |_| {}).ok().unwrap().report()
    };
    assert_eq!(report(1), report(1));
    assert_ne!(report(1), report(2));
}
