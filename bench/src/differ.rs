//! The differential run: two programs, the same calls, and everything compared after each.

use crate::histories::{Generator, Step};
use crate::model::{self, Geometry, Kind, Model, State, BLOCK};
use crate::script::{self, Call};
use crate::store::{Answer, Store};
use std::fmt::Write as _;
use std::path::{Path, PathBuf};

/// Bytes before and after the lent ones that no call may touch.
const GUARD: usize = 64;
const GUARD_BYTE: u8 = 0xC3;

/// Lent bytes with guards round them.
struct Lent {
    bytes: Vec<u8>,
}

impl Lent {
    fn new(content: &[u8]) -> Lent {
        let mut bytes = vec![GUARD_BYTE; content.len() + 2 * GUARD];
        bytes[GUARD..GUARD + content.len()].copy_from_slice(content);
        Lent { bytes }
    }
    fn len(&self) -> usize {
        self.bytes.len() - 2 * GUARD
    }
    fn get(&self) -> &[u8] {
        &self.bytes[GUARD..GUARD + self.len()]
    }
    fn get_mut(&mut self) -> &mut [u8] {
        let len = self.len();
        &mut self.bytes[GUARD..GUARD + len]
    }
    fn guards_hold(&self) -> bool {
        let end = self.bytes.len() - GUARD;
        self.bytes[..GUARD].iter().chain(&self.bytes[end..]).all(|b| *b == GUARD_BYTE)
    }
}

/// What the run has met: to show that it wasn't idle.
#[derive(Clone, Default)]
pub struct Met {
    pub calls: u64,
    /// by kind of call and answer number
    pub answers: [[u64; 12]; 5],
    /// state before the call: rest, done not reopened, mid-turn, no store, sizes off
    pub states: [u64; 5],
    pub histories: u64,
    pub damages: u64,
    /// cut calls taken back, to be made again with one store more
    pub taken_back: u64,
    /// stores by kind, format left out
    pub stores: [u64; 7],
    /// blanks by look-ahead, and at B-2 and B-3 by reopening
    pub look_ahead: u64,
    /// of these, in images that calls alone have made since a format: the work of user values
    /// that look like entries, or of cycles come round
    pub look_ahead_honest: u64,
    pub reopen_close: u64,
    pub reopen_entry: u64,
    /// leads that went from 255 to 0
    pub wraps: u64,
    /// writes and deletes by turns: 1, 2, 3 or more
    pub turns: [u64; 3],
    pub bytes_compared: u64,
    pub largest: usize,
    /// calls by image size: 256 bytes, up to 4 KiB, 64 KiB, 1 MiB, 4 MiB
    pub sizes: [u64; 5],
    /// the most often that one sector was reopened within one history
    pub most_reuses: u32,
}

impl Met {
    pub fn report(&self) -> String {
        let mut out = String::new();
        let _ = writeln!(
            out,
            "calls {}  histories {}  damages {}  cuts swept {}",
            self.calls, self.histories, self.damages, self.taken_back
        );
        let _ = writeln!(out, "answers      0        1        2        3        4        5        6        7        8        9       10       11");
        for (n, name) in ["format", "mount", "read", "write", "delete"].iter().enumerate() {
            let _ = write!(out, "{name:7}");
            for count in self.answers[n] {
                let _ = write!(out, "{count:>9}");
            }
            let _ = writeln!(out);
        }
        let s = self.states;
        let _ = writeln!(
            out,
            "state before the call: rest {}  done, not reopened {}  mid-turn {}  no store {}  sizes off {}",
            s[0], s[1], s[2], s[3], s[4]
        );
        let k = self.stores;
        let _ = writeln!(
            out,
            "stores (formats left out): lead {} close {} done {} deletion {} value {} data {} blank {}",
            k[0], k[1], k[2], k[3], k[4], k[5], k[6]
        );
        let _ = writeln!(
            out,
            "blanks: look-ahead {} ({} in images made by calls alone)  B-2 on reopening {}  B-3 on reopening {}; leads going 255 to 0: {}",
            self.look_ahead, self.look_ahead_honest, self.reopen_close, self.reopen_entry, self.wraps
        );
        let t = self.turns;
        let _ = writeln!(
            out,
            "changes with 1 turn {}  2 turns {}  3 or more {}; largest image {} bytes; {} MB compared",
            t[0],
            t[1],
            t[2],
            self.largest,
            self.bytes_compared / 1_000_000
        );
        let z = self.sizes;
        let _ = writeln!(
            out,
            "calls by image size: 256 bytes {}  to 4 KiB {}  to 64 KiB {}  to 1 MiB {}  to 4 MiB {}; a sector reopened {} times within one history",
            z[0], z[1], z[2], z[3], z[4], self.most_reuses
        );
        out
    }
}

/// The first difference: all that is needed to see it and to see it again.
pub struct Difference {
    pub call_number: u64,
    pub what: String,
    pub sector_size: usize,
    pub count: usize,
    pub call: Call,
    pub left: Answer,
    pub right: Option<Answer>,
    /// the image before the call, and after it on both sides
    pub before: Vec<u8>,
    pub left_after: Vec<u8>,
    pub right_after: Vec<u8>,
    pub left_trace: Vec<String>,
    /// the history since its start (or the last damage): its sizes, image and calls
    pub start_sizes: (usize, usize),
    pub start: Vec<u8>,
    pub calls: Vec<Call>,
}

impl Difference {
    pub fn report(&self, left_name: &str, right_name: &str) -> String {
        let mut out = String::new();
        let _ = writeln!(out, "DIFFERENCE at call {}: {}", self.call_number, self.what);
        let _ = writeln!(out, "sizes: {} bytes a sector, {} sectors", self.sector_size, self.count);
        let mut line = self.call.line();
        if line.len() > 200 {
            let all = line.len();
            line.truncate(200);
            let _ = write!(line, "... ({all} characters; whole in call.script)");
        }
        let _ = writeln!(out, "call: {line}");
        let state =
            Geometry::new(self.sector_size, self.count, self.before.len()).map(|g| model::state(g, &self.before));
        let _ = writeln!(out, "state before: {state:?}");
        let _ = writeln!(out, "{left_name}: {:?}", self.left);
        match self.right {
            Some(right) => {
                let _ = writeln!(out, "{right_name}: {right:?}");
            }
            None => {
                let _ = writeln!(out, "{right_name}: panicked");
            }
        }
        let _ = writeln!(out, "stores of {left_name} (sector, block, kind):");
        for line in self.left_trace.iter().take(80) {
            let _ = writeln!(out, "  {line}");
        }
        let mut shown = 0;
        if self.sector_size >= BLOCK {
            for (n, (l, r)) in self.left_after.chunks(BLOCK).zip(self.right_after.chunks(BLOCK)).enumerate() {
                if l != r && shown < 8 {
                    shown += 1;
                    let blocks = self.sector_size / BLOCK;
                    let _ = writeln!(out, "block differs: sector {} block {}", n / blocks, n % blocks);
                    let was = &self.before[n * BLOCK..self.before.len().min((n + 1) * BLOCK)];
                    let _ = writeln!(
                        out,
                        "  before {}\n  {left_name:6} {}\n  {right_name:6} {}",
                        script::hex(was),
                        script::hex(l),
                        script::hex(r)
                    );
                }
            }
        }
        out
    }

    /// Writes the report, the scripts and the images into a directory.
    ///
    /// The image is the only state, so one call on the image before it is the shortest
    /// replay there is; the history that led there stands beside it.
    pub fn save(&self, dir: &Path, left_name: &str, right_name: &str) -> std::io::Result<PathBuf> {
        std::fs::create_dir_all(dir)?;
        std::fs::write(dir.join("report.txt"), self.report(left_name, right_name))?;
        let one = script::text(self.sector_size, self.count, std::slice::from_ref(&self.call));
        std::fs::write(dir.join("call.script"), one)?;
        std::fs::write(dir.join("call.img"), &self.before)?;
        std::fs::write(dir.join("after-left.img"), &self.left_after)?;
        std::fs::write(dir.join("after-right.img"), &self.right_after)?;
        let all = script::text(self.start_sizes.0, self.start_sizes.1, &self.calls);
        std::fs::write(dir.join("history.script"), all)?;
        std::fs::write(dir.join("history.img"), &self.start)?;
        Ok(dir.join("report.txt"))
    }
}

/// Sets blocks of both images.
fn set(a: &mut Lent, b: &mut Lent, blocks: &[(usize, model::Block)]) {
    for (at, bytes) in blocks {
        a.get_mut()[*at..*at + BLOCK].copy_from_slice(bytes);
        b.get_mut()[*at..*at + BLOCK].copy_from_slice(bytes);
    }
}

/// The bytes of a read's buffer before the call.
pub fn buffer_before(length: usize) -> Vec<u8> {
    (0..length).map(|n| (n as u8).wrapping_mul(7) ^ 0xA5).collect()
}

/// What is to be run.
pub struct Run {
    pub seed: u64,
    pub calls: u64,
    /// images up to so many bytes
    pub max_image: usize,
    /// progress is told every so many calls
    pub every: u64,
    /// from this call on, script and image are written to this directory *before* each call:
    /// for a program that doesn't come back from one
    pub careful: Option<(u64, PathBuf)>,
}

impl Run {
    pub fn new(seed: u64, calls: u64) -> Run {
        Run { seed, calls, max_image: 64 * 65_536, every: u64::MAX, careful: None }
    }
}

/// Runs the history on the model and on `right`, and compares after every call the answer
/// with its counts, the image, the buffer, and the guards round them.
pub fn run(right: &mut dyn Store, run: &Run, progress: &mut dyn FnMut(&Met)) -> Result<Met, Box<Difference>> {
    let mut left = Model::traced();
    let mut generator = Generator::new(run.seed, run.max_image);
    let mut met = Met::default();
    let (mut sector_size, mut count) = (128, 2);
    let mut a = Lent::new(&[]);
    let mut b = Lent::new(&[]);
    let mut start: Vec<u8> = vec![];
    let mut history: Vec<Call> = vec![];
    let mut reuses = [0u32; 64];
    let mut reuses_before = reuses;
    let mut honest = false;
    while met.calls < run.calls {
        let (told_size, told_count, told_len, call) = match generator.next(a.get()) {
            Step::Start { sector_size: s, count: c, image } => {
                (sector_size, count) = (s, c);
                a = Lent::new(&image);
                b = Lent::new(&image);
                start = image;
                history.clear();
                reuses = [0; 64];
                honest = false;
                met.histories += 1;
                met.largest = met.largest.max(start.len());
                continue;
            }
            Step::Back(blocks) => {
                set(&mut a, &mut b, &blocks);
                history.pop();
                reuses = reuses_before;
                met.taken_back += 1;
                continue;
            }
            Step::Damage(blocks) => {
                set(&mut a, &mut b, &blocks);
                start = a.get().to_vec();
                history.clear();
                honest = false;
                met.damages += 1;
                continue;
            }
            Step::Call { sector_size, count, image_len, call } => (sector_size, count, image_len, call),
        };
        let odd = (told_size, told_count, told_len) != (sector_size, count, a.len());
        let g = Geometry::new(told_size, told_count, told_len);
        let state_place = match g.map(|g| model::state(g, &a.get()[..told_len])) {
            Some(Some(State::Rest { .. })) => 0,
            Some(Some(State::DoneNotReopened { .. })) => 1,
            Some(Some(State::MidTurn { .. })) => 2,
            Some(None) => 3,
            None => 4,
        };
        let empty = buffer_before(call.buffer_length());
        let (mut a_buffer, mut b_buffer) = (Lent::new(&empty), Lent::new(&empty));
        let before = b.get()[..told_len.min(65_536)].to_vec();
        let before_large = if told_len > 65_536 { Some(b.get()[..told_len].to_vec()) } else { None };
        if let Some((from, dir)) = &run.careful {
            if met.calls + 1 >= *from {
                let one = script::text(told_size, told_count, std::slice::from_ref(&call));
                std::fs::create_dir_all(dir).expect("the directory can be made");
                std::fs::write(dir.join("call.script"), one).expect("the script can be written");
                std::fs::write(dir.join("call.img"), before_large.as_ref().unwrap_or(&before))
                    .expect("the image can be written");
            }
        }

        let l = call.make(&mut left, &mut a.get_mut()[..told_len], told_size, told_count, a_buffer.get_mut());
        let r = std::panic::catch_unwind(std::panic::AssertUnwindSafe(|| {
            call.make(right, &mut b.get_mut()[..told_len], told_size, told_count, b_buffer.get_mut())
        }));
        met.calls += 1;

        let what = match &r {
            Err(_) => Some("panicked".to_string()),
            Ok(r) if l.number != r.number => Some(format!("answer {} against {}", l.number, r.number)),
            Ok(r) if l != *r => Some("counts or length differ".to_string()),
            Ok(_) if a.get() != b.get() => {
                let at = a.get().iter().zip(b.get()).position(|(x, y)| x != y).unwrap();
                Some(format!("images differ, first at byte {at}"))
            }
            Ok(_) if a_buffer.get() != b_buffer.get() => {
                let at = a_buffer.get().iter().zip(b_buffer.get()).position(|(x, y)| x != y).unwrap();
                Some(format!("buffers differ, first at byte {at}"))
            }
            Ok(_) if !b.guards_hold() => Some("bytes outside the lent image were changed".to_string()),
            Ok(_) if !b_buffer.guards_hold() => Some("bytes outside the lent buffer were changed".to_string()),
            Ok(_) => None,
        };
        if let Some(what) = what {
            if !odd {
                history.push(call.clone());
            }
            return Err(Box::new(Difference {
                call_number: met.calls,
                what,
                sector_size: told_size,
                count: told_count,
                call,
                left: l,
                right: r.ok(),
                before: before_large.unwrap_or(before),
                left_after: a.get()[..told_len].to_vec(),
                right_after: b.get()[..told_len].to_vec(),
                left_trace: left.trace.iter().map(|m| format!("{} {} {}", m.sector, m.block, m.kind.word())).collect(),
                start_sizes: (sector_size, count),
                start,
                calls: history,
            }));
        }

        generator.note(l.number);
        reuses_before = reuses;

        // counts for the report
        met.bytes_compared += a.len() as u64 + a_buffer.len() as u64;
        met.answers[call.kind()][l.number as usize] += 1;
        met.states[state_place] += 1;
        let class = [256, 4096, 65_536, 1 << 20].iter().position(|most| a.len() <= *most).unwrap_or(4);
        met.sizes[class] += 1;
        if call.kind() >= 3 && l.turns > 0 {
            met.turns[(l.turns as usize).min(3) - 1] += 1;
        }
        if let (Some(g), true) = (g, call.kind() != 0) {
            for (n, made) in left.trace.iter().enumerate() {
                met.stores[made.kind as usize] += 1;
                if made.kind == Kind::Blank {
                    // a reopening's blanks are followed by its lead; a look-ahead's by its entry
                    let then = left.trace[n + 1..].iter().find(|m| m.kind != Kind::Blank);
                    let is_close = made.block == g.close_block();
                    if is_close {
                        met.reopen_close += 1;
                    } else if made.block == g.first_entry_block() && then.is_none_or(|m| m.kind == Kind::Lead) {
                        met.reopen_entry += 1;
                    } else {
                        met.look_ahead += 1;
                        met.look_ahead_honest += honest as u64;
                    }
                }
                if made.kind == Kind::Lead {
                    reuses[made.sector] += 1;
                    met.most_reuses = met.most_reuses.max(reuses[made.sector]);
                }
                if made.kind == Kind::Lead && a.get()[g.place(made.sector, made.block) + 1] == 0 {
                    met.wraps += 1;
                }
            }
        }
        if odd {
            if l.stores > 0 {
                // an image of other sizes now: the history that a script can tell begins anew
                honest = false;
                start = a.get().to_vec();
                history.clear();
            }
        } else {
            if call.kind() == 0 {
                honest = l.number == 0;
            }
            history.push(call);
        }
        if met.calls % run.every == 0 {
            progress(&met);
        }
    }
    Ok(met)
}
