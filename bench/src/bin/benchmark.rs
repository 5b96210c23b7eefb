//! The benchmark: the proved library, in ratios to the model; all in this one process, in
//! turns, call by call on equal images. The lean model, which like the library uses no heap,
//! stands beside, to tell what is the algorithm's share.
//!
//!     benchmark [--table FILE.md] [--plot FILE.svg] [--programs model,library,lean]
//!               [--lengths 8,64] [--samples N] [--sample-ms N] [--limit SECONDS]
//!               [--largest BYTES] [--note TEXT]
//!
//! A call foreseen (from the sizes before) to take longer than the limit is left out and said
//! to be. Times are medians of the samples.

use bench::clock;
use bench::histories::full_image;
use bench::model::{self, Geometry, Model, SoFar, BLOCK};
use bench::script::Call;
use bench::store::*;
use std::fmt::Write as _;
use std::hint::black_box;

/// The images: name, sector size, count.
const SIZES: [(&str, usize, usize); 4] =
    [("4 KiB", 1024, 4), ("64 KiB", 4096, 16), ("1 MiB", 32_768, 32), ("4 MiB", 65_536, 64)];

/// One thing to be timed: a call on an image, and the blocks to set back after it.
struct Task {
    sector_size: usize,
    count: usize,
    image: Vec<u8>,
    call: Call,
    due: Answer,
    after: Vec<u8>,
    back: Vec<(usize, [u8; BLOCK])>,
}

impl Task {
    fn new(sector_size: usize, count: usize, image: &[u8], call: Call) -> Task {
        let mut image = image.to_vec();
        if matches!(call, Call::Format { .. }) {
            // a format costs the same on any bytes: it is timed on its own outcome
            call.make(&mut Model::new(), &mut image, sector_size, count, &mut []);
        }
        let mut after = image.clone();
        let mut model = Model::traced();
        let mut buffer = vec![0; call.buffer_length()];
        let due = call.make(&mut model, &mut after, sector_size, count, &mut buffer);
        let g = Geometry::new(sector_size, count, image.len()).unwrap();
        let mut back = vec![];
        for made in &model.trace {
            let at = g.place(made.sector, made.block);
            back.push((at, image[at..at + BLOCK].try_into().unwrap()));
        }
        if matches!(call, Call::Format { .. }) {
            back.clear();
        }
        Task { sector_size, count, image, call, due, after, back }
    }

    /// The mean time in ns of `n` calls by this program; setting back is timed and taken off.
    fn time(&self, store: &mut dyn Store, image: &mut [u8], n: usize) -> f64 {
        let mut buffer = vec![0; self.call.buffer_length()];
        let began = clock::now();
        for _ in 0..n {
            black_box(self.call.make(store, black_box(&mut *image), self.sector_size, self.count, &mut buffer));
            self.set_back(image);
        }
        let both = clock::now() - began;
        if self.back.is_empty() {
            return both / n as f64;
        }
        let began = clock::now();
        for _ in 0..n {
            self.set_back(black_box(&mut *image));
        }
        let back = clock::now() - began;
        ((both - back) / n as f64).max(1.0)
    }

    fn set_back(&self, image: &mut [u8]) {
        for (at, bytes) in &self.back {
            image[*at..*at + BLOCK].copy_from_slice(bytes);
        }
    }

    /// One call by this program, held against what the model gave, and its time in ns.
    fn first(&self, store: &mut dyn Store, image: &mut [u8]) -> f64 {
        let mut buffer = vec![0; self.call.buffer_length()];
        let began = clock::now();
        let answer = self.call.make(store, image, self.sector_size, self.count, &mut buffer);
        let took = clock::now() - began;
        assert_eq!(answer, self.due, "{} on {}", store.name(), self.call.line());
        assert!(image == self.after, "{} leaves another image after {}", store.name(), self.call.line());
        self.set_back(image);
        took
    }
}

fn median(mut times: Vec<f64>) -> f64 {
    times.sort_by(f64::total_cmp);
    times[times.len() / 2]
}

struct Settings {
    samples: usize,
    sample_ns: f64,
    limit: f64,
}

type Programs = Vec<Box<dyn Store>>;
type Times = Vec<Option<f64>>;

/// Medians of the programs, samples taken in turns. None: foreseen above the limit.
fn measure(task: &Task, programs: &mut Programs, foreseen: &Times, set: &Settings) -> Times {
    let mut image = task.image.clone();
    let mut plan = vec![];
    let mut times = vec![vec![]; programs.len()];
    for (n, store) in programs.iter_mut().enumerate() {
        if foreseen[n].is_some_and(|t| t > set.limit * 1e9) {
            plan.push((0, 0));
            continue;
        }
        let took = task.first(store.as_mut(), &mut image).max(1.0);
        let calls = ((set.sample_ns / took) as usize).clamp(1, 1_000_000);
        if took > 5e9 {
            times[n].push(took); // one call is enough of it
            plan.push((0, 0));
        } else {
            plan.push((if took > 5e8 { set.samples.min(3) } else { set.samples }, calls));
        }
    }
    for round in 0..set.samples {
        for (n, store) in programs.iter_mut().enumerate() {
            let (samples, calls) = plan[n];
            if round < samples {
                times[n].push(task.time(store.as_mut(), &mut image, calls));
            }
        }
    }
    assert!(image == task.image, "set back");
    times.into_iter().map(|t| if t.is_empty() { None } else { Some(median(t)) }).collect()
}

/// The rows of one image size.
fn tasks(sector_size: usize, count: usize, length: usize) -> Vec<(&'static str, Task)> {
    let (full, ids) = full_image(sector_size, count, length);
    let mut model = Model::new();
    let value = vec![0x42; length];
    let buffer = length.max(16);
    let write = |allowance| Call::Write { id: ids, value: value.clone(), allowance };
    let task = |image: &[u8], call| Task::new(sector_size, count, image, call);

    // the open sector lacks its last value
    let g = Geometry::new(sector_size, count, full.len()).unwrap();
    let open = count - 2;
    let mut one_less = full.clone();
    let last = model::sums(g, &full, open).next_block(g) + 1;
    one_less[g.place(open, last)..g.place(open, last) + BLOCK].fill(0xFF);
    // the oldest value deleted: the next write turns, and copies all others of its sector
    let mut deleted = full.clone();
    assert_eq!(model.delete(&mut deleted, sector_size, count, 0, ENOUGH).turns, 0);
    // that write cut after its first store
    let mut mid_turn = deleted.clone();
    assert_eq!(write(1).make(&mut model, &mut mid_turn, sector_size, count, &mut []).number, CUT);

    let rows = vec![
        ("read, newest", task(&full, Call::Read { id: ids - 1, buffer })),
        ("read, oldest", task(&full, Call::Read { id: 0, buffer })),
        ("read, absent", task(&full, Call::Read { id: ids, buffer })),
        ("write, no turn", task(&one_less, write(ENOUGH))),
        ("write, a turn", task(&deleted, write(ENOUGH))),
        ("refusal 7", task(&full, write(ENOUGH))),
        ("mount, at rest", task(&full, Call::Mount { allowance: ENOUGH })),
        ("mount, mid-turn", task(&mid_turn, Call::Mount { allowance: ENOUGH })),
        ("format", task(&full, Call::Format { allowance: ENOUGH })),
    ];
    let due = |n: usize| rows[n].1.due;
    assert_eq!((due(0).number, due(1).number, due(2).number), (DONE, DONE, ABSENT));
    assert_eq!((due(3).number, due(3).turns), (DONE, 0));
    assert_eq!((due(4).number, due(4).turns), (DONE, 1));
    assert_eq!((due(5).number, due(6).number, due(7).turns), (NO_ROOM, DONE, 1));
    rows
}

/// 64 x 128, every sector's reading ended by a block of some sort; a read of an absent ID
/// looks at each.
fn look_tasks() -> Vec<(&'static str, Task)> {
    let (sector_size, count) = (128, 64);
    let mut image = vec![0; sector_size * count];
    assert_eq!(Model::new().format(&mut image, sector_size, count, ENOUGH).number, DONE);
    let g = Geometry::new(sector_size, count, image.len()).unwrap();
    let with = |make: &dyn Fn(u8, SoFar) -> [u8; BLOCK]| {
        let mut image = image.clone();
        for sector in 0..count {
            let sums = model::sums(g, &image, sector);
            let at = g.place(sector, sums.next_block(g));
            let bytes = make(1, sums);
            assert_eq!(model::look(g, &bytes, 1, sums), None);
            image[at..at + BLOCK].copy_from_slice(&bytes);
        }
        Task::new(sector_size, count, &image, Call::Read { id: 77, buffer: 8 })
    };
    vec![
        ("blank", with(&|_, _| [0xFF; BLOCK])),
        ("another cycle, else right", with(&|cycle, _| model::deletion(cycle + 1, 5))),
        (
            "this cycle, wrong check byte",
            with(&|cycle, _| {
                let mut bytes = model::deletion(cycle, 5);
                bytes[0] ^= 1;
                bytes
            }),
        ),
        ("this cycle, right check byte, wrong form", with(&|cycle, _| model::entry(cycle, 0, 5, [0; 8]))),
    ]
}

fn human(ns: f64) -> String {
    match ns {
        t if t < 1e3 => format!("{t:.0} ns"),
        t if t < 1e6 => format!("{:.2} us", t / 1e3),
        t if t < 1e9 => format!("{:.2} ms", t / 1e6),
        t if t < 120e9 => format!("{:.2} s", t / 1e9),
        t => format!("{:.0} min", t / 60e9),
    }
}

/// A time as it was taken, or why not: what it was foreseen to be.
fn cell(times: &[Option<f64>], k: usize, sizes: &[usize]) -> String {
    match times[k] {
        Some(time) => human(time),
        None => {
            // the last one taken, carried on to this size
            let taken: Vec<Option<f64>> = times[..k].iter().copied().take_while(|t| t.is_some()).collect();
            match foresee(&taken, sizes[k], sizes) {
                Some(time) => format!("left out (about {} foreseen)", human(time)),
                None => "left out".into(),
            }
        }
    }
}

fn short(time: Option<f64>) -> String {
    time.map_or("left out".into(), human)
}

fn ratio(time: Option<f64>, to: Option<f64>) -> String {
    match (time, to) {
        (Some(time), Some(to)) => format!("{:.2}", time / to),
        _ => "-".into(),
    }
}

/// The ratios told: every program to the first, and the second to the third.
fn ratios(programs: usize) -> Vec<(usize, usize)> {
    let mut pairs: Vec<(usize, usize)> = (1..programs).map(|n| (n, 0)).collect();
    if programs == 3 {
        pairs.insert(1, (1, 2));
    }
    pairs
}

/// Row names, and per row and size the programs' medians.
struct Results {
    length: usize,
    rows: Vec<(&'static str, Vec<Times>)>,
}

/// From the sizes before: the time to be expected, growing as it did (as the square, if there
/// is only one).
fn foresee(times: &[Option<f64>], size: usize, sizes: &[usize]) -> Option<f64> {
    let n = times.len();
    let last = match times.last() {
        None => return None,
        Some(None) => return Some(f64::INFINITY),
        Some(Some(t)) => *t,
    };
    let step = (size as f64 / sizes[n - 1] as f64).ln();
    let power = if n >= 2 {
        let before = times[n - 2].unwrap();
        ((last / before).ln() / (sizes[n - 1] as f64 / sizes[n - 2] as f64).ln()).max(1.0)
    } else {
        2.0
    };
    Some(last * (power * step).exp())
}

fn svg(results: &Results, names: &[String]) -> String {
    let (w, h, left, top) = (260.0, 190.0, 62.0, 34.0);
    let columns = 3;
    let lines = results.rows.len().div_ceil(columns);
    let (pw, ph) = (w + left + 20.0, h + top + 46.0);
    let (width, height) = (pw * columns as f64, ph * lines as f64 + 40.0);
    let mut out = String::new();
    let _ = writeln!(out, "<svg xmlns=\"http://www.w3.org/2000/svg\" width=\"{width}\" height=\"{height}\" viewBox=\"0 0 {width} {height}\" font-family=\"sans-serif\" font-size=\"11\">");
    let _ = writeln!(out, "<rect width=\"100%\" height=\"100%\" fill=\"white\"/>");
    let _ = writeln!(out, "<text x=\"{left}\" y=\"20\" font-size=\"14\">Time of a call by image size, full images, values of {} bytes</text>", results.length);
    let looks = [("#1b6ca8", ""), ("#c0392b", " stroke-dasharray=\"6 3\""), ("#7f8c8d", " stroke-dasharray=\"2 3\"")];
    for (n, name) in names.iter().enumerate() {
        let (colour, dash) = looks[n % looks.len()];
        let from = pw * 1.8 + 120.0 * n as f64;
        let _ = writeln!(out, "<line x1=\"{from}\" y1=\"16\" x2=\"{}\" y2=\"16\" stroke=\"{colour}\" stroke-width=\"2\"{dash}/><text x=\"{}\" y=\"20\">{name}</text>", from + 24.0, from + 28.0);
    }
    let sizes: Vec<f64> = SIZES.iter().map(|(_, s, c)| (s * c) as f64).collect();
    let (x0, x1) = (sizes[0].log10(), sizes[sizes.len() - 1].log10());
    for (n, (name, times)) in results.rows.iter().enumerate() {
        let (ox, oy) = (pw * (n % columns) as f64 + left, ph * (n / columns) as f64 + top + 30.0);
        let all: Vec<f64> = times.iter().flatten().flatten().copied().collect();
        if all.is_empty() {
            continue;
        }
        let low = all.iter().copied().fold(f64::INFINITY, f64::min).log10().floor();
        let high = all.iter().copied().fold(0.0, f64::max).log10().ceil().max(low + 1.0);
        let x = |size: f64| ox + (size.log10() - x0) / (x1 - x0) * w;
        let y = |ns: f64| oy + h - (ns.log10() - low) / (high - low) * h;
        let _ =
            writeln!(out, "<text x=\"{ox}\" y=\"{}\" font-size=\"12\" font-weight=\"bold\">{name}</text>", oy - 8.0);
        let _ =
            writeln!(out, "<rect x=\"{ox}\" y=\"{oy}\" width=\"{w}\" height=\"{h}\" fill=\"none\" stroke=\"#888\"/>");
        for power in low as i32..=high as i32 {
            let at = y(10f64.powi(power));
            let _ =
                writeln!(out, "<line x1=\"{ox}\" y1=\"{at:.1}\" x2=\"{:.1}\" y2=\"{at:.1}\" stroke=\"#ddd\"/>", ox + w);
            let unit = 10f64.powi(power);
            let label = match power {
                ..=2 => format!("{unit:.0} ns"),
                3..=5 => format!("{:.0} us", unit / 1e3),
                6..=8 => format!("{:.0} ms", unit / 1e6),
                _ => format!("{:.0} s", unit / 1e9),
            };
            let _ =
                writeln!(out, "<text x=\"{:.1}\" y=\"{:.1}\" text-anchor=\"end\">{label}</text>", ox - 4.0, at + 4.0);
        }
        for (k, (label, _, _)) in SIZES.iter().enumerate() {
            let _ = writeln!(
                out,
                "<text x=\"{:.1}\" y=\"{:.1}\" text-anchor=\"middle\">{label}</text>",
                x(sizes[k]),
                oy + h + 14.0
            );
        }
        for side in 0..names.len() {
            let (colour, dash) = looks[side % looks.len()];
            let points: Vec<(f64, f64)> =
                times.iter().enumerate().filter_map(|(k, t)| t[side].map(|t| (x(sizes[k]), y(t)))).collect();
            let line: Vec<String> = points.iter().map(|(x, y)| format!("{x:.1},{y:.1}")).collect();
            let _ = writeln!(
                out,
                "<polyline points=\"{}\" fill=\"none\" stroke=\"{colour}\" stroke-width=\"2\"{dash}/>",
                line.join(" ")
            );
            for (x, y) in points {
                let _ = writeln!(out, "<circle cx=\"{x:.1}\" cy=\"{y:.1}\" r=\"3\" fill=\"{colour}\"/>");
            }
        }
    }
    out.push_str("</svg>\n");
    out
}

fn main() {
    let mut table = None;
    let mut plot = None;
    let mut chosen =
        if cfg!(feature = "library") { "model,library,lean".to_string() } else { "model,lean".to_string() };
    let mut lengths = vec![8usize, 64];
    let mut set = Settings { samples: 9, sample_ns: 10e6, limit: 60.0 };
    let mut largest = usize::MAX;
    let mut notes = vec![];
    let mut args = std::env::args().skip(1);
    while let Some(arg) = args.next() {
        let value = args.next().unwrap_or_default();
        let number = || value.parse::<f64>().expect("a number");
        match arg.as_str() {
            "--table" => table = Some(value),
            "--plot" => plot = Some(value),
            "--programs" => chosen = value,
            "--lengths" => lengths = value.split(',').map(|n| n.parse().expect("a length")).collect(),
            "--samples" => set.samples = number() as usize,
            "--sample-ms" => set.sample_ns = number() * 1e6,
            "--limit" => set.limit = number(),
            "--largest" => largest = number() as usize,
            "--note" => notes.push(value),
            _ => {
                eprintln!("benchmark [--table FILE] [--plot FILE] [--programs model,library,lean] [--lengths 8,64] [--samples N] [--sample-ms N] [--limit SECONDS] [--largest BYTES] [--note TEXT]");
                std::process::exit(2);
            }
        }
    }
    let mut programs: Programs = vec![];
    for name in chosen.split(',') {
        programs.push(match name {
            "model" => Box::new(Model::new()),
            "lean" => Box::new(Model::lean()),
            "naive" => Box::new(bench::naive::Naive),
            #[cfg(feature = "library")]
            "library" => Box::new(bench::library::Library::new()),
            other => panic!("no program named {other} in this build"),
        });
    }
    let names: Vec<String> = programs.iter().map(|p| p.name()).collect();
    let sizes: Vec<usize> = SIZES.iter().map(|(_, s, c)| s * c).collect();
    let pairs = ratios(programs.len());
    let head: String = names.iter().map(|n| format!(" {n} |")).collect::<String>()
        + &pairs.iter().map(|(a, b)| format!(" {} / {} |", names[*a], names[*b])).collect::<String>();
    let rule = "---:|".repeat(names.len() + pairs.len());
    let told = |times: &Times| -> String {
        pairs.iter().map(|(a, b)| format!(" {} |", ratio(times[*a], times[*b]))).collect()
    };

    let mut text = String::new();
    let _ = writeln!(text, "# Benchmarks\n");
    let _ = writeln!(text, "The `model` is the independent, straightforward Rust program (src/model.rs; a hash map finds what is live); the `lean model`, if it is run too, is the same without a heap (it searches). All built for release, in one process, samples in turns; median of up to {} samples of about {:.0} ms (calls above half a second: fewer samples, of one call). Times are of one call, in processor time of the thread (other work on the machine doesn't count). A ratio below 1: the first named is the faster.\n", set.samples, set.sample_ns / 1e6);
    for note in &notes {
        let _ = writeln!(text, "- {note}");
    }
    if let Ok(cpu) = std::fs::read_to_string("/proc/cpuinfo") {
        if let Some(line) = cpu.lines().find(|l| l.starts_with("model name")) {
            let _ = writeln!(text, "- CPU: {}", line.split(':').nth(1).unwrap_or("").trim());
        }
    }
    let _ = writeln!(text, "- Images: 4 KiB = 4 x 1,024; 64 KiB = 16 x 4,096; 1 MiB = 32 x 32,768; 4 MiB = 64 x 65,536. Full: S-1 sectors filled with new IDs until refusal 7.");
    let _ = writeln!(text, "- write, no turn: the last value of the open sector is missing. write, a turn: the oldest value is deleted, the turn copies the rest of its sector. mount, mid-turn: that write cut after its first store.\n");

    for length in lengths {
        let mut results = Results { length, rows: vec![] };
        for (k, (label, sector_size, count)) in SIZES.iter().enumerate() {
            if sizes[k] > largest {
                continue;
            }
            for (n, (name, task)) in tasks(*sector_size, *count, length).into_iter().enumerate() {
                if results.rows.len() <= n {
                    results.rows.push((name, vec![]));
                }
                let before = &results.rows[n].1;
                let side = |s: usize| foresee(&before.iter().map(|t| t[s]).collect::<Vec<_>>(), sizes[k], &sizes);
                let foreseen: Times = (0..names.len()).map(side).collect();
                let times = measure(&task, &mut programs, &foreseen, &set);
                let line: String = times.iter().map(|t| format!("{:>12}", short(*t))).collect();
                eprintln!("{label:>7} {length:>3} bytes  {name:16} {line}  {}", told(&times));
                results.rows[n].1.push(times);
            }
        }
        let _ = writeln!(text, "## Full images, values of {length} bytes\n");
        let _ = writeln!(text, "| call | image |{head}\n|---|---|{rule}");
        for (name, times) in &results.rows {
            let side = |s: usize| times.iter().map(|t| t[s]).collect::<Vec<_>>();
            for (k, row) in times.iter().enumerate() {
                let cells: String = (0..names.len()).map(|s| format!(" {} |", cell(&side(s), k, &sizes))).collect();
                let _ = writeln!(text, "| {name} | {} |{cells}{}", SIZES[k].0, told(row));
            }
        }
        let _ = writeln!(text, "\nGrowth of the cost with the image's size: the time at a size over the time at the size before it (the image growing 16, 16 and 4 times).\n");
        let _ = writeln!(text, "| call | program | 4 to 64 KiB (x 16) | 64 KiB to 1 MiB (x 16) | 1 to 4 MiB (x 4) |\n|---|---|---:|---:|---:|");
        for (name, times) in &results.rows {
            for side in 0..names.len() {
                let mut line = format!("| {name} | {} |", names[side]);
                for k in 1..SIZES.len() {
                    let growth = match (times.get(k - 1).and_then(|t| t[side]), times.get(k).and_then(|t| t[side])) {
                        (Some(a), Some(b)) => format!(" {:.1} |", b / a),
                        _ => " - |".into(),
                    };
                    line += &growth;
                }
                let _ = writeln!(text, "{line}");
            }
        }
        let _ = writeln!(text);
        if let Some(plot) = &plot {
            let path = if length == 8 { plot.clone() } else { plot.replace(".svg", &format!("-{length}.svg")) };
            std::fs::write(&path, svg(&results, &names)).expect("the plot can be written");
            let file = path.rsplit('/').next().unwrap();
            let _ = writeln!(text, "![time by image size, values of {length} bytes]({file})\n");
        }
    }

    let _ = writeln!(text, "## The look at a block\n");
    let _ = writeln!(text, "A read of an absent ID in a fresh store of 64 x 128 bytes, whose 64 sectors' readings each end at a block of the sort named; a look is the difference to the blank block over the number of those looks (65: the open sector is read twice by {}).\n", names[0]);
    let more: String = names.iter().map(|n| format!(" a look more, {n} |")).collect();
    let _ = writeln!(text, "| block that ends each reading |{head}{more}\n|---|{rule}{}", "---:|".repeat(names.len()));
    let mut blank: Times = vec![];
    for (name, task) in look_tasks() {
        let times = measure(&task, &mut programs, &vec![None; names.len()], &set);
        if blank.is_empty() {
            blank = times.clone();
        }
        let cells: String = times.iter().map(|t| format!(" {} |", short(*t))).collect();
        let more: String =
            (0..names.len()).map(|s| format!(" {:.1} ns |", (times[s].unwrap() - blank[s].unwrap()) / 65.0)).collect();
        eprintln!("look: {name:42} {cells}");
        let _ = writeln!(text, "| {name} |{cells}{}{more}", told(&times));
    }
    match table {
        Some(path) => std::fs::write(&path, text).expect("the table can be written"),
        None => println!("{text}"),
    }
}
