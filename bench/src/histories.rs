//! Histories: random and adversarial calls, damaged images, forged values.
//!
//! The generator sees the image as it stands and uses the model to aim: cuts are put among
//! the stores that are due, lengths near what still fits, forged values at the cycle in which
//! their place will be read again. What it makes depends on the seed alone.

use crate::model::{self, Block, Entry, Geometry, Model, SoFar, State, BLANK, BLOCK, RESERVED};
use crate::script::Call;
use crate::store::{ENOUGH, NO_ROOM};
use std::collections::VecDeque;

/// splitmix64.
#[derive(Clone)]
pub struct Rng(u64);

impl Rng {
    pub fn new(seed: u64) -> Rng {
        Rng(seed)
    }
    pub fn word(&mut self) -> u64 {
        self.0 = self.0.wrapping_add(0x9E37_79B9_7F4A_7C15);
        let mut z = self.0;
        z = (z ^ (z >> 30)).wrapping_mul(0xBF58_476D_1CE4_E5B9);
        z = (z ^ (z >> 27)).wrapping_mul(0x94D0_49BB_1331_11EB);
        z ^ (z >> 31)
    }
    /// From 0 to n-1.
    pub fn below(&mut self, n: usize) -> usize {
        (((self.word() >> 32) * n as u64) >> 32) as usize
    }
    /// From a to b, both included.
    pub fn range(&mut self, a: usize, b: usize) -> usize {
        a + self.below(b - a + 1)
    }
    /// True so many times in a thousand.
    pub fn chance(&mut self, thousandths: usize) -> bool {
        self.below(1000) < thousandths
    }
    pub fn byte(&mut self) -> u8 {
        (self.word() >> 56) as u8
    }
    pub fn pick<T: Copy>(&mut self, from: &[T]) -> T {
        from[self.below(from.len())]
    }
    pub fn fill(&mut self, bytes: &mut [u8]) {
        for part in bytes.chunks_mut(8) {
            let word = self.word().to_le_bytes();
            part.copy_from_slice(&word[..part.len()]);
        }
    }
}

/// One step of a history.
pub enum Step {
    /// A new image, of these sizes; what was before is forgotten.
    Start { sector_size: usize, count: usize, image: Vec<u8> },
    /// These blocks of the image are set: (byte place, bytes).
    Damage(Vec<(usize, Block)>),
    /// The last call is taken back: these blocks are set to what they were before it.
    Back(Vec<(usize, Block)>),
    /// A call, with sizes and image length as it is to be told (not always the true ones).
    Call { sector_size: usize, count: usize, image_len: usize, call: Call },
}

#[derive(Clone, Copy, PartialEq)]
enum Lengths {
    Small,
    Edges,
    Any,
    Fill,
    Mixed,
}

/// What a stretch of calls is like; all chances in thousandths.
struct Profile {
    lengths: Lengths,
    cut: usize,
    forged: usize,
    damage: usize,
    odd: usize,
    writes: usize,
    deletes: usize,
    reads: usize,
    mounts: usize,
    formats: usize,
    spin: usize,
    sweep: usize,
}

pub struct Generator {
    rng: Rng,
    trial: Model,
    max_image: usize,
    sector_size: usize,
    count: usize,
    calls_left: usize,
    first: Option<Call>,
    /// steps settled already
    queue: VecDeque<Step>,
    spin: usize,
    /// refusals 7 one after the other
    full: usize,
    /// reads of values still to come after a damage
    probe: usize,
    pool: Vec<u32>,
    profile: Profile,
}

/// A value length of this need.
fn length_of_need(rng: &mut Rng, need: usize) -> usize {
    if need <= 1 {
        rng.range(1, 8)
    } else {
        let most = (need - 1) * BLOCK;
        let least = if need == 2 { 9 } else { most - 15 };
        if rng.chance(500) {
            rng.pick(&[least, most])
        } else {
            rng.range(least, most)
        }
    }
}

/// A block that looks like an entry (close, lead) of this cycle, byte 0 right for its place.
pub fn forge(rng: &mut Rng, g: Geometry, cycle: u8, pool: &[u32]) -> Block {
    let id = if rng.chance(30) { RESERVED } else { rng.pick(pool) };
    if rng.chance(80) {
        // nearly an entry: a byte after the value (a deletion has none) is not FF
        let length = rng.below(8);
        let mut tail = model::small_tail(&[1, 2, 3, 4, 5, 6, 7][..length]);
        tail[rng.range(length, 7)] = rng.byte() & 0xFE;
        return model::entry(cycle, length as u16, id, tail);
    }
    match rng.below(10) {
        0 => model::close_or_done(cycle),
        1..=3 => model::deletion(cycle, id),
        4..=6 => {
            let length = rng.range(1, 8);
            let mut value = [0; 8];
            rng.fill(&mut value);
            model::entry(cycle, length as u16, id, model::small_tail(&value[..length]))
        }
        7 | 8 => {
            let need = rng.range(2, g.value_limit().max(2));
            let need = if rng.chance(600) { need.min(3) } else { need };
            let offset = if rng.chance(500) { 0 } else { BLOCK * rng.below(g.blocks.min(6)) };
            let length = length_of_need(rng, need);
            model::entry(cycle, length as u16, id, model::large_tail(offset, rng.word() as u32))
        }
        _ => model::lead(cycle),
    }
}

impl Generator {
    pub fn new(seed: u64, max_image: usize) -> Generator {
        let mut rng = Rng::new(seed);
        let profile = Generator::profile(&mut rng);
        Generator {
            rng,
            trial: Model::traced(),
            max_image: max_image.max(256),
            sector_size: 128,
            count: 2,
            calls_left: 0,
            first: None,
            queue: VecDeque::new(),
            spin: 0,
            full: 0,
            probe: 0,
            pool: vec![0],
            profile,
        }
    }

    fn profile(rng: &mut Rng) -> Profile {
        Profile {
            lengths: rng.pick(&[
                Lengths::Small,
                Lengths::Edges,
                Lengths::Any,
                Lengths::Fill,
                Lengths::Mixed,
                Lengths::Mixed,
            ]),
            cut: rng.pick(&[0, 20, 100, 300, 500]),
            forged: rng.pick(&[0, 0, 300, 700, 1000]),
            damage: rng.pick(&[0, 0, 0, 2, 20, 150]),
            odd: rng.pick(&[0, 5, 20]),
            writes: rng.pick(&[30, 60, 90]),
            deletes: rng.pick(&[1, 5, 30]),
            reads: rng.pick(&[5, 20, 40]),
            mounts: rng.pick(&[1, 5]),
            formats: rng.pick(&[0, 0, 1]),
            spin: rng.pick(&[0, 0, 20, 60]),
            sweep: rng.pick(&[0, 0, 5, 30]),
        }
    }

    fn sizes(&mut self) -> (usize, usize) {
        let rng = &mut self.rng;
        let step = |rng: &mut Rng, most: usize| 16 * rng.range(8, most / 16);
        let (sector_size, count) = match rng.below(2000) {
            0..=599 => (128, 2),
            600..=1099 => (step(rng, 256), rng.range(2, 4)),
            1100..=1499 => (step(rng, 512), rng.range(2, 8)),
            1500..=1799 => (step(rng, 1024), rng.range(2, 16)),
            1800..=1919 => (step(rng, 256), rng.range(2, 64)),
            1920..=1939 => (128, 64),
            1940..=1969 => (step(rng, 4096), rng.range(2, 4)),
            1970..=1984 => (step(rng, 16_384), rng.range(2, 8)),
            1985..=1989 => (step(rng, 65_536), rng.range(2, 12)),
            1990..=1996 => (65_536, rng.range(2, 4)),
            1997 => (65_536, 64),
            _ => (step(rng, 65_536), rng.range(2, 64)),
        };
        if sector_size * count > self.max_image {
            (128, 2)
        } else {
            (sector_size, count)
        }
    }

    fn geometry(&self) -> Geometry {
        Geometry::new(self.sector_size, self.count, self.sector_size * self.count).unwrap()
    }

    /// A cycle near this one: its own, or one of those coming.
    fn near(&mut self, cycle: u8) -> u8 {
        let step = self.rng.pick(&[0, 1, 1, 1, 1, 2, 255]);
        cycle.wrapping_add(step)
    }

    /// The start of a history: sizes, IDs, an image.
    fn start(&mut self) -> Step {
        (self.sector_size, self.count) = self.sizes();
        self.profile = Generator::profile(&mut self.rng);
        let len = self.sector_size * self.count;
        let rng = &mut self.rng;
        self.calls_left = match len {
            0..=256 => rng.pick(&[100, 300, 1000, 6000]),
            257..=4096 => rng.pick(&[50, 200, 600, 3000]),
            4097..=65_536 => rng.pick(&[30, 100, 300]),
            65_537..=1_048_576 => rng.pick(&[20, 60, 150]),
            _ => rng.pick(&[10, 30, 60]),
        };
        self.spin = 0;
        self.full = 0;
        self.probe = rng.pick(&[0, 2, 6]);
        let ids = rng.pick(&[1, 2, 3, 5, 8, 20, 60]);
        self.pool = (0..ids).map(|n| n as u32).collect();
        if rng.chance(500) {
            for id in self.pool.iter_mut() {
                *id = match rng.below(6) {
                    0 => RESERVED - 1,
                    1 => rng.word() as u32 & 0xFF,
                    2 => rng.below(4) as u32 * 0x0100_0000,
                    _ => (rng.word() as u32).min(RESERVED - 1),
                }
            }
        }
        self.first = None;
        let mut image = vec![0xFF; len];
        match rng.below(21) {
            20 if len <= 65_536 => {
                let length = rng.pick(&[1, 8, 9, 16, 17, 32]);
                image = full_image(self.sector_size, self.count, length).0;
                self.pool.push(0);
            }
            0..=7 => {
                self.noise(&mut image);
                self.first = Some(Call::Format { allowance: ENOUGH });
            }
            8 => {
                self.noise(&mut image);
                let due = len / BLOCK + 1;
                let allowance = self.rng.below(due + 1) as u32;
                self.first = Some(Call::Format { allowance });
            }
            9 => self.noise(&mut image),
            10..=17 => self.craft(&mut image),
            _ => {
                self.craft(&mut image);
                for (at, bytes) in self.damage(&image) {
                    image[at..at + BLOCK].copy_from_slice(&bytes);
                }
            }
        }
        Step::Start { sector_size: self.sector_size, count: self.count, image }
    }

    /// Bytes of no meaning, or blocks of a false one.
    fn noise(&mut self, image: &mut [u8]) {
        match self.rng.below(5) {
            0 => image.fill(0xFF),
            1 => image.fill(0),
            2 => self.rng.fill(image),
            _ => {
                let g = self.geometry();
                let cycle = self.rng.pick(&[0, 1, 1, 1, 255]);
                for block in image.chunks_mut(BLOCK) {
                    let cycle = self.near(cycle);
                    let forged = forge(&mut self.rng, g, cycle, &self.pool);
                    block.copy_from_slice(&forged);
                }
            }
        }
    }

    /// An image in one of the three states (mostly), its sectors filled at random.
    fn craft(&mut self, image: &mut [u8]) {
        let g = self.geometry();
        if self.rng.chance(700) {
            self.noise(image);
        }
        let base = self.rng.pick(&[0, 1, 2, 127, 254, 255]);
        let working = self.rng.below(g.sectors);
        let form = self.rng.below(10);
        let full = self.rng.chance(400);
        // nearly at rest: the spare is in use, or is not the successor
        let (used, spare) = (self.rng.chance(60), g.ahead(working, if self.rng.chance(60) { 2 } else { 1 }));
        for sector in 0..g.sectors {
            let cycle = if self.rng.chance(100) { self.rng.byte() } else { self.near(base) };
            // 'c'losed, 'w'orking, 'u'nfinished, 'e'mpty and unfinished
            let class = match form {
                0..=4 if sector == working => 'w',
                0..=4 if sector == spare && used => 'u',
                0..=4 if sector == spare => 'e',
                5 | 6 if sector == working => 'w',
                7 | 8 if sector == working => 'u',
                9 => self.rng.pick(&['c', 'c', 'c', 'w', 'u', 'e']),
                _ => 'c',
            };
            self.craft_sector(g, image, sector, cycle, class, full);
        }
    }

    fn craft_sector(&mut self, g: Geometry, image: &mut [u8], sector: usize, cycle: u8, class: char, full: bool) {
        let set = |image: &mut [u8], block: usize, bytes: &Block| {
            let at = g.place(sector, block);
            image[at..at + BLOCK].copy_from_slice(bytes);
        };
        set(image, g.lead_block(), &model::lead(cycle));
        let near = self.near(cycle);
        let close = match class {
            'c' => model::close_or_done(cycle),
            _ if near != cycle && self.rng.chance(700) => model::close_or_done(near),
            _ => BLANK,
        };
        set(image, g.close_block(), &close);
        let mut so_far = SoFar::default();
        let mut done = match class {
            'w' => true,
            'c' => self.rng.chance(500),
            _ => false,
        };
        let most = if class == 'e' || self.rng.chance(120) {
            0
        } else if full {
            g.blocks
        } else {
            self.rng.below(g.blocks)
        };
        let done_after = if self.rng.chance(600) { 0 } else { self.rng.below(most.max(1)) };
        loop {
            let block = so_far.next_block(g);
            let place_done = done && (so_far.entries >= done_after || so_far.needs + 2 >= g.value_limit());
            let (bytes, data) = if place_done {
                done = false;
                (model::close_or_done(cycle), vec![])
            } else if so_far.needs >= most {
                break;
            } else {
                let id = self.rng.pick(&self.pool);
                if self.rng.chance(150) || so_far.needs >= g.value_limit() {
                    (model::deletion(cycle, id), vec![])
                } else {
                    let mut most = g.value_limit() - so_far.needs;
                    if self.rng.chance(700) {
                        most = most.min(3);
                    }
                    let need = self.rng.range(1, most);
                    let length = length_of_need(&mut self.rng, need);
                    let mut value = vec![0; length];
                    self.rng.fill(&mut value);
                    if length <= 8 {
                        (model::entry(cycle, length as u16, id, model::small_tail(&value)), vec![])
                    } else {
                        let check = if self.rng.chance(50) { 0 } else { model::crc32(&value) };
                        let tail = model::large_tail(BLOCK * so_far.data, check);
                        (model::entry(cycle, length as u16, id, tail), value)
                    }
                }
            };
            let Some(entry) = model::look(g, &bytes, cycle, so_far) else { break };
            set(image, block, &bytes);
            for (n, part) in data.chunks(BLOCK).enumerate() {
                let mut padded = if self.rng.chance(900) { BLANK } else { [0; BLOCK] };
                padded[..part.len()].copy_from_slice(part);
                set(image, so_far.data + n, &padded);
            }
            so_far = so_far.with(entry);
        }
        // the block that ends the reading
        let block = so_far.next_block(g);
        let free = block >= so_far.data;
        if free && (class == 'e' || self.rng.chance(800)) {
            let cycle = cycle.wrapping_add(self.rng.pick(&[1, 1, 2, 255]));
            let bytes = if self.rng.chance(500) { BLANK } else { forge(&mut self.rng, g, cycle, &self.pool) };
            set(image, block, &bytes);
            if block > so_far.data && self.rng.chance(500) {
                let bytes = forge(&mut self.rng, g, cycle.wrapping_sub(1), &self.pool);
                set(image, block - 1, &bytes);
            }
        }
    }

    /// One to four blocks of the image to be set.
    fn damage(&mut self, image: &[u8]) -> Vec<(usize, Block)> {
        let g = self.geometry();
        let mut damage = vec![];
        for _ in 0..self.rng.pick(&[1, 1, 1, 2, 4]) {
            let sector = self.rng.below(g.sectors);
            let sums = model::sums(g, image, sector);
            let end = sums.next_block(g);
            let block = match self.rng.below(8) {
                0 => g.lead_block(),
                1 => g.close_block(),
                2 => g.first_entry_block(),
                3 => end,
                4 if end > 0 => end - 1,
                5 => self.rng.range(end, g.first_entry_block()),
                6 if sums.data > 0 => self.rng.below(sums.data),
                _ => self.rng.below(g.blocks),
            };
            let at = g.place(sector, block);
            let mut bytes = *g.block(image, sector, block);
            let cycle = g.block(image, sector, g.lead_block())[1];
            match self.rng.below(10) {
                0 => bytes[self.rng.below(BLOCK)] ^= 1 << self.rng.below(8),
                1 => self.rng.fill(&mut bytes),
                2 => bytes = BLANK,
                3 | 4 => {
                    let from = (self.rng.below(g.sectors), self.rng.below(g.blocks));
                    bytes = *g.block(image, from.0, from.1);
                    if self.rng.chance(500) {
                        bytes[1] = cycle;
                        bytes[0] = model::crc8(&bytes[1..]);
                    }
                }
                5 | 6 => {
                    // a field changed, byte 0 made right again
                    let field = if block == g.lead_block() {
                        self.rng.range(1, 15)
                    } else {
                        self.rng.pick(&[1, 2, 3, 4, 8, 9, 12, 15])
                    };
                    bytes[field] = match self.rng.below(3) {
                        0 => bytes[field].wrapping_add(1),
                        1 => bytes[field] ^ (1 << self.rng.below(8)),
                        _ => self.rng.byte(),
                    };
                    bytes[0] = model::crc8(&bytes[1..]);
                }
                7 => {
                    let cycle = self.near(cycle);
                    bytes = model::lead(cycle);
                }
                _ => {
                    let cycle = self.near(cycle);
                    bytes = forge(&mut self.rng, g, cycle, &self.pool);
                }
            }
            damage.push((at, bytes));
        }
        damage
    }

    fn id(&mut self) -> u32 {
        match self.rng.below(60) {
            0 => RESERVED,
            1 => self.rng.word() as u32,
            _ => self.rng.pick(&self.pool),
        }
    }

    /// An ID that holds a value, if there is one.
    fn live_id(&mut self, g: Geometry, image: &[u8], open: usize) -> u32 {
        let newest = model::newest_of_all(g, image, State::Rest { open });
        let mut live: Vec<u32> = newest.iter().filter(|(_, at)| at.2).map(|(id, _)| *id).collect();
        live.sort_unstable();
        if live.is_empty() {
            self.id()
        } else {
            self.rng.pick(&live)
        }
    }

    /// Told of each answer: a store that is full for long is emptied a little.
    pub fn note(&mut self, number: u32) {
        self.full = if number == NO_ROOM { self.full + 1 } else { 0 };
    }

    fn length(&mut self, g: Geometry, image: &[u8], open: usize) -> usize {
        let most = (g.value_limit() - 1) * BLOCK;
        let kind = match self.profile.lengths {
            Lengths::Mixed => self.rng.pick(&[Lengths::Small, Lengths::Edges, Lengths::Any, Lengths::Fill]),
            kind => kind,
        };
        match kind {
            Lengths::Small => self.rng.range(1, 8),
            Lengths::Edges => match self.rng.below(30) {
                0 => 0,
                1 => self.rng.pick(&[most + 1, most + 2, most + 17, 65_535, 65_536, 65_537, 65_544, 65_545]),
                2..=4 => most,
                5 => most - 15,
                6 => most - 16,
                _ => self.rng.pick(&[1, 7, 8, 9, 15, 16, 17, 31, 32]),
            },
            Lengths::Fill => {
                // what still fits in the open sector, or one more, or one less
                let rest = g.value_limit().saturating_sub(model::sums(g, image, open).needs);
                let need = (rest + self.rng.below(3)).saturating_sub(1).clamp(1, g.value_limit());
                length_of_need(&mut self.rng, need)
            }
            _ => self.rng.range(1, most),
        }
    }

    fn value(&mut self, g: Geometry, image: &[u8], open: usize) -> Vec<u8> {
        let length = self.length(g, image, open);
        let mut value = vec![0; length];
        self.rng.fill(&mut value);
        if self.rng.chance(self.profile.forged) {
            let sector = g.ahead(open, self.rng.below(2));
            let cycle = g.block(image, sector, g.lead_block())[1];
            let cycle = self.near(cycle);
            for part in value.chunks_mut(BLOCK) {
                let forged = forge(&mut self.rng, g, cycle, &self.pool);
                part.copy_from_slice(&forged[..part.len()]);
            }
        } else if self.rng.chance(100) {
            let fill = self.rng.pick(&[0xFF, 0]);
            value.fill(fill);
        }
        value
    }

    /// The call with an allowance: enough mostly, else from 0 to just above the stores due.
    fn with_allowance(&mut self, image: &[u8], cut: usize, make: impl Fn(u32) -> Call) -> Call {
        if !self.rng.chance(cut) {
            return make(ENOUGH);
        }
        let mut copy = image.to_vec();
        let answer = make(ENOUGH).make(&mut self.trial, &mut copy, self.sector_size, self.count, &mut []);
        let due = answer.stores as usize;
        let allowance = match self.rng.below(4) {
            0 => due,
            1 => self.rng.below(due.min(6) + 1),
            _ => self.rng.below(due + 2),
        };
        make(allowance as u32)
    }

    /// A call told with other sizes than the image's.
    fn odd(&mut self, call: Call) -> Step {
        let (mut sector_size, mut count) = (self.sector_size, self.count);
        let mut image_len = sector_size * count;
        match self.rng.below(11) {
            0 => sector_size = self.rng.pick(&[0, 16, 112, 136, 65_552, usize::MAX - 15, sector_size + 8]),
            8..=10 => {
                // sizes just beyond the legal ones, with an image length that fits them
                let (s, c) = if image_len >= 65 * 128 && self.rng.chance(800) {
                    self.rng.pick(&[(128, 65), (65_552, 2)])
                } else {
                    self.rng.pick(&[(112, 2), (120, 2), (128, 1), (256, 1), (136, 2)])
                };
                if s * c <= image_len {
                    (sector_size, count, image_len) = (s, c, s * c);
                } else {
                    image_len -= 1;
                }
            }
            1 => count = self.rng.pick(&[0, 1, 65, usize::MAX]),
            2 => image_len -= self.rng.pick(&[1, 8, 16, 128]),
            3 => image_len = 0,
            4 => {
                sector_size /= 2;
                count *= 2;
            }
            5 => {
                sector_size *= 2;
                count /= 2;
            }
            6 => {
                count -= 1;
                image_len -= sector_size;
            }
            _ => count += 1,
        }
        Step::Call { sector_size, count, image_len, call }
    }

    /// The call; sometimes with every allowance below its stores first, each taken back: so
    /// the order of the stores is seen one by one.
    fn swept(&mut self, image: &[u8], call: Call) -> Step {
        let sweep = self.profile.sweep;
        if image.len() > 8192 || !self.rng.chance(sweep) {
            return self.call(call);
        }
        let with = |allowance: u32| match call.clone() {
            Call::Mount { .. } => Some(Call::Mount { allowance }),
            Call::Write { id, value, .. } => Some(Call::Write { id, value, allowance }),
            Call::Delete { id, .. } => Some(Call::Delete { id, allowance }),
            _ => None,
        };
        let Some(whole) = with(ENOUGH) else {
            return self.call(call);
        };
        let g = self.geometry();
        let mut copy = image.to_vec();
        whole.make(&mut self.trial, &mut copy, self.sector_size, self.count, &mut []);
        let mut back = vec![];
        for (n, made) in self.trial.trace.iter().enumerate().take(80) {
            let step = self.call(with(n as u32).unwrap());
            self.queue.push_back(step);
            self.queue.push_back(Step::Back(back.clone()));
            back.push((g.place(made.sector, made.block), *g.block(image, made.sector, made.block)));
        }
        let step = self.call(whole);
        self.queue.push_back(step);
        self.queue.pop_front().unwrap()
    }

    fn call(&self, call: Call) -> Step {
        let image_len = self.sector_size * self.count;
        Step::Call { sector_size: self.sector_size, count: self.count, image_len, call }
    }

    /// The next step, given the image as it stands.
    pub fn next(&mut self, image: &[u8]) -> Step {
        if let Some(step) = self.queue.pop_front() {
            return step;
        }
        if self.calls_left == 0 {
            return self.start();
        }
        self.calls_left -= 1;
        if let Some(first) = self.first.take() {
            return self.call(first);
        }
        if self.spin > 0 {
            self.spin -= 1;
            let allowance = if self.rng.chance(20) { 2 } else { 1 };
            return self.call(Call::Mount { allowance });
        }
        let g = self.geometry();
        if self.rng.chance(self.profile.damage) {
            self.probe = self.rng.pick(&[0, 1, 4]);
            return Step::Damage(self.damage(image));
        }
        let state = model::state(g, image);
        let cut = self.profile.cut;
        match state {
            Some(State::Rest { open }) => {
                let p = &self.profile;
                let shares = [p.writes, p.deletes, p.reads, p.mounts, p.formats];
                let mut dice = self.rng.below(shares.iter().sum());
                let mut kind = 0;
                while dice >= shares[kind] {
                    dice -= shares[kind];
                    kind += 1;
                }
                let call = if self.probe > 0 {
                    self.probe -= 1;
                    let id = self.live_id(g, image, open);
                    let room = self.sector_size;
                    let buffer = if self.rng.chance(300) { self.rng.below(17) } else { room };
                    Call::Read { id, buffer }
                } else if self.full > 0 && self.rng.chance(300 * self.full.min(3)) {
                    let id = self.live_id(g, image, open);
                    self.with_allowance(image, cut, |allowance| Call::Delete { id, allowance })
                } else {
                    match kind {
                        0 => {
                            let (id, value) = (self.id(), self.value(g, image, open));
                            let call = |allowance| Call::Write { id, value: value.clone(), allowance };
                            self.with_allowance(image, cut, call)
                        }
                        1 => {
                            let id = if self.rng.chance(600) { self.live_id(g, image, open) } else { self.id() };
                            self.with_allowance(image, cut, |allowance| Call::Delete { id, allowance })
                        }
                        2 => self.read_call(),
                        3 => self.with_allowance(image, 300, |allowance| Call::Mount { allowance }),
                        _ => self.with_allowance(image, 300, |allowance| Call::Format { allowance }),
                    }
                };
                if self.rng.chance(self.profile.odd * if image.len() >= 65 * 128 { 3 } else { 1 }) {
                    return self.odd(call);
                }
                self.swept(image, call)
            }
            Some(state) => {
                let mid_turn = matches!(state, State::MidTurn { .. });
                if mid_turn && image.len() <= 1024 && self.rng.chance(self.profile.spin) {
                    self.spin = self.rng.range(240, 540);
                }
                let call = match self.rng.below(20) {
                    0 => self.read_call(),
                    1 => {
                        let id = self.id();
                        let length = self.rng.range(1, 20);
                        Call::Write { id, value: vec![0x55; length], allowance: ENOUGH }
                    }
                    2 => Call::Delete { id: self.id(), allowance: ENOUGH },
                    _ => self.with_allowance(image, cut.max(100), |allowance| Call::Mount { allowance }),
                };
                self.swept(image, call)
            }
            None => {
                let call = match self.rng.below(10) {
                    0 => self.read_call(),
                    1 => Call::Write { id: self.id(), value: vec![1, 2, 3], allowance: ENOUGH },
                    2 => Call::Delete { id: self.id(), allowance: ENOUGH },
                    3 => Call::Mount { allowance: ENOUGH },
                    4 | 5 => self.with_allowance(image, 300, |allowance| Call::Format { allowance }),
                    _ => {
                        self.calls_left = 0;
                        return self.start();
                    }
                };
                self.call(call)
            }
        }
    }

    fn read_call(&mut self) -> Call {
        let id = self.id();
        let buffer = match self.rng.below(6) {
            0 => self.rng.pick(&[0, 1, 7, 8, 9, 15, 16, 17]),
            1 => self.rng.below(64),
            _ => self.sector_size,
        };
        Call::Read { id, buffer }
    }
}

/// A full image at rest, as `count`-1 sectors' worth of new IDs of this length, written one
/// after the other into a fresh store, would leave it (IDs from 0 up). Built at one go, since
/// writing them takes time square in the size.
pub fn full_image(sector_size: usize, count: usize, length: usize) -> (Vec<u8>, u32) {
    let mut image = vec![0xFF; sector_size * count];
    let g = Geometry::new(sector_size, count, image.len()).expect("legal sizes");
    let mut id = 0u32;
    for sector in 0..count {
        let cycle = if sector < 2 { 1 } else { 2 };
        let put = |image: &mut [u8], block: usize, bytes: &[u8]| {
            let at = g.place(sector, block);
            image[at..at + bytes.len()].copy_from_slice(bytes);
        };
        put(&mut image, g.lead_block(), &model::lead(cycle));
        if sector >= 2 {
            // the format's close, of cycle 1, stays until this sector is closed
            put(&mut image, g.close_block(), &model::close_or_done(1));
        }
        if sector == count - 1 {
            break;
        }
        if sector < count - 2 {
            put(&mut image, g.close_block(), &model::close_or_done(cycle));
        }
        put(&mut image, g.first_entry_block(), &model::close_or_done(cycle));
        let mut so_far = SoFar::default().with(Entry::Done);
        while so_far.needs + model::need(length) <= g.value_limit() {
            let value = value_of(id, length);
            let tail = if length <= 8 {
                model::small_tail(&value)
            } else {
                put(&mut image, so_far.data, &value);
                model::large_tail(BLOCK * so_far.data, model::crc32(&value))
            };
            put(&mut image, so_far.next_block(g), &model::entry(cycle, length as u16, id, tail));
            so_far = so_far.with(Entry::Value { id, length });
            id += 1;
        }
    }
    (image, id)
}

/// The bytes that `full_image` keeps under an ID.
pub fn value_of(id: u32, length: usize) -> Vec<u8> {
    let mut value = vec![0; length];
    Rng::new(id as u64).fill(&mut value);
    value
}
