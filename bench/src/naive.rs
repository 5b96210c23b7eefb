//! A second program of document 01, as naive as can be, to hold the first against.
//!
//! It shares nothing with `model` but the trait: check sums bit by bit; the whole image taken
//! apart into lists at every question; "newest" by looking through everything that comes
//! later; and a call works out *all* its stores on a copy of the image first, then puts the
//! first so many of them into the lent one.

use crate::store::{Answer, Store};

fn crc8(bytes: &[u8]) -> u8 {
    let mut c = 0u8;
    for b in bytes {
        for bit in (0..8).rev() {
            let top = (c >> 7) ^ ((b >> bit) & 1);
            c <<= 1;
            if top == 1 {
                c ^= 7;
            }
        }
    }
    c
}

fn crc32(bytes: &[u8]) -> u32 {
    let mut c = u32::MAX;
    for b in bytes {
        for bit in 0..8 {
            let low = (c ^ (*b as u32 >> bit)) & 1;
            c >>= 1;
            if low == 1 {
                c ^= 0xEDB88320;
            }
        }
    }
    c ^ u32::MAX
}

fn number(bytes: &[u8]) -> u64 {
    bytes.iter().rev().fold(0, |n, b| n * 256 + *b as u64)
}

/// An entry of a sector, with what the reading knew when it took it.
#[derive(Clone, PartialEq)]
struct Item {
    block: i64,
    id: u64,
    length: u64,
    need: i64,
    offset: i64,
    bytes: Vec<u8>,
}

const NOBODY: u64 = 0xFFFF_FFFF;

impl Item {
    fn is_done(&self) -> bool {
        self.id == NOBODY
    }
    fn is_value(&self) -> bool {
        self.length > 0
    }
}

#[derive(Clone)]
struct Sector {
    lead: bool,
    closed: bool,
    items: Vec<Item>,
}

impl Sector {
    fn done(&self) -> bool {
        self.items.iter().any(Item::is_done)
    }
    fn needs(&self) -> i64 {
        self.items.iter().map(|i| i.need).sum()
    }
}

/// A copy of an image, and the stores made to it so far.
#[derive(Clone)]
struct Desk {
    b: i64,
    s: i64,
    bytes: Vec<u8>,
    stores: Vec<(usize, Vec<u8>)>,
}

fn entry(cycle: u8, length: u64, id: u64, rest: &[u8]) -> Vec<u8> {
    let mut e = vec![cycle];
    e.extend(&length.to_le_bytes()[..2]);
    e.extend(&id.to_le_bytes()[..4]);
    e.extend(rest);
    e.resize(15, 0xFF);
    e.insert(0, crc8(&e));
    e
}

fn lead(cycle: u8) -> Vec<u8> {
    entry(cycle, 0xFFFF, NOBODY, &[0, 0, 0, 0, 1, 0x42, 0, 0])
}

impl Desk {
    fn new(image: &[u8], sector_size: usize, count: usize) -> Option<Desk> {
        if !sector_size.is_multiple_of(16) || !(128..=65536).contains(&sector_size) {
            return None;
        }
        if !(2..=64).contains(&count) || image.len() != count * sector_size {
            return None;
        }
        Some(Desk { b: sector_size as i64 / 16, s: count as i64, bytes: image.to_vec(), stores: vec![] })
    }

    fn at(&self, sector: i64, block: i64) -> &[u8] {
        let from = ((sector.rem_euclid(self.s) * self.b + block) * 16) as usize;
        &self.bytes[from..from + 16]
    }

    fn put(&mut self, sector: i64, block: i64, what: Vec<u8>) {
        let from = ((sector.rem_euclid(self.s) * self.b + block) * 16) as usize;
        self.bytes[from..from + 16].copy_from_slice(&what);
        self.stores.push((from, what));
    }

    fn cycle(&self, sector: i64) -> u8 {
        self.at(sector, self.b - 1)[1]
    }

    /// The entry these bytes would be, after `before`, under `cycle`.
    fn taken(&self, bytes: &[u8], cycle: u8, before: &[Item], block: i64) -> Option<Item> {
        let (length, id) = (number(&bytes[2..4]), number(&bytes[4..8]));
        let blocks = if length > 8 { (length as i64 + 15) / 16 } else { 0 };
        let offset: i64 = 16 * before.iter().filter(|i| i.is_value()).map(|i| i.need - 1).sum::<i64>();
        let sum: i64 = before.iter().map(|i| i.need).sum();
        let all_ff_from = |n: usize| bytes[n..].iter().all(|x| *x == 0xFF);
        let (right, need, most) = match (id, length) {
            (NOBODY, 0) => (all_ff_from(8) && !before.iter().any(Item::is_done), 0, i64::MAX),
            (NOBODY, _) => (false, 0, 0),
            (_, 0) => (all_ff_from(8), 1, self.b - 4),
            (_, 1..=8) => (all_ff_from(8 + length as usize), 1, self.b - 5),
            (_, _) => (number(&bytes[8..12]) as i64 == offset, 1 + blocks, self.b - 5),
        };
        if right && sum + need <= most && bytes[1] == cycle && bytes[0] == crc8(&bytes[1..]) {
            Some(Item { block, id, length, need, offset, bytes: bytes.to_vec() })
        } else {
            None
        }
    }

    fn items(&self, sector: i64) -> Vec<Item> {
        let mut items = vec![];
        for block in (0..self.b - 2).rev() {
            match self.taken(self.at(sector, block), self.cycle(sector), &items, block) {
                Some(item) => items.push(item),
                None => break,
            }
        }
        items
    }

    fn sector(&self, sector: i64) -> Sector {
        let cycle = self.cycle(sector);
        Sector {
            lead: self.at(sector, self.b - 1) == lead(cycle),
            closed: self.at(sector, self.b - 2) == entry(cycle, 0, NOBODY, &[]),
            items: self.items(sector),
        }
    }

    /// 'r'est, 'd'one not reopened or 'm'id-turn, with the working (unfinished) sector.
    fn state(&self) -> Option<(char, i64)> {
        let all: Vec<Sector> = (0..self.s).map(|n| self.sector(n)).collect();
        if !all.iter().all(|x| x.lead) {
            return None;
        }
        let open: Vec<i64> = (0..self.s).filter(|n| !all[*n as usize].closed).collect();
        match open[..] {
            [one] if all[one as usize].done() => Some(('d', one)),
            [one] => Some(('m', one)),
            [x, y] => {
                for (one, other) in [(x, y), (y, x)] {
                    let next = (one + 1) % self.s == other;
                    if next && all[one as usize].done() && all[other as usize].items.is_empty() {
                        return Some(('r', one));
                    }
                }
                None
            }
            _ => None,
        }
    }

    /// Everything that counts, oldest first: `newest` is the newest sector, `n` of them.
    fn line(&self, newest: i64, n: i64) -> Vec<(i64, Item)> {
        let mut line = vec![];
        for back in (0..n).rev() {
            let sector = (newest - back).rem_euclid(self.s);
            line.extend(self.items(sector).into_iter().map(|i| (sector, i)));
        }
        line
    }

    /// The live values of a sector, oldest first.
    fn live(line: &[(i64, Item)], sector: i64) -> Vec<Item> {
        let mut live = vec![];
        for (n, (its, item)) in line.iter().enumerate() {
            let last = line[n + 1..].iter().all(|(_, later)| later.id != item.id);
            if *its == sector && item.is_value() && last {
                live.push(item.clone());
            }
        }
        live
    }

    fn append(&mut self, sector: i64, id: u64, length: u64, rest: &[u8], data: Vec<Vec<u8>>) {
        let items = self.items(sector);
        let place = self.b - 3 - items.len() as i64;
        let first: i64 = items.iter().filter(|i| i.is_value()).map(|i| i.need - 1).sum();
        for (n, part) in data.into_iter().enumerate() {
            self.put(sector, first + n as i64, part);
        }
        let mut rest = rest.to_vec();
        if length > 8 {
            rest[..4].copy_from_slice(&(16 * first as u32).to_le_bytes());
        }
        let cycle = self.cycle(sector);
        let bytes = entry(cycle, length, id, &rest);
        let mut then = items.clone();
        then.push(self.taken(&bytes, cycle, &items, place).expect("what is appended reads as an entry"));
        if self.taken(self.at(sector, place - 1), cycle, &then, place - 1).is_some() {
            self.put(sector, place - 1, vec![0xFF; 16]);
        }
        self.put(sector, place, bytes);
    }

    fn reopen(&mut self, sector: i64) {
        let cycle = ((self.cycle(sector) as u16 + 1) % 256) as u8;
        if self.at(sector, self.b - 2) == entry(cycle, 0, NOBODY, &[]) {
            self.put(sector, self.b - 2, vec![0xFF; 16]);
        }
        if self.taken(self.at(sector, self.b - 3), cycle, &[], self.b - 3).is_some() {
            self.put(sector, self.b - 3, vec![0xFF; 16]);
        }
        self.put(sector, self.b - 1, lead(cycle));
    }

    fn copies(&mut self, to: i64) {
        let from = (to + 1) % self.s;
        let line = self.line(to - 1, self.s - 1);
        for item in Self::live(&line, from) {
            let data = (0..item.need - 1).map(|n| self.at(from, item.offset / 16 + n).to_vec()).collect();
            self.append(to, item.id, item.length, &item.bytes[8..], data);
        }
        self.append(to, NOBODY, 0, &[], vec![]);
        self.reopen(from);
    }

    fn turn(&mut self, n: i64) {
        let close = entry(self.cycle(n), 0, NOBODY, &[]);
        self.put(n, self.b - 2, close);
        self.copies((n + 1) % self.s);
    }

    /// The first so many stores into the lent image, and the answer.
    fn give(&self, image: &mut [u8], allowance: u32, turns: i64) -> Answer {
        for (at, what) in self.stores.iter().take(allowance as usize) {
            image[*at..*at + 16].copy_from_slice(what);
        }
        if (allowance as usize) < self.stores.len() {
            Answer { number: 11, stores: allowance, turns: 0, length: 0 }
        } else {
            Answer { number: 0, stores: self.stores.len() as u32, turns: turns as u32, length: 0 }
        }
    }

    fn change(mut self, image: &mut [u8], open: i64, id: u64, value: &[u8], allowance: u32) -> Answer {
        let own = if value.len() > 8 { 1 + (value.len() as i64 + 15) / 16 } else { 1 };
        let most = if value.is_empty() { self.b - 4 } else { self.b - 5 };
        let line = self.line(open, self.s - 1);
        let fits = |t: i64| {
            let there: i64 = if t == 0 {
                self.sector(open).needs()
            } else {
                Self::live(&line, (open + 1 + t) % self.s).iter().map(|i| i.need).sum()
            };
            there + own <= most
        };
        let Some(turns) = (0..self.s).find(|t| fits(*t)) else {
            return Answer { number: 7, ..Answer::default() };
        };
        for t in 0..turns {
            self.turn((open + t) % self.s);
        }
        let (rest, data) = if value.len() > 8 {
            let mut rest = vec![0; 4];
            rest.extend(crc32(value).to_le_bytes());
            let data = value.chunks(16).map(|c| [c, &[0xFF; 16]].concat()[..16].to_vec()).collect();
            (rest, data)
        } else {
            (value.to_vec(), vec![])
        };
        let rest = [&rest[..], &[0xFF; 8]].concat()[..8].to_vec();
        self.append((open + turns) % self.s, id, value.len() as u64, &rest, data);
        self.give(image, allowance, turns)
    }
}

pub struct Naive;

fn no(number: u32) -> Answer {
    Answer { number, ..Answer::default() }
}

impl Store for Naive {
    fn name(&self) -> String {
        "naive".into()
    }

    fn format(&mut self, image: &mut [u8], sector_size: usize, count: usize, allowance: u32) -> Answer {
        let Some(mut desk) = Desk::new(image, sector_size, count) else { return no(1) };
        let (b, s) = (desk.b, desk.s);
        let mut last = vec![vec![0xFF; 16]; (s * b) as usize];
        for n in 0..s {
            last[(n * b + b - 1) as usize] = lead(1);
            if n >= 2 {
                last[(n * b + b - 2) as usize] = entry(1, 0, NOBODY, &[]);
            }
        }
        last[b as usize - 3] = entry(1, 0, NOBODY, &[]);
        desk.put(0, b - 1, vec![0xFF; 16]);
        for n in (0..s * b).filter(|n| *n != b - 1) {
            desk.put(n / b, n % b, last[n as usize].clone());
        }
        desk.put(0, b - 1, lead(1));
        desk.give(image, allowance, 0)
    }

    fn mount(&mut self, image: &mut [u8], sector_size: usize, count: usize, allowance: u32) -> Answer {
        let Some(mut desk) = Desk::new(image, sector_size, count) else { return no(1) };
        let turns = match desk.state() {
            None => return no(2),
            Some(('r', _)) => 0,
            Some(('d', working)) => {
                desk.reopen((working + 1) % desk.s);
                0
            }
            Some((_, unfinished)) => {
                desk.reopen(unfinished);
                desk.copies(unfinished);
                1
            }
        };
        desk.give(image, allowance, turns)
    }

    fn read(&mut self, image: &[u8], sector_size: usize, count: usize, id: u32, buffer: &mut [u8]) -> Answer {
        let Some(desk) = Desk::new(image, sector_size, count) else { return no(1) };
        if id == u32::MAX {
            return no(4);
        }
        let open = match desk.state() {
            None => return no(2),
            Some(('r', open)) => open,
            Some(_) => return no(3),
        };
        let line = desk.line(open, desk.s - 1);
        let Some((sector, item)) = line.iter().rev().find(|(_, i)| i.id == id as u64) else { return no(8) };
        if !item.is_value() {
            return no(8);
        }
        let length = item.length as usize;
        if length > buffer.len() {
            return Answer { length: length as u32, ..no(10) };
        }
        let value = if length <= 8 {
            item.bytes[8..8 + length].to_vec()
        } else {
            let from = (sector * desk.b * 16 + item.offset) as usize;
            let value = desk.bytes[from..from + length].to_vec();
            if crc32(&value) as u64 != number(&item.bytes[12..]) {
                return no(9);
            }
            value
        };
        buffer[..length].copy_from_slice(&value);
        Answer { length: length as u32, ..no(0) }
    }

    fn write(
        &mut self,
        image: &mut [u8],
        sector_size: usize,
        count: usize,
        id: u32,
        value: &[u8],
        allowance: u32,
    ) -> Answer {
        let Some(desk) = Desk::new(image, sector_size, count) else { return no(1) };
        if id == u32::MAX {
            return no(4);
        }
        if value.is_empty() {
            return no(5);
        }
        if value.len() > 8 && 1 + (value.len() as i64 + 15) / 16 > desk.b - 5 {
            return no(6);
        }
        match desk.state() {
            None => no(2),
            Some(('r', open)) => desk.change(image, open, id as u64, value, allowance),
            Some(_) => no(3),
        }
    }

    fn delete(&mut self, image: &mut [u8], sector_size: usize, count: usize, id: u32, allowance: u32) -> Answer {
        let Some(desk) = Desk::new(image, sector_size, count) else { return no(1) };
        if id == u32::MAX {
            return no(4);
        }
        let open = match desk.state() {
            None => return no(2),
            Some(('r', open)) => open,
            Some(_) => return no(3),
        };
        let line = desk.line(open, desk.s - 1);
        match line.iter().rev().find(|(_, i)| i.id == id as u64) {
            Some((_, item)) if item.is_value() => desk.change(image, open, id as u64, &[], allowance),
            _ => no(8),
        }
    }
}
