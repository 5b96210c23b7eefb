//! Document 01 in plain Rust, a function a rule, written from the paper.
//!
//! Straightforward, not clever: a sector is read entry by entry; what is live is found with
//! one hash map over the newest entries (or, in the lean model, by searching, without a heap);
//! stores go straight into the lent image and stop where the allowance ends. Each function
//! carries the paper's words for what it does.

use crate::store::*;
use std::collections::HashMap;

/// "A sector is B blocks of 16 bytes."
pub const BLOCK: usize = 16;
/// The reserved ID.
pub const RESERVED: u32 = 0xFFFF_FFFF;

pub type Block = [u8; BLOCK];

/// "*Blank* is sixteen bytes FF."
pub const BLANK: Block = [0xFF; BLOCK];

// ---------------------------------------------------------------------------------------
// Check sums

const CRC8: [u8; 256] = {
    let mut table = [0u8; 256];
    let mut i = 0;
    while i < 256 {
        let mut c = i as u8;
        let mut bit = 0;
        while bit < 8 {
            c = if c & 0x80 != 0 { (c << 1) ^ 0x07 } else { c << 1 };
            bit += 1;
        }
        table[i] = c;
        i += 1;
    }
    table
};

/// "polynomial 07, start 0, not reflected, no final xor (check value of "123456789": F4)".
pub fn crc8(bytes: &[u8]) -> u8 {
    bytes.iter().fold(0, |c, b| CRC8[(c ^ b) as usize])
}

const CRC32: [u32; 256] = {
    let mut table = [0u32; 256];
    let mut i = 0;
    while i < 256 {
        let mut c = i as u32;
        let mut bit = 0;
        while bit < 8 {
            c = if c & 1 != 0 { (c >> 1) ^ 0xEDB8_8320 } else { c >> 1 };
            bit += 1;
        }
        table[i] = c;
        i += 1;
    }
    table
};

/// "CRC-32 is the common IEEE one (check value CBF43926)."
pub fn crc32(bytes: &[u8]) -> u32 {
    !bytes.iter().fold(!0u32, |c, b| CRC32[((c ^ *b as u32) & 0xFF) as usize] ^ (c >> 8))
}

// ---------------------------------------------------------------------------------------
// The ground

/// Sizes that passed the check: B blocks a sector, S sectors.
#[derive(Clone, Copy, Debug, PartialEq, Eq)]
pub struct Geometry {
    pub blocks: usize,
    pub sectors: usize,
}

impl Geometry {
    /// "Sector size is a multiple of 16, from 128 to 65,536 bytes. There are S sectors, 2 to
    /// 64. The image is exactly S x B x 16 bytes."
    pub fn new(sector_size: usize, count: usize, image_len: usize) -> Option<Geometry> {
        let sizes = sector_size.is_multiple_of(BLOCK) && (128..=65_536).contains(&sector_size);
        let counts = (2..=64).contains(&count);
        if sizes && counts && image_len == sector_size * count {
            Some(Geometry { blocks: sector_size / BLOCK, sectors: count })
        } else {
            None
        }
    }
    /// "Block B-1 is the lead."
    pub fn lead_block(self) -> usize {
        self.blocks - 1
    }
    /// "B-2 the close."
    pub fn close_block(self) -> usize {
        self.blocks - 2
    }
    /// "Entries go down from block B-3."
    pub fn first_entry_block(self) -> usize {
        self.blocks - 3
    }
    /// "A value entry counts only if the needs so far in this sector, its own included, are
    /// at most B-5."
    pub fn value_limit(self) -> usize {
        self.blocks - 5
    }
    /// "a deletion, at most B-4."
    pub fn deletion_limit(self) -> usize {
        self.blocks - 4
    }
    /// "in a ring: after S-1 comes 0": the sector so many further on.
    pub fn ahead(self, sector: usize, steps: usize) -> usize {
        (sector + steps) % self.sectors
    }
    /// Where a block's bytes begin in the image.
    pub fn place(self, sector: usize, block: usize) -> usize {
        (sector * self.blocks + block) * BLOCK
    }
    pub fn block(self, image: &[u8], sector: usize, block: usize) -> &Block {
        let at = self.place(sector, block);
        image[at..at + BLOCK].try_into().unwrap()
    }
}

/// "A value longer than 8 takes length/16 data blocks, rounded up."
pub fn data_blocks(length: usize) -> usize {
    if length > 8 {
        length.div_ceil(BLOCK)
    } else {
        0
    }
}

/// "*Need* of a value is 1 plus its data blocks; of a deletion 1."
pub fn need(length: usize) -> usize {
    1 + data_blocks(length)
}

// ---------------------------------------------------------------------------------------
// The entry, little-endian

/// The sixteen bytes from their fields, byte 0 being the CRC-8 of bytes 1 to 15.
pub fn entry(cycle: u8, length: u16, id: u32, tail: [u8; 8]) -> Block {
    let mut b = BLANK;
    b[1] = cycle;
    b[2..4].copy_from_slice(&length.to_le_bytes());
    b[4..8].copy_from_slice(&id.to_le_bytes());
    b[8..16].copy_from_slice(&tail);
    b[0] = crc8(&b[1..]);
    b
}

/// "Lead: ID FFFFFFFF, length FFFF, bytes 8-11 zero, bytes 12-15 the number 00004201."
pub fn lead(cycle: u8) -> Block {
    entry(cycle, 0xFFFF, RESERVED, [0, 0, 0, 0, 0x01, 0x42, 0, 0])
}

/// "Close: the sector's cycle, ID FFFFFFFF, length 0, bytes 8-15 FF."
/// "Done: the same bytes as close, but in an entry block."
pub fn close_or_done(cycle: u8) -> Block {
    entry(cycle, 0, RESERVED, [0xFF; 8])
}

/// "Deletion: sector's cycle, other ID, length 0, bytes 8-15 FF."
pub fn deletion(cycle: u8, id: u32) -> Block {
    entry(cycle, 0, id, [0xFF; 8])
}

/// Bytes 8-15: "value of 1 to 8 bytes, then FF".
pub fn small_tail(value: &[u8]) -> [u8; 8] {
    let mut tail = [0xFF; 8];
    tail[..value.len()].copy_from_slice(value);
    tail
}

/// Bytes 8-15: "data offset (4) and CRC-32 of the value (4)".
pub fn large_tail(offset: usize, check: u32) -> [u8; 8] {
    let mut tail = [0; 8];
    tail[..4].copy_from_slice(&(offset as u32).to_le_bytes());
    tail[4..].copy_from_slice(&check.to_le_bytes());
    tail
}

fn cycle_of(b: &Block) -> u8 {
    b[1]
}
fn length_of(b: &Block) -> usize {
    u16::from_le_bytes([b[2], b[3]]) as usize
}
fn id_of(b: &Block) -> u32 {
    u32::from_le_bytes([b[4], b[5], b[6], b[7]])
}
fn tail_of(b: &Block) -> [u8; 8] {
    b[8..16].try_into().unwrap()
}
fn offset_of(b: &Block) -> usize {
    u32::from_le_bytes([b[8], b[9], b[10], b[11]]) as usize
}
fn check_of(b: &Block) -> u32 {
    u32::from_le_bytes([b[12], b[13], b[14], b[15]])
}
/// "Kinds, each also needing a right byte 0."
fn right_byte_0(b: &Block) -> bool {
    b[0] == crc8(&b[1..])
}

/// The cycle of a right lead. "Its cycle byte is the sector's cycle."
pub fn lead_cycle(b: &Block) -> Option<u8> {
    if *b == lead(cycle_of(b)) {
        Some(cycle_of(b))
    } else {
        None
    }
}

/// Whether this block, standing in B-2, is the close of a sector of this cycle.
pub fn is_close(b: &Block, cycle: u8) -> bool {
    *b == close_or_done(cycle)
}

// ---------------------------------------------------------------------------------------
// Reading a sector

/// How far the reading of a sector has come: what the entries so far add up to.
#[derive(Clone, Copy, Debug, Default, PartialEq, Eq)]
pub struct SoFar {
    /// entries taken, done included
    pub entries: usize,
    /// data blocks of the values taken
    pub data: usize,
    /// needs so far; "Done costs nothing in this sum."
    pub needs: usize,
    /// "at most one a sector"
    pub done: bool,
}

#[derive(Clone, Copy, Debug, PartialEq, Eq)]
pub enum Entry {
    Done,
    Deletion { id: u32 },
    Value { id: u32, length: usize },
}

impl SoFar {
    /// The sums with one more entry taken.
    pub fn with(self, entry: Entry) -> SoFar {
        let mut s = self;
        s.entries += 1;
        match entry {
            Entry::Done => s.done = true,
            Entry::Deletion { .. } => s.needs += 1,
            Entry::Value { length, .. } => {
                s.needs += need(length);
                s.data += data_blocks(length);
            }
        }
        s
    }
    /// The block the next entry stands in.
    pub fn next_block(self, g: Geometry) -> usize {
        g.first_entry_block() - self.entries
    }
}

/// The look at a block: is it an entry by the rules, under this cycle, after these entries?
pub fn look(g: Geometry, b: &Block, cycle: u8, so_far: SoFar) -> Option<Entry> {
    if cycle_of(b) != cycle || !right_byte_0(b) {
        return None;
    }
    let (id, length, tail) = (id_of(b), length_of(b), tail_of(b));
    if length == 0 {
        if tail != [0xFF; 8] {
            return None;
        }
        if id == RESERVED {
            return if so_far.done { None } else { Some(Entry::Done) };
        }
        if so_far.needs + 1 > g.deletion_limit() {
            return None;
        }
        return Some(Entry::Deletion { id });
    }
    if id == RESERVED {
        return None;
    }
    if length <= 8 {
        // "The FF after a short value is part of the rule."
        if tail[length..].iter().any(|x| *x != 0xFF) {
            return None;
        }
    } else if offset_of(b) != BLOCK * so_far.data {
        // "its offset is exactly 16 times the data blocks of the entries before it"
        return None;
    }
    if so_far.needs + need(length) > g.value_limit() {
        return None;
    }
    Some(Entry::Value { id, length })
}

/// An entry met while reading: the block it stands in and the data blocks before it.
#[derive(Clone, Copy, Debug)]
pub struct Found {
    pub block: usize,
    pub data_before: usize,
    pub entry: Entry,
}

/// "entries are taken from block B-3 downward and the reading ends at the first block that
/// isn't an entry by these rules. Everything below is not there."
pub struct Entries<'a> {
    g: Geometry,
    image: &'a [u8],
    sector: usize,
    cycle: u8,
    pub so_far: SoFar,
}

impl<'a> Entries<'a> {
    pub fn of(g: Geometry, image: &'a [u8], sector: usize) -> Entries<'a> {
        let cycle = cycle_of(g.block(image, sector, g.lead_block()));
        Entries { g, image, sector, cycle, so_far: SoFar::default() }
    }
}

impl Iterator for Entries<'_> {
    type Item = Found;
    fn next(&mut self) -> Option<Found> {
        // The limits leave at least block 0 without an entry, so this never goes below 0.
        let block = self.so_far.next_block(self.g);
        let entry = look(self.g, self.g.block(self.image, self.sector, block), self.cycle, self.so_far)?;
        let data_before = self.so_far.data;
        self.so_far = self.so_far.with(entry);
        Some(Found { block, data_before, entry })
    }
}

/// What a sector's entries add up to.
pub fn sums(g: Geometry, image: &[u8], sector: usize) -> SoFar {
    let mut entries = Entries::of(g, image, sector);
    while entries.next().is_some() {}
    entries.so_far
}

// ---------------------------------------------------------------------------------------
// What an image means

#[derive(Clone, Copy, Debug, PartialEq, Eq)]
pub enum State {
    Rest { open: usize },
    DoneNotReopened { working: usize },
    MidTurn { unfinished: usize },
}

/// "An image is a store if all leads are right and one of these holds." None: no store.
pub fn state(g: Geometry, image: &[u8]) -> Option<State> {
    // "One bit per sector records each class; exactly one bit, and which, decides."
    let (mut working, mut unfinished, mut with_entries) = (0u64, 0u64, 0u64);
    for sector in 0..g.sectors {
        let cycle = lead_cycle(g.block(image, sector, g.lead_block()))?;
        if is_close(g.block(image, sector, g.close_block()), cycle) {
            continue;
        }
        let sums = sums(g, image, sector);
        if sums.done {
            working |= 1 << sector;
        } else {
            unfinished |= 1 << sector;
            if sums.entries > 0 {
                with_entries |= 1 << sector;
            }
        }
    }
    let only = |mask: u64| mask.trailing_zeros() as usize;
    match (working.count_ones(), unfinished.count_ones()) {
        (1, 1) => {
            let (open, spare) = (only(working), only(unfinished));
            if spare == g.ahead(open, 1) && with_entries == 0 {
                Some(State::Rest { open })
            } else {
                None
            }
        }
        (1, 0) => Some(State::DoneNotReopened { working: only(working) }),
        (0, 1) => Some(State::MidTurn { unfinished: only(unfinished) }),
        _ => None,
    }
}

/// "Age runs back round the ring": the sectors that count, newest first. "The unfinished
/// sector is ignored."
pub fn by_age(g: Geometry, state: State) -> impl DoubleEndedIterator<Item = usize> {
    let (newest, how_many) = match state {
        State::Rest { open } => (open, g.sectors - 1),
        State::DoneNotReopened { working } => (working, g.sectors),
        State::MidTurn { unfinished } => (g.ahead(unfinished, g.sectors - 1), g.sectors - 1),
    };
    (0..how_many).map(move |back| g.ahead(newest, g.sectors - back))
}

/// "The newest entry of an ID tells": where it stands.
pub fn newest_of(g: Geometry, image: &[u8], state: State, id: u32) -> Option<(usize, Found)> {
    for sector in by_age(g, state) {
        let is_its = |f: &Found| match f.entry {
            Entry::Done => false,
            Entry::Deletion { id: i } | Entry::Value { id: i, .. } => i == id,
        };
        if let Some(found) = Entries::of(g, image, sector).filter(is_its).last() {
            return Some((sector, found));
        }
    }
    None
}

/// The newest entry of every ID: sector, block, and whether it is a value.
pub type Newest = HashMap<u32, (usize, usize, bool)>;

pub fn newest_of_all(g: Geometry, image: &[u8], state: State) -> Newest {
    let mut newest = Newest::new();
    for sector in by_age(g, state).rev() {
        for found in Entries::of(g, image, sector) {
            match found.entry {
                Entry::Done => {}
                Entry::Deletion { id } => {
                    newest.insert(id, (sector, found.block, false));
                }
                Entry::Value { id, .. } => {
                    newest.insert(id, (sector, found.block, true));
                }
            }
        }
    }
    newest
}

/// What is live: looked up in a map made once, or searched for at each question.
pub enum Live {
    Map(Newest),
    Search(State),
}

impl Live {
    fn new(g: Geometry, image: &[u8], state: State, lean: bool) -> Live {
        if lean {
            Live::Search(state)
        } else {
            Live::Map(newest_of_all(g, image, state))
        }
    }

    /// "A value is *live* if it is its ID's newest entry."
    pub fn is_live(&self, g: Geometry, image: &[u8], sector: usize, found: Found) -> bool {
        let Entry::Value { id, .. } = found.entry else { return false };
        let newest = match self {
            Live::Map(newest) => newest.get(&id).map(|(s, b, _)| (*s, *b)),
            Live::Search(state) => newest_of(g, image, *state, id).map(|(s, f)| (s, f.block)),
        };
        newest == Some((sector, found.block))
    }
}

/// The needs of the live values of a sector.
pub fn live_needs(g: Geometry, image: &[u8], live: &Live, sector: usize) -> usize {
    let mut needs = 0;
    for found in Entries::of(g, image, sector) {
        if let Entry::Value { length, .. } = found.entry {
            if live.is_live(g, image, sector, found) {
                needs += need(length);
            }
        }
    }
    needs
}

// ---------------------------------------------------------------------------------------
// Order of stores

#[derive(Clone, Copy, Debug, PartialEq, Eq)]
pub enum Kind {
    Lead,
    Close,
    Done,
    Deletion,
    Value,
    Data,
    Blank,
}

impl Kind {
    pub fn word(self) -> &'static str {
        match self {
            Kind::Lead => "lead",
            Kind::Close => "close",
            Kind::Done => "done",
            Kind::Deletion => "deletion",
            Kind::Value => "value",
            Kind::Data => "data",
            Kind::Blank => "blank",
        }
    }
}

/// One store made: the line "sector, block, kind" of the bench sheet.
#[derive(Clone, Copy, Debug, PartialEq, Eq)]
pub struct Made {
    pub sector: usize,
    pub block: usize,
    pub kind: Kind,
}

/// The allowance has ended before a store that is due.
pub struct Cut;

/// Where an appended value's data comes from.
enum Data<'v> {
    /// the user's bytes
    Value(&'v [u8]),
    /// the data blocks of an entry, as they lie
    Lying { sector: usize, first: usize },
}

/// A call's stores, in order, into the lent image, as far as the allowance reaches.
struct Stores<'a> {
    g: Geometry,
    image: &'a mut [u8],
    allowance: u32,
    made: u32,
    lean: bool,
    trace: Option<&'a mut Vec<Made>>,
}

impl Stores<'_> {
    /// "A *store* sets one whole block."
    fn store(&mut self, sector: usize, block: usize, kind: Kind, bytes: &Block) -> Result<(), Cut> {
        if self.made == self.allowance {
            return Err(Cut);
        }
        let at = self.g.place(sector, block);
        self.image[at..at + BLOCK].copy_from_slice(bytes);
        self.made += 1;
        if let Some(trace) = &mut self.trace {
            trace.push(Made { sector, block, kind });
        }
        Ok(())
    }

    fn cycle(&self, sector: usize) -> u8 {
        cycle_of(self.g.block(self.image, sector, self.g.lead_block()))
    }

    /// "then, if the next block down would read as an entry after this one, blank it
    /// (*look-ahead*); then the entry."
    fn append_entry(
        &mut self,
        sector: usize,
        so_far: &mut SoFar,
        kind: Kind,
        entry: Entry,
        bytes: &Block,
    ) -> Result<(), Cut> {
        let after = so_far.with(entry);
        let next = after.next_block(self.g);
        let cycle = self.cycle(sector);
        if look(self.g, self.g.block(self.image, sector, next), cycle, after).is_some() {
            self.store(sector, next, Kind::Blank, &BLANK)?;
        }
        self.store(sector, so_far.next_block(self.g), kind, bytes)?;
        *so_far = after;
        Ok(())
    }

    /// "**Append:** data blocks upward; then ... the entry." Of a value.
    fn append_value(
        &mut self,
        sector: usize,
        so_far: &mut SoFar,
        id: u32,
        length: usize,
        mut tail: [u8; 8],
        data: Data,
    ) -> Result<(), Cut> {
        for i in 0..data_blocks(length) {
            let bytes = match data {
                Data::Value(value) => {
                    // "padded with FF"
                    let part = &value[i * BLOCK..value.len().min((i + 1) * BLOCK)];
                    let mut bytes = BLANK;
                    bytes[..part.len()].copy_from_slice(part);
                    bytes
                }
                Data::Lying { sector, first } => *self.g.block(self.image, sector, first + i),
            };
            self.store(sector, so_far.data + i, Kind::Data, &bytes)?;
        }
        if length > 8 {
            let offset = BLOCK * so_far.data;
            tail[..4].copy_from_slice(&(offset as u32).to_le_bytes());
        }
        let bytes = entry(self.cycle(sector), length as u16, id, tail);
        self.append_entry(sector, so_far, Kind::Value, Entry::Value { id, length }, &bytes)
    }

    fn append_deletion(&mut self, sector: usize, so_far: &mut SoFar, id: u32) -> Result<(), Cut> {
        let bytes = deletion(self.cycle(sector), id);
        self.append_entry(sector, so_far, Kind::Deletion, Entry::Deletion { id }, &bytes)
    }

    fn append_done(&mut self, sector: usize, so_far: &mut SoFar) -> Result<(), Cut> {
        let bytes = close_or_done(self.cycle(sector));
        self.append_entry(sector, so_far, Kind::Done, Entry::Done, &bytes)
    }

    /// "**Reopen a sector:** with the new cycle being old plus 1, 255 going to 0: blank B-2
    /// if it would read as close under the new cycle; blank B-3 if it would read as an entry
    /// under it in an empty sector; then the lead."
    fn reopen(&mut self, sector: usize) -> Result<(), Cut> {
        let g = self.g;
        let cycle = self.cycle(sector).wrapping_add(1);
        if is_close(g.block(self.image, sector, g.close_block()), cycle) {
            self.store(sector, g.close_block(), Kind::Blank, &BLANK)?;
        }
        let empty = SoFar::default();
        if look(g, g.block(self.image, sector, g.first_entry_block()), cycle, empty).is_some() {
            self.store(sector, g.first_entry_block(), Kind::Blank, &BLANK)?;
        }
        self.store(sector, g.lead_block(), Kind::Lead, &lead(cycle))
    }

    /// "**Turn** from open sector N: close N; ..."
    fn turn(&mut self, open: usize, live: &Live) -> Result<SoFar, Cut> {
        let close = close_or_done(self.cycle(open));
        self.store(open, self.g.close_block(), Kind::Close, &close)?;
        self.turn_from_first_copy(self.g.ahead(open, 1), live)
    }

    /// "append to N+1 the live values of N+2, oldest first, with data blocks and CRC-32 as
    /// they lie; append done to N+1; reopen N+2." Gives what N+1 then adds up to.
    fn turn_from_first_copy(&mut self, to: usize, live: &Live) -> Result<SoFar, Cut> {
        let from = self.g.ahead(to, 1);
        let mut so_far = SoFar::default();
        // (no store of a turn goes to `from` before its copies stand, so its reading stays)
        let mut read = SoFar::default();
        loop {
            let mut entries = Entries { so_far: read, ..Entries::of(self.g, self.image, from) };
            let Some(found) = entries.next() else { break };
            read = entries.so_far;
            if let Entry::Value { id, length } = found.entry {
                if live.is_live(self.g, self.image, from, found) {
                    let tail = tail_of(self.g.block(self.image, from, found.block));
                    let data = Data::Lying { sector: from, first: found.data_before };
                    self.append_value(to, &mut so_far, id, length, tail, data)?;
                }
            }
        }
        self.append_done(to, &mut so_far)?;
        self.reopen(from)?;
        Ok(so_far)
    }

    /// "**Format:** blank sector 0's lead; then every sector in turn, blocks upward, with its
    /// final bytes, sector 0's lead left out; last that lead. Final: all cycles 1; done in
    /// sector 0; sectors 2 to S-1 closed; all else blank. 1 + S x B stores."
    fn format(&mut self) -> Result<(), Cut> {
        let g = self.g;
        self.store(0, g.lead_block(), Kind::Blank, &BLANK)?;
        for sector in 0..g.sectors {
            for block in 0..g.blocks {
                if block == g.lead_block() {
                    if sector != 0 {
                        self.store(sector, block, Kind::Lead, &lead(1))?;
                    }
                } else if block == g.close_block() && sector >= 2 {
                    self.store(sector, block, Kind::Close, &close_or_done(1))?;
                } else if block == g.first_entry_block() && sector == 0 {
                    self.store(sector, block, Kind::Done, &close_or_done(1))?;
                } else {
                    self.store(sector, block, Kind::Blank, &BLANK)?;
                }
            }
        }
        self.store(0, g.lead_block(), Kind::Lead, &lead(1))
    }

    /// "**Mount:** rest, nothing. Done, not reopened: reopen the working sector's successor.
    /// Mid-turn: reopen the unfinished sector, then the turn from its first copy on."
    /// Gives the turns: "1 when it began mid-turn, else 0".
    fn mount(&mut self, state: State) -> Result<u32, Cut> {
        match state {
            State::Rest { .. } => Ok(0),
            State::DoneNotReopened { working } => {
                self.reopen(self.g.ahead(working, 1))?;
                Ok(0)
            }
            State::MidTurn { unfinished } => {
                let live = Live::new(self.g, self.image, state, self.lean);
                self.reopen(unfinished)?;
                self.turn_from_first_copy(unfinished, &live)?;
                Ok(1)
            }
        }
    }
}

/// "the least number of turns after which it fits": with no turn, "if the open sector's needs
/// plus its own are at most B-5 (deletion B-4). After t turns, t from 1 to S-1, it fits if
/// the live needs of sector open+1+t, plus its own, are at most that. An ID's old value
/// counts as live until the new entry stands." None: refusal 7.
fn turns_to_fit(g: Geometry, image: &[u8], live: &Live, open: usize, own: usize, limit: usize) -> Option<usize> {
    (1..g.sectors).find(|t| live_needs(g, image, live, g.ahead(open, 1 + t)) + own <= limit)
}

// ---------------------------------------------------------------------------------------
// The calls

/// The program. `trace` keeps the stores of the last call when `tracing` is set; a lean one
/// uses no heap, and finds what is live by searching.
#[derive(Default)]
pub struct Model {
    pub lean: bool,
    pub tracing: bool,
    pub trace: Vec<Made>,
}

impl Model {
    pub fn new() -> Model {
        Model::default()
    }
    pub fn traced() -> Model {
        Model { tracing: true, ..Model::default() }
    }
    pub fn lean() -> Model {
        Model { lean: true, ..Model::default() }
    }

    fn stores<'a>(&'a mut self, g: Geometry, image: &'a mut [u8], allowance: u32) -> Stores<'a> {
        let trace = if self.tracing { Some(&mut self.trace) } else { None };
        Stores { g, image, allowance, made: 0, lean: self.lean, trace }
    }

    /// The change of a write (a value) or delete (none): turns, then the append.
    fn change(
        &mut self,
        g: Geometry,
        image: &mut [u8],
        open: usize,
        id: u32,
        value: Option<&[u8]>,
        allowance: u32,
    ) -> Answer {
        let (own, limit) = match value {
            Some(value) => (need(value.len()), g.value_limit()),
            None => (1, g.deletion_limit()),
        };
        let mut so_far = sums(g, image, open);
        // The turns move each live value at most once, and only values of sectors that no
        // earlier turn of this call wrote to; so what is live now serves all of them.
        let (turns, live) = if so_far.needs + own <= limit {
            (0, Live::Search(State::Rest { open })) // not asked
        } else {
            let live = Live::new(g, image, State::Rest { open }, self.lean);
            match turns_to_fit(g, image, &live, open, own, limit) {
                Some(turns) => (turns, live),
                None => return Answer::refusal(NO_ROOM),
            }
        };
        let mut stores = self.stores(g, image, allowance);
        let mut all = || -> Result<(), Cut> {
            for t in 0..turns {
                so_far = stores.turn(g.ahead(open, t), &live)?;
            }
            let sector = g.ahead(open, turns);
            match value {
                None => stores.append_deletion(sector, &mut so_far, id),
                Some(value) if value.len() <= 8 => {
                    let tail = small_tail(value);
                    stores.append_value(sector, &mut so_far, id, value.len(), tail, Data::Value(value))
                }
                Some(value) => {
                    let tail = large_tail(BLOCK * so_far.data, crc32(value));
                    stores.append_value(sector, &mut so_far, id, value.len(), tail, Data::Value(value))
                }
            }
        };
        match all() {
            Ok(()) => Answer::done(stores.made, turns as u32),
            Err(Cut) => Answer::cut(allowance),
        }
    }
}

/// The open sector, or the refusal: 2 no store, 3 "a store but not at rest".
fn at_rest(g: Geometry, image: &[u8]) -> Result<usize, Answer> {
    match state(g, image) {
        None => Err(Answer::refusal(NO_STORE)),
        Some(State::Rest { open }) => Ok(open),
        Some(_) => Err(Answer::refusal(UNFINISHED)),
    }
}

impl Store for Model {
    fn name(&self) -> String {
        if self.lean { "lean model" } else { "model" }.into()
    }

    fn format(&mut self, image: &mut [u8], sector_size: usize, count: usize, allowance: u32) -> Answer {
        self.trace.clear();
        let Some(g) = Geometry::new(sector_size, count, image.len()) else {
            return Answer::refusal(GEOMETRY);
        };
        let mut stores = self.stores(g, image, allowance);
        match stores.format() {
            Ok(()) => Answer::done(stores.made, 0),
            Err(Cut) => Answer::cut(allowance),
        }
    }

    fn mount(&mut self, image: &mut [u8], sector_size: usize, count: usize, allowance: u32) -> Answer {
        self.trace.clear();
        let Some(g) = Geometry::new(sector_size, count, image.len()) else {
            return Answer::refusal(GEOMETRY);
        };
        let Some(state) = state(g, image) else {
            return Answer::refusal(NO_STORE);
        };
        let mut stores = self.stores(g, image, allowance);
        match stores.mount(state) {
            Ok(turns) => Answer::done(stores.made, turns),
            Err(Cut) => Answer::cut(allowance),
        }
    }

    /// Checked in the order 1, 4, 2, 3, 8, 10, 9.
    fn read(&mut self, image: &[u8], sector_size: usize, count: usize, id: u32, buffer: &mut [u8]) -> Answer {
        self.trace.clear();
        let Some(g) = Geometry::new(sector_size, count, image.len()) else {
            return Answer::refusal(GEOMETRY);
        };
        if id == RESERVED {
            return Answer::refusal(RESERVED_ID);
        }
        let open = match at_rest(g, image) {
            Ok(open) => open,
            Err(refusal) => return refusal,
        };
        let Some((sector, found)) = newest_of(g, image, State::Rest { open }, id) else {
            return Answer::refusal(ABSENT);
        };
        let Entry::Value { length, .. } = found.entry else {
            return Answer::refusal(ABSENT);
        };
        if buffer.len() < length {
            return Answer { length: length as u32, ..Answer::refusal(SHORT_BUFFER) };
        }
        let b = g.block(image, sector, found.block);
        let value = if length <= 8 {
            &b[8..8 + length]
        } else {
            let at = g.place(sector, found.data_before);
            let value = &image[at..at + length];
            if crc32(value) != check_of(b) {
                return Answer::refusal(BAD_DATA);
            }
            value
        };
        buffer[..length].copy_from_slice(value);
        Answer { length: length as u32, ..Answer::done(0, 0) }
    }

    /// Checked in the order 1, 4, 5, 6, 2, 3, 7; 11 last.
    fn write(
        &mut self,
        image: &mut [u8],
        sector_size: usize,
        count: usize,
        id: u32,
        value: &[u8],
        allowance: u32,
    ) -> Answer {
        self.trace.clear();
        let Some(g) = Geometry::new(sector_size, count, image.len()) else {
            return Answer::refusal(GEOMETRY);
        };
        if id == RESERVED {
            return Answer::refusal(RESERVED_ID);
        }
        if value.is_empty() {
            return Answer::refusal(EMPTY);
        }
        if need(value.len()) > g.value_limit() {
            return Answer::refusal(TOO_LONG);
        }
        match at_rest(g, image) {
            Ok(open) => self.change(g, image, open, id, Some(value), allowance),
            Err(refusal) => refusal,
        }
    }

    /// Checked in the order 1, 4, 2, 3, 8, 7; 11 last. (7 cannot come: live needs are at most
    /// B-5, so one turn always makes room for a deletion.)
    fn delete(&mut self, image: &mut [u8], sector_size: usize, count: usize, id: u32, allowance: u32) -> Answer {
        self.trace.clear();
        let Some(g) = Geometry::new(sector_size, count, image.len()) else {
            return Answer::refusal(GEOMETRY);
        };
        if id == RESERVED {
            return Answer::refusal(RESERVED_ID);
        }
        let open = match at_rest(g, image) {
            Ok(open) => open,
            Err(refusal) => return refusal,
        };
        match newest_of(g, image, State::Rest { open }, id) {
            Some((_, Found { entry: Entry::Value { .. }, .. })) => self.change(g, image, open, id, None, allowance),
            _ => Answer::refusal(ABSENT),
        }
    }
}
