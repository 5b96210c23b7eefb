//! Calls, and the script form that `drive` replays:
//! first line `SECTOR_SIZE COUNT`; then a call a line: `format [ALLOWANCE]`,
//! `mount [ALLOWANCE]`, `write ID HEX [ALLOWANCE]`, `delete ID [ALLOWANCE]`,
//! `read ID [BUFFER_LENGTH]`; `-` for an empty value.

use crate::store::{Answer, Store, ENOUGH};

#[derive(Clone, Debug, PartialEq, Eq)]
pub enum Call {
    Format { allowance: u32 },
    Mount { allowance: u32 },
    Read { id: u32, buffer: usize },
    Write { id: u32, value: Vec<u8>, allowance: u32 },
    Delete { id: u32, allowance: u32 },
}

pub fn hex(bytes: &[u8]) -> String {
    if bytes.is_empty() {
        return "-".into();
    }
    bytes.iter().map(|b| format!("{b:02x}")).collect()
}

fn unhex(text: &str) -> Option<Vec<u8>> {
    if text == "-" {
        return Some(vec![]);
    }
    if text.len() % 2 == 1 || !text.is_ascii() {
        return None;
    }
    (0..text.len() / 2).map(|n| u8::from_str_radix(&text[2 * n..2 * n + 2], 16).ok()).collect()
}

impl Call {
    /// Its place in tables: 0 format, 1 mount, 2 read, 3 write, 4 delete.
    pub fn kind(&self) -> usize {
        match self {
            Call::Format { .. } => 0,
            Call::Mount { .. } => 1,
            Call::Read { .. } => 2,
            Call::Write { .. } => 3,
            Call::Delete { .. } => 4,
        }
    }

    /// The script line.
    pub fn line(&self) -> String {
        let with = |text: String, allowance: u32| {
            if allowance == ENOUGH {
                text
            } else {
                format!("{text} {allowance}")
            }
        };
        match self {
            Call::Format { allowance } => with("format".into(), *allowance),
            Call::Mount { allowance } => with("mount".into(), *allowance),
            Call::Read { id, buffer } => format!("read {id} {buffer}"),
            Call::Write { id, value, allowance } => with(format!("write {id} {}", hex(value)), *allowance),
            Call::Delete { id, allowance } => with(format!("delete {id}"), *allowance),
        }
    }

    pub fn parse(line: &str) -> Option<Call> {
        let words: Vec<&str> = line.split_whitespace().collect();
        let allowance = |n: usize| match words.get(n) {
            None => Some(ENOUGH),
            Some(w) => w.parse().ok(),
        };
        Some(match *words.first()? {
            "format" => Call::Format { allowance: allowance(1)? },
            "mount" => Call::Mount { allowance: allowance(1)? },
            "read" => {
                let buffer = match words.get(2) {
                    None => 65_536,
                    Some(w) => w.parse().ok()?,
                };
                Call::Read { id: words.get(1)?.parse().ok()?, buffer }
            }
            "write" => {
                Call::Write { id: words.get(1)?.parse().ok()?, value: unhex(words.get(2)?)?, allowance: allowance(3)? }
            }
            "delete" => Call::Delete { id: words.get(1)?.parse().ok()?, allowance: allowance(2)? },
            _ => return None,
        })
    }

    /// Makes the call. `buffer` is used by a read only, and has the call's buffer length.
    pub fn make(
        &self,
        store: &mut dyn Store,
        image: &mut [u8],
        sector_size: usize,
        count: usize,
        buffer: &mut [u8],
    ) -> Answer {
        match self {
            Call::Format { allowance } => store.format(image, sector_size, count, *allowance),
            Call::Mount { allowance } => store.mount(image, sector_size, count, *allowance),
            Call::Read { id, .. } => store.read(image, sector_size, count, *id, buffer),
            Call::Write { id, value, allowance } => store.write(image, sector_size, count, *id, value, *allowance),
            Call::Delete { id, allowance } => store.delete(image, sector_size, count, *id, *allowance),
        }
    }

    pub fn buffer_length(&self) -> usize {
        match self {
            Call::Read { buffer, .. } => *buffer,
            _ => 0,
        }
    }
}

/// A whole script's text.
pub fn text(sector_size: usize, count: usize, calls: &[Call]) -> String {
    let mut text = format!("{sector_size} {count}\n");
    for call in calls {
        text.push_str(&call.line());
        text.push('\n');
    }
    text
}

/// Sizes and calls of a script, or the number of the line that is none.
pub fn parse(text: &str) -> Result<(usize, usize, Vec<Call>), usize> {
    let mut lines = text.lines().enumerate();
    let (_, first) = lines.next().ok_or(1usize)?;
    let mut sizes = first.split_whitespace().map(|w| w.parse::<usize>());
    let (Some(Ok(sector_size)), Some(Ok(count))) = (sizes.next(), sizes.next()) else {
        return Err(1);
    };
    let mut calls = vec![];
    for (n, line) in lines {
        if !line.trim().is_empty() {
            calls.push(Call::parse(line).ok_or(n + 1)?);
        }
    }
    Ok((sector_size, count, calls))
}
