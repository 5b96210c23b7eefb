//! The lines of the program of the gate (crates/trials), told by the model: to be compared
//! with crates/trials/stdout.  cargo run --example trials | diff - .../trials/stdout

use bench::model::{self, crc32, Geometry, Model};
use bench::script::hex;
use bench::store::*;

const G: Geometry = Geometry { blocks: 8, sectors: 3 };
const FIRST: u8 = 3;
const SECOND: u8 = 2;
const THIRD: u8 = 255;
type Image = Vec<u8>;

fn put(mut image: Image, s: usize, b: usize, block: [u8; 16]) -> Image {
    let at = G.place(s, b);
    image[at..at + 16].copy_from_slice(&block);
    image
}

fn small(cycle: u8, id: u32, value: &[u8]) -> [u8; 16] {
    model::entry(cycle, value.len() as u16, id, model::small_tail(value))
}

fn rest() -> Image {
    let image = vec![255; 384];
    let image = put(image, 0, 0, *b"hello, truck\xFF\xFF\xFF\xFF");
    let long = model::entry(FIRST, 12, 8, model::large_tail(0, crc32(b"hello, truck")));
    let image = put(image, 0, 4, long);
    let image = put(image, 0, 5, small(FIRST, 7, b"abc"));
    let image = put(image, 0, 6, model::close_or_done(FIRST));
    let image = put(image, 0, 7, model::lead(FIRST));
    let image = put(image, 1, 4, small(SECOND, 7, &[1, 2, 3, 4, 5, 6, 7, 8]));
    let image = put(image, 1, 5, model::close_or_done(SECOND));
    let image = put(image, 1, 7, model::lead(SECOND));
    put(image, 2, 7, model::lead(THIRD))
}

fn damaged(mut image: Image, s: usize, b: usize, byte: usize) -> Image {
    image[G.place(s, b) + byte] ^= 1;
    image
}
fn mid_turn() -> Image {
    put(rest(), 1, 6, model::close_or_done(SECOND))
}
fn not_reopened() -> Image {
    put(mid_turn(), 2, 5, model::close_or_done(THIRD))
}

fn read_of(name: &str, image: &Image, size: usize, count: usize, id: u32, room: usize) {
    let mut buffer = [0xEE; 16];
    let a = Model::new().read(image, size, count, id, &mut buffer[..room]);
    println!("{name}, ID {id} into {room}: {} length {} buffer {}", a.number, a.length, hex(&buffer));
}
fn read(name: &str, image: &Image, id: u32, room: usize) {
    read_of(name, image, 128, 3, id, room);
}
fn outcome(name: &str, allowance: u32, a: Answer, model: &Model, image: &Image) {
    let last = match model.trace.last() {
        None => "nothing".to_string(),
        Some(m) => format!("{} {} {}", m.sector, m.block, m.kind.word()),
    };
    println!(
        "{name}, allowance {allowance}: {} stores {} turns {} last {last} image {:08x}",
        a.number,
        a.stores,
        a.turns,
        crc32(image)
    );
}
fn mount_each(name: &str, image: Image, due: u32) {
    for allowance in 0..=due {
        let mut model = Model::traced();
        let mut image = image.clone();
        let a = model.mount(&mut image, 128, 3, allowance);
        outcome(name, allowance, a, &model, &image);
        let a = model.mount(&mut image, 128, 3, ENOUGH);
        outcome("  then", ENOUGH, a, &model, &image);
    }
}
fn format_and_mount(count: usize, allowance: u32) {
    let mut model = Model::traced();
    let mut image = rest();
    let a = model.format(&mut image, 128, count, allowance);
    outcome("format", allowance, a, &model, &image);
    let a = model.mount(&mut image, 128, count, 0);
    outcome("  mount", 0, a, &model, &image);
}

fn main() {
    let r = rest();
    for room in [16, 8, 7, 0] {
        read("rest", &r, 7, room);
    }
    read("rest", &r, 8, 12);
    read("rest", &r, 8, 11);
    read("rest", &r, 9, 16);
    read("rest", &r, model::RESERVED, 16);
    let deleted = put(rest(), 1, 3, model::deletion(SECOND, 8));
    read("deleted", &deleted, 8, 16);
    read("deleted", &deleted, 7, 16);
    read("entry of another cycle", &put(rest(), 1, 3, model::deletion(FIRST, 7)), 7, 16);
    read("newest entry damaged", &damaged(rest(), 1, 4, 15), 7, 16);
    let bad = damaged(rest(), 0, 0, 11);
    read("data damaged", &bad, 8, 12);
    read("data damaged", &bad, 8, 11);
    read("data damaged", &bad, 7, 16);
    read("mid-turn", &mid_turn(), 7, 16);
    read("done, not reopened", &not_reopened(), 7, 16);
    read("two working", &put(rest(), 2, 5, model::close_or_done(THIRD)), 7, 16);
    read("spare in use", &put(rest(), 2, 5, model::deletion(THIRD, 7)), 7, 16);
    let lost = damaged(rest(), 2, 7, 9);
    read("lead damaged", &lost, 7, 16);
    read("lead damaged", &lost, model::RESERVED, 16);
    read_of("2 sectors of 128", &r, 128, 2, 7, 16);
    read_of("2 sectors of 192", &r, 192, 2, 7, 16);
    read_of("1 sector of 384", &r, 384, 1, 7, 16);
    read_of("4 sectors of 96", &r, 96, 4, 7, 16);
    read_of("2 sectors of 128", &r, 128, 2, model::RESERVED, 16);
    format_and_mount(3, 1);
    format_and_mount(3, 24);
    format_and_mount(3, 25);
    format_and_mount(4, 25);
    mount_each("mount at rest", rest(), 0);
    mount_each("mount with a damaged lead", damaged(rest(), 2, 7, 9), 0);
    let stale = put(mid_turn(), 2, 6, model::close_or_done(0));
    let stale = put(stale, 2, 5, model::close_or_done(0));
    let stale = put(stale, 2, 4, model::deletion(0, 7));
    mount_each("mount mid-turn", stale, 8);
    mount_each("mount done, not reopened", not_reopened(), 1);
}
