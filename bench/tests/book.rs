//! The plain book of demand 3, run on every program: after every list of mounts, writes and
//! deletes, cut anywhere, the image tells the book's values, and room is refused by the rule.

use bench::histories::Rng;
use bench::model::{self, Entry, Geometry, Model, State};
use bench::naive::Naive;
use bench::store::*;
use std::collections::BTreeMap;

type Book = BTreeMap<u32, Vec<u8>>;

fn newest_value(g: Geometry, image: &[u8], state: State, id: u32) -> Option<Vec<u8>> {
    let (sector, found) = model::newest_of(g, image, state, id)?;
    let Entry::Value { length, .. } = found.entry else { return None };
    let block = g.block(image, sector, found.block);
    if length <= 8 {
        return Some(block[8..8 + length].to_vec());
    }
    let at = g.place(sector, found.data_before);
    let value = image[at..at + length].to_vec();
    assert_eq!(model::crc32(&value).to_le_bytes(), block[12..], "its CRC-32 right");
    Some(value)
}

/// All that the paper claims after a list.
fn check(store: &mut dyn Store, size: usize, count: usize, image: &[u8], ids: &[u32], book: &Book) {
    let g = Geometry::new(size, count, image.len()).unwrap();
    let state = model::state(g, image).expect("the image is a store");
    for id in ids {
        assert_eq!(newest_value(g, image, state, *id).as_ref(), book.get(id), "the newest entry of {id}");
    }
    let mut image = image.to_vec();
    let answer = store.mount(&mut image, size, count, ENOUGH);
    assert!(answer.number == 0 && answer.turns <= 1);
    let Some(State::Rest { open }) = model::state(g, &image) else { panic!("mounted, but not at rest") };
    for id in ids {
        let mut buffer = vec![0xEE; size];
        let answer = store.read(&image, size, count, *id, &mut buffer);
        match book.get(id) {
            None => assert_eq!(answer, Answer::refusal(8)),
            Some(value) => {
                assert_eq!(answer, Answer { length: value.len() as u32, ..Answer::default() });
                assert_eq!(&buffer[..value.len()], &value[..]);
                let short = store.read(&image, size, count, *id, &mut buffer[..value.len() - 1]);
                assert_eq!(short, Answer { number: 10, length: value.len() as u32, ..Answer::default() });
            }
        }
    }
    // refusal 7: by the book's own words
    let newest = model::Live::Map(model::newest_of_all(g, &image, State::Rest { open }));
    let live: Vec<usize> = (0..count).map(|n| model::live_needs(g, &image, &newest, n)).collect();
    let open_needs = model::sums(g, &image, open).needs;
    for need in 1..=g.value_limit() {
        let length = if need == 1 { 8 } else { (need - 1) * 16 };
        let room = need + open_needs <= g.value_limit()
            || (0..count).any(|n| n != g.ahead(open, 1) && live[n] + need <= g.value_limit());
        for id in [ids[0], 0xABCDEF] {
            let mut copy = image.clone();
            let answer = store.write(&mut copy, size, count, id, &vec![1; length], ENOUGH);
            if room {
                assert!(answer.number == 0 && (answer.turns as usize) < count);
                // every cut of it leaves the old value standing, and a store
                if need <= 2 && id == ids[0] {
                    for allowance in 0..answer.stores {
                        let mut cut = image.clone();
                        let it = store.write(&mut cut, size, count, id, &vec![1; length], allowance);
                        assert_eq!(it, Answer::cut(allowance));
                        let state = model::state(g, &cut).expect("still a store");
                        assert_eq!(newest_value(g, &cut, state, id).as_ref(), book.get(&id));
                    }
                }
            } else {
                assert_eq!(answer, Answer::refusal(7));
                assert!(copy == image);
            }
        }
    }
    for id in ids.iter().filter(|id| book.contains_key(id)) {
        let mut copy = image.clone();
        let answer = store.delete(&mut copy, size, count, *id, ENOUGH);
        assert!(answer.number == 0 && answer.turns <= 1);
    }
}

fn lists(store: &mut dyn Store, seed: u64, how_many: usize, long: usize) {
    let mut rng = Rng::new(seed);
    for _ in 0..how_many {
        let (size, count) = rng.pick(&[(128, 2), (128, 2), (144, 2), (128, 3), (160, 3), (256, 4), (192, 5), (128, 9)]);
        let ids: Vec<u32> = (0..rng.pick(&[1, 2, 4, 12])).map(|n| n * 1000).collect();
        let g = Geometry::new(size, count, size * count).unwrap();
        let most = (g.value_limit() - 1) * 16;
        let mut image = vec![0; size * count];
        rng.fill(&mut image);
        assert_eq!(store.format(&mut image, size, count, ENOUGH).number, 0);
        let mut book = Book::new();
        check(store, size, count, &image, &ids, &book);
        let cuts = rng.pick(&[0, 100, 400]);
        for n in 0..long {
            let allowance = if rng.chance(cuts) { rng.below(12) as u32 } else { ENOUGH };
            let id = rng.pick(&ids);
            match rng.below(10) {
                0 | 1 => {
                    store.mount(&mut image, size, count, allowance);
                }
                2 | 3 => {
                    if store.delete(&mut image, size, count, id, allowance).number == 0 {
                        book.remove(&id);
                    }
                }
                _ => {
                    let length = if rng.chance(600) { rng.range(1, 8) } else { rng.range(1, most) };
                    let mut value = vec![0; length];
                    rng.fill(&mut value);
                    let open = image.len() - 15; // the last lead's cycle
                    if rng.chance(300) {
                        let cycle = image[open].wrapping_add(rng.below(3) as u8);
                        for part in value.chunks_mut(16) {
                            let forged = bench::histories::forge(&mut rng, g, cycle, &ids);
                            part.copy_from_slice(&forged[..part.len()]);
                        }
                    }
                    if store.write(&mut image, size, count, id, &value, allowance).number == 0 {
                        book.insert(id, value);
                    }
                }
            }
            if n % 7 == 0 || n + 1 == long {
                check(store, size, count, &image, &ids, &book);
            }
        }
    }
}

#[test]
fn model_keeps_the_book() {
    lists(&mut Model::new(), 1, 60, 400);
}

#[test]
fn lean_model_keeps_the_book() {
    lists(&mut Model::lean(), 4, 20, 200);
}

#[test]
fn naive_keeps_the_book() {
    lists(&mut Naive, 2, 10, 120);
}

#[cfg(feature = "library")]
#[test]
fn library_keeps_the_book() {
    lists(&mut bench::library::Library::new(), 3, 20, 200);
}
