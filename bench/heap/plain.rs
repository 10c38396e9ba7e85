// What bench/heap compares with: the same work in plain Rust, with std's HashMap from keys to places and a Vec of
// pairs in order of creation. It counts cells against a limit, and proves nothing.
use std::collections::HashMap;
use std::hint::black_box;
use std::time::{Duration, Instant};

#[derive(Clone, Copy)]
#[allow(dead_code)]
enum Value {
    Null,
    Num(i64),
}

#[allow(dead_code)]
enum State {
    Pending,
    Fulfilled(Value),
}

#[derive(Default)]
struct Object {
    places: HashMap<Vec<u16>, usize>,
    pairs: Vec<(Vec<u16>, Value)>,
}

impl Object {
    fn get(&self, key: &Vec<u16>) -> Option<Value> {
        self.places.get(key).map(|&place| self.pairs[place].1)
    }
}

#[allow(dead_code)]
enum Item {
    Promise { state: State, reactions: Vec<[u64; 4]> },
    Plain(Box<Object>),
    Array(Vec<Value>),
}

struct Heap {
    items: Vec<Item>,
    charged: u32,
    limit: u32,
}

impl Heap {
    fn charge(&mut self, cells: u32) -> bool {
        if cells > self.limit - self.charged {
            return false;
        }
        self.charged += cells;
        true
    }

    fn add(&mut self, item: Item) -> bool {
        let fits = self.charge(4);
        if fits {
            self.items.push(item);
        }
        fits
    }

    fn set(&mut self, n: usize, key: &[u16], value: Value) -> bool {
        let Item::Plain(object) = &mut self.items[n] else { return false };
        if let Some(&place) = object.places.get(key) {
            object.pairs[place].1 = value;
            return true;
        }
        if !self.charge(2 + key.len().div_ceil(4) as u32) {
            return false;
        }
        let Item::Plain(object) = &mut self.items[n] else { return false };
        object.places.insert(key.to_vec(), object.pairs.len());
        object.pairs.push((key.to_vec(), value));
        true
    }

    fn property(&self, n: usize, key: &Vec<u16>) -> Option<Value> {
        let Item::Plain(object) = &self.items[n] else { return None };
        object.get(key)
    }

    fn push(&mut self, n: usize, value: Value) -> bool {
        if !self.charge(1) {
            return false;
        }
        let Item::Array(values) = &mut self.items[n] else { return false };
        values.push(value);
        true
    }
}

fn timed<T>(work: impl FnOnce() -> T) -> (T, Duration) {
    let start = Instant::now();
    let done = work();
    (done, start.elapsed())
}

fn main() {
    let words: Vec<String> = std::env::args().collect();
    let what = words[1].as_str();
    let count: u32 = words[2].parse().unwrap();
    let mut heap = Heap { items: Vec::new(), charged: 0, limit: u32::MAX };
    let (made, read, changed, found);
    match what {
        "items" => {
            (_, made) = timed(|| {
                for _ in 0..count {
                    black_box(heap.add(Item::Promise { state: State::Pending, reactions: Vec::new() }));
                }
            });
            (found, read) = timed(|| heap.items.iter().filter(|item| matches!(black_box(item), Item::Promise { .. })).count());
            (_, changed) = timed(|| {
                for n in 0..count as usize {
                    if let Item::Promise { state, .. } = &mut heap.items[black_box(n)] {
                        *state = State::Fulfilled(Value::Num(1));
                    }
                }
            });
        }
        "properties" => {
            let keys: Vec<Vec<u16>> = (0..count).map(|n| n.to_string().encode_utf16().collect()).collect();
            heap.add(Item::Plain(Box::default()));
            (_, made) = timed(|| keys.iter().for_each(|key| assert!(heap.set(0, key, Value::Num(1)))));
            (found, read) = timed(|| keys.iter().filter(|key| black_box(heap.property(0, key)).is_some()).count());
            (_, changed) = timed(|| keys.iter().for_each(|key| assert!(heap.set(0, key, Value::Num(2)))));
        }
        _ => {
            heap.add(Item::Array(Vec::new()));
            (_, made) = timed(|| (0..count).for_each(|n| assert!(heap.push(0, Value::Num(n as i64)))));
            (found, read) = timed(|| {
                (0..count as usize)
                    .filter(|&place| matches!(&heap.items[black_box(0)], Item::Array(values) if place < values.len()))
                    .count()
            });
            (_, changed) = timed(|| {
                for place in 0..count as usize {
                    if let Item::Array(values) = &mut heap.items[black_box(0)] {
                        values[place] = Value::Null;
                    }
                }
            });
        }
    }
    println!("{what} {count}: {} cells, {found} found", heap.charged);
    println!("made {made:?}\nread {read:?}\nchanged {changed:?}");
    black_box(&heap);
}
