//! Fills and asks the two stores, and std's `BTreeMap`, and prints what an add and an at cost.
use std::collections::BTreeMap;
use std::hint::black_box;

extern "C" {
    fn sorted_run_of_points(keys: *const u32, len: usize, asked: *const u32, asked_len: usize, fills: u32, rounds: u32) -> u64;
    fn sorted_run_of_tags(keys: *const u8, len: usize, asked: *const u8, asked_len: usize, fills: u32, rounds: u32) -> u64;
    fn search_tree_of_points(keys: *const u32, len: usize, asked: *const u32, asked_len: usize, fills: u32, rounds: u32) -> u64;
    fn search_tree_of_tags(keys: *const u8, len: usize, asked: *const u8, asked_len: usize, fills: u32, rounds: u32) -> u64;
}

#[repr(C)]
struct Timespec {
    seconds: i64,
    nanos: i64,
}

extern "C" {
    fn clock_gettime(clock: i32, time: *mut Timespec) -> i32;
}

/// This process's processor time so far, which other programs on the machine do not lengthen as much as they do the clock's.
fn processor_millis() -> f64 {
    const CLOCK_PROCESS_CPUTIME_ID: i32 = 2;
    let mut time = Timespec { seconds: 0, nanos: 0 };
    let status = unsafe { clock_gettime(CLOCK_PROCESS_CPUTIME_ID, &mut time) };
    assert_eq!(status, 0);
    time.seconds as f64 * 1e3 + time.nanos as f64 / 1e6
}

const SIZES: [usize; 3] = [1_000, 10_000, 65_535];
/// Beyond so many adds in ascending order the tree, which is a list then, takes too long.
const LONGEST_LIST: usize = 10_000;
/// A measurement takes at least so long, and the best of so many is kept.
const LEAST_MILLIS: f64 = 40.0;
const TRIES: usize = 5;
/// What takes longer than this is measured once.
const LONG_MILLIS: f64 = 300.0;
/// At most so many different keys are asked for.
const ASKED: usize = 10_000;

const RUN: &str = "sorted run";
const TREE: &str = "search tree";
const MAP: &str = "`BTreeMap`";

type Tag = [u8; 16];

/// Fills a store so many times from nothing, and then asks it in so many rounds: how many answers there were.
type Job<'a, K> = &'a dyn Fn(&[K], &[K], u32, u32) -> u64;

fn bytes_of(tags: &[Tag]) -> &[u8] {
    tags.as_flattened()
}

fn run_of_points(keys: &[u32], asked: &[u32], fills: u32, rounds: u32) -> u64 {
    unsafe { sorted_run_of_points(keys.as_ptr(), keys.len(), asked.as_ptr(), asked.len(), fills, rounds) }
}

fn tree_of_points(keys: &[u32], asked: &[u32], fills: u32, rounds: u32) -> u64 {
    unsafe { search_tree_of_points(keys.as_ptr(), keys.len(), asked.as_ptr(), asked.len(), fills, rounds) }
}

fn run_of_tags(keys: &[Tag], asked: &[Tag], fills: u32, rounds: u32) -> u64 {
    let (keys, asked) = (bytes_of(keys), bytes_of(asked));
    unsafe { sorted_run_of_tags(keys.as_ptr(), keys.len(), asked.as_ptr(), asked.len(), fills, rounds) }
}

fn tree_of_tags(keys: &[Tag], asked: &[Tag], fills: u32, rounds: u32) -> u64 {
    let (keys, asked) = (bytes_of(keys), bytes_of(asked));
    unsafe { search_tree_of_tags(keys.as_ptr(), keys.len(), asked.as_ptr(), asked.len(), fills, rounds) }
}

/// The same by `BTreeMap`.
fn map_of<K: Ord + Copy>(keys: &[K], asked: &[K], fills: u32, rounds: u32) -> u64 {
    let mut map: BTreeMap<(K, u64, u8), i32> = BTreeMap::new();
    for _ in 0..fills {
        map = BTreeMap::new();
        for &key in black_box(keys) {
            map.insert((key, 65_536, 0), 1);
        }
    }
    let mut found = 0;
    for _ in 0..rounds {
        for &key in black_box(asked) {
            if let Some((&(_, stamp, _), _)) = map.range((key, 0, 0)..=(key, u64::MAX, u8::MAX)).next_back() {
                found += stamp >> 16;
            }
        }
    }
    found
}

/// Numbers that are not in order, the same in each run (xorshift).
struct Numbers(u64);

impl Numbers {
    fn next(&mut self) -> u64 {
        self.0 ^= self.0 << 13;
        self.0 ^= self.0 >> 7;
        self.0 ^= self.0 << 17;
        self.0
    }

    fn shuffle<T>(&mut self, items: &mut [T]) {
        for place in (1..items.len()).rev() {
            items.swap(place, self.next() as usize % (place + 1));
        }
    }
}

struct Store<'a, K> {
    name: &'static str,
    job: Job<'a, K>,
}

impl<K: Copy> Store<'_, K> {
    /// The least processor time of several tries, in milliseconds.
    fn millis(&self, keys: &[K], asked: &[K], fills: u32, rounds: u32) -> f64 {
        let mut least = f64::INFINITY;
        for _ in 0..TRIES {
            let start = processor_millis();
            let found = (self.job)(keys, asked, fills, rounds);
            let passed = processor_millis() - start;
            assert_eq!(found, u64::from(rounds) * asked.len() as u64, "{}", self.name);
            least = least.min(passed);
            if passed > LONG_MILLIS {
                break;
            }
        }
        least
    }

    /// Of an add, as the store is filled with these keys in their order.
    fn add_nanos(&self, keys: &[K]) -> f64 {
        let one = self.millis(keys, &[], 1, 0);
        if one > LONG_MILLIS {
            return one * 1e6 / keys.len() as f64;
        }
        let more = (LEAST_MILLIS / one).clamp(1.0, 10_000.0) as u32;
        (self.millis(keys, &[], 1 + more, 0) - one) * 1e6 / (f64::from(more) * keys.len() as f64)
    }

    /// Of an at, in a store that was filled with these keys in their order.
    fn at_nanos(&self, keys: &[K], asked: &[K]) -> f64 {
        let none = self.millis(keys, asked, 1, 0);
        let round = (self.millis(keys, asked, 1, 1) - none).max(1e-3);
        let rounds = (LEAST_MILLIS / round).clamp(1.0, 10_000.0) as u32;
        (self.millis(keys, asked, 1, rounds) - none) * 1e6 / (f64::from(rounds) * asked.len() as f64)
    }
}

/// A number of nanoseconds, or a dash where nothing was measured.
fn cell(nanos: f64) -> String {
    if nanos.is_nan() {
        "–".into()
    } else {
        format!("{nanos:.0}")
    }
}

/// Prints a row for each size of the store: an add in random and in ascending order, and an at after each, in nanoseconds.
fn print_rows<K: Ord + Copy>(kind: &str, keys_of: impl Fn(usize) -> Vec<K>, stores: [Store<K>; 3]) {
    for Store { name, job } in stores {
        let store = Store { name, job };
        for size in SIZES {
            let mut ascending = keys_of(size);
            ascending.sort();
            ascending.dedup();
            assert_eq!(ascending.len(), size);
            let mut random = ascending.clone();
            let mut numbers = Numbers(size as u64);
            numbers.shuffle(&mut random);
            let mut asked = ascending.clone();
            numbers.shuffle(&mut asked);
            asked.truncate(ASKED);

            // The order of the adds makes no difference to a run or a map that is filled, and the run is filled fast in this one.
            let is_tree = name == TREE;
            let at = store.at_nanos(if is_tree { &random } else { &ascending }, &asked);
            let [add_ascending, at_ascending] = if !is_tree {
                [store.add_nanos(&ascending), at]
            } else if size <= LONGEST_LIST {
                [store.add_nanos(&ascending), store.at_nanos(&ascending, &asked)]
            } else {
                [f64::NAN; 2]
            };
            let cells = [store.add_nanos(&random), at, add_ascending, at_ascending].map(cell);
            println!("| {name} | {kind} | {size} | {} |", cells.join(" | "));
        }
    }
}

fn points(size: usize) -> Vec<u32> {
    let mut numbers = Numbers(7);
    let mut points = std::collections::BTreeSet::new();
    while points.len() < size {
        points.insert(numbers.next() as u32);
    }
    points.into_iter().collect()
}

/// Names as `PUMP-00F3A1`, whose first five bytes are all the same.
fn tags(size: usize) -> Vec<Tag> {
    let name = |point: u32| {
        let mut tag = [0; 16];
        tag[..13].copy_from_slice(format!("PUMP-{point:08X}").as_bytes());
        tag
    };
    points(size).into_iter().map(name).collect()
}

fn main() {
    println!("| store | keys | versions | add, random order | at | add, ascending | at, after ascending adds |");
    println!("|---|---|---|---|---|---|---|");
    print_rows(
        "points",
        points,
        [Store { name: RUN, job: &run_of_points }, Store { name: TREE, job: &tree_of_points }, Store { name: MAP, job: &map_of }],
    );
    print_rows(
        "tags",
        tags,
        [Store { name: RUN, job: &run_of_tags }, Store { name: TREE, job: &tree_of_tags }, Store { name: MAP, job: &map_of }],
    );
}
