// Measures the dictionary beside Rust's HashMap and BTreeMap on the same tags, in one run. Without arguments it prints
// times; with `--once N` it enters and finds N tags once in each, for a counter of instructions beside it.
use std::alloc::{GlobalAlloc, Layout, System};
use std::collections::{BTreeMap, HashMap};
use std::hint::black_box;
use std::sync::atomic::{AtomicUsize, Ordering};
use std::time::Instant;

const SIZES: [usize; 3] = [1_000, 5_000, 25_000];
const REPEATS: usize = 25;
// M, the map's slots, and its last room, 9 × M div 10: so many labels and values there must be space for.
const SLOTS: usize = 32_768;
const ROOM: usize = 9 * SLOTS / 10;
// A place of the shelf takes 8 bytes.
const PLACE: usize = 8;

#[repr(C)]
#[derive(Clone, Copy)]
struct Done {
    entered: u32,
    found: u32,
    moves: u32,
    nodes: u32,
    label_bytes: u32,
}

type Door = unsafe extern "C" fn(
    *mut u8, usize, *mut u8, usize, *mut u32, usize, *const u8, usize, *const u32, usize, u32,
) -> Done;

extern "C" {
    fn walnutyore_speed_plain(
        map: *mut u8, map_len: usize, labels: *mut u8, labels_len: usize, starts: *mut u32, starts_len: usize,
        text: *const u8, text_len: usize, ends: *const u32, ends_len: usize, rounds: u32,
    ) -> Done;
    fn walnutyore_speed_grouped(
        map: *mut u8, map_len: usize, labels: *mut u8, labels_len: usize, starts: *mut u32, starts_len: usize,
        text: *const u8, text_len: usize, ends: *const u32, ends_len: usize, rounds: u32,
    ) -> Done;
}

// Counts the bytes that are allocated, as the allocator hands them out (whole chunks of 16 bytes, 8 of them its own).
struct Counting;

static HELD: AtomicUsize = AtomicUsize::new(0);

fn chunk(size: usize) -> usize {
    (size + 8).div_ceil(16).max(2) * 16
}

unsafe impl GlobalAlloc for Counting {
    unsafe fn alloc(&self, layout: Layout) -> *mut u8 {
        HELD.fetch_add(chunk(layout.size()), Ordering::Relaxed);
        System.alloc(layout)
    }
    unsafe fn dealloc(&self, at: *mut u8, layout: Layout) {
        HELD.fetch_sub(chunk(layout.size()), Ordering::Relaxed);
        System.dealloc(at, layout)
    }
}

#[global_allocator]
static HEAP: Counting = Counting;

// A fixed random sequence.
struct Random(u64);

impl Random {
    fn below(&mut self, n: usize) -> usize {
        self.0 ^= self.0 << 13;
        self.0 ^= self.0 >> 7;
        self.0 ^= self.0 << 17;
        (self.0 >> 11) as usize % n
    }
}

// Tags like site paths, 20 to 60 bytes, in random order.
fn site_paths(count: usize) -> Vec<Vec<u8>> {
    const REGIONS: [&str; 8] = ["north", "south", "east", "west", "harbour", "central", "airport", "valley"];
    const SITES: [&str; 12] = [
        "arcade", "laundry", "market-hall", "bus-station", "car-park", "swimming-pool", "museum", "hospital", "campus",
        "ferry-terminal", "shopping-centre", "station",
    ];
    const KINDS: [&str; 5] = ["sorter", "changer", "counter", "dispenser", "recycler"];
    let mut random = Random(0x9E37_79B9_7F4A_7C15);
    let mut seen = std::collections::HashSet::new();
    let mut tags = Vec::new();
    while tags.len() < count {
        let tag = format!(
            "{}/{}-{}/floor-{}/{}-{:04}",
            REGIONS[random.below(8)],
            SITES[random.below(12)],
            random.below(40),
            random.below(6),
            KINDS[random.below(5)],
            random.below(10_000),
        )
        .into_bytes();
        if (20..=60).contains(&tag.len()) && seen.insert(tag.clone()) {
            tags.push(tag);
        }
    }
    tags
}

// The tags behind one another, and where each ends.
fn flat(tags: &[Vec<u8>]) -> (Vec<u8>, Vec<u32>) {
    let mut text = Vec::new();
    let mut ends = Vec::new();
    for tag in tags {
        text.extend_from_slice(tag);
        ends.push(text.len() as u32);
    }
    (text, ends)
}

fn tag_at<'a>(text: &'a [u8], ends: &[u32], i: usize) -> &'a [u8] {
    let from = if i == 0 { 0 } else { ends[i - 1] as usize };
    &text[from..ends[i] as usize]
}

// What a call takes, and how many bytes a tag.
#[derive(Clone, Copy)]
struct Figures {
    enter: f64,
    find: f64,
    bytes: f64,
}

// Memory that is lent to a dictionary; its shelf lies in the library's own stack.
struct Lent {
    map: Vec<u8>,
    labels: Vec<u8>,
    starts: Vec<u32>,
}

impl Lent {
    // For a plain store of this byte room.
    fn plain(byte_room: usize) -> Lent {
        Lent { map: vec![0; 14 * SLOTS], labels: vec![0; byte_room], starts: vec![0; ROOM] }
    }

    // For a grouped store, which needs a byte more for each of 16 labels a group.
    fn grouped(byte_room: usize) -> Lent {
        let groups = ROOM.div_ceil(16);
        Lent { map: vec![0; 14 * SLOTS], labels: vec![0; byte_room + 16 * groups], starts: vec![0; groups] }
    }

    fn bytes(&self) -> usize {
        self.map.len() + self.labels.len() + 4 * self.starts.len() + PLACE * ROOM
    }

    fn call(&mut self, door: Door, text: &[u8], ends: &[u32], rounds: u32) -> Done {
        // the slices are valid for their lengths and do not overlap
        unsafe {
            door(
                self.map.as_mut_ptr(), self.map.len(), self.labels.as_mut_ptr(), self.labels.len(),
                self.starts.as_mut_ptr(), self.starts.len(), text.as_ptr(), text.len(), ends.as_ptr(), ends.len(), rounds,
            )
        }
    }
}

// One function for each thing that is counted, so that a profile names it.
#[inline(never)]
fn plain_enter(lent: &mut Lent, text: &[u8], ends: &[u32]) -> Done {
    lent.call(walnutyore_speed_plain, text, ends, 0)
}

#[inline(never)]
fn plain_enter_and_find(lent: &mut Lent, text: &[u8], ends: &[u32], rounds: u32) -> Done {
    lent.call(walnutyore_speed_plain, text, ends, rounds)
}

#[inline(never)]
fn grouped_enter(lent: &mut Lent, text: &[u8], ends: &[u32]) -> Done {
    lent.call(walnutyore_speed_grouped, text, ends, 0)
}

#[inline(never)]
fn grouped_enter_and_find(lent: &mut Lent, text: &[u8], ends: &[u32], rounds: u32) -> Done {
    lent.call(walnutyore_speed_grouped, text, ends, rounds)
}

#[inline(never)]
fn hash_enter(text: &[u8], ends: &[u32]) -> HashMap<Box<[u8]>, u32> {
    (0..ends.len()).map(|i| (tag_at(text, ends, i).into(), i as u32)).collect()
}

#[inline(never)]
fn hash_find(map: &HashMap<Box<[u8]>, u32>, text: &[u8], ends: &[u32]) -> usize {
    (0..ends.len()).filter(|&i| map.get(tag_at(text, ends, i)) == Some(&(i as u32))).count()
}

#[inline(never)]
fn btree_enter(text: &[u8], ends: &[u32]) -> BTreeMap<Box<[u8]>, u32> {
    let mut map = BTreeMap::new();
    for i in 0..ends.len() {
        map.insert(tag_at(text, ends, i).into(), i as u32);
    }
    map
}

#[inline(never)]
fn btree_find(map: &BTreeMap<Box<[u8]>, u32>, text: &[u8], ends: &[u32]) -> usize {
    (0..ends.len()).filter(|&i| map.get(tag_at(text, ends, i)) == Some(&(i as u32))).count()
}

fn nanoseconds<T>(work: impl FnOnce() -> T) -> (f64, T) {
    let start = Instant::now();
    let result = black_box(work());
    (start.elapsed().as_nanos() as f64, result)
}

// The library opens, enters and finds in one call, so the time of a find is a difference. The shortest times count.
fn ours(
    lent: &mut Lent, n: usize, rounds: u32, repeats: usize,
    enter: impl Fn(&mut Lent) -> Done, both: impl Fn(&mut Lent) -> Done,
) -> Figures {
    let (mut short, mut long) = (f64::MAX, f64::MAX);
    for _ in 0..repeats {
        let (time, done) = nanoseconds(|| enter(lent));
        assert_eq!(done.entered as usize, n);
        short = short.min(time);
        let (time, done) = nanoseconds(|| both(lent));
        assert_eq!(done.found as usize, n * rounds as usize);
        long = long.min(time);
    }
    let n = n as f64;
    Figures { enter: short / n, find: (long - short) / n / rounds as f64, bytes: lent.bytes() as f64 / n }
}

fn theirs<T>(n: usize, rounds: u32, repeats: usize, enter: impl Fn() -> T, find: impl Fn(&T) -> usize) -> Figures {
    let (mut entering, mut finding, mut held) = (f64::MAX, f64::MAX, 0);
    for _ in 0..repeats {
        let before = HELD.load(Ordering::Relaxed);
        let (time, map) = nanoseconds(&enter);
        entering = entering.min(time);
        held = HELD.load(Ordering::Relaxed) - before;
        let (time, _) = nanoseconds(|| {
            for _ in 0..rounds {
                assert_eq!(black_box(find(black_box(&map))), n);
            }
        });
        finding = finding.min(time);
    }
    let n = n as f64;
    Figures { enter: entering / n, find: finding / n / rounds as f64, bytes: held as f64 / n }
}

fn line(name: &str, f: Figures) {
    println!("  {name:<26} enter {:6.1} ns   find {:6.1} ns   {:6.1} bytes a tag", f.enter, f.find, f.bytes);
}

fn measure(tags: &[Vec<u8>], rounds: u32, repeats: usize) {
    let n = tags.len();
    let (text, ends) = flat(tags);
    let mut probe = Lent::plain(1_048_576);
    let done = probe.call(walnutyore_speed_plain, &text, &ends, 1);
    let byte_room = done.label_bytes as usize;
    println!(
        "{n} tags of {:.1} bytes: {} nodes, {byte_room} label bytes, {:.2} moves a find",
        text.len() as f64 / n as f64, done.nodes, done.moves as f64 / n as f64,
    );
    let (text, ends) = (&text[..], &ends[..]);
    line("dictionary, plain store", ours(
        &mut Lent::plain(byte_room), n, rounds, repeats,
        |l| plain_enter(l, text, ends), |l| plain_enter_and_find(l, text, ends, rounds),
    ));
    line("dictionary, grouped store", ours(
        &mut Lent::grouped(byte_room), n, rounds, repeats,
        |l| grouped_enter(l, text, ends), |l| grouped_enter_and_find(l, text, ends, rounds),
    ));
    line("HashMap<Box<[u8]>, u32>", theirs(n, rounds, repeats, || hash_enter(text, ends), |m| hash_find(m, text, ends)));
    line("BTreeMap<Box<[u8]>, u32>", theirs(n, rounds, repeats, || btree_enter(text, ends), |m| btree_find(m, text, ends)));
}

fn main() {
    let words: Vec<String> = std::env::args().collect();
    if let [_, once, n] = &words[..] {
        assert_eq!(once, "--once");
        measure(&site_paths(n.parse().expect("a number of tags")), 1, 1);
        return;
    }
    let all = site_paths(25_000);
    for n in SIZES {
        measure(&all[..n], (100_000 / n) as u32, REPEATS);
    }
}
