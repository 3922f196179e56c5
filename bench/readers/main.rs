//! Readers beside a writer, over `arc_swap` and over a lock round an `Arc`.
//!
//! ```text
//! readers HOW READERS PAUSE SECONDS
//! ```
//!
//! READERS threads read one text (HOW is `one`) or each its own (`own`), all the time. One thread replaces the texts by
//! turns, and waits PAUSE nanoseconds after each. For each of the two ways of sharing a text, a line has the reads and
//! the writes of a second.
use arc_swap::ArcSwap;
use std::sync::atomic::{AtomicBool, AtomicU64, Ordering};
use std::sync::{Arc, RwLock};
use std::thread;
use std::time::{Duration, Instant};

/// As many texts as a load of `bench_desk` has.
const TEXTS: usize = 4;

/// How many reads there are from one look at the clock's flag to the next, as in `bench_desk`.
const READS: u64 = 4;

/// A text with its version.
struct Held {
    version: u64,
    text: Vec<u8>,
}

/// A place where threads share a text.
trait Shelf: Sync {
    /// The name of this way of sharing.
    const NAME: &'static str;

    fn new(held: Arc<Held>) -> Self;

    /// The version of the text, and its first character.
    fn read(&self) -> u64;

    fn write(&self, held: Arc<Held>);
}

impl Shelf for ArcSwap<Held> {
    const NAME: &'static str = "arc_swap";

    fn new(held: Arc<Held>) -> Self {
        ArcSwap::new(held)
    }

    fn read(&self) -> u64 {
        let held = self.load();
        held.version + u64::from(held.text[0])
    }

    fn write(&self, held: Arc<Held>) {
        self.store(held);
    }
}

impl Shelf for RwLock<Arc<Held>> {
    const NAME: &'static str = "lock";

    fn new(held: Arc<Held>) -> Self {
        RwLock::new(held)
    }

    fn read(&self) -> u64 {
        let held = self.read().unwrap();
        held.version + u64::from(held.text[0])
    }

    fn write(&self, held: Arc<Held>) {
        *self.write().unwrap() = held;
    }
}

/// Reads a text until the run is over. Returns how many times.
fn read_all<S: Shelf>(shelf: &S, is_over: &AtomicBool) -> u64 {
    let mut reads = 0;
    let mut last = 0;
    while !is_over.load(Ordering::SeqCst) {
        for _ in 0..READS {
            let found = shelf.read();
            assert!(found >= last);
            last = found;
        }
        reads += READS;
    }
    reads
}

/// Replaces the texts by turns until the run is over. Returns how many times.
fn write_all<S: Shelf>(shelves: &[S], pause: Duration, is_over: &AtomicBool) -> u64 {
    let mut writes = 0;
    while !is_over.load(Ordering::SeqCst) {
        let version = writes / TEXTS as u64 + 1;
        shelves[writes as usize % TEXTS].write(Arc::new(Held { version, text: vec![b'a'] }));
        writes += 1;
        let begun = Instant::now();
        while begun.elapsed() < pause {
            std::hint::spin_loop();
        }
    }
    writes
}

/// Lets all threads work, and prints what they did.
fn run<S: Shelf>(how: &str, readers: usize, pause: Duration, time: Duration) {
    let shelves: Vec<S> = (0..TEXTS).map(|_| S::new(Arc::new(Held { version: 0, text: vec![b'a'] }))).collect();
    let is_over = AtomicBool::new(false);
    let reads = AtomicU64::new(0);
    let writes = AtomicU64::new(0);
    let begun = Instant::now();
    thread::scope(|scope| {
        for reader in 0..readers {
            let shelf = &shelves[if how == "own" { reader % TEXTS } else { 0 }];
            let (reads, is_over) = (&reads, &is_over);
            scope.spawn(move || reads.fetch_add(read_all(shelf, is_over), Ordering::SeqCst));
        }
        scope.spawn(|| writes.fetch_add(write_all(&shelves, pause, &is_over), Ordering::SeqCst));
        thread::sleep(time);
        is_over.store(true, Ordering::SeqCst);
    });
    let seconds = begun.elapsed().as_secs_f64();
    let rate = |count: AtomicU64| (count.into_inner() as f64 / seconds) as u64;
    println!("{} {how} readers {readers} reads a second {} writes a second {}", S::NAME, rate(reads), rate(writes));
}

fn main() {
    let words: Vec<String> = std::env::args().skip(1).collect();
    let [how, readers, pause, seconds] = words.as_slice() else {
        eprintln!("usage: readers one|own READERS PAUSE SECONDS");
        std::process::exit(3);
    };
    let readers = readers.parse().expect("READERS is a number");
    let pause = Duration::from_nanos(pause.parse().expect("PAUSE is a number"));
    let time = Duration::from_secs_f64(seconds.parse().expect("SECONDS is a number"));
    run::<ArcSwap<Held>>(how, readers, pause, time);
    run::<RwLock<Arc<Held>>>(how, readers, pause, time);
}
