//! The channels of Rust's std where threads meet, as shared.cc measures others. It is called as that program is:
//!
//!   mpsc rows                                prints its rows
//!   mpsc ROW PEER PRODUCERS MILLISECONDS     prints how many elements came out in which time

use std::sync::atomic::{AtomicBool, AtomicUsize, Ordering::SeqCst};
use std::sync::mpsc::{channel, sync_channel, Receiver, Sender, SyncSender};
use std::sync::Mutex;
use std::time::{Duration, Instant};
use std::{env, hint, mem, process, thread};

const ROW: &str = "meet queue";
const PEERS: [&str; 2] = ["std mpsc", "std sync_channel"];
/// How many elements each producer begins with, and how many of them come back at a time.
const EACH: usize = 4096;
const QUARTER: usize = EACH / 4;
/// As in shared.cc.
const WARM_UP: Duration = Duration::from_millis(100);
const TRIES: usize = 128;

type Element = Box<(u64, u64)>;

/// The sending side of a channel without a bound, or with as many places as there are elements.
#[derive(Clone)]
enum Side {
    Unbounded(Sender<Element>),
    Bounded(SyncSender<Element>),
}

impl Side {
    fn send(&self, it: Element) {
        match self {
            Side::Unbounded(sender) => sender.send(it).unwrap(),
            Side::Bounded(sender) => sender.send(it).unwrap(),
        }
    }
}

/// Where threads meet, besides the channel.
struct Ground {
    threads: usize,
    arrived: AtomicUsize,
    is_over: AtomicBool,
    returned: Mutex<Vec<Element>>,
}

impl Ground {
    fn meet(&self) {
        self.arrived.fetch_add(1, SeqCst);
        while self.arrived.load(SeqCst) < self.threads {}
    }

    /// Replaces these elements by some that came back.
    fn fetch(&self, elements: &mut Vec<Element>) {
        let mut returned = self.returned.lock().unwrap();
        let left = returned.len().saturating_sub(QUARTER);
        *elements = returned.split_off(left);
    }
}

/// Puts elements in, and those that come back, until the run is over.
fn produce(ground: &Ground, sender: Side, mut elements: Vec<Element>) {
    ground.meet();
    loop {
        for it in mem::take(&mut elements) {
            sender.send(it);
        }
        if ground.is_over.load(SeqCst) {
            return;
        }
        ground.fetch(&mut elements);
        if elements.is_empty() {
            thread::yield_now();
        }
    }
}

/// Takes out what one try gives, and returns how many.
fn take(ground: &Ground, receiver: &Receiver<Element>, taken: &mut Vec<Element>) -> usize {
    let Ok(it) = receiver.try_recv() else {
        hint::spin_loop();
        return 0;
    };
    taken.push(it);
    if taken.len() >= QUARTER {
        ground.returned.lock().unwrap().append(taken);
    }
    1
}

/// Takes elements out for so long, and returns how many, and in which time.
fn take_for(
    ground: &Ground,
    receiver: &Receiver<Element>,
    taken: &mut Vec<Element>,
    time: Duration,
) -> (usize, Duration) {
    let (start, mut count) = (Instant::now(), 0);
    loop {
        for _ in 0..TRIES {
            count += take(ground, receiver, taken);
        }
        let passed = start.elapsed();
        if passed >= time {
            return (count, passed);
        }
    }
}

/// How many elements one thread takes out in a window while others put them in. At the end each has to be somewhere.
fn meet(is_bounded: bool, producers: usize, window: Duration) -> (usize, Duration) {
    let all = EACH * producers;
    let ground = Ground {
        threads: producers + 1,
        arrived: AtomicUsize::new(0),
        is_over: AtomicBool::new(false),
        returned: Mutex::new(Vec::with_capacity(all)),
    };
    let (sender, receiver) = if is_bounded {
        let (sender, receiver) = sync_channel(all);
        (Side::Bounded(sender), receiver)
    } else {
        let (sender, receiver) = channel();
        (Side::Unbounded(sender), receiver)
    };
    let mut taken = Vec::with_capacity(all);
    let counted = thread::scope(|scope| {
        for _ in 0..producers {
            let elements = (0..EACH as u64).map(|id| Box::new((id, id))).collect();
            let (ground, sender) = (&ground, sender.clone());
            scope.spawn(move || produce(ground, sender, elements));
        }
        ground.meet();
        take_for(&ground, &receiver, &mut taken, WARM_UP);
        let counted = take_for(&ground, &receiver, &mut taken, window);
        ground.is_over.store(true, SeqCst);
        counted
    });
    taken.extend(receiver.try_iter());
    taken.append(&mut ground.returned.lock().unwrap());
    let sum: u64 = taken.iter().map(|it| it.1).sum();
    assert_eq!(sum, (producers * (EACH * (EACH - 1) / 2)) as u64);
    counted
}

fn main() {
    let words: Vec<String> = env::args().skip(1).collect();
    let words: Vec<&str> = words.iter().map(String::as_str).collect();
    match words[..] {
        ["rows"] => PEERS.iter().for_each(|peer| println!("{ROW}\t{peer}")),
        [ROW, peer, producers, window] if PEERS.contains(&peer) => {
            let window = Duration::from_millis(window.parse().unwrap());
            let (count, time) = meet(peer == PEERS[1], producers.parse().unwrap(), window);
            println!("{count} elements in {} ns", time.as_nanos());
        }
        _ => {
            eprintln!("usage: mpsc rows | ROW PEER PRODUCERS MILLISECONDS");
            process::exit(2);
        }
    }
}
