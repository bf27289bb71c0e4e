//! Tests of timers.

mod common;

use std::cmp::Reverse;
use std::collections::{BinaryHeap, HashMap};
use std::panic::{catch_unwind, AssertUnwindSafe};
use std::thread;

use common::{Drops, Panics, Random};
use cordyceps_c::timers::Fired;
use cordyceps_c::{Ticket, Timers};

/// What the timers have to do, by a heap of std. A row of the heap is stale if its timer has another order by now.
#[derive(Default)]
struct Model {
    clock: u64,
    starts: u64,
    heap: BinaryHeap<Reverse<(u64, u64, usize)>>,
    running: HashMap<usize, (u64, u64)>,
}

impl Model {
    fn start(&mut self, number: usize, deadline: u64) {
        self.heap.push(Reverse((deadline.max(self.clock), self.starts, number)));
        self.running.insert(number, (deadline, self.starts));
        self.starts += 1;
    }

    fn stop(&mut self, number: usize) -> Option<Fired<usize>> {
        self.running.remove(&number).map(|(deadline, _)| Fired { deadline, value: number })
    }

    fn restart(&mut self, number: usize, deadline: u64) -> bool {
        let runs = self.stop(number).is_some();
        if runs {
            self.start(number, deadline);
        }
        runs
    }

    /// The time at which the first timer fires, and its number.
    fn first(&mut self) -> Option<(u64, usize)> {
        while let Some(&Reverse((fires, order, number))) = self.heap.peek() {
            if self.running.get(&number).map_or(false, |it| it.1 == order) {
                return Some((fires, number));
            }
            self.heap.pop();
        }
        None
    }

    fn pop_due(&mut self, now: u64) -> Option<Fired<usize>> {
        match self.first() {
            Some((fires, number)) if fires <= now => {
                self.clock = fires;
                self.stop(number)
            }
            _ => {
                self.clock = self.clock.max(now);
                None
            }
        }
    }
}

/// A deadline or a time near the clock, and now and then far away.
fn time(random: &mut Random, clock: u64) -> u64 {
    match random.below(40) {
        0 => random.below(u64::MAX),
        1 => u64::MAX,
        2 => clock.saturating_sub(random.below(1000)),
        3..=6 => clock.saturating_add(random.below(100_000)),
        _ => clock.saturating_add(random.below(100)),
    }
}

#[test]
fn random_calls_agree_with_a_heap() {
    let mut random = Random::new(1);
    let mut made = 0;
    for _ in 0..20 {
        let mut model = Model::default();
        let mut timers = Timers::new().unwrap();
        // (a value is the place of its ticket)
        let mut tickets: Vec<Ticket> = Vec::new();
        for _ in 0..10_000 {
            made += 1;
            let any = random.below(tickets.len().max(1) as u64) as usize;
            let recent = tickets.len().saturating_sub(1 + random.below(50) as usize);
            let number = if random.below(4) == 0 { any } else { recent };
            match random.below(10) {
                0..=3 => {
                    let deadline = time(&mut random, model.clock);
                    model.start(tickets.len(), deadline);
                    tickets.push(timers.start(deadline, tickets.len()).unwrap());
                }
                4 if number < tickets.len() => assert_eq!(timers.stop(tickets[number]), model.stop(number)),
                5 if number < tickets.len() => {
                    let deadline = time(&mut random, model.clock);
                    assert_eq!(timers.restart(tickets[number], deadline), model.restart(number, deadline));
                }
                _ => {
                    let now = model.clock.saturating_add(random.below(30));
                    assert_eq!(timers.pop_due(now), model.pop_due(now));
                }
            }
            assert_eq!(timers.len(), model.running.len());
            match (timers.not_before(), model.first()) {
                (Some(bound), Some((fires, _))) => assert!(bound <= fires),
                (bound, first) => assert!(bound.is_none() && first.is_none()),
            }
        }
        while let Some(fired) = model.pop_due(u64::MAX) {
            assert_eq!(timers.pop_due(u64::MAX), Some(fired));
        }
        assert!(timers.is_empty());
    }
    assert_eq!(made, 200_000);
}

#[test]
fn stale_tickets_are_refused() {
    let mut timers = Timers::new().unwrap();
    let first = timers.start(5, 1).unwrap();
    assert_eq!(timers.pop_due(5), Some(Fired { deadline: 5, value: 1 }));
    assert!(timers.stop(first).is_none() && !timers.restart(first, 9));

    // A later timer may have the place of an earlier one, and has another ticket.
    let second = timers.start(6, 2).unwrap();
    assert_ne!(first, second);
    assert!(timers.stop(first).is_none() && !timers.restart(first, 9));
    assert!(timers.restart(second, 9));
    assert_eq!(timers.stop(second), Some(Fired { deadline: 9, value: 2 }));
    assert!(timers.stop(second).is_none());
}

#[test]
fn the_default_ticket_is_of_no_timer() {
    // (one of these may be the first collection of the program)
    for _ in 0..20 {
        let mut timers = Timers::new().unwrap();
        timers.start(1, 1).unwrap();
        assert!(timers.stop(Ticket::default()).is_none() && !timers.restart(Ticket::default(), 2));
    }
}

#[test]
fn tickets_of_other_timers_are_refused() {
    let mut ours = Timers::new().unwrap();
    let mut others = Timers::new().unwrap();
    let our = ours.start(1, 1).unwrap();
    let other = others.start(1, 2).unwrap();
    assert_ne!(our, other);
    assert!(ours.stop(other).is_none() && !others.restart(our, 2));
    assert_eq!((ours.stop(our).unwrap().value, others.stop(other).unwrap().value), (1, 2));
}

#[test]
fn not_before_lets_a_loop_sleep() {
    let mut timers = Timers::new().unwrap();
    assert_eq!(timers.not_before(), None);
    for number in 0..100 {
        timers.start(number * 1000, number).unwrap();
    }
    let mut wakes = 0;
    let mut fired = 0;
    while let Some(bound) = timers.not_before() {
        wakes += 1;
        while timers.pop_due(bound).is_some() {
            fired += 1;
        }
    }
    // (a bound may be too early, but by the next wake it is later)
    assert!(fired == 100 && wakes < 100 * 64);
}

#[test]
fn each_value_is_dropped_once() {
    let drops = Drops::new(100);
    let mut timers = Timers::new().unwrap();
    let tickets: Vec<_> = (0..100).map(|it| timers.start(it as u64, drops.value(it)).ok().unwrap()).collect();
    assert!(drops.are_all(0));
    for &ticket in tickets.iter().skip(50).step_by(2) {
        assert!(timers.restart(ticket, 200));
        drop(timers.stop(ticket));
        assert!(timers.stop(ticket).is_none());
    }
    while timers.pop_due(30).is_some() {}
    assert!((0..=30).all(|it| drops.of(it) == 1) && (31..50).all(|it| drops.of(it) == 0));
    drop(timers);
    assert!(drops.are_all(1));
}

#[test]
fn values_are_dropped_where_the_drop_of_one_panics() {
    let drops = Drops::new(10);
    let mut timers = Timers::new().unwrap();
    for number in 0..10 {
        assert!(timers.start(0, Panics(number == 4, drops.value(number))).is_ok());
    }
    assert!(catch_unwind(AssertUnwindSafe(|| drop(timers))).is_err());
    assert!(drops.are_all(1));
}

#[test]
fn values_of_each_size_come_back() {
    #[derive(Debug, PartialEq)]
    #[repr(align(64))]
    struct Aligned([u8; 200]);

    let mut units = Timers::new().unwrap();
    units.start(1, ()).unwrap();
    assert_eq!(units.pop_due(1), Some(Fired { deadline: 1, value: () }));
    let mut large = Timers::new().unwrap();
    large.start(1, Aligned([7; 200])).unwrap();
    assert_eq!(large.pop_due(1).unwrap().value, Aligned([7; 200]));
    let mut texts = Timers::new().unwrap();
    texts.start(2, String::from("two")).unwrap();
    texts.start(1, String::from("one")).unwrap();
    assert_eq!(format!("{texts:?}"), "Timers { len: 2, .. }");
    assert_eq!(texts.pop_due(9).unwrap().value, "one");
}

#[test]
fn another_thread_goes_on() {
    let mut timers = Timers::new().unwrap();
    let ticket = timers.start(3, String::from("three")).unwrap();
    timers.start(4, String::from("four")).unwrap();
    let mut timers = thread::spawn(move || {
        assert_eq!(timers.stop(ticket).unwrap().value, "three");
        timers
    })
    .join()
    .unwrap();
    assert_eq!(timers.pop_due(4).unwrap().value, "four");
}
