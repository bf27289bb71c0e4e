//! Tests of priority queues.

mod common;

use std::collections::BTreeMap;
use std::panic::{catch_unwind, AssertUnwindSafe};

use common::{Drops, Panics, Random};
use cordyceps_c::queue::Item;
use cordyceps_c::{Queue, Ticket, Timers};

/// What the queue has to do, by an ordered map of std.
#[derive(Default)]
struct Model {
    pushes: u64,
    items: BTreeMap<(u64, u64), usize>,
    places: BTreeMap<usize, (u64, u64)>,
}

impl Model {
    fn push(&mut self, key: u64, value: usize) {
        self.items.insert((key, self.pushes), value);
        self.places.insert(value, (key, self.pushes));
        self.pushes += 1;
    }

    fn front(&self) -> Option<Item<usize>> {
        self.items.iter().next().map(|(&(key, _), &value)| Item { key, value })
    }

    fn pop(&mut self) -> Option<Item<usize>> {
        self.front().and_then(|it| self.remove(it.value))
    }

    fn remove(&mut self, value: usize) -> Option<Item<usize>> {
        let place = self.places.remove(&value)?;
        self.items.remove(&place);
        Some(Item { key: place.0, value })
    }

    fn change(&mut self, value: usize, key: u64) -> bool {
        let is_there = self.remove(value).is_some();
        if is_there {
            self.push(key, value);
        }
        is_there
    }
}

#[test]
fn random_calls_agree_with_a_map() {
    let mut random = Random::new(2);
    for _ in 0..20 {
        let mut model = Model::default();
        let mut queue = Queue::new().unwrap();
        // (a value is the place of its ticket)
        let mut tickets: Vec<Ticket> = Vec::new();
        for _ in 0..10_000 {
            let any = random.below(tickets.len().max(1) as u64) as usize;
            let key = if random.below(20) == 0 { u64::MAX - random.below(3) } else { random.below(300) };
            match random.below(10) {
                0..=3 => {
                    model.push(key, tickets.len());
                    tickets.push(queue.push(key, tickets.len()).unwrap());
                }
                4 if any < tickets.len() => assert_eq!(queue.remove(tickets[any]), model.remove(any)),
                5 if any < tickets.len() => assert_eq!(queue.change(tickets[any], key), model.change(any, key)),
                _ => assert_eq!(queue.pop(), model.pop()),
            }
            assert_eq!(queue.len(), model.items.len());
            assert_eq!(queue.front().map(|it| Item { key: it.key, value: *it.value }), model.front());
        }
        while let Some(item) = model.pop() {
            assert_eq!(queue.pop(), Some(item));
        }
        assert!(queue.is_empty() && queue.pop().is_none() && queue.front().is_none());
    }
}

#[test]
fn stale_tickets_are_refused() {
    let mut queue = Queue::new().unwrap();
    let first = queue.push(5, 1).unwrap();
    assert_eq!(queue.pop(), Some(Item { key: 5, value: 1 }));
    let second = queue.push(6, 2).unwrap();
    assert!(first != second && queue.remove(first).is_none() && !queue.change(first, 1));

    // A ticket of another collection, of whatever type, is refused too.
    let mut timers = Timers::new().unwrap();
    let timer = timers.start(1, 3).unwrap();
    assert!(queue.remove(timer).is_none() && timers.stop(second).is_none());
    assert_eq!(queue.remove(second), Some(Item { key: 6, value: 2 }));
}

#[test]
fn each_value_is_dropped_once() {
    let drops = Drops::new(100);
    let mut queue = Queue::new().unwrap();
    let tickets: Vec<_> = (0..100).map(|it| queue.push(it as u64, drops.value(it)).ok().unwrap()).collect();
    assert_eq!(queue.front().unwrap().value.number, 0);
    (0..10).for_each(|_| drop(queue.pop()));
    tickets[..20].iter().for_each(|&it| drop(queue.remove(it)));
    assert!((0..20).all(|it| drops.of(it) == 1) && (20..100).all(|it| drops.of(it) == 0));
    drop(queue);
    assert!(drops.are_all(1));
}

#[test]
fn values_are_dropped_where_the_drop_of_one_panics() {
    let drops = Drops::new(10);
    let mut queue = Queue::new().unwrap();
    for number in 0..10 {
        assert!(queue.push(0, Panics(number == 4, drops.value(number))).is_ok());
    }
    assert!(catch_unwind(AssertUnwindSafe(|| drop(queue))).is_err());
    assert!(drops.are_all(1));
}
