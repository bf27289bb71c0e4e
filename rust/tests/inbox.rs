//! Tests of inboxes.

mod common;

use std::collections::VecDeque;
use std::panic::{catch_unwind, AssertUnwindSafe};
use std::sync::{Arc, Barrier};
use std::thread;

use common::{Drops, Panics, Random};
use cordyceps_c::inbox::{ReceiveError, SendError, MAX_ROOMS};
use cordyceps_c::Inbox;

const SENDERS: usize = 4;
const ROOMS: usize = 64;

/// Sends a value. While no room is free, it lets other threads run.
fn send<T>(inbox: &mut Inbox<T>, mut value: T) {
    while let Err(why) = inbox.send(value) {
        assert!(matches!(why, SendError::Full(_)));
        value = why.into_inner();
        thread::yield_now();
    }
}

#[test]
fn values_of_four_threads_come_in_their_order() {
    let each = 20_000;
    let mut inbox = Inbox::new(ROOMS).unwrap();
    let threads: Vec<_> = (0..SENDERS)
        .map(|sender| {
            let mut inbox = inbox.split().unwrap();
            thread::spawn(move || (0..each).for_each(|it| send(&mut inbox, (sender, it, it.to_string()))))
        })
        .collect();
    let mut next = [0; SENDERS];
    while next.iter().sum::<usize>() < SENDERS * each {
        match inbox.receive() {
            Ok((sender, number, text)) => {
                assert_eq!((number, text), (next[sender], number.to_string()));
                next[sender] += 1;
            }
            Err(why) => {
                assert_ne!(why, ReceiveError::Busy);
                thread::yield_now();
            }
        }
    }
    threads.into_iter().for_each(|it| it.join().unwrap());
    assert!(inbox.receive().is_err());
}

#[test]
fn random_calls_agree_with_a_queue() {
    let mut random = Random::new(4);
    for _ in 0..100 {
        let drops = Drops::new(500);
        let mut handles = vec![Inbox::new(ROOMS).unwrap()];
        let mut held = VecDeque::new();
        for number in 0..500 {
            let one = random.below(handles.len() as u64) as usize;
            match random.below(12) {
                0 if handles.len() < 9 => {
                    let handle = handles[one].split().unwrap();
                    handles.push(handle);
                }
                1 if handles.len() > 1 => drop(handles.swap_remove(one)),
                2 if handles.len() > 1 => {
                    let other = handles.swap_remove(one);
                    let into = random.below(handles.len() as u64) as usize;
                    handles[into].absorb(other).unwrap();
                }
                3 => assert!(handles[one].give_back()),
                4..=7 => match handles[one].send(drops.value(number)) {
                    Ok(()) => held.push_back(number),
                    Err(why) => assert!(matches!(why, SendError::Full(back) if back.number == number)),
                },
                _ => assert_eq!(handles[one].receive().ok().map(|it| it.number), held.pop_front()),
            }
            assert!(held.len() <= ROOMS && held.iter().all(|&it| drops.of(it) == 0));
        }
        drop(handles);
        assert!(held.iter().all(|&it| drops.of(it) == 1) && (0..500).all(|it| drops.of(it) <= 1));
    }
}

#[test]
fn rooms_come_back_from_handles_that_end() {
    let mut inbox = Inbox::new(ROOMS).unwrap();
    for round in 0..10 {
        let mut other = inbox.split().unwrap();
        for number in 0..ROOMS {
            other.send(number).unwrap();
        }
        assert_eq!(other.send(7), Err(SendError::Full(7)));
        assert_eq!(inbox.send(7).map_err(SendError::into_inner), Err(7));
        for number in 0..ROOMS {
            let receiver = if round % 3 == 0 { &mut other } else { &mut inbox };
            assert_eq!(receiver.receive(), Ok(number));
        }
        match round % 2 {
            0 => drop(other),
            _ => inbox.absorb(other).unwrap(),
        }
        assert!(inbox.give_back());
    }
}

#[test]
fn a_handle_of_another_inbox_comes_back() {
    let mut ours = Inbox::new(1).unwrap();
    let mut other = Inbox::new(1).unwrap();
    other.send("kept").unwrap();
    let mut other = ours.absorb(other).unwrap_err().into_inner();
    assert_eq!(other.receive(), Ok("kept"));
    let split = other.split().unwrap();
    let split = ours.absorb(split).unwrap_err().into_inner();
    other.absorb(split).unwrap();
    assert_eq!(other.receive(), Err(ReceiveError::Empty));
}

#[test]
fn values_that_are_left_are_dropped_once() {
    let drops = Drops::new(ROOMS);
    let mut inbox = Inbox::new(ROOMS).unwrap();
    let mut other = inbox.split().unwrap();
    for number in 0..ROOMS {
        assert!(other.send(drops.value(number)).is_ok());
    }
    drop(inbox.receive());
    drop(inbox);
    assert!(drops.of(0) == 1 && (1..ROOMS).all(|it| drops.of(it) == 0));
    drop(other.receive());
    drop(other);
    assert!(drops.are_all(1));
}

#[test]
fn values_that_are_left_are_dropped_once_where_all_handles_go_at_the_same_time() {
    for _ in 0..500 {
        let drops = Arc::new(Drops::new(SENDERS * 3));
        let mut inbox = Inbox::new(SENDERS * 64).unwrap();
        let together = Arc::new(Barrier::new(SENDERS));
        let threads: Vec<_> = (0..SENDERS)
            .map(|sender| {
                let (mut inbox, drops, together) = (inbox.split().unwrap(), Arc::clone(&drops), Arc::clone(&together));
                thread::spawn(move || {
                    for it in 0..3 {
                        send(&mut inbox, drops.value(sender * 3 + it));
                    }
                    together.wait();
                    drop(inbox);
                })
            })
            .collect();
        drop(inbox);
        threads.into_iter().for_each(|it| it.join().unwrap());
        assert!(drops.are_all(1));
    }
}

#[test]
fn values_are_dropped_where_the_drop_of_one_panics() {
    let drops = Drops::new(10);
    let mut inbox = Inbox::new(10).unwrap();
    for number in 0..10 {
        assert!(inbox.send(Panics(number == 4, drops.value(number))).is_ok());
    }
    assert!(catch_unwind(AssertUnwindSafe(|| drop(inbox))).is_err());
    assert!(drops.are_all(1));
}

#[test]
fn an_inbox_has_the_rooms_that_were_asked_for() {
    let mut none = Inbox::new(0).unwrap();
    assert_eq!(none.send(1), Err(SendError::Full(1)));
    let mut one = Inbox::new(1).unwrap();
    assert_eq!((one.send(1), one.send(2)), (Ok(()), Err(SendError::Full(2))));
    assert!(Inbox::<u8>::new(MAX_ROOMS).is_ok());
    assert!(catch_unwind(|| Inbox::<u8>::new(MAX_ROOMS + 1)).is_err());
}
