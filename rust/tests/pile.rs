//! Tests of piles.

mod common;

use std::panic::{catch_unwind, AssertUnwindSafe};
use std::sync::{Arc, Barrier};
use std::thread;

use common::{Drops, Panics, Random};
use cordyceps_c::pile::{PushError, MAX_ROOMS};
use cordyceps_c::{NotTaken, Pile};

const PUSHERS: usize = 4;
const ROOMS: usize = 64;

/// Pushes a value. While no room is free, or others come in between, it lets other threads run.
fn push<T>(pile: &mut Pile<T>, mut value: T) {
    while let Err(why) = pile.push(value) {
        assert!(!matches!(why, PushError::NoMemory(_)));
        value = why.into_inner();
        thread::yield_now();
    }
}

#[test]
fn each_value_of_four_threads_comes_once() {
    let each = 20_000;
    let mut pile = Pile::new(ROOMS).unwrap();
    let threads: Vec<_> = (0..PUSHERS)
        .map(|pusher| {
            let mut pile = pile.split().unwrap();
            thread::spawn(move || (0..each).for_each(|it| push(&mut pile, (pusher, it, it.to_string()))))
        })
        .collect();
    let mut came = vec![vec![false; each]; PUSHERS];
    let mut left = PUSHERS * each;
    while left > 0 {
        if let Some((pusher, number, text)) = pile.pop() {
            assert!(text == number.to_string() && !std::mem::replace(&mut came[pusher][number], true));
            left -= 1;
        } else {
            pile.give_back();
            thread::yield_now();
        }
    }
    threads.into_iter().for_each(|it| it.join().unwrap());
    assert!(pile.pop().is_none());
}

#[test]
fn the_value_pushed_last_comes_first_of_those_taken_together() {
    let mut pile = Pile::new(ROOMS).unwrap();
    (0..3).for_each(|it| push(&mut pile, it));
    assert_eq!(pile.pop(), Some(2));
    push(&mut pile, 3);
    // Those that are taken come first, and then those that were pushed since.
    assert_eq!([pile.pop(), pile.pop(), pile.pop(), pile.pop()], [Some(1), Some(0), Some(3), None]);
}

#[test]
fn random_calls_agree_with_stacks() {
    let mut random = Random::new(5);
    for _ in 0..100 {
        let drops = Drops::new(500);
        // (each handle has what it took, the next last)
        let mut handles = vec![(Pile::new(ROOMS).unwrap(), Vec::new())];
        let mut held = Vec::new();
        for number in 0..500 {
            let one = random.below(handles.len() as u64) as usize;
            match random.below(12) {
                0 if handles.len() < 9 => {
                    let handle = handles[one].0.split().unwrap();
                    handles.push((handle, Vec::new()));
                }
                1 if handles.len() > 1 => {
                    let (handle, taken) = handles.swap_remove(one);
                    drop(handle);
                    assert!(taken.iter().all(|&it| drops.of(it) == 1));
                }
                2 if handles.len() > 1 => {
                    let (other, taken) = handles.swap_remove(one);
                    let into = random.below(handles.len() as u64) as usize;
                    let back = handles[into].0.absorb(other).err().map(NotTaken::into_inner);
                    assert_eq!(back.is_some(), !taken.is_empty());
                    handles.extend(back.map(|it| (it, taken)));
                }
                3 => assert!(handles[one].0.give_back()),
                4..=7 => match handles[one].0.push(drops.value(number)) {
                    Ok(()) => held.push(number),
                    Err(why) => assert!(matches!(why, PushError::Full(back) if back.number == number)),
                },
                _ => {
                    let (handle, taken) = &mut handles[one];
                    if taken.is_empty() {
                        taken.append(&mut held);
                    }
                    assert_eq!(handle.pop().map(|it| it.number), taken.pop());
                }
            }
            let all = handles.iter().flat_map(|it| &it.1).chain(&held);
            assert!(held.len() <= ROOMS && all.clone().all(|&it| drops.of(it) == 0));
        }
        drop(handles);
        assert!(held.iter().all(|&it| drops.of(it) == 1) && (0..500).all(|it| drops.of(it) <= 1));
    }
}

#[test]
fn rooms_come_back_from_handles_that_end() {
    let mut pile = Pile::new(ROOMS).unwrap();
    for round in 0..10 {
        let mut other = pile.split().unwrap();
        (0..ROOMS).for_each(|it| other.push(it).unwrap());
        assert_eq!(other.push(7), Err(PushError::Full(7)));
        assert_eq!(pile.pop(), Some(ROOMS - 1));
        match round % 2 {
            0 => drop(other),
            _ => pile.absorb(other).unwrap(),
        }
        assert_eq!(std::iter::from_fn(|| pile.pop()).count(), ROOMS - 1);
        assert!(pile.give_back());
    }
}

#[test]
fn a_handle_that_cannot_be_absorbed_comes_back() {
    let mut ours = Pile::new(4).unwrap();
    let mut other = Pile::new(4).unwrap();
    other.push("kept").unwrap();
    let mut other = ours.absorb(other).unwrap_err().into_inner();
    assert_eq!(other.pop(), Some("kept"));

    let mut split = ours.split().unwrap();
    split.push("last").unwrap();
    split.push("first").unwrap();
    assert_eq!(split.pop(), Some("first"));
    let mut split = ours.absorb(split).unwrap_err().into_inner();
    assert_eq!(split.pop(), Some("last"));
    ours.absorb(split).unwrap();
}

#[test]
fn values_are_dropped_with_the_handle_that_took_them_or_with_the_last_one() {
    let drops = Drops::new(6);
    let mut pile = Pile::new(ROOMS).unwrap();
    let mut other = pile.split().unwrap();
    (0..4).for_each(|it| assert!(pile.push(drops.value(it)).is_ok()));
    drop(other.pop());
    (4..6).for_each(|it| assert!(pile.push(drops.value(it)).is_ok()));
    assert!((0..6).all(|it| drops.of(it) == usize::from(it == 3)));
    drop(other);
    assert!((0..6).all(|it| drops.of(it) == usize::from(it < 4)));
    drop(pile);
    assert!(drops.are_all(1));
}

#[test]
fn values_that_are_left_are_dropped_once_where_all_handles_go_at_the_same_time() {
    for _ in 0..500 {
        let drops = Arc::new(Drops::new(PUSHERS * 3));
        let mut pile = Pile::new(PUSHERS * 64).unwrap();
        let together = Arc::new(Barrier::new(PUSHERS));
        let threads: Vec<_> = (0..PUSHERS)
            .map(|pusher| {
                let (mut pile, drops, together) = (pile.split().unwrap(), Arc::clone(&drops), Arc::clone(&together));
                thread::spawn(move || {
                    (0..3).for_each(|it| push(&mut pile, drops.value(pusher * 3 + it)));
                    if pusher % 2 == 0 {
                        drop(pile.pop());
                    }
                    together.wait();
                    drop(pile);
                })
            })
            .collect();
        drop(pile);
        threads.into_iter().for_each(|it| it.join().unwrap());
        assert!(drops.are_all(1));
    }
}

#[test]
fn values_are_dropped_where_the_drop_of_one_panics() {
    let drops = Drops::new(10);
    let mut pile = Pile::new(10).unwrap();
    for number in 0..10 {
        assert!(pile.push(Panics(number == 4, drops.value(number))).is_ok());
    }
    let mut other = pile.split().unwrap();
    drop(other.pop());
    assert!(catch_unwind(AssertUnwindSafe(|| drop(other))).is_err());
    assert!(drops.are_all(1));
}

#[test]
fn a_pile_has_the_rooms_that_were_asked_for() {
    let mut none = Pile::new(0).unwrap();
    assert_eq!(none.push(1), Err(PushError::Full(1)));
    let mut one = Pile::new(1).unwrap();
    assert_eq!((one.push(1), one.push(2)), (Ok(()), Err(PushError::Full(2))));
    assert!(Pile::<u8>::new(MAX_ROOMS).is_ok());
    assert!(catch_unwind(|| Pile::<u8>::new(MAX_ROOMS + 1)).is_err());
}
