//! Tests in which memory is refused, to the library or to a value's block. The program has a `malloc` of its own.
#![cfg(target_env = "gnu")]

mod common;

use std::cell::Cell;
use std::os::raw::c_void;
use std::ptr;

use common::{Counted, Drops};
use cordyceps_c::inbox::SendError;
use cordyceps_c::pile::PushError;
use cordyceps_c::{Inbox, List, NoMemory, NotTaken, Pile, Queue, Timers};

thread_local! {
    /// How many requests of this thread are granted before one is refused.
    static GRANTED: Cell<usize> = const { Cell::new(usize::MAX) };
}

extern "C" {
    fn __libc_malloc(size: usize) -> *mut c_void;
    fn __libc_realloc(block: *mut c_void, size: usize) -> *mut c_void;
}

/// Whether this request is the one that is refused.
fn is_refused() -> bool {
    GRANTED.with(|it| match it.get() {
        usize::MAX => false,
        0 => {
            it.set(usize::MAX);
            true
        }
        granted => {
            it.set(granted - 1);
            false
        }
    })
}

#[no_mangle]
extern "C" fn malloc(size: usize) -> *mut c_void {
    // SAFETY: the caller keeps the conditions of malloc.
    if is_refused() {
        ptr::null_mut()
    } else {
        unsafe { __libc_malloc(size) }
    }
}

#[no_mangle]
extern "C" fn realloc(block: *mut c_void, size: usize) -> *mut c_void {
    // SAFETY: the caller keeps the conditions of realloc.
    if is_refused() {
        ptr::null_mut()
    } else {
        unsafe { __libc_realloc(block, size) }
    }
}

/// Makes a call to which the request after so many is refused. Returns its result, and whether one was refused.
fn refused<R>(granted: usize, call: impl FnOnce() -> R) -> (R, bool) {
    GRANTED.with(|it| it.set(granted));
    let result = call();
    let left = GRANTED.with(|it| it.replace(usize::MAX));
    (result, left == usize::MAX)
}

/// Makes a call that inserts a value, with each of its requests refused, until none is. Each time that one is refused,
/// the value has to come back. Returns how often one was.
fn insert<T>(drops: &Drops, number: usize, mut insert: impl FnMut(Counted) -> Result<T, Counted>) -> usize {
    let mut value = drops.value(number);
    for granted in 0.. {
        let (result, is_refused) = refused(granted, || insert(value));
        assert_eq!(result.is_err(), is_refused);
        value = match result {
            Ok(_) => return granted,
            Err(back) => back,
        };
        assert!(value.number == number && drops.of(number) == 0);
    }
    unreachable!()
}

#[test]
fn values_come_back_from_timers() {
    let drops = Drops::new(100);
    assert_eq!(refused(0, Timers::<u8>::new).0.unwrap_err(), NoMemory);
    let mut timers = Timers::new().unwrap();
    for number in 0..100 {
        let refusals = insert(&drops, number, |it| timers.start(number as u64, it).map_err(NotTaken::into_inner));
        assert!(refusals >= 2 && timers.len() == number + 1);
    }
    for number in 0..100 {
        assert_eq!(timers.pop_due(u64::MAX).unwrap().value.number, number);
    }
    assert!(timers.is_empty() && drops.are_all(1));
}

#[test]
fn values_come_back_from_an_inbox() {
    let drops = Drops::new(10);
    // (the last request of `new` is of `Arc`, which ends the program if it is refused)
    for granted in 0..6 {
        assert!(matches!(refused(granted, || Inbox::<u8>::new(10)), (Err(NoMemory), true)));
    }
    let mut inbox = Inbox::new(10).unwrap();
    assert!(refused(0, || inbox.split()).0.is_err());
    for number in 0..10 {
        let send = |it| {
            inbox.send(it).map_err(|why| {
                assert!(matches!(why, SendError::NoMemory(_)));
                why.into_inner()
            })
        };
        assert!(insert(&drops, number, send) >= 2);
    }
    for number in 0..10 {
        assert_eq!(inbox.receive().unwrap().number, number);
    }
    assert!(drops.are_all(1));
}

#[test]
fn values_come_back_from_a_queue() {
    let drops = Drops::new(100);
    assert_eq!(refused(0, Queue::<u8>::new).0.unwrap_err(), NoMemory);
    let mut queue = Queue::new().unwrap();
    for number in 0..100 {
        let refusals = insert(&drops, number, |it| queue.push(number as u64, it).map_err(NotTaken::into_inner));
        assert!(refusals >= 2 && queue.len() == number + 1);
    }
    for number in 0..100 {
        assert_eq!(queue.pop().unwrap().value.number, number);
    }
    assert!(queue.is_empty() && drops.are_all(1));
}

#[test]
fn values_come_back_from_a_list() {
    let drops = Drops::new(100);
    assert_eq!(refused(0, List::<u8>::new).0.unwrap_err(), NoMemory);
    let mut list = List::new().unwrap();
    for number in 0..100 {
        let refusals = match list.back().filter(|_| number % 2 == 1) {
            None => insert(&drops, number, |it| list.push_back(it).map_err(NotTaken::into_inner)),
            Some(last) => insert(&drops, number, |it| list.insert_after(last, it).map_err(NotTaken::into_inner)),
        };
        assert!(refusals >= 2 && list.len() == number + 1);
    }
    assert!(list.iter().map(|it| it.1.number).eq(0..100));
    drop(list);
    assert!(drops.are_all(1));
}

#[test]
fn values_come_back_from_a_pile() {
    let drops = Drops::new(10);
    // (the last request of `new` is of `Arc`, which ends the program if it is refused)
    for granted in 0..6 {
        assert!(matches!(refused(granted, || Pile::<u8>::new(10)), (Err(NoMemory), true)));
    }
    let mut pile = Pile::new(10).unwrap();
    assert!(refused(0, || pile.split()).0.is_err());
    for number in 0..10 {
        let push = |it| {
            pile.push(it).map_err(|why| {
                assert!(matches!(why, PushError::NoMemory(_)));
                why.into_inner()
            })
        };
        assert!(insert(&drops, number, push) >= 2);
    }
    for number in (0..10).rev() {
        assert_eq!(pile.pop().unwrap().number, number);
    }
    assert!(drops.are_all(1));
}
