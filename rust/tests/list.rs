//! Tests of lists.

mod common;

use std::panic::{catch_unwind, AssertUnwindSafe};

use common::{Drops, Panics, Random};
use cordyceps_c::{List, NotTaken, Ticket};

/// Moves the row at a place of a model to another place, as they are before.
fn moved<T>(rows: &mut Vec<T>, from: usize, to: usize) {
    let row = rows.remove(from);
    rows.insert(to, row);
}

/// Makes a random call, on the list and on the rows that it has to have.
fn call(random: &mut Random, list: &mut List<u64>, rows: &mut Vec<(Ticket, u64)>, stale: &mut Vec<Ticket>, value: u64) {
    let place = random.below(rows.len().max(1) as u64) as usize;
    let other = random.below(rows.len().max(1) as u64) as usize;
    match random.below(14) {
        0 | 1 => rows.insert(0, (list.push_front(value).unwrap(), value)),
        2 | 3 => rows.push((list.push_back(value).unwrap(), value)),
        _ if rows.is_empty() => assert_eq!((list.pop_front(), list.pop_back(), list.front()), (None, None, None)),
        4 => rows.insert(place, (list.insert_before(rows[place].0, value).unwrap(), value)),
        5 => rows.insert(place + 1, (list.insert_after(rows[place].0, value).unwrap(), value)),
        6 => {
            let (ticket, value) = rows.remove(0);
            assert_eq!(list.pop_front(), Some(value));
            stale.push(ticket);
        }
        7 => {
            let (ticket, value) = rows.pop().unwrap();
            assert_eq!(list.pop_back(), Some(value));
            stale.push(ticket);
        }
        8 | 9 => {
            let (ticket, value) = rows.remove(place);
            assert_eq!(list.remove(ticket), Some(value));
            stale.push(ticket);
        }
        10 => {
            assert!(list.move_to_front(rows[place].0));
            moved(rows, place, 0);
        }
        11 => {
            assert!(list.move_to_back(rows[place].0));
            let last = rows.len() - 1;
            moved(rows, place, last);
        }
        12 => {
            assert_eq!(list.move_after(rows[place].0, rows[other].0), place != other);
            if place != other {
                moved(rows, place, if place < other { other } else { other + 1 });
            }
        }
        _ => {
            *list.get_mut(rows[place].0).unwrap() = value;
            rows[place].1 = value;
        }
    }
}

#[test]
fn random_calls_agree_with_a_vec() {
    let mut random = Random::new(3);
    for _ in 0..200 {
        let mut list = List::new().unwrap();
        let (mut rows, mut stale) = (Vec::new(), Vec::new());
        for value in 0..300 {
            call(&mut random, &mut list, &mut rows, &mut stale, value);
            assert_eq!(list.len(), rows.len());
            if !stale.is_empty() {
                let ticket = stale[random.below(stale.len() as u64) as usize];
                assert!(list.get(ticket).is_none() && list.remove(ticket).is_none() && list.next(ticket).is_none());
                assert!(!list.move_to_front(ticket) && list.insert_after(ticket, 7) == Err(NotTaken(7)));
            }
        }
        assert!(list.iter().map(|(ticket, value)| (ticket, *value)).eq(rows.iter().copied()));
        let backward = std::iter::successors(list.back(), |&it| list.prev(it));
        assert!(backward.eq(rows.iter().rev().map(|it| it.0)));
        assert_eq!(format!("{list:?}"), format!("{:?}", rows.iter().map(|it| it.1).collect::<Vec<_>>()));
    }
}

#[test]
fn tickets_of_another_list_are_refused() {
    let mut ours = List::new().unwrap();
    let mut others = List::new().unwrap();
    let our = ours.push_back(String::from("ours")).unwrap();
    let other = others.push_back(String::from("other")).unwrap();
    assert!(our != other && ours.get(other).is_none() && others.get(our).is_none());
    assert_eq!(ours.insert_before(other, String::from("new")), Err(NotTaken(String::from("new"))));
    assert!(!ours.move_after(our, other) && ours.remove(other).is_none());
    assert_eq!((ours.remove(our), others.get(other)), (Some(String::from("ours")), Some(&String::from("other"))));
}

#[test]
fn each_value_is_dropped_once() {
    let drops = Drops::new(20);
    let mut list = List::new().unwrap();
    let tickets: Vec<_> = (0..20).map(|it| list.push_back(drops.value(it)).ok().unwrap()).collect();
    drop(list.pop_front());
    drop(list.pop_back());
    drop(list.remove(tickets[7]));
    assert!((0..20).all(|it| drops.of(it) == usize::from([0, 7, 19].contains(&it))));
    drop(list);
    assert!(drops.are_all(1));
}

#[test]
fn values_are_dropped_where_the_drop_of_one_panics() {
    let drops = Drops::new(10);
    let mut list = List::new().unwrap();
    for number in 0..10 {
        assert!(list.push_back(Panics(number == 4, drops.value(number))).is_ok());
    }
    assert!(catch_unwind(AssertUnwindSafe(|| drop(list))).is_err());
    assert!(drops.are_all(1));
}
