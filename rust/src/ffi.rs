//! The static library as `c/cordyceps.h` declares it, to which `tools/documents` holds this file. The safe types use no
//! call whose name ends in `_unchecked`, and none on nodes.
#![allow(dead_code, non_camel_case_types)]

use core::ffi::c_void;

pub const CORDYCEPS_DONE: u32 = 0;
pub const CORDYCEPS_EMPTY: u32 = 1;
pub const CORDYCEPS_UNLINKED: u32 = 2;
pub const CORDYCEPS_BUSY: u32 = 3;
pub const CORDYCEPS_FULL: u32 = 4;
pub const CORDYCEPS_NO_MEMORY: u32 = 5;
pub const CORDYCEPS_NOTHING: u32 = 6;

#[repr(C)]
#[derive(Clone, Copy, Debug, Default, PartialEq, Eq, Hash)]
pub struct cordyceps_ticket {
    pub collection: u32,
    pub slot: u32,
    pub number: u64,
}

#[repr(C)]
#[derive(Clone, Copy)]
pub struct cordyceps_spot {
    pub at: *mut c_void,
}

#[repr(C)]
pub struct cordyceps_timers {
    pub at: *mut c_void,
}

#[repr(C)]
#[derive(Default)]
pub struct cordyceps_fired {
    pub deadline: u64,
    pub payload: u64,
}

#[repr(C)]
pub struct cordyceps_queue {
    pub at: *mut c_void,
}

#[repr(C)]
#[derive(Default)]
pub struct cordyceps_item {
    pub key: u64,
    pub payload: u64,
}

#[repr(C)]
pub struct cordyceps_list {
    pub at: *mut c_void,
}

#[repr(C)]
pub struct cordyceps_inbox {
    pub at: *mut c_void,
}

#[repr(C)]
pub struct cordyceps_pile {
    pub at: *mut c_void,
}

#[repr(C)]
pub struct cordyceps_links {
    pub next: *mut c_void,
    pub prev: *mut c_void,
    pub id: u64,
    pub value: u64,
    pub home: u64,
}

#[repr(C)]
pub struct cordyceps_node {
    pub at: *mut cordyceps_links,
}

#[repr(C)]
pub struct cordyceps_node_list_memory {
    pub first: *mut c_void,
    pub last: *mut c_void,
    pub len: usize,
    pub home: u64,
}

#[repr(C)]
pub struct cordyceps_node_list {
    pub at: *mut c_void,
}

#[repr(C)]
pub struct cordyceps_node_queue_memory {
    pub lines: [u64; 64],
    pub others: [u64; 10],
    pub home: u64,
}

#[repr(C)]
pub struct cordyceps_node_queue {
    pub at: *mut c_void,
}

#[rustfmt::skip]
extern "C" {
    pub fn cordyceps_timers_new(collection: u32, out: *mut cordyceps_timers) -> bool;
    pub fn cordyceps_timers_start(timers: *mut cordyceps_timers, deadline: u64, payload: u64, out: *mut cordyceps_ticket) -> bool;
    pub fn cordyceps_timers_stop(timers: *mut cordyceps_timers, timer: cordyceps_ticket, out: *mut cordyceps_fired) -> bool;
    pub fn cordyceps_timers_restart(timers: *mut cordyceps_timers, timer: cordyceps_ticket, deadline: u64) -> bool;
    pub fn cordyceps_timers_start_unchecked(timers: *mut cordyceps_timers, deadline: u64, payload: u64, out: *mut cordyceps_spot) -> bool;
    pub fn cordyceps_timers_stop_unchecked(timers: *mut cordyceps_timers, timer: cordyceps_spot, out: *mut cordyceps_fired) -> bool;
    pub fn cordyceps_timers_restart_unchecked(timers: *mut cordyceps_timers, timer: cordyceps_spot, deadline: u64) -> bool;
    pub fn cordyceps_timers_pop_due(timers: *mut cordyceps_timers, now: u64, out: *mut cordyceps_fired) -> bool;
    pub fn cordyceps_timers_not_before(timers: *mut cordyceps_timers, out: *mut u64) -> bool;
    pub fn cordyceps_timers_len(timers: *mut cordyceps_timers) -> usize;
    pub fn cordyceps_timers_free(timers: *mut cordyceps_timers) -> bool;

    pub fn cordyceps_queue_new(collection: u32, out: *mut cordyceps_queue) -> bool;
    pub fn cordyceps_queue_push(queue: *mut cordyceps_queue, key: u64, payload: u64, out: *mut cordyceps_ticket) -> bool;
    pub fn cordyceps_queue_pop(queue: *mut cordyceps_queue, out: *mut cordyceps_item) -> bool;
    pub fn cordyceps_queue_front(queue: *mut cordyceps_queue, out: *mut cordyceps_item) -> bool;
    pub fn cordyceps_queue_remove(queue: *mut cordyceps_queue, item: cordyceps_ticket, out: *mut cordyceps_item) -> bool;
    pub fn cordyceps_queue_change(queue: *mut cordyceps_queue, item: cordyceps_ticket, key: u64) -> bool;
    pub fn cordyceps_queue_push_unchecked(queue: *mut cordyceps_queue, key: u64, payload: u64, out: *mut cordyceps_spot) -> bool;
    pub fn cordyceps_queue_remove_unchecked(queue: *mut cordyceps_queue, item: cordyceps_spot, out: *mut cordyceps_item) -> bool;
    pub fn cordyceps_queue_change_unchecked(queue: *mut cordyceps_queue, item: cordyceps_spot, key: u64) -> bool;
    pub fn cordyceps_queue_len(queue: *mut cordyceps_queue) -> usize;
    pub fn cordyceps_queue_free(queue: *mut cordyceps_queue) -> bool;

    pub fn cordyceps_list_new(collection: u32, out: *mut cordyceps_list) -> bool;
    pub fn cordyceps_list_push_front(list: *mut cordyceps_list, payload: u64, out: *mut cordyceps_ticket) -> bool;
    pub fn cordyceps_list_push_back(list: *mut cordyceps_list, payload: u64, out: *mut cordyceps_ticket) -> bool;
    pub fn cordyceps_list_insert_before(list: *mut cordyceps_list, at: cordyceps_ticket, payload: u64, out: *mut cordyceps_ticket) -> bool;
    pub fn cordyceps_list_insert_after(list: *mut cordyceps_list, at: cordyceps_ticket, payload: u64, out: *mut cordyceps_ticket) -> bool;
    pub fn cordyceps_list_pop_front(list: *mut cordyceps_list, out: *mut u64) -> bool;
    pub fn cordyceps_list_pop_back(list: *mut cordyceps_list, out: *mut u64) -> bool;
    pub fn cordyceps_list_remove(list: *mut cordyceps_list, at: cordyceps_ticket, out: *mut u64) -> bool;
    pub fn cordyceps_list_get(list: *mut cordyceps_list, at: cordyceps_ticket, out: *mut u64) -> bool;
    pub fn cordyceps_list_front(list: *mut cordyceps_list, out: *mut cordyceps_ticket) -> bool;
    pub fn cordyceps_list_back(list: *mut cordyceps_list, out: *mut cordyceps_ticket) -> bool;
    pub fn cordyceps_list_next(list: *mut cordyceps_list, at: cordyceps_ticket, out: *mut cordyceps_ticket) -> bool;
    pub fn cordyceps_list_prev(list: *mut cordyceps_list, at: cordyceps_ticket, out: *mut cordyceps_ticket) -> bool;
    pub fn cordyceps_list_move_to_front(list: *mut cordyceps_list, at: cordyceps_ticket) -> bool;
    pub fn cordyceps_list_move_to_back(list: *mut cordyceps_list, at: cordyceps_ticket) -> bool;
    pub fn cordyceps_list_move_after(list: *mut cordyceps_list, at: cordyceps_ticket, to: cordyceps_ticket) -> bool;
    pub fn cordyceps_list_len(list: *mut cordyceps_list) -> usize;
    pub fn cordyceps_list_free(list: *mut cordyceps_list) -> bool;

    pub fn cordyceps_inbox_new(rooms: usize, out: *mut cordyceps_inbox) -> bool;
    pub fn cordyceps_inbox_split(inbox: *mut cordyceps_inbox, out: *mut cordyceps_inbox) -> bool;
    pub fn cordyceps_inbox_send(inbox: *mut cordyceps_inbox, payload: u64) -> u32;
    pub fn cordyceps_inbox_receive(inbox: *mut cordyceps_inbox, out: *mut u64) -> u32;
    pub fn cordyceps_inbox_absorb(inbox: *mut cordyceps_inbox, other: *mut cordyceps_inbox) -> bool;
    pub fn cordyceps_inbox_give_back(inbox: *mut cordyceps_inbox) -> bool;
    pub fn cordyceps_inbox_free(inbox: *mut cordyceps_inbox) -> bool;

    pub fn cordyceps_pile_new(rooms: usize, out: *mut cordyceps_pile) -> bool;
    pub fn cordyceps_pile_split(pile: *mut cordyceps_pile, out: *mut cordyceps_pile) -> bool;
    pub fn cordyceps_pile_push(pile: *mut cordyceps_pile, payload: u64) -> u32;
    pub fn cordyceps_pile_pop(pile: *mut cordyceps_pile, out: *mut u64) -> bool;
    pub fn cordyceps_pile_absorb(pile: *mut cordyceps_pile, other: *mut cordyceps_pile) -> bool;
    pub fn cordyceps_pile_give_back(pile: *mut cordyceps_pile) -> bool;
    pub fn cordyceps_pile_free(pile: *mut cordyceps_pile) -> bool;

    pub fn cordyceps_node_free(node: *mut cordyceps_node);

    pub fn cordyceps_node_list_new(out: *mut cordyceps_node_list) -> bool;
    pub fn cordyceps_node_list_free(list: *mut cordyceps_node_list) -> bool;
    pub fn cordyceps_node_list_len(list: *mut cordyceps_node_list) -> usize;
    pub fn cordyceps_node_list_push_front(list: *mut cordyceps_node_list, node: *mut cordyceps_node, out: *mut cordyceps_spot);
    pub fn cordyceps_node_list_push_back(list: *mut cordyceps_node_list, node: *mut cordyceps_node, out: *mut cordyceps_spot);
    pub fn cordyceps_node_list_insert_before(list: *mut cordyceps_node_list, at: cordyceps_spot, node: *mut cordyceps_node, out: *mut cordyceps_spot);
    pub fn cordyceps_node_list_insert_after(list: *mut cordyceps_node_list, at: cordyceps_spot, node: *mut cordyceps_node, out: *mut cordyceps_spot);
    pub fn cordyceps_node_list_pop_front(list: *mut cordyceps_node_list, out: *mut cordyceps_node) -> bool;
    pub fn cordyceps_node_list_pop_back(list: *mut cordyceps_node_list, out: *mut cordyceps_node) -> bool;
    pub fn cordyceps_node_list_remove(list: *mut cordyceps_node_list, at: cordyceps_spot, out: *mut cordyceps_node);
    pub fn cordyceps_node_list_front(list: *mut cordyceps_node_list, out: *mut cordyceps_spot) -> bool;
    pub fn cordyceps_node_list_back(list: *mut cordyceps_node_list, out: *mut cordyceps_spot) -> bool;
    pub fn cordyceps_node_list_next(list: *mut cordyceps_node_list, at: cordyceps_spot, out: *mut cordyceps_spot) -> bool;
    pub fn cordyceps_node_list_prev(list: *mut cordyceps_node_list, at: cordyceps_spot, out: *mut cordyceps_spot) -> bool;
    pub fn cordyceps_node_list_move_to_front(list: *mut cordyceps_node_list, at: cordyceps_spot);
    pub fn cordyceps_node_list_move_to_back(list: *mut cordyceps_node_list, at: cordyceps_spot);

    pub fn cordyceps_node_queue_new(out: *mut cordyceps_node_queue) -> bool;
    pub fn cordyceps_node_queue_free(queue: *mut cordyceps_node_queue) -> bool;
    pub fn cordyceps_node_queue_len(queue: *mut cordyceps_node_queue) -> usize;
    pub fn cordyceps_node_queue_push(queue: *mut cordyceps_node_queue, node: *mut cordyceps_node, out: *mut cordyceps_spot);
    pub fn cordyceps_node_queue_pop(queue: *mut cordyceps_node_queue, out: *mut cordyceps_node) -> bool;
    pub fn cordyceps_node_queue_pop_until(queue: *mut cordyceps_node_queue, most: u64, out: *mut cordyceps_node) -> bool;
    pub fn cordyceps_node_queue_first(queue: *mut cordyceps_node_queue, out: *mut u64) -> bool;
    pub fn cordyceps_node_queue_remove(queue: *mut cordyceps_node_queue, at: cordyceps_spot, out: *mut cordyceps_node);
    pub fn cordyceps_node_queue_change(queue: *mut cordyceps_node_queue, at: cordyceps_spot, value: u64);

    pub fn cordyceps_inbox_send_node(inbox: *mut cordyceps_inbox, node: *mut cordyceps_node) -> u32;
    pub fn cordyceps_inbox_receive_node(inbox: *mut cordyceps_inbox, out: *mut cordyceps_node) -> u32;
    pub fn cordyceps_pile_push_node(pile: *mut cordyceps_pile, node: *mut cordyceps_node) -> u32;
    pub fn cordyceps_pile_pop_node(pile: *mut cordyceps_pile, out: *mut cordyceps_node) -> bool;
}
