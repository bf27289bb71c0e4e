/* Timers, priority queues and lists, and inboxes and piles that threads share. C99, C++17.
 *
 * Each collection is behind a handle, whose memory is the caller's: on the stack, in a struct, or static. A handle
 * is of one collection, or of nothing, and then it is zero. A call on the handle of nothing answers `false` or
 * CORDYCEPS_NOTHING, and changes nothing; so does a `new` on a handle that is of something. Nothing is global, no
 * call waits, and none calls back. Structs of the caller's own can be the nodes of lists, queues, inboxes and piles,
 * which takes no malloc. The calls for this check less: 'Nodes in your own structs' says what they require.
 *
 *     cordyceps_timers timers = {0};
 *     cordyceps_ticket ticket;
 *     cordyceps_fired fired;
 *     if (!cordyceps_timers_new(0, &timers))
 *       return -1;
 *     cordyceps_timers_start(&timers, now_ms() + 50, (uintptr_t)connection, &ticket);
 *     cordyceps_timers_restart(&timers, ticket, now_ms() + 80);
 *     while (cordyceps_timers_pop_due(&timers, now_ms(), &fired))
 *       expire((struct connection *)(uintptr_t)fired.payload);
 *     cordyceps_timers_free(&timers);
 *
 * The caller keeps this:
 *
 * - A handle is zero before its first call. From then on only these calls write it. A copy is not used beside it: to
 *   move a handle, copy it and set the first one to zero.
 * - No pointer is null, and two pointers of a call lead to different memory.
 * - One call at a time is made on a handle, but for calls that only read. Another thread may make the next one, if a
 *   lock, the start or the join of a thread, or a sequentially consistent atomic lies between the two. Calls on
 *   different handles may run at the same time, also where these are of one inbox or one pile.
 * - These calls only read: cordyceps_timers_len and cordyceps_timers_not_before, cordyceps_queue_len, of lists and of
 *   lists of nodes those that end in _get, _front, _back, _next, _prev and _len, and cordyceps_node_queue_len. They
 *   store nothing but *out. So threads may make them on one handle at the same time, as under a read lock, while no
 *   other call is made on it. Tests show this, and no contract says it. cordyceps_queue_front and
 *   cordyceps_node_queue_first put the queue in order, and are as all other calls.
 * - A spot is of the collection that gets it, and its element is still in it.
 * - No call is made from a signal handler, or in the child of a fork of a process with threads.
 * - malloc, realloc and free are of one allocator. malloc and realloc align a block to each power of two up to 16
 *   that divides its size.
 * - A payload is a number to these calls. The caller owns the memory that it points to, also where a collection is
 *   freed with the payload.
 *
 * What each type is called in Rust, which collection of the library it is, in which crate, and in which rows of the
 * repository's docs/SPEED.md:
 *
 *     cordyceps_timers                        Timers  ClockQueue     cordyceps_clock   none
 *     cordyceps_queue, cordyceps_node_queue   Queue   StableHeap     cordyceps_heap    none
 *     cordyceps_list, cordyceps_node_list     List    StableList     cordyceps_stable  StableList
 *     cordyceps_inbox                         Inbox   MpscQueue      cordyceps_queue   MpscQueue, queue
 *     cordyceps_pile                          Pile    TransferStack  cordyceps_stack   TransferStack, transfer stack
 */
#ifndef CORDYCEPS_H
#define CORDYCEPS_H

#include <stdbool.h>
#include <stddef.h>
#include <stdint.h>

#ifdef __cplusplus
extern "C" {
#endif

/* ---- Tickets */

/* Names an element of a collection, from the call that put it in until it comes out. No other element of the
 * collection ever has the same ticket. Each call checks the ticket that it gets: one that is stale, or of a collection
 * that was made with another number, is answered `false`, and whatever a ticket holds, no call with it is undefined. It
 * is a plain value, which can be copied and kept anywhere. {0} is a ticket that no element has. */
typedef struct {
  uint32_t collection; /* the number that the collection was made with */
  uint32_t slot;       /* where the collection finds the element */
  uint64_t number;     /* how many tickets it had given then, with this one */
} cordyceps_ticket;

/* Where an element of a collection is, for the calls whose names end in _unchecked, and for those on nodes. The caller
 * keeps that the element is still in that collection: nothing checks it, and a stale spot is as bad as a pointer to
 * freed memory. These calls need no ticket and no table. A spot stays the same until the element comes out. */
typedef struct {
  void *at;
} cordyceps_spot;

/* ---- Timers, which fire by their deadlines */

/* A handle of timers, or of nothing: {0}. */
typedef struct {
  void *at;
} cordyceps_timers;

/* A timer that came out, as it was started. */
typedef struct {
  uint64_t deadline;
  uint64_t payload;
} cordyceps_fired;

/* Makes timers of which none runs, at the time 0, in a handle of nothing. Their tickets have the number `collection`:
 * where collections have different numbers, each answers `false` to the tickets of the others. false: memory was
 * refused, or the handle is not of nothing; nothing has changed. O(1), one malloc. */
bool cordyceps_timers_new(uint32_t collection, cordyceps_timers *out);

/* Starts a timer, which fires at its deadline, or at the clock if the deadline has passed, after all that do not
 * fire later, and writes its ticket to *out. false: memory was refused, SIZE_MAX timers run, no ticket is left, or the
 * handle is of nothing; nothing has changed. O(1) amortized, one malloc, and at times a larger table of tickets. */
bool cordyceps_timers_start(cordyceps_timers *timers, uint64_t deadline, uint64_t payload, cordyceps_ticket *out);

/* Removes the timer that has the ticket into *out. false: no timer has it, or the handle is of nothing; nothing has
 * changed. O(1), one free. */
bool cordyceps_timers_stop(cordyceps_timers *timers, cordyceps_ticket timer, cordyceps_fired *out);

/* Gives another deadline to the timer that has the ticket, as if it were started now. The ticket stays valid. false: no
 * timer has it, or the handle is of nothing; nothing has changed. O(1). */
bool cordyceps_timers_restart(cordyceps_timers *timers, cordyceps_ticket timer, uint64_t deadline);

/* As cordyceps_timers_start, without a ticket: writes the spot of the timer to *out. false: memory was refused,
 * SIZE_MAX timers run, or the handle is of nothing; nothing has changed. O(1), one malloc. */
bool cordyceps_timers_start_unchecked(
    cordyceps_timers *timers, uint64_t deadline, uint64_t payload, cordyceps_spot *out);

/* Removes the timer at a spot into *out. false: the handle is of nothing; nothing has changed. O(1), one free. The
 * caller keeps that the spot is of these timers and that its timer still runs. */
bool cordyceps_timers_stop_unchecked(cordyceps_timers *timers, cordyceps_spot timer, cordyceps_fired *out);

/* Gives another deadline to the timer at a spot, as if it were started now. The spot stays the same. false: the handle
 * is of nothing; nothing has changed. O(1). The caller keeps that the spot is of these timers and that its timer still
 * runs. */
bool cordyceps_timers_restart_unchecked(cordyceps_timers *timers, cordyceps_spot timer, uint64_t deadline);

/* Removes the first timer into *out, if it fires at the time `now` or before. The clock is then the time at which
 * it fired. false: none fires by then, and the clock is `now`, unless it is later; or the handle is of nothing.
 * *out is unchanged then. O(1) amortized: a timer is moved at most 64 times before it comes out. One free. */
bool cordyceps_timers_pop_due(cordyceps_timers *timers, uint64_t now, cordyceps_fired *out);

/* Writes a time before which no timer fires to *out, for the timeout of a wait. It is the time of the first timer
 * without the bits below the highest in which that differs from the clock. Whoever waits until then and calls
 * cordyceps_timers_pop_due wakes at most 64 times before the first timer fires. false: no timer runs, or the handle is
 * of nothing; *out is unchanged. O(1). */
bool cordyceps_timers_not_before(cordyceps_timers *timers, uint64_t *out);

/* How many timers run; 0 for the handle of nothing. O(1). */
size_t cordyceps_timers_len(cordyceps_timers *timers);

/* Frees the timers, with those that run. The handle is of nothing then. false: it was of nothing. O(n), for n
 * timers. */
bool cordyceps_timers_free(cordyceps_timers *timers);

/* ---- Priority queues */

/* A handle of a priority queue, or of nothing: {0}. */
typedef struct {
  void *at;
} cordyceps_queue;

/* An item of a queue, as it was pushed. The least key comes out first, and of equal keys the one pushed first. */
typedef struct {
  uint64_t key;
  uint64_t payload;
} cordyceps_item;

/* Makes an empty queue in a handle of nothing. Its tickets have the number `collection`, as tickets of timers have.
 * false: memory was refused, or the handle is not of nothing; nothing has changed. O(1), one malloc. */
bool cordyceps_queue_new(uint32_t collection, cordyceps_queue *out);

/* Inserts an item after all whose keys are not greater, and writes its ticket to *out. false: memory was refused, the
 * queue has SIZE_MAX items, no ticket is left, or the handle is of nothing; nothing has changed. O(1) amortized, one
 * malloc, and at times a larger table of tickets. */
bool cordyceps_queue_push(cordyceps_queue *queue, uint64_t key, uint64_t payload, cordyceps_ticket *out);

/* Removes the first item into *out. false: the queue is empty, or the handle is of nothing; *out is unchanged.
 * O(log n) amortized, for n items that were pushed. One free. */
bool cordyceps_queue_pop(cordyceps_queue *queue, cordyceps_item *out);

/* Copies the first item to *out. false: the queue is empty, or the handle is of nothing; *out is unchanged. O(log n)
 * amortized, as cordyceps_queue_pop. */
bool cordyceps_queue_front(cordyceps_queue *queue, cordyceps_item *out);

/* Removes the item that has the ticket into *out. false: no item has it, or the handle is of nothing; nothing has
 * changed. O(1), one free. */
bool cordyceps_queue_remove(cordyceps_queue *queue, cordyceps_ticket item, cordyceps_item *out);

/* Gives another key to the item that has the ticket, as if it were pushed now. The ticket stays valid. false: no item
 * has it, or the handle is of nothing; nothing has changed. O(1). */
bool cordyceps_queue_change(cordyceps_queue *queue, cordyceps_ticket item, uint64_t key);

/* As cordyceps_queue_push, without a ticket: writes the spot of the item to *out. false: memory was refused, the queue
 * has SIZE_MAX items, or the handle is of nothing; nothing has changed. O(1), one malloc. */
bool cordyceps_queue_push_unchecked(cordyceps_queue *queue, uint64_t key, uint64_t payload, cordyceps_spot *out);

/* Removes the item at a spot into *out. false: the handle is of nothing; nothing has changed. O(1), one free. The
 * caller keeps that the spot is of this queue and that its item is still in it. */
bool cordyceps_queue_remove_unchecked(cordyceps_queue *queue, cordyceps_spot item, cordyceps_item *out);

/* Gives another key to the item at a spot, as if it were pushed now. The spot stays the same. false: the handle is of
 * nothing; nothing has changed. O(1). The caller keeps that the spot is of this queue and that its item is still in
 * it. */
bool cordyceps_queue_change_unchecked(cordyceps_queue *queue, cordyceps_spot item, uint64_t key);

/* How many items there are; 0 for the handle of nothing. O(1). */
size_t cordyceps_queue_len(cordyceps_queue *queue);

/* Frees the queue, with its items. The handle is of nothing then. false: it was of nothing. O(n), for n items. */
bool cordyceps_queue_free(cordyceps_queue *queue);

/* ---- Lists, in an order that the calls make */

/* A handle of a list, or of nothing: {0}. Each element has a payload, and a ticket that names it until it comes out,
 * also where it is moved. No ticket is given twice: one whose element came out is stale for ever, and each call with it
 * answers false and changes nothing. */
typedef struct {
  void *at;
} cordyceps_list;

/* Makes an empty list in a handle of nothing. Its tickets have the number `collection`, as tickets of timers have.
 * false: memory was refused, or the handle is not of nothing; nothing has changed. O(1), one malloc. */
bool cordyceps_list_new(uint32_t collection, cordyceps_list *out);

/* Puts a payload in first, and writes its ticket to *out. false: memory was refused, the list has SIZE_MAX elements, no
 * ticket is left, or the handle is of nothing; nothing has changed. O(1) amortized, one malloc, and at times a larger
 * table of tickets. */
bool cordyceps_list_push_front(cordyceps_list *list, uint64_t payload, cordyceps_ticket *out);

/* Puts a payload in last, and writes its ticket to *out. false: as cordyceps_list_push_front. Costs as much as that. */
bool cordyceps_list_push_back(cordyceps_list *list, uint64_t payload, cordyceps_ticket *out);

/* Puts a payload in right before the element that has the ticket `at`, and writes its own ticket to *out. false: no
 * element has `at`, or as cordyceps_list_push_front; nothing has changed. Costs as much as that. */
bool cordyceps_list_insert_before(cordyceps_list *list, cordyceps_ticket at, uint64_t payload, cordyceps_ticket *out);

/* Puts a payload in right after the element that has the ticket `at`, and writes its own ticket to *out. false: no
 * element has `at`, or as cordyceps_list_push_front; nothing has changed. Costs as much as that. */
bool cordyceps_list_insert_after(cordyceps_list *list, cordyceps_ticket at, uint64_t payload, cordyceps_ticket *out);

/* Removes the first element, whose ticket is stale then, and writes its payload to *out. false: the list is empty, or
 * the handle is of nothing; *out is unchanged. O(1), one free. */
bool cordyceps_list_pop_front(cordyceps_list *list, uint64_t *out);

/* Removes the last element, whose ticket is stale then, and writes its payload to *out. false: the list is empty, or
 * the handle is of nothing; *out is unchanged. O(1), one free. */
bool cordyceps_list_pop_back(cordyceps_list *list, uint64_t *out);

/* Removes the element that has the ticket `at`, which is stale then, and writes its payload to *out. false: no element
 * has it, as after a removal, or the handle is of nothing; nothing has changed. O(1), one free. */
bool cordyceps_list_remove(cordyceps_list *list, cordyceps_ticket at, uint64_t *out);

/* Copies the payload of the element that has the ticket `at` to *out. false: no element has it, or the handle is of
 * nothing; *out is unchanged. O(1). */
bool cordyceps_list_get(cordyceps_list *list, cordyceps_ticket at, uint64_t *out);

/* Copies the ticket of the first element to *out. false: the list is empty, or the handle is of nothing; *out is
 * unchanged. O(1). */
bool cordyceps_list_front(cordyceps_list *list, cordyceps_ticket *out);

/* Copies the ticket of the last element to *out. false: the list is empty, or the handle is of nothing; *out is
 * unchanged. O(1). */
bool cordyceps_list_back(cordyceps_list *list, cordyceps_ticket *out);

/* Copies the ticket of the element after the one that has the ticket `at` to *out. false: that is the last, no element
 * has `at`, or the handle is of nothing; *out is unchanged. O(1). */
bool cordyceps_list_next(cordyceps_list *list, cordyceps_ticket at, cordyceps_ticket *out);

/* Copies the ticket of the element before the one that has the ticket `at` to *out. false: that is the first, no
 * element has `at`, or the handle is of nothing; *out is unchanged. O(1). */
bool cordyceps_list_prev(cordyceps_list *list, cordyceps_ticket at, cordyceps_ticket *out);

/* Moves the element that has the ticket `at` to the front. It keeps the ticket, and the others their order. false: no
 * element has it, or the handle is of nothing; nothing has changed. O(1). */
bool cordyceps_list_move_to_front(cordyceps_list *list, cordyceps_ticket at);

/* Moves the element that has the ticket `at` to the back. It keeps the ticket, and the others their order. false: no
 * element has it, or the handle is of nothing; nothing has changed. O(1). */
bool cordyceps_list_move_to_back(cordyceps_list *list, cordyceps_ticket at);

/* Moves the element that has the ticket `at` to right after the one that has the ticket `to`. It keeps its ticket, and
 * the others their order. false: one of the tickets is of no element, they are the same, or the handle is of nothing;
 * nothing has changed. O(1). */
bool cordyceps_list_move_after(cordyceps_list *list, cordyceps_ticket at, cordyceps_ticket to);

/* How many elements the list has; 0 for the handle of nothing. O(1). */
size_t cordyceps_list_len(cordyceps_list *list);

/* Frees the list with its elements. The handle is of nothing then. false: it was of nothing. O(n), for the most
 * elements that were in it at a time. */
bool cordyceps_list_free(cordyceps_list *list);

/* ---- Inboxes: many threads send, and one at a time receives */

/* A handle of an inbox, or of nothing: {0}. Each thread has one of its own. A room is a permit to send one payload:
 * sending takes one of the handle, which first takes some of the inbox's pool if it has none, and receiving gives one
 * to the handle that receives. This handle keeps at most 16, and none once it finds nothing: it gives the others to the
 * pool. */
typedef struct {
  void *at;
} cordyceps_inbox;

/* How sending and receiving end, and pushing onto a pile. */
enum {
  CORDYCEPS_DONE = 0,      /* the payload was sent or pushed, or is in *out */
  CORDYCEPS_EMPTY = 1,     /* no payload was there */
  CORDYCEPS_UNLINKED = 2,  /* a thread that sends is between two steps, before the next payload: try again */
  CORDYCEPS_BUSY = 3,      /* another handle receives, or came between two steps of a push: try again */
  CORDYCEPS_FULL = 4,      /* neither the handle nor the pool has a room */
  CORDYCEPS_NO_MEMORY = 5, /* memory was refused */
  CORDYCEPS_NOTHING = 6    /* the handle is of nothing */
};

/* Makes an inbox of so many rooms, up to 1,048,576, which this handle has, in a handle of nothing. false: there are
 * more, memory was refused, or the handle is not of nothing; nothing has changed. O(rooms), six mallocs. */
bool cordyceps_inbox_new(size_t rooms, cordyceps_inbox *out);

/* Makes a further handle of the same inbox, without rooms, in a handle of nothing. false: memory was refused,
 * `inbox` is of nothing, or *out is not; no room and no payload has changed its place. O(1), one malloc. */
bool cordyceps_inbox_split(cordyceps_inbox *inbox, cordyceps_inbox *out);

/* Sends a payload: CORDYCEPS_DONE. Payloads of one handle come out in the order in which it sent them.
 * CORDYCEPS_FULL, CORDYCEPS_NO_MEMORY, CORDYCEPS_NOTHING: it was not sent. O(1), one malloc. */
uint32_t cordyceps_inbox_send(cordyceps_inbox *inbox, uint64_t payload);

/* Receives the next payload into *out: CORDYCEPS_DONE. CORDYCEPS_EMPTY, CORDYCEPS_UNLINKED, CORDYCEPS_BUSY,
 * CORDYCEPS_NOTHING: *out is unchanged. Once all other handles of the inbox were absorbed, it is DONE or EMPTY. If the
 * handle has more than 16 rooms after DONE, or any after EMPTY, it gives all to the pool, as cordyceps_inbox_give_back
 * does. O(1), one free. */
uint32_t cordyceps_inbox_receive(cordyceps_inbox *inbox, uint64_t *out);

/* Takes over the rooms of *other, which is of the same inbox, and frees that handle, which is of nothing then.
 * false: one of them is of nothing; nothing has changed. O(1), one free. The caller keeps that the two are of one
 * inbox. */
bool cordyceps_inbox_absorb(cordyceps_inbox *inbox, cordyceps_inbox *other);

/* Gives all rooms of the handle to the pool, from which each handle may take them. false: the handle is of nothing;
 * or other handles gave rooms to the pool each of 8 times that this one tried, and it has no fewer than before: try
 * again. Once all other handles of the inbox were absorbed, it is true. O(1). */
bool cordyceps_inbox_give_back(cordyceps_inbox *inbox);

/* Gives all rooms of the handle to the pool, and frees the handle, which is of nothing then. The last handle of an
 * inbox frees it, with the payloads in it. false: as cordyceps_inbox_give_back; the handle is not freed. O(1), and
 * for the last handle O(rooms). */
bool cordyceps_inbox_free(cordyceps_inbox *inbox);

/* ---- Piles: many threads push, and each may take all at once */

/* A handle of a pile, or of nothing: {0}. Each thread has one of its own. A room is a permit to push one payload:
 * pushing takes one of the handle, which first takes some of the pile's pool if it has none, and taking gives the rooms
 * of all that was taken to the handle that takes. This handle then has these payloads, and hands them out one by
 * one. */
typedef struct {
  void *at;
} cordyceps_pile;

/* Makes a pile of so many rooms, up to 1,048,576, which this handle has, in a handle of nothing. false: there are
 * more, memory was refused, or the handle is not of nothing; nothing has changed. O(rooms), five mallocs. */
bool cordyceps_pile_new(size_t rooms, cordyceps_pile *out);

/* Makes a further handle of the same pile, without rooms, in a handle of nothing. false: memory was refused, `pile`
 * is of nothing, or *out is not; no room and no payload has changed its place. O(1), one malloc. */
bool cordyceps_pile_split(cordyceps_pile *pile, cordyceps_pile *out);

/* Tries once to push a payload: CORDYCEPS_DONE. CORDYCEPS_FULL, CORDYCEPS_BUSY, CORDYCEPS_NO_MEMORY,
 * CORDYCEPS_NOTHING: it was not pushed. Once all other handles of the pile were absorbed, it is not BUSY. O(1), one
 * malloc. */
uint32_t cordyceps_pile_push(cordyceps_pile *pile, uint64_t payload);

/* Hands out the next payload of those that the handle took, into *out. If none is left, the handle first takes all
 * that the pile has at that moment, of which the one pushed last comes first. false: there was none, or the handle is
 * of nothing; *out is unchanged. O(1), or O(n) where it takes n payloads. One free. */
bool cordyceps_pile_pop(cordyceps_pile *pile, uint64_t *out);

/* Takes over the rooms of *other, which is of the same pile, and frees that handle, which is of nothing then. false:
 * one of them is of nothing, or *other took payloads that it has not handed out yet; nothing has changed. O(1), one
 * free. The caller keeps that the two are of one pile. */
bool cordyceps_pile_absorb(cordyceps_pile *pile, cordyceps_pile *other);

/* Gives all rooms of the handle to the pool, from which each handle may take them. false: the handle is of nothing;
 * or other handles gave rooms to the pool each of 8 times that this one tried, and it has no fewer than before: try
 * again. Once all other handles of the pile were absorbed, it is true. O(1). */
bool cordyceps_pile_give_back(cordyceps_pile *pile);

/* Gives all rooms of the handle to the pool, and frees the handle, which is of nothing then, with the payloads that
 * it took and has not handed out. The last handle of a pile frees it, with the payloads in it. false: as
 * cordyceps_pile_give_back; the handle is not freed. O(n) for n payloads that it took, and for the last handle
 * O(rooms). */
bool cordyceps_pile_free(cordyceps_pile *pile);

/* ---- Nodes in your own structs
 *
 * A struct with a member of the type cordyceps_links is a node, which lists, priority queues, inboxes and piles link
 * as it is. Only cordyceps_node_list_new and cordyceps_node_queue_new allocate, and a list or a queue in memory of the
 * caller's needs neither.
 *
 *     struct job { int fd; cordyceps_links links; };
 *     struct job job = {fd, CORDYCEPS_LINKS_INIT};
 *     cordyceps_node_list_memory memory = CORDYCEPS_NODE_LIST_INIT;
 *     cordyceps_node_list jobs = {&memory};
 *     cordyceps_links *first;
 *     cordyceps_node_list_add_last(&jobs, &job.links);
 *     while ((first = cordyceps_node_list_take_first(&jobs)))
 *       run(cordyceps_container(first, struct job, links));
 *
 * Besides the conditions at the top of this file, the caller keeps these, which the calls do not check:
 *
 * - The links of a node are set from CORDYCEPS_LINKS_INIT before the node first goes into a handle. The caller puts it
 *   into a handle of nothing by writing the address of its links there, and takes it out by writing NULL or by not
 *   using the handle again. A node is in one handle or one collection at a time.
 * - While a node is in a collection, the caller does not read, write, move or free its links. The rest of the struct
 *   is the caller's all the time. Once the node came out, its links are the caller's too, and can go into any
 *   collection as they are.
 * - A handle of a node, a list or a queue is of something where a call gets it, and of nothing, {NULL}, where the call
 *   has it as `out`. The calls that end in _free take both.
 * - A list or a queue in memory of the caller's has one handle, which begins as {&memory}. The memory is set from its
 *   macro before the first call, and then the caller does not read, write, move or free it, until the list or the queue
 *   is freed.
 *
 * A list or a queue has fewer than SIZE_MAX nodes, as its calls require: more do not fit into memory. */

/* What a collection links a node by. The caller may read and write `value` and `id` while the node is in no
 * collection. */
typedef struct cordyceps_links {
  void *next;
  void *prev;
  uint64_t id;    /* the caller's */
  uint64_t value; /* the key in a queue, the payload in an inbox or a pile, and the caller's in a list */
  uint64_t home;  /* 1: the memory is the caller's; 0: it is of malloc, and cordyceps_node_free frees it */
} cordyceps_links;

#define CORDYCEPS_LINKS_INIT {NULL, NULL, 0, 0, 1}

/* A handle of a node, or of nothing: {NULL}. */
typedef struct {
  cordyceps_links *at;
} cordyceps_node;

/* The struct of a type that has these links as its member. `links` is not NULL. In C++ the type has standard layout. */
#define cordyceps_container(links, type, member) ((type *)(void *)((char *)(links) - offsetof(type, member)))

/* Frees a node that cordyceps_inbox_send or cordyceps_pile_push made. A node in a struct of the caller's is not freed,
 * and is the caller's again. The handle is of nothing then. To the handle of nothing it does nothing. O(1), at most one
 * free. */
void cordyceps_node_free(cordyceps_node *node);

/* ---- Lists of nodes */

/* Memory for a list, as it is before its first call. */
typedef struct {
  void *first;
  void *last;
  size_t len;
  uint64_t home; /* as in cordyceps_links */
} cordyceps_node_list_memory;

#define CORDYCEPS_NODE_LIST_INIT {NULL, NULL, 0, 1}

/* A handle of a list of nodes: {&memory}, or one that cordyceps_node_list_new made. Or of nothing: {NULL}. */
typedef struct {
  void *at;
} cordyceps_node_list;

/* Makes an empty list in a handle of nothing. false: memory was refused; nothing has changed. O(1), one malloc. */
bool cordyceps_node_list_new(cordyceps_node_list *out);

/* Frees an empty list, or gives the memory back in which the caller made it. The handle is of nothing then. false: the
 * list has nodes, or the handle was of nothing; nothing has changed. O(1), and one free of a list that
 * cordyceps_node_list_new made. */
bool cordyceps_node_list_free(cordyceps_node_list *list);

/* How many nodes there are. O(1). */
size_t cordyceps_node_list_len(cordyceps_node_list *list);

/* Puts a node in first, and writes its spot to *out. The handle of the node is of nothing then. O(1). */
void cordyceps_node_list_push_front(cordyceps_node_list *list, cordyceps_node *node, cordyceps_spot *out);

/* Puts a node in last, and writes its spot to *out. The handle of the node is of nothing then. O(1). */
void cordyceps_node_list_push_back(cordyceps_node_list *list, cordyceps_node *node, cordyceps_spot *out);

/* Puts a node in right before the one at `at`, which is in this list, and writes its spot to *out. The handle of the
 * node is of nothing then. O(1). */
void cordyceps_node_list_insert_before(
    cordyceps_node_list *list, cordyceps_spot at, cordyceps_node *node, cordyceps_spot *out);

/* Puts a node in right after the one at `at`, which is in this list, and writes its spot to *out. The handle of the
 * node is of nothing then. O(1). */
void cordyceps_node_list_insert_after(
    cordyceps_node_list *list, cordyceps_spot at, cordyceps_node *node, cordyceps_spot *out);

/* Removes the first node into *out. false: the list is empty, and *out is of nothing. O(1). */
bool cordyceps_node_list_pop_front(cordyceps_node_list *list, cordyceps_node *out);

/* Removes the last node into *out. false: the list is empty, and *out is of nothing. O(1). */
bool cordyceps_node_list_pop_back(cordyceps_node_list *list, cordyceps_node *out);

/* Removes the node at `at`, which is in this list, into *out. O(1). */
void cordyceps_node_list_remove(cordyceps_node_list *list, cordyceps_spot at, cordyceps_node *out);

/* Writes the spot of the first node to *out. false: the list is empty; *out is unchanged. O(1). */
bool cordyceps_node_list_front(cordyceps_node_list *list, cordyceps_spot *out);

/* Writes the spot of the last node to *out. false: the list is empty; *out is unchanged. O(1). */
bool cordyceps_node_list_back(cordyceps_node_list *list, cordyceps_spot *out);

/* Writes the spot of the node after the one at `at`, which is in this list, to *out. false: that is the last; *out is
 * unchanged. O(1). */
bool cordyceps_node_list_next(cordyceps_node_list *list, cordyceps_spot at, cordyceps_spot *out);

/* Writes the spot of the node before the one at `at`, which is in this list, to *out. false: that is the first; *out is
 * unchanged. O(1). */
bool cordyceps_node_list_prev(cordyceps_node_list *list, cordyceps_spot at, cordyceps_spot *out);

/* Moves the node at `at`, which is in this list, to the front. It keeps its spot, and the others their order. O(1). */
void cordyceps_node_list_move_to_front(cordyceps_node_list *list, cordyceps_spot at);

/* Moves the node at `at`, which is in this list, to the back. It keeps its spot, and the others their order. O(1). */
void cordyceps_node_list_move_to_back(cordyceps_node_list *list, cordyceps_spot at);

/* ---- Priority queues of nodes */

/* Memory for a queue, as it is before its first call. */
typedef struct {
  uint64_t lines[64];
  uint64_t others[10];
  uint64_t home; /* as in cordyceps_links */
} cordyceps_node_queue_memory;

#define CORDYCEPS_NODE_QUEUE_INIT {{0}, {1}, 1}

/* A handle of a queue of nodes: {&memory}, or one that cordyceps_node_queue_new made. Or of nothing: {NULL}. The node
 * of the least value comes out first, and of equal values the one pushed first. */
typedef struct {
  void *at;
} cordyceps_node_queue;

/* Makes an empty queue in a handle of nothing. false: memory was refused; nothing has changed. O(1), one malloc. */
bool cordyceps_node_queue_new(cordyceps_node_queue *out);

/* Frees an empty queue, or gives the memory back in which the caller made it. The handle is of nothing then. false: the
 * queue has nodes, or the handle was of nothing; nothing has changed. O(1), and one free of a queue that
 * cordyceps_node_queue_new made. */
bool cordyceps_node_queue_free(cordyceps_node_queue *queue);

/* How many nodes there are. O(1). */
size_t cordyceps_node_queue_len(cordyceps_node_queue *queue);

/* Inserts a node after all whose values are not greater, and writes its spot to *out. The handle of the node is of
 * nothing then. O(1). */
void cordyceps_node_queue_push(cordyceps_node_queue *queue, cordyceps_node *node, cordyceps_spot *out);

/* Removes the first node into *out. false: the queue is empty, and *out is of nothing. O(log n) amortized, for n nodes
 * that were pushed. */
bool cordyceps_node_queue_pop(cordyceps_node_queue *queue, cordyceps_node *out);

/* Removes the first node into *out, if its value is at most `most`. false: it is greater, or the queue is empty; the
 * queue has the same nodes, and *out is of nothing. O(log n) amortized, as cordyceps_node_queue_pop. */
bool cordyceps_node_queue_pop_until(cordyceps_node_queue *queue, uint64_t most, cordyceps_node *out);

/* Copies the value of the first node to *out. false: the queue is empty; *out is unchanged. O(log n) amortized, as
 * cordyceps_node_queue_pop. */
bool cordyceps_node_queue_first(cordyceps_node_queue *queue, uint64_t *out);

/* Removes the node at `at`, which is in this queue, into *out. O(1). */
void cordyceps_node_queue_remove(cordyceps_node_queue *queue, cordyceps_spot at, cordyceps_node *out);

/* Gives another value to the node at `at`, which is in this queue, as if it were pushed now. It keeps its spot.
 * O(1). */
void cordyceps_node_queue_change(cordyceps_node_queue *queue, cordyceps_spot at, uint64_t value);

/* ---- Nodes in inboxes and piles
 *
 * An inbox or a pile links the caller's nodes beside those that cordyceps_inbox_send and cordyceps_pile_push make. Each
 * node comes out by either call: cordyceps_inbox_receive and cordyceps_pile_pop copy the value and free a node that was
 * made, and the caller's own is the caller's again then. So are those that are in an inbox or a pile as it is freed. */

/* Sends a node: CORDYCEPS_DONE, and the handle of the node is of nothing. CORDYCEPS_FULL, CORDYCEPS_NOTHING, as
 * cordyceps_inbox_send: the node is still in its handle. O(1). */
uint32_t cordyceps_inbox_send_node(cordyceps_inbox *inbox, cordyceps_node *node);

/* Receives the next node into *out: CORDYCEPS_DONE. Else as cordyceps_inbox_receive: *out is of nothing. O(1). */
uint32_t cordyceps_inbox_receive_node(cordyceps_inbox *inbox, cordyceps_node *out);

/* Tries once to push a node: CORDYCEPS_DONE, and the handle of the node is of nothing. CORDYCEPS_FULL, CORDYCEPS_BUSY,
 * CORDYCEPS_NOTHING, as cordyceps_pile_push: the node is still in its handle. O(1). */
uint32_t cordyceps_pile_push_node(cordyceps_pile *pile, cordyceps_node *node);

/* Hands out the next node into *out, as cordyceps_pile_pop its payload. false: there was none, or the handle of the
 * pile is of nothing; *out is of nothing. O(1), or O(n) where it takes n nodes. */
bool cordyceps_pile_pop_node(cordyceps_pile *pile, cordyceps_node *out);

/* ---- The same by the addresses of links
 *
 * These make the handles of nodes for the calls above. */

/* Puts a node in first, and returns its spot. */
static inline cordyceps_spot cordyceps_node_list_add_first(cordyceps_node_list *list, cordyceps_links *links) {
  cordyceps_node node = {links};
  cordyceps_spot spot = {NULL};
  cordyceps_node_list_push_front(list, &node, &spot);
  return spot;
}

/* Puts a node in last, and returns its spot. */
static inline cordyceps_spot cordyceps_node_list_add_last(cordyceps_node_list *list, cordyceps_links *links) {
  cordyceps_node node = {links};
  cordyceps_spot spot = {NULL};
  cordyceps_node_list_push_back(list, &node, &spot);
  return spot;
}

/* Removes the first node, and returns its links; NULL: the list is empty. */
static inline cordyceps_links *cordyceps_node_list_take_first(cordyceps_node_list *list) {
  cordyceps_node node = {NULL};
  cordyceps_node_list_pop_front(list, &node);
  return node.at;
}

/* Removes the last node, and returns its links; NULL: the list is empty. */
static inline cordyceps_links *cordyceps_node_list_take_last(cordyceps_node_list *list) {
  cordyceps_node node = {NULL};
  cordyceps_node_list_pop_back(list, &node);
  return node.at;
}

/* Removes the node at `at`, which is in this list, and returns its links. */
static inline cordyceps_links *cordyceps_node_list_take_at(cordyceps_node_list *list, cordyceps_spot at) {
  cordyceps_node node = {NULL};
  cordyceps_node_list_remove(list, at, &node);
  return node.at;
}

/* Inserts a node by a value, which it gets, and returns its spot. */
static inline cordyceps_spot cordyceps_node_queue_add(
    cordyceps_node_queue *queue, cordyceps_links *links, uint64_t value) {
  cordyceps_node node = {links};
  cordyceps_spot spot = {NULL};
  links->value = value;
  cordyceps_node_queue_push(queue, &node, &spot);
  return spot;
}

/* Removes the first node, and returns its links; NULL: the queue is empty. */
static inline cordyceps_links *cordyceps_node_queue_take_first(cordyceps_node_queue *queue) {
  cordyceps_node node = {NULL};
  cordyceps_node_queue_pop(queue, &node);
  return node.at;
}

/* Removes the first node, if its value is at most `most`, and returns its links; NULL: there is no such node. */
static inline cordyceps_links *cordyceps_node_queue_take_until(cordyceps_node_queue *queue, uint64_t most) {
  cordyceps_node node = {NULL};
  cordyceps_node_queue_pop_until(queue, most, &node);
  return node.at;
}

/* Removes the node at `at`, which is in this queue, and returns its links. */
static inline cordyceps_links *cordyceps_node_queue_take_at(cordyceps_node_queue *queue, cordyceps_spot at) {
  cordyceps_node node = {NULL};
  cordyceps_node_queue_remove(queue, at, &node);
  return node.at;
}

/* The spot of a node that is in a list or a queue: the address of its links. So cordyceps_container takes the `at` of a
 * spot too, and a walk of a list reaches the structs of its nodes. Tests see this of each node that they put in, and no
 * contract says it: a program that is to rest on contracts alone keeps the spots that the calls write. */
static inline cordyceps_spot cordyceps_spot_of(cordyceps_links *links) {
  cordyceps_spot spot = {links};
  return spot;
}

#ifdef __cplusplus
}
#endif

#endif
