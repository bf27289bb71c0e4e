/* Whether a thread has to be woken that sleeps for an inbox or a pile. For GCC and Clang, C99 and C++17.
 *
 * No call of cordyceps.h sleeps or wakes. A thread that receives can sleep by other means, such as poll() of an
 * eventfd, and others wake it. A waker saves them the system call while the thread does not sleep:
 *
 * - The thread that receives arms the waker, receives until nothing is there, and then sleeps.
 * - A thread that has sent a payload disarms the waker, and wakes the first thread if it was armed.
 *
 *     cordyceps_waker_arm(&waker);                          cordyceps_inbox_send(&inbox, payload);
 *     while (cordyceps_inbox_receive(&inbox, &payload)      if (cordyceps_waker_disarm(&waker))
 *            == CORDYCEPS_DONE)                               eventfd_write(fd, 1);
 *       work_on(payload);
 *     eventfd_read(fd, &count);
 *
 * All steps of these calls and of an inbox are sequentially consistent. So either the thread finds the payload after
 * it has armed the waker, or the sender finds the waker armed. The receiving thread may also sleep where it found
 * CORDYCEPS_UNLINKED or CORDYCEPS_BUSY: the thread that is between two steps disarms the waker afterwards.
 *
 * The rooms of what was received go back to the pool of the inbox as the receiving thread finds CORDYCEPS_EMPTY, so the
 * threads that send find them there.
 *
 * A waker that is still armed when the receiving thread is awake costs one wake-up for nothing. */
#ifndef CORDYCEPS_WAKER_H
#define CORDYCEPS_WAKER_H

#include <stdbool.h>
#include <stdint.h>

/* A waker, which is not armed where it is zero. Any thread may use it at any time. */
typedef struct {
  uint32_t is_armed;
} cordyceps_waker;

/* Arms the waker. O(1). */
static inline void cordyceps_waker_arm(cordyceps_waker *waker) {
  __atomic_store_n(&waker->is_armed, 1, __ATOMIC_SEQ_CST);
}

/* Disarms the waker. true: it was armed, and the caller has to wake the thread. Of several calls at the same time, one
 * is true. O(1), and one load where the waker is not armed. */
static inline bool cordyceps_waker_disarm(cordyceps_waker *waker) {
  return __atomic_load_n(&waker->is_armed, __ATOMIC_SEQ_CST)
    && __atomic_exchange_n(&waker->is_armed, 0, __ATOMIC_SEQ_CST);
}

#endif
