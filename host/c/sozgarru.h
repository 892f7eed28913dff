/* The library for C: the functions that libsozgarru.a has. Made by tools/boundary.py from its table: change it there.
 *
 * A session's memory is the host's; its pieces lie apart from each other, and from what an event is given besides. The lengths of its
 * arrays are the caller's to keep: C does not check them, and no function can. Where there are no items or no results, NULL with 0 may be
 * passed. sozgarru_begin fills the memory; every event gets it as the last one left it.
 *
 * An answer is a sozgarru_numbers: the number of the refusal (0: accepted), the answer's word (1 made, 2 call, 3 runs, 4 waits, 5 done,
 * 6 stalled, 7 finished, 8 eager, 9 refused, 10 shows), how many values it has, and the values in the order of document 01's line; values
 * behind them are 0. The done of a cancel has one value, its count; that of results has none. The calls of a wait stand at the front of
 * `calls`. A refused event changes nothing. Stack: docs/HOST.md. Nothing here allocates, prints or keeps a state of its own.
 */
#ifndef SOZGARRU_H
#define SOZGARRU_H
#include <stdbool.h>
#include <stddef.h>
#include <stdint.h>
#ifdef __cplusplus
extern "C" {
#endif

#define SOZGARRU_VERSION 1

typedef struct {
    uint64_t refusal;
    uint64_t word;
    uint64_t count;
    uint64_t values[6];
} sozgarru_numbers;

/* The memory of a session. */
typedef struct {
    uint64_t tasks[4104];
    uint64_t objects[2056];
    uint64_t places[2048];
    uint64_t calls[256];
    uint16_t ids[513];
    size_t len;
} sozgarru_memory;

/* The memory of m, as an event takes it, as sozgarru_begin takes it, and as a read takes it. */
#define SOZGARRU_LENT(m) (m)->tasks, (m)->objects, (m)->places, (m)->calls, (m)->ids, &(m)->len
#define SOZGARRU_BEGUN(m) (m)->tasks, (m)->objects, (m)->places, (m)->ids, &(m)->len
#define SOZGARRU_READ(m) (m)->tasks, (m)->objects, (m)->places, (m)->ids, (m)->len

/* The version of this boundary and of the layout: a host compares it with the one that it was built for. */
uint64_t sozgarru_version(void);

/* A fresh session, whatever the memory held: main runs, and nothing else exists. */
void sozgarru_begin(
    uint64_t tasks[4104], uint64_t objects[2056], uint64_t places[2048], uint16_t ids[513], size_t *len);

/* Is the memory a sound store? For memory that comes from outside, as a snapshot does. */
bool sozgarru_is_sound(
    const uint64_t tasks[4104], const uint64_t objects[2056], const uint64_t places[2048], const uint16_t ids[513], size_t len);

/* The running task makes a coroutine of a function. Made: its object. Refused with 3 the session has ended, 4 no task runs, 7 a 257th
 * object. Refused also with 2, where the store is not sound. */
sozgarru_numbers sozgarru_coroutine(
    uint64_t tasks[4104], uint64_t objects[2056], uint64_t places[2048], uint64_t calls[256], uint16_t ids[513], size_t *len,
    uint32_t function);

/* The running task calls the host. Call: the call's number. Refused with 3 the session has ended, 4 no task runs, 8 all numbers are
 * handed out. Refused also with 2, where the store is not sound. */
sozgarru_numbers sozgarru_call(
    uint64_t tasks[4104], uint64_t objects[2056], uint64_t places[2048], uint64_t calls[256], uint16_t ids[513], size_t *len);

/* The external future of a call, without a stored result. Made: its object. Refused with 3 the session has ended, 4 no task runs, 5 the
 * number was not handed out, 6 it is pending already, 7. Refused also with 2, where the store is not sound. */
sozgarru_numbers sozgarru_pending(
    uint64_t tasks[4104], uint64_t objects[2056], uint64_t places[2048], uint64_t calls[256], uint16_t ids[513], size_t *len,
    uint32_t call);

/* The external future of a call, with a stored plain value, which replaces the host's. Made: its object. Refused with 3 the session has
 * ended, 4 no task runs, 5, 6, 7. Refused also with 2, where the store is not sound. */
sozgarru_numbers sozgarru_pending_plain(
    uint64_t tasks[4104], uint64_t objects[2056], uint64_t places[2048], uint64_t calls[256], uint16_t ids[513], size_t *len,
    uint32_t call, uint64_t number);

/* The external future of a call, with the list of a gather stored. Made: its object. Refused with 3 the session has ended, 4 no task
 * runs, 5 also: the gather is not completed, 6, 7. Refused also with 2, where the store is not sound. */
sozgarru_numbers sozgarru_pending_list(
    uint64_t tasks[4104], uint64_t objects[2056], uint64_t places[2048], uint64_t calls[256], uint16_t ids[513], size_t *len,
    uint32_t call, uint16_t gather);

/* An external future that has a plain value already; it is handed a call number too. Made: its object. Refused with 3 the session has
 * ended, 4 no task runs, 7, 8. Refused also with 2, where the store is not sound. */
sozgarru_numbers sozgarru_settled_plain(
    uint64_t tasks[4104], uint64_t objects[2056], uint64_t places[2048], uint64_t calls[256], uint16_t ids[513], size_t *len,
    uint64_t number);

/* An external future that has the list of a gather already. Made: its object. Refused with 3 the session has ended, 4 no task runs, 5
 * the gather is not completed, 7, 8. Refused also with 2, where the store is not sound. */
sozgarru_numbers sozgarru_settled_list(
    uint64_t tasks[4104], uint64_t objects[2056], uint64_t places[2048], uint64_t calls[256], uint16_t ids[513], size_t *len,
    uint16_t gather);

/* A gather of objects, by their numbers, however many. Made: its object. Refused with 3 the session has ended, 4 no task runs, 5 an
 * object is not made, 7 (also over 32 items, over 512 places). Refused also with 2, where the store is not sound. */
sozgarru_numbers sozgarru_gather(
    uint64_t tasks[4104], uint64_t objects[2056], uint64_t places[2048], uint64_t calls[256], uint16_t ids[513], size_t *len,
    const uint16_t *items, size_t items_count);

/* The running task awaits an object. Runs or waits, and the commit steps. Refused with 3 the session has ended, 4 no task runs, 5 the
 * object is not made. Refused also with 2, where the store is not sound. */
sozgarru_numbers sozgarru_await(
    uint64_t tasks[4104], uint64_t objects[2056], uint64_t places[2048], uint64_t calls[256], uint16_t ids[513], size_t *len,
    uint16_t object);

/* The running task returns a plain value. Runs or waits; of main: finished. Refused with 3 the session has ended, 4 no task runs.
 * Refused also with 2, where the store is not sound. */
sozgarru_numbers sozgarru_complete_plain(
    uint64_t tasks[4104], uint64_t objects[2056], uint64_t places[2048], uint64_t calls[256], uint16_t ids[513], size_t *len,
    uint64_t number);

/* The running task returns the list of a gather. Runs or waits; of main: finished. Refused with 3 the session has ended, 4 no task runs,
 * 5 the gather is not completed. Refused also with 2, where the store is not sound. */
sozgarru_numbers sozgarru_complete_list(
    uint64_t tasks[4104], uint64_t objects[2056], uint64_t places[2048], uint64_t calls[256], uint16_t ids[513], size_t *len,
    uint16_t gather);

/* The running task raises the error script n. Runs or waits; of main: finished. Refused with 3 the session has ended, 4 no task runs.
 * Refused also with 2, where the store is not sound. */
sozgarru_numbers sozgarru_fail(
    uint64_t tasks[4104], uint64_t objects[2056], uint64_t places[2048], uint64_t calls[256], uint16_t ids[513], size_t *len,
    uint32_t number);

/* The host answers calls: 14 bytes each (call 4, kind 1, tag 1, value 8), a rest of 1 to 13 bytes is not read. Tasks woken go to the
 * queue's back, lowest first. Done. Refused with 3 the session has ended, 5 a list of a gather not completed, 10 over 64 results or one
 * that is none; then nothing is applied. Refused also with 2, where the store is not sound. */
sozgarru_numbers sozgarru_results(
    uint64_t tasks[4104], uint64_t objects[2056], uint64_t places[2048], uint64_t calls[256], uint16_t ids[513], size_t *len,
    const uint8_t *results, size_t results_count);

/* The host hands control back. Runs; waits, where nothing is ready; stalled, where no call is pending either. Refused with 3 the session
 * has ended, 4 a task runs. Refused also with 2, where the store is not sound. */
sozgarru_numbers sozgarru_resume(
    uint64_t tasks[4104], uint64_t objects[2056], uint64_t places[2048], uint64_t calls[256], uint16_t ids[513], size_t *len);

/* The operator cancels a task, and the tasks below the gather that it waits for. Done, with the number of removed tasks that stood in
 * the ready queue. Refused with 3 the session has ended, 4 a task runs, 5 the task is not live, 9 it is main. Refused also with 2, where
 * the store is not sound. */
sozgarru_numbers sozgarru_cancel(
    uint64_t tasks[4104], uint64_t objects[2056], uint64_t places[2048], uint64_t calls[256], uint16_t ids[513], size_t *len,
    uint16_t task);

/* May the host answer a call at once: is no task ready and no call pending? Eager: 1 yes, 0 no. Refused also with 2, where the store is
 * not sound. */
sozgarru_numbers sozgarru_eager(
    const uint64_t tasks[4104], const uint64_t objects[2056], const uint64_t places[2048], const uint16_t ids[513], size_t len);

/* What an object is and has. Shows: sort, state, and what document 01 lists; of an awaited or completed gather how many places it has.
 * Refused with 5 the object is not made. Refused also with 2, where the store is not sound. */
sozgarru_numbers sozgarru_show(
    const uint64_t tasks[4104], const uint64_t objects[2056], const uint64_t places[2048], const uint16_t ids[513], size_t len,
    uint16_t object);

/* A place of an awaited or completed gather, from 0. Shows: 0 where it is open; 1 and the value's tag and number. Refused with 5 the
 * object is not made, or shows no such place. Refused also with 2, where the store is not sound. */
sozgarru_numbers sozgarru_place(
    const uint64_t tasks[4104], const uint64_t objects[2056], const uint64_t places[2048], const uint16_t ids[513], size_t len,
    uint16_t object, uint16_t place);

/* The running task makes a coroutine of a function. Made: its object. Refused with 3 the session has ended, 4 no task runs, 7 a 257th
 * object. The caller owes a sound store: nothing is checked. */
sozgarru_numbers sozgarru_coroutine_unchecked(
    uint64_t tasks[4104], uint64_t objects[2056], uint64_t places[2048], uint64_t calls[256], uint16_t ids[513], size_t *len,
    uint32_t function);

/* The running task calls the host. Call: the call's number. Refused with 3 the session has ended, 4 no task runs, 8 all numbers are
 * handed out. The caller owes a sound store: nothing is checked. */
sozgarru_numbers sozgarru_call_unchecked(
    uint64_t tasks[4104], uint64_t objects[2056], uint64_t places[2048], uint64_t calls[256], uint16_t ids[513], size_t *len);

/* The external future of a call, without a stored result. Made: its object. Refused with 3 the session has ended, 4 no task runs, 5 the
 * number was not handed out, 6 it is pending already, 7. The caller owes a sound store: nothing is checked. */
sozgarru_numbers sozgarru_pending_unchecked(
    uint64_t tasks[4104], uint64_t objects[2056], uint64_t places[2048], uint64_t calls[256], uint16_t ids[513], size_t *len,
    uint32_t call);

/* The external future of a call, with a stored plain value, which replaces the host's. Made: its object. Refused with 3 the session has
 * ended, 4 no task runs, 5, 6, 7. The caller owes a sound store: nothing is checked. */
sozgarru_numbers sozgarru_pending_plain_unchecked(
    uint64_t tasks[4104], uint64_t objects[2056], uint64_t places[2048], uint64_t calls[256], uint16_t ids[513], size_t *len,
    uint32_t call, uint64_t number);

/* The external future of a call, with the list of a gather stored. Made: its object. Refused with 3 the session has ended, 4 no task
 * runs, 5 also: the gather is not completed, 6, 7. The caller owes a sound store: nothing is checked. */
sozgarru_numbers sozgarru_pending_list_unchecked(
    uint64_t tasks[4104], uint64_t objects[2056], uint64_t places[2048], uint64_t calls[256], uint16_t ids[513], size_t *len,
    uint32_t call, uint16_t gather);

/* An external future that has a plain value already; it is handed a call number too. Made: its object. Refused with 3 the session has
 * ended, 4 no task runs, 7, 8. The caller owes a sound store: nothing is checked. */
sozgarru_numbers sozgarru_settled_plain_unchecked(
    uint64_t tasks[4104], uint64_t objects[2056], uint64_t places[2048], uint64_t calls[256], uint16_t ids[513], size_t *len,
    uint64_t number);

/* An external future that has the list of a gather already. Made: its object. Refused with 3 the session has ended, 4 no task runs, 5
 * the gather is not completed, 7, 8. The caller owes a sound store: nothing is checked. */
sozgarru_numbers sozgarru_settled_list_unchecked(
    uint64_t tasks[4104], uint64_t objects[2056], uint64_t places[2048], uint64_t calls[256], uint16_t ids[513], size_t *len,
    uint16_t gather);

/* A gather of objects, by their numbers, however many. Made: its object. Refused with 3 the session has ended, 4 no task runs, 5 an
 * object is not made, 7 (also over 32 items, over 512 places). The caller owes a sound store: nothing is checked. */
sozgarru_numbers sozgarru_gather_unchecked(
    uint64_t tasks[4104], uint64_t objects[2056], uint64_t places[2048], uint64_t calls[256], uint16_t ids[513], size_t *len,
    const uint16_t *items, size_t items_count);

/* The running task awaits an object. Runs or waits, and the commit steps. Refused with 3 the session has ended, 4 no task runs, 5 the
 * object is not made. The caller owes a sound store: nothing is checked. */
sozgarru_numbers sozgarru_await_unchecked(
    uint64_t tasks[4104], uint64_t objects[2056], uint64_t places[2048], uint64_t calls[256], uint16_t ids[513], size_t *len,
    uint16_t object);

/* The running task returns a plain value. Runs or waits; of main: finished. Refused with 3 the session has ended, 4 no task runs. The
 * caller owes a sound store: nothing is checked. */
sozgarru_numbers sozgarru_complete_plain_unchecked(
    uint64_t tasks[4104], uint64_t objects[2056], uint64_t places[2048], uint64_t calls[256], uint16_t ids[513], size_t *len,
    uint64_t number);

/* The running task returns the list of a gather. Runs or waits; of main: finished. Refused with 3 the session has ended, 4 no task runs,
 * 5 the gather is not completed. The caller owes a sound store: nothing is checked. */
sozgarru_numbers sozgarru_complete_list_unchecked(
    uint64_t tasks[4104], uint64_t objects[2056], uint64_t places[2048], uint64_t calls[256], uint16_t ids[513], size_t *len,
    uint16_t gather);

/* The running task raises the error script n. Runs or waits; of main: finished. Refused with 3 the session has ended, 4 no task runs.
 * The caller owes a sound store: nothing is checked. */
sozgarru_numbers sozgarru_fail_unchecked(
    uint64_t tasks[4104], uint64_t objects[2056], uint64_t places[2048], uint64_t calls[256], uint16_t ids[513], size_t *len,
    uint32_t number);

/* The host answers calls: 14 bytes each (call 4, kind 1, tag 1, value 8), a rest of 1 to 13 bytes is not read. Tasks woken go to the
 * queue's back, lowest first. Done. Refused with 3 the session has ended, 5 a list of a gather not completed, 10 over 64 results or one
 * that is none; then nothing is applied. The caller owes a sound store: nothing is checked. */
sozgarru_numbers sozgarru_results_unchecked(
    uint64_t tasks[4104], uint64_t objects[2056], uint64_t places[2048], uint64_t calls[256], uint16_t ids[513], size_t *len,
    const uint8_t *results, size_t results_count);

/* The host hands control back. Runs; waits, where nothing is ready; stalled, where no call is pending either. Refused with 3 the session
 * has ended, 4 a task runs. The caller owes a sound store: nothing is checked. */
sozgarru_numbers sozgarru_resume_unchecked(
    uint64_t tasks[4104], uint64_t objects[2056], uint64_t places[2048], uint64_t calls[256], uint16_t ids[513], size_t *len);

/* The operator cancels a task, and the tasks below the gather that it waits for. Done, with the number of removed tasks that stood in
 * the ready queue. Refused with 3 the session has ended, 4 a task runs, 5 the task is not live, 9 it is main. The caller owes a sound
 * store: nothing is checked. */
sozgarru_numbers sozgarru_cancel_unchecked(
    uint64_t tasks[4104], uint64_t objects[2056], uint64_t places[2048], uint64_t calls[256], uint16_t ids[513], size_t *len,
    uint16_t task);

/* May the host answer a call at once: is no task ready and no call pending? Eager: 1 yes, 0 no. The caller owes a sound store: nothing
 * is checked. */
sozgarru_numbers sozgarru_eager_unchecked(
    const uint64_t tasks[4104], const uint64_t objects[2056], const uint64_t places[2048], const uint16_t ids[513], size_t len);

/* What an object is and has. Shows: sort, state, and what document 01 lists; of an awaited or completed gather how many places it has.
 * Refused with 5 the object is not made. The caller owes a sound store: nothing is checked. */
sozgarru_numbers sozgarru_show_unchecked(
    const uint64_t tasks[4104], const uint64_t objects[2056], const uint64_t places[2048], const uint16_t ids[513], size_t len,
    uint16_t object);

/* A place of an awaited or completed gather, from 0. Shows: 0 where it is open; 1 and the value's tag and number. Refused with 5 the
 * object is not made, or shows no such place. The caller owes a sound store: nothing is checked. */
sozgarru_numbers sozgarru_place_unchecked(
    const uint64_t tasks[4104], const uint64_t objects[2056], const uint64_t places[2048], const uint16_t ids[513], size_t len,
    uint16_t object, uint16_t place);

#ifdef __cplusplus
}
#endif
#endif
