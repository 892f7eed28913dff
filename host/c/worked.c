/* Document 01's worked example from C: ten events on memory of the host's own, and document 01's line for each answer; then a session
 * with nothing in its gather and in its batch, and one in which a task is cancelled.
 *
 *     gcc -Wall -Wextra -Werror -o worked worked.c ../rust/native/libsozgarru.a && ./worked
 */
#include "sozgarru.h"

#include <inttypes.h>
#include <stdio.h>

/* The memory of one session. It is 68 KB: too much for a small stack. */
static sozgarru_memory memory;

/* A value: 0 and a plain number, or 1 and the gather whose list it is. */
static void print_value(const uint64_t *v)
{
    printf(" %s %" PRIu64, v[0] == 0 ? "plain" : "list", v[1]);
}

/* An error: its place in document 01's list, and its number, which only the first two have. */
static void print_error(const uint64_t *v)
{
    static const char *const names[] = {"host", "script", "coroutine-reuse", "future-reuse", "gather-reuse", "not-found", "module-file"};
    printf(" %s", names[v[0]]);
    if (v[0] < 2)
        printf(" %" PRIu64, v[1]);
}

/* How a task goes on; how many values that took. */
static uint64_t print_how(const uint64_t *v)
{
    switch (v[0]) {
    case 0:
        printf(" start %" PRIu64 " %" PRIu64, v[1], v[2]);
        return 3;
    case 1:
        printf(" value");
        print_value(v + 1);
        return 3;
    case 2:
        printf(" raised");
        print_error(v + 1);
        return 3;
    default:
        printf(" inline %" PRIu64, v[1]);
        return 2;
    }
}

/* The values behind those that were printed: an await's steps. */
static void print_steps(const sozgarru_numbers *a, uint64_t printed)
{
    if (printed < a->count)
        printf(" steps %" PRIu64, a->values[printed]);
}

/* A gather's places are read one by one. */
static void print_places(uint16_t gather, uint64_t count)
{
    printf(" %" PRIu64, count);
    for (uint16_t i = 0; i < count; i++) {
        sozgarru_numbers place = sozgarru_place(SOZGARRU_READ(&memory), gather, i);
        if (place.values[0] == 0)
            printf(" open");
        else
            print_value(place.values + 1);
    }
}

static void print_shown(uint16_t object, const uint64_t *v)
{
    static const char *const sorts[] = {"coroutine", "external", "gather"};
    static const char *const states[][4] = {
        {"new", "running", "completed", ""}, {"pending", "resolved", "failed", ""}, {"pending", "awaited", "completed", "failed"}};
    printf(" %s %s", sorts[v[0]], states[v[0]][v[1]]);
    if (v[0] == 0)
        printf(" %" PRIu64, v[2]);
    else if (v[0] == 1 && v[1] == 1)
        print_value(v + 2);
    else if ((v[0] == 1 && v[1] == 2) || (v[0] == 2 && v[1] == 3))
        print_error(v + 2);
    else if (v[0] == 2 && v[1] != 0)
        print_places(object, v[2]);
}

/* Document 01's line. `object` is what a show asked for. */
static void print_line(int number, sozgarru_numbers a, uint16_t object)
{
    static const char *const words[] = {"", "made", "call", "runs", "waits", "done", "stalled", "finished", "eager", "refused", "shows"};
    const uint64_t *v = a.values;
    printf("%d %s", number, words[a.word]);
    switch (a.word) {
    case 1:
    case 2:
    case 9:
        printf(" %" PRIu64, v[0]);
        break;
    case 3:
        printf(" %" PRIu64, v[0]);
        print_steps(&a, 1 + print_how(v + 1));
        break;
    case 4:
        printf(" %" PRIu64, v[0]);
        for (uint64_t i = 0; i < v[0]; i++)
            printf(" %" PRIu64, memory.calls[i]);
        print_steps(&a, 1);
        break;
    case 5:
        if (a.count == 1) /* of a cancel: how many of the removed tasks stood in the ready queue */
            printf(" %" PRIu64, v[0]);
        break;
    case 7:
        if (v[0] == 0)
            print_value(v + 1);
        else {
            printf(" error");
            print_error(v + 1);
        }
        break;
    case 8:
        printf(v[0] == 1 ? " yes" : " no");
        break;
    case 10:
        print_shown(object, v);
        break;
    }
    putchar('\n');
}

int main(void)
{
    static const uint16_t items[] = {0, 1, 0};
    /* call 0, kind 0 (return), tag 0 (plain), 5 */
    static const uint8_t results[14] = {0, 0, 0, 0, 0, 0, 5};
    if (sozgarru_version() != SOZGARRU_VERSION) {
        fprintf(stderr, "worked: the library has another version than its header\n");
        return 1;
    }
    sozgarru_begin(SOZGARRU_BEGUN(&memory));
    print_line(1, sozgarru_coroutine(SOZGARRU_LENT(&memory), 7), 0);
    print_line(2, sozgarru_call(SOZGARRU_LENT(&memory)), 0);
    print_line(3, sozgarru_pending(SOZGARRU_LENT(&memory), 0), 0);
    print_line(4, sozgarru_gather(SOZGARRU_LENT(&memory), items, 3), 0);
    print_line(5, sozgarru_await(SOZGARRU_LENT(&memory), 2), 0);
    print_line(6, sozgarru_complete_plain(SOZGARRU_LENT(&memory), 40), 0);
    print_line(7, sozgarru_results(SOZGARRU_LENT(&memory), results, sizeof results), 0);
    print_line(8, sozgarru_resume(SOZGARRU_LENT(&memory)), 0);
    print_line(9, sozgarru_show(SOZGARRU_READ(&memory), 2), 2);
    print_line(10, sozgarru_complete_plain(SOZGARRU_LENT(&memory), 9), 0);

    /* a fresh session: a gather of no items, and no results */
    sozgarru_begin(SOZGARRU_BEGUN(&memory));
    print_line(1, sozgarru_gather(SOZGARRU_LENT(&memory), NULL, 0), 0);
    print_line(2, sozgarru_await(SOZGARRU_LENT(&memory), 0), 0);
    print_line(3, sozgarru_results(SOZGARRU_LENT(&memory), NULL, 0), 0);

    /* a fresh session: main waits for task 1, and that for call 0; the result wakes it, the operator cancels it, and again */
    sozgarru_begin(SOZGARRU_BEGUN(&memory));
    print_line(1, sozgarru_coroutine(SOZGARRU_LENT(&memory), 7), 0);
    print_line(2, sozgarru_gather(SOZGARRU_LENT(&memory), items, 1), 0);
    print_line(3, sozgarru_call(SOZGARRU_LENT(&memory)), 0);
    print_line(4, sozgarru_pending(SOZGARRU_LENT(&memory), 0), 0);
    print_line(5, sozgarru_await(SOZGARRU_LENT(&memory), 1), 0);
    print_line(6, sozgarru_await(SOZGARRU_LENT(&memory), 2), 0);
    print_line(7, sozgarru_results(SOZGARRU_LENT(&memory), results, sizeof results), 0);
    print_line(8, sozgarru_cancel(SOZGARRU_LENT(&memory), 1), 0);
    print_line(9, sozgarru_cancel(SOZGARRU_LENT(&memory), 1), 0);
    return 0;
}
