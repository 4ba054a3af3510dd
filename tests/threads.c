/* Two threads call all six entries at once, many times, each on buffers of its own, and every answer is held against the rows of document 01 and
 * against the answer that the same call gave before any thread was started.
 *
 *     threads [ROUNDS]        10000 by default; exit status 0, or 1 with what differed
 *
 * The rows are those of document 01, "The marked sheets and their neighbours", and of request E1; of the degree 9 row document 01 prints g and no N, so N
 * is compared with the earlier answer alone. In every second round both threads read the one sheet of the row in place of their own copies: calls may
 * share what they only read. STACK, if defined, is the size in bytes of each thread's stack. Assumes POSIX threads with barriers.
 */
#define _POSIX_C_SOURCE 200809L
#include <inttypes.h>
#include <pthread.h>
#include <stdint.h>
#include <stdio.h>
#include <stdlib.h>
#include <string.h>

#include <sagepliers.h>

enum service { SOLVE, KERNEL, COMPOSE, STEPS, CHECK, PUSH, NAME };

enum { THREADS = 2, MOST_WORDS = 30, GUARD = 8 };

/* Compose takes two sheets, which stand one behind the other in a row: the first has 15 words. So do the two questions of STEPS, of 8 words each, which
 * are solved and their answers composed. */
enum { FIRST_WORDS = 15, QUESTION_WORDS = 8 };

#define POINT(u, v) (UINT64_C(u) + (UINT64_C(v) << 28))
#define NO(number) (SAGEPLIERS_REFUSED + UINT64_C(number))

/* A call and what the documents say of it, with the count of request E6: the result, and the words from `from` on that it prints of the answer. */
struct row {
    const char *name;
    enum service service;
    uint32_t words[MOST_WORDS];
    size_t count;
    size_t room;
    uint64_t point;
    uint64_t result;
    uint32_t printed[MOST_WORDS];
    size_t from, printed_count;
};

#define FIRST_HEADER 0x100003f1, 0x20000001, 0x30000003, 0x40000109, 0x5000036d, 0x60000003, 0x7000002e
#define FIRST_BUT_COUNT FIRST_HEADER, 0x800003da, 0x80000001, 0x900003b5, 0x900002a6, 0x900003c3, 0x90000001
#define FIRST FIRST_BUT_COUNT, 0xa0000001, 0xf0000000
#define OVER_11_HEADER 0x1000000b, 0x20000000, 0x30000001, 0x40000000, 0x50000006, 0x60000003, 0x70000000
#define OVER_11 OVER_11_HEADER, 0x80000000, 0x80000001, 0x90000004, 0x90000000, 0x90000000, 0x90000001, 0xa0000001, 0xf0000000
/* Request E1's second step, Q 1009, 265, 877, 81, 169, 3, 871, by R1 and R2; and over 11 and over 13 the step from (0, 6) to (0, -162) with g = x, whose N is
 * x^3 + 24. */
#define SECOND_BUT_END 0x100003f1, 0x20000109, 0x3000036d, 0x40000051, 0x500000a9, 0x60000003, 0x70000367, 0x80000045, 0x80000001, 0x9000018a, 0x90000230, \
    0x9000008a, 0x90000001, 0xa0000001
#define SECOND SECOND_BUT_END, 0xf0000000
#define NEXT_OVER_11 0x1000000b, 0x20000000, 0x30000006, 0x40000000, 0x50000003, 0x60000003, 0x70000000, 0x80000000, 0x80000001, 0x90000002, 0x90000000, \
    0x90000000, 0x90000001, 0xa0000001, 0xf0000000
#define NEXT_OVER_13 0x1000000d, 0x20000000, 0x30000006, 0x40000000, 0x50000007, 0x60000003, 0x70000000, 0x80000000, 0x80000001, 0x9000000b, 0x90000000, \
    0x90000000, 0x90000001, 0xa0000001, 0xf0000000
#define DEGREE_9_HEADER 0x100003f1, 0x20000001, 0x30000003, 0x40000051, 0x500000a9, 0x60000009, 0x70000000
#define DEGREE_9_G 0x80000150, 0x8000000c, 0x80000002, 0x80000000, 0x80000001

static const struct row rows[] = {
    {"solve the first question", SOLVE, {FIRST_HEADER, 0xf0000000}, 8, SAGEPLIERS_ROOM, 0, 15, {FIRST}, 0, 15},
    {"solve with sigma = 48", SOLVE, {0x100003f1, 0x20000001, 0x30000003, 0x40000109, 0x5000036d, 0x60000003, 0x70000030, 0xf0000000}, 8,
     SAGEPLIERS_ROOM, 0, NO(11), {0}, 0, 0},
    {"solve with B~ = 878", SOLVE, {0x100003f1, 0x20000001, 0x30000003, 0x40000109, 0x5000036e, 0x60000003, 0x7000002e, 0xf0000000}, 8,
     SAGEPLIERS_ROOM, 0, NO(11), {0}, 0, 0},
    {"solve degree 9", SOLVE, {DEGREE_9_HEADER, 0xf0000000}, 8, SAGEPLIERS_ROOM, 0, 24, {DEGREE_9_HEADER, DEGREE_9_G}, 0, 12},
    {"solve over 11", SOLVE, {OVER_11_HEADER, 0xf0000000}, 8, SAGEPLIERS_ROOM, 0, 15, {OVER_11}, 0, 15},
    {"solve with a buffer of 392", SOLVE, {FIRST_HEADER, 0xf0000000}, 8, SAGEPLIERS_ROOM - 1, 0, NO(1), {0}, 0, 0},
    {"solve with a ninth word", SOLVE, {FIRST_HEADER, 0xf0000000, 0xf0000000}, 9, SAGEPLIERS_ROOM, 0, NO(6), {0}, 0, 0},
    {"kernel over 11 with g = x", KERNEL, {0x1000000b, 0x20000000, 0x30000001, 0x60000003, 0x80000000, 0x80000001, 0xf0000000}, 7, SAGEPLIERS_ROOM,
     0, 15, {OVER_11}, 0, 15},
    {"kernel over 11 with g = x - 1", KERNEL, {0x1000000b, 0x20000000, 0x30000001, 0x60000003, 0x8000000a, 0x80000001, 0xf0000000}, 7,
     SAGEPLIERS_ROOM, 0, NO(11), {0}, 0, 0},
    {"compose two steps of degree 3", COMPOSE, {FIRST, SECOND}, 30, SAGEPLIERS_ROOM, 0, 24, {DEGREE_9_HEADER, DEGREE_9_G}, 0, 12},
    {"compose the second step and the first", COMPOSE, {SECOND, FIRST}, 30, SAGEPLIERS_ROOM, 0, NO(13), {0}, 0, 0},
    {"compose to (0, 6) over 11 and from it over 13", COMPOSE, {OVER_11, NEXT_OVER_13}, 30, SAGEPLIERS_ROOM, 0, NO(13), {0}, 0, 0},
    {"compose the one over 11 with itself", COMPOSE, {OVER_11, OVER_11}, 30, SAGEPLIERS_ROOM, 0, NO(13), {0}, 0, 0},
    {"compose to degree 9 over 11", COMPOSE, {OVER_11, NEXT_OVER_11}, 30, SAGEPLIERS_ROOM, 0, NO(14), {0}, 0, 0},
    {"compose with a buffer of 392", COMPOSE, {FIRST, SECOND}, 30, SAGEPLIERS_ROOM - 1, 0, NO(1), {0}, 0, 0},
    {"compose with a count of two", COMPOSE, {FIRST_BUT_COUNT, 0xa0000002, 0xf0000000, SECOND_BUT_END}, 29, SAGEPLIERS_ROOM, 0, NO(9), {0}, 0, 0},
    {"compose with no end on the second", COMPOSE, {FIRST, SECOND_BUT_END}, 29, SAGEPLIERS_ROOM, 0, NO(6), {0}, 0, 0},
    {"check the first certificate", CHECK, {FIRST}, 15, 0, 0, 0, {0}, 0, 0},
    {"check N that is not that of g", CHECK, {0x1000000b, 0x20000000, 0x30000001, 0x40000000, 0x50000001, 0x60000003, 0x70000002, 0x8000000a, 0x80000001,
     0x90000000, 0x90000001, 0x90000009, 0x90000001, 0xa0000001, 0xf0000000}, 15, 0, 0, 9, {0}, 0, 0},
    {"check a codomain with B~ = 7", CHECK, {0x1000000b, 0x20000000, 0x30000001, 0x40000000, 0x50000007, 0x60000003, 0x70000000, 0x80000000, 0x80000001,
     0x90000004, 0x90000000, 0x90000000, 0x90000001, 0xa0000001, 0xf0000000}, 15, 0, 0, 10, {0}, 0, 0},
    {"check a count of two", CHECK, {FIRST_BUT_COUNT, 0xa0000002, 0xf0000000}, 15, 0, 0, 9, {0}, 0, 0},
    {"check without a count", CHECK, {FIRST_BUT_COUNT, 0xf0000000}, 14, 0, 0, 6, {0}, 0, 0},
    {"push (1008, 1) through the first", PUSH, {FIRST}, 15, 0, POINT(1008, 1), POINT(617, 44), {0}, 0, 0},
    {"push (2, 3) over 11", PUSH, {OVER_11}, 15, 0, POINT(2, 3), POINT(3, 0), {0}, 0, 0},
    {"push (0, 1) over 11", PUSH, {OVER_11}, 15, 0, POINT(0, 1), SAGEPLIERS_INFINITY, {0}, 0, 0},
    {"push infinity through the first", PUSH, {FIRST}, 15, 0, SAGEPLIERS_INFINITY, SAGEPLIERS_INFINITY, {0}, 0, 0},
    {"push a number above 2^56", PUSH, {FIRST}, 15, 0, SAGEPLIERS_INFINITY + 1, NO(12), {0}, 0, 0},
    {"name (1, 3) over 1009", NAME, {1009, 1, 3}, 3, 0, 0, 269, {0}, 0, 0},
    {"name (1, 3) over 1001", NAME, {1001, 1, 3}, 3, 0, 0, NO(3), {0}, 0, 0},
};

enum { ROWS = sizeof rows / sizeof rows[0] };

/* Long ones, called once by each thread for the sake of the stack: multiplication by 15 on y^2 = x^3 + x + 3 has degree 225, codomain (15^4, 3 * 15^6)
 * once it is normalized, and sigma 0, as the division polynomial has no second term; so there is an answer, of 3 * 112 + 12 words. Over 268435399 the
 * library decides rule R3 by the expansion at infinity, over 457, which is below 3 * 225 - 3, by comparing coefficients. */
enum { M4 = 15 * 15 * 15 * 15 };
#define BY_15(p) \
    SOLVE, \
    {0x10000000 + p, 0x20000001, 0x30000003, 0x40000000 + M4 % p, 0x50000000 + (uint32_t)(UINT64_C(3) * 225 * M4 % p), 0x60000000 + 225, 0x70000000, 0xf0000000}, \
    8, SAGEPLIERS_ROOM, 0, 348, {0x80000000, 0x80000001}, 118, 2
/* And as the multiplication by 3 followed by that by 5, which has to give the same words. */
#define QUESTION(p, a, b, atilde, btilde, l) \
    0x10000000 + p, 0x20000000 + a % p, 0x30000000 + b % p, 0x40000000 + atilde % p, 0x50000000 + btilde % p, 0x60000000 + l, 0x70000000, 0xf0000000
#define BY_3_AND_5(p) \
    STEPS, {QUESTION(p, 1, 3, 81, 3 * 729, 9), QUESTION(p, 81, 3 * 729, M4, 3 * 225 * M4, 25)}, 16, SAGEPLIERS_ROOM, 0, 348, {0x80000000, 0x80000001}, 118, 2
static const struct row large[] = {
    {"solve degree 225 over 268435399", BY_15(268435399)},
    {"compose to degree 225 over 268435399", BY_3_AND_5(268435399)},
    {"solve degree 225 over 457", BY_15(457)},
    {"compose to degree 225 over 457", BY_3_AND_5(457)},
};

enum { LARGE = sizeof large / sizeof large[0] };

/* The buffers of one caller, and what its last call gave. The guard words lie behind the room that the entry is told of. */
struct buffers {
    uint32_t sheet[MOST_WORDS];
    uint8_t bytes[4 * MOST_WORDS];
    uint32_t answer[SAGEPLIERS_ROOM + GUARD];
    uint32_t steps[2][SAGEPLIERS_ROOM];
    uint64_t result;
};

/* Solves two questions and composes the answers; a refusal of a question is the result. */
static uint64_t in_steps(const uint32_t *questions, struct buffers *own, size_t room)
{
    uint64_t counts[2];
    for (size_t i = 0; i < 2; i++) {
        counts[i] = sagepliers_solve(questions + i * QUESTION_WORDS, QUESTION_WORDS, own->steps[i], SAGEPLIERS_ROOM);
        if (counts[i] >= SAGEPLIERS_REFUSED)
            return counts[i];
    }
    return sagepliers_compose(own->steps[0], (size_t)counts[0], own->steps[1], (size_t)counts[1], own->answer, room);
}

static void call(const struct row *row, int shared, struct buffers *own, uint32_t pattern)
{
    memcpy(own->sheet, row->words, sizeof own->sheet);
    const uint32_t *sheet = shared ? row->words : own->sheet;
    for (size_t i = 0; i < 4 * row->count; i++)
        own->bytes[i] = (uint8_t)(row->words[i / 4] >> (8 * (i % 4)) & 255);
    for (size_t i = 0; i < SAGEPLIERS_ROOM + GUARD; i++)
        own->answer[i] = pattern;
    switch (row->service) {
    case SOLVE: own->result = sagepliers_solve(sheet, row->count, own->answer, row->room); break;
    case KERNEL: own->result = sagepliers_kernel(sheet, row->count, own->answer, row->room); break;
    case COMPOSE:
        own->result = sagepliers_compose(sheet, FIRST_WORDS, sheet + FIRST_WORDS, row->count - FIRST_WORDS, own->answer, row->room);
        break;
    case STEPS: own->result = in_steps(sheet, own, row->room); break;
    case CHECK: own->result = sagepliers_check(own->bytes, 4 * row->count); break;
    case PUSH: own->result = sagepliers_push(own->bytes, 4 * row->count, row->point); break;
    case NAME: own->result = sagepliers_name(own->sheet[0], own->sheet[1], own->sheet[2]); break;
    }
}

/* Whether the service has an answer in words. */
static int has_words(enum service service)
{
    return service == SOLVE || service == KERNEL || service == COMPOSE || service == STEPS;
}

/* Whether the last call gave what the documents print, wrote no word beyond its count and left the sheet as it was. */
static int as_printed(const struct row *row, const struct buffers *own, uint32_t pattern)
{
    if (own->result != row->result || memcmp(own->sheet, row->words, sizeof own->sheet) != 0)
        return 0;
    if (memcmp(own->answer + row->from, row->printed, row->printed_count * sizeof(uint32_t)) != 0)
        return 0;
    int writes = has_words(row->service) && own->result < SAGEPLIERS_REFUSED;
    for (size_t i = writes ? (size_t)own->result : 0; i < SAGEPLIERS_ROOM + GUARD; i++)
        if (own->answer[i] != pattern)
            return 0;
    return 1;
}

/* Whether two callers got the same result and, where words were written, the same ones. */
static int same(const struct row *row, const struct buffers *one, const struct buffers *other)
{
    if (one->result != other->result)
        return 0;
    if (!has_words(row->service) || one->result >= SAGEPLIERS_REFUSED)
        return 1;
    return memcmp(one->answer, other->answer, (size_t)one->result * sizeof(uint32_t)) == 0;
}

static struct buffers before[ROWS], before_large[LARGE];
static pthread_barrier_t together;
static long rounds = 10000;

struct thread {
    pthread_t id;
    size_t number;
    struct buffers own;
    unsigned long calls;
    const struct row *differs;
};

/* Makes one call of a thread, and returns whether it gave what it should. */
static int agrees(struct thread *thread, const struct row *row, int shared, const struct buffers *earlier)
{
    uint32_t pattern = 0xa5a50000u + (uint32_t)thread->number;
    call(row, shared, &thread->own, pattern);
    thread->calls++;
    if (as_printed(row, &thread->own, pattern) && same(row, &thread->own, earlier))
        return 1;
    thread->differs = row;
    return 0;
}

/* The second thread takes the rows backwards, so that different entries run beside each other. */
static void *run(void *given)
{
    struct thread *thread = given;
    pthread_barrier_wait(&together);
    for (size_t i = 0; i < LARGE; i++)
        if (!agrees(thread, &large[i], 0, &before_large[i]))
            return NULL;
    for (long round = 0; round < rounds; round++) {
        for (size_t i = 0; i < ROWS; i++) {
            size_t k = thread->number == 0 ? i : ROWS - 1 - i;
            if (!agrees(thread, &rows[k], round % 2 == 1, &before[k]))
                return NULL;
        }
    }
    return NULL;
}

static void must(int error, const char *what)
{
    if (error != 0) {
        fprintf(stderr, "threads: %s: %s\n", what, strerror(error));
        exit(2);
    }
}

int main(int argc, char **argv)
{
    if (argc > 1)
        rounds = strtol(argv[1], NULL, 10);
    if (argc > 2 || rounds < 1) {
        fprintf(stderr, "usage: threads [ROUNDS]\n");
        return 2;
    }

    int failed = 0;
    for (size_t k = 0; k < ROWS; k++) {
        call(&rows[k], 0, &before[k], 0x5a5a5a5au);
        if (!as_printed(&rows[k], &before[k], 0x5a5a5a5au)) {
            printf("one thread: %s: not what the documents print (result %" PRIx64 ")\n", rows[k].name, before[k].result);
            failed = 1;
        }
    }
    for (size_t i = 0; i < LARGE; i++) {
        call(&large[i], 0, &before_large[i], 0x5a5a5a5au);
        if (as_printed(&large[i], &before_large[i], 0x5a5a5a5au))
            continue;
        printf("one thread: %s: not the multiplication by 15\n", large[i].name);
        failed = 1;
    }
    for (size_t i = 0; i < LARGE; i += 2)
        if (!same(&large[i], &before_large[i], &before_large[i + 1])) {
            printf("one thread: %s: other words than %s\n", large[i + 1].name, large[i].name);
            failed = 1;
        }
    if (failed)
        return 1;

    static struct thread threads[THREADS];
    must(pthread_barrier_init(&together, NULL, THREADS), "barrier");
    pthread_attr_t attributes;
    must(pthread_attr_init(&attributes), "attributes");
#ifdef STACK
    must(pthread_attr_setstacksize(&attributes, STACK), "size of the stack");
#endif
    for (size_t i = 0; i < THREADS; i++) {
        threads[i].number = i;
        must(pthread_create(&threads[i].id, &attributes, run, &threads[i]), "start of a thread");
    }
    unsigned long calls = 0;
    for (size_t i = 0; i < THREADS; i++) {
        must(pthread_join(threads[i].id, NULL), "end of a thread");
        calls += threads[i].calls;
        if (threads[i].differs != NULL) {
            printf("thread %zu: %s: differs from one thread alone\n", i, threads[i].differs->name);
            failed = 1;
        }
    }
    if (failed)
        return 1;
    if (calls != ((unsigned long)rounds * ROWS + LARGE) * THREADS) {
        printf("%lu calls were made\n", calls);
        return 1;
    }
    printf("%d threads, %d rows and four of degree 225, %lu calls: all as expected and as in one thread\n", THREADS, (int)ROWS, calls);
    return 0;
}
