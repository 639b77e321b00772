/* Every call on heap buffers of exactly the lent size, for valgrind and AddressSanitizer: nothing beyond a list or an
 * output is read or written. Outputs have every size about what the answer needs. Prints how many calls were made. */
#include "cocklesway.h"
#include <stdio.h>
#include <stdlib.h>
#include <string.h>

typedef cocklesway_reply two_written(const int32_t *, size_t, uint32_t, const int32_t *, size_t, uint32_t, int32_t *,
                                     size_t);
typedef cocklesway_reply two_lists(const int32_t *, size_t, uint32_t, const int32_t *, size_t, uint32_t);
typedef uint64_t bytes_written(const uint8_t *, size_t, uint32_t, const uint8_t *, size_t, uint32_t, uint8_t *, size_t);

typedef struct {
    int32_t *numbers;
    size_t n;
} list;

static unsigned calls;

/* A copy on the heap, of exactly that number of bytes; what is there at first is read by the caller alone. */
static void *heap(const void *from, size_t bytes) {
    void *copy = malloc(bytes);
    if (copy == NULL && bytes != 0) {
        abort();
    }
    if (bytes != 0) {
        memcpy(copy, from, bytes);
    }
    return copy;
}

static list make(const int32_t *numbers, size_t n) {
    list made = {(int32_t *)heap(numbers, n * sizeof *numbers), n};
    return made;
}

/* A shape of as many corners as there may be, on a parabola. */
static list largest(void) {
    int32_t numbers[COCKLESWAY_MOST_NUMBERS];
    const int32_t half = COCKLESWAY_MOST_NUMBERS / 4;
    for (int32_t i = 0; i < 2 * half; i++) {
        int32_t x = i < half ? i : i - 2 * half;
        numbers[2 * i] = x;
        numbers[2 * i + 1] = x * x;
    }
    return make(numbers, COCKLESWAY_MOST_NUMBERS);
}

/* Asks with outputs of no numbers, one less than are needed, as many, and one more. */
static void written(two_written *call, list a, list b) {
    static const int32_t zeros[COCKLESWAY_MOST_NUMBERS + 1];
    int32_t all[COCKLESWAY_MOST_NUMBERS];
    cocklesway_reply reply = call(a.numbers, a.n, 0, b.numbers, b.n, 0, all, COCKLESWAY_MOST_NUMBERS);
    size_t need = reply.number == 0 ? 2 * (size_t)reply.values[0] : 1;
    size_t rooms[] = {0, need - 1, need, need + 1};
    for (size_t i = 0; i < sizeof rooms / sizeof *rooms; i++) {
        int32_t *out = (int32_t *)heap(zeros, rooms[i] * sizeof *out);
        call(a.numbers, a.n, 0, b.numbers, b.n, 0, out, rooms[i]);
        calls++;
        free(out);
    }
}

/* Questions of one list that write, and the others, in the form of those of two. */
static cocklesway_reply mirror(const int32_t *a, size_t n, uint32_t f, const int32_t *b, size_t m, uint32_t g,
                               int32_t *out, size_t room) {
    (void)b, (void)m, (void)g;
    return cocklesway_mirror(a, n, f, out, room);
}

static cocklesway_reply sweep(const int32_t *a, size_t n, uint32_t f, const int32_t *b, size_t m, uint32_t g,
                              int32_t *out, size_t room) {
    (void)b, (void)m, (void)g;
    return cocklesway_sweep(a, n, f, out, room);
}

static cocklesway_reply ring(const int32_t *a, size_t n, uint32_t f, const int32_t *b, size_t m, uint32_t g,
                             int32_t *out, size_t room) {
    (void)b, (void)m, (void)g;
    return cocklesway_ring(a, n, f, out, room);
}

static cocklesway_reply part(const int32_t *a, size_t n, uint32_t f, const int32_t *b, size_t m, uint32_t g,
                             int32_t *out, size_t room) {
    return cocklesway_part(a, n, f, b, m, g, 0, 0, false, 3, out, room);
}

/* Adds the shape to a log that just holds it, packs that into another that does, and asks of it there. */
static cocklesway_reply log_read(const int32_t *a, size_t n, uint32_t f, const int32_t *b, size_t m, uint32_t g,
                                 int32_t *out, size_t room) {
    (void)b, (void)m, (void)g;
    size_t count = 4 * n + 9;
    uint8_t *log = (uint8_t *)calloc(count, 1), *packed = (uint8_t *)calloc(count, 1);
    cocklesway_log_add(log, count, 7, f, a, n, SIZE_MAX);
    cocklesway_log_pack(log, count, packed, count, 65536, SIZE_MAX);
    cocklesway_log_entry(packed, count, 0, out, room);
    cocklesway_log_nearest(packed, count, a, n, f, 65536);
    cocklesway_log_gap(packed, count, a, n, f);
    cocklesway_log_contact(packed, count, a, n, f, -9, 0, 9, 0);
    cocklesway_reply reply = cocklesway_log_read(packed, count, 7, out, room);
    free(log);
    free(packed);
    return reply;
}

/* The calls on bytes, at an odd place that ends where its memory ends. */
static void in_bytes(bytes_written *call, list a, list b) {
    size_t n = 4 * a.n, m = 4 * b.n;
    uint8_t *p = (uint8_t *)malloc(n + 1), *q = (uint8_t *)malloc(m + 1);
    memcpy(p + 1, a.numbers, n);
    memcpy(q + 1, b.numbers, m);
    uint8_t all[COCKLESWAY_MOST_BYTES];
    size_t need = 8 * (size_t)cocklesway_count(call(p + 1, n, 0, q + 1, m, 0, all, sizeof all));
    for (size_t room = need == 0 ? 0 : need - 1; room <= need + 1; room++) {
        uint8_t *out = (uint8_t *)malloc(room + 1);
        call(p + 1, n, 0, q + 1, m, 0, out + 1, room);
        cocklesway_judge_bytes(p + 1, n, 0);
        cocklesway_relation_bytes(p + 1, n, 0, q + 1, m, 0);
        calls += 3;
        free(out);
    }
    free(p);
    free(q);
}

static void pair(list a, list b) {
    static two_written *const writing[] = {cocklesway_sum, cocklesway_merge, cocklesway_grow, mirror,
                                           sweep,          ring,             part,            log_read};
    static two_lists *const reading[] = {cocklesway_begin,  cocklesway_relation,  cocklesway_inside,
                                         cocklesway_find,   cocklesway_clearance, cocklesway_greatest,
                                         cocklesway_excess, cocklesway_tangents};
    for (size_t i = 0; i < sizeof writing / sizeof *writing; i++) {
        written(writing[i], a, b);
    }
    for (size_t i = 0; i < sizeof reading / sizeof *reading; i++) {
        reading[i](a.numbers, a.n, 0, b.numbers, b.n, 0);
    }
    cocklesway_judge(a.numbers, a.n, 0);
    cocklesway_furthest(a.numbers, a.n, 0, 1, 0);
    cocklesway_length(a.numbers, a.n, 0);
    cocklesway_width(a.numbers, a.n, 0);
    cocklesway_area(a.numbers, a.n, 0);
    cocklesway_box(a.numbers, a.n, 0);
    cocklesway_offer(a.numbers, a.n, 0, b.numbers, b.n, 0, 1, 0);
    cocklesway_passage(a.numbers, a.n, 0, b.numbers, b.n, 0, a.numbers, a.n, 0);
    cocklesway_contact(a.numbers, a.n, 0, b.numbers, b.n, 0, -9, 0, 9, 0);
    calls += 17;
    in_bytes(cocklesway_sum_bytes, a, b);
    in_bytes(cocklesway_merge_bytes, a, b);
}

int main(void) {
    static const int32_t square[] = {0, 0, 2, 0, 2, 2, 0, 2};
    static const int32_t beside[] = {5, 1, 9, 1, 7, 4};
    static const int32_t equal[] = {1, 1, 1, 1};
    list lists[] = {make(square, 0), make(square, 2), make(square, 3), make(square, 4),
                    make(square, 8), make(beside, 6), make(equal, 4),  largest()};
    const size_t count = sizeof lists / sizeof *lists;
    for (size_t i = 0; i < count; i++) {
        for (size_t j = 0; j < count; j++) {
            pair(lists[i], lists[j]);
        }
    }
    for (size_t i = 0; i < count; i++) {
        free(lists[i].numbers);
    }
    cocklesway_limit limits = cocklesway_limits();
    bool same = 2 * limits.corners == COCKLESWAY_MOST_NUMBERS && 8 * limits.corners == COCKLESWAY_MOST_BYTES &&
                cocklesway_version_2() == COCKLESWAY_VERSION;
    printf("%u calls, %s\n", calls, same ? "limits and version as the header has them" : "another limit or version");
    return same ? 0 : 1;
}
