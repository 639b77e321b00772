/* Exact geometry of convex shapes for delivery carts, in whole millimetres on flat floors.
 *
 * A list of corners is lent as a pointer and a count of numbers, x and y by turns, with the floor that it is on. It is
 * a shape if it has 1 to 1,024 corners, all within 1,000,000 of 0 along both axes, counterclockwise, each strictly to
 * the left of every edge that it is no end of, the lowest corner first and of several lowest the leftmost. One corner
 * is a point, and two different ones are a segment. Any list may be lent: each call judges its lists first.
 *
 * A call that writes does so at the front of its output; the rest of the output is kept. On refusal nothing is
 * written. The output overlaps no list. A list may be lent twice. A pointer is not followed if its count is 0.
 * No call allocates or keeps anything, so several may run at a time.
 *
 * Link libcocklesway.a, which .ci/archive makes: pkg-config --cflags --libs cocklesway. It is for x86-64 Linux.
 */
#ifndef COCKLESWAY_H
#define COCKLESWAY_H

#include <stdbool.h>
#include <stddef.h>
#include <stdint.h>

#ifdef __cplusplus
extern "C" {
#endif

/* The version of the calls. The name of cocklesway_version_2 carries it: a program that includes this header does not
 * link with an archive of another version. */
#define COCKLESWAY_VERSION 2
uint64_t cocklesway_version_2(void);
#if defined(__GNUC__)
__attribute__((used)) static uint64_t (*const cocklesway_linked_version)(void) = cocklesway_version_2;
#endif

/* The limits of the library. */
typedef struct {
    uint64_t corners;    /* corners of a shape */
    uint64_t points;     /* points of a sweep */
    uint64_t coordinate; /* size of a coordinate, in millimetres */
    uint64_t part;       /* size of a part of a direction */
    uint64_t floor;      /* the highest floor */
} cocklesway_limit;
cocklesway_limit cocklesway_limits(void);

/* An output of this many numbers, or bytes, holds every answer: two numbers for each of cocklesway_limits().corners. */
#define COCKLESWAY_MOST_NUMBERS 2048
#define COCKLESWAY_MOST_BYTES 8192

/* What a call answers.
 *     number    0 if answered, else the refusal's number
 *     carried   what a refusal carries: 1 to 5 the list that is blamed, 1 or 2; 4 also an edge and a corner; 15 the
 *               byte that a record begins at; 17, 18 and 3 of cocklesway_tablet 1 for x or 2 for y
 *     count     how many of values are meant, or, if refused, of carried; the others are 0
 *     values    the answer's values, the floor last; one below 0 by its two's complement (cocklesway_signed)
 * Positions count from 0. */
typedef struct {
    uint64_t number;
    uint64_t carried[3];
    uint64_t count;
    uint64_t values[9];
} cocklesway_reply;

/* A value that may be below 0. */
static inline int64_t cocklesway_signed(uint64_t value) {
    return value <= INT64_MAX ? (int64_t)value : -(int64_t)(UINT64_MAX - value) - 1;
}

/* The refusals in words. They are given in this order: 1 to 5 of the first list, then of the second, 13, then 9 to 12
 * and 14, then 6, 7, 8. */
static inline const char *cocklesway_refusal_text(uint64_t number) {
    switch (number) {
    case 0: return "answered";
    case 1: return "a list is empty, or its last corner is not whole";
    case 2: return "a list has too many corners or points";
    case 3: return "a coordinate is out of range";
    case 4: return "a list has two equal corners, or a corner that is not strictly left of an edge";
    case 5: return "a list does not begin at the leftmost of its lowest corners";
    case 6: return "the answer would have too many corners";
    case 7: return "the answer would have a coordinate out of range";
    case 8: return "the output is too small for the answer";
    case 9: return "the shapes are not apart, so no lines just touch both";
    case 10: return "a point or a segment has no width and no box";
    case 11: return "the direction is 0 0, or a part of it is out of range";
    case 12: return "the parts of the direction have a common divisor above 1";
    case 13: return "the floors differ, or one is above the highest";
    case 14: return "the walk is at no place of the sum of these shapes";
    case 15: return "a record is of an unknown kind or a wrong length, or its corners are no shape";
    case 16: return "there is too little room after the last whole record of the log";
    case 17: return "a reading is not finite";
    case 18: return "a reading is no whole number of millimetres";
    case 19: return "no record of the log has the name";
    case 20: return "fewer shapes are on the floor, or in the log, than the question compares";
    default: return "this header does not know the number";
    }
}

/* Values: how many corners, floor. Refused 1 to 5, 13. */
cocklesway_reply cocklesway_judge(const int32_t *list, size_t n, uint32_t floor);

/* The corners that are furthest in the direction u v, the first and the last counterclockwise, which are one or two
 * neighbours. Values: first, last, u*x + v*y (may be below 0), floor. Refused 1 to 5, 13, 11, 12. */
cocklesway_reply cocklesway_furthest(const int32_t *list, size_t n, uint32_t floor, int32_t u, int32_t v);

/* Writes the shape of all (-x, -y). Values: how many corners, floor. Refused 1 to 5, 13, 8. */
cocklesway_reply cocklesway_mirror(const int32_t *list, size_t n, uint32_t floor, int32_t *out, size_t room);

/* Writes the shape of all corner-plus-corner points. Values: how many corners, floor. Refused 1 to 5, 13, 6, 7, 8. */
cocklesway_reply cocklesway_sum(const int32_t *a, size_t n, uint32_t f, const int32_t *b, size_t m, uint32_t g,
                                int32_t *out, size_t room);

/* Writes the shape of both corner lists together. Values: how many corners, floor. Refused 1 to 5, 13, 6, 8. */
cocklesway_reply cocklesway_merge(const int32_t *a, size_t n, uint32_t f, const int32_t *b, size_t m, uint32_t g,
                                  int32_t *out, size_t room);

/* Writes the shape of all obstacle-corner minus cart-corner points: a cart at a place relates to the obstacle as the
 * place relates to this shape. Values: how many corners, floor. Refused 1 to 5, 13, 6, 7, 8. */
cocklesway_reply cocklesway_grow(const int32_t *obstacle, size_t n, uint32_t f, const int32_t *cart, size_t m,
                                 uint32_t g, int32_t *out, size_t room);

/* Writes the shape of a set of points, which may be in any order, repeated, and in line. Values: how many corners,
 * floor. Refused 1 to 3, 13, 8. */
cocklesway_reply cocklesway_sweep(const int32_t *list, size_t n, uint32_t floor, int32_t *out, size_t room);

/* Writes the standard list with the corners of a ring as people have it: closed by its first point or open, in either
 * sense, begun anywhere, with neighbours repeated and points in line. Nothing is filled up. Values: how many corners,
 * floor. Refused 1, 2 (a closing point is not counted), 3, 13, 4 (not convex: 1, the positions in the list of the corner
 * before and of the corner that turns in), 8. */
cocklesway_reply cocklesway_ring(const int32_t *list, size_t n, uint32_t floor, int32_t *out, size_t room);

/* The walk for the first part of a sum. Values: edges passed of the first shape, of the second, 1 if over, floor.
 * Refused 1 to 5, 13, 6, 7. */
cocklesway_reply cocklesway_begin(const int32_t *a, size_t n, uint32_t f, const int32_t *b, size_t m, uint32_t g);

/* Writes the next corners of a sum after a walk, k or what remains, whichever is less. Values: how many corners; the
 * walk for the next part: edges passed of the first shape, of the second, 1 if over; floor. Refused 1 to 5, 13, 14, 6
 * and 7 of the whole sum, 8 of these corners. */
cocklesway_reply cocklesway_part(const int32_t *a, size_t n, uint32_t f, const int32_t *b, size_t m, uint32_t g,
                                 size_t first, size_t second, bool over, size_t k, int32_t *out, size_t room);

/* Values: the greatest squared distance of two corners, their positions, floor. Refused 1 to 5, 13. */
cocklesway_reply cocklesway_length(const int32_t *list, size_t n, uint32_t floor);

/* Values: twice the area, floor. Refused 1 to 5, 13. */
cocklesway_reply cocklesway_area(const int32_t *list, size_t n, uint32_t floor);

/* Where the shape is narrowest. Values: edge, corner, the turn t of the corner against the edge, the edge's squared
 * length q, the width t/sqrt(q) rounded down, floor. Refused 1 to 5, 13, 10. */
cocklesway_reply cocklesway_width(const int32_t *list, size_t n, uint32_t floor);

/* The least box: of the enclosing rectangles that have a side on an edge, the one of least perimeter. Values: edge, the
 * greatest turn t of a corner against the edge, the spread s of the corners' values along the edge, the edge's squared
 * length q, floor. The box's sides are t/sqrt(q) across the edge and s/sqrt(q) along it. Refused 1 to 5, 13, 10. */
cocklesway_reply cocklesway_box(const int32_t *list, size_t n, uint32_t floor);

/* The first value of a relation. */
#define COCKLESWAY_APART 0
#define COCKLESWAY_TOUCHING 1
#define COCKLESWAY_OVERLAPPING 2

/* Values: apart, touching or overlapping; floor. Refused 1 to 5, 13. */
cocklesway_reply cocklesway_relation(const int32_t *a, size_t n, uint32_t f, const int32_t *b, size_t m, uint32_t g);

/* Values: 1 if the first shape is inside the second, else 0; floor. Refused 1 to 5, 13. */
cocklesway_reply cocklesway_inside(const int32_t *a, size_t n, uint32_t f, const int32_t *b, size_t m, uint32_t g);

/* Values: 1 if every corner of the first has a strictly lesser u*x + v*y than every corner of the second, which sets
 * the shapes apart, else 0; floor. Refused 1 to 5, 13, 11, 12. */
cocklesway_reply cocklesway_offer(const int32_t *a, size_t n, uint32_t f, const int32_t *b, size_t m, uint32_t g,
                                  int32_t u, int32_t v);

/* A direction that is accepted if it is offered. Values: 1, u, v (may be below 0), floor; or 0, floor if the shapes
 * are not apart. Refused 1 to 5, 13. */
cocklesway_reply cocklesway_find(const int32_t *a, size_t n, uint32_t f, const int32_t *b, size_t m, uint32_t g);

/* The first value of a clearance. */
#define COCKLESWAY_NOT_APART 0
#define COCKLESWAY_CORNERS 1
#define COCKLESWAY_CORNER_EDGE 2
#define COCKLESWAY_EDGE_CORNER 3

/* Where the shapes are nearest, and how near. Values:
 *     COCKLESWAY_NOT_APART, floor
 *     COCKLESWAY_CORNERS, corner of the first, of the second, squared distance, distance rounded down, floor
 *     COCKLESWAY_CORNER_EDGE, corner of the first, edge of the second, t, q, t/sqrt(q) rounded down, floor
 *     COCKLESWAY_EDGE_CORNER, corner of the second, edge of the first, t, q, t/sqrt(q) rounded down, floor
 * t is the size of the corner's turn against the edge, q the edge's squared length. Refused 1 to 5, 13. */
cocklesway_reply cocklesway_clearance(const int32_t *a, size_t n, uint32_t f, const int32_t *b, size_t m, uint32_t g);

/* The greatest distance of a point of one shape and a point of the other: two corners have it. Values: the squared
 * distance, the corner of the first, of the second, floor. Refused 1 to 5, 13. */
cocklesway_reply cocklesway_greatest(const int32_t *a, size_t n, uint32_t f, const int32_t *b, size_t m, uint32_t g);

/* The first value of an excess is COCKLESWAY_INSIDE, COCKLESWAY_CORNERS or COCKLESWAY_CORNER_EDGE. */
#define COCKLESWAY_INSIDE 0

/* How far a new shape reaches beyond the old one. Values:
 *     COCKLESWAY_INSIDE, floor
 *     COCKLESWAY_CORNERS, corner of the new, of the old, squared distance, distance rounded up, floor
 *     COCKLESWAY_CORNER_EDGE, corner of the new, edge of the old, t, q, t/sqrt(q) rounded up, floor
 * The corner is the one that is furthest from the old shape. Refused 1 to 5, 13. */
cocklesway_reply cocklesway_excess(const int32_t *now, size_t n, uint32_t f, const int32_t *old, size_t m, uint32_t g);

/* The four lines that just touch both shapes: both on its left; both on its right; the first left and the second
 * right; the reverse. Values: of each its corner in the first and in the second; floor. Refused 1 to 5, 13, 9. */
cocklesway_reply cocklesway_tangents(const int32_t *a, size_t n, uint32_t f, const int32_t *b, size_t m, uint32_t g);

/* Whether a cart may pass straight between a left and a right obstacle, without turning. The corners of its outline are
 * relative to its own origin. Values: 0, floor if it is blocked; or 1, u, v, low, high (each of these four may be below
 * 0), width, floor: (u, v) is the direction across the way, from the right obstacle to the left one, in lowest terms; at
 * every place (x, y) of the cart's origin with u*x + v*y strictly between low and high it is apart from both; width is
 * that room in millimetres, rounded down. Refused 1 to 5 of each list, 13, then 6, 7 of the left obstacle grown by the
 * cart, then of the right one. */
cocklesway_reply cocklesway_passage(const int32_t *left, size_t n, uint32_t f, const int32_t *right, size_t m,
                                    uint32_t g, const int32_t *cart, size_t k, uint32_t h);

/* Where a cart that drives straight from (x, y) to (u, v), without turning, first meets an obstacle. The corners of its
 * outline are relative to its own origin, whose places these are; both may be the same. Values: 0, floor if it never
 * does; or 1, n, d, safe, floor: the fraction n/d of the way in lowest terms, 0/1 if it begins there, and the
 * millimetres of the way before it, rounded down. Touching is meeting. Refused 1 to 5 of each list, 13, 3 of the places
 * as of lists 3 and 4, then 6, 7 of the obstacle grown by the cart. */
cocklesway_reply cocklesway_contact(const int32_t *obstacle, size_t n, uint32_t f, const int32_t *cart, size_t m,
                                    uint32_t g, int32_t x, int32_t y, int32_t u, int32_t v);

/* The corner of two readings, each in millimetres or in eighths of one. Values: x, y (may be below 0); no floor.
 * Refused 17, 18 or 3 of x, then of y. */
cocklesway_reply cocklesway_tablet(bool x_eighths, double x, bool y_eighths, double y);

/* Writes the latest shape of a name in a log. Values: how many corners, floor. Refused 15, 19, 8. */
cocklesway_reply cocklesway_log_read(const uint8_t *log, size_t count, uint16_t name, int32_t *out, size_t room);

/* Writes the current shape at position k of a log: each name has one, where its latest record is. Values: how many
 * corners, name, floor. Refused 15, 20, 8. */
cocklesway_reply cocklesway_log_entry(const uint8_t *log, size_t count, size_t k, int32_t *out, size_t room);

/* Adds a shape to a log with at most `allowed` stores of single bytes. Values: 1 if they sufficed, else 0; no floor.
 * Refused 1 to 5, 13, 15, 16. */
cocklesway_reply cocklesway_log_add(uint8_t *log, size_t count, uint16_t name, uint32_t floor, const int32_t *list,
                                    size_t n, size_t allowed);

/* Packs a log into a second run of bytes: the current records in their order, without those of the name `but` (65536:
 * nobody's), and zeros after them. At most as many stores of single bytes as are allowed are made, each where the byte
 * differs. A packing that was cut is called again; until one finishes, the new run may read as anything. Values: 1 if
 * the stores sufficed, else 0; no floor. Refused 15 of the old log, 16. */
cocklesway_reply cocklesway_log_pack(const uint8_t *old, size_t count, uint8_t *fresh, size_t room, uint32_t but,
                                     size_t allowed);

/* Finds the nearest to a shape of the current shapes on its floor in a log, the name `but` left out; 65536 leaves out
 * nobody. Values: the name, then those of cocklesway_clearance of the shape and that one. Refused 1 to 5, 13, 15, 20. */
cocklesway_reply cocklesway_log_nearest(const uint8_t *log, size_t count, const int32_t *list, size_t n,
                                        uint32_t floor, size_t but);

/* Finds the two current shapes on a floor of a log with the narrowest gap, both grown by a cart's outline; the point
 * 0 0 asks the gap of the shapes as they are. Values: both names, then those of cocklesway_clearance of the grown two.
 * Refused 1 to 5, 13, 15, 20, then 6, 7 of the grown shapes, one after the other. */
cocklesway_reply cocklesway_log_gap(const uint8_t *log, size_t count, const int32_t *cart, size_t n, uint32_t floor);

/* Finds the current shape on a floor of a log that a cart meets first on a straight drive from (x, y) to (u, v); of
 * several at the same place the first in the log. Values: 0, floor if it meets none; or 1, name, n, d, safe, floor: n, d
 * and safe as those of cocklesway_contact. Refused 1 to 5, 13, 15, 20 if no shape is on the floor, 3 of the places as of
 * lists 2 and 3, then 6, 7 of the grown shapes, one after the other. */
cocklesway_reply cocklesway_log_contact(const uint8_t *log, size_t count, const int32_t *cart, size_t n, uint32_t floor,
                                        int32_t x, int32_t y, int32_t u, int32_t v);

/* Four calls on bytes: x and y of each corner, four bytes to a number, two's complement, the lowest byte first, at any
 * alignment. An output needs eight bytes to a corner. Each answers one number, from its low end:
 *     a byte      the refusal, or 0
 *     a byte      the list that refusals 1 to 5 blame, 1 or 2, or 0
 *     two bytes   4's edge; when answered the count of corners, or a relation
 *     two bytes   4's corner; when answered the floor
 *     the rest    0 */
uint64_t cocklesway_judge_bytes(const uint8_t *list, size_t n, uint32_t floor);
uint64_t cocklesway_sum_bytes(const uint8_t *a, size_t n, uint32_t f, const uint8_t *b, size_t m, uint32_t g,
                              uint8_t *out, size_t room);
uint64_t cocklesway_merge_bytes(const uint8_t *a, size_t n, uint32_t f, const uint8_t *b, size_t m, uint32_t g,
                                uint8_t *out, size_t room);
uint64_t cocklesway_relation_bytes(const uint8_t *a, size_t n, uint32_t f, const uint8_t *b, size_t m, uint32_t g);

/* The fields of such a number: the refusal, and the list that it blames; of an answer the count or relation, and the
 * floor; of refusal 4 the edge and the corner. */
static inline unsigned cocklesway_refusal(uint64_t answer) { return answer & 0xFF; }
static inline unsigned cocklesway_shape(uint64_t answer) { return answer >> 8 & 0xFF; }
static inline unsigned cocklesway_count(uint64_t answer) { return answer >> 16 & 0xFFFF; }
static inline unsigned cocklesway_floor(uint64_t answer) { return answer >> 32 & 0xFFFF; }
static inline unsigned cocklesway_edge(uint64_t answer) { return answer >> 16 & 0xFFFF; }
static inline unsigned cocklesway_corner(uint64_t answer) { return answer >> 32 & 0xFFFF; }

#ifdef __cplusplus
}
#endif

#endif
