/* A controller in C: where may a cart stand beside a bed, how near may it come, and what does a refusal say?
 *
 *     cc -std=c11 -Wall -Wextra examples/controller.c $(PKG_CONFIG_PATH=. pkg-config --cflags --libs cocklesway)
 */
#include "cocklesway.h"
#include <inttypes.h>
#include <stdio.h>

#define FLOOR 3
#define COUNT(list) (sizeof(list) / sizeof *(list))

static const int32_t bed[] = {-1000, -450, 1000, -450, 1000, 450, -1000, 450};
static const int32_t cart[] = {-200, -250, 300, -250, 500, 0, 300, 250, -200, 250};
static const int32_t place[] = {-1550, 0};
static const int32_t clockwise[] = {0, 2, 2, 2, 2, 0, 0, 0};

static int refused(const char *question, cocklesway_reply reply) {
    if (reply.number == 0) {
        return 0;
    }
    printf("%s: refused %" PRIu64 ", %s\n", question, reply.number, cocklesway_refusal_text(reply.number));
    return 1;
}

int main(void) {
    int32_t grown[COCKLESWAY_MOST_NUMBERS];
    cocklesway_reply grow =
        cocklesway_grow(bed, COUNT(bed), FLOOR, cart, COUNT(cart), FLOOR, grown, COUNT(grown));
    if (refused("grow", grow)) {
        return 1;
    }
    size_t numbers = 2 * (size_t)grow.values[0];
    printf("grown bed on floor %" PRIu64 ":", grow.values[1]);
    for (size_t i = 0; i < numbers; i++) {
        printf(" %" PRId32, grown[i]);
    }
    printf("\n");

    cocklesway_reply relation = cocklesway_relation(place, COUNT(place), FLOOR, grown, numbers, FLOOR);
    if (refused("relation", relation)) {
        return 1;
    }
    printf("the cart may stand there: %s\n", relation.values[0] == COCKLESWAY_APART ? "yes" : "no");

    cocklesway_reply clearance = cocklesway_clearance(place, COUNT(place), FLOOR, grown, numbers, FLOOR);
    if (!refused("clearance", clearance) && clearance.values[0] == COCKLESWAY_CORNER_EDGE) {
        printf("%" PRIu64 " mm from edge %" PRIu64 "\n", clearance.values[5], clearance.values[2]);
    }

    cocklesway_reply furthest = cocklesway_furthest(place, COUNT(place), FLOOR, 1, 0);
    printf("furthest to the right: %" PRId64 "\n", cocklesway_signed(furthest.values[2]));

    refused("merge", cocklesway_merge(bed, COUNT(bed), FLOOR, cart, COUNT(cart), 4, grown, COUNT(grown)));
    cocklesway_reply judge = cocklesway_judge(clockwise, COUNT(clockwise), FLOOR);
    refused("judge", judge);
    printf("edge %" PRIu64 ", corner %" PRIu64 "\n", judge.carried[1], judge.carried[2]);
    return 0;
}
