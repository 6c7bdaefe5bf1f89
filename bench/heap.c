/* heap ask SLOTS UNTIL, heap renew SLOTS SPREAD UNTIL: does the same as the program trials with these arguments, with a
   binary heap in place of the timer's buckets. Prints how often the answer was that no slot is due, or how often a slot
   was due. */
#include <stdint.h>
#include <stdio.h>
#include <stdlib.h>
#include <string.h>

#define NONE UINT32_MAX

static uint64_t *deadline;
static uint32_t *heap, *place, held;

static int before(uint32_t one, uint32_t other) {
    return deadline[one] < deadline[other] || (deadline[one] == deadline[other] && one < other);
}

static void stand(uint32_t at, uint32_t slot) {
    heap[at] = slot;
    place[slot] = at;
}

static void up(uint32_t at, uint32_t slot) {
    for (; at > 0 && before(slot, heap[(at - 1) / 2]); at = (at - 1) / 2)
        stand(at, heap[(at - 1) / 2]);
    stand(at, slot);
}

static void down(uint32_t at, uint32_t slot) {
    for (;;) {
        uint32_t child = 2 * at + 1;
        if (child + 1 < held && before(heap[child + 1], heap[child]))
            child++;
        if (child >= held || !before(heap[child], slot))
            break;
        stand(at, heap[child]);
        at = child;
    }
    stand(at, slot);
}

static void set(uint32_t slot, uint64_t moment) {
    uint64_t old = deadline[slot];
    deadline[slot] = moment;
    if (place[slot] == NONE)
        up(held++, slot);
    else if (moment < old)
        up(place[slot], slot);
    else
        down(place[slot], slot);
}

static uint32_t due(uint64_t now) {
    if (held == 0 || deadline[heap[0]] > now)
        return NONE;
    uint32_t slot = heap[0];
    place[slot] = NONE;
    if (--held > 0)
        down(0, heap[held]);
    return slot;
}

static uint64_t ask(uint32_t slots, uint64_t until) {
    uint64_t none = 0;
    for (uint32_t slot = 0; slot < slots; slot++)
        set(slot, 65601408);
    for (uint64_t now = 0; now <= until; now++)
        for (int again = 0; again < 16; again++)
            none += due(now) == NONE;
    return none;
}

static uint64_t renew(uint32_t slots, uint64_t spread, uint64_t until) {
    uint64_t renewed = 0;
    for (uint64_t slot = 0; slot < slots; slot++)
        set((uint32_t)slot, slot * spread / slots + 1);
    for (uint64_t now = 0; now < until; now++)
        for (uint32_t slot; (slot = due(now)) != NONE; renewed++)
            set(slot, now + spread);
    return renewed;
}

int main(int argc, char **argv) {
    if (argc < 4)
        return 1;
    uint32_t slots = (uint32_t)atol(argv[2]);
    deadline = calloc(slots, sizeof *deadline);
    heap = calloc(slots, sizeof *heap);
    place = malloc(slots * sizeof *place);
    if (!deadline || !heap || !place)
        return 1;
    memset(place, 0xff, slots * sizeof *place);
    if (strcmp(argv[1], "ask") == 0)
        printf("%lu\n", ask(slots, (uint64_t)atol(argv[3])));
    else if (argc == 5)
        printf("%lu\n", renew(slots, (uint64_t)atol(argv[3]), (uint64_t)atol(argv[4])));
    else
        return 1;
    return 0;
}
