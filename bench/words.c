/* Draws the random numbers of a simulation's events, and does nothing with them. `boothd sim` cannot be faster.
 *
 * The generator is PCG32: a state of 64 bits, an increment that is made from the number of a stream, and a rotation of
 * the upper bits. */
#include <inttypes.h>
#include <stdint.h>
#include <stdio.h>
#include <stdlib.h>

static uint64_t state, increment;

static uint32_t draw(void)
{
    uint64_t old = state;
    state = old * 6364136223846793005u + increment;
    uint32_t mixed = (uint32_t)(((old >> 18) ^ old) >> 27);
    uint32_t turns = (uint32_t)(old >> 59);
    return (mixed >> turns) | (mixed << ((0u - turns) & 31u));
}

int main(int count, char **words)
{
    uint64_t events = strtoull(words[1], NULL, 10), number = strtoull(words[2], NULL, 10), frames = 0;

    if (count != 3)
        return 2;
    increment = (54u << 1) | 1u;
    state = 0;
    draw();
    state += number;
    draw();
    for (uint64_t event = 0; event < events; event++) {
        uint32_t first = draw(), second = draw(), third = draw();
        frames += second % 2000 < 1200 && (first ^ third) != 0xffffffffu;
    }
    printf("%" PRIu64 "\n", frames);
    return 0;
}
