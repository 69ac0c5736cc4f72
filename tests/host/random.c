/* Random numbers by splitmix64. */
#include "random.h"

static uint64_t state;

void random_start(uint64_t seed)
{
    state = seed;
}

static uint64_t random64(void)
{
    uint64_t z = state += 0x9E3779B97F4A7C15;
    z = (z ^ z >> 30) * 0xBF58476D1CE4E5B9;
    z = (z ^ z >> 27) * 0x94D049BB133111EB;
    return z ^ z >> 31;
}

size_t below(size_t n)
{
    return random64() % n;
}

bool chance(size_t n)
{
    return below(n) == 0;
}

size_t one_by_share(size_t count, size_t (*share)(size_t))
{
    size_t total = 0, one = 0;
    for (size_t i = 0; i < count; i++)
        total += share(i);
    for (size_t at = below(total); at >= share(one); one++)
        at -= share(one);
    return one;
}
