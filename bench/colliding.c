/* Writes so many coins whose pages collide in the kit's hash table, for bench/growing_schedules.py: the lowest 12 bits
   of the hash of a page's number, which is the coin over 2^16, are nought. */
#include <stdint.h>
#include <stdio.h>
#include <stdlib.h>

static const uint64_t STEP = 0x9e3779b97f4a7c15, SEED = 0x243f6a8885a308d3;

static uint64_t folded(uint64_t one, uint64_t other)
{
    unsigned __int128 product = (unsigned __int128)one * other;
    return (uint64_t)product ^ (uint64_t)(product >> 64);
}

int main(int count, char **words)
{
    long wanted = count > 1 ? atol(words[1]) : 0;
    uint64_t begun = folded(SEED, STEP ^ 8);
    for (uint64_t page = 1; wanted > 0; page += 1) {
        uint64_t hash = folded(begun ^ page, STEP ^ 16);
        if (((hash ^ hash >> 32) & 0xfff) == 0) {
            printf("%llu\n", (unsigned long long)(page << 16));
            wanted -= 1;
        }
    }
    return 0;
}
