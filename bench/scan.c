// Measures one pass of a query: how many of a list of bodies are in range of another. The bodies stand one behind the
// other, or each among so many words of 8 bytes.
//
//     scan BODIES QUERIES WORDS
//
// Writes the nanoseconds that a body took, and how many were in range.
#include <stdint.h>
#include <stdio.h>
#include <stdlib.h>
#include <time.h>

// A multiplicative hash of a number.
static uint64_t mixed(uint64_t number)
{
    number = (number ^ number >> 31) * 0x9e3779b97f4a7c15u;
    return number ^ number >> 29;
}

static long in_range(const uint64_t *bodies, long count, int words, uint64_t body, int radius)
{
    long found = 0;
    for (long i = 0; i < count; i++)
        found += __builtin_popcountll(bodies[i * words] ^ body) <= radius;
    return found;
}

int main(int argc, char **argv)
{
    if (argc != 4)
        return 2;
    long bodies = atol(argv[1]), queries = atol(argv[2]), found = 0;
    int words = atoi(argv[3]);
    uint64_t *list = calloc(bodies * words, sizeof(uint64_t));
    if (!list)
        return 6;
    for (long i = 0; i < bodies; i++)
        list[i * words] = mixed(i);
    clock_t begin = clock();
    for (long q = 0; q < queries; q++)
        found += in_range(list, bodies, words, mixed(q << 20), 8);
    double took = (double)(clock() - begin) / CLOCKS_PER_SEC;
    printf("%.2f %ld\n", took * 1e9 / bodies / queries, found);
    return 0;
}
