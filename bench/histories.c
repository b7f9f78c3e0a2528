// Writes lawful histories of one round and one session to standard output.
//
//     histories queries DECLARES QUERIES RADIUS KINDS
//         declarations in 2,000 clusters of near copies, of 1 to 5 kinds, and then queries near the clusters' centres
//     histories withdrawals DECLARES WITHDRAWALS COUNTS rising|random
//         declarations of one kind, withdrawals of the first of them by rising id or in random order, and counts
//
// The numbers are pseudorandom and the same in each run.
#include <stdint.h>
#include <stdio.h>
#include <stdlib.h>
#include <string.h>

enum { CENTRES = 2000 };

typedef struct {
    uint64_t body;
    int id;
    int kind;
} Declared;

static uint64_t centres[CENTRES];
static Declared *declared;
static int declares;

// Marsaglia's xorshift generator.
static uint64_t next(void)
{
    static uint64_t state = 88172645463325252u;
    state ^= state << 13;
    state ^= state >> 7;
    state ^= state << 17;
    return state;
}

// Prints a unit of 64 bits: ISCC: and the base32 letters of header and body. The kind is its MainType, 0 to 4.
static void print_unit(int kind, uint64_t body)
{
    unsigned char bytes[10] = {(unsigned char)(kind << 4), 1};
    for (int i = 0; i < 8; i++)
        bytes[2 + i] = (unsigned char)(body >> (56 - 8 * i));
    char text[] = "ISCC:................";
    for (int i = 0; i < 16; i++) {
        int letter = 0;
        for (int bit = 5 * i; bit < 5 * i + 5; bit++)
            letter = letter * 2 + (bytes[bit / 8] >> (7 - bit % 8) & 1);
        text[5 + i] = "ABCDEFGHIJKLMNOPQRSTUVWXYZ234567"[letter];
    }
    fputs(text, stdout);
}

// The order of hits: by body and then by id.
static int compare(const void *a, const void *b)
{
    const Declared *x = a, *y = b;
    if (x->body != y->body)
        return x->body < y->body ? -1 : 1;
    return (x->id > y->id) - (x->id < y->id);
}

// Writes the lines up to the last declaration.
static void write_declarations(int kinds)
{
    for (int i = 0; i < CENTRES; i++)
        centres[i] = next();
    printf("iscc-history 1\nround 0 base 0 entries 1048576 log 4194304 callers 1\n");
    for (int i = 0; i < declares; i++) {
        uint64_t body = centres[next() % CENTRES];
        body ^= 1ull << next() % 64;
        body ^= 1ull << next() % 64;
        declared[i] = (Declared){body, i, (int)(next() % kinds)};
        printf("0.%d @%d declare ", i, i + 1);
        print_unit(declared[i].kind, body);
        printf(" = id %d\n", i);
    }
}

// Gathers the hits of a query in their order, and gives their number.
static int find(int kind, uint64_t body, int radius, Declared *hits)
{
    int found = 0;
    for (int i = 0; i < declares; i++)
        if (declared[i].kind == kind && __builtin_popcountll(declared[i].body ^ body) <= radius)
            hits[found++] = declared[i];
    qsort(hits, found, sizeof(Declared), compare);
    return found;
}

static void write_queries(int queries, int radius, int kinds, Declared *hits)
{
    for (int q = 0; q < queries; q++) {
        uint64_t body = centres[next() % CENTRES];
        int kind = (int)(next() % kinds), found = find(kind, body, radius, hits);
        printf("0.%d @%d near ", declares + q, declares);
        print_unit(kind, body);
        printf(" %d = hits %d", radius, found);
        for (int i = 0; i < found; i++) {
            printf(" %d,%d,", hits[i].id, __builtin_popcountll(hits[i].body ^ body));
            print_unit(kind, hits[i].body);
        }
        putchar('\n');
    }
    printf("end %d live %d\n", declares + queries, declares);
}

// Withdraws the ids below a number, by rising id or in random order.
static void write_withdrawals(int withdrawals, int random, int *ids)
{
    for (int i = 0; i < withdrawals; i++)
        ids[i] = i;
    for (int i = withdrawals - 1; random && i > 0; i--) {
        int other = (int)(next() % (i + 1)), id = ids[i];
        ids[i] = ids[other];
        ids[other] = id;
    }
    for (int i = 0; i < withdrawals; i++)
        printf("0.%d @%d withdraw %d = withdrawn %d\n", declares + i, declares + i + 1, ids[i], ids[i]);
}

static void write_counts(int first, int counts, int live)
{
    for (int i = 0; i < counts; i++)
        printf("0.%d @%d count = count %d\n", first + i, first, live);
    printf("end %d live %d\n", first + counts, live);
}

int main(int argc, char **argv)
{
    if (argc != 6)
        return 2;
    declares = atoi(argv[2]);
    declared = malloc(sizeof(Declared) * declares);
    void *room = malloc(sizeof(Declared) * declares);
    int second = atoi(argv[3]), third = atoi(argv[4]);
    if (!declared || !room)
        return 6;
    if (strcmp(argv[1], "queries") == 0) {
        write_declarations(atoi(argv[5]));
        write_queries(second, third, atoi(argv[5]), room);
    } else {
        write_declarations(1);
        write_withdrawals(second, strcmp(argv[5], "random") == 0, room);
        write_counts(declares + second, third, declares - second);
    }
    return 0;
}
