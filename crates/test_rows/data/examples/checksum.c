/*
 * A checksum over three small jobs of integers: a table of CRC-32, a heap sort, and a hash table with open addressing.
 * It needs no library and no system: it is entered at `start` with the stack pointer at the end of RAM, and ends in
 * EBREAK with the checksum in a0. See README.md for how it is built.
 */

typedef unsigned char u8;
typedef unsigned int u32;
typedef unsigned long u64;
typedef long s64;

#define NUMBERS 256
#define BUCKETS 512
#define EMPTY 0

/* rv64i has no multiplication: these are what the compiler would call. */

static u64 product(u64 a, u64 b)
{
    u64 sum = 0;

    while (b != 0) {
        if (b & 1)
            sum += a;
        a <<= 1;
        b >>= 1;
    }
    return sum;
}

static u64 remainder(u64 a, u64 b)
{
    u64 rest = 0;

    for (int bit = 63; bit >= 0; bit--) {
        rest = (rest << 1) | ((a >> bit) & 1);
        if (rest >= b)
            rest -= b;
    }
    return rest;
}

/* Numbers from a seed: the multiplier and the increment are Knuth's (MMIX). */

static u64 seed = 20261122;

static u64 next_number(void)
{
    seed = product(seed, 6364136223846793005UL) + 1442695040888963407UL;
    return seed >> 16;
}

/* CRC-32 as IEEE 802.3 has it, by a table of 256 words. */

static u32 crc_table[256];

static void make_crc_table(void)
{
    for (u32 n = 0; n < 256; n++) {
        u32 c = n;

        for (int k = 0; k < 8; k++)
            c = (c & 1) ? 0xedb88320U ^ (c >> 1) : c >> 1;
        crc_table[n] = c;
    }
}

static u32 crc_of(const void *start, u64 length)
{
    const u8 *bytes = start;
    u32 c = 0xffffffffU;

    for (u64 i = 0; i < length; i++)
        c = crc_table[(c ^ bytes[i]) & 0xff] ^ (c >> 8);
    return c ^ 0xffffffffU;
}

/* Heap sort of signed numbers, the least first. */

static s64 numbers[NUMBERS];

static void exchange(s64 *a, s64 *b)
{
    s64 kept = *a;

    *a = *b;
    *b = kept;
}

static void sink(s64 *heap, u64 root, u64 count)
{
    for (;;) {
        u64 child = 2 * root + 1;

        if (child >= count)
            return;
        if (child + 1 < count && heap[child] < heap[child + 1])
            child++;
        if (heap[root] >= heap[child])
            return;
        exchange(&heap[root], &heap[child]);
        root = child;
    }
}

static void sort(s64 *list, u64 count)
{
    for (u64 root = count / 2; root > 0; root--)
        sink(list, root - 1, count);
    for (u64 end = count - 1; end > 0; end--) {
        exchange(&list[0], &list[end]);
        sink(list, 0, end);
    }
}

static int is_sorted(const s64 *list, u64 count)
{
    for (u64 i = 1; i < count; i++)
        if (list[i - 1] > list[i])
            return 0;
    return 1;
}

/* A hash table of keys above 0 and how often each came; a full bucket is passed by. */

struct bucket {
    u64 key;
    u32 count;
    short probes;
    signed char low;
};

static struct bucket table[BUCKETS];

static u64 place_of(u64 key)
{
    return product(key, 11400714819323198485UL) >> 55;
}

static struct bucket *bucket_of(u64 key)
{
    u64 at = place_of(key);
    short probes = 0;

    while (table[at].key != EMPTY && table[at].key != key) {
        at = (at + 1) & (BUCKETS - 1);
        probes++;
    }
    if (table[at].key == EMPTY) {
        table[at].key = key;
        table[at].probes = probes;
        table[at].low = (signed char)key;
    }
    return &table[at];
}

static void count_key(u64 key)
{
    bucket_of(key)->count++;
}

static u64 table_sum(void)
{
    u64 sum = 0;

    for (u64 i = 0; i < BUCKETS; i++) {
        const struct bucket *b = &table[i];

        if (b->key != EMPTY)
            sum += (b->key ^ i) + b->count + (u64)(s64)b->probes - (u64)(s64)b->low;
    }
    return sum;
}

/* A word that gcc can't compute ahead: the check value of CRC-32 is that of these nine digits, cbf43926. */

static const char digits[] = "123456789";

u64 checksum(void)
{
    u64 sum;

    make_crc_table();
    if (crc_of(digits, sizeof digits - 1) != 0xcbf43926U)
        return 1;

    for (u64 i = 0; i < NUMBERS; i++) {
        u64 n = next_number();

        numbers[i] = (n & 1) ? (s64)n : -(s64)n;
        count_key(1 + remainder(n, 300));
    }
    sort(numbers, NUMBERS);
    if (!is_sorted(numbers, NUMBERS))
        return 2;

    sum = crc_of(numbers, sizeof numbers);
    sum = (sum << 32) | crc_of(table, sizeof table);
    return sum ^ table_sum();
}

__asm__(
    ".section .text.start, \"ax\"\n"
    ".globl start\n"
    "start:\n"
    "    call checksum\n"
    "    ebreak\n"
    "    j start\n"
    ".text\n");
