/*
 * The stack that each call takes, held to the figures of bursztok.h (BURSZTOK_STACK_...).
 *
 * A call is made on a stack of its own that was painted beforehand; what it took is what no longer
 * has the paint, counted from the far end: return address and stacked arguments are included. It
 * is made on good input of each set, must answer 0 and has been made once before, since the loader
 * looks up memcpy and memset on the stack of whoever calls them first.
 *
 * Prints a row for each call. The last line is 'N passed, M failed': one for each call and set.
 */
#include "bursztok.h"

#include <stdio.h>
#include <string.h>

#define SETS 8
#define WORDS 4096
#define REGION 65536

static unsigned char region[REGION] __attribute__((aligned(64)));

/* ---- good input: a key of the set's counts, masks of some size, the first kappa places */

static uint32_t set;
static const uint32_t key = 0x01020304;
static int8_t f[BURSZTOK_VECTOR], g[BURSZTOK_VECTOR], z2[BURSZTOK_VECTOR];
static uint16_t a[BURSZTOK_VECTOR], rounded[BURSZTOK_VECTOR];
static int16_t y1[BURSZTOK_VECTOR], y2[BURSZTOK_VECTOR], z1[BURSZTOK_VECTOR];
static int16_t rests[BURSZTOK_VECTOR];
static uint16_t list[BURSZTOK_LIST], list_out[BURSZTOK_LIST];
static size_t kappa;
static bool sign;
static uint64_t thresholds[BURSZTOK_THRESHOLDS], words[WORDS];
static uint8_t record[BURSZTOK_RECORD], packed[BURSZTOK_PACKED];
static size_t record_len, packed_len;

/* What the last call answered. */
static uint32_t number, place;

static uint32_t power(uint32_t base, uint32_t exponent)
{
    uint32_t result = 1;

    for (; exponent > 0; exponent--) {
        result = result * base % 12289;
    }
    return result;
}

/* factor f + term at x, modulo 12289. */
static uint32_t value(uint32_t factor, uint32_t term, uint32_t x)
{
    uint32_t sum = 0;

    for (int i = BURSZTOK_VECTOR - 1; i >= 0; i--) {
        sum = (sum * x + factor * (uint32_t)f[i]) % 12289;
    }
    return (sum + term) % 12289;
}

/* A key with f = g, coefficients of 1 and then of 2, as many as the set has, which are those of the
 * set of 1 to 4 that it is like: a = (2f + 1) / f, divided at the 512 roots of x^512 + 1 modulo
 * 12289, the odd powers of 49. */
static void make_key(void)
{
    static const int ones[] = {154, 154, 216, 231}, twos[] = {0, 0, 16, 31};
    const uint32_t like = (set - 1) % 4;
    const int end = ones[like] + twos[like];
    uint32_t quotient[BURSZTOK_VECTOR];

    for (int i = 0; i < BURSZTOK_VECTOR; i++) {
        f[i] = (int8_t)(i < ones[like] ? 1 : i < end ? 2 : 0);
        g[i] = f[i];
    }
    for (uint32_t k = 0; k < BURSZTOK_VECTOR; k++) {
        uint32_t root = power(49, 2 * k + 1);
        quotient[k] = value(2, 1, root) * power(value(1, 0, root), 12287) % 12289;
    }
    for (uint32_t i = 0; i < BURSZTOK_VECTOR; i++) {
        uint32_t step = power(49, 2 * (1024 - i)), x = power(49, 1024 - i), sum = 0;
        for (uint32_t k = 0; k < BURSZTOK_VECTOR; k++, x = x * step % 12289) {
            sum = (sum + quotient[k] * x) % 12289;
        }
        a[i] = (uint16_t)(sum * power(BURSZTOK_VECTOR, 12287) % 12289);
    }
}

static void make_input(void)
{
    for (int i = 0; i < BURSZTOK_VECTOR; i++) {
        y1[i] = (int16_t)(i % 300 - 150);
        y2[i] = (int16_t)(i % 200 - 100);
    }
    for (int i = 0; i < BURSZTOK_LIST; i++) {
        list[i] = (uint16_t)i;
    }
    for (int i = 0; i < BURSZTOK_THRESHOLDS; i++) {
        thresholds[i] = UINT64_MAX;
    }
}

/* ---- the calls, in an order in which each finds its input made */

static void kappa_of(void)
{
    kappa = bursztok_kappa(set);
    number = kappa == 0;
}

static void record_bytes_of(void)
{
    record_len = bursztok_record_bytes(set);
    number = record_len == 0;
}

static void packed_bytes_of(void)
{
    packed_len = bursztok_packed_bytes(set);
    number = packed_len == 0;
}

static void key_test(void)
{
    number = bursztok_key_test(set, f, BURSZTOK_VECTOR, g, BURSZTOK_VECTOR, a, BURSZTOK_VECTOR)
                 .number;
}

static void commitment(void)
{
    number = bursztok_commitment(set, a, BURSZTOK_VECTOR, y1, BURSZTOK_VECTOR, y2,
                                 BURSZTOK_VECTOR, rounded, BURSZTOK_VECTOR)
                 .number;
}

static void commitment_with_rests(void)
{
    number = bursztok_commitment_with_rests(set, a, BURSZTOK_VECTOR, y1, BURSZTOK_VECTOR, y2,
                                            BURSZTOK_VECTOR, rounded, BURSZTOK_VECTOR, rests,
                                            BURSZTOK_VECTOR)
                 .number;
}

static void respond(void)
{
    number = bursztok_respond(set, key, f, BURSZTOK_VECTOR, g, BURSZTOK_VECTOR, a, BURSZTOK_VECTOR,
                              y1, BURSZTOK_VECTOR, y2, BURSZTOK_VECTOR, list, kappa, sign,
                              thresholds, BURSZTOK_THRESHOLDS, words, WORDS, z1, BURSZTOK_VECTOR,
                              z2, BURSZTOK_VECTOR)
                 .number;
}

static void rebuild(void)
{
    number = bursztok_rebuild(set, a, BURSZTOK_VECTOR, z1, BURSZTOK_VECTOR, z2, BURSZTOK_VECTOR,
                              list, kappa, rounded, BURSZTOK_VECTOR)
                 .number;
}

static void compare(void)
{
    number = bursztok_compare(set, list, kappa, list, kappa).number;
}

/* The two with default one are asked for set 1 with 0. */
static void rebuild_default_one(void)
{
    number = bursztok_rebuild_default_one(set == 1 ? 0 : set, a, BURSZTOK_VECTOR, z1,
                                          BURSZTOK_VECTOR, z2, BURSZTOK_VECTOR, list, kappa,
                                          rounded, BURSZTOK_VECTOR)
                 .number;
}

static void compare_default_one(void)
{
    number = bursztok_compare_default_one(set == 1 ? 0 : set, list, kappa, list, kappa).number;
}

static void write_record(void)
{
    number = bursztok_write(set, key, z1, BURSZTOK_VECTOR, z2, BURSZTOK_VECTOR, list, kappa, record,
                            record_len)
                 .number;
}

static void read_record(void)
{
    number = bursztok_read(record, record_len, z1, BURSZTOK_VECTOR, z2, BURSZTOK_VECTOR, list_out,
                           BURSZTOK_LIST)
                 .number;
}

static void write_packed(void)
{
    number = bursztok_write_packed(set, key, z1, BURSZTOK_VECTOR, z2, BURSZTOK_VECTOR, list, kappa,
                                   packed, packed_len)
                 .number;
}

static void read_packed(void)
{
    number = bursztok_read_packed(packed, packed_len, z1, BURSZTOK_VECTOR, z2, BURSZTOK_VECTOR,
                                  list_out, BURSZTOK_LIST)
                 .number;
}

static void pack(void)
{
    number = bursztok_pack(record, record_len, packed, packed_len).number;
}

static void unpack(void)
{
    number = bursztok_unpack(packed, packed_len, record, record_len).number;
}

static void z1_section(void)
{
    bursztok_z1_section(record, record_len, &number, &place);
}

static void z2_section(void)
{
    bursztok_z2_section(record, record_len, &number, &place);
}

static void list_section(void)
{
    bursztok_list_section(record, record_len, &number, &place);
}

struct row {
    const char *name;
    void (*call)(void);
    size_t bar;
};

static const struct row rows[] = {
    {"bursztok_kappa", kappa_of, BURSZTOK_STACK_OTHER},
    {"bursztok_record_bytes", record_bytes_of, BURSZTOK_STACK_OTHER},
    {"bursztok_packed_bytes", packed_bytes_of, BURSZTOK_STACK_OTHER},
    {"bursztok_key_test", key_test, BURSZTOK_STACK_KEY_TEST},
    {"bursztok_commitment", commitment, BURSZTOK_STACK_COMMITMENT},
    {"bursztok_commitment_with_rests", commitment_with_rests, BURSZTOK_STACK_COMMITMENT},
    {"bursztok_respond", respond, BURSZTOK_STACK_RESPOND},
    {"bursztok_rebuild", rebuild, BURSZTOK_STACK_REBUILD},
    {"bursztok_compare", compare, BURSZTOK_STACK_OTHER},
    {"bursztok_rebuild_default_one", rebuild_default_one, BURSZTOK_STACK_REBUILD},
    {"bursztok_compare_default_one", compare_default_one, BURSZTOK_STACK_OTHER},
    {"bursztok_write", write_record, BURSZTOK_STACK_WRITE},
    {"bursztok_read", read_record, BURSZTOK_STACK_READ},
    {"bursztok_write_packed", write_packed, BURSZTOK_STACK_WRITE_PACKED},
    {"bursztok_read_packed", read_packed, BURSZTOK_STACK_READ_PACKED},
    {"bursztok_pack", pack, BURSZTOK_STACK_CONVERT},
    {"bursztok_unpack", unpack, BURSZTOK_STACK_CONVERT},
    {"bursztok_z1_section", z1_section, BURSZTOK_STACK_OTHER},
    {"bursztok_z2_section", z2_section, BURSZTOK_STACK_OTHER},
    {"bursztok_list_section", list_section, BURSZTOK_STACK_OTHER},
};

/* ---- the painted stack */

static void call_on(void (*call)(void), unsigned char *top)
{
    __asm__ volatile("movq %%rsp, %%rbx\n\t"
                     "movq %0, %%rsp\n\t"
                     "call *%1\n\t"
                     "movq %%rbx, %%rsp"
                     :
                     : "r"(top), "r"(call)
                     : "rbx", "rax", "rcx", "rdx", "rsi", "rdi", "r8", "r9", "r10", "r11", "xmm0",
                       "xmm1", "xmm2", "xmm3", "xmm4", "xmm5", "xmm6", "xmm7", "xmm8", "xmm9",
                       "xmm10", "xmm11", "xmm12", "xmm13", "xmm14", "xmm15", "memory", "cc");
}

static size_t taken_with(void (*call)(void), unsigned char paint)
{
    size_t untouched = 0;

    memset(region, paint, REGION);
    call_on(call, region + REGION);
    while (untouched < REGION && region[untouched] == paint) {
        untouched++;
    }
    return REGION - untouched;
}

/* The most of two paints, so that no byte passes for untouched, and of both signs. */
static size_t taken(void (*call)(void))
{
    static const unsigned char paints[] = {0xa5, 0x5a};
    size_t most = 0;

    for (int i = 0; i < 4; i++) {
        sign = i / 2;
        number = 1;
        size_t now = taken_with(call, paints[i % 2]);
        if (now > most) {
            most = now;
        }
    }
    return most;
}

int main(void)
{
    const size_t calls = sizeof rows / sizeof rows[0];
    size_t most[sizeof rows / sizeof rows[0]][SETS];
    unsigned passed = 0, failed = 0;

    make_input();
    for (set = 1; set <= SETS; set++) {
        make_key();
        for (size_t i = 0; i < calls; i++) {
            rows[i].call();
            most[i][set - 1] = taken(rows[i].call);
            if (number != BURSZTOK_DONE) {
                printf("%s refused good input of set %u\n", rows[i].name, (unsigned)set);
                failed++;
            } else if (most[i][set - 1] > rows[i].bar) {
                printf("%s takes more than its figure, set %u\n", rows[i].name, (unsigned)set);
                failed++;
            } else {
                passed++;
            }
        }
    }
    printf("%-31s", "bytes of stack");
    for (int s = 1; s <= SETS; s++) {
        printf("   set %d", s);
    }
    printf(" %8s\n", "at most");
    for (size_t i = 0; i < calls; i++) {
        printf("%-31s", rows[i].name);
        for (int s = 0; s < SETS; s++) {
            printf(" %7u", (unsigned)most[i][s]);
        }
        printf(" %8u\n", (unsigned)rows[i].bar);
    }
    printf("%u passed, %u failed\n", passed, failed);
    return failed != 0;
}
