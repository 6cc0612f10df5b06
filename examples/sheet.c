/*
 * Signs a cargo sheet on the ship and checks it on the shore, through bursztok.h.
 *
 *   cc -std=c99 -Wall -Wextra -Werror -pedantic -I include examples/sheet.c \
 *      target/staticlib/libbursztok.a -o sheet
 *   ./sheet ["text of the sheet"]
 *
 * The key, the noise and the hash are for show only. A box has its own key, draws masks from a
 * discrete Gaussian with its own noise source, and uses a real hash.
 */
#include "bursztok.h"
#include "test_key.h"

#include <stdio.h>
#include <stdlib.h>

#define WORDS 256
/* The number that the ship's key has in the shore's book. */
#define SHIP_KEY 4711

/* Noise for show: xorshift64*. */
static uint64_t noise_state = 20260301u;

static uint64_t noise_word(void)
{
    noise_state ^= noise_state >> 12;
    noise_state ^= noise_state << 25;
    noise_state ^= noise_state >> 27;
    return noise_state * 2685821657736338717u;
}

/* A mask for show: half the sum of twelve numbers drawn evenly from -215 .. 215 has deviation 215,
 * that of set 1. */
static void draw_mask(int16_t mask[BURSZTOK_VECTOR])
{
    for (size_t i = 0; i < BURSZTOK_VECTOR; i++) {
        int sum = 0;
        for (int part = 0; part < 12; part++) {
            sum += (int)(noise_word() % 431u) - 215;
        }
        mask[i] = (int16_t)(sum / 2);
    }
}

/* A hash for show, the same on both sides: the rounded vector and the sheet to a list. */
static void hash_list(const uint16_t rounded[BURSZTOK_VECTOR], const char *sheet,
                      uint16_t *list, size_t kappa)
{
    uint64_t state = 14695981039346656037u;
    unsigned char drawn[BURSZTOK_VECTOR] = {0};
    size_t count = 0;

    for (size_t i = 0; i < BURSZTOK_VECTOR; i++) {
        state = (state ^ rounded[i]) * 1099511628211u;
    }
    for (; *sheet != '\0'; sheet++) {
        state = (state ^ (unsigned char)*sheet) * 1099511628211u;
    }
    while (count < kappa) {
        state = state * 6364136223846793005u + 1442695040888963407u;
        size_t place = (size_t)(state >> 55);
        if (!drawn[place]) {
            drawn[place] = 1;
            count++;
        }
    }
    count = 0;
    for (size_t place = 0; place < BURSZTOK_VECTOR; place++) {
        if (drawn[place]) {
            list[count++] = (uint16_t)place;
        }
    }
}

/* Ends the program where a call refuses what it must not. */
static void require_done(const char *call, uint32_t number, uint32_t place)
{
    if (number != BURSZTOK_DONE) {
        fprintf(stderr, "%s refused with number %u, place %u\n", call, (unsigned)number,
                (unsigned)place);
        exit(1);
    }
}

/* The ship: signs the sheet and writes its record. Returns the record's length. */
static size_t sign_sheet(const char *sheet, uint8_t record[BURSZTOK_RECORD])
{
    int16_t y1[BURSZTOK_VECTOR], y2[BURSZTOK_VECTOR], z1[BURSZTOK_VECTOR];
    int8_t z2[BURSZTOK_VECTOR];
    uint16_t committed[BURSZTOK_VECTOR], list[BURSZTOK_LIST];
    size_t kappa = bursztok_kappa(TEST_KEY_SET);
    uint64_t words[WORDS];
    bursztok_response response;
    bursztok_answer answer;
    unsigned tries = 0;

    answer = bursztok_key_test(TEST_KEY_SET, test_key_f, BURSZTOK_VECTOR, test_key_g,
                               BURSZTOK_VECTOR, test_key_a, BURSZTOK_VECTOR);
    require_done("key test", answer.number, answer.place);
    do {
        tries++;
        draw_mask(y1);
        draw_mask(y2);
        for (size_t i = 0; i < WORDS; i++) {
            words[i] = noise_word();
        }
        answer = bursztok_commitment(TEST_KEY_SET, test_key_a, BURSZTOK_VECTOR, y1,
                                     BURSZTOK_VECTOR, y2, BURSZTOK_VECTOR, committed,
                                     BURSZTOK_VECTOR);
        require_done("commitment", answer.number, answer.place);
        hash_list(committed, sheet, list, kappa);
        response = bursztok_respond(TEST_KEY_SET, SHIP_KEY, test_key_f, BURSZTOK_VECTOR, test_key_g,
                                    BURSZTOK_VECTOR, test_key_a, BURSZTOK_VECTOR, y1,
                                    BURSZTOK_VECTOR, y2, BURSZTOK_VECTOR, list, kappa,
                                    noise_word() >> 63 != 0, test_thresholds,
                                    BURSZTOK_THRESHOLDS, words, WORDS, z1, BURSZTOK_VECTOR, z2,
                                    BURSZTOK_VECTOR);
        /* These are part of the scheme: again, with new masks. */
    } while (response.number == BURSZTOK_REJECTED || response.number == BURSZTOK_ENTRY ||
             response.number == BURSZTOK_SUM);
    require_done("response", response.number, response.place);
    printf("signed at try %u, %llu words taken by the draw\n", tries,
           (unsigned long long)response.words);

    answer = bursztok_write(TEST_KEY_SET, response.key, z1, BURSZTOK_VECTOR, z2, BURSZTOK_VECTOR,
                            list, kappa, record, BURSZTOK_RECORD);
    require_done("writer", answer.number, answer.place);
    return bursztok_record_bytes(TEST_KEY_SET);
}

/* The public key that the shore holds under a number, or NULL. This shore holds one. */
static const uint16_t *public_key(uint32_t number)
{
    return number == SHIP_KEY ? test_key_a : NULL;
}

/* The shore: reads which key signed, and checks the sheet with that public key and the record. */
static bursztok_answer check_sheet(const char *sheet, const uint8_t *record, size_t length)
{
    int16_t z1[BURSZTOK_VECTOR];
    int8_t z2[BURSZTOK_VECTOR];
    uint16_t rebuilt[BURSZTOK_VECTOR], claimed[BURSZTOK_LIST], hashed[BURSZTOK_LIST];
    const uint16_t *a;
    size_t kappa;
    bursztok_reading reading;
    bursztok_answer answer;

    reading = bursztok_read(record, length, z1, BURSZTOK_VECTOR, z2, BURSZTOK_VECTOR, claimed,
                            BURSZTOK_LIST);
    answer.number = reading.number;
    answer.place = reading.place;
    if (answer.number != BURSZTOK_DONE) {
        return answer;
    }
    a = public_key(reading.key);
    if (a == NULL) {
        fprintf(stderr, "no public key has the number %u\n", (unsigned)reading.key);
        exit(1);
    }
    printf("the record states key number %u\n", (unsigned)reading.key);
    kappa = bursztok_kappa(reading.set);
    answer = bursztok_rebuild(reading.set, a, BURSZTOK_VECTOR, z1, BURSZTOK_VECTOR, z2,
                              BURSZTOK_VECTOR, claimed, kappa, rebuilt, BURSZTOK_VECTOR);
    if (answer.number != BURSZTOK_DONE) {
        return answer;
    }
    hash_list(rebuilt, sheet, hashed, kappa);
    return bursztok_compare(reading.set, claimed, kappa, hashed, kappa);
}

/* Shows an answer, and ends the program where it is not the one expected. */
static void show(const char *what, bursztok_answer answer, uint32_t number, uint32_t place)
{
    printf("%s: number %u, place %u\n", what, (unsigned)answer.number, (unsigned)answer.place);
    if (answer.number != number || answer.place != place) {
        fprintf(stderr, "expected number %u, place %u\n", (unsigned)number, (unsigned)place);
        exit(1);
    }
}

int main(int count, char **words)
{
    const char *sheet = count > 1 ? words[1] : "138,240.7 m3 of LNG, berth 3";
    uint8_t record[BURSZTOK_RECORD];
    uint32_t number, place;
    bursztok_part part;
    char other[200];
    size_t length;

    printf("sheet: %s\n", sheet);
    length = sign_sheet(sheet, record);
    printf("record of %u bytes\n", (unsigned)length);
    show("checked", check_sheet(sheet, record, length), BURSZTOK_DONE, 0);

    part = bursztok_list_section(record, length, &number, &place);
    require_done("list section", number, place);
    printf("list:");
    for (uint64_t at = part.start; at < part.start + part.length; at += 2) {
        printf(" %u", record[at] + 256u * record[at + 1]);
    }
    printf("\n");

    snprintf(other, sizeof other, "0%s", sheet);
    show("checked with a nought put before the sheet", check_sheet(other, record, length),
         BURSZTOK_LISTS_DIFFER, 0);
    show("checked with the last byte lost", check_sheet(sheet, record, length - 1), BURSZTOK_HEADER,
         18);
    record[14] ^= 1;
    show("checked with the list's count changed", check_sheet(sheet, record, length), BURSZTOK_HEADER,
         14);
    return 0;
}
