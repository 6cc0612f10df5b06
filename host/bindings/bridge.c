/*
 * The calls over a pipe, for machines that cannot link the library, which is made for x86-64: src/served.rs
 * asks, and this program, with the library linked, answers until its input ends.
 *
 * A request is the call's number (the cases of `answer`), the set, the key number, the sign bit and the count of
 * buffers, four bytes each, then every buffer: its length in bytes, eight bytes, and its contents. The reply is five
 * numbers of eight bytes, which are the number, the place, what else the call answers and the key number, then the
 * contents of the buffers that the call may write to, which are the last ones. All numbers are low byte first.
 */
#include "bursztok.h"

#include <stdio.h>
#include <stdlib.h>

#define BUFFERS 10

typedef struct {
    void *at;
    uint64_t bytes;
} buffer;

typedef struct {
    uint32_t call, set, key, sign, buffers;
} request;

typedef struct {
    uint64_t number, place, more, length, key;
} reply;

static buffer lent[BUFFERS];

/* A buffer as two arguments, its entries and their count. */
#define ENTRIES(k, type) (type *)lent[k].at, (size_t)(lent[k].bytes / sizeof(type))

static void take(void *at, uint64_t bytes)
{
    if (fread(at, 1, bytes, stdin) != bytes)
        exit(1);
}

static void give(const void *at, uint64_t bytes)
{
    if (fwrite(at, 1, bytes, stdout) != bytes)
        exit(1);
}

static reply told(bursztok_answer answer)
{
    return (reply){ answer.number, answer.place, 0, 0, 0 };
}

/* A number that the call leaves as it is would be none of the paper's. */
typedef bursztok_part section(const uint8_t *, size_t, uint32_t *, uint32_t *);

static reply found(section *call)
{
    uint32_t number = UINT32_MAX, place = UINT32_MAX;
    bursztok_part part = call(ENTRIES(0, const uint8_t), &number, &place);
    return (reply){ number, place, part.start, part.length, 0 };
}

typedef bursztok_reading reader(const uint8_t *, size_t, int16_t *, size_t, int8_t *, size_t, uint16_t *, size_t);

static reply read_by(reader *call)
{
    bursztok_reading reading = call(ENTRIES(0, const uint8_t), ENTRIES(1, int16_t), ENTRIES(2, int8_t), ENTRIES(3, uint16_t));
    return (reply){ reading.number, reading.place, reading.set, 0, reading.key };
}

/* `written` becomes the count of buffers that the call may write to. */
static reply answer(uint32_t call, uint32_t set, uint32_t key, bool sign, uint32_t *written)
{
    switch (call) {
    case 1:
        return told(bursztok_key_test(set, ENTRIES(0, const int8_t), ENTRIES(1, const int8_t), ENTRIES(2, const uint16_t)));
    case 2:
        *written = 1;
        return told(bursztok_commitment(set, ENTRIES(0, const uint16_t), ENTRIES(1, const int16_t), ENTRIES(2, const int16_t),
                                        ENTRIES(3, uint16_t)));
    case 3: {
        bursztok_response response =
            bursztok_respond(set, key, ENTRIES(0, const int8_t), ENTRIES(1, const int8_t), ENTRIES(2, const uint16_t),
                             ENTRIES(3, const int16_t), ENTRIES(4, const int16_t), ENTRIES(5, const uint16_t), sign,
                             ENTRIES(6, const uint64_t), ENTRIES(7, const uint64_t), ENTRIES(8, int16_t), ENTRIES(9, int8_t));
        *written = 2;
        return (reply){ response.number, response.place, response.words, 0, response.key };
    }
    case 4:
        *written = 1;
        return told(bursztok_rebuild(set, ENTRIES(0, const uint16_t), ENTRIES(1, const int16_t), ENTRIES(2, const int8_t),
                                     ENTRIES(3, const uint16_t), ENTRIES(4, uint16_t)));
    case 5:
        return told(bursztok_compare(set, ENTRIES(0, const uint16_t), ENTRIES(1, const uint16_t)));
    case 6:
        *written = 1;
        return told(bursztok_write(set, key, ENTRIES(0, const int16_t), ENTRIES(1, const int8_t), ENTRIES(2, const uint16_t),
                                   ENTRIES(3, uint8_t)));
    case 7:
        *written = 3;
        return read_by(bursztok_read);
    case 8:
        return found(bursztok_z1_section);
    case 9:
        return found(bursztok_z2_section);
    case 10:
        return found(bursztok_list_section);
    case 11:
        *written = 2;
        return told(bursztok_commitment_with_rests(set, ENTRIES(0, const uint16_t), ENTRIES(1, const int16_t),
                                                   ENTRIES(2, const int16_t), ENTRIES(3, uint16_t), ENTRIES(4, int16_t)));
    case 12:
        *written = 1;
        return told(bursztok_rebuild_default_one(set, ENTRIES(0, const uint16_t), ENTRIES(1, const int16_t),
                                                 ENTRIES(2, const int8_t), ENTRIES(3, const uint16_t), ENTRIES(4, uint16_t)));
    case 13:
        return told(bursztok_compare_default_one(set, ENTRIES(0, const uint16_t), ENTRIES(1, const uint16_t)));
    case 14:
        *written = 1;
        return told(bursztok_write_packed(set, key, ENTRIES(0, const int16_t), ENTRIES(1, const int8_t), ENTRIES(2, const uint16_t),
                                          ENTRIES(3, uint8_t)));
    case 15:
        *written = 3;
        return read_by(bursztok_read_packed);
    case 16:
        *written = 1;
        return told(bursztok_pack(ENTRIES(0, const uint8_t), ENTRIES(1, uint8_t)));
    case 17:
        *written = 1;
        return told(bursztok_unpack(ENTRIES(0, const uint8_t), ENTRIES(1, uint8_t)));
    case 18:
        return (reply){ bursztok_kappa(set), 0, 0, 0, 0 };
    case 19:
        return (reply){ bursztok_record_bytes(set), 0, 0, 0, 0 };
    case 20:
        return (reply){ bursztok_packed_bytes(set), 0, 0, 0, 0 };
    default:
        exit(1);
    }
}

int main(void)
{
    request asked;
    while (fread(&asked, sizeof asked, 1, stdin) == 1) {
        uint32_t written = 0;
        if (asked.buffers > BUFFERS)
            return 1;
        for (uint32_t k = 0; k < asked.buffers; k++) {
            take(&lent[k].bytes, sizeof lent[k].bytes);
            /* as long as asked for and no longer, so that a tool which watches memory sees a call that leaves its buffer */
            lent[k].at = malloc(lent[k].bytes + !lent[k].bytes);
            if (lent[k].at == NULL)
                return 1;
            take(lent[k].at, lent[k].bytes);
        }
        reply answered = answer(asked.call, asked.set, asked.key, asked.sign != 0, &written);
        give(&answered, sizeof answered);
        for (uint32_t k = 0; k < asked.buffers; k++) {
            if (k + written >= asked.buffers)
                give(lent[k].at, lent[k].bytes);
            free(lent[k].at);
        }
        if (fflush(stdout) != 0)
            return 1;
    }
    return 0;
}
