/*
 * bursztok.h - BLISS-B signing and checking, parameter sets 1 to 8.
 *
 * Link with libbursztok.a or libbursztok.so (pkg-config --libs bursztok). C99 and later, and C++.
 *
 * LENT MEMORY
 *
 *   Each array is a pointer and a length. Lengths count elements, not bytes. The pointer must be
 *   aligned for its type and good for that many elements; with length 0 it is not used. A number
 *   that a section call writes (`number`, `place`) is a pointer too: it must be aligned and good to
 *   write to, always, and never NULL.
 *
 *   An array or number that a call writes must not overlap any other array or number of the same
 *   call. Arrays that a call only reads may overlap each other.
 *
 * STATE, THREADS, STACK
 *
 *   The library keeps no pointer, allocates nothing and holds no state between calls, so any calls
 *   may run on several threads at once, as long as none writes to memory that another uses.
 *
 *   The stack that a call takes at most, in bytes, is BURSZTOK_STACK_RESPOND and so on below: the
 *   return address and the stacked arguments included, the same for all sets. The figures are
 *   measured, by painting, and the library's tests fail where a call takes more. What memcpy and
 *   memset of the C library take is in them; what a loader takes to find these is not.
 *
 * ANSWERS
 *
 *   Every call answers on all input. `number` says what happened, `place` where; `place` is 0
 *   except with 10 and 13. No other number than 0 writes to any output array: on a refusal every
 *   one of them holds what it held before, and `key`, where the answer has one, is 0. Each call
 *   tests in the order given with it, and answers with the first condition that holds.
 *
 *    No.  When
 *     0   done
 *     1   set above 8
 *     2   a vector, read or written, is not 512 long, thresholds not 31, or a reader's list
 *         buffer not 113
 *     3   coefficient of f, g or a outside its range
 *     4   mask coefficient outside -4096 .. 4096
 *     5   list not of the stated form, its count included
 *     6   key relation does not hold
 *     7   key longer than K: can't occur, since no key with the right counts (15) is
 *     8   rejected by the draw
 *     9   the walk needs a word and none is left
 *    10   entry beyond "largest", with the first place: z1 is 0 .. 511, z2 dagger 512 .. 1023.
 *         An entry of z2 dagger counts 2^d times: 2^d |z2| is compared with "largest"
 *    11   sum of squares, that of z1 and 4^d times that of z2 dagger, above B2 squared
 *    12   both lists are proper and differ
 *    13   header malformed, with the first byte of the first wrong field; shorter than 24 bytes,
 *         its length; a spare bit of a packed record set, its byte (see RECORDS)
 *    14   output of a writer or a conversion shorter than the total
 *    15   counts wrong: f or g has not exactly the set's number of coefficients of 1 or -1 and of
 *         2 or -2 (see SETS)
 *
 * SETS
 *
 *   On calls `set` is 1 to 4 for BLISS-B I to IV, and 5 to 8 for the same four with longer
 *   challenges: kappa aside, sets 5 to 8 have the numbers of sets 1 to 4, so a key of set 1 is a key
 *   of set 5, and so on. 0 stands for set 4, on every call but the two whose names end in
 *   _default_one. bursztok_kappa, bursztok_record_bytes and bursztok_packed_bytes tell kappa, and
 *   the bytes of a plain and of a packed record, for callers that hold no table. f and g each have
 *   d1 coefficients of 1 or -1 and d2 of 2 or -2, the rest zero.
 *
 *   Before version 0.4.0 a set of 0 stood for set 1. A caller that passes 0 for sheets of set 1 is
 *   now refused with 5 by bursztok_rebuild and bursztok_compare, since 23 places are not 39. It
 *   names set 1, or calls bursztok_rebuild_default_one and bursztok_compare_default_one: with them
 *   0 stands for set 1, and in all else they are the other two.
 *
 *    set  kappa   d   p  largest   B2 squared     K   d1  d2  record bytes  packed bytes
 *     1     23   10  24     2100  165,688,384   775  154   0          1606          1138
 *     2     23   10  24     1563  122,633,476   775  154   0          1606          1138
 *     3     30    9  48     1760  104,162,436  1409  216  16          1620          1146
 *     4     39    8  96     1613   98,029,801  1784  231  31          1638          1156
 *     5     58   as set 1                                             1676          1178
 *     6     58   as set 2                                             1676          1178
 *     7     82   as set 3                                             1724          1205
 *     8    113   as set 4                                             1786          1240
 *
 *   Sets 5 to 8 are there since version 0.5.0. A reader from before refuses their records with 13
 *   at byte 4, where the set stands. Records of sets 1 to 4 are what they were, byte for byte; what
 *   a caller changes for them is the reader's list buffer, BURSZTOK_LIST, which was 39.
 *
 * VECTORS
 *
 *   f, g        secret key, 512 coefficients -2 .. 2, with the set's counts
 *   a           public key, 512 coefficients 0 .. 12288; a times f = 2g + 1 modulo 12289
 *   y1, y2      masks, 512 coefficients -4096 .. 4096, new for every try
 *   list        the challenge: exactly kappa places, strictly rising, each below 512
 *   thresholds  31 numbers; entry i belongs to binary place i, worth 2^i
 *   words       the noise that the draw reads, from the front
 *   z1, z2      the signature's two vectors of 512 entries; z2 is z2 dagger of the papers
 *
 * KEY NUMBERS
 *
 *   A signature is its set, its key number, z1, z2 and its list. The key number says which key
 *   signed, so that a checker who holds many public keys need not try them all. It is the signer's
 *   to give: every number that `key` holds is one, none is refused, and 0, BURSZTOK_KEY_NOT_STATED,
 *   says that none is stated. bursztok_respond takes it and answers it, the writers put it into the
 *   record, the readers answer it, and the conversions keep it.
 *
 *   It is a hint, and not signed: bursztok_rebuild and bursztok_compare do not use it, and a record
 *   whose key number was changed reads as one with that number. Whose signature it is, the public
 *   key tells under which the sheet holds.
 *
 * RECORDS
 *
 *   A record is a signature as bytes, for storage or a link: a header of 24 bytes, then z1, z2 and
 *   the list, with nothing between or behind them. It has one of two forms, plain or packed. The
 *   numbers of the header have their low byte first.
 *
 *    bytes    field               plain   packed
 *     0 -  3  letters             BLB1    BLP1
 *     4       set, 1 to 8
 *     5       zero                0       0
 *     6 -  7  entries of z1       512     512
 *     8 -  9  offset of z1        24      24
 *    10 - 11  entries of z2       512     512
 *    12 - 13  offset of z2        1048    856
 *    14 - 15  places of the list  kappa of the set
 *    16 - 17  offset of the list  1560    1112
 *    18 - 19  total               the bytes of the record, which is its length
 *    20 - 23  key number          any     any; 0 where none is stated
 *
 *   A section starts on the byte that its offset says. The bits of an entry:
 *
 *    section              plain  packed
 *    z1    512 entries       16      13   two's complement
 *    z2    512 entries        8       4   two's complement
 *    list  kappa places      16       9   rising, none negative
 *
 *   The bits of a section go low first: bit 0 is the lowest bit of its first byte, bit 8 the lowest
 *   of its second, and so on. An entry starts where the one before it ends, with its lowest bit:
 *   entry i of w bits is the bits w i .. w i + w - 1 of its section. In the plain form these are
 *   whole bytes, the low byte first. In the packed form the first entry of z1 is byte 24 and the
 *   low five bits of byte 25, the second one the high three bits of byte 25, byte 26 and the low
 *   two bits of byte 27: 1 and -1 there are the bytes 1, 224, 255, and 3 in the low two bits of the
 *   next. Two entries of z2 share a byte, the earlier one in its low four bits. Two's complement:
 *   thirteen bits that hold x, from 0 to 8191, stand for x, or for x - 8192 where x is 4096 or
 *   more; four bits that hold x, from 0 to 15, for x, or for x - 16 where x is 8 or more.
 *
 *   Where the bits of the list end inside a byte, the rest of that byte is spare, and zero: these
 *   are the high bits of the last byte of a packed record. Its other sections fill their bytes, and
 *   a plain record has no spare bits.
 *
 *    set                  1     2     3     4     5     6     7     8
 *    plain, bytes      1606  1606  1620  1638  1676  1676  1724  1786
 *    packed, bytes     1138  1138  1146  1156  1178  1178  1205  1240
 *    spare bits           1     1     2     1     6     6     6     7
 *
 *   What a reader tests, in this order: a record shorter than 24 bytes is 13 at its length; a wrong
 *   field is 13 at its first byte, the first one in the table before the others, and a record whose
 *   length is not the set's total 13 at 18; the key number is never wrong; a spare bit that is set
 *   is 13 at the last byte, the total less 1. Then come 5, 10 and 11, of what the sections hold. So
 *   a record of the other form is 13 at 0, and a signature has exactly one record in each form.
 *
 *   Packed records are there since version 0.6.0. A reader from before refuses them with 13 at 0.
 *   Plain records are what they were, byte for byte.
 *
 *   Records with a key number are there since version 0.7.0. A reader from before refuses them with
 *   13 at 20. Bytes 20 to 23 were zeros then: a stored record states no key number, and a record
 *   that states none is what it was, byte for byte.
 *   A caller from before puts the key number behind the set on bursztok_respond, bursztok_write and
 *   bursztok_write_packed, 0 for what they did, and is compiled anew, since the answers of the
 *   response and of the readers have a field more.
 *
 * SIGNING AND CHECKING A SHEET
 *
 *   Signer: draw masks; bursztok_commitment; hash the commitment and the sheet to a list;
 *   bursztok_respond. With 8 (and with 10 or 11) start again with new masks. Then bursztok_write,
 *   with the key number that the response answered.
 *   Checker: bursztok_read; the public key of the key number that it answers, or with 0 each in
 *   turn; bursztok_rebuild; hash the rebuilt vector and the sheet to a list; bursztok_compare the
 *   record's list with it. The sheet holds, under that public key, where every call gives 0.
 *   For a link that is paid by the byte, as a satellite's, the signer calls bursztok_write_packed
 *   and the checker bursztok_read_packed in their places; or a stored record goes through
 *   bursztok_pack before it is sent, and through bursztok_unpack after.
 *   Noise and hash are the caller's. See examples/sheet.c.
 */
#ifndef BURSZTOK_H
#define BURSZTOK_H

#include <stdbool.h>
#include <stddef.h>
#include <stdint.h>

#ifdef __cplusplus
extern "C" {
#endif

/* The version of this header and of the library that it belongs to. */
#define BURSZTOK_VERSION "0.7.0"

/* The length of every vector. */
#define BURSZTOK_VECTOR 512
/* The length of the row of thresholds. */
#define BURSZTOK_THRESHOLDS 31
/* The length of the reader's list buffer: no list is longer. */
#define BURSZTOK_LIST 113
/* The length of the longest plain record. */
#define BURSZTOK_RECORD 1786
/* The length of the longest packed record. */
#define BURSZTOK_PACKED 1240
/* The key number of a signature that states none. */
#define BURSZTOK_KEY_NOT_STATED 0

/* The stack that a call takes at most, in bytes: see STATE, THREADS, STACK. */
#define BURSZTOK_STACK_RESPOND 11300
#define BURSZTOK_STACK_KEY_TEST 5800
/* With default one too. */
#define BURSZTOK_STACK_REBUILD 4000
#define BURSZTOK_STACK_READ 3200
/* With rests too. */
#define BURSZTOK_STACK_COMMITMENT 2800
#define BURSZTOK_STACK_WRITE 1500
#define BURSZTOK_STACK_READ_PACKED 4300
#define BURSZTOK_STACK_WRITE_PACKED 1500
/* Pack and unpack. */
#define BURSZTOK_STACK_CONVERT 4300
/* Each other call. */
#define BURSZTOK_STACK_OTHER 200

/* The numbers that come back: see ANSWERS. */
enum bursztok_number {
    BURSZTOK_DONE = 0,
    BURSZTOK_NO_SUCH_SET = 1,
    BURSZTOK_LENGTH = 2,
    BURSZTOK_COEFFICIENT = 3,
    BURSZTOK_MASK = 4,
    BURSZTOK_LIST_FORM = 5,
    BURSZTOK_KEY_RELATION = 6,
    BURSZTOK_KEY_LENGTH = 7,
    BURSZTOK_REJECTED = 8,
    BURSZTOK_WORDS_OUT = 9,
    BURSZTOK_ENTRY = 10,
    BURSZTOK_SUM = 11,
    BURSZTOK_LISTS_DIFFER = 12,
    BURSZTOK_HEADER = 13,
    BURSZTOK_OUTPUT_SHORT = 14,
    BURSZTOK_KEY_COUNTS = 15,
    /* The name of 1 before version 0.5.0, when there were four sets. */
    BURSZTOK_SET_ABOVE_FOUR = BURSZTOK_NO_SUCH_SET
};

typedef struct {
    uint32_t number, place;
} bursztok_answer;

/* `words` is the count of words that the draw took: 0 for refusals before the draw (1 to 7 and 15),
 * the number of words lent with 9, and with 8 the failing word is counted. `key` is the key number
 * that the response was given, and 0 when it refuses. */
typedef struct {
    uint32_t number, place;
    uint64_t words;
    uint32_t key;
} bursztok_response;

/* `set` is the set that the record states, 1 to 8, and `key` its key number, or 0 where it states
 * none. Both are 0 when the reader refuses. */
typedef struct {
    uint32_t number, place, set, key;
} bursztok_reading;

/* A part of the lent record: the bytes start .. start + length - 1. */
typedef struct {
    uint64_t start, length;
} bursztok_part;

/*
 * The key test: f, g and a are in range, f and g have the counts of the set, the squared length of
 * (f, 2g + 1) is at most K, and a times f = 2g + 1 modulo 12289.
 *
 * Refusals in order: 1, 2, 3, 15, 7, 6. Writes nothing.
 */
bursztok_answer bursztok_key_test(uint32_t set,
                                  const int8_t *f, size_t f_len,
                                  const int8_t *g, size_t g_len,
                                  const uint16_t *a, size_t a_len);

/*
 * The commitment to the masks: the upper digits of u = 12288 (a y1) + y2 modulo 24578, 512
 * numbers 0 .. p - 1. The caller hashes them with the sheet to make the list.
 *
 * Refusals in order: 1, 2, 3, 4. Number 0 writes all of out (512 entries).
 */
bursztok_answer bursztok_commitment(uint32_t set,
                                    const uint16_t *a, size_t a_len,
                                    const int16_t *y1, size_t y1_len,
                                    const int16_t *y2, size_t y2_len,
                                    uint16_t *out, size_t out_len);

/*
 * The commitment with rests, for calibration: everything that bursztok_commitment does, and
 * beside each entry of out the rest of the sum that it was rounded from. A sum x has the rest
 * x - 2^d q, where q is (x + 2^(d-1)) / 2^d rounded down and out has q modulo p: how far x lies
 * from its rounded step, a whole number in -2^(d-1) .. 2^(d-1) - 1. The same masks make the same
 * out as in bursztok_commitment. Beside out the rests all but tell the sums: keep them as the
 * masks are kept.
 *
 * Refusals in order: 1, 2, 3, 4; 2 covers out and rests too. Number 0 writes all of out and of
 * rests (512 entries each).
 */
bursztok_answer bursztok_commitment_with_rests(uint32_t set,
                                               const uint16_t *a, size_t a_len,
                                               const int16_t *y1, size_t y1_len,
                                               const int16_t *y2, size_t y2_len,
                                               uint16_t *out, size_t out_len,
                                               int16_t *rests, size_t rests_len);

/*
 * The response to a list: z1 and z2 dagger of the signature, for the masks that the list was made
 * from. key is the key number, any number, or 0 where none is stated: it is answered, and nothing
 * else depends on it. sign is the random sign bit; it must be 0 or 1. An entry of z2 stands for the
 * z2 of the papers, with d binary digits dropped: 2^d times the entry differs from it by at most
 * 2^d + 1, that is 1025, 1025, 513, 257 for sets 1 to 4, and as much for sets 5 to 8.
 *
 * Refusals in order: 1, 2, 3, 4, 5, 15, 7, 6, then 8 or 9 as the walk ends, then 10, 11.
 * Number 0 writes all of z1 and z2 (512 entries each). 2 covers z1 and z2 too.
 * With 8, 10 and 11 the try is spent: new masks, a new list, new words. With 9 lend more words.
 */
bursztok_response bursztok_respond(uint32_t set, uint32_t key,
                                   const int8_t *f, size_t f_len,
                                   const int8_t *g, size_t g_len,
                                   const uint16_t *a, size_t a_len,
                                   const int16_t *y1, size_t y1_len,
                                   const int16_t *y2, size_t y2_len,
                                   const uint16_t *list, size_t list_len,
                                   bool sign,
                                   const uint64_t *thresholds, size_t thresholds_len,
                                   const uint64_t *words, size_t words_len,
                                   int16_t *z1, size_t z1_len,
                                   int8_t *z2, size_t z2_len);

/*
 * The rebuild: from the public key, a signature and its list, the vector that the signer
 * committed to. The caller hashes it with the sheet, as after bursztok_commitment.
 *
 * Refusals in order: 1, 2, 3, 5, 10, 11. Number 0 writes all of out (512 entries).
 */
bursztok_answer bursztok_rebuild(uint32_t set,
                                 const uint16_t *a, size_t a_len,
                                 const int16_t *z1, size_t z1_len,
                                 const int8_t *z2, size_t z2_len,
                                 const uint16_t *list, size_t list_len,
                                 uint16_t *out, size_t out_len);

/*
 * The rebuild that keeps the default of before 0.4.0: a set of 0 becomes 1, and bursztok_rebuild is
 * called. So with 0 it is bursztok_rebuild with 1, with any other number the same with that number.
 *
 * Refusals in order: 1, 2, 3, 5, 10, 11. Number 0 writes all of out (512 entries).
 */
bursztok_answer bursztok_rebuild_default_one(uint32_t set,
                                             const uint16_t *a, size_t a_len,
                                             const int16_t *z1, size_t z1_len,
                                             const int8_t *z2, size_t z2_len,
                                             const uint16_t *list, size_t list_len,
                                             uint16_t *out, size_t out_len);

/*
 * The comparison of the list that a signature claims with the list that the caller hashed.
 *
 * Refusals in order: 1, 5 (either list), 12. Writes nothing.
 */
bursztok_answer bursztok_compare(uint32_t set,
                                 const uint16_t *claimed, size_t claimed_len,
                                 const uint16_t *hashed, size_t hashed_len);

/*
 * The comparison that keeps the default of before 0.4.0: a set of 0 becomes 1, and bursztok_compare
 * is called.
 *
 * Refusals in order: 1, 5 (either list), 12. Writes nothing.
 */
bursztok_answer bursztok_compare_default_one(uint32_t set,
                                             const uint16_t *claimed, size_t claimed_len,
                                             const uint16_t *hashed, size_t hashed_len);

/*
 * The record writer, of the plain form (see RECORDS). key is the key number, any number, or 0 where
 * none is stated.
 *
 * Refusals in order: 1, 2, 5, 10, 11, 14. Number 0 writes the first bytes of out, as many as the
 * set's record has (see SETS); a longer out keeps its tail. A set of 0 is written as 4.
 */
bursztok_answer bursztok_write(uint32_t set, uint32_t key,
                               const int16_t *z1, size_t z1_len,
                               const int8_t *z2, size_t z2_len,
                               const uint16_t *list, size_t list_len,
                               uint8_t *out, size_t out_len);

/*
 * The record reader, of the plain form. record_len must be exactly the length of the record: under
 * 24 bytes it is 13 at the length, and with the fields before byte 18 right any other length is 13
 * at 18. list_len must be 113. A packed record is 13 at 0. A record of a set that the reader does
 * not know is 13 at 4: that is what a reader from before version 0.5.0 answers to one of sets 5 to
 * 8.
 *
 * Refusals in order: 2, 13, 5, 10, 11. Number 0 writes all of z1 and z2 (512 entries each) and
 * the first kappa entries of list; the entries after them keep their contents.
 */
bursztok_reading bursztok_read(const uint8_t *record, size_t record_len,
                               int16_t *z1, size_t z1_len,
                               int8_t *z2, size_t z2_len,
                               uint16_t *list, size_t list_len);

/*
 * The writer and the reader of packed records: the same signatures in fewer bytes (see RECORDS).
 * All as with bursztok_write and bursztok_read, but for the form. The reader answers 13 also for a
 * spare bit that is set, at its byte, the record's last, after all header fields and before 5. A
 * plain record is 13 at 0.
 *
 * Refusals in order: writer 1, 2, 5, 10, 11, 14; reader 2, 13, 5, 10, 11. With number 0 the writer
 * writes the first bytes of out, as many as the set's packed record has; a longer out keeps its
 * tail. The reader writes what bursztok_read writes.
 */
bursztok_answer bursztok_write_packed(uint32_t set, uint32_t key,
                                      const int16_t *z1, size_t z1_len,
                                      const int8_t *z2, size_t z2_len,
                                      const uint16_t *list, size_t list_len,
                                      uint8_t *out, size_t out_len);
bursztok_reading bursztok_read_packed(const uint8_t *record, size_t record_len,
                                      int16_t *z1, size_t z1_len,
                                      int8_t *z2, size_t z2_len,
                                      uint16_t *list, size_t list_len);

/*
 * The conversions: pack makes a packed record of a plain one, unpack a plain one of a packed one.
 * They give the bytes that the writer of the other form makes of the same signature, and one after
 * the other gives back the same bytes. The set and the key number are those that the record states.
 *
 * Refusals in order: 13, 5, 10, 11, 14. 13 is given as the reader of the form that is lent gives
 * it, so 13 at 0 for a record that has the other form already. Number 0 writes the first bytes of
 * out, as many as the set's record has in the other form; a longer out keeps its tail. out must not
 * overlap record.
 */
bursztok_answer bursztok_pack(const uint8_t *record, size_t record_len,
                              uint8_t *out, size_t out_len);
bursztok_answer bursztok_unpack(const uint8_t *record, size_t record_len,
                                uint8_t *out, size_t out_len);

/*
 * The section calls, of a plain record: where the z1 bytes (two an entry, low byte first), the z2
 * dagger bytes (one an entry) and the list bytes (two a place, low byte first) lie in the lent
 * record. They test the header only, with the record's length; any key number will do. A packed
 * record is 13 at 0.
 *
 * Refusals: 13 only, and then start and length of the part are 0. *number and *place are written
 * always; neither pointer may be NULL.
 */
bursztok_part bursztok_z1_section(const uint8_t *record, size_t record_len,
                                  uint32_t *number, uint32_t *place);
bursztok_part bursztok_z2_section(const uint8_t *record, size_t record_len,
                                  uint32_t *number, uint32_t *place);
bursztok_part bursztok_list_section(const uint8_t *record, size_t record_len,
                                    uint32_t *number, uint32_t *place);

/*
 * kappa, the count of places in a list, of the set that a number stands for on a call: 23, 23, 30,
 * 39, 58, 58, 82, 113 for 1 to 8, 39 for 0, which stands for set 4, and 0 for any other number, which
 * is no set.
 */
uint32_t bursztok_kappa(uint32_t set);

/*
 * The bytes of a plain record of that set: 1606, 1606, 1620, 1638, 1676, 1676, 1724, 1786 for 1 to
 * 8, 1638 for 0, and 0 for a number that is no set.
 */
uint32_t bursztok_record_bytes(uint32_t set);

/*
 * The bytes of a packed record of that set: 1138, 1138, 1146, 1156, 1178, 1178, 1205, 1240 for 1 to
 * 8, 1156 for 0, and 0 for a number that is no set.
 */
uint32_t bursztok_packed_bytes(uint32_t set);

#ifdef __cplusplus
}
#endif

#endif
