/*
 * Plans, plays, reads back and compares the settings of ADV7194 video encoders,
 * says why a register is sent, and plans, plays and reads back their captions.
 *
 * An image is the chip's 54 registers, one byte each. Settings are 49 numbers.
 * A packed plan is a list of write transactions, as adv7194_plan and
 * adv7194_plan_captions make it and adv7194_transaction takes it apart.
 *
 * After a power dip only some registers may be known. `known` has a flag for
 * each, bit r for register r; ADV7194_ALL_KNOWN is all of them. The byte of a
 * register that isn't known means nothing. Bits past the last register are
 * ignored, and answered as they came.
 *
 * Each lent memory is a pointer followed by its length, in elements. A null
 * pointer is allowed with length 0. Lent memories of one call must not overlap.
 * A memory lent as const is only read. Nothing outside the lent memories is
 * touched.
 *
 * The library keeps no state and allocates nothing: calls may be made from any
 * thread at any time, as long as no memory that one call may change is lent to
 * another.
 *
 * A refusal writes nothing: all lent memory is as it was, and every number
 * answered but the refusal, its field and `known` is 0.
 *
 * A bus address is the 8-bit byte that starts a write, such as 0x54; tools that
 * take the 7-bit address, such as i2ctransfer, call the same chip 0x2a.
 */
#ifndef ADV7194_H
#define ADV7194_H

#include <stddef.h>
#include <stdint.h>

#ifdef __cplusplus
extern "C" {
#endif

/* Bytes of an image. */
#define ADV7194_REGISTERS 54
/* The flags of a board whose every register is known: 54 ones. */
#define ADV7194_ALL_KNOWN UINT64_C(0x3FFFFFFFFFFFFF)
/* Numbers of the settings. */
#define ADV7194_SETTINGS 49
/* The limit on the data bytes of a transaction that is none: the highest. */
#define ADV7194_NO_LIMIT 54
/* Room for the longest packed plan, whatever the limit. */
#define ADV7194_PLAN_ROOM 53
/* Room for the longest packed plan where the limit is ADV7194_NO_LIMIT. */
#define ADV7194_PLAN_ROOM_NO_LIMIT 44
/* Room for the data of any transaction of a packed plan. */
#define ADV7194_DATA_ROOM 63
/* Bytes of a gamma curve. */
#define ADV7194_CURVE_BYTES 7
/* Room for the longest packed plan of captions. */
#define ADV7194_CAPTION_ROOM 8

/*
 * The settings' numbers, in field order. A yes is 1, a no is 0. Numbers that a
 * kind doesn't use are ignored in planning, and are 0 when read.
 */
enum {
    ADV7194_STANDARD = 0,      /* field 1: 0 NTSC, 1 PAL */
    ADV7194_SQUARE = 1,        /* field 2: square pixel, yes or no */
    ADV7194_FOUR_TIMES = 2,    /* field 3: 4x oversampling, yes or no; not with square pixel */
    ADV7194_PEDESTAL = 3,      /* field 4: yes or no; not with PAL */
    ADV7194_Y_LEVEL = 4,       /* field 5: 0 Betacam, 1 SMPTE */
    ADV7194_UV_LEVEL = 5,      /* field 6: 0 to 2 */
    ADV7194_RGB_SYNC = 6,      /* field 7: yes or no */
    ADV7194_CLAMP_DELAY = 7,   /* field 8: -3 to 3 clocks */
    ADV7194_BACK_PORCH = 8,    /* field 9: clamp in the back porch, yes or no */
    ADV7194_PHASE = 9,         /* field 10: subcarrier phase, 0 to 255 */
    ADV7194_SIGNALLING = 10,   /* field 11: its kind, see below */
    ADV7194_PAYLOAD = 11,      /* field 11: CGMS payload or WSS number, 0 to 16383 */
    ADV7194_ODD = 12,          /* field 11: CGMS in odd fields, yes or no */
    ADV7194_EVEN = 13,         /* field 11: CGMS in even fields, yes or no */
    ADV7194_CHIP_CHECK = 14,   /* field 11: the chip works out the CGMS check, yes or no */
    ADV7194_CONTRAST = 15,     /* field 12: 0 to 1500 thousandths */
    ADV7194_U_SCALE = 16,      /* field 13: 0 to 1996 thousandths */
    ADV7194_V_SCALE = 17,      /* field 14: 0 to 1996 thousandths */
    ADV7194_HUE = 18,          /* field 15: -225 to 224 tenths of a degree */
    ADV7194_BRIGHTNESS = 19,   /* field 16: -75 to 150 tenths of an IRE, to the nearest code */
    ADV7194_SHARPNESS = 20,    /* field 17: -6 to 6 steps */
    ADV7194_BORDER_GAIN = 21,  /* field 18: DNR border gain, 0 to 8 */
    ADV7194_DATA_GAIN = 22,    /* field 19: DNR data gain, 0 to 8 */
    ADV7194_THRESHOLD = 23,    /* field 20: DNR threshold, 0 to 63 */
    ADV7194_BORDER_AREA = 24,  /* field 21: DNR border area, yes or no */
    ADV7194_BLOCK_SIZE = 25,   /* field 22: DNR block size, yes or no */
    ADV7194_DNR_INPUT = 26,    /* field 23: 1 to 4 */
    ADV7194_DNR_MODE = 27,     /* field 24: yes or no */
    ADV7194_BLOCK_OFFSET = 28, /* field 25: DNR block offset, 0 to 15 */
    ADV7194_CURVE_A = 29,      /* field 26: its kind, see below */
    ADV7194_CURVE_A_P = 30,    /* field 26: p of the ratio p/q, 1 to 3 */
    ADV7194_CURVE_A_Q = 31,    /* field 26: q of the ratio p/q, 1 to 3 */
    ADV7194_CURVE_A_BYTES = 32, /* field 26: the first of seven bytes, each 0 to 255 */
    ADV7194_CURVE_B = 39,      /* field 27: its kind, see below */
    ADV7194_CURVE_B_P = 40,    /* field 27: p of the ratio p/q, 1 to 3 */
    ADV7194_CURVE_B_Q = 41,    /* field 27: q of the ratio p/q, 1 to 3 */
    ADV7194_CURVE_B_BYTES = 42 /* field 27: the first of seven bytes, each 0 to 255 */
};

/* Standards. */
enum { ADV7194_NTSC = 0, ADV7194_PAL = 1 };

/* Kinds of signalling. CGMS is for NTSC and for at least one field; WSS is for
 * PAL, and the lowest four bits of its number hold an odd number of ones. */
enum { ADV7194_OFF = 0, ADV7194_CGMS = 1, ADV7194_WSS = 2 };

/* Kinds of gamma curves. Reading always gives bytes. */
enum { ADV7194_RATIO = 0, ADV7194_BYTES = 1 };

/* Pairs of captions, as they are read back. */
enum { ADV7194_EXTENDED = 0, ADV7194_ORDINARY = 1 };

/* Refusals. Each comes with the number of the field at fault, or 0. */
enum {
    ADV7194_ACCEPTED = 0,
    ADV7194_IMAGE_LENGTH = 1,        /* an image isn't 54 bytes */
    ADV7194_ADDRESS = 2,             /* a bus address is odd or above 254 */
    ADV7194_OUT_OF_RANGE = 3,        /* a number is outside its range, or (field 0) the limit is, or the settings aren't 49, or no
                                      * such transaction, or (field 29) no pair of captions, or not two characters in one */
    ADV7194_RESERVED = 4,            /* a code is reserved, a must-be-zero bit is set, or WSS or a caption byte breaks its odd count */
    ADV7194_SQUARE_FOUR_TIMES = 5,   /* square pixel with 4x oversampling */
    ADV7194_PEDESTAL_PAL = 6,        /* pedestal with PAL */
    ADV7194_WRONG_SIGNALLING = 7,    /* CGMS with PAL, WSS with NTSC, CGMS for neither field, or both at once */
    ADV7194_DISAGREES = 8,           /* check bits or subcarrier word don't agree with the other fields */
    ADV7194_PLAN_BYTES = 9,          /* a plan's bytes break the packing or the bus rules */
    ADV7194_PLAN_TOO_SHORT = 10,     /* the lent plan is shorter than the packed plan, or the lent data than the transaction's */
    ADV7194_REGISTER_UNKNOWN = 11    /* a register isn't known of which the settings fix only some bits, or one that is read */
};

/* Why a register is sent, or that it isn't. Of those that are true, the first. */
enum {
    ADV7194_NOT_SENT = 0,      /* the plan doesn't write it */
    ADV7194_UNKNOWN = 1,       /* it wasn't known */
    ADV7194_FIELD_CHANGED = 2, /* bits of a field change in it, must-be-zero bits apart: the lowest such field */
    ADV7194_MUST_BE_ZERO = 3,  /* a must-be-zero bit was set in it */
    ADV7194_COMPANION = 4,     /* it is in the subcarrier word, of which another register is needed */
    ADV7194_BRIDGE = 5         /* it lies between needed registers in one transaction */
};

/* The field numbers of the subcarrier word, which is worked out and not set, and
 * of captions, which are no setting: 29 only ever comes with a refusal. */
enum { ADV7194_FIELD_WORD = 28, ADV7194_FIELD_CAPTIONS = 29 };

/*
 * A packed plan, bit by bit, each number with its most significant bit first
 * and no gaps:
 *
 *   6 bits            the number of transactions
 *   for each of them
 *     6 bits          the subaddress: the register of the first data byte
 *     6 bits          the number of data bytes, never 0
 *     8 bits each     the data bytes, for one register after the other
 *   0 to 7 bits       zero, up to the end of the byte
 *
 * Each transaction starts past the last register of the one before. There are no
 * further bytes. Nothing to do is 00, and 06 00 65 C0 is
 * 000001 100000 000001 10010111 000000: one transaction, subaddress 20, one
 * byte, 97.
 *
 * To send a plan, ask for its transactions from index 0 on until refusal 3:
 *
 *   uint8_t data[ADV7194_DATA_ROOM];
 *   for (uint32_t index = 0;; index++) {
 *       adv7194_transaction_answer next =
 *           adv7194_transaction(plan, length, index, data, sizeof data);
 *       if (next.refusal != ADV7194_ACCEPTED)
 *           break;
 *       start, address, next.subaddress, next.count bytes of data, stop
 *   }
 */

/* What planning answers. */
typedef struct {
    uint32_t refusal;      /* a refusal, or 0 */
    uint32_t field;        /* the field at fault, or 0 */
    uint32_t length;       /* bytes of the packed plan */
    uint32_t transactions; /* its write transactions */
    uint32_t bus_bytes;    /* its bus bytes: 2 for each transaction, plus all data */
} adv7194_plan_answer;

/* What playing answers. */
typedef struct {
    uint32_t refusal;      /* a refusal, or 0 */
    uint32_t field;        /* always 0 */
    uint32_t acknowledged; /* 1 if every byte was acknowledged, else 0 */
    uint64_t known;        /* the flags after the call; as handed in where it refuses */
} adv7194_play_answer;

/* What reading answers, and asking for the house setting. */
typedef struct {
    uint32_t refusal; /* a refusal, or 0 */
    uint32_t field;   /* the field at fault, or 0 */
} adv7194_read_answer;

/* What asking for a transaction answers. */
typedef struct {
    uint32_t refusal;    /* a refusal, or 0 */
    uint32_t field;      /* always 0 */
    uint32_t subaddress; /* the register of the first data byte */
    uint32_t count;      /* its data bytes */
} adv7194_transaction_answer;

/* What comparing two images answers. */
typedef struct {
    uint32_t refusal;   /* a refusal, or 0 */
    uint32_t field;     /* always 0 */
    uint32_t readable;  /* 1 if adv7194_read accepts both images, else 0 */
    uint32_t fields;    /* bit f is set where field f differs, f = 1 to 28 */
    uint64_t registers; /* bit r is set where register r differs in bits outside all fields */
} adv7194_compare_answer;

/* What asking why a register is sent answers. */
typedef struct {
    uint32_t refusal; /* a refusal, or 0 */
    uint32_t field;   /* the field at fault, or 0 */
    uint32_t reason;  /* why the register is sent, or 0 where it isn't */
    uint32_t first;   /* the field that changes, or the needed register next below a bridge; else 0 */
    uint32_t second;  /* the needed register next above a bridge; else 0 */
} adv7194_why_answer;

/* What reading a pair of captions answers. */
typedef struct {
    uint32_t refusal; /* a refusal, or 0 */
    uint32_t field;   /* the field at fault, or 0 */
    uint32_t first;   /* the first character, 0 to 127 */
    uint32_t second;  /* the second one */
} adv7194_captions_answer;

/*
 * Packs into `plan` the least list of write transactions that brings a chip
 * holding `image` in its known registers to the settings: the fewest bus bytes,
 * then the fewest transactions; of those the list whose first transaction is
 * shortest, then the second, and so on. Bytes of `plan` past the packed plan stay
 * as they were.
 *
 * No transaction has more than `limit` data bytes, 4 to 54, so that others on the
 * bus get their turn; ADV7194_NO_LIMIT is no limit. A small one can make the plan
 * longer than ADV7194_PLAN_ROOM_NO_LIMIT, but never longer than ADV7194_PLAN_ROOM.
 *
 * A register that isn't known is written where the settings fix all its bits,
 * and else left alone. Whatever the chip holds in unknown registers, it then has
 * the settings, and every other bit of a known register as it was.
 *
 * Refuses, in this order: 1; 2; 3 with field 0 for a limit outside 4 to 54, or
 * another length than 49; the settings' fields in order; 11 where they fix only
 * some bits of a register that isn't known, with the lowest such field (00 is
 * field 1's, 02 field 2's, 01 field 3's and, with signalling off, 19 field 11's);
 * 10. Of the image only the length is judged.
 */
adv7194_plan_answer adv7194_plan(const uint8_t *image, size_t image_len,
                                 uint64_t known,
                                 const int32_t *settings, size_t settings_len,
                                 uint32_t address, uint32_t limit,
                                 uint8_t *plan, size_t plan_len);

/*
 * Says why the plan that adv7194_plan makes of the same board, settings and limit
 * writes the register `subaddress`: the first reason that is true, in the order of
 * their numbers. A register that the plan doesn't write is answered as not sent,
 * and so is a number above 0x35, which is no register's.
 *
 * A register is needed where it is known and differs from what the settings mean,
 * or where it isn't known and they fix all its bits. A bridge names the needed
 * registers next below and next above it.
 *
 * Refuses as adv7194_plan does, without 2 and 10, since it takes no address and no
 * room: 1; 3 with field 0 for a limit outside 4 to 54, or another length than 49;
 * the settings' fields in order; 11.
 */
adv7194_why_answer adv7194_why(const uint8_t *image, size_t image_len,
                               uint64_t known,
                               const int32_t *settings, size_t settings_len,
                               uint32_t limit, uint32_t subaddress);

/*
 * Plays the packed `plan`, sent to the address `used`, on a chip that holds
 * `image` and has the address `own`. `image` becomes what the chip then holds,
 * and a register that a byte is stored in becomes known. Where the addresses
 * differ nothing is stored, and nothing is acknowledged unless the plan is
 * empty.
 *
 * Refuses, in this order: 1; 2 for either address; 9. Whether a register may be
 * written that isn't known is not judged here.
 */
adv7194_play_answer adv7194_play(uint8_t *image, size_t image_len,
                                 uint64_t known,
                                 uint32_t used, uint32_t own,
                                 const uint8_t *plan, size_t plan_len);

/*
 * Writes the data of the packed plan's transaction `index`, counted from 0, to
 * the front of `data`. Bytes of `data` past them stay as they were.
 *
 * Refuses, in this order: 9 where the plan's bytes break the packing; 3 with
 * field 0 where the plan has no such transaction; 10 where `data` is shorter
 * than the transaction's data. The bus rules aren't judged here: a plan of
 * adv7194_plan keeps them, and adv7194_play judges them.
 */
adv7194_transaction_answer adv7194_transaction(const uint8_t *plan, size_t plan_len,
                                               uint32_t index,
                                               uint8_t *data, size_t data_len);

/*
 * Writes into `settings` what `image` is set to: of the settings that have the
 * same codes, the ones nearest zero; curves as bytes.
 *
 * Refuses, in this order: 1; 3 with field 0 for another length than 49; the
 * image's fields in order, the subcarrier word last, each by 11 before all else
 * where one of its registers isn't known (field 11's are 19 to 1B, off or not).
 */
adv7194_read_answer adv7194_read(const uint8_t *image, size_t image_len,
                                 uint64_t known,
                                 int32_t *settings, size_t settings_len);

/*
 * Writes the house setting into `settings`: what the boards are set to unless
 * said otherwise. Its pedestal is off; a caller that wants it on sets its number
 * after the call.
 *
 * Refuses 3 with field 0 for another length than 49.
 */
adv7194_read_answer adv7194_house(int32_t *settings, size_t settings_len);

/*
 * Compares two images, both known in full. A field differs where any of its bits
 * does; must-be-zero bits count to their field, and all of registers 19 to 1B to
 * field 11. Register 34 is never compared: its bit of `registers` is always 0.
 * Nothing differs exactly where the images are equal in every register but 34.
 *
 * `a` and `b` may be the same memory. Refuses 1 for either image.
 */
adv7194_compare_answer adv7194_compare(const uint8_t *a, size_t a_len,
                                       const uint8_t *b, size_t b_len);

/*
 * Packs into `plan` the transactions that write captions: two characters, 0 to
 * 127, of the extended pair (registers 11 and 12), of the ordinary pair (13 and
 * 14), or of both, the extended one first. A pair of length 0 isn't written.
 * Each character leaves with bit 7 making its ones odd in number (EIA-608), the
 * first one to the lower register. Bytes of `plan` past the packed plan stay as
 * they were.
 *
 * `extended` and `ordinary` may be the same memory. Refuses, in this order: 2; 3
 * with field 29 for a pair of another length than 2 or 0, a character outside 0
 * to 127, or no pair at all; 10.
 */
adv7194_plan_answer adv7194_plan_captions(const int32_t *extended, size_t extended_len,
                                          const int32_t *ordinary, size_t ordinary_len,
                                          uint32_t address,
                                          uint8_t *plan, size_t plan_len);

/*
 * Plays a packed `plan` of captions, sent to the address `used`, on a chip that
 * holds `image` and has the address `own`. `image` becomes what the chip then
 * holds, and the registers of the pairs sent become known. Where the addresses
 * differ nothing is stored and nothing acknowledged.
 *
 * Refuses, in this order: 1; 2 for either address; 9 for every plan that
 * adv7194_plan_captions doesn't make. adv7194_play refuses those it makes, by 9.
 */
adv7194_play_answer adv7194_play_captions(uint8_t *image, size_t image_len,
                                          uint64_t known,
                                          uint32_t used, uint32_t own,
                                          const uint8_t *plan, size_t plan_len);

/*
 * Reads a pair of captions back: the two characters that `image` holds in it.
 *
 * Refuses, in this order: 1; then, with field 29, 3 where `pair` is neither 0 nor
 * 1, 11 where a register of the pair isn't known, 4 where a byte of it has an
 * even number of ones.
 */
adv7194_captions_answer adv7194_read_captions(const uint8_t *image, size_t image_len,
                                              uint64_t known,
                                              uint32_t pair);

#ifdef __cplusplus
}
#endif

#endif
