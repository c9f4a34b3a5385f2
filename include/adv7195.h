/*
 * Plans, plays and reads back the settings of ADV7195 video encoders in
 * progressive-scan mode.
 *
 * An image is the chip's 40 registers, one byte each, all of them known.
 * Settings are 58 numbers. A packed plan is a list of write transactions, as
 * adv7195_plan makes it and adv7195_transaction takes it apart.
 *
 * Each lent memory is a pointer followed by its length, in elements. A null
 * pointer is allowed with length 0. Lent memories of one call must not overlap.
 * A memory lent as const is only read. Nothing outside the lent memories is
 * touched.
 *
 * The library keeps no state and allocates nothing: calls may be made from any
 * thread at any time, as long as no memory that one call may change is lent to
 * another.
 *
 * A refusal writes nothing: all lent memory is as it was, and every number
 * answered but the refusal and its field is 0.
 *
 * A bus address is the 8-bit byte that starts a write, such as 0x54; tools that
 * take the 7-bit address, such as i2ctransfer, call the same chip 0x2a.
 */
#ifndef ADV7195_H
#define ADV7195_H

#include <stddef.h>
#include <stdint.h>

#ifdef __cplusplus
extern "C" {
#endif

/* Bytes of an image. */
#define ADV7195_REGISTERS 40
/* Numbers of the settings. */
#define ADV7195_SETTINGS 58
/* Room for the longest packed plan. */
#define ADV7195_PLAN_ROOM 41
/* Room for the data of any transaction of a packed plan. */
#define ADV7195_DATA_ROOM 63
/* Bytes of a gamma curve. */
#define ADV7195_CURVE_BYTES 7

/*
 * The settings' numbers, in field order, each the plain code that the registers
 * hold. A yes is 1, a no is 0. Fields 4, 6, 19, 20, 25 and 27 are must-be-zero
 * bits, MR05, MR07, MR31, MR32, MR37 and MR50, and have no number.
 */
enum {
    ADV7195_OUTPUT_STANDARD = 0,     /* field 1: 0 to 2, see below; 3 is reserved */
    ADV7195_INPUT_CONTROL = 1,       /* field 2: input control signals, 0 to 2; 3 is reserved */
    ADV7195_INPUT_STANDARD = 2,      /* field 3: 0 or 1 */
    ADV7195_DV_POLARITY = 3,         /* field 5: 0 or 1 */
    ADV7195_PIXEL_DATA = 4,          /* field 7: pixel data enable, yes or no */
    ADV7195_INPUT_FORMAT = 5,        /* field 8: 0 or 1 */
    ADV7195_TEST_PATTERN = 6,        /* field 9: test pattern enable, yes or no */
    ADV7195_TEST_FRAME = 7,          /* field 10: test pattern, 0 hatch, 1 frame */
    ADV7195_VBI_OPEN = 8,            /* field 11: yes or no */
    ADV7195_UNDERSHOOT_LIMITER = 9,  /* field 12: 0 to 3 */
    ADV7195_SHARPNESS_FILTER = 10,   /* field 13: yes or no */
    ADV7195_Y_DELAY = 11,            /* field 14: 0 to 4 pixel clocks */
    ADV7195_COLOUR_DELAY = 12,       /* field 15: 0 to 4 pixel clocks */
    ADV7195_CGMS_ENABLE = 13,        /* field 16: yes or no */
    ADV7195_CGMS_CRC = 14,           /* field 17: yes or no */
    ADV7195_HDTV_ENABLE = 15,        /* field 18: yes or no; a yes leaves progressive-scan mode */
    ADV7195_DAC_A = 16,              /* field 21: yes or no */
    ADV7195_DAC_B = 17,              /* field 22: yes or no */
    ADV7195_DAC_C = 18,              /* field 23: yes or no */
    ADV7195_INTERPOLATION = 19,      /* field 24: MR36, yes or no */
    ADV7195_TIMING_RESET = 20,       /* field 26: yes or no */
    ADV7195_RGB_MODE = 21,           /* field 28: yes or no */
    ADV7195_SYNC_ON_PRPB = 22,       /* field 29: yes or no */
    ADV7195_OUTPUT_SWAP = 23,        /* field 30: colour output swap, yes or no */
    ADV7195_GAMMA_CURVE = 24,        /* field 31: 0 curve A, 1 curve B */
    ADV7195_GAMMA_CORRECTION = 25,   /* field 32: yes or no */
    ADV7195_ADAPTIVE_MODE = 26,      /* field 33: 0 mode A, 1 mode B */
    ADV7195_ADAPTIVE_FILTER = 27,    /* field 34: yes or no */
    ADV7195_COLOUR_Y = 28,           /* field 35: 0 to 255 */
    ADV7195_COLOUR_CR = 29,          /* field 36: 0 to 255 */
    ADV7195_COLOUR_CB = 30,          /* field 37: 0 to 255 */
    ADV7195_MODE_REGISTER_6 = 31,    /* field 38: 0 to 255 */
    ADV7195_FILTER_GAIN_A = 32,      /* field 39: 0 to 15 */
    ADV7195_FILTER_GAIN_B = 33,      /* field 40: 0 to 15 */
    ADV7195_CGMS_DATA = 34,          /* field 41: 0 to 1048575, C0 its lowest bit */
    ADV7195_CURVE_A_BYTES = 35,      /* field 42: the first of seven bytes, each 0 to 255 */
    ADV7195_CURVE_B_BYTES = 42,      /* field 43: the first of seven bytes, each 0 to 255 */
    ADV7195_ADAPTIVE_GAIN_1_A = 49,  /* field 44: 0 to 15 */
    ADV7195_ADAPTIVE_GAIN_1_B = 50,  /* field 45: 0 to 15 */
    ADV7195_ADAPTIVE_GAIN_2_A = 51,  /* field 46: 0 to 15 */
    ADV7195_ADAPTIVE_GAIN_2_B = 52,  /* field 47: 0 to 15 */
    ADV7195_ADAPTIVE_GAIN_3_A = 53,  /* field 48: 0 to 15 */
    ADV7195_ADAPTIVE_GAIN_3_B = 54,  /* field 49: 0 to 15 */
    ADV7195_THRESHOLD_A = 55,        /* field 50: 0 to 255 */
    ADV7195_THRESHOLD_B = 56,        /* field 51: 0 to 255 */
    ADV7195_THRESHOLD_C = 57         /* field 52: 0 to 255 */
};

/* Output standards. */
enum { ADV7195_EIA_770_2 = 0, ADV7195_EIA_770_1 = 1, ADV7195_FULL_RANGE = 2 };

/* The patterns of the test pattern, the curves of gamma correction, and the modes of the adaptive filter. */
enum { ADV7195_HATCH = 0, ADV7195_FRAME = 1 };
enum { ADV7195_GAMMA_A = 0, ADV7195_GAMMA_B = 1 };
enum { ADV7195_ADAPTIVE_A = 0, ADV7195_ADAPTIVE_B = 1 };

/* Refusals. Each comes with the number of the field at fault, or 0. */
enum {
    ADV7195_ACCEPTED = 0,
    ADV7195_IMAGE_LENGTH = 1,   /* an image isn't 40 bytes */
    ADV7195_ADDRESS = 2,        /* a bus address is odd or above 254 */
    ADV7195_OUT_OF_RANGE = 3,   /* a number is outside its range, or (field 0) the settings aren't 58, or no such transaction */
    ADV7195_RESERVED = 4,       /* a code is reserved, or a must-be-zero bit is set */
    ADV7195_PLAN_BYTES = 9,     /* a plan's bytes break the packing, the bus rule or the order of the 3E */
    ADV7195_PLAN_TOO_SHORT = 10 /* the lent plan is shorter than the packed plan, or the lent data than the transaction's */
};

/*
 * A packed plan, bit by bit, each number with its most significant bit first
 * and no gaps:
 *
 *   6 bits            the number of transactions
 *   for each of them
 *     6 bits          the subaddress: the register of the first data byte
 *     6 bits          the number of data bytes, never 0
 *     8 bits each     the data bytes, for one register after the other
 *   0 to 7 bits       zero, up to the end of the byte
 *
 * Transactions stand in any order and may overlap. There are no further bytes.
 * Nothing to do is 00, and 04 30 46 00 is 000001 000011 000001 00011000 000000:
 * one transaction, subaddress 03, one byte, 18.
 *
 * The bus rule: no data goes to 0A to 0F, or past 27. The order of the 3E: before
 * a transaction that flips bit 6 of 03 (MR36), an earlier one in the list has
 * written 3E to 09 and none since has touched 09, even if 09 held 3E before the
 * list.
 *
 * To send a plan, ask for its transactions from index 0 on until refusal 3:
 *
 *   uint8_t data[ADV7195_DATA_ROOM];
 *   for (uint32_t index = 0;; index++) {
 *       adv7195_transaction_answer next =
 *           adv7195_transaction(plan, length, index, data, sizeof data);
 *       if (next.refusal != ADV7195_ACCEPTED)
 *           break;
 *       start, address, next.subaddress, next.count bytes of data, stop
 *   }
 */

/* What planning answers. */
typedef struct {
    uint32_t refusal;      /* a refusal, or 0 */
    uint32_t field;        /* the field at fault, or 0 */
    uint32_t length;       /* bytes of the packed plan */
    uint32_t transactions; /* its write transactions */
    uint32_t bus_bytes;    /* its bus bytes: 2 for each transaction, plus all data */
} adv7195_plan_answer;

/* What playing answers. */
typedef struct {
    uint32_t refusal;      /* a refusal, or 0 */
    uint32_t field;        /* always 0 */
    uint32_t acknowledged; /* 1 if every byte was acknowledged, else 0 */
} adv7195_play_answer;

/* What reading answers. */
typedef struct {
    uint32_t refusal; /* a refusal, or 0 */
    uint32_t field;   /* the field at fault, or 0 */
} adv7195_read_answer;

/* What asking for a transaction answers. */
typedef struct {
    uint32_t refusal;    /* a refusal, or 0 */
    uint32_t field;      /* always 0 */
    uint32_t subaddress; /* the register of the first data byte */
    uint32_t count;      /* its data bytes */
} adv7195_transaction_answer;

/*
 * Packs into `plan` the least list of write transactions that brings a chip
 * holding `image` to the settings and keeps the bus rule and the order of the 3E:
 * the fewest bus bytes, then the fewest transactions; of those the list whose
 * first transaction starts lowest, then is shortest, then the second, and so on.
 * Must-be-zero bits become 0, and every bit outside all fields stays as it was.
 * Bytes of `plan` past the packed plan stay as they were.
 *
 * Refuses, in this order: 1; 2; 3 with field 0 for another length than 58; the
 * settings' fields in order; 10. Of the image only the length is judged.
 */
adv7195_plan_answer adv7195_plan(const uint8_t *image, size_t image_len,
                                 const int32_t *settings, size_t settings_len,
                                 uint32_t address,
                                 uint8_t *plan, size_t plan_len);

/*
 * Plays the packed `plan`, sent to the address `used`, on a chip that holds
 * `image` and has the address `own`. `image` becomes what the chip then holds.
 * Where the addresses differ nothing is stored, and nothing is acknowledged
 * unless the plan is empty.
 *
 * Refuses, in this order: 1; 2 for either address; 9 where the plan's bytes break
 * the packing, where data goes to 0A to 0F or past 27, or where the 3E is missing
 * before a flip of MR36, as the plan would make it on `image`, whatever the
 * addresses.
 */
adv7195_play_answer adv7195_play(uint8_t *image, size_t image_len,
                                 uint32_t used, uint32_t own,
                                 const uint8_t *plan, size_t plan_len);

/*
 * Writes the data of the packed plan's transaction `index`, counted from 0, to
 * the front of `data`. Bytes of `data` past them stay as they were.
 *
 * Refuses, in this order: 9 where the plan's bytes break the packing; 3 with
 * field 0 where the plan has no such transaction; 10 where `data` is shorter
 * than the transaction's data. The bus rule and the order of the 3E aren't judged
 * here: a plan of adv7195_plan keeps them, and adv7195_play judges them.
 */
adv7195_transaction_answer adv7195_transaction(const uint8_t *plan, size_t plan_len,
                                               uint32_t index,
                                               uint8_t *data, size_t data_len);

/*
 * Writes into `settings` what `image` is set to.
 *
 * Refuses, in this order: 1; 3 with field 0 for another length than 58; the
 * image's fields in order, must-be-zero bits among them.
 */
adv7195_read_answer adv7195_read(const uint8_t *image, size_t image_len,
                                 int32_t *settings, size_t settings_len);

#ifdef __cplusplus
}
#endif

#endif
