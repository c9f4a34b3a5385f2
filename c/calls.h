/*
 * Planning, playing and reading, with guards around every lent memory.
 */
#ifndef CALLS_H
#define CALLS_H

#include "adv7194.h"
#include "lent.h"
#include "players.h"

/* An even address, and another. */
#define ADDRESS 0x54u
#define OTHER_ADDRESS 0x56u
/* Above 254, but even, and right in its lowest byte. */
#define WIDE_ADDRESS 0x154u
/* What lent memory holds before. */
#define BEFORE_BYTE 0x6B
#define BEFORE_NUMBER 77
/* The right lengths. */
#define IMAGE ADV7194_REGISTERS
#define NUMBERS ADV7194_SETTINGS

/* Registers that are looked at. */
#define HUE_REGISTER 0x20
#define WORD_LAST_REGISTER 0x0F
#define PEDESTAL_REGISTER 0x02
#define PEDESTAL_BIT 0x08

/* The house setting, as the library has it. */
static void house(numbers *s)
{
    fill_numbers(s, 0);
    adv7194_house(s->at, NUMBERS);
}

/* Plans over a board known in part, with a limit, and checks the answer, that inputs
 * are kept, and that after a refusal all is; what lies past the packed plan always is. */
static adv7194_plan_answer plan_limited(const char *what, bytes *image, size_t image_len, uint64_t known,
                                        numbers *settings, size_t settings_len, uint32_t address, uint32_t limit,
                                        bytes *lent, size_t lent_len, uint32_t refusal, uint32_t field)
{
    bytes image_before = *image, lent_before = *lent;
    numbers settings_before = *settings;
    adv7194_plan_answer answer = adv7194_plan(image->at, image_len, known, settings->at, settings_len,
                                              address, limit, lent->at, lent_len);
    bool right = answer.refusal == refusal && answer.field == field;
    bool kept = memcmp(image, &image_before, sizeof *image) == 0 &&
                memcmp(settings, &settings_before, sizeof *settings) == 0;
    if (refusal != ADV7194_ACCEPTED) {
        right = right && answer.length == 0 && answer.transactions == 0 && answer.bus_bytes == 0;
        kept = kept && memcmp(lent, &lent_before, sizeof *lent) == 0;
    } else if (right && answer.length <= lent_len) {
        memcpy(lent_before.at, lent->at, answer.length);
        kept = kept && memcmp(lent, &lent_before, sizeof *lent) == 0;
    } else {
        right = false;
    }
    check(what, right && kept);
    return answer;
}

/* Plans over a board known in part, with no limit. */
static adv7194_plan_answer plan_known(const char *what, bytes *image, size_t image_len, uint64_t known,
                                      numbers *settings, size_t settings_len, uint32_t address, bytes *lent,
                                      size_t lent_len, uint32_t refusal, uint32_t field)
{
    return plan_limited(what, image, image_len, known, settings, settings_len, address, ADV7194_NO_LIMIT, lent,
                        lent_len, refusal, field);
}

/* Plans over a board known in full, with no limit. */
static adv7194_plan_answer plan(const char *what, bytes *image, size_t image_len, numbers *settings,
                                size_t settings_len, uint32_t address, bytes *lent, size_t lent_len,
                                uint32_t refusal, uint32_t field)
{
    return plan_known(what, image, image_len, ADV7194_ALL_KNOWN, settings, settings_len, address, lent, lent_len,
                      refusal, field);
}

/* Plays settings on a board known in full. */
static void play(const char *what, bytes *image, size_t image_len, uint32_t used, uint32_t own,
                 const uint8_t *packed, size_t packed_len, uint32_t refusal, uint32_t acknowledged)
{
    play_by(adv7194_play, what, image, image_len, used, own, packed, packed_len, refusal, acknowledged);
}

/* Reads a board known in part and checks the answer, that the image is kept, and that after a refusal all is. */
static void read_known(const char *what, bytes *image, size_t image_len, uint64_t known, numbers *settings,
                       size_t settings_len, uint32_t refusal, uint32_t field)
{
    bytes image_before = *image;
    numbers settings_before = *settings;
    adv7194_read_answer answer = adv7194_read(image->at, image_len, known, settings->at, settings_len);
    bool right = answer.refusal == refusal && answer.field == field;
    bool kept = memcmp(image, &image_before, sizeof *image) == 0;
    if (refusal == ADV7194_ACCEPTED)
        memcpy(settings_before.at, settings->at, ADV7194_SETTINGS * sizeof settings->at[0]);
    kept = kept && memcmp(settings, &settings_before, sizeof *settings) == 0;
    check(what, right && kept);
}

/* Reads a board known in full. */
static void read_into(const char *what, bytes *image, size_t image_len, numbers *settings,
                      size_t settings_len, uint32_t refusal, uint32_t field)
{
    read_known(what, image, image_len, ADV7194_ALL_KNOWN, settings, settings_len, refusal, field);
}

/* Reads an image with one register replaced, of a board known in part. */
static void read_replaced(const char *what, const bytes *image, int reg, uint8_t value, uint64_t known,
                          uint32_t refusal, uint32_t field)
{
    bytes changed = *image;
    numbers settings;
    changed.at[reg] = value;
    fill_numbers(&settings, BEFORE_NUMBER);
    read_known(what, &changed, IMAGE, known, &settings, NUMBERS, refusal, field);
}

#endif
