/*
 * Tests of adv7194_why: each reason, two at once, bridges, small limits, what is
 * refused and in which order, with guards around the lent memories.
 */
#ifndef REASONS_H
#define REASONS_H

#include "adv7194.h"
#include "calls.h"
#include "lent.h"
#include "limits.h"

/* A register's number in its lowest byte, but none of the chip's. */
#define WIDE_REGISTER 0x120u

/* Asks why and checks the answer, and that both inputs are kept. */
static void why_of(const char *what, const bytes *image, size_t image_len, uint64_t known, const numbers *settings,
                   size_t settings_len, uint32_t limit, uint32_t reg, adv7194_why_answer expected)
{
    bytes image_before = *image;
    numbers settings_before = *settings;
    adv7194_why_answer answer = adv7194_why(image->at, image_len, known, settings->at, settings_len, limit, reg);
    bool right = answer.refusal == expected.refusal && answer.field == expected.field &&
                 answer.reason == expected.reason && answer.first == expected.first &&
                 answer.second == expected.second;
    bool kept = memcmp(image, &image_before, sizeof *image) == 0 &&
                memcmp(settings, &settings_before, sizeof *settings) == 0;
    check(what, right && kept);
}

/* Asks about a board known in part, for the house setting. */
static void why_known(const char *what, const bytes *image, uint64_t known, uint32_t limit, uint32_t reg,
                      uint32_t reason, uint32_t first, uint32_t second)
{
    adv7194_why_answer expected = {ADV7194_ACCEPTED, 0, reason, first, second};
    numbers settings;
    house(&settings);
    why_of(what, image, IMAGE, known, &settings, NUMBERS, limit, reg, expected);
}

/* Asks about a board known in full, with no limit. */
static void why(const char *what, const bytes *image, uint32_t reg, uint32_t reason, uint32_t first, uint32_t second)
{
    why_known(what, image, ADV7194_ALL_KNOWN, ADV7194_NO_LIMIT, reg, reason, first, second);
}

/* A refusal's answer. */
static void why_refused(const char *what, const bytes *image, size_t image_len, uint64_t known,
                        const numbers *settings, size_t settings_len, uint32_t limit, uint32_t refusal, uint32_t field)
{
    adv7194_why_answer expected = {refusal, field, 0, 0, 0};
    why_of(what, image, image_len, known, settings, settings_len, limit, HUE_REGISTER, expected);
}

/* Each reason, and two at once: the earlier one. */
static void test_each_reason(const bytes *image)
{
    bytes other = *image;
    why("why, nothing is wrong", image, 0x20, ADV7194_NOT_SENT, 0, 0);
    other.at[0x20] ^= 1;
    why("why, hue", &other, 0x20, ADV7194_FIELD_CHANGED, 15, 0);
    why("why, beside hue", &other, 0x21, ADV7194_NOT_SENT, 0, 0);
    other.at[0x22] ^= 0x10;
    why("why, a must-be-zero bit", &other, 0x22, ADV7194_MUST_BE_ZERO, 0, 0);
    why("why, a gap of one", &other, 0x21, ADV7194_BRIDGE, 0x20, 0x22);
    other.at[0x22] ^= 0x01;
    why("why, a field before must-be-zero bits", &other, 0x22, ADV7194_FIELD_CHANGED, 17, 0);
    other.at[0x25] ^= 0x18;
    why("why, the lowest of two fields", &other, 0x25, ADV7194_FIELD_CHANGED, 24, 0);
    why("why, a gap of two, first", &other, 0x23, ADV7194_BRIDGE, 0x22, 0x25);
    why("why, a gap of two, second", &other, 0x24, ADV7194_BRIDGE, 0x22, 0x25);
    other.at[0x0D] ^= 1;
    why("why, a byte of the word", &other, 0x0D, ADV7194_FIELD_CHANGED, ADV7194_FIELD_WORD, 0);
    why("why, before it", &other, 0x0C, ADV7194_COMPANION, 0, 0);
    why("why, last of the word", &other, WORD_LAST_REGISTER, ADV7194_COMPANION, 0, 0);
    other.at[0x0E] ^= 1;
    why("why, two bytes of the word: the field before a companion", &other, 0x0D, ADV7194_FIELD_CHANGED,
        ADV7194_FIELD_WORD, 0);
    why("why, past the word", &other, 0x10, ADV7194_NOT_SENT, 0, 0);
    why("why, register 34", &other, 0x34, ADV7194_NOT_SENT, 0, 0);
    why("why, no register", &other, ADV7194_REGISTERS, ADV7194_NOT_SENT, 0, 0);
    why("why, a wide number", &other, WIDE_REGISTER, ADV7194_NOT_SENT, 0, 0);
    why("why, the widest number", &other, UINT32_MAX, ADV7194_NOT_SENT, 0, 0);
}

/* Unknown before all else, and small limits. */
static void test_why_known(const bytes *image)
{
    const uint64_t all = ADV7194_ALL_KNOWN;
    bytes other = *image;
    other.at[0x22] ^= 0x11;
    why_known("why, unknown before a field", &other, all & ~FLAG(0x22), 54, 0x22, ADV7194_UNKNOWN, 0, 0);
    why_known("why, unknown in the word", image, all & ~FLAG(0x0E), 54, 0x0E, ADV7194_UNKNOWN, 0, 0);
    why_known("why, its companion", image, all & ~FLAG(0x0E), 54, 0x0F, ADV7194_COMPANION, 0, 0);
    why_known("why, unknown and not fixed", image, all & ~FLAG(0x1A), 54, 0x1A, ADV7194_NOT_SENT, 0, 0);
    why_known("why, an unknown neighbour", &other, all & ~FLAG(0x20), 54, 0x21, ADV7194_BRIDGE, 0x20, 0x22);
    /* 1D to 1F, 21 and 22 */
    other = *image;
    other.at[0x1D] ^= 1, other.at[0x1E] ^= 1, other.at[0x1F] ^= 1, other.at[0x21] ^= 1, other.at[0x22] ^= 1;
    why_known("why, joined with limit 6", &other, all, 6, 0x20, ADV7194_BRIDGE, 0x1F, 0x21);
    why_known("why, cut with limit 5", &other, all, 5, 0x20, ADV7194_NOT_SENT, 0, 0);
    why_known("why, past the cut", &other, all, 5, 0x21, ADV7194_FIELD_CHANGED, 16, 0);
}

/* 1, the limit, the settings' count, the fields, 11. */
static void test_why_refused(const bytes *image)
{
    static const uint32_t limits[] = {LEAST_LIMIT - 1, ADV7194_NO_LIMIT + 1, WIDE_LIMIT, UINT32_MAX};
    const uint32_t range = ADV7194_OUT_OF_RANGE;
    numbers right, wrong;
    house(&right);
    wrong = right;
    wrong.at[ADV7194_STANDARD] = 2;
    for (size_t i = 0; i < sizeof limits / sizeof limits[0]; i++) {
        why_refused("why refusal 1, before the limit", image, IMAGE - 1, 0, &wrong, NUMBERS - 1, limits[i],
                    ADV7194_IMAGE_LENGTH, 0);
        why_refused("why refusal 3, limit before 48", image, IMAGE, 0, &wrong, NUMBERS - 1, limits[i], range, 0);
        why_refused("why refusal 3, limit before a field", image, IMAGE, 0, &wrong, NUMBERS, limits[i], range, 0);
        why_refused("why refusal 3, limit before 11", image, IMAGE, 0, &right, NUMBERS, limits[i], range, 0);
    }
    why_refused("why refusal 1, 55 bytes", image, IMAGE + 1, 0, &wrong, NUMBERS, 4, ADV7194_IMAGE_LENGTH, 0);
    why_refused("why refusal 3, 48", image, IMAGE, 0, &wrong, NUMBERS - 1, 4, range, 0);
    why_refused("why refusal 3, 50", image, IMAGE, 0, &wrong, NUMBERS + 1, 4, range, 0);
    why_refused("why refusal 4, before 11", image, IMAGE, 0, &wrong, NUMBERS, 4, ADV7194_RESERVED, 1);
    why_refused("why refusal 11", image, IMAGE, 0, &right, NUMBERS, 4, ADV7194_REGISTER_UNKNOWN, 1);
    why_refused("why refusal 11, 19", image, IMAGE, ~FLAG(0x19), &right, NUMBERS, 4, ADV7194_REGISTER_UNKNOWN, 11);
    check("why, null image", adv7194_why(NULL, 0, 0, right.at, NUMBERS, 0, 0).refusal == ADV7194_IMAGE_LENGTH);
    check("why, null settings", adv7194_why(image->at, IMAGE, 0, NULL, 0, 4, 0).refusal == range);
}

/* Every register that is written has a reason, and no other has. */
static void test_why_planned(void)
{
    bytes image, lent;
    numbers settings;
    most_needed(&image, &settings);
    for (uint32_t limit = LEAST_LIMIT; limit <= ADV7194_NO_LIMIT; limit++) {
        adv7194_plan_answer answer = plan_most("plan, to ask why", limit, ADV7194_PLAN_ROOM, &lent, ADV7194_ACCEPTED);
        uint64_t sent = 0, given = 0;
        uint8_t data[ADV7194_DATA_ROOM];
        for (uint32_t index = 0; index < answer.transactions; index++) {
            adv7194_transaction_answer next = adv7194_transaction(lent.at, answer.length, index, data, sizeof data);
            for (uint32_t i = 0; i < next.count; i++)
                sent |= FLAG(next.subaddress + i);
        }
        for (uint32_t reg = 0; reg < MOST; reg++) {
            adv7194_why_answer one = adv7194_why(image.at, IMAGE, ADV7194_ALL_KNOWN, settings.at, NUMBERS, limit, reg);
            if (one.refusal == ADV7194_ACCEPTED && one.reason != ADV7194_NOT_SENT)
                given |= FLAG(reg);
        }
        check("a reason for what is sent", sent == given && sent != 0);
    }
}

/* Why registers are sent, with an image of the house setting. */
static void test_reasons(const bytes *image)
{
    test_each_reason(image);
    test_why_known(image);
    test_why_refused(image);
    test_why_planned();
}

#endif
