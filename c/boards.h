/*
 * Tests of boards known in part: what planning writes and refuses, what playing
 * makes known, what reading asks for, with guards around the lent memories.
 */
#ifndef BOARDS_H
#define BOARDS_H

#include "adv7194.h"
#include "calls.h"
#include "lent.h"

/* Flags past the last register. */
#define PAST_FLAGS (~ADV7194_ALL_KNOWN)
/* The flags of all registers but one. */
#define ALL_BUT(reg) (ADV7194_ALL_KNOWN & ~FLAG(reg))

/* Plans the house setting, with these flags. */
static adv7194_plan_answer plan_house(const char *what, const bytes *image, uint64_t known, size_t room, uint32_t refusal,
                                      uint32_t field)
{
    bytes lent, held = *image;
    numbers settings;
    fill_bytes(&lent, BEFORE_BYTE);
    house(&settings);
    return plan_known(what, &held, IMAGE, known, &settings, NUMBERS, ADDRESS, &lent, room, refusal, field);
}

/* Plans the house setting where it is already set, with these flags: transactions and bus bytes. */
static void plan_costs(const char *what, const bytes *image, uint64_t known, uint32_t transactions, uint32_t bus_bytes)
{
    adv7194_plan_answer answer = plan_house(what, image, known, MOST, ADV7194_ACCEPTED, 0);
    check(what, answer.transactions == transactions && answer.bus_bytes == bus_bytes);
}

/* Planning where registers are fixed only in part: the lowest field, after the fields' checks and before 10. */
static void test_plan_unknown(bytes *image)
{
    const uint32_t unknown = ADV7194_REGISTER_UNKNOWN;
    bytes lent, held = *image;
    numbers settings;
    fill_bytes(&lent, BEFORE_BYTE);
    house(&settings);
    plan_house("plan refusal 11, register 00", image, ALL_BUT(0x00), MOST, unknown, 1);
    plan_house("plan refusal 11, register 01", image, ALL_BUT(0x01), MOST, unknown, 3);
    plan_house("plan refusal 11, register 02", image, ALL_BUT(0x02), MOST, unknown, 2);
    plan_house("plan refusal 11, register 19", image, ALL_BUT(0x19), MOST, unknown, 11);
    plan_house("plan refusal 11, the lowest field", image, ALL_BUT(0x01) & ALL_BUT(0x02), MOST, unknown, 2);
    plan_house("plan refusal 11, nothing known", image, 0, MOST, unknown, 1);
    plan_house("plan refusal 11, flags past the last", image, PAST_FLAGS, MOST, unknown, 1);
    plan_house("plan refusal 11, before 10", image, ALL_BUT(0x02), 0, unknown, 2);
    plan_house("plan refusal 10, for an unknown register", image, ALL_BUT(0x05), 3, ADV7194_PLAN_TOO_SHORT, 0);
    plan_known("plan refusal 1, before 11", &held, IMAGE - 1, 0, &settings, NUMBERS, ADDRESS, &lent, MOST,
               ADV7194_IMAGE_LENGTH, 0);
    plan_known("plan refusal 2, before 11", &held, IMAGE, 0, &settings, NUMBERS, ADDRESS + 1, &lent, MOST,
               ADV7194_ADDRESS, 0);
    plan_known("plan refusal 3, before 11", &held, IMAGE, 0, &settings, NUMBERS - 1, ADDRESS, &lent, MOST,
               ADV7194_OUT_OF_RANGE, 0);
    settings.at[ADV7194_CURVE_B_Q] = 4;
    plan_known("plan refusal 3, the last field before 11", &held, IMAGE, 0, &settings, NUMBERS, ADDRESS, &lent, MOST,
               ADV7194_OUT_OF_RANGE, 27);
}

/* Planning what is unknown and fixed in whole, and around what isn't fixed. */
static void test_plan_needed(const bytes *image)
{
    bytes other = *image;
    plan_costs("plan an unknown 05", image, ALL_BUT(0x05), 1, 3);
    plan_costs("plan an unknown word's byte", image, ALL_BUT(0x0E), 1, 6);
    plan_costs("plan unknown 1A and 1B under off", image, ALL_BUT(0x1A) & ALL_BUT(0x1B), 0, 0);
    plan_costs("plan an unknown 35", image, ALL_BUT(0x35), 0, 0);
    plan_costs("plan with flags past the last", image, PAST_FLAGS | ALL_BUT(0x05), 1, 3);
    plan_costs("plan with all flags", image, UINT64_MAX, 0, 0);
    plan_costs("plan with 00 to 02 and 19 known", image, FLAG(0x00) | FLAG(0x01) | FLAG(0x02) | FLAG(0x19), 3, 35);
    other.at[0x02] ^= 0x08;
    other.at[0x05] ^= 0x01;
    plan_costs("plan over a gap", &other, ADV7194_ALL_KNOWN, 1, 6);
    plan_costs("plan beside an unknown 03", &other, ALL_BUT(0x03), 2, 6);
    plan_costs("plan beside an unknown 04", &other, ALL_BUT(0x04), 2, 6);
    other.at[0x05] = 0xFF;
    plan_costs("plan whatever an unknown 05 holds", &other, ALL_BUT(0x05), 1, 6);
}

/* Playing with flags. */
static void test_play_known(void)
{
    static const uint8_t hue[] = {0x06, 0x00, 0x65, 0xC0}, empty[] = {0x00};
    /* 000010, 000001 000001 01000111, 100000 000010 00011111 01111100, 00 */
    static const uint8_t two[] = {0x08, 0x10, 0x51, 0xE0, 0x08, 0x7D, 0xF0};
    const uint64_t flags[] = {0, ADV7194_ALL_KNOWN, PAST_FLAGS, UINT64_MAX, FLAG(HUE_REGISTER), ALL_BUT(HUE_REGISTER)};
    const uint64_t written = FLAG(0x01) | FLAG(0x20) | FLAG(0x21);
    for (size_t i = 0; i < sizeof flags / sizeof flags[0]; i++) {
        bytes image;
        fill_bytes(&image, 0);
        player *by = adv7194_play;
        play_known(by, "play hue, known by it", &image, IMAGE, flags[i], ADDRESS, ADDRESS, hue, sizeof hue,
                   ADV7194_ACCEPTED, 1, FLAG(HUE_REGISTER));
        play_known(by, "play two transactions, known by them", &image, IMAGE, flags[i], ADDRESS, ADDRESS, two,
                   sizeof two, ADV7194_ACCEPTED, 1, written);
        play_known(by, "play elsewhere, nothing known", &image, IMAGE, flags[i], OTHER_ADDRESS, ADDRESS, hue,
                   sizeof hue, ADV7194_ACCEPTED, 0, 0);
        play_known(by, "play nothing, nothing known", &image, IMAGE, flags[i], ADDRESS, ADDRESS, empty, 1,
                   ADV7194_ACCEPTED, 1, 0);
        play_known(by, "play refusal 1 keeps flags", &image, IMAGE - 1, flags[i], ADDRESS, ADDRESS, hue, sizeof hue,
                   ADV7194_IMAGE_LENGTH, 0, 0);
        play_known(by, "play refusal 2 keeps flags", &image, IMAGE, flags[i], WIDE_ADDRESS, ADDRESS, hue, sizeof hue,
                   ADV7194_ADDRESS, 0, 0);
        play_known(by, "play refusal 9 keeps flags", &image, IMAGE, flags[i], ADDRESS, ADDRESS, two, sizeof two - 1,
                   ADV7194_PLAN_BYTES, 0, 0);
    }
}

/* Reading: 11 at the first field with an unknown register, before that field's other checks. */
static void test_read_unknown(const bytes *image)
{
    /* the first field of each register, 0 where it has none */
    static const uint8_t fields[ADV7194_REGISTERS] = {
        [0x00] = 1,  [0x01] = 3,  [0x02] = 2,  [0x05] = 5,  [0x0C] = 28, [0x0D] = 28, [0x0E] = 28, [0x0F] = 28,
        [0x10] = 10, [0x19] = 11, [0x1A] = 11, [0x1B] = 11, [0x1D] = 12, [0x1E] = 13, [0x1F] = 14, [0x20] = 15,
        [0x21] = 16, [0x22] = 17, [0x23] = 18, [0x24] = 20, [0x25] = 23, [0x26] = 26, [0x27] = 26, [0x28] = 26,
        [0x29] = 26, [0x2A] = 26, [0x2B] = 26, [0x2C] = 26, [0x2D] = 27, [0x2E] = 27, [0x2F] = 27, [0x30] = 27,
        [0x31] = 27, [0x32] = 27, [0x33] = 27};
    const uint32_t unknown = ADV7194_REGISTER_UNKNOWN;
    bytes held = *image;
    numbers settings;
    fill_numbers(&settings, BEFORE_NUMBER);
    for (int reg = 0; reg < IMAGE; reg++)
        read_replaced("read with one register unknown", image, reg, 0xFF, ALL_BUT(reg), fields[reg] == 0 ? 0 : unknown,
                      fields[reg]);
    read_replaced("read refusal 11, nothing known", image, 0x35, 0, 0, unknown, 1);
    read_replaced("read refusal 11, flags past the last", image, 0x35, 0, PAST_FLAGS, unknown, 1);
    read_replaced("read refusal 4, before a later 11", image, 0x00, 0x02, ALL_BUT(0x02), ADV7194_RESERVED, 1);
    read_replaced("read refusal 11, before 5", image, 0x02, 0x18, ALL_BUT(0x01), unknown, 3);
    read_replaced("read refusal 11, before 7", image, 0x19, 0x80, ALL_BUT(0x1B), unknown, 11);
    read_replaced("read refusal 3, before a later 11", image, 0x1D, 0xC1, ALL_BUT(0x1E), ADV7194_OUT_OF_RANGE, 12);
    read_replaced("read refusal 11, before 8", image, 0x0C, 0x00, ALL_BUT(0x0F), unknown, ADV7194_FIELD_WORD);
    read_known("read refusal 1, before 11", &held, IMAGE - 1, 0, &settings, NUMBERS, ADV7194_IMAGE_LENGTH, 0);
    read_known("read refusal 3, before 11", &held, IMAGE, 0, &settings, NUMBERS - 1, ADV7194_OUT_OF_RANGE, 0);
}

/* Boards known in part, with an image of the house setting. */
static void test_boards(bytes *image)
{
    test_plan_unknown(image);
    test_plan_needed(image);
    test_play_known();
    test_read_unknown(image);
}

#endif
