/*
 * Tests of the ADV7195: each call and each refusal at its boundary, the worked
 * plans, the order of the 3E, and reading back, with guards around the lent
 * memories.
 */
#ifndef PROGRESSIVE_H
#define PROGRESSIVE_H

#include "adv7195.h"
#include "lent.h"
#include "progressive_calls.h"
#include "progressive_plays.h"

/* What 09 must have been given before MR36 flips. */
#define PREPARED 0x3E
/* The longest packed plan. */
#define LONGEST ADV7195_PLAN_ROOM

/* Plans, checks the packed bytes and what they cost, plays them, reads back, and plans what was read. */
static void worked(const char *what, const bytes *before, numbers *settings, const uint8_t *packed, uint32_t length,
                   uint32_t transactions, uint32_t bus_bytes)
{
    bytes image = *before, lent;
    numbers found;
    fill_bytes(&lent, BEFORE_BYTE);
    fill_numbers(&found, BEFORE_NUMBER);
    adv7195_plan_answer answer = scan_plan(what, &image, SCAN_IMAGE, settings, SCAN_NUMBERS, ADDRESS, &lent, MOST,
                                           ADV7195_ACCEPTED, 0);
    check(what, answer.length == length && answer.transactions == transactions && answer.bus_bytes == bus_bytes &&
                    memcmp(lent.at, packed, length) == 0);
    scan_play(what, &image, SCAN_IMAGE, ADDRESS, ADDRESS, packed, length, ADV7195_ACCEPTED, 1);
    scan_read(what, &image, SCAN_IMAGE, &found, SCAN_NUMBERS, ADV7195_ACCEPTED, 0);
    check(what, memcmp(found.at, settings->at, SCAN_NUMBERS * sizeof found.at[0]) == 0);
    answer = scan_plan(what, &image, SCAN_IMAGE, &found, SCAN_NUMBERS, ADDRESS, &lent, 1, ADV7195_ACCEPTED, 0);
    check(what, answer.length == 1 && answer.transactions == 0 && answer.bus_bytes == 0 && lent.at[0] == 0x00);
}

/* Worked plans from the power-up image. */
static void test_scan_worked(void)
{
    static const uint8_t hatch[] = {0x08, 0x10, 0x41, 0x49, 0x04, 0xF8};
    static const uint8_t prepared[] = {0x08, 0x90, 0x4F, 0x83, 0x05, 0xE0};
    static const uint8_t restored[] = {0x0C, 0x90, 0x4F, 0x83, 0x05, 0xE0, 0x90, 0x40, 0x00};
    static const uint8_t colours[] = {0x0C, 0x70, 0xFC, 0x16, 0x8F, 0x83, 0x05, 0xE0, 0x90, 0x40, 0x00};
    static const uint8_t lower_start[] = {0x08, 0x61, 0x14, 0x60, 0x20, 0x0F, 0x83, 0x05, 0xE0};
    static const uint8_t two[] = {0x08, 0x90, 0x4F, 0x83, 0x1D, 0xE0, 0x00, 0x01, 0x46, 0x02, 0x00, 0x00};
    static const uint8_t dac_off[] = {0x04, 0x30, 0x46, 0x00};
    bytes image;
    numbers s;
    power_up(&image);
    power_up_settings(&s);
    s.at[ADV7195_DAC_C] = 0;
    worked("DAC C off, no 3E", &image, &s, dac_off, sizeof dac_off, 1, 3);
    s.at[ADV7195_DAC_C] = s.at[ADV7195_PIXEL_DATA] = s.at[ADV7195_TEST_PATTERN] = 1;
    s.at[ADV7195_MODE_REGISTER_6] = PREPARED;
    worked("the hatch of Table XII", &image, &s, hatch, sizeof hatch, 2, 6);
    s.at[ADV7195_PIXEL_DATA] = s.at[ADV7195_TEST_PATTERN] = 0;
    s.at[ADV7195_INTERPOLATION] = 1;
    worked("MR36 on, 09 to 3E", &image, &s, prepared, sizeof prepared, 2, 6);
    image.at[0x09] = PREPARED;
    worked("MR36 on, 09 at 3E before", &image, &s, prepared, sizeof prepared, 2, 6);
    s.at[ADV7195_MODE_REGISTER_6] = 0;
    worked("MR36 on, 09 from 3E to 00", &image, &s, restored, sizeof restored, 3, 9);
    image.at[0x09] = 0;
    worked("MR36 on, 09 kept at 00", &image, &s, restored, sizeof restored, 3, 9);
    s.at[ADV7195_COLOUR_CR] = 0xF0, s.at[ADV7195_COLOUR_CB] = 0x5A;
    worked("MR36 on with 07 and 08", &image, &s, colours, sizeof colours, 3, 11);
    s.at[ADV7195_COLOUR_CR] = s.at[ADV7195_COLOUR_CB] = 0x80;
    s.at[ADV7195_COLOUR_Y] = 0x51;
    worked("MR36 on with 06, 09 kept at 00", &image, &s, two, sizeof two, 2, 12);
    s.at[ADV7195_MODE_REGISTER_6] = PREPARED;
    worked("MR36 on with 06, 09 to 3E", &image, &s, lower_start, sizeof lower_start, 2, 9);
}

/* The longest plan: 41 bytes are enough, 40 are refused. */
static void test_scan_longest(void)
{
    bytes image, lent;
    numbers s;
    fill_bytes(&image, 0xFF);
    image.at[0x03] = 0xBF;
    fill_numbers(&s, 0);
    s.at[ADV7195_INTERPOLATION] = 1;
    fill_bytes(&lent, BEFORE_BYTE);
    scan_plan("plan refusal 10, 40 bytes", &image, SCAN_IMAGE, &s, SCAN_NUMBERS, ADDRESS, &lent, LONGEST - 1,
              ADV7195_PLAN_TOO_SHORT, 0);
    adv7195_plan_answer answer = scan_plan("plan in 41 bytes", &image, SCAN_IMAGE, &s, SCAN_NUMBERS, ADDRESS, &lent,
                                           LONGEST, ADV7195_ACCEPTED, 0);
    check("3 transactions, 41 bus bytes", answer.length == LONGEST && answer.transactions == 3 &&
                                              answer.bus_bytes == 41);
    scan_play("play 41 bytes", &image, SCAN_IMAGE, ADDRESS, ADDRESS, lent.at, LONGEST, ADV7195_ACCEPTED, 1);
    check("bits outside all fields are kept", image.at[0x04] == 0xFE && image.at[0x13] == 0xF0 &&
                                                  image.at[0x0A] == 0xFF && image.at[0x0F] == 0xFF);
}

/* Plans that are refused, in the order of the checks. */
static void test_scan_plan_refused(void)
{
    const uint32_t length = ADV7195_IMAGE_LENGTH, address = ADV7195_ADDRESS, range = ADV7195_OUT_OF_RANGE;
    bytes image, lent;
    numbers s;
    power_up(&image);
    fill_bytes(&lent, BEFORE_BYTE);
    fill_numbers(&s, -1);
    scan_plan("plan refusal 1, 39", &image, SCAN_IMAGE - 1, &s, SCAN_NUMBERS, ADDRESS, &lent, MOST, length, 0);
    scan_plan("plan refusal 1, before 2", &image, SCAN_IMAGE + 1, &s, 0, ADDRESS + 1, &lent, MOST, length, 0);
    scan_plan("plan refusal 2, odd", &image, SCAN_IMAGE, &s, SCAN_NUMBERS, ADDRESS + 1, &lent, MOST, address, 0);
    scan_plan("plan refusal 2, wide", &image, SCAN_IMAGE, &s, SCAN_NUMBERS, WIDE_ADDRESS, &lent, MOST, address, 0);
    scan_plan("plan refusal 2, before 3", &image, SCAN_IMAGE, &s, SCAN_NUMBERS - 1, 256, &lent, MOST, address, 0);
    scan_plan("plan refusal 3, 57", &image, SCAN_IMAGE, &s, SCAN_NUMBERS - 1, ADDRESS, &lent, MOST, range, 0);
    scan_plan("plan refusal 3, 59", &image, SCAN_IMAGE, &s, SCAN_NUMBERS + 1, ADDRESS, &lent, MOST, range, 0);
    scan_plan("plan refusal 3, field 1", &image, SCAN_IMAGE, &s, SCAN_NUMBERS, ADDRESS, &lent, MOST, range, 1);
    scan_plan("plan refusal 3, before 10", &image, SCAN_IMAGE, &s, SCAN_NUMBERS, ADDRESS, &lent, 0, range, 1);
    power_up_settings(&s);
    scan_plan("plan refusal 10, no room", &image, SCAN_IMAGE, &s, SCAN_NUMBERS, ADDRESS, &lent, 0,
              ADV7195_PLAN_TOO_SHORT, 0);
    scan_plan("plan at the highest address", &image, SCAN_IMAGE, &s, SCAN_NUMBERS, 254, &lent, 1, ADV7195_ACCEPTED, 0);
}

/* The field and the highest code of each number. */
typedef struct {
    uint8_t field;
    int32_t highest;
} code_range;
static const code_range code_ranges[SCAN_NUMBERS] = {
    {1, 2},   {2, 2},   {3, 1},   {5, 1},   {7, 1},   {8, 1},   {9, 1},         {10, 1},  {11, 1},  {12, 3},
    {13, 1},  {14, 4},  {15, 4},  {16, 1},  {17, 1},  {18, 1},  {21, 1},        {22, 1},  {23, 1},  {24, 1},
    {26, 1},  {28, 1},  {29, 1},  {30, 1},  {31, 1},  {32, 1},  {33, 1},        {34, 1},  {35, 255}, {36, 255},
    {37, 255}, {38, 255}, {39, 15}, {40, 15}, {41, 1048575}, {42, 255}, {42, 255}, {42, 255}, {42, 255}, {42, 255},
    {42, 255}, {42, 255}, {43, 255}, {43, 255}, {43, 255}, {43, 255}, {43, 255}, {43, 255}, {43, 255}, {44, 15},
    {45, 15}, {46, 15}, {47, 15}, {48, 15}, {49, 15}, {50, 255}, {51, 255},     {52, 255}};

/* Plans the power-up settings with one number replaced. */
static void scan_plan_with(const char *what, int place, int32_t value, uint32_t refusal, uint32_t field)
{
    bytes image, lent;
    numbers s;
    power_up(&image);
    power_up_settings(&s);
    s.at[place] = value;
    fill_bytes(&lent, BEFORE_BYTE);
    scan_plan(what, &image, SCAN_IMAGE, &s, SCAN_NUMBERS, ADDRESS, &lent, MOST, refusal, field);
}

/* Each number at the ends of its range and past them. Code 3 of the first two is reserved, any other is no code. */
static void test_scan_ranges(void)
{
    for (int place = 0; place < SCAN_NUMBERS; place++) {
        int32_t highest = code_ranges[place].highest;
        uint32_t field = code_ranges[place].field;
        uint32_t past = field <= 2 ? ADV7195_RESERVED : ADV7195_OUT_OF_RANGE;
        scan_plan_with("plan the lowest code", place, 0, ADV7195_ACCEPTED, 0);
        scan_plan_with("plan the highest code", place, highest, ADV7195_ACCEPTED, 0);
        scan_plan_with("plan refusal 3, below", place, -1, ADV7195_OUT_OF_RANGE, field);
        scan_plan_with("plan refusal past the highest code", place, highest + 1, past, field);
        scan_plan_with("plan refusal 3, further above", place, highest + 2, ADV7195_OUT_OF_RANGE, field);
        scan_plan_with("plan refusal 3, the least number", place, INT32_MIN, ADV7195_OUT_OF_RANGE, field);
        scan_plan_with("plan refusal 3, the greatest number", place, INT32_MAX, ADV7195_OUT_OF_RANGE, field);
    }
}

/* Where the numbers of a field over several registers go: the CGMS data, the curves, the gains. */
static void test_scan_placed(void)
{
    bytes image, lent;
    numbers s;
    power_up(&image);
    power_up_settings(&s);
    s.at[ADV7195_CGMS_DATA] = 0xA5C31;
    s.at[ADV7195_FILTER_GAIN_A] = 9, s.at[ADV7195_FILTER_GAIN_B] = 6;
    for (int i = 0; i < ADV7195_CURVE_BYTES; i++) {
        s.at[ADV7195_CURVE_A_BYTES + i] = 0x20 + i;
        s.at[ADV7195_CURVE_B_BYTES + i] = 0x30 + i;
    }
    fill_bytes(&lent, BEFORE_BYTE);
    adv7195_plan_answer answer = scan_plan("plan data and curves", &image, SCAN_IMAGE, &s, SCAN_NUMBERS, ADDRESS,
                                           &lent, MOST, ADV7195_ACCEPTED, 0);
    if (answer.length <= MOST)
        scan_play("play them", &image, SCAN_IMAGE, ADDRESS, ADDRESS, lent.at, answer.length, ADV7195_ACCEPTED, 1);
    check("C0 is the lowest bit of 11", image.at[0x11] == 0x31 && image.at[0x12] == 0x5C && image.at[0x13] == 0x0A);
    check("gain A is the lower half", image.at[0x10] == 0x69);
    check("curve A, then curve B", image.at[0x14] == 0x20 && image.at[0x1A] == 0x26 && image.at[0x1B] == 0x30 &&
                                       image.at[0x21] == 0x36);
}

/* Null with length 0, in every place. */
static void test_scan_null(void)
{
    static const uint8_t empty[] = {0x00};
    bytes image;
    numbers s;
    power_up(&image);
    power_up_settings(&s);
    check("plan, null image", adv7195_plan(NULL, 0, s.at, SCAN_NUMBERS, ADDRESS, image.at, 1).refusal == 1);
    check("plan, null settings", adv7195_plan(image.at, SCAN_IMAGE, NULL, 0, ADDRESS, NULL, 0).refusal == 3);
    check("plan, null plan", adv7195_plan(image.at, SCAN_IMAGE, s.at, SCAN_NUMBERS, ADDRESS, NULL, 0).refusal == 10);
    check("play, null image", adv7195_play(NULL, 0, ADDRESS, ADDRESS, empty, 1).refusal == 1);
    check("play, null plan", adv7195_play(image.at, SCAN_IMAGE, ADDRESS, ADDRESS, NULL, 0).refusal == 9);
    check("transaction, null plan", adv7195_transaction(NULL, 0, 0, image.at, 1).refusal == 9);
    check("transaction, null data", adv7195_transaction(empty, 1, 0, NULL, 0).refusal == 3);
    check("read, null image", adv7195_read(NULL, 0, s.at, SCAN_NUMBERS).refusal == 1);
    check("read, null settings", adv7195_read(image.at, SCAN_IMAGE, NULL, 0).refusal == 3);
}

/* The ADV7195. */
static void test_progressive(void)
{
    test_scan_worked();
    test_scan_longest();
    test_scan_plan_refused();
    test_scan_ranges();
    test_scan_placed();
    test_scan_order();
    test_scan_places();
    test_scan_play();
    test_scan_transaction();
    test_scan_read();
    test_scan_null();
}

#endif
