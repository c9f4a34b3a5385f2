/*
 * Tests of playing plans on the ADV7195, of walking them and of reading images:
 * the order of the 3E, the registers that take no data, each refusal and their
 * order, with guards around the lent memories.
 */
#ifndef PROGRESSIVE_PLAYS_H
#define PROGRESSIVE_PLAYS_H

#include "adv7195.h"
#include "lent.h"
#include "progressive_calls.h"

/* 000010, 001001 000001 3E, 000011 000001 78, 00 */
static const uint8_t prepared_flip[] = {0x08, 0x90, 0x4F, 0x83, 0x05, 0xE0};
/* 000001, 000011 000001 78, 000000 */
static const uint8_t flip_alone[] = {0x04, 0x30, 0x5E, 0x00};

/* Plays on the power-up image with 09 at 3E, and on its own address. */
static void scan_play_held(const char *what, const uint8_t *packed, size_t packed_len, uint32_t refusal)
{
    bytes image;
    power_up(&image);
    image.at[0x09] = 0x3E;
    scan_play(what, &image, SCAN_IMAGE, ADDRESS, ADDRESS, packed, packed_len, refusal, refusal == ADV7195_ACCEPTED);
}

/* The order of the 3E, on an image that holds 3E in 09 all along. */
static void test_scan_order(void)
{
    /* one transaction over 03 to 09, which ends in the 3E */
    static const uint8_t itself[] = {0x04, 0x31, 0xDE, 0x00, 0x00, 0x28, 0x20, 0x20, 0x0F, 0x80};
    /* 09 3E, 09 00, 03 78: 09 touched since */
    static const uint8_t touched[] = {0x0C, 0x90, 0x4F, 0x89, 0x04, 0x00, 0x30, 0x5E, 0x00};
    /* 09 00, 09 3E, 03 78 */
    static const uint8_t again[] = {0x0C, 0x90, 0x40, 0x09, 0x04, 0xF8, 0x30, 0x5E, 0x00};
    /* 03 78, 09 3E: too late */
    static const uint8_t late[] = {0x08, 0x30, 0x5E, 0x09, 0x04, 0xF8};
    /* 09 3E, 03 78, 03 38: two flips after one 3E */
    static const uint8_t twice[] = {0x0C, 0x90, 0x4F, 0x83, 0x05, 0xE0, 0x30, 0x4E, 0x00};
    /* 09 3E, 03 78, 09 00, 03 38: the second flip stands alone, though the image ends as it began */
    static const uint8_t back[] = {0x10, 0x90, 0x4F, 0x83, 0x05, 0xE0, 0x90, 0x40, 0x03, 0x04, 0xE0};
    /* 03 18: no flip */
    static const uint8_t no_flip[] = {0x04, 0x30, 0x46, 0x00};
    const uint32_t wrong = ADV7195_PLAN_BYTES;
    scan_play_held("play the 3E and the flip", prepared_flip, sizeof prepared_flip, ADV7195_ACCEPTED);
    scan_play_held("play refusal 9, no 3E though 09 holds it", flip_alone, sizeof flip_alone, wrong);
    scan_play_held("play refusal 9, the flip brings its own 3E", itself, sizeof itself, wrong);
    scan_play_held("play refusal 9, 09 touched since", touched, sizeof touched, wrong);
    scan_play_held("play the 3E after another byte", again, sizeof again, ADV7195_ACCEPTED);
    scan_play_held("play refusal 9, the 3E too late", late, sizeof late, wrong);
    scan_play_held("play two flips after one 3E", twice, sizeof twice, ADV7195_ACCEPTED);
    scan_play_held("play refusal 9, the second flip alone", back, sizeof back, wrong);
    scan_play_held("play without a flip", no_flip, sizeof no_flip, ADV7195_ACCEPTED);
}

/* Which registers take data; order and overlap. */
static void test_scan_places(void)
{
    static const uint8_t at_0a[] = {0x04, 0xA0, 0x5E, 0x00}, at_0f[] = {0x04, 0xF0, 0x5E, 0x00};
    static const uint8_t at_10[] = {0x05, 0x00, 0x5E, 0x00}, at_27[] = {0x06, 0x70, 0x5E, 0x00};
    static const uint8_t at_28[] = {0x06, 0x80, 0x5E, 0x00}, at_3f[] = {0x07, 0xF0, 0x5E, 0x00};
    /* 000001, 001001 000010 3E 00, 000000; and 000001, 100111 000010 00 00, 000000 */
    static const uint8_t into_0a[] = {0x04, 0x90, 0x8F, 0x80, 0x00}, past_27[] = {0x06, 0x70, 0x80, 0x00, 0x00};
    /* 000010, 000110 000010 AA BB, 000111 000001 CC, 00: the second inside the first */
    static const uint8_t overlap[] = {0x08, 0x60, 0xAA, 0xAE, 0xC7, 0x07, 0x30};
    const uint32_t wrong = ADV7195_PLAN_BYTES;
    bytes image;
    scan_play_held("play refusal 9, 0A", at_0a, sizeof at_0a, wrong);
    scan_play_held("play refusal 9, 0F", at_0f, sizeof at_0f, wrong);
    scan_play_held("play refusal 9, from 09 into 0A", into_0a, sizeof into_0a, wrong);
    scan_play_held("play 10", at_10, sizeof at_10, ADV7195_ACCEPTED);
    scan_play_held("play 27", at_27, sizeof at_27, ADV7195_ACCEPTED);
    scan_play_held("play refusal 9, 28", at_28, sizeof at_28, wrong);
    scan_play_held("play refusal 9, from 27 into 28", past_27, sizeof past_27, wrong);
    scan_play_held("play refusal 9, 3F", at_3f, sizeof at_3f, wrong);
    power_up(&image);
    scan_play("play an overlap", &image, SCAN_IMAGE, ADDRESS, ADDRESS, overlap, sizeof overlap, ADV7195_ACCEPTED, 1);
    check("the later byte stays", image.at[0x06] == 0xAA && image.at[0x07] == 0xCC && image.at[0x08] == 0x80);
}

/* Playing: addresses, and the order of the checks. */
static void test_scan_play(void)
{
    static const uint8_t filled[] = {0x04, 0x30, 0x46, 0x01}, longer[] = {0x04, 0x30, 0x46, 0x00, 0x00};
    static const uint8_t no_data[] = {0x04, 0x30, 0x00}, empty[] = {0x00};
    const uint8_t *flip = prepared_flip;
    const size_t n = sizeof prepared_flip;
    const uint32_t wrong = ADV7195_PLAN_BYTES, ours = ADDRESS, other = OTHER_ADDRESS;
    bytes image;
    power_up(&image);
    scan_play("play refusal 1, 39", &image, SCAN_IMAGE - 1, ours, ours, flip, n, ADV7195_IMAGE_LENGTH, 0);
    scan_play("play refusal 1, before 2", &image, SCAN_IMAGE + 1, 1, 1, flip, n, ADV7195_IMAGE_LENGTH, 0);
    scan_play("play refusal 2, used", &image, SCAN_IMAGE, ours + 1, ours, flip, n, ADV7195_ADDRESS, 0);
    scan_play("play refusal 2, own", &image, SCAN_IMAGE, ours, WIDE_ADDRESS, flip, n, ADV7195_ADDRESS, 0);
    scan_play("play refusal 2, before 9", &image, SCAN_IMAGE, WIDE_ADDRESS, ours, flip, 0, ADV7195_ADDRESS, 0);
    scan_play("play refusal 9, cut", &image, SCAN_IMAGE, ours, ours, flip, n - 1, wrong, 0);
    scan_play("play refusal 9, extended", &image, SCAN_IMAGE, ours, ours, longer, sizeof longer, wrong, 0);
    scan_play("play refusal 9, filled with a one", &image, SCAN_IMAGE, ours, ours, filled, sizeof filled, wrong, 0);
    scan_play("play refusal 9, no data", &image, SCAN_IMAGE, ours, ours, no_data, sizeof no_data, wrong, 0);
    scan_play("play refusal 9, no bytes", &image, SCAN_IMAGE, ours, ours, NULL, 0, wrong, 0);
    scan_play("play refusal 9, no 3E elsewhere", &image, SCAN_IMAGE, other, ours, flip_alone, sizeof flip_alone, wrong, 0);
    scan_play("play elsewhere", &image, SCAN_IMAGE, other, ours, flip, n, ADV7195_ACCEPTED, 0);
    scan_play("play nothing elsewhere", &image, SCAN_IMAGE, other, ours, empty, 1, ADV7195_ACCEPTED, 1);
    check("nothing is stored", image.at[0x03] == 0x38 && image.at[0x09] == 0x00);
    scan_play("play at its address", &image, SCAN_IMAGE, ours, ours, flip, n, ADV7195_ACCEPTED, 1);
    check("both are stored", image.at[0x03] == 0x78 && image.at[0x09] == 0x3E);
}

/* Transactions by their index, in the plan's own order. */
static void test_scan_transaction(void)
{
    static const uint8_t data_3e[] = {0x3E}, data_78[] = {0x78}, empty[] = {0x00};
    static const uint8_t overlap[] = {0x08, 0x60, 0xAA, 0xAE, 0xC7, 0x07, 0x30}, data_two[] = {0xAA, 0xBB};
    const uint8_t *flip = prepared_flip;
    const size_t n = sizeof prepared_flip;
    const uint32_t range = ADV7195_OUT_OF_RANGE, room = ADV7195_PLAN_TOO_SHORT, wrong = ADV7195_PLAN_BYTES;
    scan_transaction("transaction 0", flip, n, 0, MOST, ADV7195_ACCEPTED, 0x09, 1, data_3e);
    scan_transaction("transaction 1, below it", flip, n, 1, MOST, ADV7195_ACCEPTED, 0x03, 1, data_78);
    scan_transaction("transaction, order not judged", flip_alone, 4, 0, MOST, ADV7195_ACCEPTED, 0x03, 1, data_78);
    scan_transaction("transaction, overlapped", overlap, 7, 0, 2, ADV7195_ACCEPTED, 0x06, 2, data_two);
    scan_transaction("transaction refusal 3, past the last", flip, n, 2, MOST, range, 0, 0, NULL);
    scan_transaction("transaction refusal 3, 256", flip, n, 256, MOST, range, 0, 0, NULL);
    scan_transaction("transaction refusal 3, before 10", flip, n, UINT32_MAX, 0, range, 0, 0, NULL);
    scan_transaction("transaction refusal 3, of none", empty, 1, 0, MOST, range, 0, 0, NULL);
    scan_transaction("transaction refusal 10, no room", flip, n, 0, 0, room, 0, 0, NULL);
    scan_transaction("transaction refusal 10, short", overlap, 7, 0, 1, room, 0, 0, NULL);
    scan_transaction("transaction refusal 9, cut", flip, n - 1, 0, MOST, wrong, 0, 0, NULL);
    scan_transaction("transaction refusal 9, before 3 and 10", flip, n - 1, 9, 0, wrong, 0, 0, NULL);
    scan_transaction("transaction refusal 9, no bytes", NULL, 0, 0, MOST, wrong, 0, 0, NULL);
}

/* Reads the power-up image with one register replaced. */
static void scan_read_with(const char *what, int reg, uint8_t value, uint32_t refusal, uint32_t field)
{
    bytes image;
    numbers settings;
    power_up(&image);
    image.at[reg] = value;
    fill_numbers(&settings, BEFORE_NUMBER);
    scan_read(what, &image, SCAN_IMAGE, &settings, SCAN_NUMBERS, refusal, field);
}

/* Reading: must-be-zero bits, reserved codes, delays; what is no fault; the order of the checks. */
static void test_scan_read(void)
{
    const uint32_t reserved = ADV7195_RESERVED, range = ADV7195_OUT_OF_RANGE;
    bytes image;
    numbers settings, wanted;
    power_up(&image);
    power_up_settings(&wanted);
    fill_numbers(&settings, BEFORE_NUMBER);
    scan_read("read refusal 1, 39", &image, SCAN_IMAGE - 1, &settings, SCAN_NUMBERS - 1, ADV7195_IMAGE_LENGTH, 0);
    scan_read("read refusal 1, 41", &image, SCAN_IMAGE + 1, &settings, SCAN_NUMBERS, ADV7195_IMAGE_LENGTH, 0);
    scan_read("read refusal 3, 57", &image, SCAN_IMAGE, &settings, SCAN_NUMBERS - 1, range, 0);
    scan_read("read refusal 3, 59", &image, SCAN_IMAGE, &settings, SCAN_NUMBERS + 1, range, 0);
    scan_read("read the power-up image", &image, SCAN_IMAGE, &settings, SCAN_NUMBERS, ADV7195_ACCEPTED, 0);
    check("as it is set", memcmp(settings.at, wanted.at, SCAN_NUMBERS * sizeof wanted.at[0]) == 0);
    scan_read_with("read refusal 4, output standard 3", 0x00, 0x03, reserved, 1);
    scan_read_with("read refusal 4, input control 3", 0x00, 0x0C, reserved, 2);
    scan_read_with("read refusal 4, MR05", 0x00, 0x20, reserved, 4);
    scan_read_with("read refusal 4, MR07", 0x00, 0x80, reserved, 6);
    scan_read_with("read refusal 4, the lowest field", 0x00, 0xEF, reserved, 1);
    scan_read_with("read a Y delay of 4", 0x02, 0x04, ADV7195_ACCEPTED, 0);
    scan_read_with("read refusal 3, Y delay 5", 0x02, 0x05, range, 14);
    scan_read_with("read refusal 3, Y delay 7", 0x02, 0x3F, range, 14);
    scan_read_with("read a colour delay of 4", 0x02, 0x20, ADV7195_ACCEPTED, 0);
    scan_read_with("read refusal 3, colour delay 5", 0x02, 0x28, range, 15);
    scan_read_with("read refusal 4, MR31", 0x03, 0x02, reserved, 19);
    scan_read_with("read refusal 4, MR32", 0x03, 0x04, reserved, 20);
    scan_read_with("read refusal 4, MR37", 0x03, 0x80, reserved, 25);
    scan_read_with("read bits outside all fields of 04", 0x04, 0xFE, ADV7195_ACCEPTED, 0);
    scan_read_with("read refusal 4, MR50", 0x05, 0x01, reserved, 27);
    scan_read_with("read any byte of 0A", 0x0A, 0xFF, ADV7195_ACCEPTED, 0);
    scan_read_with("read bits outside all fields of 13", 0x13, 0xF0, ADV7195_ACCEPTED, 0);
    scan_read_with("read any threshold", 0x27, 0xFF, ADV7195_ACCEPTED, 0);
}

#endif
