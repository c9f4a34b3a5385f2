/*
 * Tests of captions: planning, both players and reading back, each refusal and
 * their order, with guards around the lent memories.
 */
#ifndef CAPTIONS_H
#define CAPTIONS_H

#include "adv7194.h"
#include "lent.h"
#include "players.h"

/* The board's address, another, and ones that are none. */
#define BOARD 0x54u
#define OTHER_BOARD 0x56u
#define ODD_BOARD 0x55u
#define WIDE_BOARD 0x154u
/* The first register of captions, and how many there are. */
#define CAPTION_REGISTER 0x11
#define CAPTION_REGISTERS 4
/* One more than the last character, and the last one. */
#define PAST_CHARACTERS 128
#define LAST_CHARACTER 127

/* Characters: two nulls, H and I. */
static const int32_t null_pair[] = {0x00, 0x00}, hi_pair[] = {0x48, 0x49};
/* 000001 010011 000010 11001000 01001001 000000 */
static const uint8_t hi_plan[] = {0x05, 0x30, 0xB2, 0x12, 0x40};
/* 000001 010001 000010 10000000 10000000 000000 */
static const uint8_t null_plan[] = {0x05, 0x10, 0xA0, 0x20, 0x00};
/* 000010, 010001 000010 10000000 10000000, 010011 000010 11001000 01001001, 00 */
static const uint8_t both_plan[] = {0x09, 0x10, 0xA0, 0x20, 0x13, 0x0B, 0x21, 0x24};

/* Characters to lend, with guards around. */
static numbers lent_pair(const int32_t *pair, size_t length)
{
    numbers lent;
    fill_numbers(&lent, GUARD_NUMBER);
    if (length > 0)
        memcpy(lent.at, pair, length * sizeof pair[0]);
    return lent;
}

/* Plans captions and checks the answer, that inputs are kept, and that of the lent plan all but the packed bytes is. */
static void plan_captions(const char *what, const int32_t *extended, size_t extended_len, const int32_t *ordinary,
                          size_t ordinary_len, uint32_t address, size_t room, uint32_t refusal, uint32_t field,
                          const uint8_t *packed, uint32_t length)
{
    numbers first = lent_pair(extended, extended_len), second = lent_pair(ordinary, ordinary_len);
    numbers first_before = first, second_before = second;
    bytes lent, lent_after;
    fill_bytes(&lent, BEFORE_PLAN);
    lent_after = lent;
    if (length > 0)
        memcpy(lent_after.at, packed, length);
    adv7194_plan_answer answer = adv7194_plan_captions(first.at, extended_len, second.at, ordinary_len, address,
                                                       lent.at, room);
    uint32_t transactions = length == 0 ? 0 : length == sizeof both_plan ? 2 : 1;
    bool right = answer.refusal == refusal && answer.field == field && answer.length == length &&
                 answer.transactions == transactions && answer.bus_bytes == 4 * transactions;
    bool kept = memcmp(&first, &first_before, sizeof first) == 0 && memcmp(&second, &second_before, sizeof second) == 0;
    check(what, right && kept && memcmp(&lent, &lent_after, sizeof lent) == 0);
}

/* Plans captions that are refused with field 29. */
static void no_captions(const char *what, const int32_t *extended, size_t extended_len, const int32_t *ordinary,
                        size_t ordinary_len)
{
    plan_captions(what, extended, extended_len, ordinary, ordinary_len, BOARD, MOST, ADV7194_OUT_OF_RANGE,
                  ADV7194_FIELD_CAPTIONS, NULL, 0);
}

/* Planning captions. */
static void test_plan_captions(void)
{
    const int32_t past[] = {0, PAST_CHARACTERS}, below[] = {-1, 0}, last[] = {LAST_CHARACTER, LAST_CHARACTER};
    const int32_t three[] = {0, 0, 0}, wide[] = {0x148, 0x49};
    /* 000001 010011 000010 01111111 01111111 000000 */
    static const uint8_t last_plan[] = {0x05, 0x30, 0x9F, 0xDF, 0xC0};
    plan_captions("captions, the ordinary pair", NULL, 0, hi_pair, 2, BOARD, MOST, ADV7194_ACCEPTED, 0, hi_plan, 5);
    plan_captions("captions, the extended pair", null_pair, 2, NULL, 0, BOARD, MOST, ADV7194_ACCEPTED, 0, null_plan, 5);
    plan_captions("captions, both pairs", null_pair, 2, hi_pair, 2, BOARD, MOST, ADV7194_ACCEPTED, 0, both_plan, 8);
    plan_captions("captions, the last character", NULL, 0, last, 2, BOARD, MOST, ADV7194_ACCEPTED, 0, last_plan, 5);
    plan_captions("captions, just room for one", NULL, 0, hi_pair, 2, BOARD, 5, ADV7194_ACCEPTED, 0, hi_plan, 5);
    plan_captions("captions, just room for both", null_pair, 2, hi_pair, 2, BOARD, ADV7194_CAPTION_ROOM,
                  ADV7194_ACCEPTED, 0, both_plan, 8);
    plan_captions("captions, the lowest address", NULL, 0, hi_pair, 2, 0, MOST, ADV7194_ACCEPTED, 0, hi_plan, 5);
    plan_captions("captions, the highest address", NULL, 0, hi_pair, 2, 254, MOST, ADV7194_ACCEPTED, 0, hi_plan, 5);
    plan_captions("captions refusal 2, odd", NULL, 0, hi_pair, 2, ODD_BOARD, MOST, ADV7194_ADDRESS, 0, NULL, 0);
    plan_captions("captions refusal 2, wide", NULL, 0, hi_pair, 2, WIDE_BOARD, MOST, ADV7194_ADDRESS, 0, NULL, 0);
    plan_captions("captions refusal 2, before 3 and 10", NULL, 0, past, 2, ODD_BOARD, 0, ADV7194_ADDRESS, 0, NULL, 0);
    no_captions("captions refusal 3, neither pair", NULL, 0, NULL, 0);
    no_captions("captions refusal 3, extended 128", past, 2, hi_pair, 2);
    no_captions("captions refusal 3, ordinary 128", NULL, 0, past, 2);
    no_captions("captions refusal 3, extended -1", below, 2, NULL, 0);
    no_captions("captions refusal 3, ordinary -1", null_pair, 2, below, 2);
    no_captions("captions refusal 3, right in its lowest byte", NULL, 0, wide, 2);
    no_captions("captions refusal 3, one extended", null_pair, 1, hi_pair, 2);
    no_captions("captions refusal 3, one ordinary", null_pair, 2, hi_pair, 1);
    no_captions("captions refusal 3, three extended", three, 3, NULL, 0);
    no_captions("captions refusal 3, three ordinary", NULL, 0, three, 3);
    plan_captions("captions refusal 3, before 10", NULL, 0, past, 2, BOARD, 0, ADV7194_OUT_OF_RANGE,
                  ADV7194_FIELD_CAPTIONS, NULL, 0);
    plan_captions("captions refusal 10, short", NULL, 0, hi_pair, 2, BOARD, 4, ADV7194_PLAN_TOO_SHORT, 0, NULL, 0);
    plan_captions("captions refusal 10, both", null_pair, 2, hi_pair, 2, BOARD, 7, ADV7194_PLAN_TOO_SHORT, 0, NULL, 0);
    plan_captions("captions refusal 10, no room", NULL, 0, hi_pair, 2, BOARD, 0, ADV7194_PLAN_TOO_SHORT, 0, NULL, 0);
}

/* Plays captions, which the settings' player refuses. */
static void play_both(const char *what, const uint8_t *packed, size_t length, const uint8_t *held)
{
    bytes image, expected;
    fill_bytes(&image, 0xA5);
    expected = image;
    memcpy(expected.at + CAPTION_REGISTER, held, CAPTION_REGISTERS);
    play_by(adv7194_play, what, &image, ADV7194_REGISTERS, BOARD, BOARD, packed, length, ADV7194_PLAN_BYTES, 0);
    play_by(adv7194_play_captions, what, &image, ADV7194_REGISTERS, OTHER_BOARD, BOARD, packed, length,
            ADV7194_ACCEPTED, 0);
    play_by(adv7194_play_captions, what, &image, ADV7194_REGISTERS, BOARD, BOARD, packed, length, ADV7194_ACCEPTED, 1);
    check(what, memcmp(&image, &expected, sizeof image) == 0);
}

/* Plays what is no plan of captions. */
static void no_plan(const char *what, const uint8_t *packed, size_t length)
{
    bytes image;
    fill_bytes(&image, 0xA5);
    play_by(adv7194_play_captions, what, &image, ADV7194_REGISTERS, BOARD, BOARD, packed, length, ADV7194_PLAN_BYTES, 0);
    play_by(adv7194_play_captions, what, &image, ADV7194_REGISTERS, OTHER_BOARD, BOARD, packed, length,
            ADV7194_PLAN_BYTES, 0);
}

/* Playing captions. */
static void test_play_captions(void)
{
    static const uint8_t hi_held[] = {0xA5, 0xA5, 0xC8, 0x49}, null_held[] = {0x80, 0x80, 0xA5, 0xA5};
    static const uint8_t both_held[] = {0x80, 0x80, 0xC8, 0x49};
    /* even ones at 11, 12, 13 or 14 of both pairs */
    static const uint8_t evens[][sizeof both_plan] = {{0x09, 0x10, 0x80, 0x20, 0x13, 0x0B, 0x21, 0x24},
                                                      {0x09, 0x10, 0xA0, 0x00, 0x13, 0x0B, 0x21, 0x24},
                                                      {0x09, 0x10, 0xA0, 0x20, 0x13, 0x09, 0x21, 0x24},
                                                      {0x09, 0x10, 0xA0, 0x20, 0x13, 0x0B, 0x23, 0x24}};
    /* 13 before 11; four bytes at 11; one byte at 13; 48 at 13, whose ones are even; a bit of fill set; hue */
    static const uint8_t descending[] = {0x09, 0x30, 0xB2, 0x12, 0x51, 0x0A, 0x02, 0x00};
    static const uint8_t four[] = {0x05, 0x11, 0x20, 0x20, 0x32, 0x12, 0x40};
    static const uint8_t one[] = {0x05, 0x30, 0x72, 0x00};
    static const uint8_t even[] = {0x05, 0x30, 0x92, 0x12, 0x40};
    static const uint8_t filled[] = {0x05, 0x30, 0xB2, 0x12, 0x41};
    static const uint8_t hue[] = {0x06, 0x00, 0x65, 0xC0}, empty[] = {0x00};
    const size_t whole = ADV7194_REGISTERS;
    bytes image;
    fill_bytes(&image, 0xA5);
    play_both("play the ordinary pair", hi_plan, sizeof hi_plan, hi_held);
    play_both("play the extended pair", null_plan, sizeof null_plan, null_held);
    play_both("play both pairs", both_plan, sizeof both_plan, both_held);
    no_plan("play captions refusal 9, the empty plan", empty, sizeof empty);
    no_plan("play captions refusal 9, hue", hue, sizeof hue);
    no_plan("play captions refusal 9, 13 before 11", descending, sizeof descending);
    no_plan("play captions refusal 9, four at 11", four, sizeof four);
    no_plan("play captions refusal 9, one at 13", one, sizeof one);
    no_plan("play captions refusal 9, even ones", even, sizeof even);
    for (size_t place = 0; place < CAPTION_REGISTERS; place++)
        no_plan("play captions refusal 9, even ones in both pairs", evens[place], sizeof evens[place]);
    no_plan("play captions refusal 9, filled with a one", filled, sizeof filled);
    no_plan("play captions refusal 9, cut", hi_plan, sizeof hi_plan - 1);
    no_plan("play captions refusal 9, both cut", both_plan, sizeof both_plan - 1);
    no_plan("play captions refusal 9, no bytes", NULL, 0);
    player *by = adv7194_play_captions;
    play_by(by, "play captions refusal 1, 53", &image, whole - 1, BOARD, BOARD, hi_plan, 5, ADV7194_IMAGE_LENGTH, 0);
    play_by(by, "play captions refusal 1, before 2", &image, whole + 1, 1, BOARD, hi_plan, 5, ADV7194_IMAGE_LENGTH, 0);
    play_by(by, "play captions refusal 2, used", &image, whole, ODD_BOARD, BOARD, hi_plan, 5, ADV7194_ADDRESS, 0);
    play_by(by, "play captions refusal 2, own", &image, whole, BOARD, WIDE_BOARD, hi_plan, 5, ADV7194_ADDRESS, 0);
    play_by(by, "play captions refusal 2, before 9", &image, whole, ODD_BOARD, BOARD, empty, 1, ADV7194_ADDRESS, 0);
}

/* Reads a pair of an image with these bytes at 11 to 14, and checks the answer and that the image is kept. */
static void read_captions_known(const char *what, const uint8_t *held, size_t image_len, uint64_t known, uint32_t pair,
                                uint32_t refusal, uint32_t field, uint32_t first, uint32_t second)
{
    bytes image, before;
    fill_bytes(&image, 0x00);
    memcpy(image.at + CAPTION_REGISTER, held, CAPTION_REGISTERS);
    before = image;
    adv7194_captions_answer answer = adv7194_read_captions(image.at, image_len, known, pair);
    bool right = answer.refusal == refusal && answer.field == field && answer.first == first && answer.second == second;
    check(what, right && memcmp(&image, &before, sizeof image) == 0);
}

/* Reads a pair of an image known in full. */
static void read_captions(const char *what, const uint8_t *held, size_t image_len, uint32_t pair, uint32_t refusal,
                          uint32_t field, uint32_t first, uint32_t second)
{
    read_captions_known(what, held, image_len, ADV7194_ALL_KNOWN, pair, refusal, field, first, second);
}

/* Reading captions back. */
static void test_read_captions(void)
{
    static const uint8_t odd[] = {0x80, 0x7F, 0xC8, 0x49}, even[] = {0x80, 0x7F, 0xC8, 0xC9}, zeros[CAPTION_REGISTERS];
    const size_t whole = ADV7194_REGISTERS;
    const uint32_t range = ADV7194_OUT_OF_RANGE, reserved = ADV7194_RESERVED, field = ADV7194_FIELD_CAPTIONS;
    read_captions("read the extended pair", odd, whole, ADV7194_EXTENDED, ADV7194_ACCEPTED, 0, 0x00, 0x7F);
    read_captions("read the ordinary pair", odd, whole, ADV7194_ORDINARY, ADV7194_ACCEPTED, 0, 0x48, 0x49);
    read_captions("read the pair beside even ones", even, whole, ADV7194_EXTENDED, ADV7194_ACCEPTED, 0, 0x00, 0x7F);
    read_captions("read captions refusal 1, 53", odd, whole - 1, ADV7194_ORDINARY, ADV7194_IMAGE_LENGTH, 0, 0, 0);
    read_captions("read captions refusal 1, before 3", odd, whole + 1, 2, ADV7194_IMAGE_LENGTH, 0, 0, 0);
    read_captions("read captions refusal 3, pair 2", odd, whole, 2, range, field, 0, 0);
    read_captions("read captions refusal 3, pair 256", odd, whole, 256, range, field, 0, 0);
    read_captions("read captions refusal 3, before 4", zeros, whole, UINT32_MAX, range, field, 0, 0);
    read_captions("read captions refusal 4, extended", zeros, whole, ADV7194_EXTENDED, reserved, field, 0, 0);
    read_captions("read captions refusal 4, ordinary", even, whole, ADV7194_ORDINARY, reserved, field, 0, 0);
}

/* Captions of boards known in part: what is sent is known; what is read must be, after 3 and before 4. */
static void test_captions_known(void)
{
    static const uint8_t odd[] = {0x80, 0x7F, 0xC8, 0x49}, zeros[CAPTION_REGISTERS];
    const uint32_t range = ADV7194_OUT_OF_RANGE, unknown = ADV7194_REGISTER_UNKNOWN, field = ADV7194_FIELD_CAPTIONS;
    const size_t whole = ADV7194_REGISTERS;
    const uint64_t flags[] = {0, ADV7194_ALL_KNOWN, ~ADV7194_ALL_KNOWN, FLAG(0x13)};
    bytes image;
    fill_bytes(&image, 0xA5);
    for (size_t i = 0; i < sizeof flags / sizeof flags[0]; i++) {
        player *by = adv7194_play_captions;
        play_known(by, "play captions, known by it", &image, whole, flags[i], BOARD, BOARD, both_plan, sizeof both_plan,
                   ADV7194_ACCEPTED, 1, FLAG(0x11) | FLAG(0x12) | FLAG(0x13) | FLAG(0x14));
        play_known(by, "play one pair, known by it", &image, whole, flags[i], BOARD, BOARD, hi_plan, sizeof hi_plan,
                   ADV7194_ACCEPTED, 1, FLAG(0x13) | FLAG(0x14));
        play_known(by, "play captions elsewhere, nothing known", &image, whole, flags[i], OTHER_BOARD, BOARD, both_plan,
                   sizeof both_plan, ADV7194_ACCEPTED, 0, 0);
        play_known(by, "play captions refused, nothing known", &image, whole, flags[i], BOARD, BOARD, both_plan,
                   sizeof both_plan - 1, ADV7194_PLAN_BYTES, 0, 0);
    }
    for (uint32_t pair = ADV7194_EXTENDED; pair <= ADV7194_ORDINARY; pair++) {
        uint64_t first = FLAG(CAPTION_REGISTER + 2 * pair), second = first << 1;
        read_captions_known("read captions refusal 11, first", odd, whole, ~first, pair, unknown, field, 0, 0);
        read_captions_known("read captions refusal 11, second", odd, whole, ~second, pair, unknown, field, 0, 0);
        read_captions_known("read captions refusal 11, before 4", zeros, whole, ~second, pair, unknown, field, 0, 0);
        read_captions_known("read captions, no other known", odd, whole, first | second, pair, ADV7194_ACCEPTED, 0,
                            odd[2 * pair] & LAST_CHARACTER, odd[2 * pair + 1] & LAST_CHARACTER);
    }
    read_captions_known("read captions refusal 3, before 11", odd, whole, 0, 2, range, field, 0, 0);
    read_captions_known("read captions refusal 1, before 11", odd, whole - 1, 0, 0, ADV7194_IMAGE_LENGTH, 0, 0, 0);
}

/* Captions; null with length 0, in every place. */
static void test_captions(void)
{
    bytes lent;
    fill_bytes(&lent, BEFORE_PLAN);
    test_plan_captions();
    test_play_captions();
    test_read_captions();
    test_captions_known();
    check("captions, null extended", adv7194_plan_captions(NULL, 0, hi_pair, 2, BOARD, lent.at, MOST).refusal == 0);
    check("captions, null ordinary", adv7194_plan_captions(hi_pair, 2, NULL, 0, BOARD, lent.at, MOST).refusal == 0);
    check("captions, the same twice", adv7194_plan_captions(hi_pair, 2, hi_pair, 2, BOARD, lent.at, MOST).length == 8);
    check("captions, null pairs", adv7194_plan_captions(NULL, 0, NULL, 0, BOARD, lent.at, MOST).refusal == 3);
    check("captions, null plan", adv7194_plan_captions(hi_pair, 2, NULL, 0, BOARD, NULL, 0).refusal == 10);
    check("play captions, null image", adv7194_play_captions(NULL, 0, 0, BOARD, BOARD, hi_plan, 5).refusal == 1);
    check("play captions, null plan", adv7194_play_captions(lent.at, 54, 0, BOARD, BOARD, NULL, 0).refusal == 9);
    check("read captions, null image", adv7194_read_captions(NULL, 0, 0, ADV7194_EXTENDED).refusal == 1);
}

#endif
