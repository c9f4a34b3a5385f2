/*
 * Tests of the limit on a transaction's data: what is refused and in which order,
 * the longest packed plans, and that every transaction keeps it.
 */
#ifndef LIMITS_H
#define LIMITS_H

#include "adv7194.h"
#include "calls.h"
#include "lent.h"

/* The least limit. */
#define LEAST_LIMIT 4u
/* Above 54, and right in its lowest byte. */
#define WIDE_LIMIT 0x104u

/* The house setting with CGMS, and an image whose every register it needs. */
static void most_needed(bytes *image, numbers *settings)
{
    fill_bytes(image, 0xFF);
    house(settings);
    settings->at[ADV7194_SIGNALLING] = ADV7194_CGMS;
    settings->at[ADV7194_PAYLOAD] = 4660;
    settings->at[ADV7194_ODD] = settings->at[ADV7194_EVEN] = 1;
}

/* Plans where most is needed, with this limit and room. */
static adv7194_plan_answer plan_most(const char *what, uint32_t limit, size_t room, bytes *lent, uint32_t refusal)
{
    bytes image;
    numbers settings;
    most_needed(&image, &settings);
    fill_bytes(lent, BEFORE_BYTE);
    return plan_limited(what, &image, IMAGE, ADV7194_ALL_KNOWN, &settings, NUMBERS, ADDRESS, limit, lent, room,
                        refusal, 0);
}

/* Whether no transaction of a packed plan has more data than the limit. */
static bool keeps_limit(const bytes *lent, adv7194_plan_answer answer, uint32_t limit)
{
    uint8_t data[ADV7194_DATA_ROOM];
    for (uint32_t index = 0; index < answer.transactions; index++) {
        adv7194_transaction_answer next = adv7194_transaction(lent->at, answer.length, index, data, sizeof data);
        if (next.refusal != ADV7194_ACCEPTED || next.count > limit)
            return false;
    }
    return true;
}

/* Every limit up to past the last: refused, or kept. */
static void test_every_limit(void)
{
    bytes lent;
    for (uint32_t limit = 0; limit <= ADV7194_NO_LIMIT + 6; limit++) {
        bool right = LEAST_LIMIT <= limit && limit <= ADV7194_NO_LIMIT;
        adv7194_plan_answer answer = plan_most("plan with each limit", limit, ADV7194_PLAN_ROOM, &lent,
                                               right ? ADV7194_ACCEPTED : ADV7194_OUT_OF_RANGE);
        check("plan keeps the limit", keeps_limit(&lent, answer, limit));
    }
    plan_most("plan refusal 3, a wide limit", WIDE_LIMIT, MOST, &lent, ADV7194_OUT_OF_RANGE);
    plan_most("plan refusal 3, the widest limit", UINT32_MAX, MOST, &lent, ADV7194_OUT_OF_RANGE);
}

/* The longest packed plans, with one byte of room less, and with just room. */
static void test_longest(void)
{
    bytes lent;
    adv7194_plan_answer answer;
    plan_most("plan refusal 10, 52 bytes with limit 4", LEAST_LIMIT, 52, &lent, ADV7194_PLAN_TOO_SHORT);
    answer = plan_most("plan in 53 bytes with limit 4", LEAST_LIMIT, ADV7194_PLAN_ROOM, &lent, ADV7194_ACCEPTED);
    check("11 transactions, 57 bus bytes", answer.length == ADV7194_PLAN_ROOM && answer.transactions == 11 &&
                                               answer.bus_bytes == 57);
    plan_most("plan refusal 10, 43 bytes with limit 54", ADV7194_NO_LIMIT, 43, &lent, ADV7194_PLAN_TOO_SHORT);
    answer = plan_most("plan in 44 bytes with limit 54", ADV7194_NO_LIMIT, ADV7194_PLAN_ROOM_NO_LIMIT, &lent,
                       ADV7194_ACCEPTED);
    check("3 transactions, 44 bus bytes", answer.length == ADV7194_PLAN_ROOM_NO_LIMIT && answer.transactions == 3 &&
                                              answer.bus_bytes == 44);
}

/* A limit that is wrong, after 1 and 2 and before all else. */
static void test_limit_order(bytes *image)
{
    static const uint32_t limits[] = {LEAST_LIMIT - 1, ADV7194_NO_LIMIT + 1};
    const uint64_t all = ADV7194_ALL_KNOWN;
    const uint32_t range = ADV7194_OUT_OF_RANGE;
    for (size_t i = 0; i < sizeof limits / sizeof limits[0]; i++) {
        bytes lent;
        numbers s;
        fill_bytes(&lent, BEFORE_BYTE);
        house(&s);
        plan_limited("plan refusal 1, before the limit", image, IMAGE - 1, all, &s, NUMBERS, ADDRESS, limits[i], &lent,
                     MOST, ADV7194_IMAGE_LENGTH, 0);
        plan_limited("plan refusal 2, before the limit", image, IMAGE, all, &s, NUMBERS, ADDRESS + 1, limits[i], &lent,
                     MOST, ADV7194_ADDRESS, 0);
        plan_limited("plan refusal 3, limit", image, IMAGE, all, &s, NUMBERS, ADDRESS, limits[i], &lent, MOST, range, 0);
        plan_limited("plan refusal 3, limit and 48", image, IMAGE, all, &s, NUMBERS - 1, ADDRESS, limits[i], &lent, MOST,
                     range, 0);
        plan_limited("plan refusal 3, limit before 11", image, IMAGE, 0, &s, NUMBERS, ADDRESS, limits[i], &lent, MOST,
                     range, 0);
        plan_limited("plan refusal 3, limit before 10", image, IMAGE, all, &s, NUMBERS, ADDRESS, limits[i], &lent, 0,
                     range, 0);
        s.at[ADV7194_STANDARD] = 2;
        plan_limited("plan refusal 3, limit before a field", image, IMAGE, all, &s, NUMBERS, ADDRESS, limits[i], &lent,
                     MOST, range, 0);
    }
}

/* Which of the lists that cost the same: the shorter transaction first. */
static void test_ties(const bytes *image)
{
    /* 000010, 011101 000010 10000000 10000000, 011111 000100 10000000 10000000 00000000 00000110, 0000 */
    static const uint8_t two[] = {0x09, 0xD0, 0xA0, 0x20, 0x1F, 0x12, 0x02, 0x00, 0x00, 0x18};
    bytes other = *image, lent;
    numbers settings;
    for (int reg = 0x1D; reg <= 0x22; reg++)
        other.at[reg] ^= 1;
    fill_bytes(&lent, BEFORE_BYTE);
    house(&settings);
    adv7194_plan_answer answer = plan_limited("plan 1D to 22 with limit 4", &other, IMAGE, ADV7194_ALL_KNOWN, &settings,
                                              NUMBERS, ADDRESS, LEAST_LIMIT, &lent, MOST, ADV7194_ACCEPTED, 0);
    check("two registers, then four", answer.length == sizeof two && answer.transactions == 2 &&
                                          answer.bus_bytes == 10 && memcmp(lent.at, two, sizeof two) == 0);
}

/* Limits, with an image of the house setting. */
static void test_limits(bytes *image)
{
    test_every_limit();
    test_longest();
    test_limit_order(image);
    test_ties(image);
}

#endif
