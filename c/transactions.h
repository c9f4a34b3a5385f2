/*
 * Tests of adv7194_transaction: each answer, each refusal and their order, with
 * guards around the lent memories.
 */
#ifndef TRANSACTIONS_H
#define TRANSACTIONS_H

#include "adv7194.h"
#include "lent.h"

/* What lent plan and data hold before. */
#define BEFORE_DATA 0x5A

/* Asks for a transaction and checks the answer, that the plan is kept, and that data past the transaction's is. */
static void transaction(const char *what, const uint8_t *packed, size_t packed_len, uint32_t index, size_t data_len,
                        uint32_t refusal, uint32_t subaddress, uint32_t count, const uint8_t *wanted)
{
    bytes lent, lent_before, data, data_before;
    fill_bytes(&lent, BEFORE_DATA);
    fill_bytes(&data, BEFORE_DATA);
    if (packed_len > 0)
        memcpy(lent.at, packed, packed_len);
    lent_before = lent;
    data_before = data;
    if (count > 0)
        memcpy(data_before.at, wanted, count);
    adv7194_transaction_answer answer = adv7194_transaction(lent.at, packed_len, index, data.at, data_len);
    bool right = answer.refusal == refusal && answer.field == 0 && answer.subaddress == subaddress && answer.count == count;
    bool kept = memcmp(&lent, &lent_before, sizeof lent) == 0 && memcmp(&data, &data_before, sizeof data) == 0;
    check(what, right && kept);
}

/* Transactions by their index. */
static void test_transaction(void)
{
    static const uint8_t hue[] = {0x06, 0x00, 0x65, 0xC0};
    static const uint8_t filled[] = {0x06, 0x00, 0x65, 0xC1};
    static const uint8_t read_only[] = {0x07, 0x40, 0x65, 0xC0};
    static const uint8_t past_35[] = {0x07, 0xF0, 0x65, 0xC0};
    /* 000010, 000001 000001 01000111, 001100 000010 00011111 01111100, 00 */
    static const uint8_t two[] = {0x08, 0x10, 0x51, 0xCC, 0x08, 0x7D, 0xF0};
    /* the second starts inside the first: 000010, 000001 000010 AA BB, 000010 000001 CC, 00 */
    static const uint8_t overlap[] = {0x08, 0x10, 0xAA, 0xAE, 0xC2, 0x07, 0x30};
    static const uint8_t descending[] = {0x08, 0x20, 0x6A, 0x81, 0x06, 0xA8};
    static const uint8_t no_data[] = {0x06, 0x00, 0x00};
    static const uint8_t empty[] = {0x00};
    static const uint8_t one_47[] = {0x47}, two_1f[] = {0x1F, 0x7C}, hue_97[] = {0x97};
    transaction("transaction 0 of one", hue, 4, 0, MOST, ADV7194_ACCEPTED, 0x20, 1, hue_97);
    transaction("transaction 0 of two", two, 7, 0, MOST, ADV7194_ACCEPTED, 0x01, 1, one_47);
    transaction("transaction 1 of two", two, 7, 1, MOST, ADV7194_ACCEPTED, 0x0C, 2, two_1f);
    transaction("transaction with just room", two, 7, 1, 2, ADV7194_ACCEPTED, 0x0C, 2, two_1f);
    transaction("transaction to 34: bus rules aren't judged", read_only, 4, 0, MOST, ADV7194_ACCEPTED, 0x34, 1, hue_97);
    transaction("transaction past 35: nor are they here", past_35, 4, 0, MOST, ADV7194_ACCEPTED, 0x3F, 1, hue_97);
    transaction("transaction refusal 3, past the last", two, 7, 2, MOST, ADV7194_OUT_OF_RANGE, 0, 0, NULL);
    transaction("transaction refusal 3, of none", empty, 1, 0, MOST, ADV7194_OUT_OF_RANGE, 0, 0, NULL);
    transaction("transaction refusal 3, 256", two, 7, 256, MOST, ADV7194_OUT_OF_RANGE, 0, 0, NULL);
    transaction("transaction refusal 3, 65536", two, 7, 65536, MOST, ADV7194_OUT_OF_RANGE, 0, 0, NULL);
    transaction("transaction refusal 3, the last index", two, 7, UINT32_MAX, MOST, ADV7194_OUT_OF_RANGE, 0, 0, NULL);
    transaction("transaction refusal 3, before 10", two, 7, 2, 0, ADV7194_OUT_OF_RANGE, 0, 0, NULL);
    transaction("transaction refusal 10, short", two, 7, 1, 1, ADV7194_PLAN_TOO_SHORT, 0, 0, NULL);
    transaction("transaction refusal 10, no room", two, 7, 0, 0, ADV7194_PLAN_TOO_SHORT, 0, 0, NULL);
    transaction("transaction refusal 9, cut", two, 6, 0, MOST, ADV7194_PLAN_BYTES, 0, 0, NULL);
    transaction("transaction refusal 9, before 3 and 10", two, 6, 9, 0, ADV7194_PLAN_BYTES, 0, 0, NULL);
    transaction("transaction refusal 9, filled with a one", filled, 4, 0, MOST, ADV7194_PLAN_BYTES, 0, 0, NULL);
    transaction("transaction refusal 9, overlapping", overlap, 7, 0, MOST, ADV7194_PLAN_BYTES, 0, 0, NULL);
    transaction("transaction refusal 9, descending", descending, 6, 0, MOST, ADV7194_PLAN_BYTES, 0, 0, NULL);
    transaction("transaction refusal 9, no data", no_data, 3, 0, MOST, ADV7194_PLAN_BYTES, 0, 0, NULL);
    transaction("transaction refusal 9, no bytes", NULL, 0, 0, MOST, ADV7194_PLAN_BYTES, 0, 0, NULL);
}

#endif
