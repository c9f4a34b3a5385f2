/*
 * Planning, playing, reading and walking plans of the ADV7195, with guards around
 * every lent memory.
 */
#ifndef PROGRESSIVE_CALLS_H
#define PROGRESSIVE_CALLS_H

#include "adv7195.h"
#include "calls.h"
#include "lent.h"

/* The right lengths. */
#define SCAN_IMAGE ADV7195_REGISTERS
#define SCAN_NUMBERS ADV7195_SETTINGS

/* The image after power-up (Table XI of the data sheet; 00 where it lists nothing). */
static void power_up(bytes *image)
{
    static const uint8_t gains_and_thresholds[] = {0xAC, 0x9A, 0x88, 0x28, 0x3F, 0x64};
    fill_bytes(image, 0);
    image->at[0x03] = 0x38;
    image->at[0x06] = 0xA0, image->at[0x07] = 0x80, image->at[0x08] = 0x80;
    memcpy(image->at + 0x22, gains_and_thresholds, sizeof gains_and_thresholds);
}

/* What that image is set to: written here, not read, so that reading is held to it. */
static void power_up_settings(numbers *s)
{
    static const uint8_t gains_and_thresholds[] = {0xC, 0xA, 0xA, 0x9, 0x8, 0x8, 0x28, 0x3F, 0x64};
    fill_numbers(s, 0);
    s->at[ADV7195_DAC_A] = s->at[ADV7195_DAC_B] = s->at[ADV7195_DAC_C] = 1;
    s->at[ADV7195_COLOUR_Y] = 0xA0;
    s->at[ADV7195_COLOUR_CR] = s->at[ADV7195_COLOUR_CB] = 0x80;
    for (size_t i = 0; i < sizeof gains_and_thresholds; i++)
        s->at[ADV7195_ADAPTIVE_GAIN_1_A + i] = gains_and_thresholds[i];
}

/* Plans and checks the answer, that inputs are kept, and that after a refusal all is; what lies past the packed plan
 * always is. */
static adv7195_plan_answer scan_plan(const char *what, bytes *image, size_t image_len, numbers *settings,
                                     size_t settings_len, uint32_t address, bytes *lent, size_t lent_len,
                                     uint32_t refusal, uint32_t field)
{
    bytes image_before = *image, lent_before = *lent;
    numbers settings_before = *settings;
    adv7195_plan_answer answer =
        adv7195_plan(image->at, image_len, settings->at, settings_len, address, lent->at, lent_len);
    bool right = answer.refusal == refusal && answer.field == field && answer.length <= lent_len;
    if (refusal != ADV7195_ACCEPTED)
        right = right && answer.length == 0 && answer.transactions == 0 && answer.bus_bytes == 0;
    if (right)
        memcpy(lent_before.at, lent->at, answer.length);
    bool kept = memcmp(image, &image_before, sizeof *image) == 0 &&
                memcmp(settings, &settings_before, sizeof *settings) == 0 &&
                memcmp(lent, &lent_before, sizeof *lent) == 0;
    check(what, right && kept);
    return answer;
}

/* Plays and checks the answer, that inputs are kept, and that after a refusal, or elsewhere, the image is. */
static void scan_play(const char *what, bytes *image, size_t image_len, uint32_t used, uint32_t own,
                      const uint8_t *packed, size_t packed_len, uint32_t refusal, uint32_t acknowledged)
{
    bytes lent, lent_before, image_before = *image;
    fill_bytes(&lent, BEFORE_BYTE);
    if (packed_len > 0)
        memcpy(lent.at, packed, packed_len);
    lent_before = lent;
    adv7195_play_answer answer = adv7195_play(image->at, image_len, used, own, lent.at, packed_len);
    bool right = answer.refusal == refusal && answer.field == 0 && answer.acknowledged == acknowledged;
    if (acknowledged == 1)
        memcpy(image_before.at, image->at, SCAN_IMAGE);
    bool kept = memcmp(&lent, &lent_before, sizeof lent) == 0 && memcmp(image, &image_before, sizeof *image) == 0;
    check(what, right && kept);
}

/* Reads and checks the answer, that the image is kept, and that after a refusal all is. */
static void scan_read(const char *what, const bytes *image, size_t image_len, numbers *settings, size_t settings_len,
                      uint32_t refusal, uint32_t field)
{
    bytes image_before = *image;
    numbers settings_before = *settings;
    adv7195_read_answer answer = adv7195_read(image->at, image_len, settings->at, settings_len);
    if (refusal == ADV7195_ACCEPTED)
        memcpy(settings_before.at, settings->at, SCAN_NUMBERS * sizeof settings->at[0]);
    bool kept = memcmp(image, &image_before, sizeof *image) == 0 &&
                memcmp(settings, &settings_before, sizeof *settings) == 0;
    check(what, answer.refusal == refusal && answer.field == field && kept);
}

/* Asks for a transaction and checks the answer, that the plan is kept, and that data past the transaction's is. */
static void scan_transaction(const char *what, const uint8_t *packed, size_t packed_len, uint32_t index,
                             size_t data_len, uint32_t refusal, uint32_t subaddress, uint32_t count,
                             const uint8_t *wanted)
{
    bytes lent, lent_before, data, data_before;
    fill_bytes(&lent, BEFORE_BYTE);
    fill_bytes(&data, BEFORE_BYTE);
    if (packed_len > 0)
        memcpy(lent.at, packed, packed_len);
    lent_before = lent;
    data_before = data;
    if (count > 0)
        memcpy(data_before.at, wanted, count);
    adv7195_transaction_answer answer = adv7195_transaction(lent.at, packed_len, index, data.at, data_len);
    bool right = answer.refusal == refusal && answer.field == 0 && answer.subaddress == subaddress &&
                 answer.count == count;
    bool kept = memcmp(&lent, &lent_before, sizeof lent) == 0 && memcmp(&data, &data_before, sizeof data) == 0;
    check(what, right && kept);
}

#endif
