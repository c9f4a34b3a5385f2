/*
 * Playing by either player, with guards around the lent memories.
 */
#ifndef PLAYERS_H
#define PLAYERS_H

#include "adv7194.h"
#include "lent.h"

/* What a lent plan holds past the plan. */
#define BEFORE_PLAN 0x6B

/* adv7194_play or adv7194_play_captions. */
typedef adv7194_play_answer player(uint8_t *image, size_t image_len, uint64_t known, uint32_t used, uint32_t own,
                                   const uint8_t *plan, size_t plan_len);

/* Plays on a board known in part and checks the answer, that inputs are kept, and that after a refusal all is.
 * `stored` are the flags of registers that a byte is stored in. */
static void play_known(player *by, const char *what, bytes *image, size_t image_len, uint64_t known, uint32_t used,
                       uint32_t own, const uint8_t *packed, size_t packed_len, uint32_t refusal, uint32_t acknowledged,
                       uint64_t stored)
{
    bytes lent, lent_before, image_before = *image;
    fill_bytes(&lent, BEFORE_PLAN);
    if (packed_len > 0)
        memcpy(lent.at, packed, packed_len);
    lent_before = lent;
    adv7194_play_answer answer = by(image->at, image_len, known, used, own, lent.at, packed_len);
    bool right = answer.refusal == refusal && answer.field == 0 && answer.acknowledged == acknowledged &&
                 answer.known == (known | stored);
    bool kept = memcmp(&lent, &lent_before, sizeof lent) == 0;
    if (acknowledged == 0)
        kept = kept && memcmp(image, &image_before, sizeof *image) == 0;
    memcpy(image_before.at, image->at, ADV7194_REGISTERS);
    kept = kept && memcmp(image, &image_before, sizeof *image) == 0;
    check(what, right && kept);
}

/* Plays on a board known in full. */
static void play_by(player *by, const char *what, bytes *image, size_t image_len, uint32_t used, uint32_t own,
                    const uint8_t *packed, size_t packed_len, uint32_t refusal, uint32_t acknowledged)
{
    play_known(by, what, image, image_len, ADV7194_ALL_KNOWN, used, own, packed, packed_len, refusal, acknowledged, 0);
}

#endif
