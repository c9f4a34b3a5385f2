/*
 * Tests of adv7194_compare: what differs, what doesn't, and the refusal, with
 * guards around the lent memories.
 */
#ifndef COMPARE_H
#define COMPARE_H

#include "adv7194.h"
#include "lent.h"

/* Compares and checks the answer, and that both images are kept. */
static void compare(const char *what, const bytes *a, size_t a_len, const bytes *b, size_t b_len,
                    uint32_t refusal, uint32_t readable, uint64_t fields, uint64_t registers)
{
    bytes a_before = *a, b_before = *b;
    adv7194_compare_answer answer = adv7194_compare(a->at, a_len, b->at, b_len);
    bool right = answer.refusal == refusal && answer.field == 0 && answer.readable == readable &&
                 answer.fields == fields && answer.registers == registers;
    bool kept = memcmp(a, &a_before, sizeof *a) == 0 && memcmp(b, &b_before, sizeof *b) == 0;
    check(what, right && kept);
}

/* Compares an image with the same after one register's bits are flipped, both ways round. */
static void compare_flipped(const char *what, const bytes *image, int reg, uint8_t bits, uint32_t readable,
                            uint64_t fields, uint64_t registers)
{
    bytes other = *image;
    other.at[reg] ^= bits;
    compare(what, image, ADV7194_REGISTERS, &other, ADV7194_REGISTERS, ADV7194_ACCEPTED, readable, fields, registers);
    compare(what, &other, ADV7194_REGISTERS, image, ADV7194_REGISTERS, ADV7194_ACCEPTED, readable, fields, registers);
}

/* Comparing, with an image of the house setting. */
static void test_compare(const bytes *image)
{
    const size_t whole = ADV7194_REGISTERS;
    bytes zeros;
    fill_bytes(&zeros, 0);
    compare("compare equal images", image, whole, image, whole, ADV7194_ACCEPTED, 1, 0, 0);
    compare("compare equal images that aren't read", &zeros, whole, &zeros, whole, ADV7194_ACCEPTED, 0, 0, 0);
    compare_flipped("compare hue", image, 0x20, 0x17, 1, FLAG(15), 0);
    compare_flipped("compare the word", image, 0x0F, 0x01, 0, FLAG(ADV7194_FIELD_WORD), 0);
    compare_flipped("compare standard, and bits beside it", image, 0x00, 0xF1, 0, FLAG(1), FLAG(0x00));
    compare_flipped("compare both gains", image, 0x23, 0x11, 1, FLAG(18) | FLAG(19), 0);
    compare_flipped("compare a must-be-zero bit of 21", image, 0x21, 0x80, 0, FLAG(16), 0);
    compare_flipped("compare a must-be-zero bit of 22", image, 0x22, 0x10, 0, FLAG(17), 0);
    compare_flipped("compare 1A under off", image, 0x1A, 0x80, 1, FLAG(11), 0);
    compare_flipped("compare 34", image, 0x34, 0xFF, 1, 0, 0);
    compare_flipped("compare 35", image, 0x35, 0x01, 1, 0, FLAG(0x35));
    compare("compare refusal 1, first", image, whole - 1, image, whole, ADV7194_IMAGE_LENGTH, 0, 0, 0);
    compare("compare refusal 1, second", image, whole, &zeros, whole + 1, ADV7194_IMAGE_LENGTH, 0, 0, 0);
    check("compare, null images", adv7194_compare(NULL, 0, NULL, 0).refusal == ADV7194_IMAGE_LENGTH);
    check("compare, null second image", adv7194_compare(image->at, whole, NULL, 0).refusal == ADV7194_IMAGE_LENGTH);
}

#endif
