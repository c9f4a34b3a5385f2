/*
 * Lent memory between guards, and checks that are counted.
 */
#ifndef LENT_H
#define LENT_H

#include <stdbool.h>
#include <stdint.h>
#include <stdio.h>
#include <string.h>

/* Elements of guard on each side of a lent memory. */
#define GUARD 16
/* The most that is lent. */
#define MOST 64
/* What the guards hold. */
#define GUARD_BYTE 0xC3
#define GUARD_NUMBER (-123456789)

/* The bit of a register in flags, or of a field in what is answered. */
#define FLAG(n) ((uint64_t)1 << (n))

/* Checks that held, and that didn't. */
static int passed;
static int failed;

/* Bytes to lend, between guards. */
typedef struct {
    uint8_t before[GUARD];
    uint8_t at[MOST];
    uint8_t after[GUARD];
} bytes;

/* Numbers to lend, between guards. */
typedef struct {
    int32_t before[GUARD];
    int32_t at[MOST];
    int32_t after[GUARD];
} numbers;

/* Prints one check and counts it. */
static void check(const char *what, bool holds)
{
    printf("%s %s\n", holds ? "pass" : "FAIL", what);
    if (holds)
        passed++;
    else
        failed++;
}

/* Fills bytes and their guards. */
static void fill_bytes(bytes *b, uint8_t value)
{
    memset(b, GUARD_BYTE, sizeof *b);
    memset(b->at, value, sizeof b->at);
}

/* Fills numbers and their guards. */
static void fill_numbers(numbers *n, int32_t value)
{
    for (int i = 0; i < GUARD; i++)
        n->before[i] = n->after[i] = GUARD_NUMBER;
    for (int i = 0; i < MOST; i++)
        n->at[i] = value;
}

#endif
