/* A host program in C: it makes images with code of its own, damages them, and has the library check each. */
#include <stdbool.h>
#include <stdio.h>
#include <string.h>

#include "plot_image.h"

/* One block more than an image may have, so that a length that is too long is readable too. */
enum { BLOCK = 512, BLOCKS = 65, ROWS = 31, ROW_BYTES = 16, FIRST_ROW = 8, CHECK_AT = 504 };
enum { LEVEL = 1, TIMING = 2 };
enum { BAD_LENGTH = 14, BAD_NUMBER, BAD_KIND, BAD_MARK, BAD_CHECK, BAD_ROW };

/* The place of a byte of a block, and of a byte of a row. */
#define IN_BLOCK(block, place) ((block) * BLOCK + (place))
#define IN_ROW(block, row, place) IN_BLOCK(block, FIRST_ROW + (row) * ROW_BYTES + (place))

struct edit {
    size_t at;
    uint8_t byte;
};

struct test {
    const char *name;
    uint32_t kind;   /* of the image that is made */
    uint32_t asked;  /* the kind number that the library is asked for */
    size_t length;
    int edits;
    struct edit edit[2];
    bool stale;      /* leaves the checks of the edited blocks as they were */
    uint32_t refusal, block, row;
};

static const struct test tests[] = {
    {.name = "levels, 1 block", .kind = LEVEL, .asked = 1, .length = BLOCK},
    {.name = "levels, 2 blocks", .kind = LEVEL, .asked = 1, .length = 2 * BLOCK},
    {.name = "levels, 64 blocks", .kind = LEVEL, .asked = 1, .length = 64 * BLOCK},
    {.name = "timings, 1 block", .kind = TIMING, .asked = 2, .length = BLOCK},
    {.name = "timings, 64 blocks", .kind = TIMING, .asked = 2, .length = 64 * BLOCK},

    {.name = "no bytes", .kind = LEVEL, .asked = 1, .length = 0, .refusal = BAD_LENGTH},
    {.name = "one byte short of a block", .kind = LEVEL, .asked = 1, .length = 511, .refusal = BAD_LENGTH},
    {.name = "one byte past a block", .kind = LEVEL, .asked = 1, .length = 513, .refusal = BAD_LENGTH},
    {.name = "65 blocks", .kind = LEVEL, .asked = 1, .length = 33280, .refusal = BAD_LENGTH},
    {.name = "65 blocks of timings", .kind = TIMING, .asked = 2, .length = 33280, .refusal = BAD_LENGTH},

    {.name = "kind number 0", .kind = LEVEL, .asked = 0, .length = BLOCK, .refusal = BAD_KIND},
    {.name = "kind number 0 and a wrong length", .kind = LEVEL, .asked = 0, .length = 511, .refusal = BAD_LENGTH},
    {.name = "kind number 3", .kind = LEVEL, .asked = 3, .length = BLOCK, .refusal = BAD_KIND},
    {.name = "kind number 3 and a wrong length", .kind = LEVEL, .asked = 3, .length = 0, .refusal = BAD_LENGTH},
    {.name = "kind number 257", .kind = LEVEL, .asked = 257, .length = 32768, .refusal = BAD_KIND},
    {.name = "kind number 257 and a wrong length", .kind = LEVEL, .asked = 257, .length = 33280, .refusal = BAD_LENGTH},

    {.name = "block 0 numbered 1", .kind = LEVEL, .asked = 1, .length = BLOCK,
     .edits = 1, .edit = {{IN_BLOCK(0, 0), 1}}, .refusal = BAD_NUMBER},
    {.name = "block 2 numbered 258", .kind = LEVEL, .asked = 1, .length = 64 * BLOCK,
     .edits = 1, .edit = {{IN_BLOCK(2, 1), 1}}, .refusal = BAD_NUMBER, .block = 2},
    {.name = "block 63 numbered 62", .kind = TIMING, .asked = 2, .length = 64 * BLOCK,
     .edits = 1, .edit = {{IN_BLOCK(63, 0), 62}}, .refusal = BAD_NUMBER, .block = 63},

    {.name = "timings asked for as levels", .kind = TIMING, .asked = 1, .length = 2 * BLOCK, .refusal = BAD_KIND},
    {.name = "levels asked for as timings", .kind = LEVEL, .asked = 2, .length = 2 * BLOCK, .refusal = BAD_KIND},
    {.name = "block 5 of another kind", .kind = LEVEL, .asked = 1, .length = 64 * BLOCK,
     .edits = 1, .edit = {{IN_BLOCK(5, 2), TIMING}}, .refusal = BAD_KIND, .block = 5},

    {.name = "mark of block 0 set", .kind = LEVEL, .asked = 1, .length = BLOCK,
     .edits = 1, .edit = {{IN_BLOCK(0, 3), 1}}, .refusal = BAD_MARK},
    {.name = "mark of block 40 set", .kind = TIMING, .asked = 2, .length = 64 * BLOCK,
     .edits = 1, .edit = {{IN_BLOCK(40, 3), 1}}, .refusal = BAD_MARK, .block = 40},
    {.name = "byte 4 of block 1 not 0", .kind = LEVEL, .asked = 1, .length = 2 * BLOCK,
     .edits = 1, .edit = {{IN_BLOCK(1, 4), 1}}, .refusal = BAD_MARK, .block = 1},
    {.name = "byte 5 of block 1 not 0", .kind = LEVEL, .asked = 1, .length = 2 * BLOCK,
     .edits = 1, .edit = {{IN_BLOCK(1, 5), 2}}, .refusal = BAD_MARK, .block = 1},
    {.name = "byte 6 of block 1 not 0", .kind = LEVEL, .asked = 1, .length = 2 * BLOCK,
     .edits = 1, .edit = {{IN_BLOCK(1, 6), 128}}, .refusal = BAD_MARK, .block = 1},
    {.name = "byte 7 of block 1 not 0", .kind = LEVEL, .asked = 1, .length = 2 * BLOCK,
     .edits = 1, .edit = {{IN_BLOCK(1, 7), 255}}, .refusal = BAD_MARK, .block = 1},

    {.name = "a level of block 0 changed and its check not", .kind = LEVEL, .asked = 1, .length = BLOCK,
     .edits = 1, .edit = {{IN_ROW(0, 4, 1), 0}}, .stale = true, .refusal = BAD_CHECK},
    {.name = "first check byte of block 3 changed", .kind = LEVEL, .asked = 1, .length = 4 * BLOCK,
     .edits = 1, .edit = {{IN_BLOCK(3, CHECK_AT), 255}}, .stale = true, .refusal = BAD_CHECK, .block = 3},
    {.name = "last check byte of block 63 changed", .kind = TIMING, .asked = 2, .length = 64 * BLOCK,
     .edits = 1, .edit = {{IN_BLOCK(63, 511), 255}}, .stale = true, .refusal = BAD_CHECK, .block = 63},

    {.name = "level: byte 2 of row 0 of block 0 not 0", .kind = LEVEL, .asked = 1, .length = BLOCK,
     .edits = 1, .edit = {{IN_ROW(0, 0, 2), 1}}, .refusal = BAD_ROW},
    {.name = "level: byte 9 of row 5 of block 1 not 0", .kind = LEVEL, .asked = 1, .length = 2 * BLOCK,
     .edits = 1, .edit = {{IN_ROW(1, 5, 9), 9}}, .refusal = BAD_ROW, .block = 1, .row = 5},
    {.name = "level: byte 15 of row 30 of block 63 not 0", .kind = LEVEL, .asked = 1, .length = 64 * BLOCK,
     .edits = 1, .edit = {{IN_ROW(63, 30, 15), 255}}, .refusal = BAD_ROW, .block = 63, .row = 30},
    {.name = "timing: fade up of 36,001 in row 0 of block 0", .kind = TIMING, .asked = 2, .length = BLOCK,
     .edits = 2, .edit = {{IN_ROW(0, 0, 0), 0xA1}, {IN_ROW(0, 0, 1), 0x8C}}, .refusal = BAD_ROW},
    {.name = "timing: fade down of 36,001 in row 17 of block 2", .kind = TIMING, .asked = 2, .length = 4 * BLOCK,
     .edits = 2, .edit = {{IN_ROW(2, 17, 2), 0xA1}, {IN_ROW(2, 17, 3), 0x8C}}, .refusal = BAD_ROW, .block = 2, .row = 17},
    {.name = "timing: wait of 36,001 in row 30 of block 63", .kind = TIMING, .asked = 2, .length = 64 * BLOCK,
     .edits = 2, .edit = {{IN_ROW(63, 30, 4), 0xA1}, {IN_ROW(63, 30, 5), 0x8C}}, .refusal = BAD_ROW, .block = 63, .row = 30},
    {.name = "timing: link 3 in row 1 of block 1", .kind = TIMING, .asked = 2, .length = 2 * BLOCK,
     .edits = 1, .edit = {{IN_ROW(1, 1, 6), 3}}, .refusal = BAD_ROW, .block = 1, .row = 1},
    {.name = "timing: byte 7 of row 2 of block 0 not 0", .kind = TIMING, .asked = 2, .length = BLOCK,
     .edits = 1, .edit = {{IN_ROW(0, 2, 7), 1}}, .refusal = BAD_ROW, .row = 2},
    {.name = "timing: byte 15 of row 3 of block 9 not 0", .kind = TIMING, .asked = 2, .length = 64 * BLOCK,
     .edits = 1, .edit = {{IN_ROW(9, 3, 15), 1}}, .refusal = BAD_ROW, .block = 9, .row = 3},

    {.name = "two bad rows: the first is told", .kind = LEVEL, .asked = 1, .length = BLOCK,
     .edits = 2, .edit = {{IN_ROW(0, 20, 2), 1}, {IN_ROW(0, 8, 14), 1}}, .refusal = BAD_ROW, .row = 8},
    {.name = "bad row in block 0, mark in block 1: block 0 is told", .kind = LEVEL, .asked = 1, .length = 2 * BLOCK,
     .edits = 2, .edit = {{IN_BLOCK(1, 3), 1}, {IN_ROW(0, 6, 2), 1}}, .refusal = BAD_ROW, .row = 6},
    {.name = "mark and a wrong check: the mark is told", .kind = LEVEL, .asked = 1, .length = BLOCK,
     .edits = 1, .edit = {{IN_BLOCK(0, 3), 1}}, .stale = true, .refusal = BAD_MARK},
    {.name = "bad row and a wrong check: the check is told", .kind = LEVEL, .asked = 1, .length = BLOCK,
     .edits = 1, .edit = {{IN_ROW(0, 6, 2), 1}}, .stale = true, .refusal = BAD_CHECK},
};

static void put_number(uint8_t *at, unsigned value)
{
    at[0] = (uint8_t)(value % 256);
    at[1] = (uint8_t)(value / 256);
}

static void write_check(uint8_t *block)
{
    memset(block + CHECK_AT, 0, BLOCK - CHECK_AT);
    for (int i = 0; i < CHECK_AT; i++)
        block[CHECK_AT + i % 8] ^= block[i];
}

/* Levels, or timings with times up to 36,000 and each of the three links. */
static void make_row(uint8_t *row, uint32_t kind, unsigned n)
{
    memset(row, 0, ROW_BYTES);
    if (kind == LEVEL) {
        put_number(row, 65535 - 32 * n);
    } else {
        put_number(row, 36000 - n);
        put_number(row + 2, 17 * n);
        put_number(row + 4, n % 2 == 0 ? 36000 : 0);
        row[6] = (uint8_t)(n % 3);
    }
}

static void make_image(uint8_t *image, uint32_t kind)
{
    memset(image, 0, BLOCKS * BLOCK);
    for (unsigned q = 0; q < BLOCKS; q++) {
        uint8_t *block = image + q * BLOCK;
        put_number(block, q);
        block[2] = (uint8_t)kind;
        for (unsigned k = 0; k < ROWS; k++)
            make_row(block + FIRST_ROW + k * ROW_BYTES, kind, q * ROWS + k);
        write_check(block);
    }
}

static void damage(uint8_t *image, const struct test *test)
{
    for (int i = 0; i < test->edits; i++)
        image[test->edit[i].at] = test->edit[i].byte;
    for (int i = 0; i < test->edits && !test->stale; i++)
        write_check(image + test->edit[i].at / BLOCK * BLOCK);
}

static bool told(const char *name, uint32_t expected, uint32_t got)
{
    printf("%s: expected %u, got %u%s\n", name, (unsigned)expected, (unsigned)got, expected == got ? "" : ", WRONG");
    return expected == got;
}

int main(void)
{
    static uint8_t image[BLOCKS * BLOCK], before[BLOCKS * BLOCK];
    int cases = 0, wrong = 0;
    uint32_t changed = 0;

    for (size_t i = 0; i < sizeof tests / sizeof tests[0]; i++) {
        const struct test *test = &tests[i];
        make_image(image, test->kind);
        damage(image, test);
        memcpy(before, image, sizeof image);
        uint32_t got = plot_image_check(image, test->length, test->asked);
        changed += memcmp(before, image, sizeof image) != 0;
        wrong += !told(test->name, test->refusal + 256 * test->block + 65536 * test->row, got);
        cases++;
    }
    wrong += !told("images of these cases that the check changed", 0, changed);
    cases++;

    printf("%d cases, %d wrong\n", cases, wrong);
    return wrong == 0 ? 0 : 1;
}
