/*
 * Reads a stack of P4 images, touches every surface voxel that a viewer sees,
 * and writes a picture of the answers, a P6 file:
 *
 *   shade_stack FILE REACH > PICTURE
 *
 * The rule of the picture, for a stack of width W, height H and depth D:
 *   - The viewer looks along (-1,-1,-1). A line of voxels that way is one spot
 *     of the picture, 2 by 2 pixels. The spot of voxel (x,y,z) has its left
 *     column at 2(x - y + H - 1) and its top row at 2(D - 1 - z) + x + y, both
 *     counted from 0; the picture has 2(W + H - 1) columns and 2D + W + H - 2
 *     rows.
 *   - On each line the first filled voxel that the viewer meets is touched, in
 *     frame 0, which faces the viewer. The spot of a line with none is white,
 *     and so is what lies in no spot.
 *   - A guess is shaded by its display normal (x,y,z)/32768 in light that comes
 *     from (-1,2,2): red and green are 85(49152 + 2y + 2z - x)/49152, 255 in
 *     full light, and blue is 15/16 of that, each without its fraction.
 *   - A refusal has the colour of its number, in the table `refused`.
 * On standard error it tells how many spots are guesses, and how many have each
 * refusal number.
 */
#include <stdio.h>
#include <stdlib.h>
#include <string.h>

#include "../include/ulgenzhir.h"

/* Bytes of a full stack of 256 a side, of its file with short headers, and of its picture. */
enum { MOST_ROWS = 256 * 256 * 32, MOST_FILE = 2 * MOST_ROWS, MOST_PICTURE = 3 * 1022 * 1022 };

enum { SPOT = 2, NUMBERS = 12 };

static uint8_t file[MOST_FILE], rows[MOST_ROWS], picture[MOST_PICTURE];
static int32_t width, height, depth, reach, columns, lines;
static unsigned spots[NUMBERS];

typedef struct {
    uint8_t red, green, blue;
} colour;

static const colour refused[NUMBERS] = {
    [1] = {148, 103, 189}, /* reach out of range */
    [2] = {140, 86, 75},   /* frame out of range */
    [3] = {188, 189, 34},  /* stack out of range */
    [4] = {86, 180, 233},  /* the start or the apex is outside the box */
    [5] = {0, 0, 0},       /* the start is not filled */
    [6] = {0, 114, 178},   /* the apex is filled */
    [7] = {204, 121, 167}, /* given by a pick only */
    [8] = {0, 158, 115},   /* a voxel to be looked at is outside the box */
    [9] = {213, 94, 0},    /* the steps allowed are done */
    [10] = {240, 228, 66}, /* the sizes of the normal add to more than the reach */
    [11] = {52, 66, 90},   /* a corner is not filled */
};

static int filled(int32_t x, int32_t y, int32_t z)
{
    int32_t row = z * height + y;
    return rows[row * ((width + 7) / 8) + x / 8] >> (7 - x % 8) & 1;
}

static colour shaded(ulgenzhir_point normal)
{
    ulgenzhir_lit lit = ulgenzhir_display(normal.x, normal.y, normal.z);
    int x = (int)(32768 * lit.x), y = (int)(32768 * lit.y), z = (int)(32768 * lit.z);
    int level = 85 * (49152 + 2 * y + 2 * z - x) / 49152;
    colour metal = {(uint8_t)level, (uint8_t)level, (uint8_t)(15 * level / 16)};
    return metal;
}

static void paint(int32_t x, int32_t y, int32_t z, colour with)
{
    int32_t left = SPOT * (x - y + height - 1);
    int32_t top = SPOT * (depth - 1 - z) + x + y;
    for (int32_t i = 0; i < SPOT * SPOT; i++) {
        uint8_t *pixel = picture + 3 * ((top + i / SPOT) * columns + left + i % SPOT);
        pixel[0] = with.red;
        pixel[1] = with.green;
        pixel[2] = with.blue;
    }
}

static void shade_voxel(int32_t x, int32_t y, int32_t z)
{
    ulgenzhir_touch touch =
        ulgenzhir_touch_stack(width, height, depth, rows, sizeof rows, x, y, z, 0, reach);
    spots[touch.number]++;
    paint(x, y, z, touch.guess ? shaded(touch.normal) : refused[touch.number]);
}

/* The line that the viewer enters at this voxel. */
static void shade_line(int32_t x, int32_t y, int32_t z)
{
    while (x >= 0 && y >= 0 && z >= 0 && !filled(x, y, z)) {
        x--;
        y--;
        z--;
    }
    if (x >= 0 && y >= 0 && z >= 0)
        shade_voxel(x, y, z);
}

/* The lines that the viewer enters in this row: at its last voxel, in an outer row at each. */
static void shade_row(int32_t y, int32_t z)
{
    int outer = y == height - 1 || z == depth - 1;
    for (int32_t x = outer ? 0 : width - 1; x < width; x++)
        shade_line(x, y, z);
}

static void shade(void)
{
    columns = SPOT * (width + height - 1);
    lines = SPOT * depth + width + height - 2;
    memset(picture, 255, (size_t)(3 * columns * lines));
    for (int32_t row = 0; row < height * depth; row++)
        shade_row(row % height, row / height);
}

static void tell(void)
{
    fprintf(stderr, "%u guesses\n", spots[0]);
    for (int number = 1; number < NUMBERS; number++)
        if (spots[number] != 0)
            fprintf(stderr, "%u refused %d\n", spots[number], number);
}

int main(int argc, char **argv)
{
    FILE *in = argc == 3 ? fopen(argv[1], "rb") : NULL;
    if (in == NULL) {
        fprintf(stderr, "usage: shade_stack FILE REACH > PICTURE\n");
        return 2;
    }
    size_t len = fread(file, 1, sizeof file, in);
    fclose(in);
    ulgenzhir_read read = ulgenzhir_read_p4(file, len, rows, sizeof rows);
    if (read.number != 0) {
        fprintf(stderr, "not a stack: %u, %llu\n", read.number, (unsigned long long)read.value);
        return 1;
    }
    width = (int32_t)read.width;
    height = (int32_t)read.height;
    depth = (int32_t)read.depth;
    reach = atoi(argv[2]);
    shade();
    printf("P6\n%d %d\n255\n", columns, lines);
    fwrite(picture, 3, (size_t)(columns * lines), stdout);
    tell();
    return 0;
}
