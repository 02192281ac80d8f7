/*
 * Reads a stack of P4 images, picks at a voxel, and prints the face's normal,
 * how far the face may lean from it, and its unit vector. It picks in two calls,
 * as a panel does that lights its cursor first:
 *
 *   pick_stack FILE X Y Z FRAME REACH
 */
#include <math.h>
#include <stdio.h>
#include <stdlib.h>

#include "../include/ulgenzhir.h"

/* Bytes of a full stack of 256 a side, and of its file with short headers. */
enum { MOST_ROWS = 256 * 256 * 32, MOST_FILE = 2 * MOST_ROWS };

static uint8_t file[MOST_FILE], rows[MOST_ROWS];

static int print_refusal(uint32_t number, ulgenzhir_point place)
{
    printf("refused %u at %d %d %d\n", number, place.x, place.y, place.z);
    return 1;
}

/* A gauge draws no figure without a bound. In tenths of a degree, rounded up. */
static void print_footing(ulgenzhir_firm firm)
{
    if (firm.part < firm.whole) {
        double radians = asin(sqrt((double)firm.part / (double)firm.whole));
        double tenths = ceil(radians * 1800 / acos(-1));
        printf("lean below %.1f degrees, firm to %u\n", tenths / 10, firm.power);
    } else {
        printf("not flat here, firm to %u\n", firm.power);
    }
}

static void print_pick(ulgenzhir_pick pick, ulgenzhir_firm firm)
{
    ulgenzhir_point n = pick.normal;
    ulgenzhir_lit lit = ulgenzhir_display(n.x, n.y, n.z);
    printf("normal %d %d %d after %u steps and %u looks\n", n.x, n.y, n.z, pick.steps, pick.looks);
    print_footing(firm);
    printf("display %.15f %.15f %.15f\n", lit.x, lit.y, lit.z);
}

/* A panel checks wherever the cursor goes, and walks once it is pressed. */
static int check_and_walk(int32_t width, int32_t height, int32_t depth, const int *asked)
{
    int frame = asked[3], reach = asked[4];
    ulgenzhir_check check = ulgenzhir_check_stack(width, height, depth, rows, sizeof rows,
                                                  asked[0], asked[1], asked[2], frame, reach);
    if (check.number != 0)
        return print_refusal(check.number, check.place);
    printf("cursor lit after %u looks\n", check.looks);
    ulgenzhir_pick pick = ulgenzhir_walk_stack(width, height, depth, rows, sizeof rows,
                                               check.ready, frame, reach);
    if (pick.number != 0)
        return print_refusal(pick.number, pick.place);
    print_pick(pick, ulgenzhir_firm_stack(width, height, depth, rows, sizeof rows, pick,
                                          frame, reach));
    return 0;
}

int main(int argc, char **argv)
{
    FILE *in = argc == 7 ? fopen(argv[1], "rb") : NULL;
    if (in == NULL) {
        fprintf(stderr, "usage: pick_stack FILE X Y Z FRAME REACH\n");
        return 2;
    }
    size_t len = fread(file, 1, sizeof file, in);
    fclose(in);
    ulgenzhir_read read = ulgenzhir_read_p4(file, len, rows, sizeof rows);
    if (read.number != 0) {
        printf("not a stack: %u, %llu\n", read.number, (unsigned long long)read.value);
        return 1;
    }
    printf("stack %u %u %u\n", read.width, read.height, read.depth);
    int asked[5];
    for (int i = 0; i < 5; i++)
        asked[i] = atoi(argv[i + 2]);
    return check_and_walk((int32_t)read.width, (int32_t)read.height, (int32_t)read.depth, asked);
}
