/*
 * Writes a stack of P4 images that holds a small casting: a foot, on it a drum
 * set back by a step, on that a cone, all with sloped sides and level tops; a
 * gate that runs out of the box; and two pinholes, one in the foot's level top
 * and one in a slope.
 */
#include <stdio.h>

enum { WIDTH = 128, HEIGHT = 116, DEPTH = 60 };

/* Filled where ax + by + cz < h. */
typedef struct {
    int a, b, c, h;
} wedge;

/*
 * A part is filled where all its wedges are. Its rows: level faces; the slopes
 * that face the viewer of shade_stack; the far sides; the end of the list. Each
 * of those slopes but (3,2,2) has a part of 1, so that a guess on it is exact.
 */
static const wedge foot[] = {
    {0, 0, 1, 20},
    {3, 1, 1, 364}, {2, 2, 1, 342}, {1, 3, 1, 364},
    {-1, 0, 1, 10}, {0, -1, 1, 10}, {1, -1, 0, 78}, {-1, 1, 0, 78},
    {0, 0, 0, 0},
};
static const wedge drum[] = {
    {0, 0, 1, 38}, {0, 0, -1, -19},
    {3, 2, 2, 404}, {1, 1, 1, 166}, {1, 2, 1, 246},
    {-1, 0, 1, 20}, {0, -1, 1, 20}, {-2, 1, 1, 54}, {1, -2, 1, 54},
    {0, 0, 0, 0},
};
static const wedge cone[] = {
    {0, 0, 1, 52}, {0, 0, -1, -37},
    {2, 1, 3, 308}, {1, 1, 2, 198}, {1, 2, 3, 308},
    {-1, 0, 1, 28}, {0, -1, 1, 28}, {-2, 1, 1, 46}, {1, -2, 1, 46},
    {0, 0, 0, 0},
};
static const wedge gate[] = {
    {0, 0, 1, 12}, {0, 1, 0, 52},
    {0, -1, 0, -36}, {-1, 0, 0, -40},
    {0, 0, 0, 0},
};

/* Whether the first wedge that does not have the voxel is the end. */
static int holds(const wedge *part, int x, int y, int z)
{
    while (part->a * x + part->b * y + part->c * z < part->h)
        part++;
    return part->a == 0 && part->b == 0 && part->c == 0;
}

static int pinhole(int x, int y, int z)
{
    return (x == 77 && y == 75 && z == 19) || (x == 52 && y == 57 && z == 44);
}

static int filled(int x, int y, int z)
{
    int cast = holds(foot, x, y, z) || holds(drum, x, y, z) || holds(cone, x, y, z) ||
               holds(gate, x, y, z);
    return cast && !pinhole(x, y, z);
}

/* The width is whole bytes. */
static void write_row(int y, int z)
{
    int byte = 0;
    for (int x = 0; x < WIDTH; x++) {
        byte = (2 * byte + filled(x, y, z)) % 256;
        if (x % 8 == 7)
            putchar(byte);
    }
}

int main(void)
{
    for (int z = 0; z < DEPTH; z++) {
        printf("P4\n%d %d\n", WIDTH, HEIGHT);
        for (int y = 0; y < HEIGHT; y++)
            write_row(y, z);
    }
    return 0;
}
