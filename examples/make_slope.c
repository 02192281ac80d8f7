/*
 * Writes a stack of P4 images that holds a slope: 64 a side, filled where
 * x + 2y + 5z < 256. Any program that writes PBM would do; this one leaves a
 * comment in each header.
 */
#include <stdio.h>

enum { SIDE = 64 };

int main(void)
{
    for (int z = 0; z < SIDE; z++) {
        printf("P4\n# slice %d\n%d %d\n", z, SIDE, SIDE);
        for (int y = 0; y < SIDE; y++) {
            for (int left = 0; left < SIDE; left += 8) {
                int byte = 0;
                for (int x = left; x < left + 8; x++)
                    byte = 2 * byte + (x + 2 * y + 5 * z < 256);
                putchar(byte);
            }
        }
    }
    return 0;
}
