#include <stdio.h>
#include "smear.h"

enum { W = 60, H = 60, SCRATCH = 3 * (W > H ? W : H) };

static uint8_t src[W * H], dst[W * H];
static int32_t scratch[SCRATCH];
static smear_swing swings[W * H];

int main(void) {
    /* bars of 12 columns, smeared over 5 */
    for (int i = 0; i < W * H; i++) {
        int sum = 0;
        for (int k = 0; k < 5; k++)
            sum += ((i % W + k) / 12 + i / W / 2) % 2 == 0 ? 0 : 250;
        src[i] = (uint8_t)(sum / 5);
    }
    uint8_t direction;
    size_t length;
    double estimate;
    uint8_t refusal = smear_restore(src, W * H, W, H, W, dst, W * H, W, H, W, 8, 24, 0, 3, 1.0, 0, 0,
                                    scratch, SCRATCH, swings, W * H, &direction, &length, &estimate);
    if (refusal != 0)
        printf("refused %d\n", refusal);
    else
        printf("direction %d, %zu pixels\n", direction, length);
    return refusal;
}
