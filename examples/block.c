/* Sixteen samples to eight bytes and back. */
#include <stdio.h>
#include "bc4.h"

int main(void)
{
    float samples[16], back[16], error;
    uint8_t block[8];
    bc4_detail detail;
    for (int i = 0; i < 16; i++) samples[i] = i / 15.0f;

    uint32_t options = BC4_USE_INTER4 | BC4_MAX_REFINE_ITER(10) | BC4_HIGH_QUALITY;
    uint32_t refused = bc4_encode_block(samples, 16, options, block, &detail);
    if (refused == BC4_SAMPLE_IS_NAN) printf("sample %zu is NaN\n", detail.index);
    if (refused != BC4_OK) return 1;
    for (int i = 0; i < 8; i++) printf("%02x", block[i]);

    if (bc4_decode_block(block, 8, false, back, &detail) != BC4_OK) return 1;
    if (bc4_block_error(samples, 16, block, 8, false, &error, &detail) != BC4_OK) return 1;
    printf("\n%.3f became %.3f; squared error of the block: %.4f\n", samples[5], back[5], error);
    return 0;
}
