/* A plain decoder for the bench: makes the eight values of a block and copies sixteen of them. Unsigned. */
#include <stdint.h>
#include <string.h>

void plain_decode(const uint8_t *block, float *out)
{
    float v[8], a = block[0] / 255.0f, b = block[1] / 255.0f;
    uint64_t bits;
    v[0] = a;
    v[1] = b;
    if (block[0] > block[1]) {
        float step = (1.0f / 7.0f) * (a - b);
        for (int k = 2; k < 8; k++) v[k] = (float)(8 - k) * step + b;
    } else {
        v[2] = a * 0.8f + b * 0.2f;
        v[3] = a * 0.6f + b * 0.4f;
        v[4] = a * 0.4f + b * 0.6f;
        v[5] = a * 0.2f + b * 0.8f;
        v[6] = 0.0f;
        v[7] = 1.0f;
    }
    memcpy(&bits, block, 8);
    bits >>= 16;
    for (int i = 0; i < 16; i++) out[i] = v[(bits >> 3 * i) & 7];
}
