/* A current map, an east and a north part for each sample, becomes a tile of BC5 blocks. One block is decoded, and sent again with more effort. */
#include <stdio.h>
#include <string.h>
#include "bc5.h"

enum { WIDTH = 16, HEIGHT = 8, COUNT = WIDTH * HEIGHT, COLUMN = 3, ROW = 1 /* of the block */ };
static float east[COUNT], north[COUNT], block_east[16], block_north[16];

/* An eddy: water runs round the middle, fastest `core` half samples away from it. On the scale of the samples 0.5 is still water, 1 is full speed to the
   east or the north, and 0 to the west or the south. */
static void make_map(void)
{
    const int core = 5;
    for (int i = 0; i < COUNT; i++) {
        int x = 2 * (i % WIDTH) - (WIDTH - 1), y = 2 * (i / WIDTH) - (HEIGHT - 1); /* from the middle to the east, and to the south */
        int far = core * core + x * x + y * y;
        east[i] = (float)(far + 2 * core * y) / (float)(2 * far);
        north[i] = (float)(far + 2 * core * x) / (float)(2 * far);
    }
    for (int i = 0; i < 16; i++) {
        block_east[i] = east[(4 * ROW + i / 4) * WIDTH + 4 * COLUMN + i % 4];
        block_north[i] = north[(4 * ROW + i / 4) * WIDTH + 4 * COLUMN + i % 4];
    }
}

static int refuse(uint32_t refused, const bc4_detail *detail)
{
    const char *part = detail->what == BC4_FIRST_CHANNEL ? "east" : "north";
    printf("refused %u: ", (unsigned)refused);
    if (refused == BC4_SAMPLE_IS_NAN)
        printf("in row %zu, column %zu the %s part is NaN\n", detail->row, detail->column, part);
    else
        printf("bc4.h says what this number means\n");
    return 1;
}

static void show(const char *part, const uint8_t *half, float error)
{
    printf("%s ", part);
    for (int i = 0; i < 8; i++) printf("%02x", half[i]);
    printf(", squared error %.5f\n", error);
}

int main(void)
{
    float east_back[16], north_back[16], errors[2];
    uint8_t tile[COUNT], block[16], fresh[2];
    size_t length, at;
    bc4_detail detail = {0, 0, 0, 0};
    make_map();
    uint32_t refused = bc5_encode_tile(east, COUNT, north, COUNT, WIDTH, HEIGHT, 0, tile, sizeof tile, &length, &detail);
    if (refused == BC4_OK) refused = bc5_block_view(tile, length, WIDTH, HEIGHT, COLUMN, ROW, &at, &detail);
    if (refused == BC4_OK) refused = bc5_decode_block(tile + at, 16, false, east_back, north_back, &detail);
    if (refused == BC4_OK) refused = bc5_block_error(block_east, 16, block_north, 16, tile + at, 16, false, errors, &detail);
    if (refused != BC4_OK) return refuse(refused, &detail);
    printf("%d by %d samples in %zu bytes; the block in column %d, row %d:\n", WIDTH, HEIGHT, length, COLUMN, ROW);
    show("east ", tile + at, errors[0]);
    show("north", tile + at + 8, errors[1]);
    printf("its last sample: east %.3f became %.3f, north %.3f became %.3f\n", block_east[15], east_back[15], block_north[15], north_back[15]);

    /* A half is replaced where that makes its own error smaller; the other one may stay. */
    uint32_t effort = BC4_USE_INTER4 | BC4_MAX_REFINE_ITER(10) | BC4_HIGH_QUALITY;
    refused = bc5_resend(block_east, 16, block_north, 16, tile + at, 16, effort, block, fresh, &detail);
    if (refused == BC4_OK) refused = bc5_block_error(block_east, 16, block_north, 16, block, 16, false, errors, &detail);
    if (refused != BC4_OK) return refuse(refused, &detail);
    memcpy(tile + at, block, 16);
    printf("sent again: east %s, north %s\n", fresh[0] ? "is new" : "stays", fresh[1] ? "is new" : "stays");
    show("east ", block, errors[0]);
    show("north", block + 8, errors[1]);

    north[37] = 0.0f / 0.0f; /* no measurement: the map is refused as a whole */
    refused = bc5_encode_tile(east, COUNT, north, COUNT, WIDTH, HEIGHT, 0, tile, sizeof tile, &length, &detail);
    if (refused != BC4_OK) refuse(refused, &detail);
    return 0;
}
