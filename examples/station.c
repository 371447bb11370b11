/* A station takes the blocks of a wetness map as a link delivers them: out of order, some twice, one not at all. It sees which place is empty, and the drone
   sends that block again. */
#include <stdio.h>
#include <string.h>
#include "station.h"

enum { SIDE = 16, BLOCKS = SIDE / 4, PLACES = BLOCKS * BLOCKS };

/* What the drone measures, a character for a sample: from '.' for 0 to '#' for 1, in steps of a fifth. The station shows a sample as the nearest of them.
   So examples/station.expected follows from these lines: a block of one or two levels has them as its ends, and comes back as it was. The block of place 6 has
   all six. Seven steps between two ends, as the first try has them, do not meet them all; the five steps from 0 to 255 do, by 51, 102, 153 and 204, so that
   encoding it again with more effort gives better bytes. */
static const char levels[] = ".:-=+#";
static const char *const field[SIDE] = {
    "................",
    ".......:::::....",
    "......::::::....",
    ".....:::::::....",
    "...:::####+=::..",
    "..:::####+=-:...",
    ".:::####+=-:....",
    ".:::####=-:.....",
    "..::####::......",
    "...::###::......",
    "....:::::.......",
    "....:::::.......",
    ".....::.....----",
    ".....::.....----",
    "......:::...----",
    "......:::...----",
};

typedef struct {
    int place; /* row by row, as the tile's blocks */
    uint16_t edition;
    uint8_t block[8];
} message;

/* The station's memory. The record starts empty, as bc4_clear leaves it. */
static uint8_t tile[SIDE * SIDE / 2];
static uint32_t editions[PLACES];

static void measure(int place, float *samples)
{
    for (int i = 0; i < 16; i++) {
        char c = field[place / BLOCKS * 4 + i / 4][place % BLOCKS * 4 + i % 4];
        int level = 0;
        while (levels[level] != c) level++;
        samples[i] = (float)level / 5.0f;
    }
}

static void deliver(const message *m)
{
    uint8_t outcome;
    bc4_detail detail;
    size_t column = (size_t)(m->place % BLOCKS), row = (size_t)(m->place / BLOCKS);
    uint32_t refused = bc4_receive(tile, sizeof tile, editions, PLACES, SIDE, SIDE, column, row, m->edition, m->block, 8, &outcome, &detail);
    printf("place %d, edition %u: ", m->place, (unsigned)m->edition);
    if (refused != BC4_OK)
        printf("refused %u\n", (unsigned)refused);
    else
        printf("%s\n", outcome == BC4_TAKEN ? "taken" : outcome == BC4_REPEAT ? "a repeat" : outcome == BC4_REPLACED ? "replaces" : "old");
}

/* An empty place is shown as such, whatever bytes the tile has there. */
static uint32_t show(void)
{
    char picture[SIDE][SIDE + 1] = {{0}};
    for (int place = 0; place < PLACES; place++) {
        float samples[16];
        bc4_detail detail;
        uint32_t refused = bc4_decode_block(tile + 8 * place, 8, false, samples, &detail);
        if (refused != BC4_OK) return refused;
        for (int i = 0; i < 16; i++)
            picture[place / BLOCKS * 4 + i / 4][place % BLOCKS * 4 + i % 4] = editions[place] == 0 ? '?' : levels[(int)(samples[i] * 5.0f + 0.5f)];
    }
    for (int y = 0; y < SIDE; y++) printf("%s\n", picture[y]);
    return BC4_OK;
}

int main(void)
{
    static const int arrivals[] = {1, 0, 3, 2, 0, 7, 4, 5, 10, 9, 8, 11, 13, 12, 15, 14, 5}; /* not 6 */
    message first[PLACES], again = {6, 0, {0}}, dry = {15, 0, {0}};
    float samples[16], none[16] = {0};
    uint8_t fresh;
    bc4_detail detail;

    /* The drone counts its editions, and stands at the last one. */
    for (int place = 0; place < PLACES; place++) {
        first[place] = (message){place, 65535, {0}};
        measure(place, samples);
        if (bc4_encode_block(samples, 16, 0, first[place].block, &detail) != BC4_OK) return 1;
    }
    for (size_t k = 0; k < sizeof arrivals / sizeof *arrivals; k++) deliver(first + arrivals[k]);
    if (show() != BC4_OK) return 1;

    /* Place 6 is sent again, with more effort, and the corner of place 15 has dried. The edition after 65,535 is 0. */
    measure(6, samples);
    if (bc4_resend(samples, 16, first[6].block, 8, BC4_BRUTE_FORCE, again.block, &fresh, &detail) != BC4_OK) return 1;
    printf("place 6 again: %s\n", fresh ? "better bytes" : "the same bytes");
    if (bc4_encode_block(none, 16, 0, dry.block, &detail) != BC4_OK) return 1;
    deliver(&again);
    deliver(&dry);
    deliver(first + 15); /* a late repeat does not bring the old bytes back, nor does a message that comes at last */
    deliver(first + 6);
    first[4].block[0] ^= 1; /* the link changed a bit */
    deliver(first + 4);
    return show() != BC4_OK;
}
