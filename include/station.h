/* The receiving side: a tile that arrives block by block, over a link that loses messages, repeats them and changes their order. More calls of the library that
   bc4.h is for. The refusals, what a call promises and what is the caller's part stand there.

   A message is a place, an edition and eight bytes. The place is a column and a row of blocks, as for bc4_block_view. Editions tell the messages of one place
   apart: the sender counts them up, by one or by more, and after 65,535 comes 0. The newer of two is the one that counting up reaches from the other in
   at most 32,767 steps.
   A station holds a tile, as bc4_encode_tile writes it, and beside it a record of the editions that stand there: one entry for each block, width * height / 16
   of them, in the order of the tile's blocks. Both are the caller's memory. An entry 0 is an empty place, any other n is edition (n - 1) mod 65,536; so
   every content of a record means something, and before the first message bc4_clear empties it. All zero is the same.

   What is promised: let the editions of the messages sent for a place since then lie within 32,767 steps, and none of them name two contents. Then, in whatever
   order messages arrive, and each any number of times, each place holds the newest message that arrived for it. So once all have arrived the tile is the newest
   that was sent. */
#ifndef BC4_STATION_H
#define BC4_STATION_H

#include "bc4.h"

/* ---- what became of a message */
#define BC4_TAKEN 1u    /* its place was empty, and holds it now */
#define BC4_REPEAT 2u   /* its place holds that edition, with the same bytes; nothing changed */
#define BC4_REPLACED 3u /* it is newer than what its place held, and stands there now */
#define BC4_OLD 4u      /* its place holds a newer one; nothing changed */

#ifdef __cplusplus
extern "C" {
#endif

/* Receives a message, and says in *outcome what became of it. One that is taken or that replaces puts its eight bytes and its edition at its place; no call
   changes another place.
   Refuses BC4_SIDE_IS_ZERO, BC4_SIDE_TOO_LARGE, BC4_SIDE_NOT_MULTIPLE_OF_4, BC4_ENCODED_LENGTH (of the tile, the record or the message), BC4_NO_SUCH_BLOCK,
   BC4_EDITION_REUSED, BC4_EDITION_OPPOSITE. */
uint32_t bc4_receive(uint8_t *tile, size_t tile_length, uint32_t *editions, size_t editions_length, size_t width, size_t height, size_t column,
                     size_t row, uint16_t edition, const uint8_t *block, size_t block_length, uint8_t *outcome, bc4_detail *detail);

/* Empties a record, every entry of it, for a new history. The tile's bytes stay until messages replace them. Refuses nothing. */
void bc4_clear(uint32_t *editions, size_t editions_length);

#ifdef __cplusplus
}
#endif

#endif
