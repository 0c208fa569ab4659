/* The walk-in music slots' calls for C: link with libhps.a (link/library).
 *
 * A call gives 0, a refusal's number of document 01, or one of the HPS_ numbers below. What it gives beside that is set with 0 alone, but for
 * the position of hps_block (also with 1) and what hps_cues gives (also with HPS_END); with every other number all that was lent is as it was.
 *
 * The library keeps nothing. A record lies in bytes that the caller lends and hands in again; a call reads them anew, and bytes that
 * no call of the library wrote are refused with HPS_NO_RECORD or taken as the record that they spell. No pointer may be null, also with length 0;
 * what a call writes may overlap nothing else that it is given. */
#ifndef HPS_H
#define HPS_H

#include <stdbool.h>
#include <stddef.h>
#include <stdint.h>

#ifdef __cplusplus
extern "C" {
#endif

#define HPS_END 255       /* past the last block, or no more cues */
#define HPS_NO_RECORD 254 /* the lent bytes are no record */
#define HPS_NO_KIND 253   /* no such looping mode or kind of cue */
#define HPS_NO_ROOM 252   /* the bytes lent for a record or a cursor are too few for it */
#define HPS_NO_SIDE 251   /* a side of a channel of the push has fewer than HPS_SIDE_SIZE bytes */

#define HPS_OPENED_SIZE 2184 /* bytes of the opening record */
#define HPS_LOADER_SIZE 3256 /* bytes of the writer's record */
#define HPS_CURSOR_SIZE 32   /* bytes of a cue cursor; zeros stand before the first cue */
#define HPS_CUE_SIZE 16      /* bytes of a cue: u64 start, u32 kind (0 point, 1 loop), u32 name; big-endian */
#define HPS_SIDE_SIZE 48     /* bytes of a push's side: u32 rate, u32 length, 16 i16 coefficients, u16 gain, u16 predictor and scale, two i16 last samples; big-endian */
#define HPS_LISTING_LINE 60  /* bytes of the longest line of a listing */

/* Opening. The opening record begins with the file header, a channel not in use as zeros; then u32 blocks, u32 loop start
 * (4294967295 for none) and 512 u32 offsets, zeros beyond the blocks', big-endian. HPS_NO_ROOM comes before every other number. */
uint32_t hps_open(const uint8_t *slot, size_t slot_length, uint8_t *opened, size_t opened_length);

/* Block read: the data is the slot from start to end. */
uint32_t hps_block(const uint8_t *slot, size_t slot_length, const uint8_t *opened, size_t opened_length, size_t channel, size_t *position,
                   size_t *start, size_t *end, uint64_t *length, uint16_t *predictor_and_scale, int16_t *last, int16_t *oldest);

/* Addresses remaining. */
uint32_t hps_remaining(const uint8_t *slot, size_t slot_length, const uint8_t *opened, size_t opened_length, size_t position, uint64_t *addresses);

/* Cue calls from the cursor on, as many as out has room for. Order: HPS_NO_ROOM where the cursor is too short, HPS_NO_RECORD, 14 where out has room
 * for no cue. With 0 and HPS_END: the cues, how many, and the cursor after them; there may be cues before the end. A refusal that comes after
 * cues is left to the next call: with 1 the first cue call was refused. */
uint32_t hps_cues(const uint8_t *slot, size_t slot_length, const uint8_t *opened, size_t opened_length, uint8_t *cursor, size_t cursor_length,
                  uint8_t *out, size_t out_length, size_t *cues);

/* The marking key's listing of a slot of at most 65536 bytes: as many whole lines as fit, each by its own length; gives their bytes.
 * It is the whole listing if HPS_LISTING_LINE bytes of out are left. A listing has fewer than 5000000 bytes. */
size_t hps_listing(const uint8_t *slot, size_t slot_length, uint8_t *out, size_t out_length);

/* Begin, with the length of the slot that the writes go to. Mode: 0 Disabled, 1 Enabled, 2 Auto. Gives the write's place; its bytes are
 * the first ones of lent. Order: HPS_NO_ROOM, HPS_NO_KIND, 3, 7, 14. */
uint32_t hps_begin(size_t slot_length, size_t channels, uint32_t mode, uint8_t *loader, size_t loader_length, uint8_t *lent, size_t lent_length,
                   size_t *offset, size_t *length);

/* Cue. Kind: 0 point, 1 loop, 2 range of this length. Order: HPS_NO_KIND, HPS_NO_RECORD, 21, 8, 20. */
uint32_t hps_cue(uint8_t *loader, size_t loader_length, uint64_t start, uint32_t kind, uint64_t range, uint32_t name);

/* Push of a block. In mono the right side counts for nothing and may have any length. Gives the write's place. HPS_NO_RECORD and then HPS_NO_SIDE
 * come before push's own numbers. A push of length 0 in every channel, with no data and not the last, is accepted unless 26 or 29 is due: it gives 0
 * and the offset and length 0, and there is then no write to carry out. It leaves record and lent buffer; rates, coefficients and the buffer's length
 * are not looked at. */
uint32_t hps_push(uint8_t *loader, size_t loader_length, size_t channels, const uint8_t *left, size_t left_length, const uint8_t *left_data,
                  size_t left_data_length, const uint8_t *right, size_t right_length, const uint8_t *right_data, size_t right_data_length, bool last,
                  uint8_t *lent, size_t lent_length, size_t *offset, size_t *length);

/* Finish: lent has 15 bytes for 0-14, then 112 for 16-127, then the one for 15; three writes, to be carried out in this order. */
uint32_t hps_finish(uint8_t *loader, size_t loader_length, uint8_t *lent, size_t lent_length, size_t *finished);

/* The estimate of a finished length, by the blocks' lengths in addresses and the number of points and ranges. */
uint32_t hps_estimate(const size_t *lengths, size_t blocks, size_t channels, uint32_t points, uint64_t *length);

#ifdef __cplusplus
}
#endif
#endif
