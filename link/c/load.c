/* Loads a stream into a slot, opens it and prints its listing. */
#include <hps.h>
#include <stdio.h>
#include <string.h>

static uint8_t slot[1024], lent[256], loader[HPS_LOADER_SIZE], opened[HPS_OPENED_SIZE];

/* A number of document 01 ends the program. */
static int refused(const char *call, uint32_t number)
{
    if (number != 0)
        fprintf(stderr, "%s is refused with %u\n", call, number);
    return number != 0;
}

/* The server carries a write out. */
static void carry_out(size_t offset, size_t length, const uint8_t *bytes)
{
    memcpy(slot + offset, bytes, length);
}

static int load(size_t *finished)
{
    static const uint8_t data[8] = {7, 7, 7, 7, 7, 7, 7, 7};
    uint8_t left[HPS_SIDE_SIZE] = {0, 0, 0x7D, 0, 0, 0, 0, 16}; /* 32,000 Hz, 16 addresses */
    uint8_t right[HPS_SIDE_SIZE] = {0};
    size_t offset, length;
    if (refused("begin", hps_begin(sizeof slot, 1, 2, loader, sizeof loader, lent, sizeof lent, &offset, &length)))
        return 0;
    carry_out(offset, length, lent);
    if (refused("cue", hps_cue(loader, sizeof loader, 0, 1, 0, 0)) || refused("cue", hps_cue(loader, sizeof loader, 5, 0, 0, 0)))
        return 0;
    if (refused("push", hps_push(loader, sizeof loader, 1, left, sizeof left, data, sizeof data, right, sizeof right, data, 0, true, lent,
                                 sizeof lent, &offset, &length)))
        return 0;
    carry_out(offset, length, lent);
    if (refused("finish", hps_finish(loader, sizeof loader, lent, sizeof lent, finished)))
        return 0;
    carry_out(0, 15, lent);
    carry_out(16, 112, lent + 15);
    carry_out(15, 1, lent + 127);
    return 1;
}

static int print_cues(void)
{
    uint8_t cursor[HPS_CURSOR_SIZE] = {0}, cue[HPS_CUE_SIZE];
    for (;;) {
        size_t cues;
        uint32_t number = hps_cues(slot, sizeof slot, opened, sizeof opened, cursor, sizeof cursor, cue, sizeof cue, &cues);
        uint64_t start = 0;
        if (number != HPS_END && refused("cue call", number))
            return 0;
        if (cues == 0)
            return 1;
        for (int i = 0; i < 8; i++)
            start = start << 8 | cue[i];
        printf("cue at %llu\n", (unsigned long long)start);
    }
}

int main(void)
{
    uint8_t out[1024];
    size_t finished, start, end, position = 0;
    uint64_t length;
    uint16_t predictor_and_scale;
    int16_t last, oldest;
    memset(slot, 0xAA, sizeof slot);
    if (!load(&finished) || refused("open", hps_open(slot, sizeof slot, opened, sizeof opened)))
        return 1;
    if (refused("block read", hps_block(slot, sizeof slot, opened, sizeof opened, 0, &position, &start, &end, &length, &predictor_and_scale,
                                        &last, &oldest)))
        return 1;
    printf("%zu bytes, data of the first block at %zu to %zu\n", finished, start, end);
    if (!print_cues())
        return 1;
    fwrite(out, 1, hps_listing(slot, sizeof slot, out, sizeof out), stdout);
    return 0;
}
