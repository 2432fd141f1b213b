/*
 * replay.c: a minute of driving in one call. A needle goes up and down in 600 frames, which lie one behind another in
 * memory; one of them was spoiled on the way.
 *
 *     cc -std=c99 -I include examples/replay.c crates/wayramesh/out/libwayramesh.a -o replay
 *     ./replay
 *
 * It prints what the replay answered, and the code that the context kept.
 */

#include "wayramesh.h"

#include <stdio.h>
#include <stdlib.h>
#include <string.h>

enum { PAYLOAD = 508, DRAW_BLOCKS = 4, DRAW_BYTES = PAYLOAD * DRAW_BLOCKS, DRAWS = 2 };
enum { FRAME_BYTES = (int)WAYRAMESH_BLOCK_BYTES * (1 + DRAW_BLOCKS * DRAWS) };
enum { WIDTH = 64, HEIGHT = 24, FRAMES = (int)WAYRAMESH_MAX_SCENES, SPOILED = 300, LOWEST = 10, HIGHEST = 54 };

static void put_u16(uint8_t *at, unsigned value)
{
    at[0] = (uint8_t)(value & 255u);
    at[1] = (uint8_t)(value >> 8 & 255u);
}

static void put_f32(uint8_t *at, float value)
{
    uint32_t bits;
    memcpy(&bits, &value, sizeof bits);
    put_u16(at, bits & 65535u);
    put_u16(at + 2, bits >> 16);
}

/* Copies a payload into the block of a file and writes the block's check, both sums of which begin at its number. */
static void put_block(uint8_t *file, uint32_t number, const uint8_t *payload)
{
    uint8_t *block = file + WAYRAMESH_BLOCK_BYTES * number;
    uint32_t sum = number, weighted = number;
    for (uint32_t i = 1; i <= PAYLOAD / 2; i++) {
        uint32_t word = (uint32_t)(payload[2 * i - 2] | payload[2 * i - 1] << 8);
        sum = (sum + word) % 65521u;
        weighted = (weighted + i * word) % 65521u;
    }
    memcpy(block, payload, PAYLOAD);
    put_u16(block + PAYLOAD, sum);
    put_u16(block + PAYLOAD + 2, weighted);
}

/* A closed polygon in a grey: a move, lines, a close; surface pixels as units. */
static void polygon(uint8_t *file, uint32_t number, float grey, const int *points, int count)
{
    uint8_t draw[DRAW_BYTES] = {0};
    put_u16(draw + 2, 0x2001);
    put_u16(draw + 4, 0x1B00);
    put_u16(draw + 6, 0x1C00);
    draw[8] = (uint8_t)(count + 1);
    put_f32(draw + 12, 1.0f);
    put_f32(draw + 24, 1.0f);
    for (int i = 0; i < 4; i++) {
        put_f32(draw + 36 + 4 * i, i == 3 ? 1.0f : grey);
    }
    for (int i = 0; i < count; i++) {
        draw[772 + i] = (uint8_t)(i == 0 ? 2 : 4);
        put_u16(draw + 900 + 4 * i, (unsigned)points[2 * i]);
        put_u16(draw + 902 + 4 * i, (unsigned)points[2 * i + 1]);
    }
    for (uint32_t i = 0; i < DRAW_BLOCKS; i++) {
        put_block(file, 1 + DRAW_BLOCKS * number + i, draw + PAYLOAD * i);
    }
}

/* The gauge with its needle at a column. */
static void put_frame(uint8_t *file, int needle)
{
    static const int trough[] = {2, 4, 62, 4, 62, 20, 2, 20};
    const int tip[] = {needle - 3, 19, needle, 2, needle + 3, 19};
    uint8_t payload[PAYLOAD] = {0};
    put_u16(payload, WIDTH);
    put_u16(payload + 2, HEIGHT);
    put_u16(payload + 4, DRAWS);
    payload[11] = 255;
    put_block(file, 0, payload);
    polygon(file, 0, 0.25f, trough, 4);
    polygon(file, 1, 1.0f, tip, 3);
}

/* Where the needle is in a frame: up and down, a column at a time. */
static int needle_at(int frame)
{
    int turn = frame % (2 * (HIGHEST - LOWEST));
    return turn <= HIGHEST - LOWEST ? LOWEST + turn : 2 * HIGHEST - LOWEST - turn;
}

int main(void)
{
    static uint8_t frames[FRAMES * FRAME_BYTES];
    static uint8_t surface[4 * WIDTH * HEIGHT], last[4 * WIDTH * HEIGHT];
    static uint32_t lengths[FRAMES], answers[FRAMES * WAYRAMESH_ANSWER_NUMBERS];
    static int32_t scratch[WAYRAMESH_SCRATCH_NUMBERS];
    wayramesh_context context = {0};

    for (int i = 0; i < FRAMES; i++) {
        put_frame(frames + FRAME_BYTES * i, needle_at(i));
        lengths[i] = FRAME_BYTES;
    }
    frames[FRAME_BYTES * SPOILED + 3000] ^= 1;

    uint32_t code = wayramesh_replay_unmasked(&context, frames, sizeof frames, lengths, FRAMES, surface, sizeof surface,
                                              scratch, WAYRAMESH_SCRATCH_NUMBERS, answers,
                                              FRAMES * WAYRAMESH_ANSWER_NUMBERS);
    int accepted = 0;
    for (size_t i = 0; code == WAYRAMESH_ACCEPTED && i < FRAMES; i++) {
        accepted += answers[WAYRAMESH_ANSWER_NUMBERS * i] == WAYRAMESH_ACCEPTED;
    }
    printf("replay %04x: %d frames, %d accepted\n", code, FRAMES, accepted);
    const uint32_t *spoiled = answers + WAYRAMESH_ANSWER_NUMBERS * SPOILED;
    printf("frame %d: refused %04x, draw %u, scene %u\n", SPOILED, spoiled[0], spoiled[1], spoiled[2]);
    const uint32_t *end = answers + WAYRAMESH_ANSWER_NUMBERS * (FRAMES - 1);
    printf("frame %d: redrawn x %u, y %u, width %u, height %u\n", FRAMES - 1, end[3], end[4], end[5], end[6]);

    /* The surface is the full drawing of the last frame, which is drawn here with a context of its own. */
    wayramesh_context other = {0};
    wayramesh_draw_unmasked(&other, frames + FRAME_BYTES * (FRAMES - 1), FRAME_BYTES, last, sizeof last, scratch,
                            WAYRAMESH_SCRATCH_NUMBERS);
    printf("the picture is %s\n", memcmp(surface, last, sizeof last) == 0 ? "frame 599's" : "another");

    uint32_t first = wayramesh_take_code(&context);
    printf("code %04x, then %04x\n", first, wayramesh_take_code(&context));
    return 0;
}
