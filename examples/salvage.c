/*
 * salvage.c: a scene with spoiled blocks is written again.
 *
 *     cc -std=c99 -I include examples/salvage.c crates/wayramesh/out/libwayramesh.a -o salvage
 *     ./salvage < spoiled.scene > salvaged.scene
 *
 * The salvaged scene goes to standard output, and what was replaced to standard error: `replaced N`, then the number and the
 * code of each replaced draw; or `refused CODE`, and then no scene is written.
 */

#include "wayramesh.h"

#include <inttypes.h>
#include <stdio.h>

/* A byte more than the longest scene, so that a longer file is refused for its length. */
static uint8_t scene[WAYRAMESH_MAX_SCENE_BYTES + 1];
static uint8_t place[WAYRAMESH_MAX_SCENE_BYTES + 1];
static uint32_t list[WAYRAMESH_LIST_NUMBERS];

int main(void)
{
    size_t length = fread(scene, 1, sizeof scene, stdin);
    wayramesh_salvaged answer = wayramesh_salvage(scene, length, place, sizeof place, list, WAYRAMESH_LIST_NUMBERS);
    if (answer.code != WAYRAMESH_ACCEPTED) {
        fprintf(stderr, "refused %04" PRIx32 "\n", answer.code);
        return 1;
    }
    fprintf(stderr, "replaced %" PRIu32 "\n", answer.replaced);
    for (uint32_t i = 0; i < answer.replaced; i++) {
        fprintf(stderr, "%" PRIu32 " %04" PRIx32 "\n", list[2 * i], list[2 * i + 1]);
    }
    return fwrite(place, 1, length, stdout) == length ? 0 : 1;
}
