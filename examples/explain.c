/*
 * explain.c: why a pixel has its colour, printed as the program explain prints it.
 *
 *     cc -std=c99 -I include examples/explain.c crates/wayramesh/out/libwayramesh.a -o explain
 *     ./explain scenes/panel.scene 512 300
 *     ./explain scenes/panel-soft.scene 512 300 scenes/panel-soft.mask
 *
 * Prints a line for each draw, and the pixel; or a refusal, with its offset in the file.
 */

#include "wayramesh.h"

#include <inttypes.h>
#include <stdio.h>
#include <stdlib.h>

/* A file, and the bytes that were read; longer files are cut, one byte behind all that is accepted. */
typedef struct {
    uint8_t *bytes;
    size_t length;
} contents;

static contents file_of(const char *name, size_t most)
{
    contents file = {malloc(most), 0};
    FILE *from = fopen(name, "rb");
    if (file.bytes == NULL || from == NULL) {
        perror(name);
        exit(1);
    }
    file.length = fread(file.bytes, 1, most, from);
    fclose(from);
    return file;
}

static void print_pixel(const char *what, wayramesh_pixel pixel)
{
    printf(" %s %02x%02x%02x%02x", what, pixel.r, pixel.g, pixel.b, pixel.a);
}

static void print_line(uint32_t draw, wayramesh_line line)
{
    static const char *const kinds[] = {"none", "outside", "uncovered", "covered"};
    printf("draw %" PRIu32 " %s", draw, kinds[line.kind]);
    print_pixel("before", line.before);
    print_pixel("after", line.after);
    if (line.kind == WAYRAMESH_COVERED) {
        printf(" k %" PRIu32, line.coverage);
        if (line.masked) {
            printf(" mask %" PRIu32, line.mask);
        }
        print_pixel("paint", line.paint);
    }
    printf("\n");
}

int main(int count, char **words)
{
    if (count != 4 && count != 5) {
        fprintf(stderr, "usage: explain SCENE X Y [MASK]\n");
        return 2;
    }
    contents scene = file_of(words[1], WAYRAMESH_MAX_SCENE_BYTES + 1);
    uint32_t x = (uint32_t)strtoul(words[2], NULL, 10);
    uint32_t y = (uint32_t)strtoul(words[3], NULL, 10);
    uint32_t lent = count == 5;
    contents mask = scene;
    if (lent) {
        mask = file_of(words[4], WAYRAMESH_MAX_SIDE * WAYRAMESH_MAX_SIDE + 1);
    }

    wayramesh_explanation start = wayramesh_explain(scene.bytes, scene.length, lent, mask.bytes, mask.length, x, y);
    if (start.code != WAYRAMESH_ACCEPTED) {
        printf("refused %04" PRIx32 " %" PRIu32 " offset %zu\n", start.code, start.draw, start.offset);
        return 1;
    }
    wayramesh_pixel pixel = start.pixel;
    for (uint32_t draw = 0; draw < start.draws; draw++) {
        wayramesh_line line =
            wayramesh_explain_draw(scene.bytes, scene.length, lent, mask.bytes, mask.length, x, y, draw, pixel);
        print_line(draw, line);
        pixel = line.after;
    }
    printf("pixel %02x%02x%02x%02x\n", pixel.r, pixel.g, pixel.b, pixel.a);
    return 0;
}
