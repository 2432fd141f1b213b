/*
 * composite.c: the blending step on one pixel, a call for each line of standard input.
 *
 *     cc -std=c99 -I include examples/composite.c crates/wayramesh/out/libwayramesh.a -o composite
 *     echo 2001 80000080 0000ffff 16 | ./composite         half-transparent red over blue: 80007fff
 *     ./composite < tests/vectors/step/P06.txt
 *
 * A line has the blend mode, the source and the destination in hexadecimal, R, G, B, A and premultiplied, the coverage,
 * and the mask's byte, or 255 where there is none. What follows is not read, and a line that begins with # is none. The
 * pixel to be stored is printed, or the code of the refusal and the destination.
 */

#include "wayramesh.h"

#include <inttypes.h>
#include <stdio.h>

static wayramesh_pixel pixel_of(uint32_t number)
{
    wayramesh_pixel pixel = {(uint8_t)(number >> 24), (uint8_t)(number >> 16), (uint8_t)(number >> 8), (uint8_t)number};
    return pixel;
}

static uint32_t number_of(wayramesh_pixel pixel)
{
    return (uint32_t)pixel.r << 24 | (uint32_t)pixel.g << 16 | (uint32_t)pixel.b << 8 | pixel.a;
}

int main(void)
{
    char line[256];
    while (fgets(line, sizeof line, stdin) != NULL) {
        uint32_t mode, source, destination, coverage, mask = 255;
        if (line[0] == '#') {
            continue;
        }
        if (sscanf(line, "%" SCNx32 " %" SCNx32 " %" SCNx32 " %" SCNu32 " %" SCNu32, &mode, &source, &destination,
                   &coverage, &mask) < 4) {
            fprintf(stderr, "no call: %s", line);
            return 1;
        }
        wayramesh_composited answer =
            wayramesh_composite(mode, coverage, mask, pixel_of(source), pixel_of(destination));
        if (answer.code != WAYRAMESH_ACCEPTED) {
            printf("refused %04" PRIx32 " ", answer.code);
        }
        printf("%08" PRIx32 "\n", number_of(answer.pixel));
    }
    return 0;
}
