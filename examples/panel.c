/*
 * panel.c: draws a scene, redraws it to the next one, and writes the picture as a PAM image.
 *
 *     cc -std=c99 -I include examples/panel.c crates/wayramesh/out/libwayramesh.a -o panel
 *     ./panel > panel.pam                                             a gauge and a mask that are made here
 *     ./panel scenes/panel.scene scenes/panel-next.scene > panel.pam  two scene files
 *     ./panel scenes/panel-soft.scene scenes/panel-soft-next.scene scenes/panel-soft.mask > panel.pam
 *                                                                     and a mask for both, a byte for each pixel
 *     host/target/debug/picture-to-png panel.pam panel.png            as a PNG image, after `cargo build --offline` in host
 *
 * What the two calls answered goes to standard error. The exit status is 0 if both have drawn, 1 if one was refused or a scene
 * could not be made, 2 if a file could not be read.
 */

#include "wayramesh.h"
#include "wayramesh_scene.h"

#include <stdio.h>
#include <stdlib.h>
#include <string.h>

/* ---- A scene in code ------------------------------------------------------------------------------------------ */

enum { GAUGE_WIDTH = 64, GAUGE_HEIGHT = 24, BEZEL = 4, FADE = 6 };
enum { GAUGE_DRAWS = 3, GAUGE_BYTES = WAYRAMESH_SCENE_BYTES(GAUGE_DRAWS) };

/* The trough, lit from above by a radial gradient. */
static void draw_trough(wayramesh_scene *scene)
{
    wayramesh_scene_draw(scene, WAYRAMESH_BLEND_SRC_OVER, 0);
    wayramesh_scene_radial(scene, 32.0f, 12.0f, 32.0f, 16.0f, 40.0f, WAYRAMESH_SPREAD_PAD);
    wayramesh_scene_stop(scene, 0.0f, 0.45f, 0.45f, 0.5f, 1.0f);
    wayramesh_scene_stop(scene, 1.0f, 0.15f, 0.15f, 0.2f, 1.0f);
    wayramesh_scene_rectangle(scene, 2, 4, 62, 20);
}

/* The filling, a ramp from green to red that fades under the mask. */
static void draw_filling(wayramesh_scene *scene)
{
    wayramesh_scene_draw(scene, WAYRAMESH_BLEND_SRC_OVER, WAYRAMESH_FLAG_MASKED);
    wayramesh_scene_linear(scene, 4.0f, 0.0f, 60.0f, 0.0f, WAYRAMESH_SPREAD_PAD);
    wayramesh_scene_stop(scene, 0.0f, 0.0f, 0.8f, 0.0f, 1.0f);
    wayramesh_scene_stop(scene, 1.0f, 0.9f, 0.0f, 0.0f, 1.0f);
    wayramesh_scene_rectangle(scene, 4, 6, 60, 18);
}

/* The needle at a column. */
static void draw_needle(wayramesh_scene *scene, int column)
{
    const int32_t tip[] = {column - 3, 22, column, 2, column + 3, 22};
    wayramesh_scene_draw(scene, WAYRAMESH_BLEND_SRC_OVER, 0);
    wayramesh_scene_color(scene, 1.0f, 1.0f, 1.0f, 1.0f);
    wayramesh_scene_polygon(scene, tip, 3);
}

/* A bar gauge of 64 by 24 pixels. Only the end is looked at: it answers the first thing that went wrong. */
static void make_gauge(uint8_t *bytes, int needle)
{
    wayramesh_scene scene;
    wayramesh_scene_begin(&scene, bytes, GAUGE_BYTES, GAUGE_WIDTH, GAUGE_HEIGHT, 0);
    wayramesh_scene_background(&scene, 0, 0, 0, 255);
    draw_trough(&scene);
    draw_filling(&scene);
    draw_needle(&scene, needle);
    if (wayramesh_scene_end(&scene) != WAYRAMESH_SCENE_BUILT) {
        fprintf(stderr, "draw %u: %s\n", (unsigned)scene.draw, wayramesh_scene_words(scene.code));
        exit(1);
    }
}

/* The mask's byte at a pixel: none of a paint on the bezel, all of it in the middle, and less and less in between. */
static uint8_t mask_byte(int x, int y)
{
    int column = x < GAUGE_WIDTH - 1 - x ? x : GAUGE_WIDTH - 1 - x;
    int row = y < GAUGE_HEIGHT - 1 - y ? y : GAUGE_HEIGHT - 1 - y;
    int depth = (column < row ? column : row) - BEZEL;
    return (uint8_t)(depth <= 0 ? 0 : depth >= FADE ? 255 : 255 * depth / FADE);
}

/* ---- Scenes and masks from files, and the picture out --------------------------------------------------------- */

typedef struct {
    uint8_t *bytes;
    size_t length;
} file;

static void *allocate(size_t bytes)
{
    void *memory = malloc(bytes);
    if (memory == NULL) {
        fprintf(stderr, "out of memory\n");
        exit(2);
    }
    return memory;
}

/* Reads a file, and no more of it than one byte past the most that makes sense. */
static file read_file(const char *name, size_t most)
{
    file f = {allocate(most + 1), 0};
    FILE *stream = fopen(name, "rb");
    if (stream == NULL) {
        perror(name);
        exit(2);
    }
    f.length = fread(f.bytes, 1, most + 1, stream);
    fclose(stream);
    return f;
}

static file gauge_file(int needle)
{
    file f = {allocate(GAUGE_BYTES), GAUGE_BYTES};
    make_gauge(f.bytes, needle);
    return f;
}

static file gauge_mask(void)
{
    file f = {allocate(GAUGE_WIDTH * GAUGE_HEIGHT), GAUGE_WIDTH * GAUGE_HEIGHT};
    for (int y = 0; y < GAUGE_HEIGHT; y++) {
        for (int x = 0; x < GAUGE_WIDTH; x++) {
            f.bytes[GAUGE_WIDTH * y + x] = mask_byte(x, y);
        }
    }
    return f;
}

/* A run of no bytes, which has an address as every run has. */
static file no_mask(void)
{
    file f = {allocate(1), 0};
    return f;
}

/* A 16-bit number of block 0, or 0 where the file is too short to have one. */
static unsigned header_number(file f, size_t at)
{
    return f.length < at + 2 ? 0 : (unsigned)(f.bytes[at] | f.bytes[at + 1] << 8);
}

static void report(const char *call, wayramesh_answer a)
{
    if (a.code == WAYRAMESH_ACCEPTED) {
        fprintf(stderr, "%s: x %u, y %u, width %u, height %u\n", call, a.x, a.y, a.width, a.height);
    } else {
        fprintf(stderr, "%s: refused %04x, draw %u, scene %u\n", call, a.code, a.draw, a.scene);
        exit(1);
    }
}

/* A colour as PAM has it, not premultiplied. */
static int straight(int channel, int alpha)
{
    return alpha == 0 ? 0 : (channel * 255 + alpha / 2) / alpha;
}

/* The top row first, as images have it. */
static void write_pam(const uint8_t *surface, unsigned width, unsigned height)
{
    printf("P7\nWIDTH %u\nHEIGHT %u\nDEPTH 4\nMAXVAL 255\nTUPLTYPE RGB_ALPHA\nENDHDR\n", width, height);
    for (unsigned row = height; row-- > 0;) {
        const uint8_t *pixel = surface + 4 * (size_t)width * row;
        for (unsigned x = 0; x < width; x++, pixel += 4) {
            for (int channel = 0; channel < 3; channel++) {
                putchar(straight(pixel[channel], pixel[3]));
            }
            putchar(pixel[3]);
        }
    }
}

int main(int argc, char **argv)
{
    static int32_t scratch[WAYRAMESH_SCRATCH_NUMBERS];
    if (argc == 2 || argc > 4) {
        fprintf(stderr, "usage: panel [OLD NEW [MASK]] > PICTURE\n");
        return 2;
    }
    int made_here = argc == 1;
    file old_scene = made_here ? gauge_file(16) : read_file(argv[1], WAYRAMESH_MAX_SCENE_BYTES);
    file new_scene = made_here ? gauge_file(44) : read_file(argv[2], WAYRAMESH_MAX_SCENE_BYTES);
    uint32_t mask_lent = made_here || argc == 4;
    file mask = made_here ? gauge_mask()
                : mask_lent ? read_file(argv[3], WAYRAMESH_MAX_SIDE * WAYRAMESH_MAX_SIDE)
                            : no_mask();

    /* The sides are looked at only for the surface's length: the call judges them. */
    unsigned width = header_number(old_scene, 0), height = header_number(old_scene, 2);
    size_t surface_len = 4 * (size_t)width * height;
    uint8_t *surface = allocate(surface_len + 1);

    /* Each answer has its code, so what the context keeps is not asked for here: examples/replay.c does. */
    wayramesh_context context = {0};
    report("draw", wayramesh_draw(&context, old_scene.bytes, old_scene.length, mask_lent, mask.bytes, mask.length, surface,
                                  surface_len, scratch, WAYRAMESH_SCRATCH_NUMBERS));
    report("redraw", wayramesh_redraw(&context, old_scene.bytes, old_scene.length, new_scene.bytes, new_scene.length,
                                      mask_lent, mask.bytes, mask.length, surface, surface_len, scratch,
                                      WAYRAMESH_SCRATCH_NUMBERS));
    write_pam(surface, width, height);

    free(surface);
    free(mask.bytes);
    free(new_scene.bytes);
    free(old_scene.bytes);
    return 0;
}
