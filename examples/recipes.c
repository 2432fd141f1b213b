/*
 * recipes.c: the recipes of docs/RECIPES.md, each tried on a gauge that is made here.
 *
 *     cc -std=c99 -pthread -I include examples/recipes.c crates/wayramesh/out/libwayramesh.a -o recipes
 *     ./recipes
 *
 * A line for each recipe says what was tried. The exit status is 0 if all of it was as it should be, else 1.
 */

#define _XOPEN_SOURCE 700

#include "wayramesh.h"
#include "wayramesh_scene.h"

#include <pthread.h>
#include <signal.h>
#include <stdio.h>
#include <stdlib.h>
#include <string.h>
#include <sys/time.h>
#include <time.h>

enum { WIDTH = 96, HEIGHT = 40, SURFACE_BYTES = 4 * WIDTH * HEIGHT };
enum { DRAWS = 3, SCENE_BYTES = WAYRAMESH_SCENE_BYTES(DRAWS) };
enum { FRAMES = 8, FIRST_COLUMN = 12, STEP = 9 };

static int32_t scratch[WAYRAMESH_SCRATCH_NUMBERS];
static wayramesh_context context;

static void require(int holds, const char *what)
{
    if (!holds) {
        fprintf(stderr, "wrong: %s\n", what);
        exit(1);
    }
}

/* ---- Rows from the top down ------------------------------------------------------------------------------------ */

/* Which way y goes on a surface: up from the lower edge, as it is, or down from the upper edge. */
typedef struct {
    float step;
    float edge;
} direction;

static const direction UP = {1.0f, 0.0f};
static const direction DOWN = {-1.0f, (float)HEIGHT};

/* Begins a draw whose path goes that way. */
static void begin_draw(wayramesh_scene *scene, direction way)
{
    wayramesh_scene_draw(scene, WAYRAMESH_BLEND_SRC_OVER, 0);
    wayramesh_scene_matrix(scene, 1.0f, 0.0f, 0.0f, way.step, 0.0f, way.edge);
}

/* A gradient along y, and a scissor: neither is moved by the matrix. */
static void light_from(wayramesh_scene *scene, direction way, float y0, float y1)
{
    wayramesh_scene_linear(scene, 0.0f, way.edge + way.step * y0, 0.0f, way.edge + way.step * y1, WAYRAMESH_SPREAD_PAD);
}

static void keep_rows(wayramesh_scene *scene, direction way, int y, int height)
{
    wayramesh_scene_scissor(scene, 0, way.step > 0.0f ? y : HEIGHT - y - height, WIDTH, height);
}

/* A gauge with its needle at a column. */
static void make_gauge(uint8_t *bytes, int column, direction way)
{
    const int32_t needle[] = {column - 4, 36, column, 3, column + 4, 36};
    wayramesh_scene scene;
    wayramesh_scene_begin(&scene, bytes, SCENE_BYTES, WIDTH, HEIGHT, 0);
    wayramesh_scene_background(&scene, 7, 8, 10, 255);
    begin_draw(&scene, way);
    light_from(&scene, way, 4.0f, 30.0f);
    wayramesh_scene_rectangle(&scene, 4, 4, 92, 30);
    begin_draw(&scene, way);
    keep_rows(&scene, way, 6, 4);
    wayramesh_scene_color(&scene, 0.2f, 0.9f, 0.5f, 1.0f);
    wayramesh_scene_rectangle(&scene, 8, 0, 88, HEIGHT);
    begin_draw(&scene, way);
    wayramesh_scene_color(&scene, 1.0f, 0.3f, 0.2f, 1.0f);
    wayramesh_scene_polygon(&scene, needle, 3);
    require(wayramesh_scene_end(&scene) == WAYRAMESH_SCENE_BUILT, wayramesh_scene_words(scene.code));
}

static void draw_full(const uint8_t *scene, uint8_t *surface)
{
    wayramesh_answer answer =
        wayramesh_draw_unmasked(&context, scene, SCENE_BYTES, surface, SURFACE_BYTES, scratch,
                                WAYRAMESH_SCRATCH_NUMBERS);
    require(answer.code == WAYRAMESH_ACCEPTED, "a full drawing");
}

static void try_top_down(void)
{
    static uint8_t scene[SCENE_BYTES], up[SURFACE_BYTES], down[SURFACE_BYTES];
    make_gauge(scene, 40, UP);
    draw_full(scene, up);
    make_gauge(scene, 40, DOWN);
    draw_full(scene, down);
    for (size_t y = 0; y < HEIGHT; y++) {
        require(memcmp(up + 4 * WIDTH * y, down + 4 * WIDTH * (HEIGHT - 1 - y), 4 * WIDTH) == 0, "a row from the top");
    }
    printf("top down: the same rows, the top one first\n");
}

/* ---- Two buffers in turn --------------------------------------------------------------------------------------- */

/* A surface, and the scene that it shows; none at first, with a length of 0. */
typedef struct {
    uint8_t surface[SURFACE_BYTES];
    uint8_t scene[SCENE_BYTES];
    size_t scene_len;
} buffer;

/* Shows a scene in the buffer that is not on the display. What it shows is two frames old, and so is its scene. */
static wayramesh_answer show(buffer *back, const uint8_t *scene, size_t scene_len)
{
    wayramesh_answer answer;
    if (back->scene_len == 0) {
        answer = wayramesh_draw_unmasked(&context, scene, scene_len, back->surface, SURFACE_BYTES, scratch,
                                         WAYRAMESH_SCRATCH_NUMBERS);
    } else {
        answer = wayramesh_redraw_unmasked(&context, back->scene, back->scene_len, scene, scene_len, back->surface,
                                           SURFACE_BYTES, scratch, WAYRAMESH_SCRATCH_NUMBERS);
    }
    if (answer.code == WAYRAMESH_ACCEPTED) {
        memcpy(back->scene, scene, scene_len);
        back->scene_len = scene_len;
    }
    return answer;
}

static void try_two_buffers(void)
{
    static buffer buffers[2];
    static uint8_t scene[SCENE_BYTES], last[SCENE_BYTES], expected[SURFACE_BYTES], wrong[SURFACE_BYTES];
    for (int frame = 0; frame < FRAMES; frame++) {
        buffer *back = &buffers[frame % 2];
        make_gauge(scene, FIRST_COLUMN + STEP * frame, UP);
        memcpy(wrong, back->surface, SURFACE_BYTES);
        require(show(back, scene, SCENE_BYTES).code == WAYRAMESH_ACCEPTED, "a frame");
        draw_full(scene, expected);
        require(memcmp(back->surface, expected, SURFACE_BYTES) == 0, "a frame of two buffers");
        if (frame >= 2) {
            /* From the scene of the frame before, the needle of two frames back would stay. */
            wayramesh_redraw_unmasked(&context, last, SCENE_BYTES, scene, SCENE_BYTES, wrong, SURFACE_BYTES, scratch,
                                      WAYRAMESH_SCRATCH_NUMBERS);
            require(memcmp(wrong, expected, SURFACE_BYTES) != 0, "the needle that stays");
        }
        memcpy(last, scene, SCENE_BYTES);
    }
    printf("two buffers: %d frames, each as if drawn in full\n", FRAMES);
}

/* ---- Other pixel orders and strides ---------------------------------------------------------------------------- */

/* Copies an area to a display with B, G, R and an unused byte for each pixel, the top row first, rows of stride bytes. */
static void copy_bgrx(const uint8_t *surface, wayramesh_answer area, uint8_t *display, size_t stride)
{
    for (uint32_t y = area.y; y < area.y + area.height; y++) {
        const uint8_t *from = surface + 4 * ((size_t)WIDTH * y + area.x);
        uint8_t *to = display + stride * (HEIGHT - 1 - y) + 4 * (size_t)area.x;
        for (uint32_t x = 0; x < area.width; x++, from += 4, to += 4) {
            to[0] = from[2];
            to[1] = from[1];
            to[2] = from[0];
        }
    }
}

/* The same for a display of 16 bits, red in the highest five; stride is in pixels. */
static void copy_rgb565(const uint8_t *surface, wayramesh_answer area, uint16_t *display, size_t stride)
{
    for (uint32_t y = area.y; y < area.y + area.height; y++) {
        const uint8_t *from = surface + 4 * ((size_t)WIDTH * y + area.x);
        uint16_t *to = display + stride * (HEIGHT - 1 - y) + area.x;
        for (uint32_t x = 0; x < area.width; x++, from += 4) {
            *to++ = (uint16_t)((from[0] & 0xF8) << 8 | (from[1] & 0xFC) << 3 | from[2] >> 3);
        }
    }
}

static void try_displays(void)
{
    enum { STRIDE = 4 * WIDTH + 64, SHORT_STRIDE = WIDTH + 4 };
    static buffer shown;
    static uint8_t scene[SCENE_BYTES], bgrx[STRIDE * HEIGHT];
    static uint16_t rgb565[SHORT_STRIDE * HEIGHT];
    uint32_t copied = 0;
    for (int frame = 0; frame < FRAMES; frame++) {
        wayramesh_answer area;
        make_gauge(scene, FIRST_COLUMN + STEP * frame, UP);
        area = show(&shown, scene, SCENE_BYTES);
        copy_bgrx(shown.surface, area, bgrx, STRIDE);
        copy_rgb565(shown.surface, area, rgb565, SHORT_STRIDE);
        copied += area.width * area.height;
        for (size_t y = 0; y < HEIGHT; y++) {
            for (size_t x = 0; x < WIDTH; x++) {
                const uint8_t *pixel = shown.surface + 4 * (WIDTH * (HEIGHT - 1 - y) + x), *b = bgrx + STRIDE * y + 4 * x;
                uint16_t word = rgb565[SHORT_STRIDE * y + x];
                require(b[0] == pixel[2] && b[1] == pixel[1] && b[2] == pixel[0] && b[3] == 0, "a pixel of 32 bits");
                require(word >> 11 == pixel[0] >> 3 && (word >> 5 & 63) == pixel[1] >> 2 && (word & 31) == pixel[2] >> 3,
                        "a pixel of 16 bits");
            }
        }
    }
    require(copied < FRAMES * WIDTH * HEIGHT, "areas that are smaller");
    printf("displays: %u of %u pixels copied, the whole picture there\n", (unsigned)copied, FRAMES * WIDTH * HEIGHT);
}

/* ---- Threads and interrupts ------------------------------------------------------------------------------------ */

/* What a thread draws with: nothing is shared with others but the scene, which nobody writes. */
typedef struct {
    const uint8_t *scene;
    uint8_t surface[SURFACE_BYTES];
    int32_t scratch[WAYRAMESH_SCRATCH_NUMBERS];
    wayramesh_context context;
    uint32_t code;
} drawing;

static void *draw_in_thread(void *argument)
{
    drawing *own = argument;
    own->code = wayramesh_draw_unmasked(&own->context, own->scene, SCENE_BYTES, own->surface, SURFACE_BYTES, own->scratch,
                                        WAYRAMESH_SCRATCH_NUMBERS)
                    .code;
    return NULL;
}

static void try_threads(void)
{
    enum { THREADS = 4 };
    static drawing drawings[THREADS];
    static uint8_t scene[SCENE_BYTES], expected[SURFACE_BYTES];
    pthread_t threads[THREADS];
    make_gauge(scene, 40, UP);
    draw_full(scene, expected);
    for (int i = 0; i < THREADS; i++) {
        drawings[i].scene = scene;
        require(pthread_create(&threads[i], NULL, draw_in_thread, &drawings[i]) == 0, "a thread");
    }
    for (int i = 0; i < THREADS; i++) {
        pthread_join(threads[i], NULL);
        require(drawings[i].code == WAYRAMESH_ACCEPTED && memcmp(drawings[i].surface, expected, SURFACE_BYTES) == 0,
                "a thread's picture");
    }
    printf("threads: %d at once, all with the same picture\n", THREADS);
}

static drawing within;
static volatile sig_atomic_t interrupts;

/* A call within a call, on buffers of its own. The system keeps the registers of what is interrupted. */
static void on_interrupt(int number)
{
    (void)number;
    draw_in_thread(&within);
    interrupts++;
}

static void try_interrupts(void)
{
    static uint8_t scene[SCENE_BYTES], inner[SCENE_BYTES], surface[SURFACE_BYTES], expected[SURFACE_BYTES];
    const struct itimerval often = {{0, 500}, {0, 500}}, never = {{0, 0}, {0, 0}};
    struct sigaction action;
    make_gauge(inner, 70, UP);
    within.scene = inner;
    make_gauge(scene, 40, UP);
    draw_full(scene, expected);
    memset(&action, 0, sizeof action);
    action.sa_handler = on_interrupt;
    action.sa_flags = SA_RESTART;
    require(sigaction(SIGALRM, &action, NULL) == 0 && setitimer(ITIMER_REAL, &often, NULL) == 0, "a timer");
    while (interrupts < 20) {
        memset(surface, 0, SURFACE_BYTES);
        draw_full(scene, surface);
        require(memcmp(surface, expected, SURFACE_BYTES) == 0, "an interrupted picture");
    }
    setitimer(ITIMER_REAL, &never, NULL);
    draw_full(inner, expected);
    require(within.code == WAYRAMESH_ACCEPTED && memcmp(within.surface, expected, SURFACE_BYTES) == 0, "the inner picture");
    printf("interrupts: drawings within drawings, all right\n");
}

/* ---- Time on one's own machine ---------------------------------------------------------------------------------- */

static double microseconds(void)
{
    struct timespec now;
    clock_gettime(CLOCK_MONOTONIC, &now);
    return 1e6 * (double)now.tv_sec + 1e-3 * (double)now.tv_nsec;
}

static int ascending(const void *one, const void *other)
{
    double a = *(const double *)one, b = *(const double *)other;
    return (a > b) - (a < b);
}

/* Redraws between two scenes; the least time of a call, and the one that half of them stay below. */
static void try_time(void)
{
    enum { CALLS = 101 };
    static uint8_t scenes[2][SCENE_BYTES], surface[SURFACE_BYTES];
    static double times[CALLS];
    make_gauge(scenes[0], 40, UP);
    make_gauge(scenes[1], 49, UP);
    draw_full(scenes[0], surface);
    for (int call = 0; call < CALLS; call++) {
        double start = microseconds();
        wayramesh_redraw_unmasked(&context, scenes[call % 2], SCENE_BYTES, scenes[1 - call % 2], SCENE_BYTES,
                                  surface, SURFACE_BYTES, scratch, WAYRAMESH_SCRATCH_NUMBERS);
        times[call] = microseconds() - start;
    }
    qsort(times, CALLS, sizeof times[0], ascending);
    printf("time: a redraw in %.1f microseconds, the least %.1f\n", times[CALLS / 2], times[0]);
}

int main(void)
{
    try_top_down();
    try_two_buffers();
    try_displays();
    try_threads();
    try_interrupts();
    try_time();
    return 0;
}
