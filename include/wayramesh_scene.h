/*
 * wayramesh_scene.h: makes scene files in C, in a buffer that the caller lends.
 *
 *     static uint8_t bytes[WAYRAMESH_SCENE_BYTES(1)];
 *     wayramesh_scene scene;
 *
 *     wayramesh_scene_begin(&scene, bytes, sizeof bytes, 64, 24, 0);
 *     wayramesh_scene_background(&scene, 0, 0, 0, 255);
 *     wayramesh_scene_draw(&scene, WAYRAMESH_BLEND_SRC_OVER, 0);
 *     wayramesh_scene_color(&scene, 1.0f, 0.0f, 0.0f, 1.0f);
 *     wayramesh_scene_rectangle(&scene, 2, 4, 62, 20);
 *     if (wayramesh_scene_end(&scene) != WAYRAMESH_SCENE_BUILT) {
 *         fprintf(stderr, "draw %u: %s\n", scene.draw, wayramesh_scene_words(scene.code));
 *     }
 *
 * Then bytes and scene.length are what wayramesh_draw takes. examples/panel.c is a whole program.
 *
 * Everything here is in this file, in plain C99 that is C++ too: it allocates nothing, calls nothing but memcpy and memset,
 * and links without the library. Nothing of it is proved. What it holds to, and is tested for:
 *
 *   1. Every call ends with a code, for all numbers that it is given. The first code other than WAYRAMESH_SCENE_BUILT stays:
 *      later calls change nothing and answer it again, so that it is enough to look at what wayramesh_scene_end answers.
 *   2. No call writes outside the buffer.
 *   3. A scene that wayramesh_scene_end answers WAYRAMESH_SCENE_BUILT for passes every rule of docs/FORMAT.md. One with a
 *      draw that is WAYRAMESH_FLAG_MASKED needs a mask lent with the call.
 *
 * Of pointers it takes for granted what C does: scene leads to a wayramesh_scene on which wayramesh_scene_begin was called,
 * the buffer has as many bytes as its length says and stays there, and nobody else writes it until the end. The buffer may
 * be NULL if its length is 0.
 */

#ifndef WAYRAMESH_SCENE_H
#define WAYRAMESH_SCENE_H

#include "wayramesh.h"

#include <string.h>

#ifdef __cplusplus
extern "C" {
#endif

/* ---- Codes ---- */

/* So far nothing is wrong. */
#define WAYRAMESH_SCENE_BUILT 0u
/* The buffer has no place for block 0 or for one more draw: it takes WAYRAMESH_SCENE_BYTES(draws). */
#define WAYRAMESH_SCENE_TOO_SMALL 0xC001u
/* Width or height is not 1 to WAYRAMESH_MAX_SIDE. */
#define WAYRAMESH_SCENE_BAD_SIZE 0xC002u
/* The edition is neither 0 nor 1, or edition 0 is given a transformation. */
#define WAYRAMESH_SCENE_BAD_EDITION 0xC003u
/* More than WAYRAMESH_MAX_DRAWS draws. */
#define WAYRAMESH_SCENE_TOO_MANY_DRAWS 0xC004u
/* A call that belongs to a draw, before the first wayramesh_scene_draw. */
#define WAYRAMESH_SCENE_NO_DRAW 0xC005u
/* A flag that is none of WAYRAMESH_FLAG_..., a blend mode that is none of WAYRAMESH_BLEND_..., a spread that is none of
   WAYRAMESH_SPREAD_... */
#define WAYRAMESH_SCENE_BAD_FLAG 0xC006u
#define WAYRAMESH_SCENE_BAD_BLEND 0xC007u
#define WAYRAMESH_SCENE_BAD_SPREAD 0xC008u
/* A segment that is none of WAYRAMESH_SEGMENT_..., or one with another number of coordinates than it takes. */
#define WAYRAMESH_SCENE_BAD_SEGMENT 0xC009u
/* More than WAYRAMESH_MAX_SEGMENTS, WAYRAMESH_MAX_COORDINATES(edition), WAYRAMESH_MAX_SCISSORS, or WAYRAMESH_MAX_STOPS,
   which a radial gradient has one less of. */
#define WAYRAMESH_SCENE_TOO_MANY_SEGMENTS 0xC00Au
#define WAYRAMESH_SCENE_TOO_MANY_COORDINATES 0xC00Bu
#define WAYRAMESH_SCENE_TOO_MANY_SCISSORS 0xC00Cu
#define WAYRAMESH_SCENE_TOO_MANY_STOPS 0xC00Du
/* A float that is NaN, or beyond the limit that its call names. */
#define WAYRAMESH_SCENE_BAD_NUMBER 0xC00Eu
/* A paint that is radial after stops of one that is not, or the other way round: the paint comes before its stops. */
#define WAYRAMESH_SCENE_PAINT_AFTER_STOPS 0xC00Fu
/* The focal point of a radial gradient lies on or outside its circle. */
#define WAYRAMESH_SCENE_BAD_FOCUS 0xC010u
/* A draw with segments whose matrix maps all points to a line. */
#define WAYRAMESH_SCENE_FLAT_MATRIX 0xC011u
/* A coordinate, or a point of the path, absolute and with reflected controls, is outside -32,768..32,767; or the matrix
   brings a point further than 32,768 pixels from the surface's origin. */
#define WAYRAMESH_SCENE_BAD_POINT 0xC012u

/* A code in words. */
static inline const char *wayramesh_scene_words(uint32_t code)
{
    switch (code) {
    case WAYRAMESH_SCENE_BUILT: return "nothing is wrong";
    case WAYRAMESH_SCENE_TOO_SMALL: return "the buffer is too small";
    case WAYRAMESH_SCENE_BAD_SIZE: return "width or height is not 1 to 1,024";
    case WAYRAMESH_SCENE_BAD_EDITION: return "no such edition, or a transformation in edition 0";
    case WAYRAMESH_SCENE_TOO_MANY_DRAWS: return "more than 64 draws";
    case WAYRAMESH_SCENE_NO_DRAW: return "no draw has begun";
    case WAYRAMESH_SCENE_BAD_FLAG: return "no such flag";
    case WAYRAMESH_SCENE_BAD_BLEND: return "no such blend mode";
    case WAYRAMESH_SCENE_BAD_SPREAD: return "no such spread";
    case WAYRAMESH_SCENE_BAD_SEGMENT: return "no such segment, or not its number of coordinates";
    case WAYRAMESH_SCENE_TOO_MANY_SEGMENTS: return "more than 128 segments";
    case WAYRAMESH_SCENE_TOO_MANY_COORDINATES: return "more than 566 coordinates, in edition 1 more than 550";
    case WAYRAMESH_SCENE_TOO_MANY_SCISSORS: return "more than 4 scissors";
    case WAYRAMESH_SCENE_TOO_MANY_STOPS: return "more than 32 stops, in a radial draw more than 31";
    case WAYRAMESH_SCENE_BAD_NUMBER: return "a float is NaN or beyond its limit";
    case WAYRAMESH_SCENE_PAINT_AFTER_STOPS: return "the paint comes after its stops";
    case WAYRAMESH_SCENE_BAD_FOCUS: return "the focal point is not within the circle";
    case WAYRAMESH_SCENE_FLAT_MATRIX: return "the matrix maps all points to a line";
    case WAYRAMESH_SCENE_BAD_POINT: return "a point is out of range";
    default: return "no code of a scene in the making";
    }
}

/* ---- Numbers of the scene file ---- */

/* The bytes of a file with so many draws. */
#define WAYRAMESH_SCENE_BYTES(draws) (WAYRAMESH_BLOCK_BYTES * (1u + 4u * (draws)))

/* How many of each a scene or a draw may have. */
#define WAYRAMESH_MAX_DRAWS 64u
#define WAYRAMESH_MAX_SEGMENTS 128u
#define WAYRAMESH_MAX_COORDINATES(edition) ((edition) == 0u ? 566u : 550u)
#define WAYRAMESH_MAX_SCISSORS 4u
#define WAYRAMESH_MAX_STOPS 32u

/* Flags of a draw, to be joined by |. Non-zero in place of even-odd. */
#define WAYRAMESH_FLAG_NON_ZERO 1u
/* Only pixels in one of the scissors are drawn, none if there are none. wayramesh_scene_scissor turns it on. */
#define WAYRAMESH_FLAG_SCISSORING 2u
/* Stops are premultiplied before interpolation: colours that fade to transparent do not darken on the way. */
#define WAYRAMESH_FLAG_PREMULTIPLIED_RAMP 4u
/* The draw asks for the mask that is lent with the call. */
#define WAYRAMESH_FLAG_MASKED 8u
/* The colour transformation is on; edition 1 only. wayramesh_scene_transformation turns it on. */
#define WAYRAMESH_FLAG_TRANSFORMED 16u

#define WAYRAMESH_PAINT_COLOR 0x1B00u
#define WAYRAMESH_PAINT_LINEAR 0x1B01u
#define WAYRAMESH_PAINT_RADIAL 0x1B02u

/* Beyond its ends a gradient keeps its last colour, begins again, or turns back. */
#define WAYRAMESH_SPREAD_PAD 0x1C00u
#define WAYRAMESH_SPREAD_REPEAT 0x1C01u
#define WAYRAMESH_SPREAD_REFLECT 0x1C02u

/* Segments, and the bit that makes their coordinates relative to the current point. */
#define WAYRAMESH_SEGMENT_CLOSE 0u
#define WAYRAMESH_SEGMENT_MOVE 2u
#define WAYRAMESH_SEGMENT_LINE 4u
#define WAYRAMESH_SEGMENT_HORIZONTAL 6u
#define WAYRAMESH_SEGMENT_VERTICAL 8u
#define WAYRAMESH_SEGMENT_QUAD 10u
#define WAYRAMESH_SEGMENT_CUBIC 12u
#define WAYRAMESH_SEGMENT_SMOOTH_QUAD 14u
#define WAYRAMESH_SEGMENT_SMOOTH_CUBIC 16u
#define WAYRAMESH_SEGMENT_RELATIVE 1u

/* ---- A scene in the making ---- */

/*
 *   bytes, capacity   The lent buffer.
 *   length            The bytes of the finished file; 0 unless the last wayramesh_scene_end answered WAYRAMESH_SCENE_BUILT.
 *   code              The first code other than WAYRAMESH_SCENE_BUILT, or that one.
 *   draw              The draw that it was met in, from 0; WAYRAMESH_NO_DRAW if in none.
 *
 * These may be read; the others count what the scene and its last draw have, for the calls below.
 */
typedef struct wayramesh_scene {
    uint8_t *bytes;
    size_t capacity;
    size_t length;
    uint32_t code;
    uint32_t draw;
    uint32_t edition;
    uint32_t draws;
    uint32_t flags;
    uint32_t paint;
    uint32_t segments;
    uint32_t coordinates;
    uint32_t scissors;
    uint32_t stops;
} wayramesh_scene;

/* ---- What the calls are made of ---- */

/* A float has the four bytes of the file. */
typedef char wayramesh_internal_float[sizeof(float) == 4 ? 1 : -1];

/* Places in the joined payloads of a draw's four blocks, which have 508 bytes each. */
#define WAYRAMESH_INTERNAL_PAYLOAD 508u
#define WAYRAMESH_INTERNAL_COUNTS 8u
#define WAYRAMESH_INTERNAL_MATRIX 12u
#define WAYRAMESH_INTERNAL_COLOR 36u
#define WAYRAMESH_INTERNAL_LINEAR 52u
#define WAYRAMESH_INTERNAL_SCISSORS 68u
#define WAYRAMESH_INTERNAL_STOPS 132u
#define WAYRAMESH_INTERNAL_STOP_BYTES 20u
#define WAYRAMESH_INTERNAL_SEGMENTS 772u
#define WAYRAMESH_INTERNAL_TRANSFORMATION 900u
#define WAYRAMESH_INTERNAL_COORDINATES(edition) ((edition) == 0u ? 900u : 932u)

/* Notes a code, if it is the first. */
static inline uint32_t wayramesh_internal_note(wayramesh_scene *scene, uint32_t code)
{
    if (scene->code == WAYRAMESH_SCENE_BUILT && code != WAYRAMESH_SCENE_BUILT) {
        scene->code = code;
        scene->draw = scene->draws == 0 ? WAYRAMESH_NO_DRAW : scene->draws - 1;
    }
    return scene->code;
}

/* The code of a call that belongs to a draw, before it looks at its arguments. */
static inline uint32_t wayramesh_internal_in_draw(wayramesh_scene *scene)
{
    scene->length = 0;
    return wayramesh_internal_note(scene, scene->draws == 0 ? WAYRAMESH_SCENE_NO_DRAW : WAYRAMESH_SCENE_BUILT);
}

/* The byte at a place of the last draw. There is one, and the place is below 4 * 508. */
static inline uint8_t *wayramesh_internal_at(const wayramesh_scene *scene, uint32_t place)
{
    size_t block = 1u + 4u * ((size_t)scene->draws - 1u) + place / WAYRAMESH_INTERNAL_PAYLOAD;
    return scene->bytes + WAYRAMESH_BLOCK_BYTES * block + place % WAYRAMESH_INTERNAL_PAYLOAD;
}

static inline void wayramesh_internal_put_u16(uint8_t *at, uint32_t number)
{
    at[0] = (uint8_t)(number & 255u);
    at[1] = (uint8_t)(number >> 8 & 255u);
}

static inline uint32_t wayramesh_internal_get_u16(const uint8_t *at)
{
    return (uint32_t)at[0] | (uint32_t)at[1] << 8;
}

/* Places of numbers are even, and so is a payload's length: 16 bits never lie across two blocks, but 32 bits may. */
static inline void wayramesh_internal_put_u32(wayramesh_scene *scene, uint32_t place, uint32_t number)
{
    wayramesh_internal_put_u16(wayramesh_internal_at(scene, place), number & 65535u);
    wayramesh_internal_put_u16(wayramesh_internal_at(scene, place + 2u), number >> 16);
}

static inline uint32_t wayramesh_internal_get_u32(const wayramesh_scene *scene, uint32_t place)
{
    return wayramesh_internal_get_u16(wayramesh_internal_at(scene, place)) |
           wayramesh_internal_get_u16(wayramesh_internal_at(scene, place + 2u)) << 16;
}

/* The sizes of floats, as bits without the sign: they are in order as the floats are, NaN above all. */
#define WAYRAMESH_INTERNAL_INFINITE 0x7F800000u
#define WAYRAMESH_INTERNAL_32768 0x47000000u
#define WAYRAMESH_INTERNAL_4096 0x45800000u
#define WAYRAMESH_INTERNAL_1024 0x44800000u
#define WAYRAMESH_INTERNAL_256 0x43800000u

static inline uint32_t wayramesh_internal_bits(float value)
{
    uint32_t bits;
    memcpy(&bits, &value, sizeof bits);
    return bits;
}

/* Whether all of these floats are at most so large, which no NaN is. */
static inline int wayramesh_internal_allowed(const float *values, uint32_t count, uint32_t most)
{
    for (uint32_t i = 0; i < count; i++) {
        if ((wayramesh_internal_bits(values[i]) & 0x7FFFFFFFu) > most) {
            return 0;
        }
    }
    return 1;
}

/* Writes floats at a place of the last draw if they are allowed. */
static inline uint32_t wayramesh_internal_floats(wayramesh_scene *scene, uint32_t place, const float *values,
                                                 uint32_t count, uint32_t most)
{
    if (!wayramesh_internal_allowed(values, count, most)) {
        return wayramesh_internal_note(scene, WAYRAMESH_SCENE_BAD_NUMBER);
    }
    for (uint32_t i = 0; i < count; i++) {
        wayramesh_internal_put_u32(scene, place + 4u * i, wayramesh_internal_bits(values[i]));
    }
    return scene->code;
}

static inline void wayramesh_internal_set_flags(wayramesh_scene *scene, uint32_t flags)
{
    scene->flags = flags;
    wayramesh_internal_put_u16(wayramesh_internal_at(scene, 0), flags);
}

/* floor(2^log2_scale * v + 1/2), exact, for a float of at most 32,768 in size by its bits, and a scale up to 65,536. */
static inline int64_t wayramesh_internal_whole(uint32_t bits, int log2_scale)
{
    int exponent = (int)(bits >> 23 & 255u);
    int64_t size = (int64_t)(bits & 0x7FFFFFu) + (exponent == 0 ? 0 : 0x800000);
    int power = (exponent == 0 ? 1 : exponent) - 150 + log2_scale;
    int negative = bits >> 31 != 0;
    if (power >= 0) {
        return (negative ? -size : size) * ((int64_t)1 << power);
    }
    if (power < -26) {
        return 0; /* size is below 2^24, so the sum lies in 0..1 */
    }
    int64_t unit = (int64_t)1 << -power, half = unit / 2;
    if (!negative) {
        return (size + half) / unit;
    }
    return size <= half ? 0 : -((size - half + unit - 1) / unit);
}

typedef struct wayramesh_internal_point {
    int64_t x;
    int64_t y;
} wayramesh_internal_point;

/* (a * x + b * y + c + 128) / 256, rounded down: 1/256 pixel of a point under matrix entries in 1/65,536. */
static inline int64_t wayramesh_internal_mapped(int64_t a, int64_t b, int64_t c, wayramesh_internal_point p)
{
    int64_t sum = a * p.x + b * p.y + c + 128;
    return sum >= 0 ? sum / 256 : -((255 - sum) / 256);
}

static inline int wayramesh_internal_within(int64_t value, int64_t least, int64_t most)
{
    return least <= value && value <= most;
}

/* Whether a path may have this point under a matrix sx, shy, shx, sy, tx, ty. */
static inline int wayramesh_internal_point_allowed(const int64_t *m, wayramesh_internal_point p)
{
    return wayramesh_internal_within(p.x, -32768, 32767) && wayramesh_internal_within(p.y, -32768, 32767) &&
           wayramesh_internal_within(wayramesh_internal_mapped(m[0], m[2], m[4], p), -8388608, 8388608) &&
           wayramesh_internal_within(wayramesh_internal_mapped(m[1], m[3], m[5], p), -8388608, 8388608);
}

/* How many coordinates a segment takes; 7 if there is no such segment. */
static inline uint32_t wayramesh_internal_taken(uint32_t segment)
{
    switch (segment & ~WAYRAMESH_SEGMENT_RELATIVE) {
    case WAYRAMESH_SEGMENT_CLOSE: return 0;
    case WAYRAMESH_SEGMENT_HORIZONTAL:
    case WAYRAMESH_SEGMENT_VERTICAL: return 1;
    case WAYRAMESH_SEGMENT_MOVE:
    case WAYRAMESH_SEGMENT_LINE:
    case WAYRAMESH_SEGMENT_SMOOTH_QUAD: return 2;
    case WAYRAMESH_SEGMENT_QUAD:
    case WAYRAMESH_SEGMENT_SMOOTH_CUBIC: return 4;
    case WAYRAMESH_SEGMENT_CUBIC: return 6;
    default: return 7;
    }
}

static inline int64_t wayramesh_internal_coordinate(const wayramesh_scene *scene, uint32_t number)
{
    uint32_t place = WAYRAMESH_INTERNAL_COORDINATES(scene->edition) + 2u * number;
    int64_t word = (int64_t)wayramesh_internal_get_u16(wayramesh_internal_at(scene, place));
    return word < 32768 ? word : word - 65536;
}

/* The pen on its way: the subpath's start, the current point, the last control, and the coordinates used. */
typedef struct wayramesh_internal_pen {
    wayramesh_internal_point start;
    wayramesh_internal_point current;
    wayramesh_internal_point control;
    uint32_t used;
} wayramesh_internal_pen;

/* The next point that a segment names, absolute; those of horizontal and vertical lines have the current other half. */
static inline wayramesh_internal_point wayramesh_internal_next(const wayramesh_scene *scene, wayramesh_internal_pen *pen,
                                                               uint32_t segment)
{
    uint32_t number = segment & ~WAYRAMESH_SEGMENT_RELATIVE;
    int64_t x = segment & WAYRAMESH_SEGMENT_RELATIVE ? pen->current.x : 0;
    int64_t y = segment & WAYRAMESH_SEGMENT_RELATIVE ? pen->current.y : 0;
    wayramesh_internal_point p = pen->current;
    if (number != WAYRAMESH_SEGMENT_VERTICAL) {
        p.x = x + wayramesh_internal_coordinate(scene, pen->used++);
    }
    if (number != WAYRAMESH_SEGMENT_HORIZONTAL) {
        p.y = y + wayramesh_internal_coordinate(scene, pen->used++);
    }
    return p;
}

/* Walks one segment of the last draw; whether all of its points are allowed. */
static inline int wayramesh_internal_step(const wayramesh_scene *scene, const int64_t *matrix,
                                          wayramesh_internal_pen *pen, uint32_t segment)
{
    uint32_t number = segment & ~WAYRAMESH_SEGMENT_RELATIVE;
    uint32_t count = (wayramesh_internal_taken(segment) + 1u) / 2u;
    int smooth = number == WAYRAMESH_SEGMENT_SMOOTH_QUAD || number == WAYRAMESH_SEGMENT_SMOOTH_CUBIC;
    wayramesh_internal_point reflected = {2 * pen->current.x - pen->control.x, 2 * pen->current.y - pen->control.y};
    wayramesh_internal_point before = reflected, last = pen->start;
    if (smooth && !wayramesh_internal_point_allowed(matrix, reflected)) {
        return 0;
    }
    for (uint32_t i = 0; i < count; i++) {
        before = i == 0 ? before : last;
        last = wayramesh_internal_next(scene, pen, segment);
        if (!wayramesh_internal_point_allowed(matrix, last)) {
            return 0;
        }
    }
    /* Of a curve the control before its end is kept; what is no curve has none. */
    pen->control = count > 1u || smooth ? before : last;
    pen->current = last;
    pen->start = number == WAYRAMESH_SEGMENT_MOVE ? last : pen->start;
    return 1;
}

/* The rules that the last draw can be judged by only when it is whole: its matrix with its path. */
static inline uint32_t wayramesh_internal_close_draw(wayramesh_scene *scene)
{
    int64_t matrix[6];
    wayramesh_internal_pen pen = {{0, 0}, {0, 0}, {0, 0}, 0};
    if (scene->code != WAYRAMESH_SCENE_BUILT || scene->draws == 0 || scene->segments == 0) {
        return scene->code;
    }
    for (uint32_t i = 0; i < 6; i++) {
        matrix[i] = wayramesh_internal_whole(wayramesh_internal_get_u32(scene, WAYRAMESH_INTERNAL_MATRIX + 4u * i), 16);
    }
    if (matrix[0] * matrix[3] == matrix[1] * matrix[2]) {
        return wayramesh_internal_note(scene, WAYRAMESH_SCENE_FLAT_MATRIX);
    }
    for (uint32_t i = 0; i < scene->segments; i++) {
        if (!wayramesh_internal_step(scene, matrix, &pen, *wayramesh_internal_at(scene, WAYRAMESH_INTERNAL_SEGMENTS + i))) {
            return wayramesh_internal_note(scene, WAYRAMESH_SCENE_BAD_POINT);
        }
    }
    return scene->code;
}

/* Writes a block's check, both sums of which begin at its number. */
static inline void wayramesh_internal_seal(uint8_t *bytes, size_t number)
{
    uint8_t *block = bytes + WAYRAMESH_BLOCK_BYTES * number;
    uint32_t sum = (uint32_t)number, weighted = (uint32_t)number;
    for (uint32_t i = 1; i <= WAYRAMESH_INTERNAL_PAYLOAD / 2u; i++) {
        uint32_t word = wayramesh_internal_get_u16(block + 2u * i - 2u);
        sum = (sum + word) % 65521u;
        weighted = (weighted + i * word) % 65521u;
    }
    wayramesh_internal_put_u16(block + WAYRAMESH_INTERNAL_PAYLOAD, sum);
    wayramesh_internal_put_u16(block + WAYRAMESH_INTERNAL_PAYLOAD + 2u, weighted);
}

/* ---- The scene ---- */

/*
 * Begins a scene in a lent buffer, without draws and with a transparent background. In edition 1 draws have a colour
 * transformation and 550 coordinates, in edition 0 none and 566.
 *
 *   width, height   1 to WAYRAMESH_MAX_SIDE.
 *   edition         0 or 1.
 */
static inline uint32_t wayramesh_scene_begin(wayramesh_scene *scene, uint8_t *buffer, size_t buffer_len,
                                             uint32_t width, uint32_t height, uint32_t edition)
{
    memset(scene, 0, sizeof *scene);
    scene->bytes = buffer;
    scene->capacity = buffer == NULL ? 0 : buffer_len;
    scene->draw = WAYRAMESH_NO_DRAW;
    scene->edition = edition == 0u ? 0u : 1u;
    if (scene->capacity < WAYRAMESH_BLOCK_BYTES) {
        return wayramesh_internal_note(scene, WAYRAMESH_SCENE_TOO_SMALL);
    }
    if (width - 1u >= WAYRAMESH_MAX_SIDE || height - 1u >= WAYRAMESH_MAX_SIDE) {
        return wayramesh_internal_note(scene, WAYRAMESH_SCENE_BAD_SIZE);
    }
    if (edition > 1u) {
        return wayramesh_internal_note(scene, WAYRAMESH_SCENE_BAD_EDITION);
    }
    memset(buffer, 0, WAYRAMESH_BLOCK_BYTES);
    wayramesh_internal_put_u16(buffer, width);
    wayramesh_internal_put_u16(buffer + 2, height);
    wayramesh_internal_put_u16(buffer + 6, edition);
    return scene->code;
}

/* The background, not premultiplied. */
static inline uint32_t wayramesh_scene_background(wayramesh_scene *scene, uint8_t r, uint8_t g, uint8_t b, uint8_t a)
{
    const uint8_t color[4] = {r, g, b, a};
    scene->length = 0;
    if (scene->code == WAYRAMESH_SCENE_BUILT) {
        memcpy(scene->bytes + 8, color, sizeof color);
    }
    return scene->code;
}

/*
 * Ends the scene: judges its last draw and writes the blocks' checks. Then scene->length bytes of the buffer are the file.
 * More may be added behind it, if the scene is ended again then.
 */
static inline uint32_t wayramesh_scene_end(wayramesh_scene *scene)
{
    scene->length = 0;
    if (wayramesh_internal_close_draw(scene) != WAYRAMESH_SCENE_BUILT) {
        return scene->code;
    }
    wayramesh_internal_put_u16(scene->bytes + 4, scene->draws);
    for (size_t number = 0; number < 1u + 4u * (size_t)scene->draws; number++) {
        wayramesh_internal_seal(scene->bytes, number);
    }
    scene->length = WAYRAMESH_SCENE_BYTES((size_t)scene->draws);
    return scene->code;
}

/* ---- A draw ---- */

/*
 * Judges the draw before, and begins the next one: an empty path in transparent black, with the identity matrix. What
 * follows belongs to it, in any order but that the paint comes before its stops.
 *
 *   blend   One of WAYRAMESH_BLEND_...
 *   flags   Some of WAYRAMESH_FLAG_..., or 0.
 */
static inline uint32_t wayramesh_scene_draw(wayramesh_scene *scene, uint32_t blend, uint32_t flags)
{
    const float identity[6] = {1.0f, 0.0f, 0.0f, 1.0f, 0.0f, 0.0f}, scales[4] = {1.0f, 1.0f, 1.0f, 1.0f};
    scene->length = 0;
    if (wayramesh_internal_close_draw(scene) != WAYRAMESH_SCENE_BUILT) {
        return scene->code;
    }
    if (scene->draws >= WAYRAMESH_MAX_DRAWS) {
        return wayramesh_internal_note(scene, WAYRAMESH_SCENE_TOO_MANY_DRAWS);
    }
    if (scene->capacity < WAYRAMESH_SCENE_BYTES((size_t)scene->draws + 1u)) {
        return wayramesh_internal_note(scene, WAYRAMESH_SCENE_TOO_SMALL);
    }
    memset(scene->bytes + WAYRAMESH_SCENE_BYTES((size_t)scene->draws), 0, 4u * WAYRAMESH_BLOCK_BYTES);
    scene->draws++;
    scene->segments = scene->coordinates = scene->scissors = scene->stops = 0;
    scene->paint = WAYRAMESH_PAINT_COLOR;
    if (flags > 31u) {
        return wayramesh_internal_note(scene, WAYRAMESH_SCENE_BAD_FLAG);
    }
    if ((flags & WAYRAMESH_FLAG_TRANSFORMED) != 0 && scene->edition == 0u) {
        return wayramesh_internal_note(scene, WAYRAMESH_SCENE_BAD_EDITION);
    }
    if (blend - WAYRAMESH_BLEND_SRC > WAYRAMESH_BLEND_DST_IN - WAYRAMESH_BLEND_SRC) {
        return wayramesh_internal_note(scene, WAYRAMESH_SCENE_BAD_BLEND);
    }
    wayramesh_internal_set_flags(scene, flags);
    wayramesh_internal_put_u16(wayramesh_internal_at(scene, 2), blend);
    wayramesh_internal_put_u16(wayramesh_internal_at(scene, 4), WAYRAMESH_PAINT_COLOR);
    wayramesh_internal_put_u16(wayramesh_internal_at(scene, 6), WAYRAMESH_SPREAD_PAD);
    if (scene->edition == 1u) {
        wayramesh_internal_floats(scene, WAYRAMESH_INTERNAL_TRANSFORMATION, scales, 4, WAYRAMESH_INTERNAL_INFINITE);
    }
    return wayramesh_internal_floats(scene, WAYRAMESH_INTERNAL_MATRIX, identity, 6, WAYRAMESH_INTERNAL_256);
}

/*
 * The matrix: a point (x, y) of the path lies at (sx * x + shx * y + tx, shy * x + sy * y + ty) in pixels, row 0 the
 * lowest. With coordinates in sixteenths of a pixel, sx and sy are 1 / 16. Gradients and scissors are not moved by it.
 *
 *   sx, shy, shx, sy   At most 256 in size.
 *   tx, ty             At most 32,768 in size.
 */
static inline uint32_t wayramesh_scene_matrix(wayramesh_scene *scene, float sx, float shy, float shx, float sy, float tx,
                                              float ty)
{
    const float scales[4] = {sx, shy, shx, sy}, shifts[2] = {tx, ty};
    if (wayramesh_internal_in_draw(scene) != WAYRAMESH_SCENE_BUILT ||
        wayramesh_internal_floats(scene, WAYRAMESH_INTERNAL_MATRIX, scales, 4, WAYRAMESH_INTERNAL_256) !=
            WAYRAMESH_SCENE_BUILT) {
        return scene->code;
    }
    return wayramesh_internal_floats(scene, WAYRAMESH_INTERNAL_MATRIX + 16u, shifts, 2, WAYRAMESH_INTERNAL_32768);
}

/* Sets the paint, which is to be before its stops where it is or was radial: that has its circle in the first one's place. */
static inline uint32_t wayramesh_internal_paint(wayramesh_scene *scene, uint32_t paint)
{
    const float none[5] = {0.0f, 0.0f, 0.0f, 0.0f, 0.0f};
    int moves = (paint == WAYRAMESH_PAINT_RADIAL) != (scene->paint == WAYRAMESH_PAINT_RADIAL);
    if (moves && scene->stops > 0) {
        return wayramesh_internal_note(scene, WAYRAMESH_SCENE_PAINT_AFTER_STOPS);
    }
    scene->paint = paint;
    wayramesh_internal_put_u16(wayramesh_internal_at(scene, 4), paint);
    return moves ? wayramesh_internal_floats(scene, WAYRAMESH_INTERNAL_STOPS, none, 5, WAYRAMESH_INTERNAL_1024)
                 : scene->code;
}

static inline uint32_t wayramesh_internal_gradient(wayramesh_scene *scene, uint32_t paint, uint32_t spread)
{
    if (wayramesh_internal_in_draw(scene) != WAYRAMESH_SCENE_BUILT) {
        return scene->code;
    }
    if (spread - WAYRAMESH_SPREAD_PAD > WAYRAMESH_SPREAD_REFLECT - WAYRAMESH_SPREAD_PAD) {
        return wayramesh_internal_note(scene, WAYRAMESH_SCENE_BAD_SPREAD);
    }
    wayramesh_internal_put_u16(wayramesh_internal_at(scene, 6), spread);
    return wayramesh_internal_paint(scene, paint);
}

/* Paints in a colour, not premultiplied; 0 to 1, and what is beyond is cut to that. */
static inline uint32_t wayramesh_scene_color(wayramesh_scene *scene, float r, float g, float b, float a)
{
    const float color[4] = {r, g, b, a};
    if (wayramesh_internal_in_draw(scene) != WAYRAMESH_SCENE_BUILT ||
        wayramesh_internal_paint(scene, WAYRAMESH_PAINT_COLOR) != WAYRAMESH_SCENE_BUILT) {
        return scene->code;
    }
    return wayramesh_internal_floats(scene, WAYRAMESH_INTERNAL_COLOR, color, 4, WAYRAMESH_INTERNAL_INFINITE);
}

/*
 * Paints in a gradient from (x0, y0) to (x1, y1), in pixels of the surface and at most 4,096 in size. Without stops it goes
 * from black to white.
 */
static inline uint32_t wayramesh_scene_linear(wayramesh_scene *scene, float x0, float y0, float x1, float y1,
                                              uint32_t spread)
{
    const float points[4] = {x0, y0, x1, y1};
    if (wayramesh_internal_gradient(scene, WAYRAMESH_PAINT_LINEAR, spread) != WAYRAMESH_SCENE_BUILT) {
        return scene->code;
    }
    return wayramesh_internal_floats(scene, WAYRAMESH_INTERNAL_LINEAR, points, 4, WAYRAMESH_INTERNAL_4096);
}

/*
 * Paints in a gradient from the focal point (fx, fy) to the circle about (cx, cy) with radius r, in pixels of the surface
 * and at most 1,024 in size. Where r is above 0 the focal point lies within the circle.
 */
static inline uint32_t wayramesh_scene_radial(wayramesh_scene *scene, float cx, float cy, float fx, float fy, float r,
                                              uint32_t spread)
{
    const float circle[5] = {cx, cy, fx, fy, r};
    int64_t whole[5], x, y;
    if (wayramesh_internal_gradient(scene, WAYRAMESH_PAINT_RADIAL, spread) != WAYRAMESH_SCENE_BUILT ||
        wayramesh_internal_floats(scene, WAYRAMESH_INTERNAL_STOPS, circle, 5, WAYRAMESH_INTERNAL_1024) !=
            WAYRAMESH_SCENE_BUILT) {
        return scene->code;
    }
    for (uint32_t i = 0; i < 5; i++) {
        whole[i] = wayramesh_internal_whole(wayramesh_internal_bits(circle[i]), 4);
    }
    x = whole[2] - whole[0];
    y = whole[3] - whole[1];
    return wayramesh_internal_note(scene, whole[4] > 0 && x * x + y * y >= whole[4] * whole[4] ? WAYRAMESH_SCENE_BAD_FOCUS
                                                                                                : WAYRAMESH_SCENE_BUILT);
}

/* Appends a stop of the gradient: its offset, 0 to 1 and not below the one before, and its colour, not premultiplied. */
static inline uint32_t wayramesh_scene_stop(wayramesh_scene *scene, float offset, float r, float g, float b, float a)
{
    const float stop[5] = {offset, r, g, b, a};
    uint32_t number = scene->stops + (scene->paint == WAYRAMESH_PAINT_RADIAL ? 1u : 0u);
    if (wayramesh_internal_in_draw(scene) != WAYRAMESH_SCENE_BUILT) {
        return scene->code;
    }
    if (number >= WAYRAMESH_MAX_STOPS) {
        return wayramesh_internal_note(scene, WAYRAMESH_SCENE_TOO_MANY_STOPS);
    }
    scene->stops++;
    *wayramesh_internal_at(scene, WAYRAMESH_INTERNAL_COUNTS + 2u) = (uint8_t)scene->stops;
    return wayramesh_internal_floats(scene, WAYRAMESH_INTERNAL_STOPS + WAYRAMESH_INTERNAL_STOP_BYTES * number, stop, 5,
                                     WAYRAMESH_INTERNAL_INFINITE);
}

/*
 * Appends a scissor and turns scissoring on: of the draw only what lies in one of its scissors is seen. A scissor holds
 * pixels x to x + width - 1 and y to y + height - 1 of the surface; one without width or height holds none.
 */
static inline uint32_t wayramesh_scene_scissor(wayramesh_scene *scene, int32_t x, int32_t y, int32_t width,
                                               int32_t height)
{
    const int32_t numbers[4] = {x, y, width, height};
    uint32_t place = WAYRAMESH_INTERNAL_SCISSORS + 16u * scene->scissors;
    if (wayramesh_internal_in_draw(scene) != WAYRAMESH_SCENE_BUILT) {
        return scene->code;
    }
    if (scene->scissors >= WAYRAMESH_MAX_SCISSORS) {
        return wayramesh_internal_note(scene, WAYRAMESH_SCENE_TOO_MANY_SCISSORS);
    }
    scene->scissors++;
    *wayramesh_internal_at(scene, WAYRAMESH_INTERNAL_COUNTS + 1u) = (uint8_t)scene->scissors;
    for (uint32_t i = 0; i < 4; i++) {
        wayramesh_internal_put_u32(scene, place + 4u * i, (uint32_t)numbers[i]);
    }
    wayramesh_internal_set_flags(scene, scene->flags | WAYRAMESH_FLAG_SCISSORING);
    return scene->code;
}

/*
 * Transforms the paint's colours, in edition 1: each channel is multiplied by its scale, and its bias is added. Scales are
 * cut to -127..127 and biases to -1..1; scales of 1 and biases of 0 change nothing.
 */
static inline uint32_t wayramesh_scene_transformation(wayramesh_scene *scene, float r_scale, float g_scale, float b_scale,
                                                      float a_scale, float r_bias, float g_bias, float b_bias,
                                                      float a_bias)
{
    const float values[8] = {r_scale, g_scale, b_scale, a_scale, r_bias, g_bias, b_bias, a_bias};
    if (wayramesh_internal_in_draw(scene) != WAYRAMESH_SCENE_BUILT) {
        return scene->code;
    }
    if (scene->edition == 0u) {
        return wayramesh_internal_note(scene, WAYRAMESH_SCENE_BAD_EDITION);
    }
    wayramesh_internal_set_flags(scene, scene->flags | WAYRAMESH_FLAG_TRANSFORMED);
    return wayramesh_internal_floats(scene, WAYRAMESH_INTERNAL_TRANSFORMATION, values, 8, WAYRAMESH_INTERNAL_INFINITE);
}

/* ---- The path of a draw ---- */

/*
 * Appends any segment.
 *
 *   segment              One of WAYRAMESH_SEGMENT_..., with | WAYRAMESH_SEGMENT_RELATIVE where its coordinates are relative
 *                        to the current point.
 *   coordinates, count   The coordinates, -32,768 to 32,767, and how many there are: as many as the segment takes.
 */
static inline uint32_t wayramesh_scene_segment(wayramesh_scene *scene, uint32_t segment, const int32_t *coordinates,
                                               size_t count)
{
    uint32_t first = WAYRAMESH_INTERNAL_COORDINATES(scene->edition);
    uint32_t taken = wayramesh_internal_taken(segment);
    if (wayramesh_internal_in_draw(scene) != WAYRAMESH_SCENE_BUILT) {
        return scene->code;
    }
    if (taken > 6u || count != taken) {
        return wayramesh_internal_note(scene, WAYRAMESH_SCENE_BAD_SEGMENT);
    }
    if (scene->segments >= WAYRAMESH_MAX_SEGMENTS) {
        return wayramesh_internal_note(scene, WAYRAMESH_SCENE_TOO_MANY_SEGMENTS);
    }
    if (scene->coordinates + taken > WAYRAMESH_MAX_COORDINATES(scene->edition)) {
        return wayramesh_internal_note(scene, WAYRAMESH_SCENE_TOO_MANY_COORDINATES);
    }
    for (uint32_t i = 0; i < taken; i++) {
        if (!wayramesh_internal_within(coordinates[i], -32768, 32767)) {
            return wayramesh_internal_note(scene, WAYRAMESH_SCENE_BAD_POINT);
        }
    }
    for (uint32_t i = 0; i < taken; i++) {
        wayramesh_internal_put_u16(wayramesh_internal_at(scene, first + 2u * scene->coordinates), (uint32_t)coordinates[i]);
        scene->coordinates++;
    }
    *wayramesh_internal_at(scene, WAYRAMESH_INTERNAL_SEGMENTS + scene->segments) = (uint8_t)segment;
    scene->segments++;
    *wayramesh_internal_at(scene, WAYRAMESH_INTERNAL_COUNTS) = (uint8_t)scene->segments;
    return scene->code;
}

/* Begins a subpath. Where the last one is open, it is closed by an edge, as at the path's end. */
static inline uint32_t wayramesh_scene_move_to(wayramesh_scene *scene, int32_t x, int32_t y)
{
    const int32_t coordinates[2] = {x, y};
    return wayramesh_scene_segment(scene, WAYRAMESH_SEGMENT_MOVE, coordinates, 2);
}

static inline uint32_t wayramesh_scene_line_to(wayramesh_scene *scene, int32_t x, int32_t y)
{
    const int32_t coordinates[2] = {x, y};
    return wayramesh_scene_segment(scene, WAYRAMESH_SEGMENT_LINE, coordinates, 2);
}

static inline uint32_t wayramesh_scene_horizontal_to(wayramesh_scene *scene, int32_t x)
{
    return wayramesh_scene_segment(scene, WAYRAMESH_SEGMENT_HORIZONTAL, &x, 1);
}

static inline uint32_t wayramesh_scene_vertical_to(wayramesh_scene *scene, int32_t y)
{
    return wayramesh_scene_segment(scene, WAYRAMESH_SEGMENT_VERTICAL, &y, 1);
}

/* A curve to (x, y) with the control (x1, y1). */
static inline uint32_t wayramesh_scene_quad_to(wayramesh_scene *scene, int32_t x1, int32_t y1, int32_t x, int32_t y)
{
    const int32_t coordinates[4] = {x1, y1, x, y};
    return wayramesh_scene_segment(scene, WAYRAMESH_SEGMENT_QUAD, coordinates, 4);
}

/* A curve to (x, y) with the controls (x1, y1) and (x2, y2). */
static inline uint32_t wayramesh_scene_cubic_to(wayramesh_scene *scene, int32_t x1, int32_t y1, int32_t x2, int32_t y2,
                                                int32_t x, int32_t y)
{
    const int32_t coordinates[6] = {x1, y1, x2, y2, x, y};
    return wayramesh_scene_segment(scene, WAYRAMESH_SEGMENT_CUBIC, coordinates, 6);
}

/* Curves that go on without a kink: their first control is the last one reflected at the current point. */
static inline uint32_t wayramesh_scene_smooth_quad_to(wayramesh_scene *scene, int32_t x, int32_t y)
{
    const int32_t coordinates[2] = {x, y};
    return wayramesh_scene_segment(scene, WAYRAMESH_SEGMENT_SMOOTH_QUAD, coordinates, 2);
}

static inline uint32_t wayramesh_scene_smooth_cubic_to(wayramesh_scene *scene, int32_t x2, int32_t y2, int32_t x,
                                                       int32_t y)
{
    const int32_t coordinates[4] = {x2, y2, x, y};
    return wayramesh_scene_segment(scene, WAYRAMESH_SEGMENT_SMOOTH_CUBIC, coordinates, 4);
}

/* An edge to the subpath's start. */
static inline uint32_t wayramesh_scene_close(wayramesh_scene *scene)
{
    return wayramesh_scene_segment(scene, WAYRAMESH_SEGMENT_CLOSE, NULL, 0);
}

/* The closed rectangle from one corner to the other. */
static inline uint32_t wayramesh_scene_rectangle(wayramesh_scene *scene, int32_t x0, int32_t y0, int32_t x1, int32_t y1)
{
    wayramesh_scene_move_to(scene, x0, y0);
    wayramesh_scene_horizontal_to(scene, x1);
    wayramesh_scene_vertical_to(scene, y1);
    wayramesh_scene_horizontal_to(scene, x0);
    return wayramesh_scene_close(scene);
}

/* The closed polygon through points, x and y of each in turn; without points, nothing. */
static inline uint32_t wayramesh_scene_polygon(wayramesh_scene *scene, const int32_t *points, size_t count)
{
    for (size_t i = 0; i < count; i++) {
        wayramesh_scene_segment(scene, i == 0 ? WAYRAMESH_SEGMENT_MOVE : WAYRAMESH_SEGMENT_LINE, points + 2 * i, 2);
    }
    return count == 0 ? wayramesh_internal_in_draw(scene) : wayramesh_scene_close(scene);
}

#ifdef __cplusplus
}
#endif

#endif
