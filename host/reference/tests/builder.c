/*
 * builder.c: makes scenes by include/wayramesh_scene.h as standard input says, a call for each line, for builder.rs.
 *
 * Floats are given by their bits, in hexadecimal. Each scene has a buffer of exactly the bytes that its line `begin` names,
 * between guards that are looked at after every call. A line `end` prints the answer: code, draw and length, then the file, and
 * the code in words. A line `end quietly` leaves out the file.
 */

#include "wayramesh_scene.h"

#include <stdio.h>
#include <stdlib.h>

/* Under a sanitizer there are none: it sees a byte beyond the buffer itself. */
#ifndef GUARD
#define GUARD 64u
#endif
enum { MOST_WORDS = 600 };
static const uint8_t GUARD_BYTE = 0xA5;

/* The words of a line behind its first. */
static char *words[MOST_WORDS];
static size_t word_count;

static int32_t number(size_t i)
{
    return i < word_count ? (int32_t)strtol(words[i], NULL, 10) : 0;
}

static uint32_t hex(size_t i)
{
    return i < word_count ? (uint32_t)strtoul(words[i], NULL, 16) : 0;
}

static float real(size_t i)
{
    uint32_t bits = hex(i);
    float value;
    memcpy(&value, &bits, sizeof value);
    return value;
}

static uint8_t byte(size_t i)
{
    return (uint8_t)number(i);
}

static uint8_t *memory;
static size_t capacity;

/* A fresh buffer between its guards. */
static uint8_t *lend(size_t bytes)
{
    free(memory);
    capacity = bytes;
    memory = (uint8_t *)malloc(bytes + 2 * GUARD);
    if (memory == NULL) {
        exit(2);
    }
    memset(memory, GUARD_BYTE, bytes + 2 * GUARD);
    return memory + GUARD;
}

static void look_at_guards(const char *call)
{
    for (size_t i = GUARD; i > 0; i--) {
        if (memory[i - 1] != GUARD_BYTE || memory[GUARD + capacity + i - 1] != GUARD_BYTE) {
            fprintf(stderr, "%s wrote outside the buffer\n", call);
            exit(3);
        }
    }
}

/* A segment with absolute coordinates, by the call that is named after it. */
static uint32_t segment_to(wayramesh_scene *scene, uint32_t segment)
{
    switch (segment) {
    case WAYRAMESH_SEGMENT_CLOSE: return wayramesh_scene_close(scene);
    case WAYRAMESH_SEGMENT_MOVE: return wayramesh_scene_move_to(scene, number(1), number(2));
    case WAYRAMESH_SEGMENT_LINE: return wayramesh_scene_line_to(scene, number(1), number(2));
    case WAYRAMESH_SEGMENT_HORIZONTAL: return wayramesh_scene_horizontal_to(scene, number(1));
    case WAYRAMESH_SEGMENT_VERTICAL: return wayramesh_scene_vertical_to(scene, number(1));
    case WAYRAMESH_SEGMENT_QUAD: return wayramesh_scene_quad_to(scene, number(1), number(2), number(3), number(4));
    case WAYRAMESH_SEGMENT_CUBIC:
        return wayramesh_scene_cubic_to(scene, number(1), number(2), number(3), number(4), number(5), number(6));
    case WAYRAMESH_SEGMENT_SMOOTH_QUAD: return wayramesh_scene_smooth_quad_to(scene, number(1), number(2));
    case WAYRAMESH_SEGMENT_SMOOTH_CUBIC:
        return wayramesh_scene_smooth_cubic_to(scene, number(1), number(2), number(3), number(4));
    default: fprintf(stderr, "no call for segment %u\n", (unsigned)segment); exit(2);
    }
}

static uint32_t answer(wayramesh_scene *scene)
{
    uint32_t code = wayramesh_scene_end(scene);
    printf("%04x %u %lu\n", (unsigned)code, (unsigned)scene->draw, (unsigned long)scene->length);
    for (size_t i = 0; i < scene->length && word_count == 0; i++) {
        printf("%02x", scene->bytes[i]);
    }
    printf("\n%s\n", wayramesh_scene_words(code));
    return code;
}

static uint32_t call(wayramesh_scene *scene, const char *name)
{
    int32_t numbers[MOST_WORDS];
    for (size_t i = 0; i < MOST_WORDS; i++) {
        numbers[i] = number(i);
    }
    if (strcmp(name, "begin") == 0) {
        size_t bytes = (size_t)number(0);
        return wayramesh_scene_begin(scene, lend(bytes), bytes, (uint32_t)number(1), (uint32_t)number(2),
                                     (uint32_t)number(3));
    } else if (strcmp(name, "nowhere") == 0) {
        lend(0);
        return wayramesh_scene_begin(scene, NULL, 0, 1, 1, 0);
    } else if (strcmp(name, "background") == 0) {
        return wayramesh_scene_background(scene, byte(0), byte(1), byte(2), byte(3));
    } else if (strcmp(name, "draw") == 0) {
        return wayramesh_scene_draw(scene, hex(0), hex(1));
    } else if (strcmp(name, "matrix") == 0) {
        return wayramesh_scene_matrix(scene, real(0), real(1), real(2), real(3), real(4), real(5));
    } else if (strcmp(name, "color") == 0) {
        return wayramesh_scene_color(scene, real(0), real(1), real(2), real(3));
    } else if (strcmp(name, "linear") == 0) {
        return wayramesh_scene_linear(scene, real(0), real(1), real(2), real(3), hex(4));
    } else if (strcmp(name, "radial") == 0) {
        return wayramesh_scene_radial(scene, real(0), real(1), real(2), real(3), real(4), hex(5));
    } else if (strcmp(name, "stop") == 0) {
        return wayramesh_scene_stop(scene, real(0), real(1), real(2), real(3), real(4));
    } else if (strcmp(name, "scissor") == 0) {
        return wayramesh_scene_scissor(scene, number(0), number(1), number(2), number(3));
    } else if (strcmp(name, "transformation") == 0) {
        return wayramesh_scene_transformation(scene, real(0), real(1), real(2), real(3), real(4), real(5), real(6),
                                              real(7));
    } else if (strcmp(name, "segment") == 0) {
        return wayramesh_scene_segment(scene, (uint32_t)numbers[0], numbers + 1, word_count - 1);
    } else if (strcmp(name, "to") == 0) {
        return segment_to(scene, (uint32_t)numbers[0]);
    } else if (strcmp(name, "rectangle") == 0) {
        return wayramesh_scene_rectangle(scene, numbers[0], numbers[1], numbers[2], numbers[3]);
    } else if (strcmp(name, "polygon") == 0) {
        return wayramesh_scene_polygon(scene, numbers, word_count / 2);
    } else if (strcmp(name, "end") == 0) {
        return answer(scene);
    }
    fprintf(stderr, "no call %s\n", name);
    exit(2);
}

int main(void)
{
    static char line[1 << 16];
    wayramesh_scene scene;
    uint32_t first = WAYRAMESH_SCENE_BUILT;
    while (fgets(line, sizeof line, stdin) != NULL) {
        const char *name = strtok(line, " \n");
        char *word;
        uint32_t code;
        if (name == NULL) {
            continue;
        }
        for (word_count = 0; word_count < MOST_WORDS && (word = strtok(NULL, " \n")) != NULL;) {
            words[word_count++] = word;
        }
        code = call(&scene, name);
        look_at_guards(name);
        first = strcmp(name, "begin") == 0 || strcmp(name, "nowhere") == 0 ? WAYRAMESH_SCENE_BUILT : first;
        if (code != scene.code || (first != WAYRAMESH_SCENE_BUILT && code != first)) {
            fprintf(stderr, "%s answered %04x after %04x\n", name, (unsigned)code, (unsigned)first);
            exit(3);
        }
        first = code;
    }
    free(memory);
    return 0;
}
