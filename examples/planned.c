/*
 * planned.c: a redraw in several small rectangles, the library's own and the caller's.
 *
 *     cc -std=c99 -I include examples/planned.c crates/wayramesh/out/libwayramesh.a -o planned
 *     ./planned
 *
 * A needle at the left moves and a lamp at the right goes on. One area would hold both and all between them; the plan has a
 * rectangle for each.
 */

#include "wayramesh.h"
#include "wayramesh_scene.h"

#include <inttypes.h>
#include <stdio.h>
#include <string.h>

enum { WIDTH = 160, HEIGHT = 40, DRAWS = 2, SCENE_BYTES = 512 * (1 + 4 * DRAWS), SURFACE_BYTES = 4 * WIDTH * HEIGHT };

static uint8_t before[SCENE_BYTES], after[SCENE_BYTES], surface[SURFACE_BYTES], expected[SURFACE_BYTES];
static int32_t scratch[WAYRAMESH_SCRATCH_NUMBERS];
static int32_t rectangles[WAYRAMESH_MAX_RECTANGLE_NUMBERS];

/* The needle at a column, and the lamp's red. */
static int make(uint8_t *scene_bytes, int column, float red)
{
    wayramesh_scene scene;
    wayramesh_scene_begin(&scene, scene_bytes, SCENE_BYTES, WIDTH, HEIGHT, 0);
    wayramesh_scene_background(&scene, 7, 8, 10, 255);
    wayramesh_scene_draw(&scene, WAYRAMESH_BLEND_SRC_OVER, 0);
    wayramesh_scene_color(&scene, 1.0f, 0.8f, 0.2f, 1.0f);
    wayramesh_scene_rectangle(&scene, column, 4, column + 3, 36);
    wayramesh_scene_draw(&scene, WAYRAMESH_BLEND_SRC_OVER, 0);
    wayramesh_scene_color(&scene, red, 0.1f, 0.1f, 1.0f);
    wayramesh_scene_rectangle(&scene, 140, 12, 154, 26);
    return wayramesh_scene_end(&scene) == WAYRAMESH_SCENE_BUILT;
}

int main(void)
{
    wayramesh_context context = {0};
    if (!make(before, 10, 0.2f) || !make(after, 13, 1.0f)) {
        return 1;
    }
    wayramesh_planning plan = wayramesh_plan_unmasked(before, SCENE_BYTES, after, SCENE_BYTES, rectangles,
                                                      WAYRAMESH_MAX_RECTANGLE_NUMBERS);
    printf("%" PRIu32 " rectangles\n", plan.count);
    for (uint32_t i = 0; i < plan.count; i++) {
        const int32_t *r = rectangles + 4 * i;
        printf("%" PRId32 " %" PRId32 " %" PRId32 " %" PRId32 "\n", r[0], r[1], r[2], r[3]);
    }
    wayramesh_draw_unmasked(&context, after, SCENE_BYTES, expected, SURFACE_BYTES, scratch, WAYRAMESH_SCRATCH_NUMBERS);

    /* In rectangles of the library's own. */
    wayramesh_draw_unmasked(&context, before, SCENE_BYTES, surface, SURFACE_BYTES, scratch, WAYRAMESH_SCRATCH_NUMBERS);
    wayramesh_redraw_planned_unmasked(&context, before, SCENE_BYTES, after, SCENE_BYTES, surface, SURFACE_BYTES, scratch,
                                      WAYRAMESH_SCRATCH_NUMBERS);
    printf("planned: %s\n", memcmp(surface, expected, SURFACE_BYTES) == 0 ? "the new picture" : "another picture");

    /* In rectangles that the caller proposes: here those of the plan. */
    wayramesh_draw_unmasked(&context, before, SCENE_BYTES, surface, SURFACE_BYTES, scratch, WAYRAMESH_SCRATCH_NUMBERS);
    wayramesh_redraw_regions_unmasked(&context, before, SCENE_BYTES, after, SCENE_BYTES, rectangles, 4 * plan.count, surface,
                                      SURFACE_BYTES, scratch, WAYRAMESH_SCRATCH_NUMBERS);
    printf("proposed: %s\n", memcmp(surface, expected, SURFACE_BYTES) == 0 ? "the new picture" : "another picture");
    printf("code %04" PRIx32 "\n", wayramesh_take_code(&context));

    /* A scratch too short is refused, and the context keeps the code until it is asked for. */
    wayramesh_redraw_planned_unmasked(&context, before, SCENE_BYTES, after, SCENE_BYTES, surface, SURFACE_BYTES, scratch, 7);
    wayramesh_redraw_planned_unmasked(&context, before, 0, after, SCENE_BYTES, surface, SURFACE_BYTES, scratch,
                                      WAYRAMESH_SCRATCH_NUMBERS);
    printf("code %04" PRIx32 "\n", wayramesh_take_code(&context));
    printf("code %04" PRIx32 "\n", wayramesh_take_code(&context));
    return 0;
}
