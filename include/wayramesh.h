/*
 * wayramesh.h: the C interface of Wayramesh, a verified renderer for instrument panels.
 *
 * A scene file goes in, and pixels come out. wayramesh_draw draws a scene in full. wayramesh_redraw takes a surface
 * from one scene to the next by drawing only the area in which they may differ. wayramesh_replay does so for up to 600
 * scenes in one call. docs/FORMAT.md describes the scene file: paper 01's, with paper 02's P8, P3, P1, P6 and P10. Further
 * down:
 *
 *   wayramesh_redraw_regions, wayramesh_redraw_planned, wayramesh_plan
 *                          redraw in several small rectangles, the caller's or the library's own
 *   wayramesh_draw_plain   draws in full too, by another and slower engine
 *   wayramesh_compare      says where two pictures differ
 *   wayramesh_composite    is the blending step on one pixel
 *   wayramesh_explain      says why a pixel has its colour, or where in a refused file the rules were broken
 *   wayramesh_salvage      writes a spoiled scene again
 *   wayramesh_identity     is the library's version and the hash of its sources
 *   wayramesh_checksum     is a checksum for self-tests
 *
 * Link with libwayramesh.a (x86-64; it needs memcpy and memset of the C library). The library allocates nothing, keeps
 * nothing between calls but what a caller's wayramesh_context holds, and does no input or output. examples/panel.c is a
 * whole program, examples/replay.c a minute of driving, and wayramesh_scene.h makes scene files.
 *
 * What is proved of wayramesh_draw and wayramesh_redraw, for every input:
 *
 *   1. The call returns, and its seven numbers are those of the rules below: which calls are refused, with which code,
 *      draw and scene number, and which area an accepted one answers. The context does not change them.
 *   2. After a refused call surface and scratch hold what they held. After an accepted call every number of the scratch
 *      is zero.
 *   3. After an accepted wayramesh_draw the surface holds the picture of the scene under the mask, or without one, whatever
 *      surface and scratch held.
 *   4. After an accepted wayramesh_redraw the surface holds the new scene's picture in the area that is answered, and
 *      outside it every byte that it held. If it held the old scene's picture under the same mask, or both without one, it
 *      holds the whole of the new one's.
 *   5. The context has noted the call's code, if that is not 0 and it held 0.
 *
 * Scenes and mask are not changed. This speaks of what the buffers hold when a call has returned: while it runs, the area
 * shows the background and part of the draws, so a display that reads the surface meanwhile may show that.
 *
 * What the proof takes for granted of a caller, as docs/REVIEW.md has it:
 *
 *   1. Pointers. None is NULL. Each leads to as many items as its length says, and they stay there during the call. A
 *      run of length 0 is not read or written.
 *   2. Alignment. Scratch and rectangles are aligned for int32_t; context, lengths, answers and the list of a salvage are
 *      aligned for uint32_t. Scenes, mask, surface and the place of a salvage may lie at any address.
 *   3. Overlap. Context, surface, scratch and answers overlap neither each other nor a scene, lengths, rectangles or the
 *      mask; nor do the place and the list of a salvage each other or the scene. Scenes, lengths, rectangles and mask may
 *      overlap, and the two scenes of a redraw may be the same.
 *   4. Others. During a call no one else writes scenes, lengths, rectangles and mask, and no one else reads or writes
 *      context, surface, scratch, answers, place and list.
 *   5. Stack. There are 32 KiB of stack free.
 *   6. Floating-point environment. Round to nearest, as C programs start (fesetround(FE_TONEAREST)), and nothing flushed
 *      to zero. In another rounding mode some colours differ by 1. A call leaves the mode as it is.
 *   7. Machine and compiler. x86-64 with the calling convention of Linux, a C compiler that follows it, and a memcpy and
 *      memset that do what C says.
 *   8. Declarations. The caller's are those below.
 */

#ifndef WAYRAMESH_H
#define WAYRAMESH_H

#include <stddef.h>
#include <stdint.h>

/* The version of this header; wayramesh_identity answers that of the library. */
#define WAYRAMESH_VERSION_MAJOR 0u
#define WAYRAMESH_VERSION_MINOR 1u
#define WAYRAMESH_VERSION_PATCH 0u
#define WAYRAMESH_VERSION "0.1.0"

#ifdef __cplusplus
extern "C" {
#endif

/*
 * Codes. Every call returns one of these and no other (proved too). A scene is judged from its start to its end, and the
 * first rule that it breaks decides; then come the surface, the mask and the scratch, in this order:
 *
 *   the length of the file: at least 512, and a multiple of 512           WAYRAMESH_BAD_LENGTH
 *   the check of block 0                                                  WAYRAMESH_BAD_CHECKSUM
 *   the fields of block 0, in order                                       WAYRAMESH_ILLEGAL_ARGUMENT
 *   the length that the number of draws asks for                          WAYRAMESH_BAD_LENGTH
 *   each draw in turn: the checks of its four blocks                      WAYRAMESH_BAD_CHECKSUM
 *                      its fields, to the end of the stops                WAYRAMESH_ILLEGAL_ARGUMENT
 *                      in edition 1, its colour transformation            WAYRAMESH_ILLEGAL_ARGUMENT
 *                      a flat matrix, if it has segments                  WAYRAMESH_ILLEGAL_ARGUMENT
 *                      its path, segment by segment                       WAYRAMESH_UNSUPPORTED_PATH_FORMAT for an arc,
 *                                                                         else WAYRAMESH_ILLEGAL_ARGUMENT
 *                      unused segments, then unused coordinates           WAYRAMESH_ILLEGAL_ARGUMENT
 *   (a redraw judges the old scene, then the new one, then compares
 *   their sizes                                                           WAYRAMESH_ILLEGAL_ARGUMENT)
 *   the surface                                                           WAYRAMESH_UNSUPPORTED_IMAGE_FORMAT
 *   the mask, if one is lent                                              WAYRAMESH_UNSUPPORTED_IMAGE_FORMAT
 *   the scratch                                                           WAYRAMESH_OUT_OF_MEMORY
 *   (then the rectangles that are proposed for a redraw by them           WAYRAMESH_ILLEGAL_ARGUMENT)
 */

/* The call was accepted and has drawn. */
#define WAYRAMESH_ACCEPTED 0u

/* The scene's length is below 512, not a multiple of 512, or not 512 * (1 + 4 * draws). Of a whole replay: there are more
   than WAYRAMESH_MAX_SCENES scenes, or their lengths do not add up. */
#define WAYRAMESH_BAD_LENGTH 0xB002u

/* The check of a block is not the one of its payload and its number: a block is spoiled or out of its place. */
#define WAYRAMESH_BAD_CHECKSUM 0xB001u

/* A field, float, segment or coordinate breaks a rule, a matrix is flat, a draw asks for a mask where none is lent, the
   two scenes of a redraw differ in width or height, or a proposal of rectangles is rejected. */
#define WAYRAMESH_ILLEGAL_ARGUMENT 0x1001u

/* A segment is an arc. */
#define WAYRAMESH_UNSUPPORTED_PATH_FORMAT 0x1005u

/* surface_len is not 4 * width * height, or mask_len of a mask that is lent is not width * height. */
#define WAYRAMESH_UNSUPPORTED_IMAGE_FORMAT 0x1004u

/* scratch_len is below WAYRAMESH_SCRATCH_NUMBERS, place_len of a salvage is below scene_len, or there are too few places for
   the answers of a replay. */
#define WAYRAMESH_OUT_OF_MEMORY 0x1002u

/* The numbers that a scratch must have at least; more do no harm. */
#define WAYRAMESH_SCRATCH_NUMBERS 12300u

/* The bytes of a block of a scene file, and of the longest scene file, which has 64 draws. */
#define WAYRAMESH_BLOCK_BYTES 512u
#define WAYRAMESH_MAX_SCENE_BYTES 131584u

/* The greatest width and the greatest height of a surface; both are at least 1. */
#define WAYRAMESH_MAX_SIDE 1024u

/* The number in wayramesh_answer.draw that stands for no draw. */
#define WAYRAMESH_NO_DRAW 64u

/* The most scenes of a replay, and the numbers of an answer. */
#define WAYRAMESH_MAX_SCENES 600u
#define WAYRAMESH_ANSWER_NUMBERS 7u

/* ---- The context ---- */

/*
 * What keeps the first code other than 0 of the calls that it is lent to, until it is asked for. It belongs to the caller:
 * begin with {0}, and lend it to calls of one thread at a time. Draws, redraws and replays note their codes.
 */
typedef struct wayramesh_context {
    uint32_t code;
} wayramesh_context;

/*
 * Answers the first code other than 0 of the calls since the context was last asked, or since it was {0}; 0 if all were
 * accepted. Asking sets it to 0. It is proved that each of these calls notes its code, and this of every sequence of calls.
 */
uint32_t wayramesh_take_code(wayramesh_context *context);

/* ---- Drawing ---- */

/*
 * What a call answers.
 *
 *   code     WAYRAMESH_ACCEPTED, or why the call was refused.
 *   draw     The number, from 0, of the draw that broke a rule. WAYRAMESH_NO_DRAW if the call was accepted, or what was
 *            wrong is in no draw.
 *   scene    1 if the new scene of a redraw broke a rule or its size differs from the old one's; else 0, as for surface,
 *            mask and scratch.
 *   x, y, width, height
 *            The pixels that an accepted call has drawn: columns x to x + width - 1 and rows y to y + height - 1, where
 *            row 0 is the lowest. They lie on the surface. A full drawing answers the whole surface. A redraw answers
 *            the smallest rectangle that holds the old and the new box of every changed draw, or the whole surface if
 *            the background changed; all four are 0 where no such box has a pixel, and in every refusal. A draw's box
 *            is that of its path's edges, in whole pixels, cut to the surface; scissors and mask do not count.
 */
typedef struct wayramesh_answer {
    uint32_t code;
    uint32_t draw;
    uint32_t scene;
    uint32_t x;
    uint32_t y;
    uint32_t width;
    uint32_t height;
} wayramesh_answer;

/*
 * Draws a scene in full, with a mask or none.
 *
 *   context               Notes the code that is answered.
 *   scene, scene_len      The scene file. Any bytes may be given: those that are no scene are refused.
 *   mask_lent             0 if no mask is lent, whatever the run holds and however long it is; any other number if one is.
 *   mask, mask_len        The mask, a byte for each pixel: that of pixel (x, y) is at y * width + x. Draws with flag bit 3
 *                         are drawn with so many 255ths of their coverage there as the byte says, all others as if it were
 *                         255. mask_len of a mask that is lent must be width * height, also where no draw asks for it.
 *                         Where none is lent, a scene with a draw that asks for it is refused.
 *   surface, surface_len  Where the picture goes. Pixel (x, y) is the four bytes R, G, B, A at 4 * (y * width + x), the
 *                         colours premultiplied by alpha; row 0 is the lowest. The scene's block 0 has width and height
 *                         as its first two 16-bit numbers, little-endian; surface_len must be 4 * width * height.
 *   scratch, scratch_len  Working memory of at least WAYRAMESH_SCRATCH_NUMBERS numbers. What it holds before the call
 *                         does not matter.
 *
 * No pointer may be NULL; one to a run of length 0 is not read or written. A panel takes some milliseconds; the largest
 * scene that the format allows, 64 draws of 2,048 edges each over 1,024 by 1,024 pixels, takes about a second, and less
 * with more scratch: from 24,580 numbers on no row is cut into windows (docs/SPEED.md).
 */
wayramesh_answer wayramesh_draw(wayramesh_context *context,
                                const uint8_t *scene, size_t scene_len,
                                uint32_t mask_lent, const uint8_t *mask, size_t mask_len,
                                uint8_t *surface, size_t surface_len,
                                int32_t *scratch, size_t scratch_len);

/* The same without a mask. */
static inline wayramesh_answer wayramesh_draw_unmasked(wayramesh_context *context,
                                                       const uint8_t *scene, size_t scene_len,
                                                       uint8_t *surface, size_t surface_len,
                                                       int32_t *scratch, size_t scratch_len)
{
    return wayramesh_draw(context, scene, scene_len, 0, scene, 0, surface, surface_len, scratch, scratch_len);
}

/*
 * Redraws a surface that holds the picture of the old scene, so that it holds that of the new one, both under one mask or
 * none.
 *
 *   context               Notes the code that is answered.
 *   old, old_len          The scene file that the surface was drawn from.
 *   new_scene, new_len    The scene file to show next, of the same width and height. The two may be the same bytes in
 *                         memory.
 *   mask_lent, mask, mask_len
 *                         As in wayramesh_draw, for both scenes: the mask under which the surface was drawn. No draw counts
 *                         as changed because the mask is another: draw in full when it is.
 *   surface, surface_len  As in wayramesh_draw. Pixels outside the answered area are as before.
 *   scratch, scratch_len  As in wayramesh_draw.
 *
 * Draws are compared by number and by bytes: a draw counts as changed if any byte of its fields or path differs, if only
 * one scene has it, or if the scenes are of different editions. If the surface did not hold the old picture, the answered
 * area still ends up as the new picture's, and the rest stays as it was. After a refusal the surface still holds what it
 * held, and the next call may go on from the same old scene.
 */
wayramesh_answer wayramesh_redraw(wayramesh_context *context,
                                  const uint8_t *old, size_t old_len,
                                  const uint8_t *new_scene, size_t new_len,
                                  uint32_t mask_lent, const uint8_t *mask, size_t mask_len,
                                  uint8_t *surface, size_t surface_len,
                                  int32_t *scratch, size_t scratch_len);

/* The same without a mask. */
static inline wayramesh_answer wayramesh_redraw_unmasked(wayramesh_context *context,
                                                         const uint8_t *old, size_t old_len,
                                                         const uint8_t *new_scene, size_t new_len,
                                                         uint8_t *surface, size_t surface_len,
                                                         int32_t *scratch, size_t scratch_len)
{
    return wayramesh_redraw(context, old, old_len, new_scene, new_len, 0, old, 0, surface, surface_len, scratch, scratch_len);
}

/* ---- Many scenes in one call ---- */

/*
 * Shows scenes one after the other: each is redrawn from the one accepted last, or drawn in full while there is none.
 *
 *   context               Notes the call's own code if that is not 0, else its scenes' in order: it keeps the first that is
 *                         not 0.
 *   scenes, scenes_len    The scene files one behind another.
 *   lengths, lengths_len  The bytes of each, in order; lengths_len is the number of scenes, from 0 to WAYRAMESH_MAX_SCENES.
 *                         They add up to scenes_len, as whole numbers: no sum wraps. A length may be 0, which is a scene of
 *                         no bytes.
 *   mask_lent, mask, mask_len
 *                         As in wayramesh_draw, one mask for all scenes.
 *   surface, surface_len, scratch, scratch_len
 *                         As in wayramesh_draw.
 *   answers, answers_len  Where WAYRAMESH_ANSWER_NUMBERS numbers go for each scene, in order: those of wayramesh_answer, as
 *                         its own call would answer them. Places behind the last scene's are not written.
 *
 * Answers WAYRAMESH_BAD_LENGTH if there are more than WAYRAMESH_MAX_SCENES scenes or the lengths do not add up; else
 * WAYRAMESH_OUT_OF_MEMORY if answers_len is below WAYRAMESH_ANSWER_NUMBERS for each scene. Such a call writes nothing but
 * the context. Any other answers WAYRAMESH_ACCEPTED, whatever its scenes' codes are.
 *
 * It is proved, for every input, that the call returns, and that surface, scratch and answers are those of the calls of
 * wayramesh_draw and wayramesh_redraw made one by one. A refused scene changes neither the picture nor which scene was
 * accepted last. Afterwards the surface holds the full drawing of the scene accepted last, and every number of the scratch
 * is zero; if none was accepted, surface and scratch hold what they held.
 *
 * While no scene was accepted, a scene of another size than the surface's is refused WAYRAMESH_UNSUPPORTED_IMAGE_FORMAT;
 * afterwards one of another size than the scene accepted last WAYRAMESH_ILLEGAL_ARGUMENT. A replay takes as long as its
 * calls, less the rules of the old scene of each redraw: no scene is judged twice.
 */
uint32_t wayramesh_replay(wayramesh_context *context,
                          const uint8_t *scenes, size_t scenes_len,
                          const uint32_t *lengths, size_t lengths_len,
                          uint32_t mask_lent, const uint8_t *mask, size_t mask_len,
                          uint8_t *surface, size_t surface_len,
                          int32_t *scratch, size_t scratch_len,
                          uint32_t *answers, size_t answers_len);

/* The same without a mask. */
static inline uint32_t wayramesh_replay_unmasked(wayramesh_context *context,
                                                 const uint8_t *scenes, size_t scenes_len,
                                                 const uint32_t *lengths, size_t lengths_len,
                                                 uint8_t *surface, size_t surface_len,
                                                 int32_t *scratch, size_t scratch_len,
                                                 uint32_t *answers, size_t answers_len)
{
    return wayramesh_replay(context, scenes, scenes_len, lengths, lengths_len, 0, scenes, 0, surface, surface_len, scratch,
                            scratch_len, answers, answers_len);
}

/* ---- The plain engine ---- */

/*
 * Draws a scene in full as wayramesh_draw does, with another engine: it visits each pixel, each of its 16 samples and each
 * edge of the path, and keeps no list of crossings. Arguments and answer are those of wayramesh_draw.
 *
 * It is proved that for every scene, mask, surface and scratch both calls answer the same seven numbers and leave the same
 * bytes in the surface and the same numbers in the scratch, refusals included. So it serves to check the quick engine on
 * the machine that runs it, not to draw in time: docs/SPEED.md says how many times slower it is.
 */
wayramesh_answer wayramesh_draw_plain(const uint8_t *scene, size_t scene_len,
                                      uint32_t mask_lent, const uint8_t *mask, size_t mask_len,
                                      uint8_t *surface, size_t surface_len,
                                      int32_t *scratch, size_t scratch_len);

/* The same without a mask. */
static inline wayramesh_answer wayramesh_draw_plain_unmasked(const uint8_t *scene, size_t scene_len,
                                                             uint8_t *surface, size_t surface_len,
                                                             int32_t *scratch, size_t scratch_len)
{
    return wayramesh_draw_plain(scene, scene_len, 0, scene, 0, surface, surface_len, scratch, scratch_len);
}

/* ---- A redraw by several rectangles ---- */

/* The greatest number of rectangles, and of numbers, in a proposal that is accepted. */
#define WAYRAMESH_MAX_RECTANGLES 4u
#define WAYRAMESH_MAX_RECTANGLE_NUMBERS 16u

/*
 * Redraws as wayramesh_redraw does, but in rectangles that the caller proposes: where a needle at the left and a lamp at the
 * right change, two small rectangles are drawn and not all that lies between them.
 *
 *   rectangles, rectangles_len
 *                         The proposal: x, y, width and height for each rectangle, aligned for int32_t. Any numbers may be
 *                         given, and any length, which counts numbers and not rectangles. The proposal is accepted exactly if
 *                         it has 1 to WAYRAMESH_MAX_RECTANGLES rectangles and none in part; each has a width and a height
 *                         above 0 and lies in the surface; no two share a pixel; and each pixel of the old and the new box of
 *                         every changed draw is in one of them, or, if the background changed, each pixel of the surface.
 *   the others            As in wayramesh_redraw.
 *
 * A rejected proposal is refused with WAYRAMESH_ILLEGAL_ARGUMENT, WAYRAMESH_NO_DRAW and scene 0, after every check of
 * wayramesh_redraw. x, y, width and height of the answer are the smallest rectangle that holds those of the proposal. It is
 * proved, as for wayramesh_redraw, that the call returns with these numbers; that a refused call changes neither surface nor
 * scratch and an accepted one leaves the scratch zero; and that after an accepted one the surface holds the new scene's
 * picture in the rectangles, and outside them every byte that it held: if it held the old scene's picture, it holds the whole
 * of the new one's.
 */
wayramesh_answer wayramesh_redraw_regions(wayramesh_context *context,
                                          const uint8_t *old, size_t old_len,
                                          const uint8_t *new_scene, size_t new_len,
                                          uint32_t mask_lent, const uint8_t *mask, size_t mask_len,
                                          const int32_t *rectangles, size_t rectangles_len,
                                          uint8_t *surface, size_t surface_len,
                                          int32_t *scratch, size_t scratch_len);

/* The same without a mask. */
static inline wayramesh_answer wayramesh_redraw_regions_unmasked(wayramesh_context *context,
                                                                 const uint8_t *old, size_t old_len,
                                                                 const uint8_t *new_scene, size_t new_len,
                                                                 const int32_t *rectangles, size_t rectangles_len,
                                                                 uint8_t *surface, size_t surface_len,
                                                                 int32_t *scratch, size_t scratch_len)
{
    return wayramesh_redraw_regions(context, old, old_len, new_scene, new_len, 0, old, 0, rectangles, rectangles_len,
                                    surface, surface_len, scratch, scratch_len);
}

/* ---- A redraw by rectangles that the library plans ---- */

/*
 * Redraws as wayramesh_redraw does, but in one to four rectangles that the library plans: the area is cut at columns and rows
 * where most pixels are saved. The arguments are those of wayramesh_redraw, and so are the refusals and their order. It is
 * proved, as for wayramesh_redraw, that the call returns; that a refused call changes neither surface nor scratch and an
 * accepted one leaves the scratch zero; that a plan keeps to all rules of a proposal (wayramesh_redraw_regions), lies in the
 * area of wayramesh_redraw and, if the background is the same and a column or row of that area touches no changed draw's box,
 * has at least two rectangles and leaves such a column or row untouched; and that after an accepted call the surface holds the
 * new scene's picture in the rectangles, and outside them every byte that it held. Where the area is empty nothing is planned:
 * the call answers 0 with area 0, 0, 0, 0 and writes no byte of the surface.
 */
wayramesh_answer wayramesh_redraw_planned(wayramesh_context *context,
                                          const uint8_t *old, size_t old_len,
                                          const uint8_t *new_scene, size_t new_len,
                                          uint32_t mask_lent, const uint8_t *mask, size_t mask_len,
                                          uint8_t *surface, size_t surface_len,
                                          int32_t *scratch, size_t scratch_len);

/* The same without a mask. */
static inline wayramesh_answer wayramesh_redraw_planned_unmasked(wayramesh_context *context,
                                                                 const uint8_t *old, size_t old_len,
                                                                 const uint8_t *new_scene, size_t new_len,
                                                                 uint8_t *surface, size_t surface_len,
                                                                 int32_t *scratch, size_t scratch_len)
{
    return wayramesh_redraw_planned(context, old, old_len, new_scene, new_len, 0, old, 0,
                                    surface, surface_len, scratch, scratch_len);
}

/* What wayramesh_plan answers: code, draw and scene as in wayramesh_answer, and how many rectangles were written. */
typedef struct wayramesh_planning {
    uint32_t code;
    uint32_t draw;
    uint32_t scene;
    uint32_t count;
} wayramesh_planning;

/*
 * Writes the rectangles of such a plan: x, y, width and height for each.
 *
 *   rectangles, rectangles_len
 *                         The place for them, aligned for int32_t, of WAYRAMESH_MAX_RECTANGLE_NUMBERS numbers or more. It
 *                         overlaps neither a scene nor the mask, and no one else reads or writes it during the call. The
 *                         first 4 * count numbers are written, and no other.
 *   the others            As in wayramesh_redraw. No surface and no scratch is lent.
 *
 * The checks are those of wayramesh_redraw but for surface and scratch; then a place of fewer numbers is refused with
 * WAYRAMESH_OUT_OF_MEMORY, WAYRAMESH_NO_DRAW and scene 0. A refused call writes nothing and has the count 0.
 */
wayramesh_planning wayramesh_plan(const uint8_t *old, size_t old_len,
                                  const uint8_t *new_scene, size_t new_len,
                                  uint32_t mask_lent, const uint8_t *mask, size_t mask_len,
                                  int32_t *rectangles, size_t rectangles_len);

/* The same without a mask. */
static inline wayramesh_planning wayramesh_plan_unmasked(const uint8_t *old, size_t old_len,
                                                         const uint8_t *new_scene, size_t new_len,
                                                         int32_t *rectangles, size_t rectangles_len)
{
    return wayramesh_plan(old, old_len, new_scene, new_len, 0, old, 0, rectangles, rectangles_len);
}

/* ---- Two pictures compared ---- */

/*
 * What wayramesh_compare answers. A refusal has its code and zeros, equal pictures have equal and zeros.
 *
 *   code     WAYRAMESH_ACCEPTED if the pictures were compared. WAYRAMESH_ILLEGAL_ARGUMENT if width or height is not from 1
 *            to WAYRAMESH_MAX_SIDE. Else WAYRAMESH_UNSUPPORTED_IMAGE_FORMAT if one of the surfaces does not have
 *            4 * width * height bytes.
 *   equal    1 if the pictures are the same in every byte, else 0.
 *   count    How many pixels differ, in one channel at least; alpha is a channel.
 *   x, y, width, height
 *            The smallest rectangle that holds every differing pixel, as in wayramesh_answer.
 *   largest  The largest difference of any channel of any pixel, 1 to 255.
 *   least    The least y * width + x of a differing pixel, where width is that of the call.
 */
typedef struct wayramesh_comparison {
    uint32_t code;
    uint32_t equal;
    uint32_t count;
    uint32_t x;
    uint32_t y;
    uint32_t width;
    uint32_t height;
    uint32_t largest;
    uint32_t least;
} wayramesh_comparison;

/*
 * Compares two surfaces of one size, laid out as in wayramesh_draw. Both are only read and may be the same memory, and
 * the answer does not depend on which comes first. It is proved that the call returns and that the nine numbers are as
 * described, for every width and height, and bytes of any length. Two equal pictures take about as long as memcmp.
 */
wayramesh_comparison wayramesh_compare(uint32_t width, uint32_t height,
                                       const uint8_t *a, size_t a_len,
                                       const uint8_t *b, size_t b_len);

/* ---- The blending step on one pixel ---- */

/* The blend modes, by their numbers in the scene file. */
#define WAYRAMESH_BLEND_SRC 0x2000u
#define WAYRAMESH_BLEND_SRC_OVER 0x2001u
#define WAYRAMESH_BLEND_DST_OVER 0x2002u
#define WAYRAMESH_BLEND_SRC_IN 0x2003u
#define WAYRAMESH_BLEND_DST_IN 0x2004u

/* The samples of a pixel: the greatest coverage. */
#define WAYRAMESH_SAMPLES 16u

/*
 * A pixel: four bytes in the order in which a surface has them, so that memcpy takes one out of a surface and puts one
 * back. The colours are premultiplied by alpha, and any four bytes may be given.
 */
typedef struct wayramesh_pixel {
    uint8_t r;
    uint8_t g;
    uint8_t b;
    uint8_t a;
} wayramesh_pixel;

/*
 * What wayramesh_composite answers.
 *
 *   code     WAYRAMESH_ACCEPTED, or WAYRAMESH_ILLEGAL_ARGUMENT if mode is none of the five, coverage is above
 *            WAYRAMESH_SAMPLES or mask is above 255; nothing else is refused.
 *   pixel    What is to be stored; the destination as it was given if the call was refused.
 */
typedef struct wayramesh_composited {
    uint32_t code;
    wayramesh_pixel pixel;
} wayramesh_composited;

/*
 * Blends a source into a destination, as a draw does at each of its pixels.
 *
 *   mode         One of WAYRAMESH_BLEND_...
 *   coverage     How many of the pixel's WAYRAMESH_SAMPLES samples are covered.
 *   mask         The mask's byte, 0 to 255; 255 where there is no mask.
 *   source       The paint, premultiplied.
 *   destination  What the surface holds there. With coverage 0 it is answered as it is. With any other it is read with
 *                its colours clamped to 0..alpha, alpha itself as it is.
 *
 * It is proved that the call returns and that the answer is the one of the rules, for all numbers and bytes; and that if
 * no colour of the source is above its alpha, none of a pixel that is answered by an accepted call with coverage above 0
 * is.
 */
wayramesh_composited wayramesh_composite(uint32_t mode, uint32_t coverage, uint32_t mask,
                                         wayramesh_pixel source, wayramesh_pixel destination);

/* ---- Why a pixel has its colour ---- */

/*
 * What wayramesh_explain answers.
 *
 *   code     WAYRAMESH_ACCEPTED if the pixel can be explained. Else the code of the scene; or
 *            WAYRAMESH_UNSUPPORTED_IMAGE_FORMAT if mask_len of a mask that is lent is not width * height; or
 *            WAYRAMESH_ILLEGAL_ARGUMENT if the pixel lies outside the picture. They are judged in this order.
 *   draw     The number, from 0, of the draw that broke a rule; WAYRAMESH_NO_DRAW if none did.
 *   offset   Of a scene that is refused, where in the file the number, the check or the segment is that the rules met
 *            first. A wrong length is at 0, a wrong check at 512 * block + 508, a flat matrix at its sx, a bad focal point
 *            at cx, a coordinate or a point at its segment, an unused place at its first byte that is not zero. 0 in all
 *            other answers.
 *   draws    How many draws the scene has; 0 in a refusal.
 *   pixel    The pixel before the first draw, which is the background, premultiplied; zeros in a refusal.
 */
typedef struct wayramesh_explanation {
    uint32_t code;
    uint32_t draw;
    size_t offset;
    uint32_t draws;
    wayramesh_pixel pixel;
} wayramesh_explanation;

/*
 * Begins the explanation of a pixel.
 *
 *   scene, scene_len      The scene file, any bytes.
 *   mask_lent, mask, mask_len
 *                         As in wayramesh_draw.
 *   x, y                  The pixel, any numbers; row 0 is the lowest.
 *
 * Scene and mask are only read, and nothing is written. wayramesh_explain_draw then gives the line of each draw.
 */
wayramesh_explanation wayramesh_explain(const uint8_t *scene, size_t scene_len,
                                        uint32_t mask_lent, const uint8_t *mask, size_t mask_len,
                                        uint32_t x, uint32_t y);

/* The same without a mask. */
static inline wayramesh_explanation wayramesh_explain_unmasked(const uint8_t *scene, size_t scene_len,
                                                               uint32_t x, uint32_t y)
{
    return wayramesh_explain(scene, scene_len, 0, scene, 0, x, y);
}

/* The kinds of a line. */
#define WAYRAMESH_NO_LINE 0u   /* the scene has no such draw, or wayramesh_explain refuses the scene, the mask or the pixel */
#define WAYRAMESH_OUTSIDE 1u   /* scissoring is on, and the pixel is in no scissor */
#define WAYRAMESH_UNCOVERED 2u /* no sample of the pixel is inside the path */
#define WAYRAMESH_COVERED 3u

/*
 * The line of a draw.
 *
 *   kind      One of the above.
 *   before    The pixel before the draw, as it was given.
 *   after     The pixel after it: the same, if the kind is not WAYRAMESH_COVERED.
 *
 * The others are 0 if the kind is not WAYRAMESH_COVERED.
 *
 *   coverage  How many of the pixel's WAYRAMESH_SAMPLES samples are inside.
 *   masked    1 if the draw uses the mask, else 0.
 *   mask      The mask's byte there; 255 if the draw does not use the mask.
 *   paint     The paint there as it is blended: premultiplied, after the draw's colour transformation if that is on.
 */
typedef struct wayramesh_line {
    uint32_t kind;
    wayramesh_pixel before;
    wayramesh_pixel after;
    uint32_t coverage;
    uint32_t masked;
    uint32_t mask;
    wayramesh_pixel paint;
} wayramesh_line;

/*
 * The line of a draw at the pixel (x, y).
 *
 *   scene to y  As in wayramesh_explain.
 *   draw        The number of the draw, any number.
 *   before      The pixel before this draw, any bytes.
 *
 * For the whole story begin with the pixel of wayramesh_explain, go through the draws from 0 to draws - 1, and give each
 * the pixel after the one before it:
 *
 *   wayramesh_explanation e = wayramesh_explain_unmasked(scene, scene_len, x, y);
 *   wayramesh_pixel p = e.pixel;
 *   for (uint32_t i = 0; i < e.draws; i++)
 *       p = wayramesh_explain_draw_unmasked(scene, scene_len, x, y, i, p).after;
 *
 * It is proved that both calls return and that their answers are those of the rules, for all bytes and numbers; that the
 * lines, taken so, are the steps of the drawing at that pixel; and that the last pixel is the one that an accepted
 * wayramesh_draw stores there. Each call judges the whole scene anew.
 */
wayramesh_line wayramesh_explain_draw(const uint8_t *scene, size_t scene_len,
                                      uint32_t mask_lent, const uint8_t *mask, size_t mask_len,
                                      uint32_t x, uint32_t y, uint32_t draw, wayramesh_pixel before);

/* The same without a mask. */
static inline wayramesh_line wayramesh_explain_draw_unmasked(const uint8_t *scene, size_t scene_len,
                                                             uint32_t x, uint32_t y, uint32_t draw,
                                                             wayramesh_pixel before)
{
    return wayramesh_explain_draw(scene, scene_len, 0, scene, 0, x, y, draw, before);
}

/* ---- A spoiled scene written again ---- */

/* The numbers of a list that has room for every draw of a scene: two for each of 64. */
#define WAYRAMESH_LIST_NUMBERS 128u

/*
 * What wayramesh_salvage answers.
 *
 *   code      WAYRAMESH_ACCEPTED if the scene was written. Else the code of the scene rules if block 0 breaks one or the
 *             length is not right: WAYRAMESH_BAD_LENGTH, WAYRAMESH_BAD_CHECKSUM or WAYRAMESH_ILLEGAL_ARGUMENT, in the order
 *             above. Else WAYRAMESH_OUT_OF_MEMORY if place_len is below scene_len.
 *   replaced  How many draws were replaced; 0 in a refusal.
 */
typedef struct wayramesh_salvaged {
    uint32_t code;
    uint32_t replaced;
} wayramesh_salvaged;

/*
 * Writes a scene again in which each draw that the rules refuse, judged by itself, is replaced by an empty one: blend
 * WAYRAMESH_BLEND_SRC_OVER, paint 0x1B00, spread 0x1C00, all else zero, with fresh checks. A draw is judged by its own four
 * checks and its own fields and path, as if a mask were lent.
 *
 *   scene, scene_len      The scene file. Any bytes may be given.
 *   place, place_len      Where the scene goes, to the first scene_len bytes; those behind stay as they are.
 *   list, list_len        Where the replaced draws are listed, in order, two numbers for each: the draw's number, and the
 *                         code that it got. WAYRAMESH_LIST_NUMBERS are enough for every scene. A shorter list, also one of
 *                         length 0, takes as many of the first ones as it has two numbers for, and replaced still counts
 *                         them all; numbers behind stay as they are. Aligned for uint32_t.
 *
 * It is proved, for all bytes and lengths, that the call returns, that the answer, the place and the list are as described,
 * and that a refused call writes nothing. It is proved too that the written scene passes the scene rules with a mask lent;
 * that block 0 and every kept draw are the same in each byte, so that a kept draw draws as before; that a scene which
 * passes is written as it is; and that salvaging a salvaged scene replaces nothing and gives the same bytes.
 */
wayramesh_salvaged wayramesh_salvage(const uint8_t *scene, size_t scene_len,
                                     uint8_t *place, size_t place_len,
                                     uint32_t *list, size_t list_len);

/* ---- What the library is, and a checksum for self-tests ---- */

/*
 * What wayramesh_identity answers: the library's version, and the sha256 of the list of its sources, by which a release's
 * sheet names the archive. A panel can show it and a log can hold it; the version must be this header's.
 */
typedef struct wayramesh_known {
    uint32_t major;
    uint32_t minor;
    uint32_t patch;
    uint8_t source[32];
} wayramesh_known;

/* The version and source hash of the library that is linked. */
wayramesh_known wayramesh_identity(void);

/*
 * The CRC-32 of bytes, as zlib and Ethernet have it, of any number of them: 0 of none. A panel that draws a scene at its
 * start and compares the checksum of the surface with the one that the release's sheet gives for it has tested memory,
 * processor and library together. It is proved equal to its definition.
 */
uint32_t wayramesh_checksum(const uint8_t *bytes, size_t bytes_len);

#ifdef __cplusplus
}
#endif

#endif
