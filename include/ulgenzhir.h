/*
 * Ulgenzhir: the proved core of an inspection panel, for C and C++ hosts.
 * Link target/staticlib/libpanel.a (x86-64 Linux); it needs the C library alone.
 *
 * What a call does. It answers for every value of its numbers and for every
 * content of its buffers. It keeps nothing between calls, allocates nothing,
 * has no error but the numbers below, and always returns; calls on different
 * buffers may run at the same time.
 *
 * What a caller owes, and nothing more:
 *   - a pointer and its length name bytes that may be read (const) or written
 *     for the whole call;
 *   - with a length of 0 the pointer is not NULL: pass any other pointer, as
 *     that of a variable; nothing is read or written through it;
 *   - a buffer that is written (rows, out) overlaps no other buffer of the
 *     same call, and no other thread touches it, or writes one that is only
 *     read, during the call.
 *
 * Numbers. 0 is success. Of a pick, a touch, a check or a walk from a ready
 * start, in the order they are judged:
 *    1  reach outside 1 to 256                            place 0 0 0
 *    2  frame outside 0 to 7                              place 0 0 0
 *    3  wedge number or stack size out of range,
 *       or too few bytes for the stack                    place 0 0 0
 *    4  the start, or else the apex, is outside the box   that point
 *   13  the ready start has more than 2 + 6K looks, or
 *       all three axes level                              place 0 0 0
 *    5  the start is not filled                           the start
 *    6  the apex is filled                                the apex
 *    7  minus an axis's unit vector does not fall, but
 *       the unit vector does                              apex less that vector
 *       or all three axes are level                       apex less axis 0's
 *   11  a corner is not filled: apex less a unit vector
 *       (lowest axis first)                               that corner
 *    8  a voxel to be looked at is outside the box        that point
 *    9  the steps allowed are done and a pair still
 *       falls                                             the apex
 *   10  the sizes of the normal add to more than reach    the apex
 * A pick gives 1 to 10, a touch 1 to 11 but for 7, a check 1 to 8, a walk from a
 * ready start 1 to 4, 13 and 8 to 10. K is how many powers there are: 1, 2, 4, ..
 * up to the first that is at least reach. An axis is level if neither its unit
 * vector nor minus it falls; a touch asks for none and has none, a walk from a
 * ready start has those it is handed. The steps allowed are reach less the number
 * of axes that are not level, and none if that is below zero.
 * Of reading a stack, front to back:
 *   21  no "P4" where an image begins                     offset of the image
 *   22  the header does not fit the rule                  offset of the first wrong byte,
 *                                                         or the input's length
 *   23  width or height not 1 to 256                      offset of its first digit
 *   24  size differs from the first image's               offset of the image
 *   25  rows cut short                                    the input's length
 *   26  a byte follows image 256                          its offset
 *   27  the lent buffer is too short                      bytes needed
 * Of writing a stack: 3 (value 0), then 27. Of the display normal: 30, all
 * three are zero or one is outside -1023 to 1023. Of the known lean: 35, the
 * pick is refused, reach is outside 1 to 256, a part of the normal is beyond 256
 * or one of m0, m1, m2 beyond 2046 in size, or the normal is 0 0 0. Of a firm
 * footing, in this order: 1, 2, 3, 35 (place 0 0 0), 4, 5, 6.
 */
#ifndef ULGENZHIR_H
#define ULGENZHIR_H

#include <stddef.h>
#include <stdint.h>

#ifdef __cplusplus
extern "C" {
#endif

typedef struct {
    int32_t x, y, z;
} ulgenzhir_point;

/*
 * number 0: accepted, place 0 0 0; the normal, the triangle vectors and the
 * apex are laid into the box. A level axis has 0 in the normal, and its vector
 * is the unit vector with the frame's sign.
 * Refused: normal, m0, m1, m2, apex all zero.
 * steps and looks are those made so far in either case.
 */
typedef struct {
    uint32_t number;
    ulgenzhir_point place;
    uint32_t steps, looks;
    ulgenzhir_point normal, m0, m1, m2, apex;
} ulgenzhir_pick;

/*
 * The probing walk on the wedge that is filled where ax + by + cz < h, in a
 * box of 0 to 1023 on each axis. a, b, c are -1000 to 1000, h is -4,000,000 to
 * 4,000,000. The walk starts at px py pz; bit 0, 1, 2 of the frame turns
 * axis 0, 1, 2.
 */
ulgenzhir_pick ulgenzhir_pick_wedge(int32_t a, int32_t b, int32_t c, int32_t h,
                                    int32_t px, int32_t py, int32_t pz,
                                    int32_t frame, int32_t reach);

/*
 * The same on a stack, each size 1 to 256. A row is width/8 bytes rounded up,
 * highest bit leftmost, 1 filled; rows follow y, slices follow z. Bits that pad
 * a row and bytes beyond the stack are not looked at.
 */
ulgenzhir_pick ulgenzhir_pick_stack(int32_t width, int32_t height, int32_t depth,
                                    const uint8_t *bytes, size_t len,
                                    int32_t px, int32_t py, int32_t pz,
                                    int32_t frame, int32_t reach);

/*
 * A pick in two calls, for a cursor that lights up where a spot could be picked:
 * a check asks the start, the apex and the axes, and hands back a ready start;
 * the walk makes the rounds from there. A check and then the walk from its ready
 * start, of the same solid, frame and reach, give the pick's answer, with its
 * steps and looks. That may still be 8, 9 or 10: a spot that is ready could be
 * picked, no more.
 *
 * A ready start is a value. A host may keep it, copy it, walk from it often or
 * never, and may make one of any numbers. It holds no solid, frame or reach: the
 * walk gets these again.
 *
 * Bit 0, 1, 2 of level: axis 0, 1, 2 is level; higher bits are not looked at.
 */
typedef struct {
    ulgenzhir_point start, apex;
    uint32_t level, looks;
} ulgenzhir_ready;

/*
 * number 0: ready, place 0 0 0; looks are those of the ready start, whose start
 * is the one asked about. Refused: the place and looks of the pick, which has
 * made no step either; ready all zero.
 */
typedef struct {
    uint32_t number;
    ulgenzhir_point place;
    uint32_t looks;
    ulgenzhir_ready ready;
} ulgenzhir_check;

/*
 * The start check: what a pick asks before its rounds.
 */
ulgenzhir_check ulgenzhir_check_wedge(int32_t a, int32_t b, int32_t c, int32_t h,
                                      int32_t px, int32_t py, int32_t pz,
                                      int32_t frame, int32_t reach);

/*
 * The same on a stack.
 */
ulgenzhir_check ulgenzhir_check_stack(int32_t width, int32_t height, int32_t depth,
                                      const uint8_t *bytes, size_t len,
                                      int32_t px, int32_t py, int32_t pz,
                                      int32_t frame, int32_t reach);

/*
 * The walk from any ready start. 1 to 4 are judged again, 4 of the handed start,
 * or else the handed apex; with 1 to 4 and 13 steps and looks are 0. Then the
 * rounds begin from the handed apex with the handed level axes, and looks are
 * counted on from the handed ones. Nothing else is asked: neither whether the
 * start is filled and the apex empty, nor where they lie from each other, nor
 * whether those axes are level.
 */
ulgenzhir_pick ulgenzhir_walk_wedge(int32_t a, int32_t b, int32_t c, int32_t h,
                                    ulgenzhir_ready ready,
                                    int32_t frame, int32_t reach);

/*
 * The same on a stack.
 */
ulgenzhir_pick ulgenzhir_walk_stack(int32_t width, int32_t height, int32_t depth,
                                    const uint8_t *bytes, size_t len,
                                    ulgenzhir_ready ready,
                                    int32_t frame, int32_t reach);

/*
 * number 0: accepted, and guess is 1: an accepted touch is always a guess.
 * Refused: guess is 0. Otherwise as ulgenzhir_pick, with no level axis.
 */
typedef struct {
    uint32_t number;
    uint32_t guess;
    ulgenzhir_point place;
    uint32_t steps, looks;
    ulgenzhir_point normal, m0, m1, m2, apex;
} ulgenzhir_touch;

/*
 * The quick touch, for shading under a moving finger: a walk with fewer looks.
 * A vector falls only if the voxel one such vector from the apex is filled,
 * whatever the reach. The axes are not asked; instead the three corners, the
 * apex less each unit vector, must be filled. All else is as in a pick.
 *
 * A guess is exact, the slope's normal and the triangle of every accepted pick
 * on it, where the apex is on the plane's first empty level (on a wedge
 * ax + by + cz = h there) of a slope with no part against the frame, no common
 * divisor and sizes that add to at most reach. Elsewhere it may be wrong. And a
 * touch may be refused where a pick is not: on a face level along an axis that
 * axis's corner is empty, so no touch is accepted there.
 */
ulgenzhir_touch ulgenzhir_touch_wedge(int32_t a, int32_t b, int32_t c, int32_t h,
                                      int32_t px, int32_t py, int32_t pz,
                                      int32_t frame, int32_t reach);

/*
 * The same on a stack.
 */
ulgenzhir_touch ulgenzhir_touch_stack(int32_t width, int32_t height, int32_t depth,
                                      const uint8_t *bytes, size_t len,
                                      int32_t px, int32_t py, int32_t pz,
                                      int32_t frame, int32_t reach);

/*
 * number 0: the squared sine of the lean is below part / whole. 35: both are 0.
 */
typedef struct {
    uint32_t number;
    uint64_t part, whole;
} ulgenzhir_lean;

/*
 * The known lean: how far the face can lean from the normal of an accepted pick,
 * told by the answer and the reach that it was asked with. If the filled voxels
 * are those below a plane, whatever plane, its normal has an acute angle to the
 * pick's, and the squared sine of that angle is below part / whole. So a wall
 * that reads d along the pick's normal is metal of at least
 * d * sqrt(1 - part / whole). A bound at or above 1 (part >= whole) says nothing.
 *
 * part is 3S and whole is L*L*(n.n), with n the normal, L the last power (the
 * first of 1, 2, 4, .. that is at least reach) and S the greatest squared length
 * of a difference of two of m0, m1, m2 that are not level (0 if there is none),
 * plus 1 for each level axis. An axis is level exactly if the normal's part is 0.
 *
 * This is of planes: where the face ends, take the firm footing. And it is of
 * picks, a check and its walk in a row among them, not of a walk from a ready
 * start that nobody checked. Any numbers may be handed in, here and below, but
 * of an answer that no call gave the bounds say nothing.
 */
ulgenzhir_lean ulgenzhir_known_lean(ulgenzhir_pick pick, int32_t reach);

/*
 * number 0: firm to power (0: not at all), place 0 0 0; the squared sine of the
 * lean is below part / whole, and whole is 0 for power 0. Refused: place and
 * looks are as a pick's, power, part and whole are 0.
 */
typedef struct {
    uint32_t number;
    ulgenzhir_point place;
    uint32_t power, looks;
    uint64_t part, whole;
} ulgenzhir_firm;

/*
 * The firm footing: the same bound where the face ends. It looks for itself, so
 * the answer may also be that of a walk from a ready start that nobody checked:
 * at the start (the apex less the frame's signs, each part held to 32 bits) and
 * at the apex, then from the start at the powers 1, 2, 4, .. up to the last,
 * along each difference of two of m0, m1, m2 that are not level and along each
 * level axis, all of them both ways. power is the last at which all were filled,
 * 0 if there is none; a voxel that is not filled ends the search, and so does
 * one outside the box, which is no look.
 *
 * The bound holds of every plane that the start and the voxels found filled lie
 * below and the apex does not: on a convex part of each face that the apex is
 * above, whatever stands beyond its edges. So a wall that reads d is metal of at
 * least d * sqrt(1 - part / whole) there. Where part >= whole there is no bound,
 * and a gauge draws no figure: it may not be flat. part is 3S as above, whole is
 * power*power*(n.n).
 *
 * On a slope with no part against the frame, no common divisor and sizes that add
 * to at most reach, an accepted pick is firm to the last power, if the voxels to
 * be looked at lie in the box.
 */
ulgenzhir_firm ulgenzhir_firm_wedge(int32_t a, int32_t b, int32_t c, int32_t h,
                                    ulgenzhir_pick pick,
                                    int32_t frame, int32_t reach);

/*
 * The same on a stack.
 */
ulgenzhir_firm ulgenzhir_firm_stack(int32_t width, int32_t height, int32_t depth,
                                    const uint8_t *bytes, size_t len,
                                    ulgenzhir_pick pick,
                                    int32_t frame, int32_t reach);

/*
 * number 0: sizes set, value 0. Refused: value is the number returned, sizes 0.
 */
typedef struct {
    uint32_t number;
    uint64_t value;
    uint32_t width, height, depth;
} ulgenzhir_read;

/*
 * Reads 1 to 256 P4 images of equal size. On success the rows are at the front
 * of the lent buffer with padding bits zero and the bytes behind them stay;
 * a refusal writes nothing.
 */
ulgenzhir_read ulgenzhir_read_p4(const uint8_t *in, size_t in_len,
                                 uint8_t *rows, size_t rows_len);

/*
 * number 0: value is the bytes written; 27: bytes needed; 3: 0.
 */
typedef struct {
    uint32_t number;
    uint64_t value;
} ulgenzhir_written;

/*
 * Writes a stack in its plain form at the front of the lent buffer, padding
 * bits zero; the bytes behind stay, and a refusal writes nothing.
 */
ulgenzhir_written ulgenzhir_write_p4(int32_t width, int32_t height, int32_t depth,
                                     const uint8_t *bytes, size_t len,
                                     uint8_t *out, size_t out_len);

/*
 * number 0: lit. Refused: number 30, floats +0.
 */
typedef struct {
    uint32_t number;
    float x, y, z;
} ulgenzhir_lit;

/*
 * The unit vector of three whole numbers. Each float is exactly m/32768 with
 * its number's sign; its size is at most the exact one, and less than 1/32768
 * below it.
 */
ulgenzhir_lit ulgenzhir_display(int32_t nx, int32_t ny, int32_t nz);

#ifdef __cplusplus
}
#endif

#endif
