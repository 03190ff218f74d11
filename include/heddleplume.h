/*
 * Heddleplume: which hexagon of which face of the icosahedron a place on Earth lies in, the border of that hexagon, and how near to it the
 * place was.
 * C99, usable from C++. Link with target/staticlib/libheddleplume.a (x86-64), which `bindings/library` makes;
 * it needs no library but C's own.
 *
 * What holds for every function here:
 *
 * - It returns 0 if it answered, otherwise the number of its refusal, one of enum heddleplume_refusal. Of several that apply the first
 *   in this order is given: 14, 1, 2, 15, 3, 4, 5, 6, 7, 8, 9, 10, 11, 12, 13. Of the points of a border the first that is refused
 *   decides.
 * - The answer goes into the memory lent for it, each piece of which comes with its length in elements. It may be longer than stated
 *   here; what lies past the answer stays as it was. Shorter gets 2, HEDDLEPLUME_BAD_ROWS. Only heddleplume_region_write wants its
 *   output of one length, neither shorter nor longer.
 * - A refusal writes nothing. The memory then still holds what it held before, perhaps an old answer: so read the number first, and
 *   the memory only if the number is 0.
 * - Any number may be passed. One below zero arrives as a large one and is refused: i = -1 gets 10.
 * - A pointer is never NULL, not even with length 0, has the alignment of its elements, and leads to as many of them as the length
 *   says. Memory that is written overlaps no other memory of the same call.
 * - Nothing is kept between calls and nothing is allocated; calls from several threads do not disturb each other as long as none
 *   writes memory that another uses.
 *
 * A place is a face 0..19 and coordinates i, j, k. The least of the three is 0 and none is above 2^26, in what is passed (otherwise 10)
 * and in what is answered; only the answers of heddleplume_step, of heddleplume_cross with the turn, of heddleplume_corners, of
 * heddleplume_reduce and of heddleplume_map may be above 2^26, and other functions then refuse them with 10. (In a region list, and in
 * rows for one, a wrong place gets 15; and of a list that has not passed its check heddleplume_region_record gives out what is there.)
 * A cell level is 0..15. A grid level is even, 0..16: an odd cell level is raised by one.
 *
 * Leftovers are the two doubles r1 and r2 by which a plane point's hexagon is chosen, each at least 0 and below 1, never minus zero. With
 * x2 = |y| * 1.1547005383792515 and x1 = |x| + x2 / 2, each operation rounded, r1 is x1 and r2 is x2 without its whole part. The whole
 * parts lead to four centres of hexagons, and the leftovers alone say which of the four is taken. So they say how near the line a point
 * was, and heddleplume_margin puts that into one number. They do not say which neighbour is near: (x, y), (-x, y), (x, -y) and (-x, -y)
 * have the same.
 *
 * Every entry of the library that answers a question is a function here. Left out, since a caller loses nothing: the tests alone (each
 * function tests what it is given), the constructors and the dot product, the form of settling that changes a lent place, and the texts
 * of `walk` and `ask`.
 */
#ifndef HEDDLEPLUME_H
#define HEDDLEPLUME_H

#include <stddef.h>
#include <stdint.h>
#ifndef __cplusplus
#include <stdbool.h>
#endif

#ifdef __cplusplus
extern "C" {
#endif

/* Why a question was refused. The constants are int, so -HEDDLEPLUME_BAD_NUMBER is what a batch row holds. */
enum heddleplume_refusal {
    HEDDLEPLUME_NO_REFUSAL = 0,    /* answered */
    HEDDLEPLUME_BAD_FRAME = 1,     /* not 180 finite doubles of twenty unit centres and their axes: load the frame again */
    HEDDLEPLUME_BAD_ROWS = 2,      /* a wrong length, or the rows do not fit: lend the lengths stated */
    HEDDLEPLUME_BAD_FACE = 3,      /* a face above 19 */
    HEDDLEPLUME_BAD_LEVEL = 4,     /* a cell level above 15; a grid level that is odd or above 16 */
    HEDDLEPLUME_BAD_RANGE = 5,     /* an edge not 1..3, a map not 1..5, a start or length of a border out of range, a record number that
                                      is not below the count, or a leftover that is not at least 0 and below 1 */
    HEDDLEPLUME_BAD_NUMBER = 6,    /* a NaN or an infinity: the receiver has no fix, do not switch its feed. Also a root of a number below
                                      0, and a point on the sphere whose length is not finite or whose face has a u of length 0 */
    HEDDLEPLUME_OFF_SPHERE = 7,    /* the vector's length is not 1: divide the vector by its length first */
    HEDDLEPLUME_BEHIND = 8,        /* the vector lies behind the face's plane, or a point on its way to the sphere is nearer to the middle
                                      than a half: the frame is no icosahedron */
    HEDDLEPLUME_TOO_FAR = 9,       /* a plane point with a part of 2^25 or more: the point lies on no face */
    HEDDLEPLUME_NOT_REDUCED = 10,  /* no coordinate is 0, or one is above 2^26: subtract the least from all three */
    HEDDLEPLUME_OUT_OF_FACE = 11,  /* a border's centre lies outside its face: at an even level settle it first, at an odd one it
                                      has no border here. Also a corner that lies outside its face: settle it first, on its
                                      substrate grid */
    HEDDLEPLUME_NOT_ADJACENT = 12, /* a border runs over faces that are not neighbours: the centre is no pentagon's, or the pentagon is
                                      named on a face where it lies on the j or k axis: name it where it lies on the i axis */
    HEDDLEPLUME_NO_CROSSING = 13,  /* two lines do not meet */
    HEDDLEPLUME_BAD_LINE = 14,     /* a malformed line of text; no function of this header gives it */
    HEDDLEPLUME_BAD_LIST = 15      /* a region list of a wrong length, order, place or tail: it is damaged or no region list, so write it
                                      again. Of rows for one: sort them, drop repeats and rows that a batch has refused */
};

/* Lengths in elements. */
enum heddleplume_length {
    HEDDLEPLUME_FRAME_LEN = 180,        /* doubles: centre, u, v of each of the twenty faces */
    HEDDLEPLUME_VECTOR_LEN = 3,         /* doubles: x y z */
    HEDDLEPLUME_ROW_LEN = 4,            /* numbers: face i j k */
    HEDDLEPLUME_LINES_LEN = 8,          /* doubles: x y of from and to, of the first line and then of the second */
    HEDDLEPLUME_POINT_LEN = 2,          /* doubles: x y */
    HEDDLEPLUME_COORD_LEN = 3,          /* numbers: i j k */
    HEDDLEPLUME_GRID_LEN = 3,           /* numbers: unit scale, limit, 1 for a substrate grid or 0 */
    HEDDLEPLUME_PLACE_LEN = 4,          /* numbers: face i j k */
    HEDDLEPLUME_LEFT_LEN = 2,           /* doubles: the leftovers r1 r2 */
    HEDDLEPLUME_MARGIN_LEN = 1,         /* doubles: the margin */
    HEDDLEPLUME_CROSS_LEN = 5,          /* numbers: face i j k, and an enum heddleplume_overage */
    HEDDLEPLUME_SETTLE_LEN = 5,         /* numbers: face i j k, and the number of steps */
    HEDDLEPLUME_CORNERS_LEN = 19,       /* numbers: the grid level, then i j k six times */
    HEDDLEPLUME_MARKS_LEN = 25,         /* numbers: the count, then face and mark twelve times */
    HEDDLEPLUME_POINTS_LEN = 24,        /* doubles: x y twelve times */
    HEDDLEPLUME_ROOT_LEN = 1,           /* doubles: the root */
    HEDDLEPLUME_VECTORS_LEN = 36,       /* doubles: x y z twelve times */
    HEDDLEPLUME_REGION_RECORD_LEN = 16, /* bytes: the numbers face i j k */
    HEDDLEPLUME_REGION_TAIL_LEN = 88,   /* bytes: the numbers where the twenty faces begin, the level and the count */
    HEDDLEPLUME_REGION_FACTS_LEN = 2    /* numbers: the level and the count */
};

/* The maps that heddleplume_map takes. */
enum heddleplume_map {
    HEDDLEPLUME_MAP_SIXTH_TURN_CCW = 1,
    HEDDLEPLUME_MAP_SIXTH_TURN_CW = 2,
    HEDDLEPLUME_MAP_APERTURE_3_CCW = 3,
    HEDDLEPLUME_MAP_APERTURE_3_CW = 4,
    HEDDLEPLUME_MAP_APERTURE_7_CW = 5
};

/* How a crossing ended. */
enum heddleplume_overage {
    HEDDLEPLUME_OVERAGE_NONE = 0,      /* still on the face, unchanged */
    HEDDLEPLUME_OVERAGE_FACE_EDGE = 1, /* on an edge; only on a substrate grid */
    HEDDLEPLUME_OVERAGE_NEW_FACE = 2   /* on a neighbour face */
};

/* Where another face lies; 1, 2, 3 are also the edges that heddleplume_step takes. */
enum heddleplume_direction {
    HEDDLEPLUME_DIRECTION_ITSELF = 0,
    HEDDLEPLUME_DIRECTION_IJ = 1,
    HEDDLEPLUME_DIRECTION_KI = 2,
    HEDDLEPLUME_DIRECTION_JK = 3,
    HEDDLEPLUME_DIRECTION_ELSEWHERE = 7
};

/* What a point of a boundary is. */
enum heddleplume_mark {
    HEDDLEPLUME_MARK_UNUSED = 0,
    HEDDLEPLUME_MARK_CORNER = 1,
    HEDDLEPLUME_MARK_CROSSING = 2
};

/* ---- From a unit vector to a place ---- */

/*
 * The default frame: an icosahedron in the orientation of the public H3 library.
 * Writes out[0..179]. Refusals: 2.
 */
uint32_t heddleplume_frame(double *out, size_t out_len);

/*
 * The face nearest to a unit vector, and the squared distance from its centre; of several equally near the lowest face.
 * Writes face[0] and distance[0]. Refusals: 1, 2, 6, 7.
 */
uint32_t heddleplume_nearest(const double *frame, size_t frame_len, double x, double y, double z, uint32_t *face, size_t face_len,
                             double *distance, size_t distance_len);

/*
 * The plane point of a unit vector on a face that the caller names, at a cell level.
 * Writes out[0..1]: x y. Refusals: 1, 2, 3, 4, 6, 7, 8.
 */
uint32_t heddleplume_plane_point(const double *frame, size_t frame_len, uint32_t face, uint32_t level, double x, double y, double z,
                                 double *out, size_t out_len);

/*
 * The place of a unit vector at a cell level, and the leftovers of its plane point on that face.
 * Writes out[0..3]: face i j k; left[0..1]: r1 r2. Refusals: 1, 2 (either is too short), 4, 6, 7, 8.
 */
uint32_t heddleplume_place(const double *frame, size_t frame_len, double x, double y, double z, uint32_t level, uint32_t *out,
                           size_t out_len, double *left, size_t left_len);

/*
 * The places of n unit vectors, x y z one after the other, input_len = 3n, into rows of four numbers, without leftovers.
 * Writes row first + k for vector k, that is out[4 * (first + k)] and the three after it: face i j k; or, if the vector is refused,
 * minus the refusal (6, 7 or 8), 0, 0, 0, never what the row held before. All other rows stay. refused[0] is the number of refused rows.
 * Refusals of the whole batch, which write no row: 1, 2, 4. Besides for a short `refused` 2 is given if input_len is no multiple of 3,
 * out_len none of 4, or the rows from `first` on are fewer than n. With n = 0 only refused[0] is written.
 */
uint32_t heddleplume_batch(const double *frame, size_t frame_len, uint32_t level, const double *input, size_t input_len, int32_t *out,
                           size_t out_len, size_t first, uint64_t *refused, size_t refused_len);

/* ---- Levels and coordinates ---- */

/*
 * A cell level to its grid level.
 * Writes out[0]. Refusals: 2, 4.
 */
uint32_t heddleplume_raise(uint32_t level, uint32_t *out, size_t out_len);

/*
 * The grid of a face at a grid level: its unit scale, and the limit of i + j + k on the face.
 * Writes out[0..2]: unit scale, limit, and 1 for a substrate grid, 0 for a plain one. Refusals: 2, 4.
 */
uint32_t heddleplume_grid(uint32_t level, bool substrate, uint32_t *out, size_t out_len);

/*
 * The least of three coordinates taken from all three. Any three are taken, those above 2^26 too.
 * Writes out[0..2]: i j k. Refusals: 2.
 */
uint32_t heddleplume_reduce(uint32_t i, uint32_t j, uint32_t k, uint32_t *out, size_t out_len);

/*
 * Coordinates under one of the five maps of the grid, an enum heddleplume_map. The apertures' answers may be above 2^26.
 * Writes out[0..2]: i j k. Refusals: 2, 5, 10.
 */
uint32_t heddleplume_map(uint32_t map, uint32_t i, uint32_t j, uint32_t k, uint32_t *out, size_t out_len);

/* ---- On the plane of a face ---- */

/*
 * The hexagon of a plane point, and the leftovers by which it was chosen. It is proved that this hexagon's centre is the nearest to the
 * point whose coordinates are x1 and x2 (see above): the square of the distance, in hexagons, is at most 1/3 + 2^-40, and no other centre's
 * is smaller by more than 2^-40. x1 and x2 are themselves rounded: each is off the exact |x| + |y| / sqrt(3) or 2 * |y| / sqrt(3) by at
 * most one part in 2^51 of itself and two units of 2^-1074.
 * Writes out[0..2]: i j k; left[0..1]: r1 r2. Refusals: 2 (either is too short), 6, 9.
 */
uint32_t heddleplume_round(double x, double y, uint32_t *out, size_t out_len, double *left, size_t left_len);

/*
 * How far the point with these leftovers was from the nearest border of its hexagon, in hexagons: the distance between the centres of
 * neighbouring hexagons is 1, so 0 is on the border and 0.5, the most, at the centre. Switch a feed only where the new place has some
 * margin, say 0.05: it then does not flicker along a border, as long as positions jitter by less.
 *
 * - It differs by less than 2^-51 from the same number worked out exactly of r1 and r2. On the border itself it may lie below 0, since
 *   the tests of the rounding are rounded and leftovers are cut here; it is never below -2^-40.
 * - It is no distance on Earth: it is measured on the plane of the face, and hexagons differ in size. One of level 9 is about 350 m from
 *   centre to centre.
 * - It sees the borders of hexagons, not the edges of faces. Over an edge the same hexagon is named from another face, whatever the margin.
 *
 * Writes out[0]. Refusals: 2, 5.
 */
uint32_t heddleplume_margin(double r1, double r2, double *out, size_t out_len);

/*
 * The centre of a hexagon.
 * Writes out[0..1]: x y. Refusals: 2, 10.
 */
uint32_t heddleplume_centre(uint32_t i, uint32_t j, uint32_t k, double *out, size_t out_len);

/*
 * Where two lines meet, which may lie beyond their ends. The lines are eight doubles: x y of from and to of the first, then of the second.
 * Writes out[0..1]: x y. Refusals: 2 (also if lines_len is not 8, longer too), 6, 13.
 */
uint32_t heddleplume_meet(const double *lines, size_t lines_len, double *out, size_t out_len);

/*
 * Whether two points are equal within the tolerance of borders: both parts differ by at most 2^-23.
 * Writes out[0]: 1 yes, 0 no. Refusals: 2, 6.
 */
uint32_t heddleplume_alike(double x, double y, double other_x, double other_y, uint32_t *out, size_t out_len);

/* ---- From face to face ---- */

/*
 * Where the face `to` lies, seen from the face `from`.
 * Writes out[0]: an enum heddleplume_direction. Refusals: 2, 3.
 */
uint32_t heddleplume_direction(uint32_t from, uint32_t to, uint32_t *out, size_t out_len);

/*
 * A place after a sixth of a turn about its face's centre.
 * Writes out[0..3]: face i j k. Refusals: 2, 3, 10.
 */
uint32_t heddleplume_turn(uint32_t face, uint32_t i, uint32_t j, uint32_t k, bool clockwise, uint32_t *out, size_t out_len);

/*
 * The same place named from the neighbour face over an edge: 1 IJ, 2 KI, 3 JK. `level` is a grid level.
 * Writes out[0..3]: face i j k. Refusals: 2, 3, 4, 5, 10.
 */
uint32_t heddleplume_step(uint32_t face, uint32_t i, uint32_t j, uint32_t k, uint32_t level, bool substrate, uint32_t edge, uint32_t *out,
                          size_t out_len);

/*
 * One crossing: a place beyond its face is named from the neighbour that it lies towards. `level` is a grid level; `turn` asks for the
 * pentagon's turn before a step over KI.
 * Writes out[0..4]: face i j k and an enum heddleplume_overage. Refusals: 2, 3, 4, 10.
 */
uint32_t heddleplume_cross(uint32_t face, uint32_t i, uint32_t j, uint32_t k, uint32_t level, bool substrate, bool turn, uint32_t *out,
                           size_t out_len);

/*
 * Crossings, without the turn, until the place lies on its face. `level` is a grid level.
 * From coordinates near 2^26 at level 0 this makes millions of steps, about half a second.
 * Writes out[0..4]: face i j k and the number of steps over an edge. Refusals: 2, 3, 4, 10.
 */
uint32_t heddleplume_settle(uint32_t face, uint32_t i, uint32_t j, uint32_t k, uint32_t level, bool substrate, uint64_t *out,
                            size_t out_len);

/*
 * Whether two corners are one. `level` is a grid level, and both are places of its substrate grid, whose i + j + k is at most the limit
 * that heddleplume_grid gives. Where i + j + k is that limit, the corner lies on an edge, on IJ if k is 0, on KI if j is 0, on JK if i is
 * 0, and heddleplume_step over that edge gives another name of it: there are two on an edge, five where two edges end. The answer is yes
 * exactly when such steps lead from the one name to the other. (Without a level it once compared the two places themselves, which told
 * the corners of neighbouring cells apart along edges; that answer is gone.)
 * Writes out[0]: 1 yes, 0 no. Refusals: 2, 3, 4, 10, 11; 3, 10 and 11 of either corner.
 */
uint32_t heddleplume_same_corner(uint32_t face, uint32_t i, uint32_t j, uint32_t k, uint32_t other_face, uint32_t other_i,
                                 uint32_t other_j, uint32_t other_k, uint32_t level, uint32_t *out, size_t out_len);

/*
 * The first name of a corner: of all its names, as heddleplume_same_corner takes them, the one with the lowest face. Two corners are the
 * same exactly when their first names are equal; the first name of a first name is itself. `level` is a grid level.
 * Writes out[0..3]: face i j k. Refusals: 2, 3, 4, 10, 11.
 */
uint32_t heddleplume_first_name(uint32_t face, uint32_t i, uint32_t j, uint32_t k, uint32_t level, uint32_t *out, size_t out_len);

/* ---- Corners and borders ---- */

/*
 * The corners of a cell on its substrate grid; a pentagon takes the first five. `level` is a cell level. All are named from the cell's own
 * face, also those that lie outside of it: to compare them with another cell's, settle each on the substrate grid of out[0] and take its
 * heddleplume_first_name.
 * Writes out[0..18]: the grid level, then i j k six times. Refusals: 2, 3, 4, 10.
 */
uint32_t heddleplume_corners(uint32_t face, uint32_t i, uint32_t j, uint32_t k, uint32_t level, uint32_t *out, size_t out_len);

/*
 * The border of a hexagon: `length` corners (0..6) from corner `start` (0..5) on, and the points between them where the border crosses
 * an edge of the icosahedron. `level` is a cell level.
 * Writes marks[0..24]: the count, then face and mark (enum heddleplume_mark) twelve times; points[0..23]: x y twelve times, on the plane
 * of the face that the marks name. Points from the count on are unused: all zeros. Length 0 gives an empty border.
 * Refusals: 2, 3, 4, 5, 10, 11, 13.
 */
uint32_t heddleplume_hexagon(uint32_t face, uint32_t i, uint32_t j, uint32_t k, uint32_t level, uint32_t start, uint32_t length,
                             uint32_t *marks, size_t marks_len, double *points, size_t points_len);

/*
 * The border of a pentagon, in the same form: `start` is 0..4, `length` 0..5.
 * Refusals: 2, 3, 4, 5, 10, 11, then 12 or 13, that of the first crossing point needed.
 */
uint32_t heddleplume_pentagon(uint32_t face, uint32_t i, uint32_t j, uint32_t k, uint32_t level, uint32_t start, uint32_t length,
                              uint32_t *marks, size_t marks_len, double *points, size_t points_len);

/* ---- On the sphere ---- */

/*
 * The square root: the nearest double. That of minus zero is minus zero.
 * Writes out[0]. Refusals: 2, 6 (a number below 0, an infinity, a NaN).
 */
uint32_t heddleplume_root(double x, double *out, size_t out_len);

/*
 * The unit vector of a plane point of a face. `level` is a grid level, and the point one of its substrate grid, as the points of borders
 * are: their grid level is the cell level, an odd one raised by one. No point is too far for it. The vector passes the test of 7.
 * Writes out[0..2]: x y z. Refusals: 1, 2, 3, 4, 6, 8.
 */
uint32_t heddleplume_sphere(const double *frame, size_t frame_len, uint32_t face, uint32_t level, double x, double y, double *out,
                            size_t out_len);

/*
 * The border of a hexagon on the sphere: the border that heddleplume_hexagon gives, each point as heddleplume_sphere gives it.
 * Writes marks[0..24] as heddleplume_hexagon does; points[0..35]: x y z twelve times. Points from the count on are unused: all zeros.
 * Refusals: 1, 2, 3, 4, 5, 10, 11, then the points in their order: 6, 8 or 13, that of the first point that is refused.
 */
uint32_t heddleplume_hexagon_sphere(const double *frame, size_t frame_len, uint32_t face, uint32_t i, uint32_t j, uint32_t k,
                                    uint32_t level, uint32_t start, uint32_t length, uint32_t *marks, size_t marks_len, double *points,
                                    size_t points_len);

/*
 * The same of a pentagon: `start` is 0..4, `length` 0..5.
 * Refusals: 1, 2, 3, 4, 5, 10, 11, then 6, 8, 12 or 13, that of the first point that is refused.
 */
uint32_t heddleplume_pentagon_sphere(const double *frame, size_t frame_len, uint32_t face, uint32_t i, uint32_t j, uint32_t k,
                                     uint32_t level, uint32_t start, uint32_t length, uint32_t *marks, size_t marks_len, double *points,
                                     size_t points_len);

/* ---- Region lists ---- */

/*
 * A region list is the bytes of a file: the places of a region at one cell level, and an index at its tail. All its numbers have 32 bits,
 * the lowest byte first.
 *
 * - First the records, 16 bytes each: face i j k. They are sorted by face, then by i, by j and by k, no place comes twice, and there are
 *   at most 2^31 - 1 of them.
 * - Then 88 bytes: twenty record numbers, where each face begins, counted from 0; the level; the number of records. A face with no records
 *   begins where the next one does, or at the count.
 *
 * Places are compared number by number: ask a list only about places at its own level, which a place does not tell, and named from the same
 * face, as heddleplume_place and heddleplume_batch name them.
 */

/*
 * A region list of rows face i j k in the order of the list, as a batch writes them and a sort puts them: rows_len = 4n.
 * out_len is 88 + 16n, no more and no less.
 * Writes all of out. Refusals: 2 (rows_len is no multiple of 4, or out_len another), 15 (more than 2^31 - 1 rows; a row that is no place,
 * such as -6 0 0 0 of a batch; rows that are not in order, or come twice), 4.
 */
uint32_t heddleplume_region_write(uint32_t level, const int32_t *rows, size_t rows_len, uint8_t *out, size_t out_len);

/*
 * The full check of a region list: its length, every record and the tail. Ask it once when a file is opened.
 * Writes out[0..1]: level and count. Refusals: 2, 15.
 */
uint32_t heddleplume_region_check(const uint8_t *list, size_t list_len, uint32_t *out, size_t out_len);

/*
 * A record of a region list, by its number, from 0 on. It is given as it stands in the list: a place, if the list has passed its check.
 * Writes out[0..3]: face i j k. Refusals: 2, 15 (list_len is below 88 or not 88 + 16 times the count, or the count is above 2^31 - 1;
 * nothing else of the list is tested), 5.
 */
uint32_t heddleplume_region_record(const uint8_t *list, size_t list_len, uint32_t number, uint32_t *out, size_t out_len);

/*
 * Whether a place is in a region: the quick question. It looks only between the start of the place's face and that of the next, for face
 * 19 the count, and halves what lies between. On a list that has passed heddleplume_region_check the answer is that of reading every
 * record. Of any other list it tests only the length and the two starts, and of its answers but 15 nothing is claimed: so check a file
 * when you open it.
 * Writes out[0]: 1 yes, 0 no. Refusals: 2, 15 (the length, as for heddleplume_region_record; or the two starts are out of order or past
 * the count, which is not asked if the face is above 19), 3, 10.
 */
uint32_t heddleplume_region_has(const uint8_t *list, size_t list_len, uint32_t face, uint32_t i, uint32_t j, uint32_t k, uint32_t *out,
                                size_t out_len);

#ifdef __cplusplus
}
#endif

#endif
