/*
 * Three coaches report where they are, and the second has no fix: it reports three zeros. Divided by their length these are NaN, which
 * must come out as a refusal between two good answers, never as the answer of a minute ago. Asked one by one, then as a batch.
 */
#include "heddleplume.h"

#include <inttypes.h>
#include <math.h>
#include <stdio.h>

enum { RECEIVERS = 3, LEVEL = 5 };

/* Where each receiver says it is, in kilometres from the centre of the Earth. */
static const double REPORTED[RECEIVERS][3] = {
    {4188.24, 172.04, 4797.78},
    {0.0, 0.0, 0.0},
    {3966.01, -8.31, 4985.98},
};

static const char *name_of(uint32_t refusal)
{
    static const char *const NAMES[] = {
        "answered", "BadFrame", "BadRows",    "BadFace",   "BadLevel",    "BadRange",   "BadNumber", "OffSphere",
        "Behind",   "TooFar",   "NotReduced", "OutOfFace", "NotAdjacent", "NoCrossing", "BadLine",   "BadList",
    };
    return refusal < sizeof NAMES / sizeof NAMES[0] ? NAMES[refusal] : "no refusal of this library";
}

/* A receiver can get the first two; any other refusal is a fault of the program or of its frame. */
static const char *advice_on(uint32_t refusal)
{
    switch (refusal) {
    case HEDDLEPLUME_BAD_NUMBER:
        return "the receiver has no fix, keep its feed";
    case HEDDLEPLUME_OFF_SPHERE:
        return "the vector was not divided by its length, keep its feed";
    default:
        return "keep its feed and call the engineer";
    }
}

static void say_refused(uint32_t refusal)
{
    printf("refused %" PRIu32 " %s: %s\n", refusal, name_of(refusal), advice_on(refusal));
}

static void say_place(uint32_t face, uint32_t i, uint32_t j, uint32_t k)
{
    printf("face %" PRIu32 ", hexagon %" PRIu32 " %" PRIu32 " %" PRIu32 ": look up its feed\n", face, i, j, k);
}

/* The receivers' own software divides without looking, which is how the NaN arise. */
static void divide_by_length(const double reported[3], double unit[3])
{
    double length = sqrt(reported[0] * reported[0] + reported[1] * reported[1] + reported[2] * reported[2]);
    for (int part = 0; part < 3; part++)
        unit[part] = reported[part] / length;
}

/* How near the line a receiver is: 0 on the border of its hexagon, 0.5 at the centre. */
static void say_margin(const double left[HEDDLEPLUME_LEFT_LEN])
{
    double margin[HEDDLEPLUME_MARGIN_LEN];
    uint32_t refusal = heddleplume_margin(left[0], left[1], margin, HEDDLEPLUME_MARGIN_LEN);
    if (refusal != HEDDLEPLUME_NO_REFUSAL)
        say_refused(refusal);
    else
        printf("  %.3f of a hexagon from its border\n", margin[0]);
}

/* Asked alone, a receiver's leftovers also say how near the line it is. */
static void ask_alone(const double *frame, int receiver, const double unit[3])
{
    uint32_t place[HEDDLEPLUME_PLACE_LEN];
    double left[HEDDLEPLUME_LEFT_LEN];
    uint32_t refusal = heddleplume_place(frame, HEDDLEPLUME_FRAME_LEN, unit[0], unit[1], unit[2], LEVEL, place, HEDDLEPLUME_PLACE_LEN,
                                         left, HEDDLEPLUME_LEFT_LEN);
    printf("receiver %d: ", receiver + 1);
    /* The number first: after a refusal `place` and `left` hold nothing of this receiver's. */
    if (refusal != HEDDLEPLUME_NO_REFUSAL) {
        say_refused(refusal);
        return;
    }
    say_place(place[0], place[1], place[2], place[3]);
    say_margin(left);
}

static void say_row(int receiver, const int32_t row[HEDDLEPLUME_ROW_LEN])
{
    printf("row %d holds %" PRId32 " %" PRId32 " %" PRId32 " %" PRId32 ": ", receiver + 1, row[0], row[1], row[2], row[3]);
    if (row[0] < 0)
        say_refused((uint32_t)-row[0]);
    else
        say_place((uint32_t)row[0], (uint32_t)row[1], (uint32_t)row[2], (uint32_t)row[3]);
}

static int ask_as_batch(const double *frame, const double *units)
{
    /* The rows hold answers of a minute ago: face 7, hexagon 0 1 1. None of them may survive. */
    int32_t rows[] = {7, 0, 1, 1, 7, 0, 1, 1, 7, 0, 1, 1};
    uint64_t refused = 0;
    uint32_t refusal = heddleplume_batch(frame, HEDDLEPLUME_FRAME_LEN, LEVEL, units, RECEIVERS * HEDDLEPLUME_VECTOR_LEN, rows,
                                         RECEIVERS * HEDDLEPLUME_ROW_LEN, 0, &refused, 1);
    if (refusal != HEDDLEPLUME_NO_REFUSAL) {
        printf("the whole batch is refused: %" PRIu32 " %s\n", refusal, name_of(refusal));
        return 1;
    }
    printf("batch of %d, refused: %" PRIu64 "\n", RECEIVERS, refused);
    for (int receiver = 0; receiver < RECEIVERS; receiver++)
        say_row(receiver, rows + receiver * HEDDLEPLUME_ROW_LEN);
    return 0;
}

int main(void)
{
    double frame[HEDDLEPLUME_FRAME_LEN];
    double units[RECEIVERS * HEDDLEPLUME_VECTOR_LEN];
    uint32_t refusal = heddleplume_frame(frame, HEDDLEPLUME_FRAME_LEN);
    if (refusal != HEDDLEPLUME_NO_REFUSAL) {
        printf("no frame: %" PRIu32 " %s\n", refusal, name_of(refusal));
        return 1;
    }
    for (int receiver = 0; receiver < RECEIVERS; receiver++) {
        double *unit = units + receiver * HEDDLEPLUME_VECTOR_LEN;
        divide_by_length(REPORTED[receiver], unit);
        ask_alone(frame, receiver, unit);
    }
    return ask_as_batch(frame, units);
}
