/* A list of surveyed points and nothing else, to a finished mesh: each point's vertex, the triangles and the volume above
 * the ground. Then three points on one line, which make no triangle. Through include/fithmoul.h; it is C and C++. */
#include "fithmoul.h"

#include <inttypes.h>
#include <stdio.h>

#define N 7 /* the most points of a list here */

/* rows for N vertices; what they hold before the call does not matter */
static int32_t positions[FITHMOUL_POSITIONS(N)];
static int32_t heights[FITHMOUL_HEIGHTS(N)];
static uint32_t outs[FITHMOUL_OUTS(N)];
static uint32_t halves[FITHMOUL_HALVES(N)];
static uint32_t adjacent[FITHMOUL_ADJACENT(N)];
static fithmoul_node nodes[FITHMOUL_NODES(N)];
static uint32_t freed[FITHMOUL_FREED(N)];
static uint32_t buckets[FITHMOUL_BUCKETS(N)];
static uint32_t pending[4096];
static uint64_t answers[FITHMOUL_ANSWERS(N)];

#define LENGTH(row) (sizeof(row) / sizeof((row)[0]))

static fithmoul_bulk_load_result load(const int32_t *points, const int32_t *point_heights, size_t count) {
    return fithmoul_bulk_load(
        positions, LENGTH(positions), heights, LENGTH(heights), outs, LENGTH(outs), halves, LENGTH(halves),
        adjacent, LENGTH(adjacent), nodes, LENGTH(nodes), freed, LENGTH(freed), buckets, LENGTH(buckets),
        pending, LENGTH(pending), answers, LENGTH(answers), points, 2 * count, point_heights, count);
}

static void print_mesh(const fithmoul_bulk_load_result *mesh) {
    for (uint32_t f = 1; f < mesh->faces; f++) {
        uint32_t a = adjacent[f], b = halves[4 * a], c = halves[4 * b];
        printf("triangle %" PRIu32 " %" PRIu32 " %" PRIu32 "\n", halves[4 * a + 3], halves[4 * b + 3], halves[4 * c + 3]);
    }
    fithmoul_volume_result v = fithmoul_volume(
        mesh->vertices, mesh->edges, mesh->faces, positions, LENGTH(positions), heights, LENGTH(heights), outs, LENGTH(outs),
        halves, LENGTH(halves), adjacent, LENGTH(adjacent), 0);
    printf("%" PRId64 " cubic metres\n", v.cubic_metres);
}

/* from one end of the line to the other: at an end next is the reverse */
static void print_line(const fithmoul_bulk_load_result *line) {
    uint32_t e = 0;
    if (line->edges == 0) {
        return;
    }
    while (halves[4 * e] != (e ^ 1)) {
        e = halves[4 * e];
    }
    e ^= 1;
    for (uint32_t i = 0; i < line->vertices; i++, e = halves[4 * e]) {
        uint32_t v = halves[4 * e + 3];
        printf("vertex %" PRIu32 " at (%" PRId32 ", %" PRId32 ")\n", v, positions[2 * v], positions[2 * v + 1]);
    }
}

static void print_load(const int32_t *points, const int32_t *point_heights, size_t count) {
    fithmoul_bulk_load_result made = load(points, point_heights, count);
    if (made.refusal != 0) {
        printf("refusal %" PRIu32 " at %" PRIu32 "\n", made.refusal, made.place);
        return;
    }
    for (size_t i = 0; i < count; i++) {
        const uint64_t *a = &answers[FITHMOUL_ANSWERS(i)];
        printf("point %zu: fate %" PRIu64 ", vertex %" PRIu64 ", %" PRIu64 " faces, %" PRIu64 " flips\n",
            i, a[0], a[1], a[2], a[3]);
    }
    printf("%" PRIu32 " vertices, %" PRIu32 " edges, %" PRIu32 " faces, line %" PRIu32 "\n",
        made.vertices, made.edges, made.faces, made.line);
    if (made.line) {
        print_line(&made);
    } else {
        print_mesh(&made);
    }
}

int main(void) {
    /* east and north in millimetres, as they stand in the file; the summit was taken twice */
    static const int32_t survey[2 * N] = {4100, 3900, 0, 0, 8000, 0, 8000, 8000, 0, 8000, 4100, 3900, 4000, 0};
    static const int32_t survey_heights[N] = {2500, 0, 0, 0, 0, 2600, 0};
    print_load(survey, survey_heights, N);

    static const int32_t fence[6] = {4000, 2000, 0, 0, 2000, 1000};
    print_load(fence, survey_heights, 3);

    static const int32_t beyond[4] = {0, 0, 0, 16777217};
    print_load(beyond, survey_heights, 2);
    return 0;
}
