/* A triangle, a centre and five points, to a finished mesh: the sample of the specification, with heights, and a fifth
 * point at the place of the fourth, through include/fithmoul.h. Prints each point's answer, the triangles, the heights,
 * the volume above two levels, the area total, on which side of a line three points are, and what a refused call
 * answers. It is C and C++. */
#include "fithmoul.h"

#include <inttypes.h>
#include <stdio.h>

#define SEED 3
#define POINTS 5
#define N (SEED + POINTS)

/* the seed: half-edges 0, 2, 4 run through vertices 0, 1, 2 in face 1; the odd ones are their reverses in the outer face, 0 */
static int32_t positions[FITHMOUL_POSITIONS(N)] = {0, 0, 4, 0, 0, 4};
static int32_t heights[FITHMOUL_HEIGHTS(N)] = {10, 20, 30};
static uint32_t outs[FITHMOUL_OUTS(N)] = {0, 2, 4};
static uint32_t halves[FITHMOUL_HALVES(N)] = {2, 4, 1, 0, 5, 3, 0, 1, 4, 0, 1, 1, 1, 5, 0, 2, 0, 2, 1, 2, 3, 1, 0, 0};
static uint32_t adjacent[FITHMOUL_ADJACENT(N)] = {1, 0};

/* rows that hold nothing between calls */
static fithmoul_node nodes[FITHMOUL_NODES(N)];
static uint32_t freed[FITHMOUL_FREED(N)];
static uint32_t buckets[FITHMOUL_BUCKETS(N)];
static uint32_t pending[4096];
static uint64_t answers[FITHMOUL_ANSWERS(POINTS)];

static const int32_t points[2 * POINTS] = {4, 4, 2, 2, 4, 4, 1, 1, 1, 1};
static const int32_t point_heights[FITHMOUL_POINT_HEIGHTS(POINTS)] = {40, 50, 60, 70, 80};

#define LENGTH(row) (sizeof(row) / sizeof((row)[0]))

static fithmoul_run_result run(double x, double y) {
    return fithmoul_run(
        SEED, 3, 2, 0, positions, LENGTH(positions), heights, LENGTH(heights), outs, LENGTH(outs), halves, LENGTH(halves),
        adjacent, LENGTH(adjacent), nodes, LENGTH(nodes), freed, LENGTH(freed), buckets, LENGTH(buckets),
        pending, LENGTH(pending), answers, LENGTH(answers), x, y, points, LENGTH(points),
        point_heights, LENGTH(point_heights));
}

static const char *named(uint64_t fate) {
    switch (fate) {
        case FITHMOUL_ADDED: return "added";
        case FITHMOUL_DROPPED: return "dropped";
        case FITHMOUL_IN_TRIANGLE: return "put into a triangle";
        case FITHMOUL_ON_EDGE: return "put on an edge";
        case FITHMOUL_OUTSIDE: return "put in outside";
        case FITHMOUL_ON_VERTEX: return "put on a vertex";
        default: return "not in";
    }
}

static void print_triangles(uint32_t faces) {
    for (uint32_t f = 1; f < faces; f++) {
        uint32_t a = adjacent[f];
        uint32_t b = halves[4 * a];
        uint32_t c = halves[4 * b];
        printf("triangle %" PRIu32 " %" PRIu32 " %" PRIu32 "\n", halves[4 * a + 3], halves[4 * b + 3], halves[4 * c + 3]);
    }
}

static void print_volume(const fithmoul_run_result *mesh, int32_t level) {
    fithmoul_volume_result v = fithmoul_volume(
        mesh->vertices, mesh->edges, mesh->faces, positions, LENGTH(positions), heights, LENGTH(heights), outs, LENGTH(outs),
        halves, LENGTH(halves), adjacent, LENGTH(adjacent), level);
    printf("above %" PRId32 ": refusal %" PRIu32 ", six volumes 0x%016" PRIx64 " %016" PRIx64 ", %" PRId64 " cubic metres\n",
        level, v.refusal, v.six_volumes_high, v.six_volumes_low, v.cubic_metres);
}

static void print_side(int32_t qx, int32_t qy) {
    fithmoul_side_query_result s = fithmoul_side_query(-16777216, -16777216, 16777216, -16777216, qx, qy);
    printf("(%" PRId32 ", %" PRId32 "): refusal %" PRIu32 " at %" PRIu32 ", doubled area %" PRId64 "\n",
        qx, qy, s.refusal, s.place, s.doubled_area);
}

int main(void) {
    fithmoul_run_result refused = run(9.0, 9.0);
    printf("about (9, 9): refusal %" PRIu32 "\n", refused.refusal);

    fithmoul_run_result done = run(1.0, 1.0);
    if (done.refusal != 0) {
        printf("refusal %" PRIu32 " at %" PRIu32 "\n", done.refusal, done.place);
        return 1;
    }
    for (int i = 0; i < POINTS; i++) {
        const uint64_t *a = &answers[FITHMOUL_ANSWERS(i)];
        printf("point %d: fate %" PRIu64 " (%s), vertex %" PRIu64 ", %" PRIu64 " faces, %" PRIu64 " flips\n",
            i, a[0], named(a[0]), a[1], a[2], a[3]);
    }
    printf("%" PRIu32 " vertices, %" PRIu32 " edges, %" PRIu32 " triangles\n", done.vertices, done.edges, done.faces - 1);
    print_triangles(done.faces);
    for (uint32_t v = 0; v < done.vertices; v++) {
        printf("vertex %" PRIu32 " at height %" PRId32 "\n", v, heights[v]);
    }
    print_volume(&done, 7);
    print_volume(&done, 1000000);
    print_volume(&done, 1048577);
    fithmoul_area_total_result total = fithmoul_area_total(
        done.vertices, done.edges, done.faces, positions, LENGTH(positions), heights, LENGTH(heights), outs, LENGTH(outs),
        halves, LENGTH(halves), adjacent, LENGTH(adjacent));
    printf("area total: refusal %" PRIu32 ", 0x%016" PRIx64 " %016" PRIx64 "\n",
        total.refusal, total.area_total_high, total.area_total_low);
    print_side(16777216, 16777216);
    print_side(5, -16777216);
    print_side(5, 16777217);

    fithmoul_check_result good = fithmoul_check(
        done.vertices, done.edges, done.faces, positions, LENGTH(positions), heights, LENGTH(heights), outs, LENGTH(outs),
        halves, LENGTH(halves), adjacent, LENGTH(adjacent));
    fithmoul_locate_result east = fithmoul_locate(
        done.vertices, done.edges, done.faces, positions, LENGTH(positions), heights, LENGTH(heights), outs, LENGTH(outs),
        halves, LENGTH(halves), adjacent, LENGTH(adjacent), nodes, LENGTH(nodes), freed, LENGTH(freed),
        buckets, LENGTH(buckets), 1.0, 1.0, 0.5);
    printf("check: refusal %" PRIu32 "; due east: edge from vertex %" PRIu32 "\n", good.refusal, halves[4 * east.edge + 3]);
    return 0;
}
