/* Asks what five points would do to a triangle and tells each answer, then commits one that is added: the other quotes
 * are stale then, and so is its own. Asked about again, a second point goes in too. Through include/fithmoul.h; it is C
 * and C++. */
#include "fithmoul.h"

#include <inttypes.h>
#include <stdio.h>

#define POINTS 5
#define N (3 + POINTS)

/* the triangle: half-edges 0, 2, 4 run through vertices 0, 1, 2 in face 1; the odd ones are their reverses in face 0 */
static int32_t positions[FITHMOUL_POSITIONS(N)] = {0, 0, 4, 0, 0, 4};
static int32_t heights[FITHMOUL_HEIGHTS(N)] = {10, 20, 30};
static uint32_t outs[FITHMOUL_OUTS(N)] = {0, 2, 4};
static uint32_t halves[FITHMOUL_HALVES(N)] = {2, 4, 1, 0, 5, 3, 0, 1, 4, 0, 1, 1, 1, 5, 0, 2, 0, 2, 1, 2, 3, 1, 0, 0};
static uint32_t adjacent[FITHMOUL_ADJACENT(N)] = {1, 0};

/* its counts, the change count with them: no run has made it, so that starts at 0 */
static uint32_t vertices = 3, edges = 3, faces = 2, changes = 0;

/* rows that hold nothing between calls */
static fithmoul_node nodes[FITHMOUL_NODES(N)];
static uint32_t freed[FITHMOUL_FREED(N)];
static uint32_t buckets[FITHMOUL_BUCKETS(N)];
static uint32_t pending[4096];

static const int32_t points[POINTS][3] = {{4, 4, 40}, {2, 2, 50}, {4, 0, 60}, {1, 1, 70}, {-3, 1, 80}};

#define LENGTH(row) (sizeof(row) / sizeof((row)[0]))

static fithmoul_ask_result ask(const int32_t *point) {
    return fithmoul_ask(
        vertices, edges, faces, changes, positions, LENGTH(positions), heights, LENGTH(heights), outs, LENGTH(outs),
        halves, LENGTH(halves), adjacent, LENGTH(adjacent), nodes, LENGTH(nodes), freed, LENGTH(freed),
        buckets, LENGTH(buckets), 1.0, 1.0, point[0], point[1], point[2]);
}

/* about the centre that was asked about: a quote does not name it */
static fithmoul_commit_result commit(const int32_t *point, fithmoul_quote quote) {
    fithmoul_commit_result r = fithmoul_commit(
        vertices, edges, faces, changes, positions, LENGTH(positions), heights, LENGTH(heights), outs, LENGTH(outs),
        halves, LENGTH(halves), adjacent, LENGTH(adjacent), nodes, LENGTH(nodes), freed, LENGTH(freed),
        buckets, LENGTH(buckets), pending, LENGTH(pending), 1.0, 1.0, point[0], point[1], point[2], quote);
    vertices = r.vertices;
    edges = r.edges;
    faces = r.faces;
    changes = r.changes;
    return r;
}

static const char *named(uint64_t fate) {
    switch (fate) {
        case FITHMOUL_ADDED: return "would be added";
        case FITHMOUL_DROPPED: return "would be dropped: there is a vertex";
        case FITHMOUL_NOT_LEFT: return "would be skipped: it is not outside the edge at its angle";
        case FITHMOUL_UNSOUND: return "would be skipped: it would leave no sound ring";
        case FITHMOUL_AT_CENTER: return "would be skipped: it is the centre";
        default: return "is no fate of a step";
    }
}

static fithmoul_quote asked(const int32_t *point) {
    fithmoul_ask_result r = ask(point);
    printf("(%" PRId32 ", %" PRId32 ") at height %" PRId32, point[0], point[1], point[2]);
    if (r.refusal != 0) {
        printf(": refusal %" PRIu32 "\n", r.refusal);
    } else {
        printf(" %s; faces %" PRIu64 ", ", named(r.quote.fate), r.quote.faces);
        printf("change count %" PRIu32 "\n", r.quote.changes);
    }
    return r.quote;
}

static void committed(const int32_t *point, fithmoul_quote quote) {
    fithmoul_commit_result r = commit(point, quote);
    printf("commit (%" PRId32 ", %" PRId32 ") at height %" PRId32 ": ", point[0], point[1], point[2]);
    if (r.refusal != 0) {
        printf("refusal %" PRIu32 ", change count %" PRIu32 "\n", r.refusal, r.changes);
    } else {
        printf("fate %" PRIu64 ", vertex %" PRIu64 ", faces %" PRIu64 ", flips %" PRIu64 ", ", r.answer.fate,
            r.answer.vertex, r.answer.faces, r.answer.flips);
        printf("change count %" PRIu32 "\n", r.changes);
    }
}

int main(void) {
    fithmoul_quote quotes[POINTS];
    for (int i = 0; i < POINTS; i++) {
        quotes[i] = asked(points[i]);
    }
    printf("vertices %" PRIu32 ", triangles %" PRIu32 "\n", vertices, faces - 1);

    committed(points[3], quotes[3]); /* adds nothing, so that the others still hold */
    committed(points[0], quotes[0]); /* adds a vertex */
    committed(points[0], quotes[0]); /* once only */
    committed(points[4], quotes[4]); /* stale */

    fithmoul_quote again = asked(points[4]);
    const int32_t higher[3] = {points[4][0], points[4][1], points[4][2] + 1};
    committed(higher, again); /* another point */
    committed(points[4], again);
    printf("vertices %" PRIu32 ", triangles %" PRIu32 "\n", vertices, faces - 1);
    for (uint32_t v = 0; v < vertices; v++) {
        printf("vertex %" PRIu32 " at (%" PRId32 ", %" PRId32 "), height %" PRId32 "\n",
            v, positions[2 * v], positions[2 * v + 1], heights[v]);
    }

    changes = UINT32_MAX; /* its end */
    asked(points[1]);
    return 0;
}
