/* The calls of the library: load a list of bare points, check a mesh, locate an angle, step one point, finish a mesh,
 * run a list of points from a mesh, ask what a point would do, commit a point by its quote, the volume between a mesh
 * and a level, the area total of a mesh, and the side query, the area of one triangle.
 *
 * Link with libfithmoul.a, which `tools/archive fithmoul` writes to target/staticlib/ (Linux, x86-64). Nothing else is
 * needed. crates/fithmoul_c/src/lib.rt has the same calls with their contracts, which are proved; docs/SPECIFICATION.md
 * says what they mean.
 *
 * A CALL TAKES ANYTHING. Whatever the counts, rows, centre, angle, points, quote and level are, it returns, reads and
 * writes inside the rows alone, and answers a result or one numbered refusal. What C cannot check is the caller's: a
 * pointer is not NULL (not even of a row of length 0) and is aligned for its type; there are as many entries behind it
 * as the length after it says; a row that a call may write overlaps no other row, and nobody else uses it meanwhile. No
 * call keeps a pointer, allocates, or uses anything global: calls on different rows may run at the same time.
 *
 * The caller's too is the floating-point environment: rounding to nearest, subnormal numbers kept, as C starts a
 * program. Angles are doubles, and where a program sets flush-to-zero (linking with gcc's -ffast-math does) or another
 * rounding, an answer may not be the one that is proved. In the triangle (-5, 0), (5, -5), (5, 5), about the centre
 * (1.0, -5e-324), the edge at 1.0 is that from (5, -5) to (-5, 0); with flush-to-zero it is the one after it.
 *
 * COORDINATES are whole millimetres from -16,777,216 to 16,777,216. A centre is two doubles in the same range. HEIGHTS,
 * of vertices and of points, and a volume's level are whole millimetres from -1,048,576 to 1,048,576. Nothing but a
 * volume depends on heights that are in range: links, answers and counts are the same whatever they are. A quote is for
 * a point with its height.
 *
 * THE MESH'S ROWS, for N vertices. A call may need room for vertices that it adds: N is `vertices` in a check, locate,
 * finish, volume and area total, one more in a step, ask and commit, `vertices` plus the number of points in a run, and
 * the number of points in a bulk load. A row may be longer; entries past the counts in use are never read for their
 * meaning, nor changed. A bulk load is given no mesh: what these rows hold before it does not matter.
 *
 *   positions  2N   int32_t   x and y of vertex v at 2v and 2v + 1
 *   heights     N   int32_t   the height of vertex v at v
 *   outs        N   uint32_t  an out edge of each vertex: a half-edge that starts there
 *   halves    24N   uint32_t  next, prev, face and origin of half-edge e at 4e, 4e + 1, 4e + 2, 4e + 3;
 *                             half-edges 2u and 2u + 1 are each other's reverse
 *   adjacent   2N   uint32_t  a half-edge of each face. Face 0 is the outer one; each other face is a triangle that
 *                             turns left (counterclockwise)
 *
 * `vertices`, `edges` (half as many as half-edges) and `faces` (with face 0) count what is in use. A result has the
 * counts after the call.
 *
 * A row may stand anywhere. In a mesh larger than the processor's caches a run of points in any order is an eighth
 * quicker where `halves` starts at a multiple of 64 bytes (aligned_alloc): both halves of an edge are in one line then.
 *
 * A LINE OF POINTS is what a bulk load leaves in those rows where its points make no triangle: its result has `line` 1.
 * The other calls refuse it. No points: the counts are 0, 0 and 0, and no entry was written. All at one place: 1, 0 and
 * 1, with outs[0] = 0 and adjacent[0] = 0. Several on one line: each vertex is joined to the next in the order of x,
 * then y, so that there is one edge less than there are vertices; every half-edge is in face 0, whose half-edge is 0.
 * Along next one goes to an end of the line and from there to the other end: at an end next is the reverse.
 *
 * THE CHANGE COUNT of a mesh, `changes`, goes by value beside those counts. A run and a bulk load start it at 0, where
 * they are accepted and where they are refused 9; a commit that adds a vertex or is refused 9 raises it by one.
 * Otherwise it stays: a call that is not given it leaves it alone, a step and a finish too. It ends at 4,294,967,295,
 * where no quote is given. For a mesh that neither has made, start it at 0.
 *
 * A QUOTE is what asking answers and committing takes: the mesh's change count, a point, and the fate and the faces of
 * that point's step. It names neither mesh nor centre: commit it on the mesh and about the centre that it is for. A
 * commit holds its count and point against those that it is given, its fate and faces against those that asking gives
 * now, and is refused 11 where one differs. So a commit that adds a vertex makes every quote stale that its mesh gave
 * since the last run, its own included. A step or a finish in between is noticed only where it has changed the point's
 * fate or faces, and a run or a bulk load starts the count anew, so that a quote from before it can meet its count
 * again: after one of these ask again.
 *
 * THE OTHER ROWS. They hold nothing between calls, and may be lent with anything in them.
 *
 *   nodes      N + 1        fithmoul_node   the ring's nodes
 *   freed      N + 1        uint32_t        the ring's freed nodes
 *   buckets    max(16, N)   uint32_t        the ring's buckets
 *   pending    at least 8   uint32_t        edges that wait for the circle test. Lend N, and 4,096 at least: mostly 16
 *                                           are used, but 100,000 points along thirty lines used more than 1,024
 *   answers    4 per point  uint64_t        the answers of a run or a bulk load, a fithmoul_point_answer for each point
 *
 * THE POINTS of a run and of a bulk load are two rows of int32_t that it only reads:
 *
 *   points         2 per point  x and y of each point: half the row's length is their number
 *   point_heights  1 per point  the height of each point. The row may be longer
 *
 * REFUSALS. `refusal` is 0 where a call is accepted. Otherwise it is the first row of this table that applies, from the
 * top down (10 straight after 3), and `place` what the row names, else 0. "Every call" is every call on a mesh. A bulk
 * load, which is given none, knows 1, 2, 3, 10 and 9: 1 where there are more than 1,000,000 points, and never because
 * there are few. A side query knows 3 alone, with the place 0, 1 or 2: the first of p1, p2 and q that is out of range.
 *
 *    1  every call          fewer than 3 or more than 1,000,000 vertices (N)
 *    2  every call          a row is shorter than above, or the row of points has an odd length
 *    3  every call          a coordinate is out of range. place: the first such vertex, points counted on after the
 *                           mesh's vertices; in a bulk load the first such point, from 0
 *   10  every call          a height is out of range, of a vertex in use or of a point, or a volume's level is
 *    4  every call          the rows are no mesh: a link is wrong or outside the counts, a face is no triangle, and so
 *                           on (docs/SPECIFICATION.md)
 *    5  every call          a triangle does not turn strictly left. place: the lowest such face
 *    6  locate, step, run,  the centre is not finite, is out of range, or is a boundary vertex
 *       ask, commit
 *    7  locate, step, run,  seen from the centre, the boundary's angles do not go round once, strictly rising, with
 *       ask, commit         gaps of at most 3/4 of a turn
 *    8  locate              the angle is NaN, below 0.0 or above 1.0
 *   11  commit              the quote's change count or point is not the one that is given, or its fate or faces are
 *                           not those that asking gives now
 *   12  ask, commit         the change count is at its end, 4,294,967,295
 *    9  step, finish, run,  the pending row is too short for a flip, which is not made. place: in a run and in a bulk
 *       commit, bulk load   load the index of the point whose step or insertion it was, or the number of points where
 *                           the finish was refused; otherwise 0
 *
 * AFTERWARDS. Every refusal but 9 leaves every row as it was. After 9 and after every accepted call the rows nodes,
 * freed, buckets and pending that were lent hold zeros over their whole length: of a node its four fields do, and
 * nothing is said of its four bytes of padding. After 9 the mesh is the one that stood before that flip, a good mesh
 * with the counts of the result: the vertex of the point named is in it, and the faces that were made so far. The
 * answers of a run that is refused 9, and of a bulk load:
 *
 *   in the seed       (of a bulk load) points before `place` keep their answers, all others are zeros. In the cases
 *                     below the seed's points keep theirs
 *   in a step         points before `place` that were added or dropped keep their answers, all others are zeros
 *   in the convexity  (place: the number of points) points that were added or dropped keep their answers, those that
 *   passes            the steps skipped are zeros: none of them is in the mesh
 *   in an insertion   points that were added or dropped keep their answers, also behind `place`, and so do the skipped
 *                     points before `place`, which are in; the one named and the skipped ones after it are zeros
 *
 * A vertex that a step, a commit, a run or a bulk load has added, refused 9 or not, has its point's position and
 * height. A point that is put in on a vertex (FITHMOUL_ON_VERTEX), a skipped one or one of a bulk load's seed, gives
 * its height to that vertex, in list order, so that the last one counts; other vertices at that position keep theirs,
 * and a point that is dropped leaves no height. Otherwise no call moves a vertex or changes its height.
 */
#ifndef FITHMOUL_H
#define FITHMOUL_H

#include <stddef.h>
#include <stdint.h>

#ifdef __cplusplus
extern "C" {
#endif

/* The least lengths of the rows for n vertices, and of the rows for so many points. */
#define FITHMOUL_POSITIONS(n) (2 * (size_t)(n))
#define FITHMOUL_HEIGHTS(n) ((size_t)(n))
#define FITHMOUL_OUTS(n) ((size_t)(n))
#define FITHMOUL_HALVES(n) (24 * (size_t)(n))
#define FITHMOUL_ADJACENT(n) (2 * (size_t)(n))
#define FITHMOUL_NODES(n) ((size_t)(n) + 1)
#define FITHMOUL_FREED(n) ((size_t)(n) + 1)
#define FITHMOUL_BUCKETS(n) ((size_t)(n) < 16 ? (size_t)16 : (size_t)(n))
#define FITHMOUL_PENDING ((size_t)8)
#define FITHMOUL_ANSWERS(points) (4 * (size_t)(points))
#define FITHMOUL_POINT_HEIGHTS(points) ((size_t)(points))

/* One entry of the row of ring nodes, 24 bytes. A caller has no use for what is in it. */
typedef struct fithmoul_node {
    double angle;
    uint32_t edge;
    uint32_t left;
    uint32_t right;
} fithmoul_node;

/* What became of a point. A lone step or a commit answers 1 to 5, and a quote has one of them. A run answers 1, 2 and 6
 * to 9: a point that its steps skip, for the reasons 3, 4 and 5, is put in after the convexity passes. A bulk load
 * answers 1 or 9 for the points of its seed, wherever they were put, and the fates of a run for the others. */
enum {
    FITHMOUL_ADDED = 1,       /* a step, or a bulk load's seed, made it the vertex `vertex` */
    FITHMOUL_DROPPED = 2,     /* it equals an end of the boundary edge at its angle */
    FITHMOUL_NOT_LEFT = 3,    /* it is not outside that edge: inside the mesh, or on the edge's line */
    FITHMOUL_UNSOUND = 4,     /* the boundary that it would leave has no sound ring about the centre */
    FITHMOUL_AT_CENTER = 5,   /* it is the centre */
    FITHMOUL_IN_TRIANGLE = 6, /* put into a triangle, as the vertex `vertex` */
    FITHMOUL_ON_EDGE = 7,     /* put on an edge, of the boundary or not, as the vertex `vertex` */
    FITHMOUL_OUTSIDE = 8,     /* put in outside the boundary, as the vertex `vertex` */
    FITHMOUL_ON_VERTEX = 9    /* put in on the vertex `vertex`, which takes the point's height; the mesh stays */
};

/* A point's answer. With 2 to 5 the mesh is left alone, and the other fields are 0; with 9 faces and flips are 0. All
 * four fields are 0 where a run was refused 9 and the point is not in (above). */
typedef struct fithmoul_point_answer {
    uint64_t fate;
    uint64_t vertex;
    uint64_t faces; /* inner faces that the step or the insertion added */
    uint64_t flips; /* and its flips */
} fithmoul_point_answer;

typedef struct fithmoul_check_result {
    uint32_t refusal;
    uint32_t place;
} fithmoul_check_result;

typedef struct fithmoul_locate_result {
    uint32_t refusal;
    uint32_t place;
    uint32_t edge;   /* a half-edge of face 0 */
    uint32_t passed; /* how many nodes of the ring were passed after the first */
} fithmoul_locate_result;

typedef struct fithmoul_step_result {
    uint32_t refusal;
    uint32_t place;
    uint32_t vertices; /* the counts after the call, refused or not */
    uint32_t edges;
    uint32_t faces;
    fithmoul_point_answer answer; /* all 0 where refused */
} fithmoul_step_result;

/* What a point would do, 32 bytes. It goes to a commit by value, and stays the caller's. */
typedef struct fithmoul_quote {
    uint32_t changes; /* the change count of the mesh that was asked */
    int32_t x;        /* the point */
    int32_t y;
    int32_t z;
    uint64_t fate;  /* 1 to 5, as a step answers it */
    uint64_t faces; /* inner faces that the step adds: 0 unless the fate is 1 */
} fithmoul_quote;

typedef struct fithmoul_ask_result {
    uint32_t refusal;
    uint32_t place;
    fithmoul_quote quote; /* all 0 where refused */
} fithmoul_ask_result;

typedef struct fithmoul_commit_result {
    uint32_t refusal;
    uint32_t place;
    uint32_t vertices; /* the counts after the call, refused or not */
    uint32_t edges;
    uint32_t faces;
    uint32_t changes;
    fithmoul_point_answer answer; /* all 0 where refused */
} fithmoul_commit_result;

typedef struct fithmoul_finish_result {
    uint32_t refusal;
    uint32_t place;
    uint32_t vertices; /* the counts after the call, refused or not */
    uint32_t edges;
    uint32_t faces;
    uint32_t faces_added; /* by the convexity passes; this and the flips are 0 where refused */
    uint64_t convex_flips;
    uint64_t closing_flips;
} fithmoul_finish_result;

typedef struct fithmoul_run_result {
    uint32_t refusal;
    uint32_t place;
    uint32_t vertices; /* the counts after the call, refused or not */
    uint32_t edges;
    uint32_t faces;
    uint32_t changes;     /* 0 where accepted or refused 9, else as given */
    uint32_t faces_added; /* by the convexity passes; this and the flips are 0 where refused */
    uint64_t convex_flips;
    uint64_t closing_flips;
} fithmoul_run_result;

/* A run's result, and whether the points made no triangle. Where it is refused 1, 2, 3 or 10 all but refusal and place
 * are 0. */
typedef struct fithmoul_bulk_load_result {
    uint32_t refusal;
    uint32_t place;
    uint32_t vertices; /* the counts of what was made, refused 9 or not */
    uint32_t edges;
    uint32_t faces;
    uint32_t changes;     /* 0: the count of a mesh that was made anew */
    uint32_t line;        /* 1 for a line of points, of one or none too; 0 for a finished mesh and where refused */
    uint32_t faces_added; /* by the convexity passes; this and the flips are 0 where refused and for a line */
    uint64_t convex_flips;
    uint64_t closing_flips;
} fithmoul_bulk_load_result;

/* Six times a volume in cubic millimetres is past 64 bits: a number of 128 bits in two's complement, its high and its
 * low half. Where the compiler has such a type it is
 * (__int128)((unsigned __int128)six_volumes_high << 64 | six_volumes_low). */
typedef struct fithmoul_volume_result {
    uint32_t refusal;
    uint32_t place;
    uint64_t six_volumes_high; /* this and the rest are 0 where refused */
    uint64_t six_volumes_low;
    int64_t cubic_metres; /* of 10^9 cubic millimetres: the nearest whole, an exact half to the even one */
} fithmoul_volume_result;

/* Doubled areas are in square millimetres. One triangle's is at most 2^50; where triangles overlap each other the total
 * of a mesh can pass 64 bits: a number of 128 bits in two's complement, as six times a volume is. */
typedef struct fithmoul_area_total_result {
    uint32_t refusal;
    uint32_t place;
    uint64_t area_total_high; /* both are 0 where refused */
    uint64_t area_total_low;
} fithmoul_area_total_result;

typedef struct fithmoul_side_query_result {
    uint32_t refusal;
    uint32_t place;
    int64_t doubled_area; /* 0 where refused */
} fithmoul_side_query_result;

/* A list of points with their heights, and nothing else, to a finished mesh with every point in it; or to a line of
 * points, marked as such, where they make no triangle. Up to 1,000,000 points, in any order, with repeats, or none.
 * `points_length` counts numbers, two for each point. For N points lend rows for N vertices, with anything in them, and
 * 4N answers.
 *
 * The points go in one after the other from the front of the list, each where it lies: the seed, which is a vertex, a
 * line, and from the first point off it a mesh. As soon as a triangle holds the middle of the last three vertices
 * (their sum times 11184811 / 2^25, which is the Rust's third) strictly inside, and the boundary goes round it as
 * refusals 6 and 7 want, the points that are left are a run from this seed about that centre. Where the list ends
 * before that the seed is finished, or is the line.
 *
 * Nothing is sorted. As in a run a list is best sorted by the distance from its middle, nearest first; in another order
 * the mesh is as good, but each point that the steps skip pays for a search through the mesh. While all points are on
 * one line each is compared with those before it, so that a list of one line takes a time that grows with the square of
 * its length.
 *
 * Refusals 1, 2, 3, 9 and 10, as above. Leaves the finished mesh or the line, with its heights, an answer for each
 * point in `answers`, and zeros in nodes, freed, buckets and pending. A finished mesh is one for every other call, with
 * the counts of the result. */
fithmoul_bulk_load_result fithmoul_bulk_load(
    int32_t *positions, size_t positions_length,
    int32_t *heights, size_t heights_length,
    uint32_t *outs, size_t outs_length,
    uint32_t *halves, size_t halves_length,
    uint32_t *adjacent, size_t adjacent_length,
    fithmoul_node *nodes, size_t nodes_length,
    uint32_t *freed, size_t freed_length,
    uint32_t *buckets, size_t buckets_length,
    uint32_t *pending, size_t pending_length,
    uint64_t *answers, size_t answers_length,
    const int32_t *points, size_t points_length,
    const int32_t *point_heights, size_t point_heights_length);

/* Does a mesh keep the rules, turn left everywhere and stay in range, its heights too? Refusals 1 to 5, and 10. Writes
 * nothing. */
fithmoul_check_result fithmoul_check(
    uint32_t vertices, uint32_t edges, uint32_t faces,
    const int32_t *positions, size_t positions_length,
    const int32_t *heights, size_t heights_length,
    const uint32_t *outs, size_t outs_length,
    const uint32_t *halves, size_t halves_length,
    const uint32_t *adjacent, size_t adjacent_length);

/* The boundary edge at an angle about a centre. An angle is a part of a turn from 0.0 (west) over 0.25 (north),
 * 0.5 (east) and 0.75 (south) to 1.0, not evenly spaced between (`pseudo_angle` of the Rust). Refusals 1 to 8, and 10.
 * Leaves the mesh alone, and zeros in nodes, freed and buckets. */
fithmoul_locate_result fithmoul_locate(
    uint32_t vertices, uint32_t edges, uint32_t faces,
    const int32_t *positions, size_t positions_length,
    const int32_t *heights, size_t heights_length,
    const uint32_t *outs, size_t outs_length,
    const uint32_t *halves, size_t halves_length,
    const uint32_t *adjacent, size_t adjacent_length,
    fithmoul_node *nodes, size_t nodes_length,
    uint32_t *freed, size_t freed_length,
    uint32_t *buckets, size_t buckets_length,
    double center_x, double center_y, double angle);

/* One point of a sweep, x and y with its height z. It checks the whole mesh and builds the ring anew, so for a list of
 * points use a run. Refusals 1 to 7, 9 and 10. Leaves the mesh after the step, and zeros in the other rows. */
fithmoul_step_result fithmoul_step(
    uint32_t vertices, uint32_t edges, uint32_t faces,
    int32_t *positions, size_t positions_length,
    int32_t *heights, size_t heights_length,
    uint32_t *outs, size_t outs_length,
    uint32_t *halves, size_t halves_length,
    uint32_t *adjacent, size_t adjacent_length,
    fithmoul_node *nodes, size_t nodes_length,
    uint32_t *freed, size_t freed_length,
    uint32_t *buckets, size_t buckets_length,
    uint32_t *pending, size_t pending_length,
    double center_x, double center_y, int32_t x, int32_t y, int32_t z);

/* Convexity passes until one adds no face, then the closing pass. Refusals 1 to 5, 9 and 10. Where it is accepted, no
 * corner of the boundary turns left and no triangle's circle strictly contains a neighbour's far vertex. Leaves the
 * finished mesh, and zeros in pending. */
fithmoul_finish_result fithmoul_finish(
    uint32_t vertices, uint32_t edges, uint32_t faces,
    const int32_t *positions, size_t positions_length,
    const int32_t *heights, size_t heights_length,
    uint32_t *outs, size_t outs_length,
    uint32_t *halves, size_t halves_length,
    uint32_t *adjacent, size_t adjacent_length,
    uint32_t *pending, size_t pending_length);

/* A mesh to start from (a triangle is enough), a centre in it and a list of points with their heights, to a finished
 * mesh with every point in it: a step for each point in list order, the convexity passes, the points that the steps
 * skipped, in list order, each searched for from vertex 0, and the rest of the finish. `points_length` counts numbers,
 * two for each point. Refusals 1 to 7, 9 and 10. Leaves the finished mesh, an answer for each point in `answers`, and
 * zeros in the other rows. The sweep grows outwards: sort the points by their distance from the centre. In another
 * order the mesh is as good, but each skipped point pays for a search through the mesh. */
fithmoul_run_result fithmoul_run(
    uint32_t vertices, uint32_t edges, uint32_t faces, uint32_t changes,
    int32_t *positions, size_t positions_length,
    int32_t *heights, size_t heights_length,
    uint32_t *outs, size_t outs_length,
    uint32_t *halves, size_t halves_length,
    uint32_t *adjacent, size_t adjacent_length,
    fithmoul_node *nodes, size_t nodes_length,
    uint32_t *freed, size_t freed_length,
    uint32_t *buckets, size_t buckets_length,
    uint32_t *pending, size_t pending_length,
    uint64_t *answers, size_t answers_length,
    double center_x, double center_y,
    const int32_t *points, size_t points_length,
    const int32_t *point_heights, size_t point_heights_length);

/* What would a point do? A step's checks and its decision, on a locate's rows: the quote has the fate and the faces of
 * the step's answer, also where the step would be refused 9. Refusals 1 to 7, 10 and 12. Leaves the mesh alone, and
 * zeros in nodes, freed and buckets. */
fithmoul_ask_result fithmoul_ask(
    uint32_t vertices, uint32_t edges, uint32_t faces, uint32_t changes,
    const int32_t *positions, size_t positions_length,
    const int32_t *heights, size_t heights_length,
    const uint32_t *outs, size_t outs_length,
    const uint32_t *halves, size_t halves_length,
    const uint32_t *adjacent, size_t adjacent_length,
    fithmoul_node *nodes, size_t nodes_length,
    uint32_t *freed, size_t freed_length,
    uint32_t *buckets, size_t buckets_length,
    double center_x, double center_y, int32_t x, int32_t y, int32_t z);

/* A step of a point that was asked about, where its quote still holds: the mesh, its heights and the answer are the
 * step's. Refusals 1 to 7, and 9 to 12. Leaves the mesh after the step, and zeros in the other rows. */
fithmoul_commit_result fithmoul_commit(
    uint32_t vertices, uint32_t edges, uint32_t faces, uint32_t changes,
    int32_t *positions, size_t positions_length,
    int32_t *heights, size_t heights_length,
    uint32_t *outs, size_t outs_length,
    uint32_t *halves, size_t halves_length,
    uint32_t *adjacent, size_t adjacent_length,
    fithmoul_node *nodes, size_t nodes_length,
    uint32_t *freed, size_t freed_length,
    uint32_t *buckets, size_t buckets_length,
    uint32_t *pending, size_t pending_length,
    double center_x, double center_y, int32_t x, int32_t y, int32_t z, fithmoul_quote quote);

/* The volume between a mesh and a level, positive where the mesh is above it: six times it is, exactly, the sum over
 * all triangles of the doubled area times (the three heights minus three times the level). Where triangles overlap each
 * counts. Refusals 1 to 5, and 10. Writes nothing. */
fithmoul_volume_result fithmoul_volume(
    uint32_t vertices, uint32_t edges, uint32_t faces,
    const int32_t *positions, size_t positions_length,
    const int32_t *heights, size_t heights_length,
    const uint32_t *outs, size_t outs_length,
    const uint32_t *halves, size_t halves_length,
    const uint32_t *adjacent, size_t adjacent_length,
    int32_t level);

/* The doubled areas of all triangles of a mesh, in total, exactly: it is the doubled area of the boundary, and never 0.
 * Where triangles overlap each counts. Refusals 1 to 5, and 10. Writes nothing. */
fithmoul_area_total_result fithmoul_area_total(
    uint32_t vertices, uint32_t edges, uint32_t faces,
    const int32_t *positions, size_t positions_length,
    const int32_t *heights, size_t heights_length,
    const uint32_t *outs, size_t outs_length,
    const uint32_t *halves, size_t halves_length,
    const uint32_t *adjacent, size_t adjacent_length);

/* On which side of the line from p1 to p2 is q? The answer is twice the signed area of the triangle p1 p2 q, exactly:
 * positive where q is on the left, negative on the right, 0 on the line. Of a triangle's corners along next it is the
 * triangle's doubled area. Refusal 3. */
fithmoul_side_query_result fithmoul_side_query(
    int32_t p1x, int32_t p1y, int32_t p2x, int32_t p2y, int32_t qx, int32_t qy);

#ifdef __cplusplus
}
#endif

#endif
