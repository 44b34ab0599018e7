#!/bin/sh
# Shows that the list can fail. First the stand-ins, then the Rust itself are altered, one line or two at
# a time and in a copy that is thrown away, and the entries of the list are counted that the altered
# oracle answers otherwise. Fails if an alteration changes none, or if one that the sweep cannot see
# changes any.
#
#     ./mutations.sh [WORDS]      those alone that have WORDS in their name
set -eu
only=${1:-}
here=$(cd "$(dirname "$0")" && pwd)
spade=${SPADE_SRC:-$here/../../shared/docs/src}
copy=$(mktemp -d)
trap 'rm -rf "$copy"' EXIT
export CARGO_TARGET_DIR="$copy/target"
export CARGO_PROFILE_RELEASE_OPT_LEVEL=1 CARGO_PROFILE_RELEASE_DEBUG=0
wrong=0

# altered NAME FILE OLD NEW [OLD NEW]: in FILE, a line that is OLD, blanks before it aside, becomes NEW.
# FILE is one of this folder, or of spade's where it begins with spade/. Succeeds if the list is
# answered as before.
altered() {
    rm -rf "$copy/oracle" "$copy/spade"
    mkdir "$copy/oracle" "$copy/spade"
    cp -r "$here/Cargo.toml" "$here/build.rs" "$here/src" "$here/stand-ins" "$copy/oracle/"
    cp -r "$spade/src" "$copy/spade/src"
    chmod -R u+w "$copy/spade"
    case $2 in
    spade/*) from="$spade/${2#spade/}" to="$copy/$2" ;;
    *) from="$here/$2" to="$copy/oracle/$2" ;;
    esac
    OLD=$3 NEW=$4 OLD2=${5:-} NEW2=${6:-} LINES=$((($# - 2) / 2)) awk '
        { text = $0; sub(/^ +/, "", text) }
        text == ENVIRON["OLD"] { print ENVIRON["NEW"]; found++; next }
        text != "" && text == ENVIRON["OLD2"] { print ENVIRON["NEW2"]; found++; next }
        { print }
        END { if (found != ENVIRON["LINES"]) exit 1 }
    ' "$from" > "$to" || { echo "$1: not each line is there once"; exit 1; }
    (cd "$copy/oracle" && SPADE_SRC="$copy/spade" cargo build --release --offline --quiet)
    same=0
    answer=$("$copy/target/release/oracle" check "$here/answers.txt") || same=$?
    echo "$1: $answer"
    return $same
}

wanted() {
    case $1 in *"$only"*) return 0 ;; *) return 1 ;; esac
}

seen() {
    if wanted "$1" && altered "$@"; then wrong=$((wrong + 1)); fi
}

unseen() {
    if wanted "$1" && ! altered "$@"; then wrong=$((wrong + 1)); fi
}

robust=stand-ins/robust/src/lib.rs
handles=src/delaunay_core/handles/handle_impls.rs
iterators=src/delaunay_core/handles/iterators.rs
driver=src/delaunay_core/bulk_load/driver.rs
bulk_load=spade/src/delaunay_core/bulk_load.rs
operations=spade/src/delaunay_core/dcel_operations.rs
ext=spade/src/delaunay_core/triangulation_ext.rs

echo "the stand-ins:"
seen "left for right in orient2d" $robust \
    'sign(acx * bcy - acy * bcx)' 'sign(acy * bcx - acx * bcy)'
seen "a point on the line counts as left in orient2d" $robust \
    'sign(acx * bcy - acy * bcx)' 'sign(2 * (acx * bcy - acy * bcx) + 1)'
seen "inside for outside in incircle" $robust \
    '[x, y, x * x + y * y]' '[x, y, -x * x - y * y]'
seen "four on a circle count as inside in incircle" $robust \
    '+ c[2] * (a[0] * b[1] - b[0] * a[1]),' '+ c[2] * (a[0] * b[1] - b[0] * a[1]) - 1,'
seen "incircle in 64 bits" $robust \
    'determinant.signum() as f64' '(determinant as i64).signum() as f64'
seen "the hull walked against next" $iterators \
    'self.current = Some(edge.next()).filter(|next| *next != self.first);' \
    'self.current = Some(edge.prev()).filter(|next| *next != self.first);'
seen "a far vertex from next" $handles \
    '(!outer).then(|| self.prev().from())' '(!outer).then(|| self.next().from())'
seen "an outer half-edge has a far vertex" $handles \
    '(!outer).then(|| self.prev().from())' 'Some(self.prev().from())'
seen "out_edges turns the other way and so ends after two" $iterators \
    'self.ends = (front != back).then(|| [front.ccw(), back]);' \
    'self.ends = (front != back).then(|| [front.cw(), back]);'
# The steps ask out_edges for the outer one at the new vertex, and there is only one. The insertions go
# by its order.
seen "out_edges in another order, all of them" $iterators \
    'OutEdgeIterator { ends: out_edge.map(|first| [first, first.cw()]) }' \
    'OutEdgeIterator { ends: out_edge.map(|first| [first.ccw(), first]) }'

echo "the Rust, read wrongly:"
seen "the second walk as the mirror image of the first" $bulk_load \
    'middle_position,' 'next_position.to_f64(),' 'next_position.to_f64(),' 'middle_position,'
seen "no test of equal angles in the first walk" $bulk_load \
    '|| current_angle == pseudo_angle(prev_to, hull.center);' ';'
# The located segment does not hold the angle of its second end, nor do those after it, unless the walk
# went all round: then the ring is unsound.
unseen "no test of equal angles in the second walk" $bulk_load \
    '|| current_angle == pseudo_angle(middle_position, hull.center);' ';'
seen "the first walk goes on over a point on the line" $bulk_load \
    'if angle_condition && prev.side_query(next_position).is_on_left_side() {' \
    'if angle_condition && prev.side_query(next_position).is_on_left_side_or_on_line() {'
seen "the second walk goes on over a point on the line" $bulk_load \
    'let is_on_left_side = next.side_query(next_position).is_on_left_side();' \
    'let is_on_left_side = next.side_query(next_position).is_on_left_side_or_on_line();'
seen "the first walk's two edges pending in the other order" $bulk_load \
    'buffer_for_edge_legalization.push(current_edge.as_undirected());' \
    'buffer_for_edge_legalization.insert(0, current_edge.as_undirected());'
seen "the second walk's two edges pending in the other order" $bulk_load \
    'buffer_for_edge_legalization.push(next_fix.as_undirected());' \
    'buffer_for_edge_legalization.insert(0, next_fix.as_undirected());'
seen "the pass's two edges pending in the other order" $bulk_load \
    'edges_to_validate.push(edge2.fix().as_undirected());' \
    'edges_to_validate.insert(0, edge2.fix().as_undirected());'
seen "the pass ends when it comes round" $bulk_load \
    'if Some(&current_fixed) == convex_edges.get(1) {' 'if Some(&current_fixed) == convex_edges.get(0) {'
seen "the located edge not legalized" $bulk_load \
    'result.legalize_edge(edge, false);' ''
# In one run either all that is dead west is level with the centre and has 1.0, or none is: the other
# number moves the place where the ring wraps, and nothing else.
unseen "dead west is 0.0" $bulk_load \
    'FloatOrd(1.0 - (if diff.y > 0.0 { 3.0 - p } else { 1.0 + p }) * 0.25)' \
    'FloatOrd(1.0 - (if diff.y >= 0.0 { 3.0 - p } else { 1.0 + p }) * 0.25)'
seen "a segment holds its second angle and not its first" $bulk_load \
    'self.from <= angle && angle < self.to' 'self.from < angle && angle <= self.to' \
    'self.from <= angle || angle < self.to' 'self.from < angle || angle <= self.to'
# A point at the second end has that end's angle, which the located segment does not hold.
unseen "fate 2 at the first end alone" $bulk_load \
    'if next_position == from || next_position == to {' 'if next_position == from {'
seen "legalize_edge pushes in the other order" $ext \
    'edges.push(edge.rev().next().fix());' 'edges.push(edge.rev().prev().fix());' \
    'edges.push(edge.rev().prev().fix());' 'edges.push(edge.rev().next().fix());'
seen "legalize_edges_after_removal pushes e4 first and e1 last" $ext \
    'push_if_not_contained(e1.fix().as_undirected());' 'push_if_not_contained(e4.fix().as_undirected());' \
    'push_if_not_contained(e4.fix().as_undirected());' 'push_if_not_contained(e1.fix().as_undirected());'
seen "legalize_edges_after_removal pushes what it holds" $ext \
    'if !edges_to_validate.contains(&handle) {' '{'
seen "a flip leaves an out edge" $operations \
    'dcel.vertices[t_origin.index()].out_edge = Some(en);' ''
seen "a flip stores another edge of a face" $operations \
    'dcel.faces[e_face.index()].adjacent_edge = Some(e);' 'dcel.faces[e_face.index()].adjacent_edge = Some(en);'
seen "the new vertex has the outer out edge" $operations \
    'dcel.vertices[new_vertex_handle.index()].out_edge = Some(new_prev_handle.normalized());' \
    'dcel.vertices[new_vertex_handle.index()].out_edge = Some(new_next_handle.not_normalized());'
seen "a closed corner leaves face 0 another stored edge" $operations \
    'dcel.faces[OUTER_FACE_HANDLE.index()].adjacent_edge = Some(new_outer_handle);' \
    'dcel.faces[OUTER_FACE_HANDLE.index()].adjacent_edge = Some(edge_entry.prev);'

echo "the insertions:"
seen "insertions: the search starts at vertex 1" $driver \
    'Sweep { swept, hull, centre, buffer, watch: Watch::Domain, hint: 0, skipped }' \
    'Sweep { swept, hull, centre, buffer, watch: Watch::Domain, hint: 1, skipped }' \
    'answer_from(case, watch, 0)' 'answer_from(case, watch, 1)'
seen "insertions: no walk to the nearest vertex" $ext \
    'let closest_vertex = self.walk_to_nearest_neighbor(start, target_position);' \
    'let closest_vertex = self.vertex(start);'
seen "insertions: the walk to the nearest vertex ends one early" $ext \
    'if new_distance < current_minimal_distance {' \
    'if new_distance + new_distance < current_minimal_distance {'
seen "insertions: the search counts an eighth of its turns" $ext \
    'let mut loop_counter = self.s().num_directed_edges();' \
    'let mut loop_counter = self.s().num_directed_edges() / 8;'
seen "insertions: the search does not count its turns" $ext \
    'let mut loop_counter = self.s().num_directed_edges();' 'let mut loop_counter = usize::MAX;'
seen "insertions: the search stops turning on a line" $ext \
    'if rotated_query.is_on_line() || rotated_query.is_on_left_side() == rotate_ccw {' \
    'if rotated_query.is_on_left_side() == rotate_ccw {'
seen "insertions: the other half of the edge is named" $ext \
    'return PositionInTriangulation::OnEdge(e2.fix());' \
    'return PositionInTriangulation::OnEdge(e2.rev().fix());'
# A point on an edge is found from inside a face, so the half that is named is never an outer one.
unseen "insertions: no case for an outer half" $ext \
    'if edge_handle.is_outer_edge() {' 'if edge_handle.is_outer_edge() && panic!() {'
# The position that is written is the one that stands there; only a height could tell.
unseen "insertions: a point on a vertex is not written" $ext \
    'self.s_mut().update_vertex(vertex, t.into_vertex());' ''
seen "insertions: a new vertex's edges are legalized in the other order" $ext \
    'for edge_to_legalize in edges {' 'for &edge_to_legalize in edges.iter().rev() {'
seen "insertions: the spokes are legalized, not the edges across" $ext \
    '.map(|edge| edge.next().fix())' '.map(|edge| edge.fix())'
seen "insertions: outside, the first edge is not legalized" $ext \
    'self.legalize_edge(convex_hull_edge, false);' ''
seen "insertions: outside, the edge of the first walk is not legalized" $ext \
    'self.legalize_edge(current_edge, false);' ''
seen "insertions: outside, the other edge of the second walk is legalized" $ext \
    'self.legalize_edge(next_fix, false);' 'self.legalize_edge(current_edge, false);'
seen "insertions: another out edge in a triangle" $operations \
    'dcel.vertices[v.index()].out_edge = Some(e4);' 'dcel.vertices[v.index()].out_edge = Some(e6);'
seen "insertions: another out edge at the end of a boundary edge" $operations \
    'dcel.vertices[to.index()].out_edge = Some(e2.rev());' 'dcel.vertices[to.index()].out_edge = Some(edge_next);'
seen "insertions: another stored edge beside an edge" $operations \
    'dcel.faces[f1.index()].adjacent_edge = Some(e1);' 'dcel.faces[f1.index()].adjacent_edge = Some(t0);'

[ "$wrong" = 0 ] || { echo "$wrong alterations not as expected"; exit 1; }
