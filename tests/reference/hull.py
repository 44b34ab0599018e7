"""000's `Hull` line by line: nodes in a list, freed nodes, buckets.  A cross check of sweep.py, where the
ring is made from the boundary alone; 01: "a run builds it once and carries it through all its points".
Assumes a strict ring at the start and a sound one after every insert, as the fates see to.
"""

import math
from fractions import Fraction

import sweep


class Node:
    def __init__(self, angle, edge, left, right):
        self.angle, self.edge, self.left, self.right = angle, edge, left, right


class Hull:
    def __init__(self, mesh, centre):
        self.centre = centre
        walk = sweep.boundary_angles(mesh, centre)
        n = len(walk)
        self.data = [Node(a, e, (i - 1) % n, (i + 1) % n) for i, (a, e) in enumerate(walk)]
        self.empty = []
        self.initialize_buckets(8)

    def floored_bucket(self, angle):
        return math.floor(angle * len(self.buckets)) % len(self.buckets)

    def ceiled_bucket(self, angle):
        return math.ceil(angle * len(self.buckets)) % len(self.buckets)

    def initialize_buckets(self, size):
        self.buckets = [None] * size
        first = next(i for i in range(len(self.data)) if i not in self.empty)
        current = first
        self.buckets[self.ceiled_bucket(self.data[current].angle)] = current
        while True:
            node = self.data[current]
            start, end = node.angle, self.data[node.right].angle
            self.update_bucket_segment(self.ceiled_bucket(start), self.ceiled_bucket(end), current)
            current = node.right
            if current == first:
                break

    def update_bucket_segment(self, left, right, value):
        n = len(self.buckets)
        which = range(left, right) if left <= right else [*range(left, n), *range(right)]
        for i in which:
            self.buckets[i] = value

    def get(self, angle):
        """The edge at an angle and the nodes passed after the first."""
        current, passed = self.buckets[self.floored_bucket(angle)], 0
        while True:
            node = self.data[current]
            if sweep.contains_angle(node.angle, self.data[node.right].angle, angle):
                return node.edge, passed
            current, passed = node.right, passed + 1

    def insert(self, left_angle, middle_angle, right_angle, left_edge, right_edge):
        left_index = self.buckets[self.floored_bucket(left_angle)]
        while self.data[left_index].angle != left_angle:
            left_index = self.data[left_index].right
        right_index = self.data[left_index].right
        while self.data[right_index].angle != right_angle:
            node = self.data[right_index]
            self.empty.append(right_index)
            self.data[node.left].right = node.right
            self.data[node.right].left = node.left
            right_index = node.right
        new_index = self.empty.pop() if self.empty else len(self.data)
        if left_angle == middle_angle:
            self.empty.append(left_index)
            left_index = self.data[left_index].left
        else:
            self.data[left_index].edge = left_edge
        assert right_angle != middle_angle  # dead once the ring to come is known to be sound
        self.data[left_index].right = new_index
        self.data[right_index].left = new_index
        node = Node(middle_angle, right_edge, left_index, right_index)
        if new_index == len(self.data):
            self.data.append(node)
        else:
            self.data[new_index] = node
        left, middle, right = (self.ceiled_bucket(a) for a in (left_angle, middle_angle, right_angle))
        self.update_bucket_segment(left, middle, left_index)
        self.update_bucket_segment(middle, right, new_index)
        self.adjust_bucket_size_if_necessary()

    def adjust_bucket_size_if_necessary(self):
        size, buckets = len(self.data) - len(self.empty), len(self.buckets)
        if buckets * 2 < size:
            self.initialize_buckets(buckets * 2)
        elif buckets > size * 4 and buckets > 16 and buckets // 4 >= 16:
            self.initialize_buckets(buckets // 4)

    def insert_vertex(self, mesh, vertex):
        """The end of `single_bulk_insertion_step`: the hull is told of the new vertex."""
        second = next(e for e in sweep.turn_about(mesh, vertex) if mesh.face(e) == 0)
        first = mesh.prev(second)
        angle = lambda v: sweep.pseudo_angle(mesh.at(v), self.centre)
        self.insert(angle(mesh.origin(first)), angle(vertex), angle(mesh.to(second)), first, second)

    def agree(self, mesh):
        """The carried ring is the one that 01's words make of the boundary, and each bucket i holds the
        node whose segment holds i/n."""
        used = [i for i in range(len(self.data)) if i not in self.empty]
        ring, i = [], used[0]
        while True:
            ring.append((self.data[i].angle, self.data[i].edge))
            i = self.data[i].right
            if i == used[0]:
                break
        words = sweep.merge(sweep.boundary_angles(mesh, self.centre))
        k = words.index(ring[0])
        assert ring == words[k:] + words[:k], "ring"
        assert len(ring) == len(used), "freed"
        n = len(self.buckets)
        assert n % 8 == 0 and (n // 8) & (n // 8 - 1) == 0
        for i, held in enumerate(self.buckets):
            node = self.data[held]
            assert held not in self.empty
            assert sweep.contains_angle(Fraction(node.angle), Fraction(self.data[node.right].angle),
                                        Fraction(i, n)), "bucket"
        return len(used), n, len(self.data)
