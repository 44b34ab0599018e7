"""The lines that the lists share: rows with their lengths, and the closing count (see README.md)."""

import sys

import sweep

ROWS = "pohfe"  # the tags of Mesh.rows()
PAST = (-2147483648, 4294967295, 4000000007, 77, 2147483647)  # what entries past the counts hold, row by row
HIGH = "mpeohf"  # the tags of a mesh with its heights
CHANGES = 7  # the change count of a mesh where a list does not say it
LENT = {"p": 512, "e": 256, "o": 6144, "h": 6144, "f": 6144, "w": 1280, "y": 256}  # no row is longer


def line(tag, numbers):
    return " ".join([tag] + [str(int(n)) for n in numbers])


def used_of(mesh):
    """Entries in use, row by row, as far as the rows go."""
    v, e, f = mesh.counts()
    return [min(len(row), used) for row, used in zip(mesh.rows(), (2 * v, v, 8 * e, f, v))]


def row_line(tag, row):
    """`tag length past entries`: the entries that are not written all hold `past`."""
    assert len(row) <= LENT[tag.lower()], tag
    past = row[-1] if row else 0
    end = len(row)
    while end > 0 and row[end - 1] == past:
        end -= 1
    return line(tag, [len(row), past] + row[:end])


def mesh_lines(mesh, tags="mpohf"):
    """Without `e` among the tags the heights are zeros and not written."""
    rows = dict(zip(ROWS, mesh.rows()))
    return [line(tags[0], mesh.counts())] + [row_line(t, rows[t.lower()]) for t in tags[1:]]


def with_past(mesh, n=None):
    """A copy with rows for n vertices whose entries past the counts hold PAST."""
    n = mesh.vertices if n is None else n
    sizes = (2 * n, n, 24 * n, 2 * n, n)
    rows = []
    for row, used, size, past in zip(mesh.rows(), used_of(mesh), sizes, PAST):
        rows.append((row[:used] + [past] * size)[:max(size, used)])
    return sweep.Mesh(*rows[:4], *mesh.counts(), rows[4])


class List:
    """Collects lines; prints them with the maker's name and the closing count."""

    def __init__(self, maker):
        self.out, self.count, self.maker = [], 0, maker

    def remark(self, text):
        self.out.append("# " + text)

    def add(self, *lines):
        self.out += lines
        self.count += len(lines)

    def print(self):
        sys.stdout.write("\n".join(["# Made by tests/reference/%s." % self.maker] + self.out
                                   + ["z %d" % self.count]) + "\n")
