// Processor seconds that CGAL takes to triangulate the points of a file (pairs of 32-bit whole numbers), as it is meant to be
// used: one insertion of all of them, which it sorts along a curve first. Then the peak of its memory in kB, and its vertices.
#include <CGAL/Delaunay_triangulation_2.h>
#include <CGAL/Exact_predicates_inexact_constructions_kernel.h>

#include <cstdint>
#include <ctime>
#include <fstream>
#include <iostream>
#include <string>
#include <vector>

using Kernel = CGAL::Exact_predicates_inexact_constructions_kernel;
using Triangulation = CGAL::Delaunay_triangulation_2<Kernel>;

static long peak() {
    std::ifstream status("/proc/self/status");
    std::string word;
    long value = 0;
    while (status >> word) {
        if (word == "VmHWM:") status >> value;
    }
    return value;
}

int main(int count, char **words) {
    if (count != 2) return 2;
    std::ifstream file(words[1], std::ios::binary);
    std::vector<Kernel::Point_2> points;
    std::int32_t pair[2];
    while (file.read(reinterpret_cast<char *>(pair), sizeof pair)) points.emplace_back(pair[0], pair[1]);
    std::clock_t start = std::clock();
    Triangulation triangulation;
    triangulation.insert(points.begin(), points.end());
    double took = double(std::clock() - start) / CLOCKS_PER_SEC;
    std::cout << took << ' ' << peak() << ' ' << triangulation.number_of_vertices() << '\n';
    return 0;
}
