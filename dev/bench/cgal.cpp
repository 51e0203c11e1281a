// What CGAL makes of points, to be timed and measured beside `recon`: exact predicates, points inserted in spatial order.
//
//   cgal delaunay POINTS         the Delaunay tetrahedralization; prints the numbers of vertices and finite cells
//   cgal front POINTS MESH       the advancing front surface reconstruction, with its default parameters; writes an OFF file
//   cgal simplify IN FACES MESH  edges collapsed by Lindstrom and Turk's costs and places, with their defaults, down to a number of faces
//
// POINTS is a text of lines of three numbers, IN a mesh, whose vertices and edges that are not manifold are split first.
//
// c++ -O2 dev/bench/cgal.cpp -o cgal -lmpfr -lgmp      (Debian: libcgal-dev)
#include <CGAL/Advancing_front_surface_reconstruction.h>
#include <CGAL/Delaunay_triangulation_3.h>
#include <CGAL/Exact_predicates_inexact_constructions_kernel.h>
#include <CGAL/IO/polygon_soup_io.h>
#include <CGAL/Polygon_mesh_processing/orient_polygon_soup.h>
#include <CGAL/Polygon_mesh_processing/polygon_soup_to_polygon_mesh.h>
#include <CGAL/Surface_mesh.h>
#include <CGAL/Surface_mesh_simplification/Policies/Edge_collapse/Count_stop_predicate.h>
#include <CGAL/Surface_mesh_simplification/edge_collapse.h>

#include <array>
#include <cstdio>
#include <cstdlib>
#include <cstring>
#include <fstream>
#include <iterator>
#include <vector>

using Kernel = CGAL::Exact_predicates_inexact_constructions_kernel;
using Delaunay = CGAL::Delaunay_triangulation_3<Kernel>;
using Points = std::vector<Kernel::Point_3>;
using Face = std::array<std::size_t, 3>;
using Mesh = CGAL::Surface_mesh<Kernel::Point_3>;

int count_cells(const Points &points) {
    // The constructor inserts a range of points in an order along a space-filling curve.
    const Delaunay cells(points.begin(), points.end());
    std::printf("points %zu cells %zu\n", static_cast<std::size_t>(cells.number_of_vertices()),
                static_cast<std::size_t>(cells.number_of_finite_cells()));
    return 0;
}

int write_front(const Points &points, const char *path) {
    std::vector<Face> faces;
    CGAL::advancing_front_surface_reconstruction(points.begin(), points.end(), std::back_inserter(faces));
    std::ofstream file(path);
    file.precision(17);
    file << "OFF\n" << points.size() << ' ' << faces.size() << " 0\n";
    for (const auto &p : points) file << p.x() << ' ' << p.y() << ' ' << p.z() << '\n';
    for (const auto &face : faces) file << "3 " << face[0] << ' ' << face[1] << ' ' << face[2] << '\n';
    return file.flush() ? 0 : 1;
}

int write_simplified(const char *from, std::size_t count, const char *path) {
    namespace PMP = CGAL::Polygon_mesh_processing;
    namespace SMS = CGAL::Surface_mesh_simplification;
    Points points;
    std::vector<std::vector<std::size_t>> faces;
    if (!CGAL::IO::read_polygon_soup(from, points, faces)) return 1;
    PMP::orient_polygon_soup(points, faces);
    Mesh mesh;
    PMP::polygon_soup_to_polygon_mesh(points, faces, mesh);
    // A closed mesh has three edges for two faces.
    SMS::edge_collapse(mesh, SMS::Count_stop_predicate<Mesh>(count * 3 / 2));
    mesh.collect_garbage();
    return CGAL::IO::write_polygon_mesh(path, mesh, CGAL::parameters::stream_precision(17)) ? 0 : 1;
}

int main(int count, char **words) {
    const bool is_delaunay = count == 3 && std::strcmp(words[1], "delaunay") == 0;
    const bool is_front = count == 4 && std::strcmp(words[1], "front") == 0;
    if (count == 5 && std::strcmp(words[1], "simplify") == 0) return write_simplified(words[2], std::strtoul(words[3], nullptr, 10), words[4]);
    if (!is_delaunay && !is_front) {
        std::fprintf(stderr, "usage: cgal delaunay POINTS | cgal front POINTS MESH | cgal simplify IN FACES MESH\n");
        return 2;
    }
    std::ifstream file(words[2]);
    Points points;
    for (double x, y, z; file >> x >> y >> z;) points.emplace_back(x, y, z);
    if (points.empty()) {
        std::fprintf(stderr, "cgal: no points in %s\n", words[2]);
        return 1;
    }
    return is_front ? write_front(points, words[3]) : count_cells(points);
}
