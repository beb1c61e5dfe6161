/* Where a point lies beside a polygon, by CGAL's exact polygons: reads "n x y .. px py", whole numbers, and writes inside, edge or outside,
 * or for a polygon that touches itself touches. */
#include <CGAL/Exact_predicates_exact_constructions_kernel.h>
#include <CGAL/Polygon_2.h>
#include <iostream>
#include <sstream>
#include <string>

typedef CGAL::Exact_predicates_exact_constructions_kernel Kernel;

int main() {
    std::string line;
    while (std::getline(std::cin, line)) {
        std::istringstream words(line);
        int n;
        long x, y;
        words >> n;
        CGAL::Polygon_2<Kernel> polygon;
        for (int i = 0; i < n; i++) {
            words >> x >> y;
            polygon.push_back(Kernel::Point_2(x, y));
        }
        words >> x >> y;
        if (!polygon.is_simple()) {
            std::cout << "touches\n";
            continue;
        }
        switch (polygon.bounded_side(Kernel::Point_2(x, y))) {
        case CGAL::ON_BOUNDED_SIDE: std::cout << "inside\n"; break;
        case CGAL::ON_BOUNDARY: std::cout << "edge\n"; break;
        default: std::cout << "outside\n";
        }
    }
}
