/* Mass, centre and inertia of fin sets and tube rings as solids of Open CASCADE: the file knows nothing of the card program's sums.
 *
 * Reads a line for each body and writes mass, centre x, y, z and the tensor about it, xx, yy, zz, xy, xz, yz, as C's %a. A line of numbers:
 *   1 count planform n lengths.. thickness tab_height tab_length tab_offset fillet_radius fillet_density cant base radius density
 *   2 count length outer wall base radius density
 * A planform is 1, 2 or 3: trapezoid, ellipse, outline. A tab or a fillet of 0 is none. The frame is docs/FORMS.md's: z to the nose, the
 * root's front at z = 0, and the first fin of base angle 0 in the plane y = 0. */
#include <BRep_Tool.hxx>
#include <BRepBuilderAPI_MakeEdge.hxx>
#include <BRepBuilderAPI_MakeFace.hxx>
#include <BRepBuilderAPI_MakePolygon.hxx>
#include <BRepBuilderAPI_MakeWire.hxx>
#include <BRepGProp.hxx>
#include <BRepPrimAPI_MakePrism.hxx>
#include <GC_MakeArcOfCircle.hxx>
#include <GProp_GProps.hxx>
#include <Geom_TrimmedCurve.hxx>
#include <TopoDS.hxx>
#include <cmath>
#include <cstdio>
#include <gp_Ax1.hxx>
#include <gp_Ax2.hxx>
#include <gp_Ax3.hxx>
#include <gp_Circ.hxx>
#include <gp_Elips.hxx>
#include <gp_Pln.hxx>
#include <gp_Trsf.hxx>
#include <iostream>
#include <sstream>
#include <vector>

static TopoDS_Shape turned(const TopoDS_Shape &solid, const gp_Pnt &about, const gp_Dir &axis, double angle) {
    gp_Trsf turn;
    turn.SetRotation(gp_Ax1(about, axis), angle);
    return solid.Moved(TopLoc_Location(turn));
}

/* Adds a solid of a density; a prism that was pushed against its face's side has its inside out, and is turned. */
static void weigh(GProp_GProps &sum, TopoDS_Shape solid, double density) {
    GProp_GProps one;
    BRepGProp::VolumeProperties(solid, one);
    if (one.Mass() < 0) {
        one = GProp_GProps();
        BRepGProp::VolumeProperties(solid.Reversed(), one);
    }
    sum.Add(one, density);
}

/* A face in a plane of constant y, of points (x along the root, height), pushed through the thickness. */
static TopoDS_Shape plate(const std::vector<gp_Pnt2d> &points, double radius, double thickness) {
    BRepBuilderAPI_MakePolygon outline;
    for (const gp_Pnt2d &p : points) outline.Add(gp_Pnt(radius + p.Y(), -thickness / 2, -p.X()));
    outline.Close();
    return BRepPrimAPI_MakePrism(BRepBuilderAPI_MakeFace(outline.Wire(), true).Face(), gp_Vec(0, thickness, 0)).Shape();
}

static TopoDS_Shape half_ellipse(double root, double span, double radius, double thickness) {
    gp_Pnt middle(radius, -thickness / 2, -root / 2), front(radius, -thickness / 2, 0), rear(radius, -thickness / 2, -root);
    bool tall = span > root / 2;
    gp_Ax2 axes(middle, gp_Dir(0, 1, 0), tall ? gp_Dir(1, 0, 0) : gp_Dir(0, 0, 1));
    gp_Elips ellipse(axes, tall ? span : root / 2, tall ? root / 2 : span);
    BRepBuilderAPI_MakeEdge arc(ellipse, front, rear);
    /* Of the two arcs between front and rear take the one that passes the tip. */
    gp_Pnt tip(radius + span, -thickness / 2, -root / 2);
    BRepBuilderAPI_MakeEdge other(ellipse, rear, front);
    double first, last;
    TopoDS_Edge edge = arc.Edge();
    Handle(Geom_Curve) curve = BRep_Tool::Curve(edge, first, last);
    if (curve->Value((first + last) / 2).Distance(tip) > span) edge = other.Edge();
    BRepBuilderAPI_MakeWire wire(edge, BRepBuilderAPI_MakeEdge(rear, front).Edge());
    return BRepPrimAPI_MakePrism(BRepBuilderAPI_MakeFace(wire.Wire(), true).Face(), gp_Vec(0, thickness, 0)).Shape();
}

/* Glue on one side: between the fin's middle plane, the body's circle, and a circle that touches both. */
static TopoDS_Shape fillet(double radius, double r, double root, double side) {
    double c = std::sqrt(radius * radius + 2 * radius * r), theta = std::atan2(r, c), middle = (theta - M_PI - M_PI / 2) / 2;
    gp_Pnt on_body(radius, 0, 0), on_fin(c, 0, 0), touch(radius * std::cos(theta), side * radius * std::sin(theta), 0);
    gp_Pnt hollow(c + r * std::cos(middle), side * (r + r * std::sin(middle)), 0);
    gp_Pnt round(radius * std::cos(theta / 2), side * radius * std::sin(theta / 2), 0);
    Handle(Geom_TrimmedCurve) concave = GC_MakeArcOfCircle(on_fin, hollow, touch).Value();
    Handle(Geom_TrimmedCurve) body = GC_MakeArcOfCircle(touch, round, on_body).Value();
    BRepBuilderAPI_MakeWire wire(BRepBuilderAPI_MakeEdge(on_body, on_fin).Edge(), BRepBuilderAPI_MakeEdge(concave).Edge(),
                                 BRepBuilderAPI_MakeEdge(body).Edge());
    return BRepPrimAPI_MakePrism(BRepBuilderAPI_MakeFace(wire.Wire(), true).Face(), gp_Vec(0, 0, -root)).Shape();
}

static TopoDS_Shape tube(double length, double outer, double wall, double away) {
    gp_Ax2 axes(gp_Pnt(away, 0, 0), gp_Dir(0, 0, 1));
    BRepBuilderAPI_MakeFace ring(gp_Pln(gp_Ax3(axes)), BRepBuilderAPI_MakeWire(BRepBuilderAPI_MakeEdge(gp_Circ(axes, outer))).Wire());
    if (wall < outer) {
        TopoDS_Wire hole = BRepBuilderAPI_MakeWire(BRepBuilderAPI_MakeEdge(gp_Circ(axes, outer - wall))).Wire();
        ring.Add(TopoDS::Wire(hole.Reversed()));
    }
    return BRepPrimAPI_MakePrism(ring.Face(), gp_Vec(0, 0, -length)).Shape();
}

int main() {
    std::string line;
    while (std::getline(std::cin, line)) {
        std::vector<double> v;
        std::istringstream words(line);
        std::string word;
        while (words >> word) v.push_back(std::strtod(word.c_str(), nullptr));
        size_t at = 0;
        auto next = [&]() { return v.at(at++); };
        std::vector<std::pair<TopoDS_Shape, double>> parts;
        int kind = int(next()), count = int(next());
        double base;
        if (kind == 1) {
            int planform = int(next()), n = int(next());
            std::vector<double> lengths(v.begin() + at, v.begin() + at + n);
            at += n;
            double thickness = next(), tab_height = next(), tab_length = next(), tab_offset = next(), glue = next(), glue_density = next();
            double cant = next();
            base = next();
            double radius = next(), density = next(), root;
            std::vector<gp_Pnt2d> points;
            if (planform == 1) {
                root = lengths[0];
                points = {gp_Pnt2d(0, 0), gp_Pnt2d(lengths[3], lengths[2])};
                if (lengths[1] > 0) points.push_back(gp_Pnt2d(lengths[3] + lengths[1], lengths[2]));
                points.push_back(gp_Pnt2d(root, 0));
            } else if (planform == 3) {
                for (int i = 0; i + 1 < n; i += 2) points.push_back(gp_Pnt2d(lengths[i], lengths[i + 1]));
                root = lengths[n - 2];
            } else {
                root = lengths[0];
            }
            parts.push_back({planform == 2 ? half_ellipse(root, lengths[1], radius, thickness) : plate(points, radius, thickness), density});
            if (tab_height > 0) {
                double end = tab_offset + tab_length;
                std::vector<gp_Pnt2d> slab = {gp_Pnt2d(tab_offset, 0), gp_Pnt2d(end, 0), gp_Pnt2d(end, -tab_height), gp_Pnt2d(tab_offset, -tab_height)};
                parts.push_back({plate(slab, radius, thickness), density});
            }
            if (glue > 0)
                for (double side : {1.0, -1.0}) parts.push_back({fillet(radius, glue, root, side), glue_density});
            for (auto &part : parts) part.first = turned(part.first, gp_Pnt(radius, 0, -root / 2), gp_Dir(1, 0, 0), cant);
        } else {
            double length = next(), outer = next(), wall = next();
            base = next();
            double radius = next(), density = next();
            parts.push_back({tube(length, outer, wall, radius + outer), density});
        }
        GProp_GProps sum;
        for (int k = 0; k < count; k++)
            for (auto &part : parts)
                weigh(sum, turned(part.first, gp_Pnt(0, 0, 0), gp_Dir(0, 0, 1), base + 2 * M_PI * k / count), part.second);
        gp_Pnt c = sum.CentreOfMass();
        gp_Mat m = sum.MatrixOfInertia();
        std::printf("%a %a %a %a %a %a %a %a %a %a\n", sum.Mass(), c.X(), c.Y(), c.Z(), m(1, 1), m(2, 2), m(3, 3), m(1, 2), m(1, 3), m(2, 3));
    }
}
