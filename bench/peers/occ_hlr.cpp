// occ_hlr PART.off a,b,c exact|poly: one view of a part with hidden lines by OpenCASCADE, seen from the side (a, b, c).
// Writes a line for each piece, "solid u1 v1 u2 v2" or "dashed ..", in mm.
#include <BRepAdaptor_Curve.hxx>
#include <BRepBuilderAPI_MakeEdge.hxx>
#include <BRepBuilderAPI_MakeFace.hxx>
#include <BRepBuilderAPI_MakeVertex.hxx>
#include <BRepBuilderAPI_MakeWire.hxx>
#include <BRepLib.hxx>
#include <BRepMesh_IncrementalMesh.hxx>
#include <BRep_Builder.hxx>
#include <HLRAlgo_Projector.hxx>
#include <HLRBRep_Algo.hxx>
#include <HLRBRep_HLRToShape.hxx>
#include <HLRBRep_PolyAlgo.hxx>
#include <HLRBRep_PolyHLRToShape.hxx>
#include <Standard_Failure.hxx>
#include <TopExp_Explorer.hxx>
#include <TopoDS.hxx>
#include <TopoDS_Compound.hxx>
#include <TopoDS_Shell.hxx>
#include <TopoDS_Solid.hxx>
#include <TopoDS_Vertex.hxx>
#include <cstdio>
#include <cstring>
#include <fstream>
#include <functional>
#include <map>
#include <numeric>
#include <string>
#include <vector>

using namespace std;

// The part's shells, those faces together that are connected.
static TopoDS_Shape read(const char* file) {
    ifstream in(file);
    string word;
    int vertices, faces, edges;
    in >> word >> vertices >> faces >> edges;
    vector<TopoDS_Vertex> at;
    for (int i = 0; i < vertices; i++) {
        double x, y, z;
        in >> x >> y >> z;
        at.push_back(BRepBuilderAPI_MakeVertex(gp_Pnt(x, y, z)).Vertex());
    }
    vector<vector<int>> corners(faces);
    vector<int> leader(vertices);
    iota(leader.begin(), leader.end(), 0);
    function<int(int)> root = [&](int i) {
        while (leader[i] != i) i = leader[i] = leader[leader[i]];
        return i;
    };
    for (auto& face : corners) {
        int count;
        in >> count;
        face.resize(count);
        for (auto& corner : face) in >> corner;
        for (int i = 0; i < count; i++) leader[root(face[i])] = root(face[(i + 1) % count]);
    }
    BRep_Builder builder;
    map<int, TopoDS_Shell> shells;
    map<pair<int, int>, TopoDS_Edge> known;
    for (auto& face : corners) {
        BRepBuilderAPI_MakeWire wire;
        for (size_t i = 0; i < face.size(); i++) {
            int from = face[i], to = face[(i + 1) % face.size()];
            pair<int, int> key(min(from, to), max(from, to));
            if (!known.count(key)) known[key] = BRepBuilderAPI_MakeEdge(at[key.first], at[key.second]).Edge();
            TopoDS_Edge edge = known[key];
            if (from != key.first) edge.Reverse();
            wire.Add(edge);
        }
        int shell = root(face[0]);
        if (!shells.count(shell)) builder.MakeShell(shells[shell]);
        builder.Add(shells[shell], BRepBuilderAPI_MakeFace(wire.Wire(), Standard_True).Face());
    }
    TopoDS_Compound all;
    builder.MakeCompound(all);
    for (auto& shell : shells) {
        shell.second.Closed(Standard_True);
        TopoDS_Solid solid;
        builder.MakeSolid(solid);
        builder.Add(solid, shell.second);
        builder.Add(all, solid);
    }
    return all;
}

static void write(const char* style, TopoDS_Shape shape) {
    if (shape.IsNull()) return;
    BRepLib::BuildCurves3d(shape);
    for (TopExp_Explorer edges(shape, TopAbs_EDGE); edges.More(); edges.Next()) {
        BRepAdaptor_Curve curve(TopoDS::Edge(edges.Current()));
        gp_Pnt p = curve.Value(curve.FirstParameter()), q = curve.Value(curve.LastParameter());
        printf("%s %.17g %.17g %.17g %.17g\n", style, p.X(), p.Y(), q.X(), q.Y());
    }
}

template <class Shapes> static void write_all(Shapes& shapes) {
    write("solid", shapes.VCompound());
    write("solid", shapes.OutLineVCompound());
    write("dashed", shapes.HCompound());
    write("dashed", shapes.OutLineHCompound());
}

int main(int count, char** words) {
    double a, b, c;
    if (count != 4 || sscanf(words[2], "%lf,%lf,%lf", &a, &b, &c) != 3) {
        fprintf(stderr, "usage: occ_hlr PART.off a,b,c exact|poly\n");
        return 2;
    }
    try {
        TopoDS_Shape shape = read(words[1]);
        BRepLib::EncodeRegularity(shape);
        gp_Dir across = a == 0 && b == 0 ? gp_Dir(1, 0, 0) : gp_Dir(-b, a, 0);
        HLRAlgo_Projector view(gp_Ax2(gp_Pnt(0, 0, 0), gp_Dir(a, b, c), across));
        if (!strcmp(words[3], "exact")) {
            Handle(HLRBRep_Algo) hider = new HLRBRep_Algo;
            hider->Add(shape, 0);
            hider->Projector(view);
            hider->Update();
            hider->Hide();
            HLRBRep_HLRToShape shapes(hider);
            write_all(shapes);
        } else {
            BRepMesh_IncrementalMesh(shape, 0.1);
            Handle(HLRBRep_PolyAlgo) hider = new HLRBRep_PolyAlgo;
            hider->Load(shape);
            hider->Projector(view);
            hider->Update();
            HLRBRep_PolyHLRToShape shapes;
            shapes.Update(hider);
            write_all(shapes);
        }
    } catch (Standard_Failure& failure) {
        fprintf(stderr, "OpenCASCADE: %s\n", failure.GetMessageString());
        return 1;
    }
    return 0;
}
