#!/bin/sh
# Builds the programs that draw is timed beside, from Debian's packages (12, bookworm): OpenCASCADE's two ways of drawing with
# hidden lines, and SolveSpace's command line, with hidden lines dashed.
# Usage: setup.sh FOLDER; run as root. It leaves FOLDER/occ_hlr and FOLDER/solvespace-cli, and FOLDER/normal.slvs, the file that
# solvespace.py begins with.
set -eu
here=$(dirname "$(realpath "$0")")
mkdir -p "$1"
cd "$1"
apt-get update
apt-get install -y --no-install-recommends g++ cmake dpkg-dev openscad gnuplot-nox python3 \
    libocct-modeling-algorithms-dev libocct-data-exchange-dev libocct-modeling-data-dev libocct-foundation-dev
g++ -O2 -w -o occ_hlr "$here/occ_hlr.cpp" -I/usr/include/opencascade -lTKHLR -lTKShHealing -lTKMesh -lTKTopAlgo -lTKBRep \
    -lTKGeomAlgo -lTKGeomBase -lTKG3d -lTKG2d -lTKMath -lTKernel
# the machine's own sources of packages, for their source texts too
sed -i 's/^Types: deb$/Types: deb deb-src/' /etc/apt/sources.list.d/debian.sources
apt-get update
apt-get source solvespace
apt-get build-dep -y --no-install-recommends solvespace
cd solvespace-*/
python3 - <<'END'
file = "src/platform/entrycli.cpp"
text = open(file).read()
at = "            SS.exportBackgroundColor = bg_color;\n"
more = "            SS.GW.drawOccludedAs = GraphicsWindow::DrawOccludedAs::STIPPLED;\n"
if more not in text:
    open(file, "w").write(text.replace(at, at + more, 1))
END
mkdir -p built
cd built
cmake .. -DCMAKE_BUILD_TYPE=Release -DENABLE_GUI=OFF -DENABLE_TESTS=OFF -DENABLE_CLI=ON
make -j"$(nproc)" solvespace-cli
cp bin/solvespace-cli ../test/group/link/normal.slvs ../..
