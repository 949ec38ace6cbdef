#!/bin/bash
# proj.sh: the product beside PROJ, where PROJ is installed (Debian's proj-bin): RSO by the two sets of EPSG's register, which PROJ
# looks up by their codes; Cassini-Soldner; geodetic to Cartesian. Prints the largest differences, and ends with 1 where one is
# over 0.000001 m. It is no part of the gate, which needs nothing but the toolchain.
#
# The product comes from target/staticlib/libcapi.a (`bash tools/build capi`).
set -euo pipefail
here=$(cd "$(dirname "$0")" && pwd)
root=$(cd "$here/.." && pwd)
for tool in cs2cs proj cct; do command -v $tool >/dev/null || { echo "proj.sh: $tool is missing; it comes with PROJ" >&2; exit 2; }; done
work=$(mktemp -d)
trap 'rm -rf "$work"' EXIT
${CC:-gcc} -O2 -std=c11 -Wall -Werror -I"$root/include" -o "$work/points" "$here/peer/points.c" "$root/target/staticlib/libcapi.a"
"$work/points" "$work"
swapped() { awk '{print $2, $1}' "$1"; }
swapped "$work/peninsula.in" | cs2cs -f %.7f EPSG:4742 EPSG:3375 >"$work/peninsula.peer"
swapped "$work/borneo.in" | cs2cs -f %.7f EPSG:4742 EPSG:3376 >"$work/borneo.peer"
proj -f %.7f +proj=cass +ellps=GRS80 +lat_0=4 +lon_0=101.5 +x_0=50 +y_0=-25 <"$work/cassini.in" >"$work/cassini.peer"
cct -d 7 +proj=cart +ellps=GRS80 <"$work/cartesian.in" >"$work/cartesian.peer"
bad=0
for name in peninsula borneo cassini cartesian; do
    paste "$work/$name.out" "$work/$name.peer" | awk -v name=$name '
        BEGIN { numbers = name == "cartesian" ? 3 : 2 }
        { for (i = 1; i <= numbers; i++) { d = $i - $(i + numbers); if (d < 0) d = -d; if (d > most) most = d } }
        END { printf "%-10s %5d points, largest difference %.7f m\n", name, NR, most; exit !(NR == 3000 && most <= 0.000001) }' || bad=1
done
exit $bad
