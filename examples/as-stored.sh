#!/bin/sh
# examples/as-stored.sh FILE ..: for each sketch of files of FreeCAD, SolveSpace or DXF, and of drawings, prints the tolerances
# within which the positions stored in the file meet the constraints, as the program measures them.
pertxogai=./pertxogai
command -v $pertxogai > /dev/null || pertxogai=pertxogai
for it; do
    $pertxogai judge --as-stored "$it" | awk -v it="$it" '
        /^[^ ]/ { name = $0; sub(/: .*/, "", name) }
        /^  as stored, measured by the program/ { sub(/.*program: /, ""); printf "%-44s %s: %s\n", it, name, $0 }'
done
