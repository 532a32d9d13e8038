#!/bin/sh
# examples/how-far.sh FILE ..: for each sketch that can be placed, prints the point or centre that is farthest from where it is
# drawn, and how far. The program is the one of SKETCH, else ./sketch, else `sketch` on the path.
sketch=${SKETCH:-./sketch}
command -v "$sketch" > /dev/null || sketch=sketch
for it; do
    "$sketch" solve frame=drawn <"$it" | awk -v it="$it" '
        $1 != "point" && $1 != "circle" { next }
        FNR == NR { x[$2] = $3 / 1e6; y[$2] = $4 / 1e6; next }
        $2 in x { off = sqrt((x[$2] - $3) ^ 2 + (y[$2] - $4) ^ 2); if (off >= far) { far = off; name = $2 } }
        END { if (name) printf "%-32s %5.3f mm at %s\n", it, far, name }' - "$it"
done
