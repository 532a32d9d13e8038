#!/bin/sh
# examples/judge-all.sh FILE..: runs the program on each sketch, one process for each, and writes the answer beside it, in
# FILE.answer. Prints a line for each: the exit status and the name. Set COMMAND to run another command than check, and
# SKETCH to name the program if it isn't on the path.
for it; do
    "${SKETCH:-sketch}" ${COMMAND:-check} < "$it" > "$it.answer"
    printf '%s %s\n' "$?" "$it"
done
