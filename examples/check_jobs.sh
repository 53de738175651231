#!/bin/sh
# Runs the program on each job of this folder and compares what it prints: check_jobs.sh [PROGRAM].
here=$(cd "$(dirname "$0")" && pwd)
program=${1:-$here/../target/bin/quindaf}
passed=0 failed=0
for job in "$here"/jobs/*.job; do
    if "$program" <"$job" | cmp -s - "${job%.job}.out"; then
        passed=$((passed + 1))
    else
        echo "$(basename "$job"): another line than $(basename "$job" .job).out has"
        failed=$((failed + 1))
    fi
done
echo "$passed jobs as expected, $failed not"
[ "$failed" -eq 0 ]
