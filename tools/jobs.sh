#!/bin/sh
# Prints how many crates the gate is to prove side by side: one for each processor that this process may use, but no more
# than one for each four gigabytes of memory. `rt ci` reads the number from RT_JOBS; without it, it takes a crate to need
# two to three times the memory that one does, and waits for room that is there.
#
#     tools/jobs.sh [FILE]    FILE is read in place of /proc/meminfo
set -eu

# The kilobytes of the machine, or of the control group where that has fewer. The kernel keeps some hundred megabytes for
# itself, so half a gigabyte is added.
kilobytes=$(sed -n 's/^MemTotal: *\([0-9]*\) kB$/\1/p' "${1:-/proc/meminfo}")
for limit in /sys/fs/cgroup/memory.max /sys/fs/cgroup/memory/memory.limit_in_bytes; do
    [ -r "$limit" ] || continue
    bytes=$(cat "$limit")
    case $bytes in *[!0-9]* | '' | ????????????????*) continue ;; esac # no limit: a word, or a number of 16 digits
    [ $((bytes / 1024)) -ge "$kilobytes" ] || kilobytes=$((bytes / 1024))
done
jobs=$(((kilobytes + 524288) / 4194304))
processors=$(nproc)
[ "$jobs" -le "$processors" ] || jobs=$processors
[ "$jobs" -ge 1 ] || jobs=1
echo "$jobs"
