#!/bin/sh
# The figures of docs/SIMULATION.md but the means of many seeds, in its order: goodput, two associations that share a bottleneck, heap.
#
#     evidence/association_figures.sh [SEEDS]
#
# It is run by hand, with SEEDS seeds of each path (3), and needs Debian's package libusrsctp-dev, gcc or the CC given, and the program
# crates/assocrun/out/assocrun, which `rt run` makes, or that of ASSOCRUN.
set -eu
cd "$(dirname "$0")/.."
ASSOCRUN=${ASSOCRUN:-crates/assocrun/out/assocrun}
echo "goodput, retransmissions, SACKs a packet, longest stall"
python3 evidence/simulate.py --ours "$ASSOCRUN" --page --seeds "${1:-3}"
echo "two associations share the bottleneck"
python3 evidence/simulate.py --ours "$ASSOCRUN" --page --fair --rates 1,10 --losses 0,1 --seeds "${1:-3}"
python3 evidence/heap.py --ours "$ASSOCRUN"
