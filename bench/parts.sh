#!/bin/sh
# What a change of one net costs in the parts that follow it, in sets of 1 to 256 commodities with 1 to 256 contracts
# each, beside the whole calculation worked out anew. A change is not to grow with the set: its ratio from the smallest
# set to the largest is to stay below 1.5.
cd "$(dirname "$0")/../crates/bench_calls" && rt run -- parts
