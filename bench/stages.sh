#!/bin/sh
# What a change of a month delta costs in the kept stages and a change of a commodity's numbers in the kept credits, in
# sets of 1 to 256 commodities with 1 to 256 contracts each, beside the whole calculation worked out anew; then with 1, 8
# and 32 spreads in each commodity and 1, 15 and 63 between commodities. A change is not to grow with commodities and
# contracts: its ratio from the smallest set to the largest with the same months and spreads is to stay below 1.5.
cd "$(dirname "$0")/../crates/bench_calls" && rt run -- stages
