#!/bin/sh
# What a call on the lots of an account costs with 65,536 lots in it, beside one with 64. The ratio is to stay below 300 %.
cd "$(dirname "$0")/../crates/bench_calls" && rt run -- lists
