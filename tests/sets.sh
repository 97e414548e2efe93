#!/bin/sh
# Compares the files of sets/ with the texts of the same names in crates/worked_sets, which tests and benchmarks read.
here=$(CDPATH= cd -- "$(dirname -- "$0")" && pwd)
failed=0
for file in "$here"/../sets/*.csv; do
    name=$(basename "$file" .csv | tr '[:upper:]' '[:lower:]')
    # A text is a string over several lines: from the quote in the line below the function's name to the next one.
    if ! awk -v head="pub fn $name() " '
        index($0, head) == 1 { inside = 1; next }
        inside {
            line = $0
            sub(/^    "/, "", line)
            sub(/\\n\\?"?$/, "", line)
            print line
            if (/"$/) exit
        }
    ' "$here/../crates/worked_sets/src/lib.rt" | cmp -s - "$file"; then
        echo "FAILED: $file is not the text of worked_sets"
        failed=$((failed + 1))
    fi
done
echo "$(ls "$here"/../sets/*.csv | wc -l) sets compared, $failed differ"
[ $failed -eq 0 ]
