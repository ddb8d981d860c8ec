#!/usr/bin/env bash
# How long `booklet check` takes over a file of nearly 16 MiB, as a ratio to reading the same file with cat.
# usage: bench/scan.sh [ROUNDS]
set -eu
root=$(cd "$(dirname "$0")/.." && pwd)
rounds=${1:-5}
work=$(mktemp -d)
trap 'rm -rf "$work"' EXIT

# A DSC file of 1,000 pages of about 16 kB each, and a listing of 2,000 pages of 60 lines of 130 bytes.
awk 'BEGIN {
    printf "%%!PS-Adobe-3.0\n%%%%BoundingBox: 0 0 612 792\n%%%%Pages: 1000\n%%%%EndComments\n"
    for (p = 1; p <= 1000; p++) {
        printf "%%%%Page: %d %d\n", p, p
        for (l = 1; l <= 300; l++) printf "%d %d moveto (claim %06d of store %05d, paid) show\n", l % 500, l, l, p
        printf "showpage\n"
    }
    printf "%%%%Trailer\n%%%%EOF\n"
}' > "$work/book.ps"
awk 'BEGIN {
    for (p = 1; p <= 2000; p++) {
        for (l = 1; l <= 60; l++) printf "%-130s\n", "store " p " line " l
        printf "\f"
    }
}' > "$work/book.txt"

"$root/booklet" --version > /dev/null   # builds the program if need be
program=$root/crates/booklet/out/booklet

# The least time of several rounds, in milliseconds.
least() {
    local best=999999 start end
    for _ in $(seq "$rounds"); do
        start=$(date +%s%N)
        "$@" > /dev/null
        end=$(date +%s%N)
        (( (end - start) / 1000000 < best )) && best=$(( (end - start) / 1000000 ))
    done
    echo "$best"
}

report() {
    local name=$1 file=$2
    shift 2
    local copy check
    copy=$(least cat "$file")
    check=$(least "$program" check "$@" "$file")
    awk -v n="$name" -v s="$(stat -c %s "$file")" -v c="$copy" -v k="$check" \
        'BEGIN { printf "%-8s %9d bytes  cat %4d ms  check %4d ms  ratio %.1f\n", n, s, c, k, k / (c > 0 ? c : 1) }'
}

report dsc "$work/book.ps"
report listing "$work/book.txt" --listing
