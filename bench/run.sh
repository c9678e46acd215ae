#!/usr/bin/env bash
# Measures the maker against the plain painter on harbours of four sizes and on the files that are named: bench/run.sh [FILE ..]
# ROUNDS (5) is how often the two take turns on a file, FRAMES (5) how many pictures each makes in a turn. docs/PERFORMANCE.md says what the columns are.
set -euo pipefail
root=$(cd "$(dirname "${BASH_SOURCE[0]}")/.." && pwd)
built=$root/target/bench
rounds=${ROUNDS:-5}
frames=${FRAMES:-5}

mkdir -p "$built"
for name in plain scene; do
    rustc --edition 2024 -C opt-level=3 -C codegen-units=1 -o "$built/$name" "$root/bench/$name.rs"
done
# Proves and builds the program; with no file named it only prints its help.
if ! (cd "$root/crates/bench" && rt run) >"$built/check.log" 2>&1; then
    echo "bench is not proved; see $built/check.log" >&2
    exit 1
fi
bench=$root/crates/bench/out/bench

files=()
for scene in "200 256 256" "2000 1024 1024" "20000 1024 1024" "100000 1024 1024"; do
    read -r triangles width height <<<"$scene"
    file=$built/harbour-$triangles.dots
    "$built/scene" "$triangles" "$width" "$height" "$file"
    files+=("$file")
done
files+=("$@")

# The lesser of two numbers, of which the first may be missing.
least() {
    awk -v a="${1:-$2}" -v b="$2" 'BEGIN { print (a + 0 < b + 0) ? a : b }'
}

failed=0
printf '%-24s %9s %11s %7s %9s %9s %9s %13s\n' file triangles size covered "plain ms" "make ms" "paint ms" "paint / plain"
for file in "${files[@]}"; do
    name=$(basename "$file")
    read -r triangles width height covered < <("$built/plain" "$file" --count)
    plain='' make='' paint=''
    for ((round = 0; round < rounds; round++)); do
        plain=$(least "$plain" "$("$built/plain" "$file" --frames "$frames" --out "$built/plain.raw")")
        if ! times=$("$bench" "$file" "$frames" --out "$built/make.raw" 2>"$built/make.log"); then
            break
        fi
        make=$(least "$make" "$(awk '$1 == "make" { print $2 / 1000 }' <<<"$times")")
        paint=$(least "$paint" "$(awk '$1 == "paint" { print $2 / 1000 }' <<<"$times")")
    done
    printf '%-24s %9s %11s %7s %9.2f ' "$name" "$triangles" "${width}x$height" "$covered" "$plain"
    if [[ -z $make ]]; then
        printf 'not made: %s\n' "$(cat "$built/make.log")"
        failed=1
    else
        printf '%9.2f %9.2f %13s\n' "$make" "$paint" "$(awk -v a="$paint" -v b="$plain" 'BEGIN { printf "%.2f", a / b }')"
        if ! cmp "$built/plain.raw" "$built/make.raw"; then
            echo "$name: the pictures differ"
            failed=1
        fi
    fi
done
if ((failed)); then
    exit 1
fi
echo "All pictures are the same, byte for byte."
