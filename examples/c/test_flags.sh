#!/usr/bin/env bash
# A flag that lets a compiler take the tables' sums apart is refused by teakpool_tables.h, or leaves every bit as it is recorded. clang
# is tried where it is there.
set -euo pipefail
cd "$(dirname "$0")/../.."

archive=$(prebuilt/archive)
work=$(mktemp -d)
trap 'rm -rf "$work"' EXIT

compilers="cc c++"
for compiler in clang clang++; do
    ! command -v "$compiler" >/dev/null || compilers="$compilers $compiler"
done
refused=0
for compiler in $compilers; do
    language="-x c -std=c99"
    [ "${compiler%++}" = "$compiler" ] || language="-x c++ -std=c++11"
    while read -r wanted flags; do
        if $compiler $language -O2 $flags -Iinclude examples/c/tables.c -x none "$archive" -o "$work/program" 2>"$work/said"; then
            [ "$wanted" != refused ] || { echo "tables: $compiler $flags compiles" && exit 1; }
            "$work/program" host/teakpool/tests/gamma.txt >"$work/told" ||
                { echo "tables: $compiler $flags" && cat "$work/told" && exit 1; }
        elif grep -q 'unrecognized\|unknown argument\|not supported' "$work/said"; then
            continue # the compiler has no such flag
        else
            [ "$wanted" != taken ] || { cat "$work/said" && exit 1; }
            grep -q 'teakpool_tables.h: \|teakpool_constants_are_doubles' "$work/said" || { cat "$work/said" && exit 1; }
            refused=$((refused + 1))
        fi
    done <<'END'
taken -O3
taken -O3 -mfma -ffp-contract=fast
taken -fno-trapping-math -fno-math-errno
refused -ffast-math
refused -Ofast
refused -ffinite-math-only
either -funsafe-math-optimizations
either -fassociative-math -fno-signed-zeros -fno-trapping-math
either -freciprocal-math
either -fno-signed-zeros
either -mfpmath=387
either -fsingle-precision-constant
END
done
[ "$refused" -ge 6 ] || { echo "tables: $refused times a flag is refused, and not 6 or more" && exit 1; }
echo "tables: flags that take sums apart are refused, or change no bit ($compilers)"
