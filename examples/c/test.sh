#!/usr/bin/env bash
# Builds the programs here and the README's lines against the headers and the archive and runs them, and tries what must not compile.
# Then flags of compilers, installing, the header's numbers and the stack are tested, each by a script of its own.
set -euo pipefail
cd "$(dirname "$0")/../.."

archive=$(prebuilt/archive)
work=$(mktemp -d)
trap 'rm -rf "$work"' EXIT
strict="-Wall -Wextra -Wconversion -pedantic -Werror"

build() { # COMPILER STANDARD SOURCE
    $1 -std="$2" -O1 $strict -Iinclude "$3" -x none "$archive" -o "$work/program"
}
for standard in c99 c11; do
    for program in drift structs floor child visits memory tidy batch tables rows refusals; do
        build cc "$standard" "examples/c/$program.c"
        "$work/program" host/teakpool/tests/gamma.txt >"$work/told" || { cat "$work/told" && exit 1; }
        tail -n 1 "$work/told"
    done
done
for standard in c99 c11; do
    cc -std="$standard" -O1 $strict -Iinclude examples/c/arguments.c -o "$work/program"
    "$work/program"
done
build "c++ -x c++" c++11 examples/c/drift.c
"$work/program" | tail -n 1
build c++ c++11 examples/cpp/drift.cpp
"$work/program"

# Everything in its place compiles; with one thing misplaced, it must not.
cases=$(grep -c '^#elif CASE == ' examples/c/misplaced.c)
for compiler in "cc -x c -std=c99" "c++ -x c++ -std=c++11"; do
    for number in $(seq 0 "$cases"); do
        if $compiler -DCASE="$number" $strict -Iinclude -c examples/c/misplaced.c -o "$work/misplaced.o" 2>"$work/said"; then
            [ "$number" -eq 0 ] || { echo "misplaced: case $number compiles" && exit 1; }
        elif [ "$number" -eq 0 ]; then
            cat "$work/said"
            exit 1
        fi
    done
done
echo "misplaced: $cases cases do not compile, in C and in C++"

# The README's own lines compile and run, in C and in C++.
sed -n '/^```c$/,/^```$/p' README.md | sed '/^```/d' >"$work/readme.c"
for compiler in "cc -x c -std=c99" "cc -x c -std=c11" "c++ -x c++ -std=c++11"; do
    $compiler $strict -Iinclude "$work/readme.c" examples/c/readme.c -x none "$archive" -o "$work/program"
    "$work/program"
done

# Every exported function is declared in the header, and every declared one exported; the archive wants memset alone.
nm "$archive" | sed -n 's/^.* T \(teakpool_.*\)$/\1/p' | sort >"$work/exported"
sed -n 's/^uint32_t \(teakpool_[a-z_]*\)(.*$/\1/p' include/teakpool.h | sort >"$work/declared"
diff "$work/exported" "$work/declared"
nm "$archive" | sed -n 's/^ *U \(.*\)$/\1/p' | diff - <(echo memset)

for part in flags install numbers stack; do
    "examples/c/test_$part.sh"
done
