#!/usr/bin/env bash
# Holds the header's version against all others, and its numbers and names against the sources.
set -euo pipefail
cd "$(dirname "$0")/../.."
work=$(mktemp -d)
trap 'rm -rf "$work"' EXIT

# One version everywhere: the header's parts and its string (drift.c holds the archive's against them), the change log, the crate, and
# what ./run tells.
version=$(sed -n 's/^#define TEAKPOOL_VERSION_STRING "\(.*\)"$/\1/p' include/teakpool.h)
parts=$(sed -n 's/^#define TEAKPOOL_VERSION_\(MAJOR\|MINOR\|PATCH\) \([0-9]*\)u$/\2/p' include/teakpool.h | paste -s -d .)
logged=$(sed -n 's/^## \([0-9.]*\).*$/\1/p' CHANGELOG.md | head -n 1)
packed=$(sed -n 's/^version = "\(.*\)"$/\1/p' host/teakpool/Cargo.toml)
told=$(./run --version)
for other in "$parts" "$logged" "$packed" "${told#teakpool }"; do
    [ "$other" = "$version" ] || { echo "versions: $other is not the header's $version" && exit 1; }
done
echo "versions: $version in header, archive, change log, pkg-config file, crate and ./run"

# Every number that the header defines is the one in the sources, where two of them have shorter names; test_stack.sh
# measures those of the stack, and the structs program meets TEAKPOOL_PATH_ENTRIES. The refusals have the names and numbers of the Rust crate, which holds
# them against docs/RULES.md.
constants_hold() { # HEADER
    local name value source lines=0
    sed -n 's/^#define TEAKPOOL_\([A-Z_]*\) \([0-9]*\)u$/\1 \2/p' "$1" |
        grep -v -e '^VERSION_' -e '^STACK' -e '^PATH_ENTRIES ' >"$work/defined"
    while read -r name value; do
        case $name in
        DONE) source=0 ;;
        MAX_PATHS_ACCEPTED) source=$(in_sources MAX_ACCEPTED) ;;
        MAX_SEQUENCE_PATHS) source=$(in_sources MAX_PATHS) ;;
        *) source=$(in_sources "$name") ;;
        esac
        [ "$value" = "$source" ] || { echo "constants: TEAKPOOL_$name is $value, and in the sources '$source'" && return 1; }
        lines=$((lines + 1))
    done <"$work/defined"
    [ "$lines" -eq 19 ] || { echo "constants: $lines numbers, and not 19" && return 1; }
    sed -n 's/^    TEAKPOOL_\([A-Z_]*\) = \([0-9]*\),\{0,1\} .*$/\1 \2/p' "$1" >"$work/refusals"
    sed -n 's/^            Refusal::\([A-Za-z]*\)\((_)\)\{0,1\} => \([0-9]*\),$/\1 \3/p' host/teakpool/src/refusal.rs |
        sed 's/\([a-z]\)\([A-Z]\)/\1_\2/g' | tr a-z A-Z | diff - "$work/refusals" || return 1
    [ "$(wc -l <"$work/refusals")" -eq 19 ] || { echo "constants: not 19 refusals" && return 1; }
}
in_sources() { # NAME
    sed -n "s/^\(pub \)\{0,1\}const $1: u[0-9a-z]* = \([0-9]*\);\$/\2/p" \
        crates/{priors,entries,book,divergence,baseline,exports}/src/*.rt | sort -u
}
constants_hold include/teakpool.h
for change in 's/MAX_WINDOW 1024u/MAX_WINDOW 1025u/' 's/KNOT_VALUES 10u/KNOT_VALUES 11u/' '/MAX_CHAIN/d' 's/_LINKS = 5/_LINKS = 6/' \
    's/_WINDOW = 8/_WINDOWS = 8/' '/_ONE_KNOT = 18/d' 's/_SHARED_POINT = 22/_SHARED_POINT = 19/'; do
    sed "$change" include/teakpool.h >"$work/changed.h"
    if constants_hold "$work/changed.h" >"$work/told"; then
        echo "constants: '$change' is not noticed" && exit 1
    fi
done
echo "constants: the header's numbers are those of the sources"
