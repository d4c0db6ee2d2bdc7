#!/bin/sh
# Builds the Rust side and runs its tests, the comparison with goko, and the replay of the recorded
# sample; then what goes through the archive: the example day, the crate over it with its examples,
# the program, and the comparison at scale. Fails at the first failure. Needs no network. Without
# goko's sources it says so in a line and goes on.
#
#     test.sh [--lists N] [--seed S] [--long]
#
# '--lists' and '--seed' go to both comparisons, '--long' to the one at scale alone.
set -eu
cd "$(dirname "$0")"

long=
for word in "$@"; do
    shift
    case $word in
    --long) long=--long ;;
    *) set -- "$@" "$word" ;;
    esac
done

cargo build --release --offline --quiet
cargo test --release --offline --quiet --test '*'
cargo run --release --offline --quiet -p compare -- "$@"
cargo run --release --offline --quiet -p vectors -- replay ../vectors

# The sample must be what its command makes.
mkdir -p target/vectors
cargo run --release --offline --quiet -p vectors -- record target/vectors
for file in ../vectors/*.bin; do
    cmp "$file" "target/vectors/$(basename "$file")"
done

# The kit's program is given the same files.
diff -r ../vectors ../crates/kit/data

# What links the archive finds it, and passes on what is said about it.
archive/test.sh

# Help, wrong arguments and a missing file are answered without the archive.
TEAKPOOL_ARCHIVE=none ../run --help > target/help.out
{ cat watch/src/usage.txt; echo; cat watch/src/format.txt; } | diff - target/help.out
answered() {
    expected=$1
    told=$2
    shift 2
    status=0
    TEAKPOOL_ARCHIVE=none ../run "$@" 2> target/told.out || status=$?
    echo "$told" | diff - target/told.out
    [ $status -eq "$expected" ]
}
answered 1 "target/none: there is no such file" target/none
answered 1 "target/none: there is no such file" priors -- target/none
answered 2 "'--htlm' is no option; ./run --help tells more" --htlm target/none
answered 2 "--csv wants a file; ./run --help tells more" --csv
answered 2 "one day is read at a time; ./run --help tells more" target/none target/none

if ../prebuilt/archive >target/archive.path; then
    # The example drifts, which the status tells.
    status=0
    (cd .. && ./run --html host/target/example.html --csv host/target/example.csv) > target/example.out || status=$?
    diff ../days/example.out target/example.out
    [ $status -eq 3 ]
    grep -q '<h1>Drift found</h1>' target/example.html
    [ "$(wc -l < target/example.csv)" -eq 181 ]
    echo "the example day: the report is the stored one"
    cargo test --release --offline --quiet -p teakpool -p watch
    cargo test --release --offline --quiet -p teakpool --no-default-features
    # The README's lines for Rust are this example, which runs with std and without.
    sed -n '/^```rust$/,/^```$/p' ../README.md | sed '/^```/d' | diff - teakpool/examples/readme.rs
    for feature in --all-features --no-default-features; do
        told=$(cargo run --release --offline --quiet -p teakpool $feature --example readme)
        [ "$told" = "State { window: 8, used: 3, accepted: 1 }" ] || { echo "the README's example tells $told"; exit 1; }
    done
    echo "the README's lines for Rust: run with std and without"
    cargo run --release --offline --quiet -p through -- $long "$@"
    cargo check --release --offline --quiet -p bench
else
    echo "there is no archive, and what goes through it is not tested"
    exit 1
fi
echo "the Rust side: all checks passed"
