#!/usr/bin/env bash
# Tests which archive the scripts here choose, and that each of their comparisons notices what it is there for, in a copy of the
# repository's sources, with and without an rt that only writes a file.
set -euo pipefail
root=$(cd "$(dirname "$0")/.." && pwd)
work=$(mktemp -d)
trap 'rm -rf "$work"' EXIT

# A path with what the scripts need and no rt, and one with an rt that writes 'built' for an archive.
mkdir "$work/tools" "$work/with-rt" "$work/copy"
for tool in bash awk cat cmp cp cut dirname find mkdir realpath rm sed seq sha256sum sort tail tee uname wc xargs; do
    ln -s "$(command -v "$tool")" "$work/tools/$tool"
done
cat >"$work/with-rt/rt" <<'END'
#!/usr/bin/env bash
if [ "$1" = version ]; then
    echo "a toolchain for tests"
    exit
fi
echo "rt $*" >>"$CALLS"
if [ -e "$CALLS.fails" ]; then
    echo "rt: priors NOT PROVED"
    for line in $(seq 40); do
        echo "    why not, line $line"
    done
    exit 1
fi
mkdir -p out
echo built >out/libexports.a
for crate in priors entries book divergence baseline exports; do
    echo "crate $crate: modules loaded=1 checked=1"
    echo "logic=proved functions=1"
done
END
chmod +x "$work/with-rt/rt"
export CALLS=$work/calls
cp -r "$root/crates.txt" "$root/crates" "$root/prebuilt" "$work/copy"
rm -f "$work/copy/prebuilt/x86_64-linux/"*
cd "$work/copy"

failures=0
expect() { # WHAT, what is wanted, what there is
    if [ "$2" != "$3" ]; then
        printf 'not as expected: %s: %s, and not %s\n' "$1" "$3" "$2"
        failures=$((failures + 1))
    fi
}
without_rt() {
    env -u TEAKPOOL_ARCHIVE PATH="$work/tools" "$@" 2>"$work/said"
}
with_rt() {
    env -u TEAKPOOL_ARCHIVE PATH="$work/with-rt:$work/tools" "$@" 2>"$work/said"
}
calls() {
    [ ! -e "$CALLS" ] || cat "$CALLS"
    rm -f "$CALLS"
}
prebuilt=$(realpath .)/prebuilt/x86_64-linux/libteakpool.a
built=$(realpath .)/target/staticlib/libteakpool.a

with_rt prebuilt/update >"$work/recorded"
expect "an update proves" "rt lib" "$(calls)"
expect "an update puts the archive here" "built" "$(cat "$prebuilt")"
expect "an update records the toolchain" "toolchain a toolchain for tests" "$(tail -n 1 "$work/recorded")"
expect "a line for each crate" "7" "$(grep -c . "$work/said")"
expect "the last crate's line" "teakpool: 6 of 6: exports proved" "$(tail -n 1 "$work/said")"
with_rt prebuilt/check >"$work/checked" || expect "a check of what was just put here" "a pass" "$(cat "$work/said")"
expect "a check proves" "rt lib" "$(calls)"
rm -rf target

# Each comparison of a check decides alone: what is spoiled here, all the others pass.
spoiled() { # WHAT SENTENCE COMMAND
    cp -r prebuilt "$work/whole"
    (cd prebuilt/x86_64-linux && eval "$3")
    if with_rt prebuilt/check >"$work/checked"; then
        expect "$1" "a failure" "a pass"
    fi
    expect "$1: what is said" "1" "$(grep -c "$2" "$work/said")"
    rm -rf prebuilt target "$CALLS"
    mv "$work/whole" prebuilt
}
other='is not what was just proved and built'
hash='the sha256 recorded beside .* is not its own'
sources='the hash of the sources recorded beside'
spoiled "a changed byte, with its hash" "$other" 'echo Built >libteakpool.a && sha256sum libteakpool.a >libteakpool.a.sha256'
spoiled "a byte more, with its hash" "$other" 'echo >>libteakpool.a && sha256sum libteakpool.a >libteakpool.a.sha256'
spoiled "another hash" "$hash" 'tr 0-9a-f 1-9a-f0 <libteakpool.a.sha256 >other && mv other libteakpool.a.sha256'
spoiled "no line with a hash" "$hash" ': >libteakpool.a.sha256'
spoiled "no file with a hash" "$hash" 'rm libteakpool.a.sha256'
spoiled "the hash of another file" "$hash" 'sha256sum sources >libteakpool.a.sha256'
spoiled "a hash more" "$hash" 'sha256sum sources >>libteakpool.a.sha256'
spoiled "another hash of the sources" "$sources" 'sed -i "s/^sources ./sources x/" sources'
spoiled "no hash of the sources" "$sources" 'sed -i "/^sources/d" sources'
spoiled "two hashes of the sources" "$sources" 'sed -i "s/^sources .*/&\n&/" sources'
with_rt prebuilt/check >"$work/checked" || expect "a check when all is as it was" "a pass" "$(cat "$work/said")"
calls >"$work/told"
rm -rf target

# The hash of the sources takes in every source of every crate that the archive is made of, by name and contents.
hash_now() {
    without_rt bash -c 'set -euo pipefail; . prebuilt/common.sh; now=$(sources_hash) || exit 1; echo "$now"' || echo failed
}
recorded=$(sed -n 's/^sources //p' prebuilt/x86_64-linux/sources)
expect "the hash of the sources" "$recorded" "$(hash_now)"
hash_changes() { # WHAT
    if [ "$(hash_now)" = "$recorded" ]; then
        expect "$1" "another hash" "the same"
    fi
}
made_of=$(bash -c '. prebuilt/common.sh; archive_crates' | cut -d : -f 1 | sort | paste -s -d ' ')
expect "what the archive is made of" "baseline book divergence entries exports priors" "$made_of"
for crate in $made_of; do
    for folder in src specs; do
        first=$(find "crates/$crate/$folder" -name '*.rt' -o -name '*.antt' | sort | head -n 1)
        cp "$first" "$work/kept"
        echo >>"$first"
        hash_changes "a line more in $first"
        rm "$first"
        cp "$work/kept" "${first%.*}_other.${first##*.}"
        hash_changes "another name for $first"
        rm "${first%.*}_other.${first##*.}"
        hash_changes "$first is gone"
        mv "$work/kept" "$first"
    done
    sed -i.whole "s/^$crate\( staticlib\)*:.*/& priors/" crates.txt
    hash_changes "another line for $crate"
    mv crates.txt.whole crates.txt

    # A crate without its line, or without a folder, is not passed over.
    sed -i.whole "/^$crate\( staticlib\)*:/d" crates.txt
    expect "no line for $crate: no hash" "failed" "$(hash_now)"
    expect "no line for $crate: what is said" "1" "$(grep -c "crates.txt has no line for $crate," "$work/said")"
    for script in build check update; do
        if with_rt "prebuilt/$script" >"$work/told"; then
            expect "no line for $crate: prebuilt/$script" "a failure" "a pass"
        fi
    done
    expect "no line for $crate: nothing is proved" "" "$(calls)"
    expect "no line for $crate, without rt" "$prebuilt" "$(without_rt prebuilt/archive)"
    expect "no line for $crate, without rt: a line says so" "1" "$(grep -c 'the sources have changed' "$work/said")"
    mv crates.txt.whole crates.txt
    mv "crates/$crate/specs" "$work/specs"
    expect "no definitions of $crate: no hash" "failed" "$(hash_now)"
    mv "$work/specs" "crates/$crate/specs"
done
expect "the hash when all is as it was" "$recorded" "$(hash_now)"

expect "without rt" "$prebuilt" "$(without_rt prebuilt/archive)"
expect "with rt" "$prebuilt" "$(with_rt prebuilt/archive)"
find crates prebuilt -exec touch {} +
expect "after all files were touched" "$prebuilt" "$(with_rt prebuilt/archive)"
echo 'other: priors' >>crates.txt
echo '// a remark' >>crates/kit/src/main.rt
echo '-- a remark' >>crates/book/proofs/Lib.antt
expect "after a change that the archive has no part in" "$prebuilt" "$(with_rt prebuilt/archive)"
expect "nothing was said" "" "$(cat "$work/said")"
expect "nothing was proved" "" "$(calls)"

change() { # WHAT FILE TEXT
    cp "$2" "$work/kept"
    printf '%s\n' "$3" >>"$2"
    expect "$1, without rt" "$prebuilt" "$(without_rt prebuilt/archive)"
    expect "$1, without rt: a line says so" "1" "$(grep -c 'the sources have changed' "$work/said")"
    expect "$1, with rt" "$built" "$(with_rt prebuilt/archive)"
    expect "$1, with rt: it is proved" "rt lib" "$(calls)"
    expect "$1, with rt, again" "$built" "$(with_rt prebuilt/archive)"
    expect "$1, with rt, again: it is not proved again" "" "$(calls)"
    if with_rt prebuilt/check >"$work/checked"; then
        expect "$1: a check of what is recorded" "a failure" "a pass"
    fi
    rm -f "$CALLS"
    mv "$work/kept" "$2"
}
change "a changed source" crates/exports/src/lib.rt '// a remark'
change "a changed definition" crates/priors/specs/Lib.antt '-- a remark'
change "a changed list of crates" crates.txt 'exports staticlib: priors book'

echo '// a remark' >>crates/exports/src/lib.rt
touch "$CALLS.fails"
rm -rf target
if with_rt prebuilt/archive >"$work/path"; then
    expect "a proof that fails" "a failure" "a pass"
fi
expect "a proof that fails: what rt said" "1" "$(grep -c 'priors NOT PROVED' "$work/said")"
expect "a proof that fails: all that rt said" "40" "$(grep -c 'why not, line' "$work/said")"
rm -f "$CALLS" "$CALLS.fails"
sed -i '$d' crates/exports/src/lib.rt

echo more >>"$prebuilt"
if without_rt prebuilt/archive >"$work/path"; then
    expect "an archive that is not the recorded one" "a failure" "a pass"
fi
if with_rt prebuilt/check >"$work/checked"; then
    expect "a check of an archive that is not the built one" "a failure" "a pass"
fi
rm "$prebuilt"
: >"$prebuilt.sha256"
if without_rt prebuilt/archive >"$work/path"; then
    expect "no archive, and no hash" "a failure" "a pass"
fi
expect "TEAKPOOL_ARCHIVE comes first" "$(realpath crates.txt)" "$(TEAKPOOL_ARCHIVE=crates.txt prebuilt/archive)"
if TEAKPOOL_ARCHIVE=none prebuilt/archive 2>"$work/said"; then
    expect "TEAKPOOL_ARCHIVE names no file" "a failure" "a pass"
fi

(cd "$root" && . prebuilt/common.sh && prebuilt_is_whole) || expect "the archive in the repository" "the recorded one" "another"

[ "$failures" -eq 0 ]
echo "prebuilt: the right archive is chosen, and each comparison notices what it is there for"
