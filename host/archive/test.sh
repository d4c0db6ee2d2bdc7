#!/usr/bin/env bash
# Tests build.rs in a copy, with a prebuilt/archive that only tells: what it says is passed on whole, whether it finds an archive or
# not, and it is asked again when the PATH, where it looks for rt, is another.
set -euo pipefail
here=$(cd "$(dirname "$0")" && pwd)
work=$(mktemp -d)
trap 'rm -rf "$work"' EXIT
unset TEAKPOOL_ARCHIVE

mkdir -p "$work/host" "$work/prebuilt" "$work/crates" "$work/lib" "$work/empty"
cp -r "$here" "$work/host/archive"
printf '[workspace]\nmembers = ["archive"]\nresolver = "2"\n' >"$work/host/Cargo.toml"
touch "$work/crates.txt" "$work/lib/libone.a" "$work/lib/libother.a"
cat >"$work/prebuilt/archive" <<'END'
#!/usr/bin/env bash
root=$(dirname "$0")/..
echo asked >>"$root/asked"
cat "$root/says" >&2
[ ! -e "$root/fails" ] || { echo "told on the other way" && exit 7; }
if command -v teakpool-test-tool >/dev/null; then
    echo "$root/lib/libother.a"
else
    echo "$root/lib/libone.a"
fi
END
chmod +x "$work/prebuilt/archive"
printf 'the archive is for another machine\nthe sources have changed\n\n  a third line: %%s\n' >"$work/says"

fail() {
    echo "build.rs: $1"
    cat "$work/told"
    exit 1
}
build() {
    (cd "$work/host" && cargo check --offline -p archive --target-dir "$work/target") >"$work/told" 2>&1
}
links() { # NAME
    grep -qx "cargo:rustc-link-lib=static=$1" "$work"/target/debug/build/archive-*/output
}

build || fail "does not find an archive"
links one || fail "does not link the archive that it is told of"
while IFS= read -r line; do
    grep -qF "warning: archive@0.5.0: $line" "$work/told" || fail "does not pass on '$line'"
done <"$work/says"

# The choice depends on what is found along the PATH.
rm "$work/asked"
build || fail "does not build again"
[ ! -e "$work/asked" ] || fail "asks again though nothing has changed"
printf '#!/bin/sh\n' >"$work/empty/teakpool-test-tool"
chmod +x "$work/empty/teakpool-test-tool"
PATH="$work/empty:$PATH" build || fail "does not build with another PATH"
links other || fail "does not ask again with another PATH"

# Where no archive is found, all that was said comes out, on both ways.
touch "$work/fails"
if build; then
    fail "finds an archive where there is none"
fi
{ cat "$work/says" && echo "told on the other way" && echo "ended with exit status: 7"; } | while IFS= read -r line; do
    grep -qF -- "$line" "$work/told" || fail "does not pass on '$line' where it fails"
done
chmod -x "$work/prebuilt/archive"
if build; then
    fail "finds an archive though nothing can be asked"
fi
grep -qF "ermission denied" "$work/told" || fail "does not say why nothing can be asked"
rm "$work/prebuilt/archive"
if TEAKPOOL_ARCHIVE=$work/none.a build; then
    fail "finds an archive that is not there"
fi
grep -qF "there is no archive at $work/none.a (No such file" "$work/told" || fail "does not say what is not there"
echo "build.rs: the archive is chosen anew with the PATH, and what is said is passed on"
