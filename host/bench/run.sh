#!/bin/sh
# Times the archive beside goko over goko's own hash map: hashbrown 0.12.3 with ahash 0.7.6, of Debian's package
# librust-hashbrown-dev, which is installed where it is not there. Arguments go to the program.
#
#     run.sh [--adds | --floors] [--paths N] [--rounds R]
#
# The program is built in host/target/hashed, a workspace of links to the crates of host, in which bench/hashed stands for
# shims/hashbrown and the package's crates for a registry. Beside the package nothing else is written.
set -eu
cd "$(dirname "$0")/.."

registry=/usr/share/cargo/registry
there() {
    [ -d $registry/hashbrown-0.12.3 ] && [ -d $registry/ahash-0.7.6 ]
}
fetch() {
    apt-get install -y --no-install-recommends librust-hashbrown-dev
}

hashed=target/hashed
mkdir -p $hashed/shims
if ! there; then
    echo "installing librust-hashbrown-dev" >&2
    { fetch || { apt-get update && fetch; }; } >$hashed/install.log 2>&1 || true
    if ! there; then
        echo "nothing is timed: Debian's librust-hashbrown-dev 0.12.3, which has goko's hash map, is not there and cannot be installed (host/$hashed/install.log)" >&2
        exit 1
    fi
fi

for manifest in */Cargo.toml; do
    crate=${manifest%/*}
    ln -sfn "../../$crate" "$hashed/$crate"
done
for manifest in shims/*/Cargo.toml; do
    crate=${manifest%/*}
    ln -sfn "../../../$crate" "$hashed/$crate"
done
ln -sfn ../../../bench/hashed $hashed/shims/hashbrown
{
    cat Cargo.toml
    for crate in hashbrown@0.12.3 ahash; do
        printf '[profile.release.package."%s"]\noverflow-checks = false\n' $crate
    done
} >$hashed/Cargo.toml

exec cargo run --release --offline --quiet -p bench --manifest-path $hashed/Cargo.toml --target-dir $hashed/target \
    --config 'source.crates-io.replace-with = "debian"' --config "source.debian.directory = \"$registry\"" -- "$@"
