#!/usr/bin/env bash
# Installs the library in several ways, and builds the examples by pkg-config alone.
set -euo pipefail
cd "$(dirname "$0")/../.."

archive=$(prebuilt/archive)
work=$(mktemp -d)
trap 'rm -rf "$work"' EXIT
unset DESTDIR
strict="-Wall -Wextra -Wconversion -pedantic -Werror"
version=$(sed -n 's/^#define TEAKPOOL_VERSION_STRING "\(.*\)"$/\1/p' include/teakpool.h)
./install "$work/prefix" >"$work/installed"
export PKG_CONFIG_PATH="$work/prefix/lib/pkgconfig"
[ "$(pkg-config --modversion teakpool)" = "$version" ]
cc -std=c11 $strict examples/c/drift.c $(pkg-config --cflags --libs teakpool) -o "$work/installed-c"
"$work/installed-c" | tail -n 1
c++ -std=c++11 $strict examples/cpp/drift.cpp $(pkg-config --cflags --libs teakpool) -o "$work/installed-cpp"
"$work/installed-cpp"

# Folders with spaces, folders from where the command is given, and tools that know few options.
./install "$work/a prefix/with spaces" >"$work/installed"
export PKG_CONFIG_PATH="$work/a prefix/with spaces/lib/pkgconfig"
eval "cc -std=c11 $strict examples/c/drift.c $(pkg-config --cflags --libs teakpool) -o '$work/installed-c'"
"$work/installed-c" | tail -n 1
root=$PWD
mkdir "$work/from here" "$work/few"
for tool in realpath install; do
    cat >"$work/few/$tool" <<END
#!/bin/sh
case \$1 in -*) echo "$tool: there is no option \$1" >&2 && exit 1 ;; esac
exec $(command -v "$tool") "\$@"
END
    chmod +x "$work/few/$tool"
done
listed() { # FOLDER
    (cd "$1" && find . -type f | sort)
}
installs() { # WHAT WHERE PREFIX-IN-FILE ARGUMENT
    (cd "$work/from here" && PATH="$work/few:$PATH" "$root/install" "$4" >"$work/installed") || { echo "install: not $1" && exit 1; }
    [ "$(cat "$work/installed")" = "teakpool $version is installed in $2" ] || { cat "$work/installed" && exit 1; }
    diff <(listed "$work/prefix") <(listed "$2") || { echo "install: $1: not all files are there" && exit 1; }
    grep -qxF "prefix=$3" "$2/lib/pkgconfig/teakpool.pc" || { echo "install: $1: another prefix in the file" && exit 1; }
    cmp "$2/lib/libteakpool.a" "$archive"
}
installs "a relative prefix" "$work/from here/to here" "$work/from here/to here" "./to here//"
DESTDIR="a stage" installs "a relative DESTDIR" "$work/from here/a stage/usr/lo cal" "/usr/lo cal" "/usr/lo cal"
DESTDIR="$work/another stage/" installs "a DESTDIR with a space" "$work/another stage/usr" /usr /usr
ln -s "from here" "$work/link"
(umask 077 && ./install "$work/link/by a link" >"$work/installed")
grep -qxF "prefix=$work/link/by a link" "$work/from here/by a link/lib/pkgconfig/teakpool.pc"
[ -z "$(find "$work/from here/by a link" -type f ! -perm 644)" ] || { echo "install: files that others cannot read" && exit 1; }
for wrong in '' -x 'a"b' "a'b" 'a#b' 'a$b' 'a\b' 'a
b'; do
    status=0
    (cd "$work/from here" && "$root/install" "$wrong" 2>"$work/told") || status=$?
    [ "$status" -eq 2 ] && [ -s "$work/told" ] || { echo "install: the prefix '$wrong' is not refused" && exit 1; }
done
[ "$(ls "$work/from here" | sort | paste -s -d ,)" = "a stage,by a link,to here" ] || { echo "install: more was written" && exit 1; }
[ ! -e "a stage" ] || { echo "install: a stage in the repository" && exit 1; }
echo "install: spaces, relative folders, links and tools that know few options"
