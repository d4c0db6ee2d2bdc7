# What the scripts here share; sourced, with the repository's root as the current folder.
prebuilt=prebuilt/x86_64-linux/libteakpool.a
built=target/staticlib/libteakpool.a

say() {
    printf 'teakpool: %s\n' "$*" >&2
}

give_up() {
    say "$*"
    exit 1
}

# The crates that the archive is made of, a line of crates.txt each: exports and all that it depends on. Fails where one of them has
# no line.
archive_crates() {
    awk '
        function take(name,    each, count, i) {
            if (name in taken) {
                return
            }
            if (!(name in needs)) {
                print "teakpool: crates.txt has no line for " name ", which the archive is made of" > "/dev/stderr"
                exit 1
            }
            taken[name] = 1
            print name ":" needs[name]
            count = split(needs[name], each, " ")
            for (i = 1; i <= count; i++) {
                take(each[i])
            }
        }
        { sub(/#.*/, "") }
        /:/ {
            name = substr($0, 1, index($0, ":") - 1)
            sub(/staticlib/, "", name)
            gsub(/[ \t]/, "", name)
            needs[name] = substr($0, index($0, ":") + 1)
        }
        END { take("exports") }' crates.txt
}

# One hash over those lines and over the names and contents of those crates' src/ and specs/. Times of files play no part. Fails where
# one of these folders is missing.
sources_hash() {
    local lines
    lines=$(archive_crates) || return 1
    {
        printf '%s\n' "$lines"
        printf '%s\n' "$lines" | cut -d : -f 1 | while IFS= read -r name; do
            find "crates/$name/src" "crates/$name/specs" -type f \( -name '*.rt' -o -name '*.antt' \) -print0 || exit 1
        done | LC_ALL=C sort -z | xargs -0 sha256sum
    } | sha256sum | cut -d ' ' -f 1
}

# The prebuilt archive is the one whose hash is recorded beside it, in a file of this line alone.
prebuilt_is_whole() {
    local recorded
    recorded=$(cat "$prebuilt.sha256") && [ -n "$recorded" ] &&
        [ "$recorded" = "$(cd "$(dirname "$prebuilt")" && sha256sum libteakpool.a)" ]
}

# The hash of the sources that the prebuilt archive was built from.
prebuilt_sources() {
    sed -n 's/^sources //p' "$(dirname "$prebuilt")/sources"
}
