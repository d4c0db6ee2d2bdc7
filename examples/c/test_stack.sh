#!/usr/bin/env bash
# Measures the stack that each exported function takes in the archive's machine code, and holds it against what the header states. A
# number that is missing is no pass; the second half tries what must not pass.
set -euo pipefail
cd "$(dirname "$0")/../.."

archive=$(prebuilt/archive)
work=$(mktemp -d)
trap 'rm -rf "$work"' EXIT

nm "$archive" | sed -n 's/^.* T \(teakpool_.*\)$/\1/p' | sort >"$work/exported"
# The functions that are lent priors, which come with a floor.
lent_priors() { # HEADER
    sed -n '/^uint32_t teakpool_[a-z_]*(/,/;$/p' "$1" | tr -d '\n' | tr ';' '\n' |
        sed -n 's/^uint32_t \(teakpool_[a-z_]*\)(.*int32_t floor.*$/\1/p'
}
within() { # NAME HEADER MEASURED
    local stated taken
    stated=$(sed -n "s/^#define TEAKPOOL_$1 \\([0-9]*\\)u\$/\\1/p" "$2")
    taken=$(sort -n "$3" | sed -n '$s/^\([0-9]*\) .*$/\1/p')
    [[ $stated =~ ^[0-9]+$ ]] || { echo "stack: the header states no number for TEAKPOOL_$1" && return 1; }
    [[ $taken =~ ^[0-9]+$ ]] || { echo "stack: no number was measured" && return 1; }
    [ "$taken" -le "$stated" ] || { echo "stack: a call can take $taken bytes, and TEAKPOOL_$1 is $stated" && return 1; }
}
stack_holds() { # HEADER MEASURED
    sed -n 's/^[0-9][0-9]* \(teakpool_[a-z_]*\)$/\1/p' "$2" | sort | diff "$work/exported" - ||
        { echo "stack: not every function was measured" && return 1; }
    lent_priors "$1" >"$work/lent"
    grep ' teakpool_add_paths$' "$2" >"$work/add_paths"
    grep -v ' teakpool_add_paths$' "$2" >"$work/others"
    grep -vwFf "$work/lent" "$work/others" >"$work/without"
    within STACK_ADD_PATHS "$1" "$work/add_paths" && within STACK "$1" "$work/others" && within STACK_WITHOUT_PRIORS "$1" "$work/without"
}
objdump -dr --no-show-raw-insn "$archive" >"$work/code"
awk -f examples/c/stack.awk "$work/code" >"$work/stack"
sort -n "$work/stack"
stack_holds include/teakpool.h "$work/stack"

not_noticed() { # WHAT
    echo "stack: $1 is not noticed"
    exit 1
}
for change in '/ teakpool_stats$/d' 's/^[0-9]* teakpool_stats$/ teakpool_stats/' 's/^[0-9]* //' \
    's/^[0-9]* teakpool_train$/17409 teakpool_train/' 's/^[0-9]* teakpool_add_path$/1025 teakpool_add_path/' \
    's/^[0-9]* teakpool_add_paths$/102401 teakpool_add_paths/' 's/^[0-9]* teakpool_tidy$/1025 teakpool_tidy/' d; do
    sed "$change" "$work/stack" >"$work/changed"
    ! stack_holds include/teakpool.h "$work/changed" >"$work/told" || not_noticed "'$change' in what is measured"
done
for change in '/define TEAKPOOL_STACK /d' 's/STACK 17408u/STACK 16000u/' 's/STACK 17408u/STACK u/' '/STACK_WITHOUT_PRIORS 1024u/d' \
    's/PRIORS 1024u/PRIORS 400u/' 's/int32_t floor/int32_t lowest/' '/STACK_ADD_PATHS /d' \
    's/ADD_PATHS 102400u/ADD_PATHS 98336u/'; do
    sed "$change" include/teakpool.h >"$work/changed"
    ! stack_holds "$work/changed" "$work/stack" >"$work/told" || not_noticed "'$change' in the header"
done

# What stack.awk does not understand it does not measure: no function, a stack pointer set in another way, calls by a pointer, calls
# whose function is not told, a function that calls itself, and a loop that takes pages otherwise than it knows.
one='0000000000000000 <teakpool_one>:'
pages="$one\n   0:\tmov    %rsp,%r11\n   3:\tsub    \$0x18000,%r11\n   a:\tsub    \$0x1000,%rsp\n  11:\tmovq   \$0x0,(%rsp)\n"
pages="$pages  19:\tcmp    %r11,%rsp\n  1c:\tjne    a <teakpool_one+0xa>"
for code in '' "$one\n   0:\tmov    %rax,%rsp" "$one\n   0:\tcall   *%rax" "$one\n   0:\tcall   5 <teakpool_one+0x5>\n   5:\tret" \
    "$one\n   0:\tjmp    *%rax" "$one\n   0:\tcall   5\n\t\t1: R_X86_64_PLT32\tteakpool_one-0x4" "${pages/0x18000/0x18010}" \
    "${pages/0x18000/0x0000}" "${pages/0x1000,/0x2000,}" "${pages/0x1000,/0x900,}" "${pages/mov    /lea    }" "${pages/jne    a/jne    3}" "${pages/jne/je}"; do
    ! printf '%b\n' "$code" | awk -f examples/c/stack.awk >"$work/told" 2>&1 || not_noticed "'$code'"
done
expected="$((8 + 8 + 32 + 8 + 16 + 128)) teakpool_one"
measured=$(printf '%b\n' "$one\n   0:\tpush   %rbx\n   1:\tsub    \$0x20,%rsp\n   5:\tcall   9\n\t\t6: R_X86_64_PLT32\ttwo-0x4" \
    '0000000000000000 <two>:\n   0:\tsub    $0x10,%rsp' | awk -f examples/c/stack.awk)
[ "$measured" = "$expected" ] || { echo "stack: '$measured' is measured, and not '$expected'" && exit 1; }
expected="$((8 + 0x18000 + 0xa8 + 128)) teakpool_one"
for steps in "$pages" "${pages/0x1000,/0xc00,}"; do
    measured=$(printf '%b\n' "$steps\n  1e:\tsub    \$0xa8,%rsp" | awk -f examples/c/stack.awk)
    [ "$measured" = "$expected" ] || { echo "stack: '$measured' is measured, and not '$expected'" && exit 1; }
done
echo "stack: no call takes more than the header states"
