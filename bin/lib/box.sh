# The archive of the library, and programs over it; sourced after lib/common.sh.
#     box_archive [LEVEL]       sets $archive: what COMETBANJO_LIB names, the archive or its folder; else lib/libcometbanjo.a of a release;
#                               else target/native/libcometbanjo.a, which bin/native builds where a source of it is newer. With a LEVEL of
#                               x86-64 the last two lie in a folder of that name there
#     box_runs LEVEL            cannot where the processor at hand lacks something that x86-64-v3, the LEVEL, needs
#     box_c FILE OUT [WORD ..]  compiles a file in C over it, with these words for the compiler
#     box_rlib [WORD ..]        the crate rust/ over it, as $work/libcometbanjo.rlib, likewise
#     box_linkrun_rs OUT        builds examples/linkrun.rs over that

box_archive() { # [LEVEL]
    local level=${1-}
    if [ -n "${COMETBANJO_LIB:-}" ]; then
        archive=$COMETBANJO_LIB
        if [ -d "$archive" ]; then archive=${archive%/}/libcometbanjo.a; fi
        if [ ! -s "$archive" ]; then cannot "COMETBANJO_LIB names $archive, and no archive is there"; fi
        archive=$(readlink -f "$archive")
        return
    fi
    archive=$root/lib/${level:+$level/}libcometbanjo.a
    if [ -s "$archive" ]; then return; fi
    archive=$root/target/native/${level:+$level/}libcometbanjo.a
    if [ ! -d "$root/crates/cometbanjo/src" ]; then
        cannot "no ${archive#"$root/"}, and no crate cometbanjo to build it from: set COMETBANJO_LIB to the archive"
    fi
    if [ -s "$archive" ] && none_newer "$archive" cometbanjo && none_newer "$archive" bursts; then return; fi
    "$here/native" ${level:+--level "$level"} cometbanjo || exit $?
}

box_runs() { # LEVEL
    local flag
    if [ "$(uname -m)" != x86_64 ]; then cannot "$1 is a level of x86-64, and this machine is $(uname -m)"; fi
    for flag in avx2 bmi1 bmi2 fma f16c abm movbe; do
        grep -qw "$flag" /proc/cpuinfo || cannot "this processor has no $flag (/proc/cpuinfo), and $1 needs it"
    done
}

box_c() { # FILE OUT [WORD ..]
    local file=$1 out=$2
    shift 2
    need cc
    cc -std=c11 -O2 -Wall -Wextra -I "$root/include" "$@" "$root/$file" "$archive" -o "$out" 2>"$work/cc" || {
        cat "$work/cc" >&2
        cannot "$file is not built"
    }
}

# cargo is not needed: the crate has no dependency.
box_rlib() { # [WORD ..]
    need rustc
    rustc -O "$@" --edition 2021 --crate-type rlib --crate-name cometbanjo "$root/rust/src/lib.rs" -o "$work/libcometbanjo.rlib" \
        -L native="${archive%/*}" -l static=cometbanjo 2>"$work/rustc" || {
        cat "$work/rustc" >&2
        cannot "rust/src/lib.rs is not built"
    }
}
box_linkrun_rs() { # OUT
    box_rlib
    rustc -O --edition 2021 "$root/examples/linkrun.rs" -o "$1" --extern cometbanjo="$work/libcometbanjo.rlib" 2>"$work/rustc" || {
        cat "$work/rustc" >&2
        cannot "examples/linkrun.rs is not built"
    }
}
