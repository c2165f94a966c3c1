# The module that rattle hands to the kit's clang, for another machine; sourced after lib/proof.sh by bin/native, cross, page and speed.
#     keeping_kit                    $rt, a kit like rt's but for its clang, which keeps in $work/seen each module that it is handed
#     module_for TARGET MODULE TEXT  such a module as text, with TARGET's layout and name for x86-64's; $clang is the kit's compiler;
#                                    where TARGET is x86-64 itself its functions still touch each page of a deep stack, as rt has it
#     joined_to NAME                 the libraries whose objects stand in NAME's archive too: those that crates/NAME/joined names
#     join_to NAME FOLDER ARCHIVE    puts their objects, out of their archives in FOLDER, into NAME's

# rt finds by its own place its kit and what checks keep beside it, so its text is copied, and the rest linked.
keeping_kit() {
    local folder part
    clang=$kit/toolchain/bin/clang
    work_folder
    mkdir -p "$work/kit/bin" "$work/kit/toolchain/bin" "$work/seen"
    cp "$kit/bin/rt" "$kit/bin/rtlib.py" "$work/kit/bin"
    cat >"$work/kit/toolchain/bin/clang" <<END
#!/bin/sh
for word in "\$@"; do case \$word in *.ll | *.bc) cp "\$word" "$work/seen/" ;; esac; done
exec "$clang" "\$@"
END
    chmod +x "$work/kit/toolchain/bin/clang"
    for folder in . bin toolchain toolchain/bin; do
        for part in "$kit/$folder"/*; do
            if [ ! -e "$work/kit/$folder/${part##*/}" ]; then ln -s "$part" "$work/kit/$folder/"; fi
        done
    done
    if [ -d "${kit%/*}/rattle-kept" ]; then ln -s "${kit%/*}/rattle-kept" "$work/rattle-kept"; fi
    rt=$work/kit/bin/rt
}

module_for() { # TARGET MODULE TEXT
    local target=$1 text=$3 layout
    : >"$work/empty.c"
    "$clang" --target="$target" -S -emit-llvm -x c "$work/empty.c" -o "$work/empty.ll"
    layout=$(grep '^target datalayout' "$work/empty.ll")
    "$clang" --target=x86_64-unknown-linux-gnu -x ir "$2" -S -emit-llvm -O0 -Xclang -disable-llvm-passes -o "$text"
    sed -i -E "s|^target datalayout = .*|$layout|; s|^target triple = .*|target triple = \"$target\"|" "$text"
    sed -i -E 's/"(target-cpu|target-features|tune-cpu)"="[^"]*"//g' "$text"
    case $target in x86_64-*) ;; *) sed -i -E 's/"probe-stack"="[^"]*"//g' "$text" ;; esac
    # In the kit's code an address is a number of 64 bits, and a pointer's slot has 8 bytes: so it stays where a pointer has fewer.
    sed -i -E 's/= ptrtoaddr (ptr [^ ]+) to i64/= ptrtoint \1 to i64/; s/= alloca ptr, align 8/= alloca [8 x i8], align 8/' "$text"
}

joined_to() { if [ -f "$root/crates/$1/joined" ]; then cat "$root/crates/$1/joined"; fi; } # NAME

# A library that is compiled by itself is its own module: the compiler sees only what it has.
join_to() { # NAME FOLDER ARCHIVE
    local other object ar=$kit/toolchain/bin/llvm-ar
    work_folder
    for other in $(joined_to "$1"); do
        rm -rf "$work/joined"
        mkdir "$work/joined"
        (cd "$work/joined" && "$ar" x "$2/lib$other.a")
        for object in "$work/joined"/*; do mv "$object" "$work/joined/$other-${object##*/}"; done
        "$ar" rs "$3" "$work/joined"/* 2>/dev/null
    done
}
