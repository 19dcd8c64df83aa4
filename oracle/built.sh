# For oracle/roots, roots32, f32only, sizes and records, which set top, the repository: what is proved, built into a library that another language can link. Wants rt on the path.
guide=$(rt doc)
kit=$(cd "$(dirname "$guide")" && pwd)

# Copies the repository's crates to FOLDER. What is proved there already comes along, and need not be proved again.
copied() { # FOLDER
    mkdir -p "$1"
    tar -C "$top" --exclude='crates/*/out/incremental' -cf - crates crates.txt | tar -C "$1" -xf -
}

# Proves the library probe of the repository FOLDER, and leaves FOLDER/probe to be linked.
built() { # FOLDER
    (cd "$1/crates/probe" && rt lib) >"$1/said" 2>&1 || { tail -n 20 "$1/said" >&2; exit 1; }
    mv "$1/crates/probe/out/libprobe.a" "$1/probe"
}

# The same, and leaves in FOLDER/text the LLVM module that the library is compiled from, as it stands before it is optimised. Libraries are those that probe names in crates.txt.
# The module is what the kit's clang is given: probe is compiled once more, with the kit's tools but for a clang that keeps it.
module() { # FOLDER LIBRARY..
    built "$1"
    at=$1
    shift
    mkdir -p "$at/tools/bin"
    for part in "$kit/toolchain"/* "$kit/toolchain/bin"/*; do
        [ -e "$at/tools/${part#"$kit/toolchain/"}" ] || ln -s "$part" "$at/tools/${part#"$kit/toolchain/"}"
    done
    rm "$at/tools/bin/clang"
    printf '#!/bin/sh\ncp module.bc "%s"\nexec "%s" "$@"\n' "$at/module.bc" "$kit/toolchain/bin/clang" >"$at/tools/bin/clang"
    chmod +x "$at/tools/bin/clang"
    for library; do
        shift
        set -- "$@" --extern "$library=$at/crates/$library/out/rlib/$library.rlib"
    done
    for rlib in "$at"/crates/*/out/rlib; do set -- "$@" -L "dependency=$rlib"; done
    (cd "$at/crates/probe" && "$kit/bin/rattle" build --crate-name probe src/lib.rt --crate-type staticlib --extern "std=$kit/rlibs/std.rlib" "$@" -L "dependency=$kit/rlibs" \
        --antt-project "$kit/rattle/logic/antt-project.json" --logic-built "$kit/logic_built" --incremental out/incremental --toolchain "$at/tools" -o "$at/probe") >"$at/said" 2>&1 || { tail -n 20 "$at/said" >&2; exit 1; }
    "$kit/toolchain/bin/clang" -S -emit-llvm -O0 -x ir "$at/module.bc" -o "$at/text" 2>"$at/said" || { cat "$at/said" >&2; exit 1; }
}
