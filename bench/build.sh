# What the benchmarks' scripts share, to be read by them; $top is the top of the repository.

kit=$(dirname "$(rt doc)")
heap=$kit/c/liblibc_c.a # how a static library of the kit asks the program for memory

# The crates of a list that some of them stand on, and they themselves.
below() { # LIST CRATES
    awk -v wanted="$2" '
        /^[a-z]/ { name = $1; sub(/:$/, "", name); $1 = ""; uses[name] = $0 }
        END {
            count = split(wanted, todo, " ")
            for (at = 1; at <= count; at++) {
                if (!(todo[at] in uses) || todo[at] in seen) continue
                seen[todo[at]] = 1
                print todo[at]
                more = split(uses[todo[at]], lower, " ")
                for (next_one = 1; next_one <= more; next_one++) todo[++count] = lower[next_one]
            }
        }' "$1"
}

# Copies a crate: with the library that this checkout's own checks have made of it, so that it isn't proved again as long as its
# sources are those; else its sources without tests, which a toolchain that keeps what a gate or a build proved doesn't prove again.
copy() { # CRATE FOLDER
    mkdir -p "$2/crates/$1"
    for part in src specs proofs; do
        [ ! -e "$top/crates/$1/$part" ] || cp -a "$top/crates/$1/$part" "$2/crates/$1/"
    done
    if [ -e "$top/crates/$1/out/rlib/stamp" ]; then
        mkdir -p "$2/crates/$1/out"
        cp -al "$top/crates/$1/out/rlib" "$2/crates/$1/out/" 2> /dev/null || cp -a "$top/crates/$1/out/rlib" "$2/crates/$1/out/"
    else
        untested "$2/crates/$1"
    fi
}

# Takes the tests out of a crate's sources.
untested() { # FOLDER
    rm -rf "$1/src/tests" "$1/proofs/tests" "$1/src/tests.rt"
    for root in "$1"/src/lib.rt "$1"/src/main.rt; do
        [ ! -e "$root" ] || sed -i -z 's/\n#\[cfg(test)\]\nmod tests;\n/\n/; s/\n\n$/\n/' "$root"
    done
}

# Lays a repository out in a folder: these crates of this one and all that they stand on, and a line for another crate with
# its libraries.
lay() { # FOLDER CRATES LINE
    mkdir -p "$1/crates" "$1/.git"
    for crate in $(below "$top/crates.txt" "$2"); do
        copy "$crate" "$1"
        grep "^$crate:" "$top/crates.txt" >> "$1/crates.txt"
    done
    echo "$3" >> "$1/crates.txt"
    cp "$top/HANDLES" "$1/"
}

# Builds a crate of a folder as a static library, or says why not.
library() { # FOLDER CRATE
    (
        cd "$1/crates/$2"
        rt fmt > /dev/null
        rt lib > "$1/lib.log" 2>&1 < /dev/null && [ -e "out/lib$2.a" ]
    ) || { tail -20 "$1/lib.log"; exit 1; }
}

# Proves the search of $top and builds it as static libraries, libsearch_v2.a and libsearch_v3.a of a folder, with
# `kernel_search` and `kernel_search_v3` of bench/search/kernel.txt, by the function that the variable `searched` names (else `search`); with a
# further word only libsearch_v2_WORD.a, with `kernel_search_WORD`.
kernel() { # FOLDER LIBRARIES [WORD]
    lay "$1" leaf_search 'search_kernel staticlib: leaf_search othello_board othello_moves'
    mkdir -p "$1/crates/search_kernel/src" "$1/crates/search_kernel/specs"
    sed "s/leaf_search::search;/leaf_search::${searched:-search};/; s/= search(/= ${searched:-search}(/" "$here/kernel.txt" > "$1/crates/search_kernel/src/lib.rt"
    touch "$1/crates/search_kernel/specs/Lib.antt"
    library "$1" search_kernel
    made=$1/crates/search_kernel/out/libsearch_kernel.a
    if [ -n "${3:-}" ]; then
        objcopy --redefine-sym "kernel_search=kernel_search_$3" "$made" "$2/libsearch_v2_$3.a"
        return
    fi
    cp "$made" "$2/libsearch_v2.a"
    (cd "$1/crates/search_kernel" && rt lib --cpu x86-64-v3) > "$1/lib.log" 2>&1 < /dev/null || { tail -20 "$1/lib.log"; exit 1; }
    objcopy --redefine-sym kernel_search=kernel_search_v3 "$made" "$2/libsearch_v3.a"
}
