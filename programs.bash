# What the scripts here know of the programs: the files that are made of them, and the checksums of their sources.
# Sourced in the folder of the repository.
release=released/x86_64-linux
declare -gA libraries archives wanted

# Reads crates.txt: the libraries of each crate, and which crates are static libraries.
read_crates() {
    local name used
    while IFS=: read -r name used; do
        libraries[${name%% *}]=$used
        [[ $name != *' staticlib' ]] || archives[${name%% *}]=' staticlib'
    done < <(grep '^[a-z]' crates.txt)
}

# Adds a crate, and those that it depends on, to the crates wanted: none that only the tests of a program or of a library for C use.
want() {
    [[ -n ${libraries[$1]+x} && -z ${wanted[$1]+x} ]] || return 0
    wanted[$1]=crates/$1
    [[ ! -f crates/$1/src/main.rt && -z ${archives[$1]-} ]] || libraries[$1]=$(grep -rowhFf <(printf '%s\n' ${libraries[$1]}) "crates/$1" \
        --exclude-dir={tests,must-fail,audit,out} --exclude=tests.rt | sort -u) || :
    for library in ${libraries[$1]}; do want "$library"; done
}

# Prints the checksum of what a program is built from: the sources of its crates, but for tests, and what they depend on.
sum_of() {
    (
        wanted=() && want "$1"
        for name in "${!wanted[@]}"; do echo "$name:" ${libraries[$name]}; done
        find HANDLES "${wanted[@]}" \( -name out -o -name must-fail -o -name audit -o -name tests -o -name tests.rt \) -prune \
            -o -type f \( -name HANDLES -o -name '*.rt' -o -name '*.antt' \) -exec sha256sum {} +
    ) | LC_ALL=C sort | sha256sum | cut -d ' ' -f 1
}

# The programs that are released: those with a launcher, and the library for C.
released() {
    local main
    for main in crates/*/src/main.rt; do
        main=$(cut -d / -f 2 <<<"$main")
        [[ ! -x $main ]] || echo "$main"
    done
    for main in "${!archives[@]}"; do echo libstation.so; done
}

crate_of() { [[ $1 == libstation.so ]] && echo station_c || echo "$1"; }

# The checksums of a released program: that of its sources, or its own.
released_sources() { awk -v name="$1" '$1 == name { print $2 }' "$release/programs"; }
released_sum() { awk -v name="$1" '$1 == name { print $3 }' "$release/programs"; }

# Whether there is a released program, built from sources with this checksum, for this machine.
is_released() { [[ -f $release/programs && $(uname -m) == x86_64 && $(released_sources "$1") == "$2" ]]; }

# Whether out/ has this file, built from sources with this checksum; with a third argument the released file will do.
is_made() {
    local note=out/$1.sources built
    [[ -f out/$1 && -f $note && ! out/$1 -nt $note ]] || return 1
    built=$(<"$note")
    [[ $built == "$2" || -n ${3-} && $built == "$2 released" ]]
}

# Writes the first digits of the checksum of its sources into a program, where --version shows them.
stamp() { LC_ALL=C sed -i "s/(sources 0\{12\})/(sources ${2:0:12})/g" "$1"; }

# Builds a library for C in the folder of its sources, over the libraries as rt ci leaves them in a folder of crates: none of these is
# proved once more.
build_archive() { # NAME, both folders
    local kit library folder words=()
    kit=$(dirname "$(rt doc)")
    wanted=() && want "$1" && unset "wanted[$1]"
    for library in std ${libraries[$1]}; do
        [[ -n ${wanted[$library]-} ]] && folder=$3/$library/out/rlib || folder=$kit/rlibs
        words+=(--extern "$library=$folder/$library.rlib")
    done
    for library in "${!wanted[@]}"; do words+=(-L "dependency=$3/$library/out/rlib"); done
    cd "$2" && mkdir -p out && exec "$kit/bin/rattle" build --crate-name "$1" src/lib.rt "${words[@]}" -L "dependency=$kit/rlibs" \
        --links "$1=" --crate-type staticlib --antt-project "$kit/rattle/logic/antt-project.json" --logic-built "$kit/logic_built" \
        --toolchain "$kit/toolchain" -o "out/lib$1.a"
}

# Links the library for C from its archive, by the linker of the toolchain alone.
link_shared() {
    local kit
    kit=$(dirname "$(rt doc)")
    "$kit/toolchain/bin/ld.lld" -shared --soname libstation.so.1 --version-script bindings/station.map --strip-all -z now -z relro \
        --build-id=none --whole-archive "$1" --no-whole-archive "$kit/c/liblibc_c.a" "$kit/toolchain/lib/libc.so.6" -o "$2"
}
