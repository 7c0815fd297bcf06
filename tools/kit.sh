# For the commands and the tests: what the kit proves and builds, left where these look for it: a program at target/bin/PROGRAM, the
# library at target/staticlib/libnolkisei.a. What is set in here is the folder of the repository.

# place FROM TO: a copy of a file of the repository, as a whole.
place() {
    local from=$here/$1 to=$here/$2
    mkdir -p -- "${to%/*}" && cp -- "$from" "$to.$$" && mv -f -- "$to.$$" "$to" && return
    rm -f -- "$to.$$"
    return 1
}

# build_program PROGRAM: proves it and the crates that it needs. The kit runs what it has built, here on no input. Where nothing has
# changed since it was last proved, that takes two seconds.
build_program() {
    (cd -- "$here/crates/$1" && rt run </dev/null) && place "crates/$1/out/$1" "target/bin/$1"
}

# build_library: the same for the library, which keeps its date where it is the same as before.
build_library() {
    local made=crates/nolkisei/out/libnolkisei.a to=target/staticlib/libnolkisei.a
    (cd -- "$here/crates/nolkisei" && rt lib </dev/null) && { cmp -s -- "$here/$made" "$here/$to" || place "$made" "$to"; }
}

# take_programs: after an `rt ci` that passed, the programs that it proved and ran; no source was changed since.
take_programs() {
    local main name
    for main in "$here"/crates/*/src/main.rt; do
        name=${main%/src/main.rt} name=${name##*/}
        place "crates/$name/out/$name" "target/bin/$name" || return
    done
}

# have PROGRAM..: builds those that are not there.
have() {
    local name
    for name; do [ -x "$here/target/bin/$name" ] || build_program "$name" || return; done
}
