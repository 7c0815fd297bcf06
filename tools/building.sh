# For the commands: proving and building programs with the kit, one run at a time, with what is done of how many. tools/sums.sh says
# when a program is built, tools/kit.sh how; the kit's own lines go to target/build.log.
. "$here/tools/sums.sh"
. "$here/tools/kit.sh"

# each PROGRAM..: builds one after the other, and says how that ended, and at which of them.
each() {
    local name
    for name; do build_program "$name" 2>&1 || { echo "ended $? $name" && return; }; done
    echo 'ended 0'
}

# done_below CRATE: counts the crates that it needs as done: the kit builds these first, and says nothing of one that was built before.
done_below() {
    local name crates sources
    sources "$1" || return
    for name in "${crates[@]:1}"; do done_of[$name]=yes; done
}

# next_crate: leaves in next the first crate by crates.txt, of all in crates, that is not done and needs no other that is not done.
next_crate() {
    local line name needed need
    next=''
    while IFS= read -r line || [ -n "$line" ]; do
        of_line "$line" && [ -z "${done_of[$name]:-}" ] || continue
        case " ${crates[*]} " in *" $name "*) ;; *) continue ;; esac
        for need in $needed; do
            case " ${crates[*]} " in *" $need "*) [ -n "${done_of[$need]:-}" ] || continue 2 ;; esac
        done
        next=$name
        return
    done <"$here/crates.txt"
}

# since START: the whole seconds since that microsecond.
since() {
    echo "$(((${EPOCHREALTIME/[.,]/} - $1) / 1000000))"
}

# follow: keeps the kit's lines in the log and says which crate of how many is done, and every 20 seconds, or whatever NOLKISEI_PAUSE
# says, how long it has been at work.
# Leaves in status how the kit ended and in faults what it did not prove.
follow() {
    local line='' part at='' next from began=$SECONDS count=${#crates[@]}
    local -A done_of=()
    status=2 faults=()
    while :; do
        IFS= read -r -t "${NOLKISEI_PAUSE:-20}" part
        case $? in
        0) line+=$part ;;
        1) break ;;
        *)
            line+=$part next=$at
            [ -n "$at" ] || next_crate
            [ -z "$next" ] || say "$((SECONDS - began)) s so far: ${#done_of[@]} of $count crates done, at work on $next"
            continue
            ;;
        esac
        { printf '%s\n' "$line" >&9; } 2>/dev/null
        case $line in
        'rt: chose --jobs '*) at=${line##* } from=${EPOCHREALTIME/[.,]/} && done_below "$at" ;;
        'logic=proved '*)
            [ -z "$at" ] || { done_of[$at]=yes && say "${#done_of[@]} of $count: $at proved ($(since "$from") s)"; }
            at=''
            ;;
        'rt: nothing has changed since the last proved build, by out/'*)
            at=${line##*by out/} at=${at%%.stamp*}
            done_below "$at" && done_of[$at]=yes
            at=''
            ;;
        'ended 0') status=0 ;;
        'ended '*)
            read -r _ status part <<<"$line"
            [ -z "$at" ] || faults+=("$at NOT PROVED (exit $status, $(since "$from") s)")
            faults+=("FAILED: $part")
            ;;
        esac
        line=''
    done
}

# all_crates PROGRAM..: leaves in crates those of all these programs, and in sources their folders.
all_crates() {
    local name all=()
    for name; do
        sources "$name" || fail "crates.txt does not tell which crates the $name needs"
        all+=("${crates[@]}")
    done
    mapfile -t crates < <(printf '%s\n' "${all[@]}" | sort -u)
    sources=(crates.txt "${crates[@]/#/crates/}")
}

# stale PROGRAM..: leaves in stale those that are not fresh.
stale() {
    local name
    stale=()
    for name; do fresh "$name" || stale+=("$name"); done
}

# failed NAMES: says why nothing was built: the disk, where that is it, and else what the kit did not prove.
failed() {
    local why='' fault filler
    printf -v filler '%01048576d' 0
    why=$(grep -m 1 -o -e 'No space left on device' -e 'Read-only file system' -e 'Disk quota exceeded' "$log" 2>/dev/null)
    [ -n "$why" ] || why=$(reason "$here/target/bin/.room.$$")
    [ -z "$why" ] || fail "$(unwritable "$here/target" "$why"), so the $1 could not be built"
    for fault in "${faults[@]}"; do say "$fault"; done
    typed "$log"
    fail "the $1 could not be built; $typed tells why"
}

# prove PROGRAM..: has the kit build programs that are not fresh. The sums from before the run are written beside them, and only if no
# source was touched meanwhile.
prove() {
    local name before names="$*"
    local -A sum_of=()
    names=${names// /, }
    for name; do
        sources "$name" && sum_of[$name]=$(sources_sum) || fail "the sources of the $name cannot all be read"
    done
    all_crates "$@"
    before=$(listing)
    { : >"$log"; } 2>/dev/null
    for name; do rm -f -- "$here/target/bin/$name".{sums,listing}; done 2>/dev/null
    follow < <(each "$@")
    [ "$status" -eq 0 ] || failed "$names"
    for name; do [ -x "$here/target/bin/$name" ] || failed "$name"; done
    if [ "$(listing)" != "$before" ]; then
        say 'a source was changed meanwhile, so this is done again'
        return
    fi
    for name; do replace "$here/target/bin/$name.sums" "$(both_sums "$name" "${sum_of[$name]}")"; done
}

# build PROGRAM..: builds those that are not fresh, and waits where another run is building.
build() {
    local tool why log=$here/target/build.log
    for tool in find sort xargs sha256sum flock; do
        type -P "$tool" >/dev/null || fail "$tool is not on this machine; without it nobody can tell whether the $1 was built from its sources as they are"
    done
    type -P rt >/dev/null || fail "the Rattle kit (rt) is needed to build the $1, which is missing or was not built from its sources as they are"
    { mkdir -p -- "$here/target/bin" && exec 9>>"$log" && printf '' >&9; } 2>/dev/null
    why=$(reason "$here/target/bin/.room.$$")
    [ -z "$why" ] && { : >&9; } 2>/dev/null || fail "$(unwritable "$here/target" "$why"), so the $1 cannot be built"
    if ! flock -n 9; then
        say 'another run is building; waiting for it'
        flock 9 || fail "the file $log cannot be locked"
    fi
    stale "$@"
    [ ${#stale[@]} -eq 0 ] || say "building ${stale[*]}, some minutes, once (the kit's own words go to $log)"
    for _ in 1 2 3 4 5; do
        [ ${#stale[@]} -ne 0 ] || break
        prove "${stale[@]}"
        stale "${stale[@]}"
    done
    [ ${#stale[@]} -eq 0 ] || fail 'the sources change while they are built; ask again when they are at rest'
    exec 9>&-
}
