# For tests/launcher: when a program is fresh, what is built and said where it is not, and what a full disk or a folder that cannot be
# written to is called.
: >"$room/asked"

# built WHAT YES: whether asking for a sheet ran the kit, once; the sheet comes in either case.
built() {
    : >"$room/asked"
    ask "$copy/nolkisei" plan 4 1 1 -m.net
    same "$1: the sheet" "$sheet" "$output"
    same "$1: built" "$2" "$(cat "$room/asked")"
    : >"$room/asked"
    ask "$copy/nolkisei" plan 4 1 1 -m.net
    same "$1: no second time" "$sheet" "$output$words$(cat "$room/asked")"
}

built 'nothing has changed' ''
echo more >>"$copy/crates/other/src/lib.rt" && echo more >>"$copy/crates/keeper/src/lib.rt" && echo more >"$copy/crates/lower/must-fail/one.edit"
mkdir -p "$copy/crates/lower/out" && echo made >"$copy/crates/lower/out/lower.rlib"
built 'what is not of the planner' ''
touch -d '1 minute' "$copy/crates/lower/src/lib.rt" && touch "$copy/crates.txt"
built 'newer dates alone' ''
mv "$copy" "$room/moved" && cp -R "$room/moved" "$copy" && rm -rf "$room/moved"
built 'a copy of the whole folder' ''
for source in crates/lower/src/lib.rt crates/upper/src/lib.rt crates/planner/src/lib.rt; do
    echo "fn more" >>"$copy/$source" && touch -d '-1 year' "$copy/$source" "$copy/$(dirname "$source")"
    built "an edit of $source with an older date" 'run planner'
done
sed -i 's/fn/FN/' "$copy/crates/lower/src/lib.rt" && touch -r "$copy/crates/upper/src/lib.rt" "$copy/crates/lower/src/lib.rt"
built 'an edit that leaves the size, in an archive of older dates' 'run planner'
mkdir -p "$copy/crates/upper/proofs" && echo 'proof' >"$copy/crates/upper/proofs/New.antt" && touch -d '-1 year' "$copy/crates/upper/proofs/New.antt"
built 'a new file' 'run planner'
mkdir "$copy/crates/upper/proofs/out" && echo 'proof' >"$copy/crates/upper/proofs/out/Answers.antt"
built 'a new file of a function that is called out' 'run planner'
rm -r "$copy/crates/upper/proofs"
built 'a file less' 'run planner'
echo '# a line more' >>"$copy/crates.txt"
built 'crates.txt' 'run planner'
printf 'x' >>"$copy/target/bin/planner"
built 'another program in its place' 'run planner'
rm -f "$copy/target/bin/planner.sums" "$copy/target/bin/planner.listing"
built 'no sums beside it' 'run planner'
rm "$copy/target/bin/planner"
built 'no program' 'run planner'
# A listing counts only once its files have been at rest; until then the sums are compared each time.
sleep 3.1
built 'at rest' ''
same 'the listing is kept' yes "$([ -s "$copy/target/bin/planner.listing" ] && echo yes || echo no)"
# Its first line names the sources. One that names none, or one source less, leaves it to the sums.
sed -i 1d "$copy/target/bin/planner.listing"
built 'a listing that names no sources' ''
same 'the listing names them again' 'crates.txt crates/planner crates/upper crates/lower' "$(head -n 1 "$copy/target/bin/planner.listing")"
echo 'fn less' >>"$copy/crates/lower/src/lib.rt" && sed -i '1s, crates/lower,,' "$copy/target/bin/planner.listing"
built 'a listing that names one source less, and an edit of that' 'run planner'
sleep 3.1
built 'at rest again' ''
echo 'fn last' >>"$copy/crates/lower/src/lib.rt" && touch -d '-1 year' "$copy/crates/lower/src/lib.rt"
built 'an edit after that, with an older date' 'run planner'

# What is said, and where an edit comes while it builds.
# Half a second more than what is due, since the whole seconds are counted from when the first line is read.
rm "$copy/target/bin/planner" && echo 3.5 >"$room/takes/upper" && echo 12.5 >"$room/takes/planner"
ask "$copy/nolkisei" plan 4 1 1 -m.net
rm "$room"/takes/*
same 'what is said of a build' "nolkisei: building planner, some minutes, once (the kit's own words go to $copy/target/build.log)
nolkisei: 2 of 3: upper proved (3 s)
nolkisei: 3 of 3: planner proved (12 s)" "$words"
same 'the log' 6 "$(wc -l <"$copy/target/build.log")"
rm "$copy/target/bin/planner" && touch "$room/edit" && : >"$room/asked"
ask "$copy/nolkisei" plan 4 1 1 -m.net
same 'an edit while it builds: the sheet' "$sheet" "$output"
says 'an edit while it builds' 0 'nolkisei: a source was changed meanwhile, so this is done again'
same 'an edit while it builds: built twice' $'run planner\nrun planner' "$(cat "$room/asked")"

rm -f "$copy/target/bin/planner" "$room/asked"
(cd "$work" && "$copy/nolkisei" plan 4 1 1 -m.net >"$room/first" 2>/dev/null; echo "status $?" >>"$room/first") &
ask "$copy/nolkisei" plan 4 1 1 -m.net
wait $!
same 'two runs at once, of a missing program' "$sheet$sheet" "$output$(cat "$room/first")"
same 'one of them builds' 'run planner' "$(cat "$room/asked")"
for command in 'verify -m.net mesh.sheet:verifier' 'import mesh.col:importer' 'sure -m.net:surer' 'keep 1 -m.net:keeper' 'reports 5 mesh.reports:reporter' \
    'stands relay-4-old.report relay-4-new.report:stander'; do
    cp "$copy"/networks/{mesh.sheet,mesh.col,mesh.reports,relay-4-old.report,relay-4-new.report} "$work"
    rm -f "$copy/target/bin/${command#*:}" "$room/asked"
    # shellcheck disable=SC2086
    ask "$copy/nolkisei" ${command%:*}
    same "${command%:*}, of a missing program" 0 "${output##*status }"
    same "${command%:*} builds its own" "run ${command#*:}" "$(cat "$room/asked")"
done

# What does not let it build: a proof that fails, a full disk, a folder that may not be written to, no kit, no tool to tell by.
: >"$room/bad" && echo 2 >"$room/takes/planner"
echo 'fn bad' >>"$copy/crates/upper/src/lib.rt"
for again in first second; do
    ask "$copy/nolkisei" plan 4 1 1 -m.net
    same "a build that fails, the $again time: no sheet" 'status 2' "$output"
    says "a build that fails, the $again time" 2 $'nolkisei: planner NOT PROVED (exit 1, 2 s)\nnolkisei: FAILED: planner\nnolkisei: the planner could not be built; '"$copy/target/build.log tells why"
done
rm "$room/takes/planner"
echo 'cp: error writing: No space left on device' >"$room/bad"
ask "$copy/nolkisei" plan 4 1 1 -m.net
says 'a full disk' 2 'nolkisei: the disk is full: nothing more can be written to '
same 'a full disk: not as a proof that fails' '' "$(grep -e PROVED -e FAILED "$room/words")"
echo 'cannot open: Read-only file system' >"$room/bad"
ask "$copy/nolkisei" plan 4 1 1 -m.net
says 'a read-only disk' 2 'is on a disk that is read-only, so the planner could not be built'
if mkdir "$room/small" && mount -t tmpfs -o size=16k,mode=755 none "$room/small" 2>/dev/null; then
    mv "$copy/target" "$room/target" && ln -s "$room/small" "$copy/target" && : >"$room/bad"
    { head -c 100000 /dev/zero >"$room/small/fill"; } 2>/dev/null
    ask "$copy/nolkisei" plan 4 1 1 -m.net
    says 'a disk that is full before it builds' 2 'nolkisei: the disk is full: nothing more can be written to '
    rm "$room/small/fill" && mount -o remount,ro "$room/small"
    ask "$copy/nolkisei" plan 4 1 1 -m.net
    says 'a disk that is read-only before it builds' 2 'is on a disk that is read-only, so the planner cannot be built'
    umount "$room/small" && rm "$copy/target" && mv "$room/target" "$copy/target"
fi
chmod a-w "$copy/target" "$copy/target/bin" "$copy/target/build.log"
ask "${other[@]}" "$copy/nolkisei" plan 4 1 1 -m.net
says 'a folder that may not be written to' 2 'nolkisei: you may not write to the folder '
same 'a folder that may not be written to: one line' 1 "$(wc -l <"$room/words")"
chmod u+w "$copy/target" "$copy/target/bin" "$copy/target/build.log"
rm "$room/bad"
mkdir "$room/few" && for tool in bash env cat od find cmp sort xargs sha256sum flock mkdir mv rm grep; do ln -s "$(type -P $tool)" "$room/few/$tool"; done
ask env PATH="$room/few" "$copy/nolkisei" plan 4 1 1 -m.net
says 'no kit' 2 'nolkisei: the Rattle kit (rt) is needed to build the planner, which is missing or was not built from its sources as they are'
built 'the edit that was bad' 'run planner'
ask env PATH="$room/few" "$copy/nolkisei" plan 4 1 1 -m.net
same 'no awk and no kit, of a fresh program' "$sheet" "$output$words"
ask env PATH="$room/few" "$copy/nolkisei" plan 4 4 1 -m.net
same 'no awk: the refused line' $'(refused 11 0)\nstatus 1' "$output"
says 'no awk' 1 "nolkisei: refused (11): -m.net: docs/DESK.md, 'Refusals', tells what that means"
chmod a-w "$copy/target/bin"
ask "${other[@]}" "$copy/nolkisei" plan 4 1 1 -m.net
same 'a fresh program in a folder that may not be written to' "$sheet" "$output$words"
chmod u+w "$copy/target/bin"
echo 'fn edited' >>"$copy/crates/upper/src/lib.rt"
ask env PATH="$room/few" "$copy/nolkisei" plan 4 1 1 -m.net
same 'no awk, of a program that is not fresh: no sheet' 'status 2' "$output"
rm "$room/few/find"
ask env PATH="$room/few" "$copy/nolkisei" plan 4 1 1 -m.net
says 'no tool to tell by' 2 'nolkisei: find is not on this machine; without it nobody can tell whether the planner was built from its sources as they are'
built 'once more' 'run planner'

# Programs that do not do their part.
for part in 'exit 3: could not be run to its end' 'echo "(sheet (from 4) (to 1) (k 1))": not whole' ': : gave no answer' 'echo "(sheet (from 4) (to 1) (k 2))"; echo "(end)": not whole'; do
    instead planner "${part%: *}" "nolkisei: -m.net: " "$copy/nolkisei" plan 4 1 1 -m.net
    says "${part%: *}" 2 "${part##*: }"
done
restore planner
