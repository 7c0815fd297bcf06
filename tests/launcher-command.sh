# For tests/launcher: the commands and their help, folders, links and names, standard input, and what cannot be read or written.

# Help and version come before anything is built.
for arguments in help -h --help 'plan -h' 'plan --help' 'plan 4 1 2 -h' 'help verify' 'sure --version' version --version; do
    # shellcheck disable=SC2086
    ask "$copy/nolkisei" $arguments
    same "$arguments: the exit status" 0 "${output##*status }"
    same "$arguments: words" '' "$words"
    case $arguments in
    *version) due='Nolkisei 8: document 01 with #101 to #108 of document 02' ;;
    plan*) due='nolkisei plan FROM TO K FILE' ;;
    'help verify') due='nolkisei verify NETWORK SHEET' ;;
    *) due='  nolkisei keep K FILE          Prints which links of the network of FILE are worth keeping for K routes, link by link.' ;;
    esac
    case $output in *"$due"*) same "$arguments" '' '' ;; *) same "$arguments" "$due" "$output" ;; esac
done
same 'nothing was built for help' no "$([ -e "$room/asked" ] && echo yes || echo no)"
ask "$copy/nolkisei"
says 'no command' 2 "nolkisei: no command was given; the commands are plan keep verify import sure reports stands build help version ($copy/nolkisei help tells more)"
ask "$copy/nolkisei" plot
says 'another command' 2 'nolkisei: there is no command plot; the commands are plan keep'
ask "$copy/nolkisei" help plot
says 'help for another command' 2 'nolkisei: there is no command plot'
for arguments in plan 'plan 4 1' 'plan 4 1 2 a b' keep 'keep 4 1 2 a.net' 'build all' 'version 2'; do
    # shellcheck disable=SC2086
    ask "$copy/nolkisei" $arguments
    says "the arguments '$arguments'" 2 "nolkisei: usage: nolkisei ${arguments%% *}"
done
ask "$copy/nolkisei" plan
same 'what tells more' "nolkisei: usage: nolkisei plan FROM TO K FILE ($copy/nolkisei help plan tells more)" "$words"

# All programs ahead, and none a second time.
echo 12 >"$room/takes/planner"
ask env NOLKISEI_PAUSE=0.05 "$copy/nolkisei" build
rm "$room/takes/planner"
same 'build' 'status 0' "$output"
same 'build, one run of the kit each' "$(printf 'run %s\n' planner keeper verifier importer surer reporter stander)" "$(cat "$room/asked")"
says 'build, what is done' 0 'nolkisei: 3 of 9: planner proved (12 s)'
says 'build, how long' 0 'nolkisei: 0 s so far: 0 of 9 crates done, at work on lower'
says 'build, its end' 0 'nolkisei: all 7 programs are built from the sources as they are'
rm "$room/asked"
ask "$copy/nolkisei" build
same 'build, when all is built' $'nolkisei: all 7 programs are built from the sources as they are\nstatus 0' "$words"$'\n'"$output"

# Folders, links and names.
cp "$mesh_file" "$work/-m.net" && cp "$mesh_file" "$work/-" && cp "$mesh_file" "$work/two words" && ln -s "$copy/nolkisei" "$work/link"
for name in -m.net ./- 'two words' ../copy/networks/mesh.net "$mesh_file"; do
    ask "$copy/nolkisei" plan 4 1 1 "$name"
    same "the file '$name'" "$sheet" "$output$words"
done
ask ./link plan 4 1 1 -m.net
same 'through a symbolic link' "$sheet" "$output$words"
ask ../copy/nolkisei plan 4 1 1 -m.net
same 'from another folder' "$sheet" "$output$words"
CDPATH=/ ask env PATH="$copy:$PATH" nolkisei plan 4 1 1 -m.net
same 'by its name alone' "$sheet" "$output$words"
mkdir "$room/linked" && ln -s "$copy/nolkisei" "$room/linked/nolkisei"
ask env PATH="$room/linked:$PATH" nolkisei plan 4 1 1 -m.net
same 'through a link on the PATH' "$sheet" "$output$words"
ask "$copy/nolkisei" keep 2 "$copy/networks/square.net"
same 'a list' "$list" "$output$words"
mv "$copy" "$room/two words" && copy="$room/two words"
ask "$copy/nolkisei" plan 4 1 1 -m.net
same 'a folder with a space in its name, moved' "$sheet" "$output$words"
mv "$copy" "$room/copy" && copy=$room/copy

# What is suggested can be typed where the person is: the command as it was called, a name with a space in quotes.
suggested=' plan 4 1 2 '"'two words'"' (docs/DESK.md'
ask "$copy/nolkisei" plan 4 1 9 'two words'
says 'a suggestion, by the whole path' 1 "the greatest K with a sheet is 2: $copy/nolkisei$suggested"
ask env PATH="$room/linked:$PATH" nolkisei plan 4 1 9 'two words'
says 'a suggestion, on the PATH' 1 "is 2: nolkisei$suggested"
ask ../copy/nolkisei plan 4 1 9 -m.net
says 'a suggestion, from another folder, for a name that begins with -' 1 'is 2: ../copy/nolkisei plan 4 1 2 ./-m.net (docs/DESK.md'
ask bash -c "$(sed -n 's/.*is 2: \(.*\) (docs.*/\1/p' "$room/words")"
same 'what was suggested works' '(sheet (from 4) (to 1) (k 2))' "${output%%$'\n'*}"
long=$work/$(printf 'x%.0s' {1..80}).net
cp "$copy/networks/square.net" "$long"
ask "$copy/nolkisei" plan 0 2 40 "$long"
says 'a long name, cut in front' 1 "nolkisei: refused (9): ...${long: -57}: K is 40"

# Standard input and pipes are kept once, so their words are as good as those of a file.
spoilt_text='(net (relays 5) (links 2))\n(link 0 1) (link 0 2)\n(end)\n'
spoilt_words=$', line 2, column 11: two links in a line; each link has a line of its own\n    (link 0 1) (link 0 2)\n              ^\nnolkisei: '
for way in '- <-m.net' '/dev/stdin <-m.net' '<(cat ./-m.net)'; do
    ask bash -c "'$copy/nolkisei' plan 4 1 1 $way"
    same "a file by $way" "$sheet" "$output$words"
done
ask bash -c "cat ./-m.net | '$copy/nolkisei' plan 4 1 1 -"
same 'a file through a pipe' "$sheet" "$output$words"
ask bash -c "{ read -r _; '$copy/nolkisei' plan 4 1 1 -; } < <(echo; cat ./-m.net)"
same 'what is left of standard input' "$sheet" "$output$words"
{ echo 'a line in front' && cat "$mesh_file"; } >"$work/b.net"
ask bash -c "{ read -r _; '$copy/nolkisei' plan 4 1 1 -; } <b.net"
same 'what is left of a file' "$sheet" "$output$words"
ask bash -c "printf '$spoilt_text' | '$copy/nolkisei' plan 4 1 1 -"
says 'words about a pipe' 1 "nolkisei: refused (2): standard input${spoilt_words}standard input, line 2: due there: a line (link A B)"
ask bash -c "'$copy/nolkisei' plan 4 1 1 <(printf '$spoilt_text')"
says 'words about another command' 1 "$spoilt_words"
ask bash -c "'$copy/nolkisei' plan 4 1 1 - <&-"
says 'a closed standard input' 2 'nolkisei: standard input is closed, so there is nothing to read'
ask bash -c "'$copy/nolkisei' verify - - <-m.net"
says 'standard input for both' 2 'nolkisei: standard input can be one of the two files, not both'

# What is no network file, and what cannot be written.
ask "$copy/nolkisei" plan 4 1 2 none.net
says 'a missing file' 2 'nolkisei: there is no file none.net'
ask "$copy/nolkisei" keep 4 .
says 'a folder' 2 'nolkisei: . is a folder, not a network file'
for command in 'plan 4 1 2' 'keep 1' sure; do
    # shellcheck disable=SC2086
    ask "$copy/nolkisei" $command /proc/self/mem
    says "$command, a file that breaks off" 2 'nolkisei: /proc/self/mem cannot be read to its end'
done
: >"$work/shut.net" && chmod 0 "$work/shut.net"
other=()
[ "$(id -u)" -ne 0 ] || other=(setpriv --reuid=65534 --regid=65534 --clear-groups)
ask "${other[@]}" "$copy/nolkisei" plan 4 1 2 shut.net
says 'a file that may not be read' 2 'nolkisei: the file shut.net may not be read by you'
ask bash -c "'$copy/nolkisei' plan 4 1 1 -m.net >/dev/full"
says 'nowhere to write' 2 'nolkisei: -m.net: the answer could not be written to standard output'
ask bash -c "'$copy/nolkisei' plan 4 1 1 -m.net >&-"
says 'a closed standard output' 2 'nolkisei: standard output is closed'
ask env TMPDIR=/nowhere bash -c "'$copy/nolkisei' plan 4 1 1 - <-m.net"
says 'nowhere to keep standard input' 2 'nolkisei: nothing can be written to /nowhere (No such file or directory), where standard input is to be kept'
for command in 'plan 4 1 1 -m.net' 'plan 9 9 9 -m.net' 'keep 1 -m.net' 'sure -m.net'; do
    # shellcheck disable=SC2086
    ask "$copy/nolkisei" $command
    due=$output
    ask bash -c "'$copy/nolkisei' $command 2>&-"
    same "$command, with a closed standard error" "$due" "$output"
done

# Output that goes to the file that is read.
cp "$mesh_file" "$work/b.net"
for way in '>>b.net' '1<>b.net'; do
    ask bash -c "'$copy/nolkisei' plan 4 1 1 b.net $way"
    says "output by $way to the file that is read" 2 'nolkisei: standard output goes to b.net, the file that is to be read; nothing was written. Name another file after >'
    same "the file after $way" "$(cat "$mesh_file")" "$(cat "$work/b.net")"
done
ask bash -c "'$copy/nolkisei' plan 4 1 1 - <b.net >>b.net"
says 'output to the file of standard input' 2 'nolkisei: standard output goes to standard input, the file that is to be read'
ask bash -c "'$copy/nolkisei' plan 4 1 1 b.net >b.net"
says 'output by > to the file that is read' 2 'nolkisei: standard output goes to b.net, the file that is to be read, and > has emptied it before this command began; name another file after >'
