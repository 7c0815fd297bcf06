# version
# Says which papers these programs follow, and which commit this is where git can tell.
#
#     nolkisei version

[ $# -eq 0 ] || wrong_use
commit=$(git -C "$here" rev-parse --short HEAD 2>/dev/null)
echo "$version${commit:+ (commit $commit)}"
