# For the scripts beside it, from the repository's folder: the proved library as libnolkisei.a, and where cargo finds it.
here=. && . tools/kit.sh
build_library
export NOLKISEI_LIBRARY="$PWD/target/staticlib" CARGO_TARGET_DIR="${CARGO_TARGET_DIR:-$PWD/target/independent}"
