# shellcheck shell=bash
# What the launchers of the programs share: ./tlx, ./tlcheck and ./tlvcd read this with `top` set to the repository's folder, and so do
# tools/install and tools/library.sh.
#
# Only a proved crate is built, so the first run of a program proves and builds it (tools/build); later runs start at once.
# A launcher has statuses beside the program's own 0 to 5: 66 if FILE can't be read, 69 if the toolchain `rt` is missing, 70
# if a crate could not be built.

# The name of a program, a status, and why it was not started.
fail() {
  echo "$1 (launcher): $3" >&2
  exit "$2"
}

# What is built, a program or the library, is up to date if no source is newer.
# shellcheck disable=SC2154  # top is the caller's
is_fresh() {
  [ -f "$1" ] && [ -z "$(find "$top"/crates/*/src "$top"/crates/*/specs "$top"/crates/*/proofs "$top/crates.txt" -type f -newer "$1" -print -quit)" ]
}

# What is answered without the program, so also before it is built: the name of the program, and its words.
answer_without() {
  case "${2-}" in
    --help | -h) exec cat "$top/docs/help/$1.txt" ;;
    --version | -V) exec cat "$top/docs/help/$1.version" ;;
  esac
}

# Proves and builds a program, unless it is up to date.
make_program() {
  is_fresh "$top/crates/$1/out/$1" && return
  command -v rt >/dev/null || fail "$1" 69 'the toolchain `rt` is not on this machine, and the program is not built yet'
  "$top/tools/build" "$1" || exit 70
  # a build that finds nothing to change leaves the file as old as it was
  touch "$top/crates/$1/out/$1"
}

# The same of the library of C: the archive of what is proved, and library/out/libtlx.a. That has the first one, library/tlx.c, and the kit's
# three functions over malloc, realloc and free.
make_library() {
  local proved=$top/crates/tl_c/out/libtl_c.a made=$top/library/out/libtlx.a
  if ! is_fresh "$proved"; then
    command -v rt >/dev/null || fail tlx 69 'the toolchain `rt` is not on this machine, and the library is not built yet'
    "$top/tools/build" tl_c || exit 70
    touch "$proved"
  fi
  [ -f "$made" ] && [ -z "$(find "$proved" "$top/library/tlx.c" "$top/include/tlx.h" -newer "$made" -print -quit)" ] && return
  make_archive "$proved" "$made" || fail tlx 70 'the archive of the library could not be made'
}

# A script of ar can't name every path, so the archive is made of fixed names.
make_archive() {
  local folder
  folder=$(mktemp -d)
  ${CC:-cc} -std=gnu11 -Wall -Wextra -Werror -O2 -fPIC -I"$top/include" -c "$top/library/tlx.c" -o "$folder/calls.o" &&
    cp "$1" "$folder/library.a" && cp "$(dirname "$(rt doc)")/c/liblibc_c.a" "$folder/kit.a" &&
    (cd "$folder" && printf '%s\n' 'CREATE libtlx.a' 'ADDMOD calls.o' 'ADDLIB library.a' 'ADDLIB kit.a' SAVE | ar -M) &&
    [ -s "$folder/libtlx.a" ] && mkdir -p "$(dirname "$2")" && mv -f "$folder/libtlx.a" "$2"
  local status=$?
  rm -rf "$folder"
  return "$status"
}

# Runs a program before any proof: the name of the program, and its words, in which files stand by their full paths. The toolchain
# compiles it with checks in place of proofs, each time anew, and ends a run after 600 seconds or 1 MiB of output.
try_program() {
  command -v rt >/dev/null || fail "$1" 69 'the toolchain `rt` is not on this machine'
  echo "$1 (launcher): nothing of this run is proved yet; ./$1 without --try proves the program and then runs it" >&2
  local said status
  said=$(mktemp)
  (cd "$top/crates/$1" && exec rt try --seconds 600 -- "${@:2}") 2>"$said"
  status=$?
  if ! grep -q '^run=ended ' "$said"; then
    cat "$said" >&2
    rm -f "$said"
    fail "$1" 70 'the program did not run to its end'
  fi
  # the last lines are the toolchain's own
  sed -E '/^(checked: ended|races: |run=ended) ?/d' "$said" >&2
  rm -f "$said"
  exit "$status"
}
