# Runs a proved program in the caller's folder, with the caller's words and exit status. Sourced by nxml and nxml-check, which set
# `top`, the repository's folder, `program`, the crate, `name`, by which it is called, and `words`, which come before the caller's.
#
# That is the program in dist/, which the gate built, as long as the sources are those that it was built of. Where they
# aren't, on another kind of machine, and where NXML_PROVE is set, the program is proved and built here first.
set -u

# The status where there is no program to run; the program's own end at 5.
readonly NOT_BUILT=70

readonly shipped=$top/dist/$program built=$top/crates/$program/out/$program
# Remember that the shipped program is that of these sources, and where they stand, each half of them. They are newer than all of them.
readonly told=$top/dist/.told-$program
readonly halves=("$told-aa" "$told-ab")

# Prints one of the files and folders in a list that are newer than it, or gone.
print_changed() {
  cd "$top" >/dev/null || exit
  LC_ALL=C exec find -files0-from "$1" -prune -newer "$1" -print -quit 2>&1
}

# Whether it was told before that the shipped program is that of the sources, and nothing changed since. All files and folders
# are listed, so that no folder has to be read: where a file is new or gone, its folder has changed.
is_known() {
  [[ -f ${halves[0]} && -f ${halves[1]} && -x $shipped ]] || return 1
  local changed half places
  # Both halves at once, since there are thousands of files to ask.
  changed=$(print_changed "dist/${halves[0]##*/}" & print_changed "dist/${halves[1]##*/}")
  if [[ $changed == *files0-from* ]]; then
    # Before its version 4.9 find takes no list from a file.
    changed=
    for half in "${halves[@]}"; do
      mapfile -d '' -t places <"$half"
      changed+=$(cd "$top" >/dev/null && find "${places[@]}" -prune -newer "$half" -print -quit 2>&1)
    done
  fi
  [[ -z $changed ]]
}

# Whether the shipped program is that of the sources, and runs here. Where it is, that is remembered.
is_that_of_sources() {
  [[ $OSTYPE == linux* && $HOSTTYPE == x86_64 && -x $shipped ]] || return 1
  local beside=$told.$$-
  # Made before the sources are read, so that what changes meanwhile is newer.
  { list_sources; printf '%s\0' "dist/$program" dist/MANIFEST; } 2>/dev/null | split -t '\0' -n r/2 - "$beside" 2>/dev/null
  if [[ $(sum_of_file "$shipped") == "$(told_in_manifest "program $program")" && $(sum_of_sources) == "$(told_in_manifest "sources $program")" ]]; then
    # Without words it writes how it is called, and ends with 2.
    "$shipped" >/dev/null 2>&1
    if [[ $? == 2 ]]; then
      # Where nothing can be written here, it is asked again each time.
      { mv "${beside}aa" "${halves[0]}" && mv "${beside}ab" "${halves[1]}"; } 2>/dev/null || rm -f "$beside"a[ab]
      return 0
    fi
  fi
  rm -f "$beside"a[ab]
  return 1
}

# Whether the program that was built here is that of the sources.
is_fresh() {
  local places
  [[ -x $built ]] || return 1
  mapfile -t places < <(source_places)
  [[ -z $(cd "$top" >/dev/null && find "${places[@]}" -newer "crates/$program/out/$program" -print -quit 2>&1) ]]
}

# Proves and builds a crate, and tells what was said of it where that fails.
build_crate() {
  local command=lib log
  log=$(mktemp) || exit $NOT_BUILT
  # The command that builds the program runs it once, without words: it writes its usage, and ends with 2.
  [[ $1 == "$program" ]] && command=run
  (cd "$top/crates/$1" >/dev/null && rt "$command") </dev/null >"$log" 2>&1
  local status=$?
  if [[ $1 == "$program" ]]; then
    [[ -x $built ]]
    status=$?
  fi
  [[ $status == 0 ]] || cat "$log" >&2
  rm -f "$log"
  return $status
}

build() {
  local number=0 count=${#crates[@]} crate
  if ! command -v rt >/dev/null; then
    echo "$name: the program in dist/ isn't that of these sources, or this is no x86-64 Linux; to prove and build it, the kit's rt has to be on the path" >&2
    exit $NOT_BUILT
  fi
  # What was built before doesn't stand for what is there now.
  rm -f "$built"
  echo "$name: proving and building the program, which is $count crates and takes an hour or more the first time" >&2
  for crate in "${crates[@]}"; do
    number=$((number + 1))
    echo "$name: proving $crate, $((count - number)) left after it" >&2
    if ! build_crate "$crate"; then
      echo "$name: $crate could not be built" >&2
      exit $NOT_BUILT
    fi
  done
  touch "$built"
}

if [[ -z ${NXML_PROVE:-} ]] && is_known; then
  exec "$shipped" ${words[@]+"${words[@]}"} "$@"
fi
source "$top/dist/sums.sh"
find_crates "$program"
if [[ -z ${NXML_PROVE:-} ]] && ! is_fresh && is_that_of_sources; then
  exec "$shipped" ${words[@]+"${words[@]}"} "$@"
fi
is_fresh || build
exec "$built" ${words[@]+"${words[@]}"} "$@"
