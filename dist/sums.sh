# Which crates a program is made of, and the sums by which a shipped program is known. Sourced by dist/run.sh, dist/update and
# dist/compare, which set `top`, the repository's folder.

# The words behind a name in the manifest, as `sources nxml 5f..`.
told_in_manifest() {
  sed -n "s/^$1 //p" "$top/dist/MANIFEST" 2>/dev/null
}

# Puts into `crates` the crates of the repository that a program is made of, each behind those that it stands on.
declare -A libraries=() seen=()
crates=()

find_crates() {
  local name rest
  libraries=() seen=() crates=()
  while IFS=: read -r name rest; do
    name=${name%% *}
    [[ -z $name || $name == '#'* ]] || libraries[$name]=${rest%%#*}
  done <"$top/crates.txt"
  add_crate "$1"
}

add_crate() {
  local library
  [[ -v libraries[$1] && ! -v seen[$1] ]] || return 0
  seen[$1]=yes
  for library in ${libraries[$1]}; do
    add_crate "$library"
  done
  crates+=("$1")
}

# The folders of what a program is made of, and the list of crates, from the repository's folder.
source_places() (
  cd "$top" >/dev/null || exit 1
  echo crates.txt
  for crate in "${crates[@]}"; do
    for part in src specs proofs; do
      [[ ! -d crates/$crate/$part ]] || echo "crates/$crate/$part"
    done
  done
)

# All files and folders of what a program is made of, each ended by a null character.
list_sources() (
  cd "$top" >/dev/null || exit 1
  top=.
  source_places | xargs -d '\n' -I{} find {} -print0
)

# One sum over all that a program is made of: the names and the bytes of its code, definitions and proofs.
sum_of_sources() (
  cd "$top" >/dev/null || exit 1
  top=.
  source_places | xargs -d '\n' -I{} find {} -type f \( -name '*.rt' -o -name '*.antt' -o -name crates.txt \) |
    LC_ALL=C sort | xargs -d '\n' sha256sum | sha256sum | cut -d' ' -f1
)

sum_of_file() {
  sha256sum "$1" | cut -d' ' -f1
}
