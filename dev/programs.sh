# What the launchers and dev/dist know of the programs. It is sourced; `top` is the top of the repository.

programs='nfs3canon nfs3mask nfs3streams'
shipped=$top/dist/MADE-OF

# Prints the libraries that a program uses, each after those that it uses itself.
libraries_of() {
  awk -F: -v own="$1" '
    /^[^#]/ { name[++count] = $1; uses[count] = $2 }
    END {
      wanted[own] = 1
      for (at = count; at > 0; at--)
        if (name[at] in wanted) {
          split(uses[at], used, " ")
          for (key in used) wanted[used[key]] = 1
        }
      for (at = 1; at <= count; at++)
        if (name[at] in wanted && name[at] != own) print name[at]
    }' "$top/crates.txt"
}

# Prints a checksum of the files that the programs are made of: names and contents, whatever their order and times.
sum_of_sources() {
  local name
  (
    cd "$top"
    for name in $programs; do
      libraries_of "$name"
      echo "$name"
    done | sort -u | while read -r name; do
      for part in src specs proofs; do
        [ ! -d "crates/$name/$part" ] || find "crates/$name/$part" -type f
      done
    done | LC_ALL=C sort | xargs -d '\n' sha256sum crates.txt
  ) | sha256sum | cut -d ' ' -f 1
}

# Prints what dist/ says of a word: `version`, `kit`, `sources`, or a program, whose checksum it has.
shipped_word() {
  sed -n "s/^$1 //p" "$shipped"
}

# Writes a program of dist/ to a file. Fails if it is not the one whose checksum is there.
unpack() {
  xz -dc "$top/dist/$1.xz" >"$2" && is_whole "$2" "$1"
}

# Unpacks a program of dist/ beside a path, and gives it that name once it is whole.
put_shipped() {
  local beside=$2.$$
  mkdir -p "$(dirname "$2")" || return 1
  if unpack "$1" "$beside" && chmod 755 "$beside" && mv "$beside" "$2"; then return; fi
  rm -f "$beside"
  return 1
}

# Whether a file is a program of dist/, by its checksum.
is_whole() {
  [ -f "$1" ] && [ "$(sha256sum <"$1" | cut -d ' ' -f 1)" = "$(shipped_word "$2")" ]
}

# Prints the version: that of the newest section of the change log.
version_here() {
  sed -nE 's/^## ([0-9]+\.[0-9]+\.[0-9]+).*/\1/p' "$top/CHANGELOG.md" | head -n 1
}
