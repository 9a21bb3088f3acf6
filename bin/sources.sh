# What a program is built from, by crates.txt. Read by other scripts, at the top of the repository.

# crates_of NAME: the crates of this repository that NAME stands on, lowest first, and then NAME
crates_of() {
  awk -v name="$1" '
    /^#/ || !/:/ { next }
    { key = $1; sub(/:.*/, "", key); sub(/^[^:]*:/, ""); below[key] = $0 }
    function visit(crate,   parts, count, i) {
      if (!(crate in below) || crate in seen) return
      seen[crate] = 1
      count = split(below[crate], parts, " ")
      for (i = 1; i <= count; i++) visit(parts[i])
      print crate
    }
    END { visit(name) }' crates.txt
}

# below_of NAME: the crates of this repository that NAME names
below_of() {
  awk -v name="$1" '
    /^#/ || !/:/ { next }
    { key = $1; sub(/:.*/, "", key); sub(/^[^:]*:/, ""); below[key] = $0 }
    END { count = split(below[name], parts, " "); for (i = 1; i <= count; i++) if (parts[i] in below) print parts[i] }' crates.txt
}

# sources_of NAME: the files that NAME is compiled from, by name. What is proved of them, in specs/ and proofs/, changes no byte of the program.
sources_of() {
  local crate
  for crate in $(crates_of "$1"); do find "crates/$crate/src" -name '*.rt'; done | LC_ALL=C sort
}

# sums_of NAME: the checksums of these files
sums_of() { sources_of "$1" | xargs b2sum --length=256; }
