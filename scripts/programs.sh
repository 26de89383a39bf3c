# What fedrun and fedrun-build know of the two programs: which crates each is made from, where it lies once it is
# built, and whether it was made from what stands here now. Both set top, the folder of this tree.

say() { echo "fedrun: $*" >&2; }

# About how long it takes to prove and build a program where nothing of it was proved before.
declare -A takes=([fedwhole]='ten to twenty minutes' [fedrun]='half an hour or more')
# The same for rt try, which proves nothing.
declare -A tries=([fedwhole]='about a minute' [fedrun]='a few minutes')

# The words by which fedrun-build is asked for a program, from where the caller stands.
build_words() {
  local script=$top/fedrun-build
  [ "$(pwd -P)" != "$top" ] || script=./fedrun-build
  [ "$1" = fedrun ] && echo "$script" || echo "$script whole"
}

# A program's crate and all that it stands on, lowest first, from a tree's crates.txt: a line each, as it stands there
# without its comment.
below() {
  local tree=$1 program=$2
  awk -F: -v top="$program" '
    function need(name, words, count, i) {
      if (!(name in uses) || wanted[name]++) return
      count = split(uses[name], words, " ")
      for (i = 1; i <= count; i++) need(words[i])
    }
    { sub(/#.*/, ""); sub(/[ \t]+$/, "") }
    NF { split($1, head, " "); names[++lines] = head[1]; uses[head[1]] = $2; said[head[1]] = $0 }
    END { need(top); for (i = 1; i <= lines; i++) if (wanted[names[i]]) print said[names[i]] }
  ' "$tree/crates.txt"
}

# The folders of a tree from which a program is made.
folders() {
  local tree=$1 program=$2 name part
  while IFS=': ' read -r name _; do
    for part in src specs proofs; do
      [ ! -d "$tree/crates/$name/$part" ] || echo "crates/$name/$part"
    done
  done < <(below "$tree" "$program")
}

# A checksum of all that a program is made from in a tree: each file of its crates with its name, their lines of
# crates.txt, and HANDLES.
contents() {
  local tree=$1 program=$2 parts
  mapfile -t parts < <(folders "$tree" "$program")
  {
    below "$tree" "$program"
    cat "$tree/HANDLES"
    (cd "$tree" && find "${parts[@]}" -type f -print0 | LC_ALL=C sort -z | xargs -0 sha256sum)
  } | sum
}

sum() { sha256sum "$@" | cut -d ' ' -f 1; }

# Notes beside a file that it was made from these contents. The note names the file's own checksum too, since others
# may put another file in its place.
note() {
  local file=$1 contents=$2
  echo "$contents $(sum "$file")" >"$file.made-from.new" && mv -f "$file.made-from.new" "$file.made-from"
}

# Prints the contents that a file was made from, where there is a note of this very file.
noted() {
  local file=$1 contents of
  [ -r "$file.made-from" ] && read -r contents of <"$file.made-from" && [ "$of" = "$(sum "$file")" ] && echo "$contents"
}

# Where a program lies once it is proved and built, by fedrun-build or by rt ci; and where it lies as rt try built it.
built() { echo "$top/crates/$1/out/$1"; }
tried() { echo "$top/crates/$1/out/$1.unproved"; }

# Whether a program stands that was proved and built from what stands here now. rt ci leaves no note of what it built:
# such a program is noted when it is found here for the first time.
is_current() {
  local program=$1 file here contents
  file=$(built "$program")
  [ -x "$file" ] || return 1
  here=$(contents "$top" "$program")
  if contents=$(noted "$file"); then
    [ "$contents" = "$here" ]
  else
    "$top/scripts/passed" "$program" </dev/null || return 1 # standard input is the program's own
    { note "$file" "$here"; } 2>/dev/null || true # a tree that can't be written is asked anew each time
  fi
}

# The same of what rt try built.
is_tried() {
  local file contents
  file=$(tried "$1")
  [ -x "$file" ] && contents=$(noted "$file") && [ "$contents" = "$(contents "$top" "$1")" ]
}

# Copies what a program is made from, and what rt ci runs it on, into an empty folder: a tree of its own, without the
# edits that the prover has to refuse and without the crates of tests.
copy_tree() {
  local program=$1 to=$2 name part
  mkdir "$to/crates"
  below "$top" "$program" >"$to/crates.txt"
  cp "$top/HANDLES" "$to/"
  while IFS=': ' read -r name _; do
    mkdir "$to/crates/$name"
    for part in src specs proofs args data stdin stdout status; do
      [ ! -e "$top/crates/$name/$part" ] || cp -r "$top/crates/$name/$part" "$to/crates/$name/"
    done
  done <"$to/crates.txt"
}

# Whether a program can be kept in this tree, and a file locked there while it is built; where not, says so, and what to
# do.
can_keep() {
  local program=$1 lock=$2 out=$top/crates/$1/out at
  mkdir -p "$out" 2>/dev/null && [ -w "$out" ] && { [ ! -e "$out/$lock" ] || [ -w "$out/$lock" ]; } && return
  for at in "$out/$lock" "$out" "$top/crates/$program"; do
    [ ! -e "$at" ] || break
  done
  say "$at can't be written, and is $(stat -c %U "$at")'s: copy the tree (cp -r $top FOLDER), and build there"
  return 1
}

# Puts a program that was made from such a copy where it is to lie, for all to run, with a note of the contents that the
# copy had: what changed here since isn't in it.
put() {
  local from=$1 to=$2 made_from=$3
  install -m 0755 "$from" "$to.new"
  mv -f "$to.new" "$to"
  note "$to" "$made_from"
}

# git on this tree, whoever's it is and wherever the caller stands.
in_git() { git -C "$top" --git-dir="$top/.git" --work-tree="$top" "$@"; }

# The commit that this tree is of, as far as git says.
commit() {
  local commit
  if commit=$(in_git describe --always --tags --abbrev=12 --dirty=', changed since' 2>/dev/null); then
    echo "fedrun $commit ($(in_git log -1 --format=%cs))"
  else
    echo 'fedrun, of no known commit'
  fi
}

# Writes into such a copy what the program made from it says of itself: the commit, and how it was made. The contents
# of a copy are those that it has before.
write_version() {
  local program=$1 copy=$2 how=$3 commit
  commit=$(commit)
  cat >"$copy/crates/$program/src/version.rt" <<END
/// Which commit it was built from.
pub const COMMIT: &str = "${commit//[\"\\]/}";

/// Whether it is proved, and by which kit.
pub const PROOF: &str = "$how";
END
}
