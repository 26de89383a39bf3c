# How fedrun-build makes a Debian package of the program that stands here, once that says of which commit it is.

# Whether this tree can be packed; where not, says why.
can_pack() {
  command -v dpkg-deb >/dev/null || { say 'there is no dpkg-deb to make a package with'; return 1; }
  in_git rev-parse --verify --quiet HEAD >/dev/null 2>&1 ||
    { say "a package is of a commit, and git knows of none in $top"; return 1; }
}

# Whether the program that stands here says that it was proved of this tree's commit. rt ci by itself builds one that
# doesn't, and one that was built before another commit has its name.
says_commit() {
  [[ "$("$(built fedrun)" --version)" == "$(commit), proved with "* ]]
}

# The version of a package of this tree: that of a later commit is later.
package_version() {
  local changed=''
  [[ "$(commit)" != *', changed since ('* ]] || changed=+changed
  echo "0~$(TZ=UTC in_git log -1 --abbrev=12 --date=format-local:%Y%m%d.%H%M%S --format=%cd.%h)$changed"
}

# Puts what a package has into an empty folder, as it lies in a system. What the program says by itself isn't written
# anywhere else.
fill() {
  local to=$1 program name
  program=$(built fedrun)
  install -D -m 0755 "$program" "$to/usr/bin/fedrun"
  cd "$to/usr"
  mkdir -p share/man/man1 share/bash-completion/completions share/zsh/vendor-completions \
    share/fish/vendor_completions.d share/doc/lovuminash
  "$program" man | gzip -9n >share/man/man1/fedrun.1.gz
  "$program" completions bash >share/bash-completion/completions/fedrun
  "$program" completions zsh >share/zsh/vendor-completions/_fedrun
  "$program" completions fish >share/fish/vendor_completions.d/fedrun.fish
  in_git ls-files -z -- examples | xargs -0 -I '{}' install -D -m 0644 "$top/{}" 'share/doc/lovuminash/{}'
  for name in LICENSE LICENSE.txt LICENSE.md COPYING; do
    [ ! -f "$top/$name" ] || install -m 0644 "$top/$name" share/doc/lovuminash/copyright
  done
}

# The C library that the program needs: of which version at least, its own names of functions say.
needs() {
  local version
  version=$(grep -a -o 'GLIBC_2\.[0-9.]*[0-9]' "$(built fedrun)" | sort -uV | tail -1)
  echo "libc6 (>= ${version#GLIBC_})"
}

# How many KiB a folder takes in a system, as packages say it.
kib_of() {
  find "$1" \( -type f -printf '%s\n' -o -printf '1\n' \) | awk '{ kib += int(($1 + 1023) / 1024) } END { print kib }'
}

# What is told of a package that has a folder's files.
control() {
  local folder=$1
  cat <<END
Package: lovuminash
Version: $(package_version)
Architecture: amd64
Maintainer: $(in_git log -1 --format='%cn <%ce>')
Installed-Size: $(kib_of "$folder/usr")
Depends: $(needs)
Section: misc
Priority: optional
Description: deterministic distributed programs, run by proved code
 fedrun runs a program that is made of several parts, which work side by side
 and send each other messages, in threads or on several machines. Whenever it
 prints the results of a run, they are those of the same program run step by
 step in one place: this is proved of its code.
 .
 Of itself it says:
 $("$(built fedrun)" --version)
 .
 Each function of the $(below "$top" fedrun | wc -l) crates that it is made from passed the merge gate of
 this kit before it was built.
END
}

# Makes the package, and prints where it lies. All in it is of the commit's time, and belongs to root.
pack() (
  umask 022
  room=$(mktemp -d)
  trap 'rm -rf "$room"' EXIT
  mkdir -p "$room/all/DEBIAN"
  (fill "$room/all")
  control "$room/all" >"$room/all/DEBIAN/control"
  (cd "$room/all" && find usr -type f -print0 | LC_ALL=C sort -z | xargs -0 md5sum) >"$room/all/DEBIAN/md5sums"
  SOURCE_DATE_EPOCH=$(in_git log -1 --format=%ct)
  export SOURCE_DATE_EPOCH
  find "$room/all" -exec touch -h -d "@$SOURCE_DATE_EPOCH" {} +
  dpkg-deb --root-owner-group -Zgzip -z9 --build "$room/all" "$room/deb" >/dev/null
  file=$(dirname "$(built fedrun)")/lovuminash_$(package_version)_amd64.deb
  install -m 0644 "$room/deb" "$file.new"
  mv "$file.new" "$file"
  echo "$file"
)
