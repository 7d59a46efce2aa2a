#!/bin/sh
# Puts the library for C and the command line where compilers and shells find them, or takes them away again.
set -eu
top=$(cd "$(dirname "$0")" && pwd)
prefix=${PREFIX:-/usr/local}
root=${DESTDIR:-}$prefix
archive=$top/target/staticlib/libdepot.a
command=${COMMAND:-$top/host/target/release/depot}

usage() {
  cat <<'END'
usage: ./install.sh [install|uninstall]

Installs what './depot' has made: run './depot --version' before it. It builds nothing, and needs no root where PREFIX is your own.

  bin/depot                                  the command line
  lib/libdepot.a                             the library, for x86-64
  lib/pkgconfig/depot.pc                     its flags: cc $(pkg-config --cflags depot) .. $(pkg-config --libs depot)
  include/depot.h, depot_card.h, depot_text.h
  share/man/man1/depot.1
  share/bash-completion/completions/depot
  share/zsh/site-functions/_depot
  share/fish/vendor_completions.d/depot.fish

'uninstall' removes these files, and no folder. In the environment:

  PREFIX    the folder below which they go (/usr/local)
  DESTDIR   put before PREFIX where a package is made; no file names it
  COMMAND   the command line to install (host/target/release/depot)
END
}

fail() {
  echo "install.sh: $1" >&2
  exit 2
}

version() {
  sed -n 's/^#define DEPOT_VERSION "\(.*\)"$/\1/p' "$top/include/depot.h"
}

pkg_config() {
  cat <<END
prefix=$prefix
includedir=\${prefix}/include
libdir=\${prefix}/lib

Name: depot
Description: Charging planner, share desk and plan runner for bus depots
Version: $(version)
Cflags: -I\${includedir}
Libs: -L\${libdir} -ldepot
END
}

# every DO: calls DO for each file, with its mode, its place below PREFIX and the command that gives its bytes
every() {
  "$1" 755 bin/depot cat "$command"
  "$1" 644 lib/libdepot.a cat "$archive"
  "$1" 644 lib/pkgconfig/depot.pc pkg_config
  for header in depot.h depot_card.h depot_text.h; do
    "$1" 644 "include/$header" cat "$top/include/$header"
  done
  "$1" 644 share/man/man1/depot.1 "$command" help --man
  "$1" 644 share/bash-completion/completions/depot "$command" help --complete bash
  "$1" 644 share/zsh/site-functions/_depot "$command" help --complete zsh
  "$1" 644 share/fish/vendor_completions.d/depot.fish "$command" help --complete fish
}

put() {
  mode=$1 file=$root/$2
  shift 2
  mkdir -p "$(dirname "$file")"
  if ! { "$@" >"$file.new" && chmod "$mode" "$file.new" && mv -f "$file.new" "$file"; }; then
    rm -f "$file.new"
    fail "$file cannot be written"
  fi
  echo "$file"
}

remove() {
  if [ -f "$root/$2" ]; then
    rm -f "$root/$2"
    echo "removed $root/$2"
  fi
}

# what is there belongs together
check() {
  for file in "$archive" "$command"; do
    [ -f "$file" ] || fail "$file is missing: './depot --version' makes it"
  done
  library=$("$command" --version | sed -n 's/^library //p')
  [ "$library" = "$(version)" ] || fail "the command line has library $library, and the header is $(version): './depot --version' mends it"
}

[ $# -le 1 ] || fail "one word at the most; --help shows which"
case $prefix in /*) ;; *) fail "PREFIX is '$prefix'; it must begin with /" ;; esac
case ${1:-install} in
  install)
    check
    every put
    ;;
  uninstall) every remove ;;
  --help | -h) usage ;;
  *) fail "there is no '$1'; --help shows what there is" ;;
esac
