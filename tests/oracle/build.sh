#!/bin/sh
# Puts the Rust sources, unchanged, beside the glue and builds the oracle from both.
# usage: build.sh [-n] SOURCES [BUILD]
#   SOURCES  the folder that holds unplug/src
#   BUILD    the folder to build in, made if it is not there (default: a new temporary one)
#   -n       builds a third program, with Debian's num_enum 0.5 in place of the glue's
# Status 2: SOURCES, a tool or a package is not there; standard error says which.
set -eu
here=$(cd "$(dirname "$0")" && pwd)
packages="librust-arrayvec-dev librust-byte-slice-cast-dev librust-byteorder-dev librust-tracing-dev"
stop() {
  printf 'build.sh: %s\n' "$@" >&2
  exit 2
}

old=
if [ "${1:-}" = -n ]; then
  old=yes
  packages="$packages librust-num-enum-dev"
  shift
fi
[ -n "${1:-}" ] || stop "SOURCES is not given: the folder that holds unplug/src" "usage: build.sh [-n] SOURCES [BUILD]"
[ -e "$1" ] || stop "$1: no such folder"
[ -d "$1" ] || stop "$1 is not a folder"
[ -d "$1/unplug/src" ] || stop "$1: there is no unplug/src in it"
sources=$(cd "$1" && pwd)
set -- "${2:-}"
missing=
while read -r _ path; do
  [ -f "$sources/$path" ] || missing="$missing $path"
done < "$here/sources.sha256"
[ -z "$missing" ] || stop "$sources: missing in it:$missing"

# What builds it, by Debian's packages.
needs() {
  command -v "$1" > /dev/null || missing="$missing $2"
}
needs cargo cargo
needs rustc rustc
needs sha256sum coreutils
needs cmp diffutils
command -v dpkg > /dev/null || stop "dpkg is missing: the crates that the sources name are taken from Debian's packages"
for package in $packages; do
  dpkg -L "$package" > /dev/null 2>&1 || missing="$missing $package"
done
[ -z "$missing" ] || stop "packages are missing: apt-get install --no-install-recommends$missing"
build=${1:-$(mktemp -d)}

# The sources must be those of the list, to the byte; so must their copies.
(cd "$sources" && sha256sum --check --quiet "$here/sources.sha256" >&2) || stop "$sources: a file is not the one of tests/oracle/sources.sha256"
mkdir -p "$build"
build=$(cd "$build" && pwd)
cp -R "$here/glue/." "$build/"
while read -r _ path; do
  if [ -e "$here/glue/$path" ]; then
    echo "the glue has a file of its own at $path" >&2
    exit 1
  fi
  mkdir -p "$build/$(dirname "$path")"
  cmp -s "$sources/$path" "$build/$path" || cp -f "$sources/$path" "$build/$path"
  cmp "$sources/$path" "$build/$path"
done < "$here/sources.sha256"

# Cargo takes every other crate from the folder of the Debian packages and asks no server.
crates=$(dpkg -L librust-byteorder-dev | sed -n 's|/byteorder-[^/]*$||p' | head -n 1)
mkdir -p "$build/.cargo"
cat > "$build/.cargo/config.toml" <<EOF
[source.crates-io]
replace-with = "debian"

[source.debian]
directory = "$crates"
EOF

cd "$build"
cargo build --offline --release
cargo build --offline --profile checked
echo "$build/target/release/oracle"
echo "$build/target/checked/oracle"
if [ -n "$old" ]; then
  rm -rf num_enum-0.5
  mkdir num_enum-0.5
  cp -R Cargo.toml oracle unplug num_enum-0.5/
  cd num_enum-0.5
  sed -i 's|"num_enum", ||' Cargo.toml
  sed -i 's|^num_enum = .*|num_enum = "0.5"|' unplug/Cargo.toml
  cargo build --offline --release
  echo "$build/num_enum-0.5/target/release/oracle"
fi
