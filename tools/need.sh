# Sourced by .ci/run, examples/try.sh and tests/host.sh, and by what else needs a program of Debian's.

# need COMMAND PACKAGE: installs the Debian package that has the command where the command is missing; fails where it is missing still.
need() {
  command -v "$1" >/dev/null 2>&1 && return
  echo "installing $2 (for $1)"
  if [ -z "${updated:-}" ]; then
    apt-get update -q >/dev/null
    updated=yes
  fi
  DEBIAN_FRONTEND=noninteractive apt-get install -y -q "$2" >/dev/null
  hash -r
  command -v "$1" >/dev/null 2>&1 && return
  echo "cannot install $2 (for $1)"
  return 1
}

# need_rt: the Rattle kit is no Debian package.
need_rt() {
  command -v rt >/dev/null 2>&1 && return
  echo "rt is not on the PATH: install the Rattle kit (its command rt proves and builds the crates) and run this again"
  return 1
}
