#!/bin/sh
# Installs the program, the libraries for C, their header and the pages below a folder.
#
# Usage: install.sh PREFIX, as `install.sh /usr/local` or `install.sh "$HOME/.local"`.
set -eu
if [ $# -ne 1 ]; then
  echo "usage: install.sh PREFIX" >&2
  exit 2
fi
from=$(dirname "$0")
mkdir -p "$1"
for part in bin include lib share; do
  cp -R "$from/$part" "$1/"
done
