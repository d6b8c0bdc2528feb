#!/usr/bin/env bash
# The counts of the parts in examples/, which each script asks for on its last line.
set -euo pipefail
cd "$(dirname "$0")/.."
program=$1

counts() { # part, its counts
  found=$("$program" "examples/$1" | grep '^pieces' | tail -n 1)
  if [ "$found" != "$2" ]; then
    echo "examples/$1: $found, not $2"
    exit 1
  fi
  echo "examples/$1: $found"
}

counts sealed-box.txt "pieces 1 channels 0 voids 1"
counts drained-box.txt "pieces 1 channels 0 voids 0"
counts manifold.txt "pieces 1 channels 2 voids 0"
