#!/usr/bin/env bash
# Two programs that the compiler must turn down: entering through the standing model while its trial is open, and
# letting a trial go. Each is an edit of crosscheck's trial, tried on a copy of the crates.
set -euo pipefail
cd "$(dirname "$0")/.."

refused() { # name, the error that must come, old text, new text
  copy=$(mktemp -d)
  tar cf - --exclude=out crates crates.txt | tar xf - -C "$copy"
  OLD=$3 NEW=$4 python3 - "$copy/crates/crosscheck/src/histories.rt" <<'P'
import os, sys
path = sys.argv[1]
text = open(path).read()
assert text.count(os.environ["OLD"]) == 1, os.environ["OLD"]
open(path, "w").write(text.replace(os.environ["OLD"], os.environ["NEW"]))
P
  (cd "$copy/crates/crosscheck" && rt try) > "$copy/log" 2>&1 || true
  if ! grep -q "error\[$2\]" "$copy/log"; then
    echo "not refused: $1"
    tail -n 20 "$copy/log"
    exit 1
  fi
  echo "refused, as it must be: $1"
  rm -rf "$copy"
}

refused "entering through the standing model while its trial is open" borrow-e0382 \
  "let first = trial.enter" "let mut standing = model; let first = standing.enter"
refused "letting a trial go" linear-value-let-go \
  "if self.seed & 1 == 0 {" 'if first.is_some() { bail!("let go"); } if self.seed & 1 == 0 {'
