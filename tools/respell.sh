#!/usr/bin/env bash
# Gives the definitions and lemmas of the repository in FOLDER today's spelling, by the table names.tsv beside this script.
# It was run right after the kit's port.py, and stands here so that the step can be made again on the commit before that.
set -euo pipefail
here="$(cd "$(dirname "$0")" && pwd)"
cd "${1:?usage: respell.sh FOLDER}"
python3 /opt/rattle/port/notes/2026-11-18-names-are-in-snake-case/snake.py --table "$here/names.tsv" --skip-behind c,l,w,goal --only antt,rt crates
python3 /opt/rattle/port/notes/2026-11-18-names-are-in-snake-case/snake.py --table "$here/names.tsv" --only md README.md $(find docs -name '*.md' ! -name PORT.md)
for crate in crates/*/; do (cd "$crate" && rt fmt); done
