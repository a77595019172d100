#!/bin/sh
# Lists the lines of src/ where a place of one of the points of docs/DESIGN-PASS.md may stand, and how many they are, at a
# commit. Which of them are places is said there.
#
#     tools/places.sh COMMIT          how many lines, point by point
#     tools/places.sh COMMIT POINT    the lines of one point
set -eu
commit=${1:?a commit}
files='crates/*/src/*.rt'

found() {
    git grep -nE "$1" "$commit" -- "$files" | sed "s/^$commit://" | grep -vE ':[0-9]+: *//' || true
}

lines() {
    case $1 in
        1) found '^ *(pub(\(crate\))? )?enum |\bbool\b|-> \(|-> (u8|u16)\b|nothing_read\(\)|as_name' ;;
        2) found '^ *(pub(\(crate\))? )?(fn|struct|enum|const) ' ;;
        3) found "(^|[ ':])(while|for|loop)\b.*\{\$|enumerate\(\)" | grep -vE '\bimpl\b' ;;
        4) found '^ *impl.* for |fn [a-z_]*(copy|equal|name|word|number|layer|code|letter|text|hex|readable|nothing|digit|yes)[a-z_]*[(<]| as (u8|u16|u32|u64|usize)\b' ;;
        5) found '^ *requires|(reply|wide|narrow): &(mut )?\[u8\],|^ *(in_rows: bool|heap: Global),|\b(heap: Global|in_rows: bool), |account: Account' ;;
        6) found '(place|at|used|length|end|start|taken|stored|number): usize|let mut (place|at|used|length|end|start|taken|stored|number)\b|; 8\]|rows\[|\.insert\(' ;;
        7) found '\bfn\(|\bdyn |\bFn(Mut|Once)?\(|if !?in_rows|(match|if) account\b' ;;
        8) git ls-tree -r --name-only "$commit" | grep -E 'proofs/.*\.antt$' ;;
    esac
}

if [ $# -gt 1 ]; then
    lines "$2"
else
    for point in 1 2 3 4 5 6 7 8; do
        echo "$point $(lines $point | wc -l)"
    done
fi
