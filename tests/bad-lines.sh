#!/bin/bash
# Runs scripts that end at a bad line: what was answered before it is on standard output, standard error tells
# the line and what was expected there, and the status is 1.
# usage: bash tests/bad-lines.sh [PROGRAM]   (without a program, crates/vimtrosh is built first)
set -u
cd "$(dirname "$0")/.." || exit 2
program=${1:-}
if [ -z "$program" ]; then
    (cd crates/vimtrosh && rt run < /dev/null) || exit 1
    program=crates/vimtrosh/out/vimtrosh
fi
work=$(mktemp -d) || exit 2
trap 'rm -rf "$work"' EXIT
passed=0
failed=0

# runs SCRIPT STATUS STDOUT STDERR [WORD..]: the program on a script, with words before the file's name
runs() {
    printf '%b' "$1" > "$work/script"
    printf '%b' "$3" > "$work/stdout"
    printf '%b' "$4" > "$work/stderr"
    "$program" "${@:5}" "$work/script" > "$work/out" 2> "$work/err"
    local status=$?
    if [ $status -eq "$2" ] && cmp -s "$work/out" "$work/stdout" && cmp -s "$work/err" "$work/stderr"; then
        passed=$((passed + 1))
    else
        failed=$((failed + 1))
        printf 'FAILED, status %s: %s\n' "$status" "$1"
        diff "$work/stdout" "$work/out"
        diff "$work/stderr" "$work/err"
    fi
}

# bad LINE WORDS STDOUT SCRIPT: the script ends at that line, where those words were expected
bad() {
    runs "$4" 1 "$3" "line $1: expected $2\n"
}

part='part 3 simplex 10 50\n'
point='enter 1\n'
none=''
order='the order of a field: 2, 3, 4 or 251'
kind='a kind of cells: simplex or cube'
number='a number from 0 to 18446744073709551615'
vertices='one to four vertex numbers'
first='a part before any other command'

# no command
bad 1 'a command' "$none" 'parts 2 cube 4 4\n'
bad 2 'a command' "$none" "${part}Enter 1\n"
bad 3 'a command' "$none" "# a comment\n\nenters 1 # not read\n${part}"
bad 4 'a command' 'cells 1 entries 1\n' "${part}${point}cells\nwhat\ncells\n"
bad 2 'ASCII text' "$none" "${part}enter 1 # \\0303\\0251\n"
bad 2 'ASCII text' "$none" "${part}\\0377\n"
# a part
bad 1 "$order" "$none" 'part\n'
bad 1 "$order" "$none" 'part 5 cube 4 4\n'
bad 1 "$order" "$none" 'part two cube 4 4\n'
bad 1 "$order" "$none" 'part -2 cube 4 4\n'
bad 1 "$kind" "$none" 'part 2\n'
bad 1 "$kind" "$none" 'part 2 square 4 4\n'
bad 1 "$kind" "$none" 'part 2 Cube 4 4\n'
bad 1 "$number" "$none" 'part 2 cube\n'
bad 1 "$number" "$none" 'part 2 cube 4\n'
bad 1 "$number" "$none" 'part 2 cube four 4\n'
bad 1 "$number" "$none" 'part 2 cube 4 18446744073709551616\n'
bad 1 'no more words' "$none" 'part 2 cube 4 4 4\n'
bad 2 'no second part' "$none" "${part}${part}"
bad 3 'no second part' "$none" "${part}open\n${part}"
bad 3 'a command' 'no 10 at 0\n' "part 2 cube 4097 4\n${part}what\n"
bad 3 'a command' 'no 10 at 0\n' "part 2 cube 0 4\n${part}what\n"
bad 3 'a command' 'no 11 at 0\n' "part 2 cube 4096 1048577\n${part}what\n"
# before any part
for command in 'enter 1' off open keep undo cells betti 'betti 0' counts 'cycle 0 0' 'buffer 4'; do
    bad 1 "$first" "$none" "$command\n${part}"
    bad 2 "$first" 'no 10 at 0\n' "part 2 cube 0 4\n$command\n"
done
# cells
bad 2 "$vertices" "$none" "${part}enter\n"
bad 2 "$vertices" "$none" "${part}enter 1 2 3 4 5\n"
bad 2 'a number from 0 to 65535' "$none" "${part}enter 65536\n"
bad 2 'a number from 0 to 65535' "$none" "${part}enter 1 b\n"
bad 2 'a number from 0 to 65535' "$none" "${part}enter +1\n"
bad 2 'a number from 0 to 65535' "$none" "${part}enter 1,2\n"
bad 2 'three doubled coordinates' "$none" 'part 2 cube 4 4\nenter 0 0\n'
bad 2 'three doubled coordinates' "$none" 'part 2 cube 4 4\nenter 0 0 0 0\n'
bad 2 'no more words' "$none" "${part}off 1\n"
# trials
bad 2 'an open trial' "$none" "${part}keep\n"
bad 2 'an open trial' "$none" "${part}undo\n"
bad 3 'no open trial' "$none" "${part}open\nopen\n"
bad 4 'an open trial' "$none" "${part}open\nkeep\nundo\n"
bad 5 'no open trial' 'cells 1 entries 1\n' "${part}open\n${point}cells\nopen\ncells\n"
# questions
bad 2 'no more words' "$none" "${part}cells 1\n"
bad 2 'no more words' "$none" "${part}counts 0\n"
bad 2 'a number from 0 to 255' "$none" "${part}betti 256\n"
bad 2 'no more words' "$none" "${part}betti 0 1\n"
bad 2 'a number from 0 to 255' "$none" "${part}cycle\n"
bad 2 "$number" "$none" "${part}cycle 0\n"
bad 2 'no more words' "$none" "${part}cycle 0 0 0\n"
bad 2 "$number" "$none" "${part}buffer\n"
bad 2 'no more words' "$none" "${part}buffer 1 2\n"
# a refusal is no bad line, and a trial may be open at the end
runs "${part}${point}${point}open\nenter 2" 0 'no 21 at 0\ndone accepted 4 refused 1\n' ''
runs "${part}enter 1 2\n" 0 'no 22 at 0\ndone accepted 1 refused 1\n' \
    'no 22: the facet of that number does not stand\n' --say
runs '' 0 'done accepted 0 refused 0\n' ''

echo "bad lines: $passed passed, $failed failed"
[ "$failed" -eq 0 ]
