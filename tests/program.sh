#!/usr/bin/env bash
# Tries the built program on files, links, devices and arguments that no test inside a crate has.
#   tests/program.sh [PROGRAM]    without it crates/txs/out/txs, which the gate and ./txs --build make
# Its last line is 'N passed, M failed'.
set -uo pipefail

here="$(readlink -f "$(dirname "${BASH_SOURCE[0]}")/..")"
program="$(readlink -f "${1:-$here/crates/txs/out/txs}")"
top="$(mktemp -d)"
trap 'rm -rf "$top"' EXIT
cd "$top" || exit 1
passed=0
failed=0
[ -x "$program" ] || { echo "no program at $program"; echo "0 passed, 1 failed"; exit 1; }

# Counts a test: its name, what came, what is wanted.
is() {
  if [ "$2" = "$3" ]; then
    passed=$((passed + 1))
  else
    failed=$((failed + 1))
    printf 'FAILED %s\n  came:   %s\n  wanted: %s\n' "$1" "$2" "$3"
  fi
}

# The status of a command, behind its standard output and its standard error.
answer() {
  local out
  out="$("$program" "$@" 2>errors </dev/null)"
  local status=$?
  printf '%s|%s|%s' "$out" "$(cat errors)" "$status"
}

script='(future (println 1))'
printf '%s' "$script" >a.clj
covers='|error: the file of --out is the script itself|2'

# ---- arguments
is "an argument that isn't UTF-8" "$(answer run $'\xff')" '|error: invalid UTF-8 was detected in one or more arguments|2'
is "a name that isn't UTF-8 behind --out" "$(answer build a.clj --out $'\xff')" '|error: invalid UTF-8 was detected in one or more arguments|2'

# ---- the file of --out
is "code to a new file" "$(answer build a.clj --out new.bin)" '||0'
is "the file is the code" "$(answer run --code new.bin)" '1||0'
is "nothing is left beside it" "$(ls)" "$(printf 'a.clj\nerrors\nnew.bin')"
printf 'old' >old.bin
is "code over an old file" "$(answer build a.clj --out old.bin)" '||0'
is "the old file is the code" "$(cmp new.bin old.bin && echo same)" 'same'
is "code over its own script" "$(answer build a.clj --out a.clj)" "$covers"
is "code over its own script by another name" "$(answer build a.clj --out ./a.clj)" "$covers"
ln -s a.clj link.clj
is "code over its own script by a link" "$(answer build a.clj --out link.clj)" "$covers"
is "code over the script that is standard input" "$("$program" build --out a.clj <a.clj 2>&1; echo "$?")" "$(printf 'error: the file of --out is the script itself\n2')"
is "the script is as it was" "$(cat a.clj)" "$script"
ln -s linked.bin link.bin
printf 'old' >linked.bin
is "code through a link" "$(answer build a.clj --out link.bin)" '||0'
is "the link is a link" "$(readlink link.bin)" 'linked.bin'
is "what it names is the code" "$(cmp new.bin linked.bin && echo same)" 'same'
is "code to a pipe" "$("$program" build a.clj --out /dev/stdout | cmp - new.bin && echo same)" 'same'
is "code to no device" "$(answer build a.clj --out /dev/full)" '|write failed|2'
is "a folder that isn't there" "$(answer build a.clj --out none/a.bin)" '|write failed|2'
is "why, explained" "$(answer build a.clj --out none/a.bin --explain)" "$(printf '|write failed\nnone/a.bin: No such file or directory (os error 2)|2')"
printf 'mine' >old.bin.part
printf 'old' >old.bin
is "a file under the name that is written first" "$(answer build a.clj --out old.bin --explain)" "$(printf '|write failed\nold.bin.part: the code is written there first, and this file is there|2')"
is "both are as they were" "$(cat old.bin old.bin.part)" 'oldmine'
printf '(future (println' >bad.clj
is "a script that is refused writes nothing" "$(answer build bad.clj --out none.bin >/dev/null; ls none.bin 2>/dev/null)" ''

# ---- the file of --record, and that of --turns-from
two='(def c (ref 0)) (future (println (dosync (alter c inc)))) (future (println (dosync (alter c inc))))'
printf '%s' "$two" >two.clj
is "a run is recorded" "$("$program" run --cells two.clj --record list >recorded; echo "$?")" '0'
is "the list makes it again" "$("$program" schedule --cells --turns-from list two.clj | cmp - recorded && echo same)" 'same'
is "so does the list as standard input" "$("$program" schedule --cells --turns-from - two.clj <list | cmp - recorded && echo same)" 'same'
is "a schedule by it is audited" "$("$program" schedule --audit --turns-from list two.clj | tail -n 1)" 'audit agrees serial'
is "over its own script" "$(answer run two.clj --record ./two.clj)" '|error: the file of --record is the script itself|2'
is "the script is as it was" "$(cat two.clj)" "$two"
is "a folder that isn't there" "$(answer run a.clj --record none/list)" '1|write failed|2'
is "why, explained" "$(answer run a.clj --record none/list --explain)" "$(printf '1|write failed\nnone/list: No such file or directory (os error 2)|2')"
is "a script that is refused writes none" "$(answer run bad.clj --record none.list >/dev/null; ls none.list 2>/dev/null)" ''
is "a list that isn't there" "$(answer schedule a.clj --turns-from none.list)" '|read failed|2'
is "why, explained" "$(answer schedule a.clj --turns-from none.list --explain)" "$(printf '|read failed\nnone.list: No such file or directory (os error 2)|2')"
is "a file that is no list" "$(answer schedule a.clj --turns-from two.clj)" '|wrong list|2'
is "a list and a script from one input" "$(answer schedule --turns-from -)" "|error: the list and the script can't both be standard input|2"

# ---- the file of --timeline, the folder of that of explore, and lines of JSON
is "a picture of a run" "$(answer run a.clj --timeline run.svg)" '1||0'
is "a picture by a schedule" "$(answer schedule a.clj --timeline again.svg)" '1||0'
is "of a run without requests it is the same" "$(cmp run.svg again.svg && echo same)" 'same'
is "it is a picture" "$(grep -c '<svg ' run.svg)" '1'
is "nothing is left beside it" "$(ls run.svg*)" 'run.svg'
is "over its own script" "$(answer run a.clj --timeline ./a.clj)" '|error: the file of --timeline is the script itself|2'
is "over its own script that is standard input" "$("$program" run --timeline a.clj <a.clj 2>&1; echo "$?")" "$(printf 'error: the file of --timeline is the script itself\n2')"
is "the script is as it was" "$(cat a.clj)" "$script"
is "a picture in a folder that isn't there" "$(answer run a.clj --timeline none/run.svg)" '1|write failed|2'
is "why, explained" "$(answer run a.clj --timeline none/run.svg --explain)" "$(printf '1|write failed\nnone/run.svg: No such file or directory (os error 2)|2')"
is "a script that is refused has no picture" "$(answer run bad.clj --timeline bad.svg >/dev/null; ls bad.svg 2>/dev/null)" ''
is "a picture beside the lines of an audit" "$(answer run --audit a.clj --timeline run.svg)" "$(printf '1\naudit agrees serial||0')"
mkdir pictures
is "pictures of outcomes" "$(answer explore two.clj --timeline pictures >/dev/null; ls pictures)" "$(printf 'outcome-1.svg\noutcome-2.svg')"
is "they are replaced" "$(answer explore a.clj --timeline pictures >/dev/null; cmp pictures/outcome-1.svg run.svg && echo same)" 'same'
is "pictures in a folder that isn't there" "$(answer explore a.clj --timeline none | tail -n 1)" 'complete: each schedule ends in this outcome|write failed|2'
is "a line of JSON of a check" "$(answer check a.clj --json)" '{"type":"ok"}||0'
is "of a script that is refused" "$(answer check bad.clj --json | grep -o '"type":"refused"}.*')" '"type":"refused"}||1'
is "of a file that isn't there" "$(answer run none.clj --json)" '|read failed|2'
is "of a list that isn't one" "$(answer schedule a.clj --json --turns z)" "$(printf '{"message":"wrong list","type":"problem"}\n{"status":2,"type":"end"}||2')"
is "of a list that names no actor" "$(answer schedule a.clj --json --turns 1)" "$(printf '{"message":"run failed: NoActor","type":"problem"}\n{"status":2,"type":"end"}||2')"
is "of a run whose picture can't be written" "$(answer run a.clj --json --timeline none/run.svg | tail -n 1)" '{"status":2,"type":"end"}|write failed|2'
is "lines of JSON to no device" "$("$program" run a.clj --json >/dev/full 2>errors; printf '%s' "$?"; cat errors)" "$(printf '2write failed')"
is "the list for lines of JSON as standard input" "$(printf '0' | "$program" schedule a.clj --json --turns-from - | tail -n 1)" '{"status":0,"type":"end"}'

# ---- files that are read
is "a script that isn't there" "$(answer run none.clj)" '|read failed|2'
is "why, explained" "$(answer run none.clj --explain)" "$(printf '|read failed\nnone.clj: No such file or directory (os error 2)|2')"
is "a script that is a folder" "$(answer run .)" '|read failed|2'
is "why, explained" "$(answer run . --explain)" "$(printf '|read failed\n.: Is a directory (os error 21)|2')"
is "output to a full device" "$("$program" run a.clj >/dev/full 2>errors; echo "$?|$(cat errors)")" '2|write failed'

# ---- audits
cells='(def a (ref 1)) (def b (ref 1))'
printf '%s' "$cells (future (dosync (when (= 2 (+ @a @b)) (alter a dec)))) (future (dosync (when (= 2 (+ @a @b)) (alter b dec))))" >skew.clj
printf '%s' "$cells (future (dosync (when (= 2 (+ (ensure a) (ensure b))) (alter a dec)))) (future (dosync (when (= 2 (+ (ensure a) (ensure b))) (alter b dec))))" >ensured.clj
printf '%s' '(def a (atom 0)) (def g (agent 0)) (def r (ref 1)) (future (swap! a + 2) (dosync (alter r + @r) (send g + 5))) (future (println (quot 1 0)))' >each.clj
skewed="$(printf 'a 0\nb 0\n0 0 commit\n1 1 commit\naudit agrees||0')"
is "write skew is explained, and not serial" "$(answer schedule --cells --events --audit --turns 0,1 skew.clj)" "$skewed"
is "nothing is explained where it agrees" "$(answer schedule --cells --events --audit --turns 0,1 --explain skew.clj)" "$skewed"
is "what is ensured is serial" "$(answer schedule --cells --events --audit --turns 0,1 ensured.clj)" "$(printf 'a 0\nb 1\n0 0 commit\n1 1 retry\n2 1 commit\naudit agrees serial||0')"
for workers in 1 2 5; do
  is "an audit by $workers workers" "$(answer run --audit --workers "$workers" ensured.clj)" 'audit agrees serial||0'
  is "cells of each kind, and a fault, by $workers workers" "$(answer run --audit --workers "$workers" each.clj)" 'audit agrees serial|thread 1 failed: DivideByZero at 128..138|3'
done
printf '%s' '(def r (ref 1 :validator pos?)) (future (dosync (alter r dec)))' >checked.clj
refusal='thread 0 failed: InvalidState at 40..62|3'
for workers in 1 2 5; do
  is "a value that a validator refuses, by $workers workers" "$(answer run --audit --cells --workers "$workers" checked.clj)" "$(printf 'r 1\naudit agrees serial')|$refusal"
done
is "code with a validator" "$(answer build checked.clj --out checked.bin)" '||0'
is "it begins so" "$(head -c 4 checked.bin)" 'TXS2'
is "its run" "$(answer run --code --cells checked.bin)" "r 1|$refusal"
is "steps that don't suffice" "$(printf '(future (loop [] (recur)))' >spin.clj; answer run --audit --steps 1000 spin.clj)" 'audit agrees serial|thread 0 stopped: StepsSpent|4'
is "more steps than an audit counts turns" "$(answer run --audit --steps 1000000000000 a.clj)" "$(printf '1\naudit agrees serial||0')"
is "a script that is refused is not audited" "$(printf '(future [1 2)' >unopened.clj; answer run --audit unopened.clj)" '|refused 3 Unopened at 12..13|1'
is "a play of no actor is not audited" "$(answer schedule --audit --turns 7 a.clj)" '|run failed: NoActor|2'
is "code is not audited" "$("$program" run --audit --code new.bin 2>&1 | head -n 1; echo "${PIPESTATUS[0]}")" "$(printf "error: the argument '--audit' cannot be used with '--code'\n2")"

# ---- on a terminal, to which standard output and standard error go: there a line ends with a carriage return as well
on_terminal() {
  python3 -c 'import pty, sys; pty.spawn(sys.argv[1:])' "$program" "$@" </dev/null | tr -d '\r'
}

# The same, where standard output goes to a file.
errors_on_terminal() {
  # shellcheck disable=SC2016
  python3 -c 'import pty, sys; pty.spawn(sys.argv[1:])' sh -c '"$@" >output' sh "$program" "$@" </dev/null | tr -d '\r'
}

# An explanation without its sentence.
without_sentence() {
  sed 's/^\([^ ]*:[0-9]*:[0-9]*:\) .*/\1/'
}

refused='refused 3 Unopened at 12..13'
explained="$(printf '%s\nunopened.clj:1:13:\n(future [1 2)\n            ^' "$refused")"
for words in "run unopened.clj" "unopened.clj" "check --explain=auto unopened.clj" "check --explain unopened.clj"; do
  # shellcheck disable=SC2086
  is "explained: $words" "$(on_terminal $words | without_sentence)" "$explained"
done
is "not with never" "$(on_terminal run --explain=never unopened.clj)" "$refused"
is "explained where standard output is a file" "$(errors_on_terminal run unopened.clj | without_sentence)" "$explained"
is "not where standard error is one" "$(python3 -c 'import pty, sys; pty.spawn(sys.argv[1:])' sh -c '"$@" 2>errors' sh "$program" run unopened.clj </dev/null; cat errors)" "$refused"
is "a file that isn't there" "$(on_terminal none.clj)" "$(printf 'read failed\nnone.clj: No such file or directory (os error 2)')"
is "code is not explained" "$(on_terminal schedule --code --turns x new.bin)" 'wrong list'
is "a good end is not explained" "$(on_terminal a.clj)" '1'

# ---- the kit that the sources are for, as the page names it
is "the kit" "$("$program" --version | grep -o 'rattle-kit-[0-9a-z]*')" "$(sed -n 's/^Kit: `\(rattle-kit-[0-9a-z]*\) .*/\1/p' "$here/README.md")"

echo "$passed passed, $failed failed"
[ "$failed" -eq 0 ]
