#!/bin/sh
# SPDX-License-Identifier: Apache-2.0
# Runs the built program `scalar_rows` under real faults: a folder as its input, a full device as its output, an input that does
# not end. It also refuses each allocation, each read and each write in turn. `scalar_cases`, which reads its input in another way,
# has each read and each write refused too. The last line is 'N passed, M failed'; the status is 1 if any failed.
set -eu
top=$(CDPATH='' cd -- "$(dirname -- "$0")/.." && pwd)
program=$top/crates/scalar_rows/out/scalar_rows
folder=$(mktemp -d)
trap 'rm -rf "$folder"' EXIT
passed=0
failed=0

# judge NAME STATUS OUTPUT ERRORS: whether `status`, "$folder/output" and "$folder/errors" are as wanted
judge() {
    name=$1 wanted_status=$2 wanted_output=$3 wanted_errors=$4
    if [ "$status" = "$wanted_status" ] && cmp -s "$folder/output" "$wanted_output" && cmp -s "$folder/errors" "$wanted_errors"; then
        passed=$((passed + 1))
    else
        failed=$((failed + 1))
        echo "$name: status $status, not $wanted_status, or other words than wanted:"
        head -c 200 "$folder/output"
        head -c 200 "$folder/errors"
    fi
}

# attempt COMMAND..: runs it, and keeps its status and what it says on standard error
attempt() {
    status=0
    "$@" 2> "$folder/errors" || status=$?
}

with_refusal() {
    rm -f "$folder/refused"
    attempt env FAIL_ALLOC="$1" FAIL_MARK="$folder/refused" LD_PRELOAD="$folder/refuse.so" "$program" < "$folder/input" > "$folder/output"
}

build_refusals() {
    cc -shared -fPIC -O1 -o "$folder/refuse.so" "$top/tests/refuse_nth.c"
    cc -shared -fPIC -O1 -o "$folder/fail_io.so" "$top/tests/fail_io.c"
}

# with_io SETTING..: runs the program on "$folder/input" with streams that fail or give little, as tests/fail_io.c says
with_io() {
    attempt env "$@" LD_PRELOAD="$folder/fail_io.so" "$program" < "$folder/input" > "$folder/output"
}

# each_fails SETTING FAULT SHORT COUNT: makes the first read or write fail, then the second, and so on until the run has no more,
# which is after COUNT of them. A run must end with the fault, and with what the earlier writes wrote, each as much as SHORT says.
each_fails() {
    place=1
    while [ "$place" -le 1000 ]; do
        rm -f "$folder/mark"
        with_io "$1=$place" "$3" FAIL_MARK="$folder/mark"
        if [ ! -e "$folder/mark" ]; then
            break
        fi
        cp "$folder/nothing" "$folder/beginning"
        if [ "$1" = FAIL_WRITE ]; then
            head -c $((${3#*=} * (place - 1))) "$folder/rows" > "$folder/beginning"
        fi
        judge "$1=$place" 1 "$folder/beginning" "$2"
        place=$((place + 1))
    done
    judge "$1: none of $((place - 1)) fails" 0 "$folder/rows" "$folder/nothing"
    if [ "$((place - 1))" -eq "$4" ]; then
        passed=$((passed + 1))
    else
        failed=$((failed + 1))
        echo "$1, $3: $((place - 1)) failed, not $4"
    fi
}

# pieces FILE BYTES: in how many pieces of at most so many bytes a file is read or written
pieces() {
    echo $((($(wc -c < "$1") + $2 - 1) / $2))
}

# fail_in_turn READ WRITE: makes each read fail in turn, and each write, if these take so many bytes. One read more meets the end.
# A read that may take more takes 4,096 bytes.
fail_in_turn() {
    each_fails FAIL_READ "$folder/read" "SHORT_READ=$1" $(($(pieces "$folder/input" "$1") + 1))
    each_fails FAIL_READ "$folder/read" SHORT_READ=1000000 $(($(pieces "$folder/input" 4096) + 1))
    each_fails FAIL_WRITE "$folder/write" "SHORT_WRITE=$2" "$(pieces "$folder/rows" "$2")"
}

# judge_many_reads OUTPUT STATUS: an input of as many reads as are made gives this, and one that does not end is a failed read
judge_many_reads() {
    attempt env SHORT_READ=1 LD_PRELOAD="$folder/fail_io.so" "$program" < "$folder/long" > "$folder/output"
    judge 'an input of as many reads as are made' "$2" "$1" "$folder/nothing"
    attempt env SHORT_READ=1 LD_PRELOAD="$folder/fail_io.so" "$program" < /dev/zero > "$folder/output"
    judge 'an input that does not end' 1 "$folder/nothing" "$folder/read"
}

"$top/scalar_rows" --build < /dev/null
"$top/scalar_cases" --build < /dev/null
build_refusals
: > "$folder/nothing"
echo 'read failed' > "$folder/read"
echo 'write failed' > "$folder/write"
echo 'out of memory' > "$folder/memory"
for _copy in 1 2 3; do
    cat "$top/crates/scalar_rows/stdin"
    cat "$top/crates/scalar_rows/stdout" >> "$folder/rows"
done > "$folder/input"

attempt "$program" < "$folder/input" > "$folder/output"
judge 'ample memory' 0 "$folder/rows" "$folder/nothing"

attempt "$program" ignored words --help < "$folder/input" > "$folder/output"
judge 'words on the command line' 0 "$folder/rows" "$folder/nothing"

attempt "$program" < "$folder" > "$folder/output"
judge 'a folder as the input' 1 "$folder/nothing" "$folder/read"

: > "$folder/output"
attempt "$program" < "$folder/input" > /dev/full
judge 'a full device as the output' 1 "$folder/nothing" "$folder/write"

attempt "$program" < /dev/null > "$folder/output"
judge 'an empty input' 0 "$folder/nothing" "$folder/nothing"

fail_in_turn 1000 200

echo 'bad line' > "$folder/bad"
head -c 1048575 /dev/zero > "$folder/long"
judge_many_reads "$folder/bad" 0

allocation=1
while [ "$allocation" -le 1000 ]; do
    with_refusal "$allocation"
    if [ ! -e "$folder/refused" ]; then
        break
    fi
    judge "allocation $allocation refused" 1 "$folder/nothing" "$folder/memory"
    allocation=$((allocation + 1))
done
judge "no allocation refused of $((allocation - 1))" 0 "$folder/rows" "$folder/nothing"
if [ "$allocation" -lt 3 ]; then
    failed=$((failed + 1))
    echo "only $((allocation - 1)) allocations were refused"
fi

program=$top/crates/scalar_cases/out/scalar_cases
grep '^cast ' "$top/crates/scalar_cases/stdin" | head -n 300 > "$folder/input"
echo '300 cases, 0 wrong' > "$folder/rows"
fail_in_turn 1000 4
printf 'line 1: bad line\n1 cases, 1 wrong\n' > "$folder/bad"
judge_many_reads "$folder/bad" 1

echo "$passed passed, $failed failed"
[ "$failed" -eq 0 ]
