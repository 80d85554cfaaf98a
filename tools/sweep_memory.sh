#!/usr/bin/env bash
# Fails allocations in each call of the program jsonb_sweep: the first, then the second, and so on until a run has no
# failure; once each alone, and once with all that follow. A call fails then, or returns the same if it is one that makes a table
# only if there is memory. Then the same for the whole program jsonb_tool, and with its standard output broken in three ways. The
# last line is 'N passed, M failed'.
#
#   tools/sweep_memory.sh            compares the allocations of each call with crates/jsonb_sweep/growths, and the names of
#                                    the large cases with crates/jsonb_sweep/large
#   tools/sweep_memory.sh --write    writes both files again: read the changes before committing them
#
# Needs cc and rt. It sweeps the proved programs in crates/NAME/out/NAME, as rt ci and rt run leave them. If one is missing,
# or older than a source, rt run builds it: in seconds over kept proofs; from scratch every crate below is proved first, in
# half an hour on one core. The sweep itself takes seconds.
set -u
top=$(cd "$(dirname "${BASH_SOURCE[0]}")/.." && pwd)
stated=$top/crates/jsonb_sweep/growths
stated_large=$top/crates/jsonb_sweep/large
sweep=$top/crates/jsonb_sweep/out/jsonb_sweep
tool=$top/crates/jsonb_tool/out/jsonb_tool
work=$(mktemp -d)
trap 'rm -rf "$work"' EXIT
passed=0 failed=0

fault() { echo "sweep: $*"; failed=$((failed + 1)); }

finish() {
    echo "$passed passed, $failed failed"
    [ "$failed" = 0 ] && [ "$passed" -gt 0 ]
    exit
}

# build NAME WORDS..: builds the program of a crate if it is older than the sources. The words are those of a run.
build() {
    local name=$1
    local program=$top/crates/$name/out/$name
    shift
    if [ -x "$program" ] && [ -z "$(find "$top"/crates.txt "$top"/crates/*/{src,specs,proofs} -newer "$program" \
        '(' -name '*.rt' -o -name '*.antt' -o -name crates.txt ')' 2> /dev/null | head -n 1)" ]; then
        return
    fi
    (cd "$top/crates/$name" && rt run -- "$@") > "$work/build" 2>&1
    [ -x "$program" ] || { tail -n 20 "$work/build"; fault "$name was not built"; finish; }
}

command -v cc > /dev/null || { fault "there is no cc on this machine"; finish; }
command -v rt > /dev/null || { fault "there is no rt on this machine"; finish; }
build jsonb_sweep
build jsonb_tool get '{}' 20000000200000025001
cc -O2 -Wall -shared -fPIC -o "$work/shim.so" "$top/tools/refuse_growth.c" || { fault "cc failed on the shim"; finish; }

# run NUMBER [ALL]: a run in which that allocation of each call fails. Each line of $work/run is that of a case:
# its allocations, the failed ones, the blocks held, [], a word, and its name.
run() {
    local status
    env REFUSE="$1" ${2:+REFUSE_BEHIND=1} LD_PRELOAD="$work/shim.so" "$sweep" 3> "$work/counts" > "$work/lines"
    status=$?
    paste -d ' ' "$work/counts" "$work/lines" > "$work/run"
    [ "$status" = 0 ] && [ "$(wc -l < "$work/counts")" = "$(wc -l < "$work/lines")" ]
}

# The calls that return the same if an allocation fails, which is then their last.
same_without='^[0-9]+ [a-z]+: (array_overlap|exists_all_keys|exists_any_keys)_in( |$)'

# faults_of LABEL NUMBER: reports each wrong line of the run, and adds the name of its case to $work/faulty. A case is right,
# or it failed at that allocation, which then ended the call; and it frees what it held. $work/met has the number of failures.
faults_of() {
    awk -v label="$1" -v number="$2" -v faulty="$work/faulty" -v met="$work/met" -v same="$same_without" '
        function name(   i, text) { for (i = 6; i <= NF; i++) text = text (i > 6 ? " " : "") $i; return text }
        {
            why = ""
            wanted = $2 > 0 && name() !~ same ? "refused" : "right"
            if ($5 != wanted) why = $5 " although " $2 " of " $1 " allocations failed"
            else if ($2 > 0 && $1 != number) why = "it continued after a failure: " $1 " allocations, " $2 " failed"
            else if ($3 != held) why = $3 - held " blocks leaked"
            held = $3
            if (why != "") { print "sweep: " label ": " name() ": " why; print name() >> faulty }
            if ($2 > 0) refusals++
        }
        END { print refusals + 0 > met }' "$work/run"
}

: > "$work/faulty"
run 0 || fault "the run with memory broke off"
faults_of "with memory" 0
cut -d ' ' -f 1,6- "$work/run" > "$work/growths"
[ "${1:-}" = --write ] && cp "$work/growths" "$stated"
diff -u "$stated" "$work/growths" || fault "the allocations are not those in $stated"

refusals=0
for behind in '' yes; do
    number=1
    while :; do
        label="allocation $number${behind:+ and all after it}"
        run "$number" $behind || { fault "$label: the run broke off"; break; }
        faults_of "$label" "$number"
        met=$(cat "$work/met")
        [ "$met" = 0 ] && break
        refusals=$((refusals + met)) number=$((number + 1))
    done
done
cases=$(wc -l < "$work/growths")
wrong=$(sort -u "$work/faulty" | wc -l)
passed=$((passed + cases - wrong)) failed=$((failed + wrong))
growths=$(awk '{ sum += $1 } END { print sum + 0 }' "$work/growths")
# A shim that is not reached sees no allocation, and would find nothing wrong.
[ "$growths" -gt 0 ] && [ "$refusals" = $((2 * growths)) ] || fault "$growths allocations, but $refusals failures"
echo "sweep: $cases cases, $growths allocations, each failed alone and with all after it"

# Without failures, each call on something large.
env LD_PRELOAD="$work/shim.so" "$sweep" large 3> /dev/null > "$work/lines" || fault "the run on what is large broke off"
tail -n +"$((cases + 1))" "$work/lines" > "$work/large"
while read -r _ word name; do
    if [ "$word" = right ]; then passed=$((passed + 1)); else fault "$name: $word"; fi
done < "$work/large"
cut -d ' ' -f 3- "$work/large" > "$work/names"
[ "${1:-}" = --write ] && cp "$work/names" "$stated_large"
diff -u "$stated_large" "$work/names" || fault "the large cases are not those in $stated_large"
[ -s "$work/large" ] || fault "nothing large was asked"
echo "sweep: $(wc -l < "$work/large") cases on what is large"

# run_tool NUMBER ALL WORDS..: a run of jsonb_tool in which that allocation fails. Sets its status, its output, what it prints to
# standard error, and the numbers of allocations, failures and blocks held.
run_tool() {
    local number=$1 behind=$2
    shift 2
    wrote=$(env REFUSE_ALL=1 REFUSE="$number" ${behind:+REFUSE_BEHIND=1} LD_PRELOAD="$work/shim.so" "$tool" "$@" \
        2> "$work/why" 3> "$work/counts")
    status=$?
    why=$(cat "$work/why")
    read -r grown refused held < <(tail -n 1 "$work/counts")
}

# sweep_tool LINES WORDS..: a run writes its lines if no allocation failed. Otherwise it writes the one line of the error with
# status 1, or ends with status 3 if the arguments themselves could not be read, and says why on standard error. It frees what it held.
sweep_tool() {
    local lines=$1 behind number
    shift
    for behind in '' yes; do
        number=0
        while :; do
            run_tool "$number" "$behind" "$@"
            [ "$held" = 0 ] || { fault "jsonb_tool $1: allocation $number: $held blocks leaked"; return; }
            case $((refused > 0))/$status/$wrote/$why in
            0/0/"$lines"/) [ "$number" = 0 ] || break ;;
            1/1/'refused: OutOfMemory/jsonb_tool: an allocation failed') ;;
            1/3//'jsonb_tool: the arguments cannot be read: an allocation failed') ;;
            *) fault "jsonb_tool $1: allocation $number: status $status, $refused failed, '$wrote', '$why'"; return ;;
            esac
            number=$((number + 1))
        done
        [ "$number" -gt 1 ] || { fault "jsonb_tool $1: no allocation was seen"; return; }
    done
    passed=$((passed + 1))
    echo "sweep: jsonb_tool $1: $grown allocations, each failed alone and with all after it"
}

mixed=8000000330000000200000025000000e500a4000000110000001100000016b76
tens=80000003200000022000000220000002500a5014501e
sweep_tool 200000001000000176 get '{2,k}' "$mixed"
sweep_tool "$(printf '%s\n' '2000000030000000 {0}' '2000000020000002500a {1}' '200000001000000176 {2,k}')" leaves "$mixed"
sweep_tool "$(printf '%s\n' 2000000020000002501e 2000000020000002500a)" select '$[last, 0]' "$tens"
sweep_tool true match '$[*] > 25' "$tens"
sweep_tool 00048103e90200 key 20000000200000025001

# A full disk.
"$tool" get '{}' "$mixed" > /dev/full 2> "$work/why"
case $?/$(cat "$work/why") in
3/'jsonb_tool: the output cannot be written') passed=$((passed + 1)) ;;
*) fault "jsonb_tool on a full disk: '$(cat "$work/why")'" ;;
esac

# large_tool LINES WORDS..: a run on a large argument writes its lines.
large_tool() {
    local lines=$1
    shift
    if [ "$("$tool" "$@")" = "$lines" ]; then passed=$((passed + 1)); else fault "jsonb_tool $1 on what is large"; fi
}

# A string of 60,000 bytes, by itself and in an array: an argument has at most 131,071 digits.
text=$(printf '61%.0s' {1..60000})
array=800000011000ea60$text
document=200000001000ea60$text
large_tool "$document" get '{0}' "$array"
large_tool "$document {0}" leaves "$array"
large_tool "$document" select '$[0]' "$array"
large_tool true match '$[*] > "a"' "$array"
large_tool "0005${text}00" key "$document"

# Standard output full, closed, and a pipe whose reader is gone: status 3, no crash.
"$tool" get '{2,k}' "$mixed" > /dev/full; full=$?
"$tool" get '{2,k}' "$mixed" >&-; closed=$?
{ sleep 0.1; "$tool" get '{2,k}' "$mixed"; echo $? > "$work/gone"; } | true
for word in "full: $full" "closed: $closed" "without a reader: $(cat "$work/gone")"; do
    case $word in *' 3') passed=$((passed + 1)) ;; *) fault "standard output $word" ;; esac
done
finish
