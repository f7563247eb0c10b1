#!/usr/bin/env bash
# Drives ./rig as a person at the desk would: what was once taken for good and is not, every refusal and error from the
# command line, what can go wrong with files, disks and pipes, building, truncated files, four thousand files of random
# bytes and words. Each run must end in a last line of the right kind, with its status; none may crash.
# RIG_PROGRAM=PATH tries another program in the place of the proved ones.
# shellcheck disable=SC2016,SC2129  # conditions are expanded where they are tried
set -u
# a character is a byte
export LC_ALL=C
root=$(dirname "$(dirname "$(readlink -f "$0")")")
rig=$root/rig
examples=$root/examples
work=$(mktemp -d)
trap 'rm -rf "$work"' EXIT
checks=0
failures=0

failed() {
    failures=$((failures + 1))
    echo "FAILED: $1" >&2
}

# expect STATUS LAST-LINE WORDS..: ./rig WORDS, with what is in the file `in` as standard input
expect() {
    local status=$1 last=$2 got
    shift 2
    checks=$((checks + 1))
    "$rig" "$@" <in >out 2>err
    got=$?
    [ "$got" = "$status" ] || failed "rig $*: status $got, expected $status: $(tail -n 1 out)"
    [ "$(tail -n 1 out)" = "$last" ] || failed "rig $*: '$(tail -n 1 out)', expected '$last'"
}

# has LINE.. : each is a whole line of the last run's output
has() {
    local line
    for line in "$@"; do
        checks=$((checks + 1))
        grep -qxF -e "$line" out || failed "no line '$line' in: $(head -c 2000 out)"
    done
}

# alone: the last run printed nothing but its last line
alone() {
    checks=$((checks + 1))
    [ "$(wc -l <out)" = 1 ] || failed "$(wc -l <out) lines of output, not one: $(tail -n 1 out)"
}

# holds CONDITION WORDS: a condition of the shell
holds() {
    checks=$((checks + 1))
    eval "$1" || failed "$2"
}

# input LINES..: standard input of the next runs
input() { printf '%s\n' "$@" >in; }

# load LINES..: a file of one load, x, of the boards p, q and r
load() { input "boards p q r" "load x" "$@" "end 1"; }

commands() {
    local names="expected clash, decode, draw, dump, encode, match, night, session or sort"
    input
    expect 2 "error unknown command 'rehearse': $names" rehearse
    expect 2 "error unknown command '$(printf 'x%.0s' {1..32})..': $names" "$(printf 'x%.0s' {1..40})"
    expect 2 "error unknown command 'a?b': $names" $'a\tb'
    expect 2 "error expected a file, or - for standard input" clash
    expect 2 "error expected a file, or - for standard input" night
    expect 2 "error expected a file, or - for standard input" decode --room 3
    expect 2 "error expected a file, or - for standard input" sort
    expect 2 "error expected a file, or - for standard input" draw
    expect 2 "error expected a load after the file" draw x
    expect 2 "error unexpected 'z' after the load" draw x y z
    expect 2 "error unexpected '-' after the load" draw - y -
    expect 2 "error cannot open none: no such file" decode none
    expect 2 "error cannot read .: it is a directory" decode .
    expect 2 "error cannot read .: it is a directory" session .
    expect 2 "error cannot open none: no such file" sort none
    expect 2 "error cannot read .: it is a directory" sort .
    expect 2 "error 0 loads: 1 fault outside the loads" clash none
    has "! cannot open none: no such file"
    expect 2 "error 0 loads: 1 fault outside the loads" night none
    has "! cannot open none: no such file"
    expect 2 "error 0 loads: 2 faults outside the loads" draw none x
    has "! cannot open none: no such file" "! no load 'x' in the files"
    expect 2 "error unknown option '--brief' for clash" clash - --brief
    expect 2 "error unknown option '--room' for draw" draw - x --room 3
    expect 2 "error unknown option '--svg' for clash" clash - --svg
    expect 2 "error unknown option '--table' for night" night - --table
    expect 2 "error unknown option '--room' for night" night --room 3
    expect 2 "error unknown option '--table' for decode" decode - --table
    expect 2 "error unknown option '--fast' for session" session --fast
    expect 2 "error unknown option '--room' for sort" sort - --room 5
    expect 2 "error - stands twice: standard input is read once" clash - "$examples/sent.loads" -
    expect 2 "error - stands twice: standard input is read once" decode - -
    expect 2 "error - stands twice: standard input is read once" sort - -
    expect 2 "error - stands twice: standard input is read once" clash - --corrections -
    expect 2 "error - stands twice: standard input is read once" draw - x --corrections -
    expect 2 "error - stands twice: standard input is read once" night - --corrections -
    expect 2 "error expected a file after --corrections" clash - --corrections
    expect 2 "error expected a file after --corrections" draw - x --corrections
    expect 2 "error expected a file after --corrections" night - --corrections
    expect 2 "error unknown option '--corrections' for decode" decode - --corrections x
    expect 2 "error --standard does not go with --fast" decode - --standard --fast
    expect 2 "error --thin goes with neither --standard nor --fast" decode - --thin --fast
    expect 2 "error unknown option '--thin' for sort" sort - --thin
    expect 2 "error a second file 'b': decode reads one" decode a b
    expect 2 "error expected a capture and a file of loads" match
    expect 2 "error expected a capture and a file of loads" match - --corrections x
    expect 2 "error unexpected 'd' after the load" match a b c d
    expect 2 "error unknown option '--room' for match" match a b --room 3
    expect 2 "error expected a file after --corrections" match a b --corrections
    expect 2 "error - stands twice: standard input is read once" match - -
    expect 2 "error - stands twice: standard input is read once" match a - --corrections -
    expect 2 "error cannot open none: no such file" match none "$examples/pass.loads"
    expect 2 "error a second file 'b': sort reads one" sort a b
    expect 2 "error --table goes with neither --registers nor --wave" clash - --table --wave
    expect 2 "error expected a number after --room" encode --room
    expect 2 "error expected a number after --room, not '-1'" encode --room -1
    expect 2 "error an argument is longer than 4096 bytes" decode "$(printf '%05000d' 0)"
}

# Help and version, by every word one might try; every example of the help works.
help() {
    local command
    input
    for command in help --help -h; do expect 0 "ok help" $command && has "usage: rig COMMAND .."; done
    expect 0 "ok help" && has "usage: rig COMMAND .."
    for command in clash decode draw dump encode match night session sort; do
        for words in "help $command" "$command --help" "$command -h" "$command x --help"; do
            # shellcheck disable=SC2086
            expect 0 "ok help" $words
            holds 'head -n 1 out | grep -q "^usage: rig $command"' "rig $words: $(head -n 1 out)"
        done
    done
    expect 2 "error unknown command 'rehearse': expected clash, decode, draw, dump, encode, match, night, session or sort" help rehearse
    expect 2 "error unexpected 'session' after help" help clash session
    expect 0 "ok version" --version
    has "rig $(cat "$root/VERSION"), for $(cat "$root/RATTLE-VERSION")"
    (cd "$root" && sed -n 's/^example: //p' help/*.txt | sed 's/^rig /.\/rig /; s/ | rig / | .\/rig /g') >examples.sh
    while IFS= read -r line; do
        (cd "$root" && eval "$line") >out 2>err </dev/null
        holds 'tail -n 1 out | grep -Eq "^(ok|look|refused) " || grep -q "^rig: ok " err' "the help's example '$line': $(tail -n 1 out)"
    done <examples.sh
    holds '[ "$(wc -l <examples.sh)" = 9 ]' "nine examples in the help"
}

# What once went up with ok: a board that is missing, a message cut off, a forgotten line, slips.
slips() {
    local lines
    load "board p 50 26" "board r 90" "ack all" && expect 2 "error 1 load: 1 in error" clash -
    has "! line 2: load x: no line for board q (boards: line 1)" "  ERROR: not rehearsed"
    load "board p -" "board q -" "board r 90" "ack all" && expect 0 "ok 1 load: 1 sent" clash -
    has "  WON    2 r  90                       sent 1 of 1 byte" "  silent 0 p"
    load "board p 48 3B FF FF 11" "board q 48 3F" "board r -" "ack 0 0 1 0 0" && expect 3 "look 1 load: 1 cut" clash -
    has "  WON    0 p  48 3B FF FF 11           CUT after 3 of 5 bytes: byte 2 (FF) not acknowledged; FF 11 not sent" \
        "  lost   1 q  48 3F                    byte 1 bit 5: sends 1, the bus is 0; 2 bytes still to send"
    load "board p 90 12" "board q 90 0F" "board r -" "ack 1 0" && expect 3 "look 1 load: 1 undecided" clash -
    lines="the bus stopped after byte 0 (90), before they differ; nothing was sent whole"
    has "  UNDECIDED between 0, 1: $lines" "  in     0 p  90 12                    1 of 2 bytes carried"
    load "board p 50" "board q -" "board r -" && expect 0 "ok 1 load: 1 sent, 1 without an ack line" clash -
    has "  note: no ack line, rehearsed as all acknowledged"
    load "board p 4 8 26 00" "board q -" "board r -" && expect 2 "error 1 load: 1 in error" clash -
    has "! line 3: load x: expected bytes of two hexadecimal digits, not '4'"
    load "board 0 90 12" "board q -" "board r -" && expect 2 "error 1 load: 1 in error" clash -
    has "! line 3: load x: no board '0' on line 1"
    load "board p 144 18" "board q -" "board r -" && expect 2 "error 1 load: 1 in error" clash -
    has "! line 3: load x: expected bytes of two hexadecimal digits, not '144'"
    load "board p 50" "board p 50" "board q -" "board r -" && expect 2 "error 1 load: 1 in error" clash -
    has "! line 4: load x: a second line for board p, the first is line 3"
    input "boards p" "load x" "board p 50" "ack all" "load x" "board p 52" "ack all" "end 2"
    expect 2 "error 2 loads: 1 sent, 1 in error" clash -
    has "! line 5: load x: this name was taken on line 2"
}

# Tonight's corrections: which boards, what cannot be corrected, and a file of them that is wrong stops everything.
corrections() {
    local night=$examples/night.loads tonight=$examples/night.corrections nothing="error 0 loads: 1 fault outside the loads"
    input
    expect 3 "look 40 loads: 34 sent, 6 cut, 1 corrected" clash "$night" --corrections "$tonight"
    has "  corrected 1 thermal, 2 attitude" "  WON    5 payload   50 18 C4 02 7E           sent 5 of 5 bytes" "  silent 1 thermal"
    expect 3 "look 80 loads: 68 sent, 12 cut, 2 corrected" clash "$night" --corrections "$tonight" "$night" --table
    expect 3 "look 40 loads: 34 sent, 6 cut, 1 corrected" clash --corrections none "$night" --corrections "$tonight"
    expect 2 "error 3 loads: 3 sent, 1 without an ack line, 1 fault outside the loads" \
        clash "$examples/sent.loads" --corrections "$tonight"
    has "! corrections line 6: load upload-40 is in none of the files"
    input "load upload-40" "board attitude 50 18 C4 03" "board camera -" "end 1"
    expect 2 "error 40 loads: 33 sent, 6 cut, 1 in error" clash "$night" --corrections -
    has "! corrections line 3: load upload-40: no board 'camera' on line 4"
    input "load alone" "board power 50 26" "board radio 62" "end 1"
    expect 3 "look 3 loads: 2 sent, 1 not as expected, 1 without an ack line, 1 corrected" \
        clash "$examples/sent.loads" --corrections -
    input "load equal" "board thermal 50 18" "board radio 50 17" "end 1"
    expect 1 "refused 15: 3 loads: 2 sent, 1 refused, 1 without an ack line, 1 corrected" \
        clash "$examples/sent.loads" --corrections -
    has "  refused 15: 3 acknowledges (line 15) for the 2 bytes of power (line 12), the longest"
    input "load alone" "board power 50 2" "end 1"
    expect 2 "$nothing" clash "$night" --corrections -
    has "! corrections line 2: expected bytes of two hexadecimal digits, not '2'; nothing is rehearsed"
    expect 2 "$nothing" clash "$night" --corrections none
    has "! cannot open none: no such file; nothing is rehearsed"
    expect 2 "$nothing" clash none "$night" --corrections .
    has "! cannot read .: it is a directory; nothing is rehearsed"
}

# Corrections that are cut short anywhere stop everything.
cut_corrections() {
    local size n words night=$examples/night.loads
    size=$(wc -c <"$examples/night.corrections")
    for ((n = 0; n < size - 2; n += 7)); do
        head -c $n "$examples/night.corrections" >in
        for words in "clash $night" "draw $night upload-17" "night $night"; do
            # shellcheck disable=SC2086
            "$rig" $words --corrections - <in >out 2>err
            holds "[ $? = 2 ]" "$words, the first $n bytes of night.corrections: $(tail -n 1 out)"
            holds '[ "$(wc -l <out)" = 2 ] && head -n 1 out | grep -q "; nothing is rehearsed$"' "it is rehearsed: $(cat out)"
        done
    done
}

# A file that is cut short anywhere never ends with ok, and its last load is not rehearsed.
cut_short() {
    local size n words
    size=$(wc -c <"$examples/sent.loads")
    for ((n = 0; n < size - 2; n += 7)); do
        head -c $n "$examples/sent.loads" >in
        for words in "clash -" "draw - alone" "night -"; do
            # shellcheck disable=SC2086
            "$rig" $words <in >out 2>err
            holds "[ $? = 2 ]" "$words, the first $n bytes of sent.loads: $(tail -n 1 out)"
        done
    done
    head -c 4000 "$examples/night.loads" >in
    expect 2 "error 13 loads: 10 sent, 2 cut, 1 in error, 1 fault outside the loads" clash -
    has "! the file ends without an end line"
}

# Which boards a refusal is about, and how many acknowledges were wanted.
refusals() {
    local long
    long=$(printf ' 90%.0s' {1..65})
    load "board p -" "board q -" "board r -" && expect 1 "refused 12: 1 load: 1 refused" clash -
    has "  refused 12: every board is silent"
    load "board p 90" "board q" "board r -" && expect 1 "refused 13: 1 load: 1 refused" clash -
    has "  refused 13: q (line 4) has no bytes"
    load "board p 90" "board q$long" "board r -" && expect 1 "refused 13: 1 load: 1 refused" clash -
    has "  refused 13: q (line 4) has 65 bytes, and at most 64 may be sent"
    load "board p 90" "board q 91" "board r -" && expect 1 "refused 14: 1 load: 1 refused" clash -
    has "  refused 14: q (line 4) begins with 91, which is odd, a read"
    load "board p 90" "board q 90 12 00" "board r -" "ack 0" && expect 1 "refused 15: 1 load: 1 refused" clash -
    has "  refused 15: 1 acknowledge (line 6) for the 3 bytes of q (line 4), the longest"
    load "board p 90" "board q -" "board r -" "ack 2" && expect 1 "refused 15: 1 load: 1 refused" clash -
    has "  refused 15: acknowledge 0 (line 6) is 2, neither 0 nor 1"
    load "board p -" "board q 90 00" "board r 90" "ack all" && expect 1 "refused 16: 1 load: 1 refused" clash -
    has "  refused 16: r (line 5) ends with 90, acknowledged, where q (line 4) goes on with 00"
    load "board p 90" "board q -" "board r -" "ack all" && expect 1 "refused 8: 1 load: 1 refused" clash - --room 22
    has "  refused 8: the reply needs more room than was lent"
    expect 0 "ok 1 load: 1 sent" clash - --room 23
}

# Sixteen boards of 64 bytes are the most, with 1,157 levels; from eleven on numbers stand in two columns.
most_boards() {
    local longest names=({p..z} xp xq xr xs xt) lines
    longest=$(printf ' 90%.0s' {1..64})
    lines=("${names[@]/#/board }")
    input "boards ${names[*]}" "load x" "${lines[@]/%/$longest}" "ack all" "end 1"
    expect 0 "ok 1 load: 1 sent" clash -
    has "  WON     1 q  $longest  sent 64 of 64 bytes" "  WON    15 xt $longest  sent 64 of 64 bytes"
    holds '[ "$(grep -c "^  WON    .*  sent 64 of 64 bytes$" out)" = 16 ]' "not sixteen winners"
    expect 0 "ok 1 load: 1 sent" clash - --room 1157
    expect 1 "refused 8: 1 load: 1 refused" clash - --room 1156
    input "boards ${names[*]} xu" && expect 2 "error 0 loads: 1 fault outside the loads" clash -
    has "! line 1: more than 16 boards; the file is not read"
    input boards && expect 2 "error 0 loads: 1 fault outside the loads" clash -
    has "! line 1: expected boards and 1 to 16 names; the file is not read"
    input "load a" "board "9{0,0,0,0,0,0,0,0,0}
    expect 0 "ok 1 load: 1 sent, 1 without an ack line" clash -
    has "  WON    8  90                       sent 1 of 1 byte"
    input "load a" "board "9{2,2,2,2,2,2,2,2,2,2,0}
    expect 0 "ok 1 load: 1 sent, 1 without an ack line" clash - --registers
    has "  WON    10  90                       sent 1 of 1 byte" \
        "  lost    9  92                       byte 0 bit 6: sends 1, the bus is 0; 1 byte still to send"
    holds '[ "$(grep -c "^  regs    [0-9]  USICTL0=C0 " out)" = 10 ]' "ten losers with one digit"
    holds '[ "$(grep -c "^  regs   10  USICTL0=C8 " out)" = 1 ]' "the winner with two digits"
    (echo load a && for i in {1..16}; do echo board 90; done) >in
    expect 0 "ok 1 load: 1 sent, 1 without an ack line" clash -
    echo board 90 >>in
    expect 1 "refused 12: 1 load: 1 refused" clash -
    has "  refused 12: 17 boards, and at most 16 may start together"
    expect 1 "refused 16: 5 loads: 2 sent, 1 cut, 1 undecided, 1 refused" clash "$examples/sixteen.loads"
    has "  silent  9 beacon" "  WON    11 wheel     62 11 01                 CUT after 3 of 3 bytes: byte 2 (01) not acknowledged"
}

# Lines that are wrong cost their own load; errors quote the word and name the load.
wrong_lines() {
    input "boards p" "load a" "bord p 90" "load b" "board p 90" "ack all" "load c" "board p 9" "end 3"
    expect 2 "error 3 loads: 1 sent, 2 in error" clash -
    has "! line 3: load a: expected load, board, ack, expect or end, not 'bord'" \
        "! line 8: load c: expected bytes of two hexadecimal digits, not '9'" "see a c"
    input "load a" "board 9x" && expect 2 "error 1 load: 1 in error" clash -
    has "! line 2: load a: expected bytes of one or two hexadecimal digits, not '9x'"
    input "load a b" && expect 2 "error 1 load: 1 in error" clash -
    has "! line 1: load a: expected load NAME, one word, not 'b': a title needs a boards line"
    input "lode a" && expect 2 "error 0 loads: 1 fault outside the loads" clash -
    has "! line 1: expected boards or load first, not 'lode'; the file is not read"
    input "boards p" "load a" "board p 90" "ack all" "end 2"
    expect 2 "error 1 load: 1 sent, 1 fault outside the loads" clash -
    has "! line 5: end says 2, and the file has 1 load, the last from line 2"
    : >in && expect 2 "error 0 loads: 1 fault outside the loads" clash - && has "! no load in the file"
    input "load a" "board 90" && expect 0 "ok 1 load: 1 sent, 1 without an ack line" clash -
    holds '[ "$(cat err)" = "rig: standard input: no boards line, so boards are numbered by their rows" ]' "the note"
}

# The night at a glance: 80 columns, no line numbers, marks, several files.
night() {
    : >in
    expect 1 "refused 16: 40 loads: 33 sent, 6 cut, 1 refused" clash "$examples/night.loads" --table
    has "! upload-17  heater limits  thermal     3/5 CUT at byte 2 (FF), 2 not sent" \
        "! upload-40  pass plan      -             - REFUSED 16: attitude begins payload" \
        "see upload-03 upload-10 upload-17 upload-24 upload-31 upload-38 and 1 more"
    holds '[ "$(awk "length > 80" out | wc -l)" = 0 ]' "a line of the table is wider than 80 columns"
    holds '[ "$(grep -c "^!" out)" = 7 ]' "the work list has not seven lines"
    # a comment more moves every line; the table stays
    cp out first
    sed 's/^load/# moved\n\n&/' "$examples/night.loads" >moved.loads
    expect 1 "refused 16: 40 loads: 33 sent, 6 cut, 1 refused" clash moved.loads --table
    holds 'cmp -s first out' "the table has changed though only lines moved"
    # one typing error costs one load
    sed '0,/^board power 50 26 00 00/s//board power 50 26 0O 00/' "$examples/night.loads" >typo.loads
    expect 2 "error 40 loads: 32 sent, 6 cut, 1 refused, 1 in error" clash typo.loads --table
    has "! line 7: load upload-01: expected bytes of two hexadecimal digits, not '0O'"
    expect 2 "error 41 loads: 34 sent, 6 cut, 1 refused, 1 fault outside the loads" \
        clash "$examples/p8.loads" none "$examples/night.loads"
    has "file none" "! cannot open none: no such file" "file $examples/night.loads"
}

# A night by rounds: who loses tries again, equal messages finish together, and what is expected is of round 1.
rounds() {
    : >in
    expect 1 "refused 43: 6 loads: 3 sent, 1 not as expected, 2 refused, 1 without an ack line" night "$examples/rounds.loads"
    has "  round 1  80 00                    sent by 1 thermal, 3 memory" "  round 2  82 00                    sent by 0 power, 2 radio" \
        "  round 2  50 26 / 52 00            sent by 0 power" "  NOT AS EXPECTED: line 45 expects power 2/2" \
        "see refused-43 refused-16 unexpected"
    load "board p 90 12" "board q 90 0F" "board r -" "ack all" "expect q 2/2" && expect 0 "ok 1 load: 1 sent" night -
    has "  round 1  90 0F                    sent by 1 q" "  round 2  90 12                    sent by 0 p" "  silent 2 r"
    load "board p 90 12" "board q 90 0F" "board r -" "ack all" "expect p 2/2" && expect 3 "look 1 load: 1 not as expected" night -
    load "board p 90" "board q 92" "board r -" && expect 0 "ok 1 load: 1 sent, 1 without an ack line" night -
    has "  note: no ack line, rehearsed as all acknowledged"
    input "load a" "board 90 12" "board 2" "board 90 12" && expect 0 "ok 1 load: 1 sent, 1 without an ack line" night -
    has "  round 1  02                       sent by 1" "  round 2  90 12                    sent by 0, 2"
    input "load x" "board q 50 00" "board p -" "end 1"
    expect 2 "error 40 loads: 32 sent, 8 refused, 1 fault outside the loads" night "$examples/night.loads" --corrections -
    has "! corrections line 1: load x is in none of the files"
    printf 'boards p q\nload x\nboard p 50\nboard q 62\nack all\nend 1\n' >x.loads
    expect 0 "ok 1 load: 1 sent, 1 corrected" night x.loads --corrections -
    has "  corrected 0 p, 1 q" "  round 1  50 00                    sent by 1 q" "  silent 0 p"
    expect 2 "error 2 loads: 2 sent, 1 fault outside the loads" night x.loads none x.loads
    has "file none" "! cannot open none: no such file" "file x.loads"
}

# Which boards a night's refusals are about: 43 before 16, and 16 of any two boards.
rounds_refused() {
    local why="and in a night every byte is acknowledged"
    load "board p -" "board q -" "board r -" && expect 1 "refused 12: 1 load: 1 refused" night -
    has "  refused 12: every board is silent"
    load "board p 90" "board q" "board r -" && expect 1 "refused 13: 1 load: 1 refused" night -
    has "  refused 13: q (line 4) has no bytes"
    load "board p 90" "board q 91" "board r -" && expect 1 "refused 14: 1 load: 1 refused" night -
    has "  refused 14: q (line 4) begins with 91, which is odd, a read"
    load "board p 90" "board q 90 12" "board r -" "ack 1" && expect 1 "refused 15: 1 load: 1 refused" night -
    has "  refused 15: 1 acknowledge (line 6) for the 2 bytes of q (line 4), the longest"
    load "board p 90" "board q 90 12" "board r -" "ack 0 1" && expect 1 "refused 43: 1 load: 1 refused" night -
    has "  refused 43: acknowledge 1 (line 6) is 1, $why"
    load "board p 90 12" "board q 90" "board r 00" "ack all" && expect 1 "refused 16: 1 load: 1 refused" night -
    has "  refused 16: q (line 4) ends with 90, acknowledged, where p (line 3) goes on with 12"
    load "board p 90" "board q 90 / 12" "board r 00" "ack all" && expect 1 "refused 16: 1 load: 1 refused" night -
    has "  refused 16: q (line 4) restarts after 90, acknowledged, where p (line 3) ends"
    load "board p 90 12" "board q 90 / 12" "board r 00" "ack all" && expect 1 "refused 16: 1 load: 1 refused" night -
    has "  refused 16: q (line 4) restarts after 90, acknowledged, where p (line 3) goes on with 12"
    expect 0 "ok 1 load: 1 sent" clash -
}

# Sixteen boards of 64 bytes, alike up to the last: the most rounds, whose numbers stand in two columns.
most_rounds() {
    local alike names=({p..z} xp xq xr xs xt) lines=() i
    alike=$(printf '90 %.0s' {1..63})
    for i in {0..15}; do lines+=("board ${names[i]} $alike$(printf '%02X' $((15 - i)))"); done
    input "boards ${names[*]}" "load x" "${lines[@]}" "ack all" "end 1"
    expect 0 "ok 1 load: 1 sent" night -
    has "  round  1  ${alike}00  sent by 15 xt" "  round 10  ${alike}09  sent by 6 v" "  round 16  ${alike}0F  sent by 0 p"
    holds '[ "$(grep -c "^  round .*  sent by [0-9]* [a-z]*$" out)" = 16 ]' "not sixteen rounds"
    (echo load a && for i in {1..16}; do echo board 90; done) >in
    expect 0 "ok 1 load: 1 sent, 1 without an ack line" night -
    has "  round 1  90                       sent by 0, 1, 2, 3, 4, 5, 6, 7, 8, 9, 10, 11, 12, 13, 14, 15"
}

# Forty loads in a tenth of a second, at the best of five times; four thousand in about ten times as long as four
# hundred.
many_loads() {
    local count begun took best=1000000 times=()
    : >in
    for count in 1 2 3 4 5; do
        begun=${EPOCHREALTIME/./}
        "$rehearsal" clash "$examples/night.loads" >out
        took=$((${EPOCHREALTIME/./} - begun))
        [ $took -ge $best ] || best=$took
    done
    holds "[ $best -lt 100000 ]" "forty loads took $best us"
    for count in 400 4000; do
        (echo boards p q && for ((i = 0; i < count; i++)); do
            printf 'load n%d\nboard p 50 26 %02X\nboard q 50 27\nack all\n' $i $((i % 256))
        done && echo end $count) >many.loads
        begun=${EPOCHREALTIME/./}
        expect 0 "ok $count loads: $count sent" clash many.loads
        times+=($((${EPOCHREALTIME/./} - begun)))
    done
    holds "[ ${times[1]} -lt $((30 * times[0])) ]" "4000 loads took ${times[1]} us, 400 took ${times[0]} us"
}

sessions() {
    input "read 077" && expect 1 "refused 1: 1 of 1 commands refused, the first on line 1" session
    has "refused 1: the address is outside 078h to 07Dh"
    input "readw 079" && expect 1 "refused 2: 1 of 1 commands refused, the first on line 1" session
    has "refused 2: a word access needs an even address"
    input tick && expect 1 "refused 3: 1 of 1 commands refused, the first on line 1" session -
    has "refused 3: the set-up fits neither I2C nor SPI"
    input "" "# hello" "sample 4" && expect 1 "refused 4: 1 of 1 commands refused, the first on line 3" session
    has "refused 4: a level is above 3"
    input "write usicnt 08" "read USICTL1" lines help && expect 0 "ok 4 commands" session
    input "write 078 100" reed "read 123456789012345678901234567890" "tick 1" "power 1" &&
        expect 2 "error 5 of 5 commands not understood, the first on line 1" session
    has "error unknown command 'reed'; try help"
    printf 'lines' >in && expect 0 "ok 1 command" session
    printf 'lines\r\n\t lines \r\n' >in && expect 0 "ok 2 commands" session
    : >in && expect 0 "ok 0 commands" session
    (printf '%05000d\n' 0 && echo lines) >in
    expect 2 "error 1 of 2 commands not understood, the first on line 1" session
    printf 'lines\n\0\nlines\n' >in && expect 2 "error 1 of 3 commands not understood, the first on line 2" session
    expect 0 "ok 26 commands" session "$examples/worked.session"
    expect 0 "ok 153 commands" session "$examples/spi.session"
    has "ok 3C" "ok A5" "ok 4D" "ok 96" "ok sclk=high sdo=low" "ok sclk=released sdo=high"
    input "write USICTL1 80" "write USICTL0 EA" tick lines "sample 0" && expect 0 "ok 5 commands" session
    has "ok sclk=low sdo=released" \
        "ok EA 80 00 00 00 00 latch=1 enable=0 phase=1 seen=1 scl=0 sda=0 stretch=0 sclk=0 sdo=-"
    input "write USICTL0 CA" tick && expect 1 "refused 3: 1 of 2 commands refused, the first on line 2" session
    yes lines | head -n 100000 >in && expect 0 "ok 100000 commands" session
}

traces() {
    local many="more than 4096 samples" no_byte="no byte in any frame"
    input "0 3" "50 4" "60 1" && expect 1 "refused 4 sample 1 (line 2): a level is above 3" decode - && alone
    input "0 3" 50 "60 1" "60 9" &&
        expect 1 "refused 5: stamps and levels differ in number; line 2 has no level" decode - && alone
    seq 0 4096 | sed 's/$/ 3/' >in && expect 1 "refused 6: $many" decode - && alone
    seq 0 99999 | sed 's/$/ 3/' >in && expect 1 "refused 6: $many" decode -
    seq 0 4095 | sed 's/$/ 3/' >in
    expect 3 "look 0 events in 4096 samples, no frame open, 0 bits pending, $no_byte" decode -
    seq 0 4095 | awk '{ print $1, 3 - 2 * ($1 % 2) }' >in
    expect 3 "look 4095 events in 4096 samples, frame open, 0 bits pending, $no_byte" decode -
    input "# stamps" "" "7 3" "7 1" &&
        expect 1 "refused 7 sample 1 (line 4): a stamp is not above the one before it; its stamp is that of line 3" decode - && alone
    expect 1 "refused 8: the reply needs more room than was lent" decode "$examples/clean.trace" --room 7 && alone
    : >in && expect 3 "look 0 events in 0 samples, no frame open, 0 bits pending, $no_byte" decode -
    local short="a phase of SCL is too short for the mode"
    input "START" "A0 ACK" "STOP" "gap 47" && "$rig" encode - <in 2>err >drawn
    expect 0 "ok 3 events in 23 samples, no frame open, 0 bits pending" decode drawn --standard
    sed -i 's/gap 47/gap 46/' in && "$rig" encode - <in 2>err >drawn
    expect 1 "refused 18 sample 3 (line 4): $short" decode drawn --standard && alone
    expect 0 "ok 3 events in 23 samples, no frame open, 0 bits pending" decode drawn --fast
    sed -i 's/gap 46/gap 12/' in && "$rig" encode - <in 2>err >drawn
    expect 1 "refused 18 sample 3 (line 4): $short" decode --fast drawn && alone
    expect 0 "ok 3 events in 23 samples, no frame open, 0 bits pending" decode drawn
    input "1 x" && expect 2 "error line 1: expected STAMP LEVEL, two decimal numbers, not 'x'" decode -
    input "1 2 3" && expect 2 "error line 1: expected STAMP LEVEL, two decimal numbers, not '3'" decode -
    input "4294967296 3" && expect 2 "error line 1: the stamp is above 4294967295: '4294967296'" decode -
    input "4294967295 256" && expect 2 "error line 1: the level is above 255: '256'" decode -
    expect 0 "ok 8 events in 98 samples, no frame open, 0 bits pending" decode "$examples/clean.trace"
}

# Captures that once made bytes up and ended with ok.
captures() {
    expect 3 "look 7 events in 82 samples, no frame open, 0 bits pending, 1 cut byte, 1 long gap" \
        decode "$examples/lost.trace"
    has "note: no sample from 2550 to 3400 (line 34), 17 times the usual gap: samples may be lost there" \
        "2000: A0 write ACK" "3750: 10 ACK doubtful" "5550: 1F NACK doubtful"
    expect 3 "look 16 events in 98 samples, no frame open, 0 bits pending, no byte in any frame" \
        decode "$examples/exchanged.trace"
    expect 3 "look 5 events in 60 samples, frame open, 5 bits pending, value 06h, 1 cut byte, 1 long gap" \
        decode "$examples/damaged.trace"
    expect 1 "$(crossed 48 50 "34 to 49" "50 to 65")" decode "$examples/crossed.trace" && alone
}

# crossed SAMPLE LINE LINES LINES: what is said of the sample on this line
crossed() {
    printf 'refused 7 sample %s (line %s): a stamp is not above the one before it; ' "$1" "$2"
    printf 'lines %s and %s look exchanged: rig sort puts samples in order' "$3" "$4"
}

# A capture in the order of its stamps: the crossed example is the clean one again.
sorts() {
    local looks="this looks like a Value Change Dump: did you mean rig decode?"
    : >in
    expect 0 "ok 98 samples, 1 out of order" sort "$examples/crossed.trace"
    holds 'cmp -s <(grep -v "^ok" out) <(grep -v "^#" "$examples/clean.trace")' "not the samples of the clean trace: $(cat out)"
    "$rig" decode "$examples/clean.trace" >first 2>err
    "$rig" sort "$examples/crossed.trace" 2>err | "$rig" decode - >second 2>>err
    holds "[ $? = 0 ] && cmp -s first second" "sorted and decoded: $(cat second)"
    "$rig" dump "$examples/clean.trace" >first 2>err
    "$rig" sort "$examples/crossed.trace" 2>err | "$rig" dump - >second 2>>err
    holds "[ $? = 0 ] && cmp -s first second" "sorted and dumped: $(cat second)"
    expect 0 "ok 98 samples, all in order" sort "$examples/clean.trace"
    expect 3 "look 0 samples" sort - && alone
    input "60 1" "70 3" "# late" "40 2" "50 3" "ok" "20 0" "30 1" "0 3" "10 1"
    expect 0 "ok 8 samples, 3 out of order" sort -
    holds '[ "$(head -n 8 out | tr "\n" ,)" = "0 3,10 1,20 0,30 1,40 2,50 3,60 1,70 3," ]' "four packets: $(cat out)"
    expect 1 "$(crossed 2 4 "1 to 2" "4 to 5")" decode - && alone
    input "7 3" && expect 0 "ok 1 sample, all in order" sort - && has "7 3"
    expect 2 "error line 1: expected STAMP LEVEL, two decimal numbers, not '\$timescale'; $looks" sort "$examples/case.vcd" && alone
}

# What cannot be sorted: two samples with one stamp, and what decode refuses but for the order.
sorts_refused() {
    local many="more than 4096 samples"
    input "9 3" "8 3" "# again" "7 3" "8 1" "9 1"
    expect 1 "refused 7 sample 3 (line 5): its stamp is that of line 2" sort - && alone
    input "0 3" "50 4" "50 1" && expect 1 "refused 4 sample 1 (line 2): a level is above 3" sort - && alone
    input "0 3" 50 "50 9" && expect 1 "refused 5: stamps and levels differ in number; line 2 has no level" sort - && alone
    seq 4096 -1 0 | sed 's/$/ 3/' >in && expect 1 "refused 6: $many" sort - && alone
    seq 4096 -1 1 | sed 's/$/ 3/' >in && expect 0 "ok 4096 samples, 4095 out of order" sort -
    holds 'cmp -s <(head -n 4096 out) <(seq 4096 | sed "s/$/ 3/")' "4096 samples that fall"
    input "1 x" && expect 2 "error line 1: expected STAMP LEVEL, two decimal numbers, not 'x'" sort - && alone
    input "4294967296 3" && expect 2 "error line 1: the stamp is above 4294967295: '4294967296'" sort - && alone
    input "5 3" "4 256" && expect 2 "error line 2: the level is above 255: '256'" sort - && alone
}

# captured EVENTS..: a file of samples that shows these events, from stamp 1000 on, 50 apart
captured() { printf '%s\n' "start 1000" "$@" | "$rig" encode 2>>err | grep -v '^ok' >capture; }

# frames BYTES..: the events of a frame for each word, its bytes with commas between
frames() {
    local frame
    for frame in "$@"; do
        printf 'START\n'
        printf '%s' "$frame" | sed 's/,/ ACK\n/g; s/$/ ACK\n/'
        printf 'STOP\n'
    done
}

# on_bus BYTES..: a capture of these frames
on_bus() { frames "$@" >events && captured "$(cat events)"; }

# A capture against a rehearsal: losers that send again, in any order; another winner; what is not on the bus.
matches() {
    local won="p8 as rehearsed, 2 bytes, won by second" lost="p8, message of first, waiting since frame"
    input "boards first second" "load p8 P8" "board first 90 12" "board second 90 0F" "ack all" \
        "load later" "board first 80" "board second -" "ack all" "end 2"
    on_bus 90,0F 90,12 80
    expect 0 "ok 3 frames: 2 as rehearsed, 1 waited" match capture -
    has "frame 1, 1050 to 3000: $won" "frame 2, 3050 to 5000: $lost 1" \
        "frame 3, 5050 to 6100: later as rehearsed, 1 byte, won by first"
    on_bus 90,0F 80 90,12
    expect 0 "ok 3 frames: 2 as rehearsed, 1 waited" match capture -
    has "frame 3, 4150 to 6100: $lost 1"
    on_bus 90,12 90,0F 80
    expect 3 "look 3 frames: 1 as rehearsed, 1 waited, 1 different" match capture -
    has "frame 1, 1050 to 3000: p8 differs at byte 1 bit 3: rehearsed 0F, bus 12; those are first's bytes" \
        "frame 2, 3050 to 5000: p8, message of second, waiting since frame 1"
    on_bus 90,0F 55 80
    expect 3 "look 3 frames: 2 as rehearsed, 1 not rehearsed; 1 message not on the bus" match capture -
    has "frame 2, 3050 to 4100: not rehearsed: 55 ACK" "not on the bus: p8, message of first, waiting since frame 1"
    on_bus 80
    expect 3 "look 1 frame: 1 as rehearsed; 1 load not on the bus" match capture -
    has "not on the bus: p8"
    on_bus 90,0F 90,12 80
    expect 3 "look 3 frames: 1 as rehearsed, 1 waited, 1 not rehearsed" match capture - p8
    : >capture && expect 3 "look 0 frames; 2 loads not on the bus" match capture -
}

# A capture that is not read, loads that are wrong or refused, tonight's corrections.
matches_refused() {
    : >in
    expect 1 "$(crossed 48 50 "34 to 49" "50 to 65")" match "$examples/crossed.trace" "$examples/pass.loads" && alone
    on_bus 90,0F
    expect 2 "error 1 frame: 1 not rehearsed; 1 fault in the loads" match capture none
    has "! cannot open none: no such file"
    input "boards p q" "load x" "board p 90 0F" "board q -" "load y" "board p 1" "board q -" \
        "load z" "board p 90" "board q 90 0F" "end 3"
    expect 2 "error 1 frame: 1 as rehearsed; 1 load refused, 1 load in error, 1 fault in the loads" match capture -
    has "no rehearsal: y, in error" "no rehearsal: z, refused" "frame 1, 1050 to 3000: x as rehearsed, 2 bytes, won by p"
    input "boards p q" "load x" "board p 90 0F" "board q -" "load z" "board p 90" "board q 90 0F" "end 2"
    expect 1 "refused 16: 1 frame: 1 not rehearsed; 1 load refused" match capture - z
    has "frame 1, 1050 to 3000: not rehearsed: 90 ACK, 0F ACK"
    expect 2 "error 1 frame: 1 not rehearsed; 1 fault in the loads" match capture - w
    has "! no load 'w' in the files"
    input "boards p" "load x" "board p 90 00" "ack all" "end 1"
    expect 3 "look 1 frame: 1 different; 1 message not on the bus" match capture -
    printf 'load x\nboard p 90 0F\nend 1\n' >tonight
    expect 0 "ok 1 frame: 1 as rehearsed" match capture - --corrections tonight
    input "load x" "board 90 0F" "board 90 12" && expect 3 "look 1 frame: 1 as rehearsed; 1 message not on the bus" match capture -
    has "frame 1, 1050 to 3000: x as rehearsed, 2 bytes, won by board 0" \
        "not on the bus: x, message of board 1, waiting since frame 1"
}

# A long capture: every sample ten times over is read without those that change no level.
thinned() {
    local many="more than 4096 samples"
    on_bus 90,0F 90,12 80,01,02,03,04,05,06,07,08,09 90,0F 90,12 80,01,02,03,04,05,06,07,08,09
    awk '{ for (i = 0; i < 10; i++) print $1 * 10 + 50 * i, $2 }' capture >long
    cp long in && expect 1 "refused 6: $many" decode -
    expect 0 "ok 40 events in 5290 samples, no frame open, 0 bits pending" decode - --thin
    awk '{ print $1 * 10, $2 }' capture >in && "$rig" decode - <in 2>err | grep : >first
    "$rig" decode long --thin 2>>err | grep : >second
    holds "cmp -s first second" "thinned, other events: $(diff first second | head -n 3)"
    # a packet that is lost in a long capture
    awk 'NR < 2000 || NR > 2200' long >in && "$rig" decode - --thin <in >out 2>err
    holds "[ $? = 3 ]" "a lost packet in a long capture: $(tail -n 1 out)"
    holds 'grep -q "^note: no sample from" out && tail -n 1 out | grep -q "1 long gap$"' "a lost packet: $(tail -n 1 out)"
    seq 0 65536 | sed 's/$/ 3/' >in && expect 2 "error line 65537: more than 65536 samples" decode - --thin && alone
    seq 0 65535 | sed 's/$/ 3/' >in && expect 3 "look 0 events in 65536 samples, no frame open, 0 bits pending, no byte in any frame" decode - --thin
    seq 1 4097 | awk '{ print $1, $1 % 2 }' >in && expect 1 "refused 6: $many" decode - --thin && alone
    input "0 3" "1 4" "1 3" && expect 1 "refused 4 sample 1 (line 2): a level is above 3" decode - --thin && alone
    input "0 3" "2 3" "2 1" && expect 1 "refused 7 sample 2 (line 3): a stamp is not above the one before it; its stamp is that of line 2" decode - --thin
    input "0 3" 1 && expect 1 "refused 5: stamps and levels differ in number; line 2 has no level" decode - --thin && alone
}

lists() {
    local forms="START, repeated START, STOP, cut byte, HH ACK, HH NACK or event numbers"
    input 512 160 && expect 1 "refused 9: the event list is not complete" encode && alone
    input "gap 0" "512 160 514" && expect 1 "refused 10: the gap is 0 or above 1000" encode && alone
    input "gap 99999999999999999999999" "512 160 514" && expect 1 "refused 10: the gap is 0 or above 1000" encode
    input "gap 1000" "512 160 514" && expect 0 "ok 23 samples" encode
    (printf '512 '; yes 165 | head -n 227 | tr '\n' ' '; echo 514) >in && expect 0 "ok 4091 samples" encode -
    (printf '512 '; yes 165 | head -n 228 | tr '\n' ' '; echo 514) >in
    expect 1 "refused 6: more than 4096 samples" encode - && alone
    input "start 4294967195" "512 160 514" && expect 1 "refused 11: the last stamp is above 4294967295" encode && alone
    input "512 160 514" && expect 1 "refused 8: the reply needs more room than was lent" encode --room 22 && alone
    input && expect 0 "ok 1 sample" encode
    input "start x" && expect 2 "error line 1: expected start N, from 0 to 4294967295, not 'x'" encode
    input gap && expect 2 "error line 1: expected gap N" encode
    input "A1 write ACK" && expect 2 "error line 1: an even address byte is a write, an odd one a read: 'A1'" encode
    seq 5000 >in && expect 2 "error line 4097: more than 4096 events" encode
    input "50: gap 3" && expect 2 "error line 1: expected $forms, not 'gap'" encode
    input "A0 ACK doubtful" && expect 2 "error line 1: expected $forms, not 'A0'" encode
}

# A file of another kind is known, and what is drawn is read back and drawn again with its stamps.
round_trips() {
    local forms="START, repeated START, STOP, cut byte, HH ACK, HH NACK or event numbers"
    local trace="this looks like a trace: did you mean rig decode?"
    local list="this looks like an event list: did you mean rig encode?"
    local loads="this looks like a file of loads: did you mean rig clash?"
    grep -v '^#' "$examples/clean.trace" >in
    expect 1 "refused 9: the event list is not complete; $trace" encode
    input START "A0 write ACK" STOP
    expect 2 "error line 1: expected STAMP LEVEL, two decimal numbers, not 'START'; $list" decode -
    input "boards p" && expect 2 "error line 1: expected $forms, not 'boards'; $loads" encode
    expect 2 "error line 1: expected STAMP LEVEL, two decimal numbers, not 'boards'; $loads" decode -
    "$rig" encode "$examples/message.events" 2>err | tee first | "$rig" decode - | tee events | "$rig" encode >second
    holds 'cmp -s first second' "encode, decode and encode again: another trace"
    holds 'grep -qx "start 1000" events && grep -qx "gap 50" events' "start and gap are lost"
    holds 'grep -v "^#" "$examples/clean.trace" | cmp -s - <(grep -v "^ok" first)' "examples/clean.trace is another"
}

# A full disk, closed streams, a reader that goes, a program that is killed.
streams() {
    local words
    "$rig" clash "$examples/night.loads" >/dev/full 2>err
    holds "[ $? = 2 ]" "a full disk ends with another status"
    holds '[ "$(cat err)" = "rig: error: not all output could be written" ]' "a full disk: $(cat err)"
    "$rig" help >/dev/full 2>err
    holds "[ $? = 2 ]" "help on a full disk ends with another status"
    for words in "clash $examples/p8.loads" "help" "--version"; do
        # shellcheck disable=SC2086
        "$rig" $words >&- 2>err
        holds "[ $? = 2 ] && grep -q 'not all output' err" "rig $words, standard output closed: $(cat err)"
    done
    for words in "clash -" "decode -" "draw - x" encode "match - $examples/p8.loads" "match $examples/pass.trace -" "night -" \
        session "sort -"; do
        # shellcheck disable=SC2086
        timeout 20 "$rig" $words <&- >out 2>err
        holds "[ $? = 2 ]" "rig $words, standard input closed: another status"
        holds 'grep -q "cannot read standard input: it is not open" out' "rig $words <&-: $(cat out)"
    done
    "$rig" clash "$examples/p8.loads" <&- >out 2>err
    holds "[ $? = 0 ]" "a file, with standard input closed: $(tail -n 1 out)"
    yes lines | head -n 200000 >many.session
    { "$rig" session many.session 2>err; echo $? >status; } | head -n 1 >out
    holds '[ "$(cat status)" = 2 ] && grep -q "closed before the end" err' "a reader that goes: $(cat status err)"
    early "kill -9 \$\$" "by signal 9"
    early "kill -SEGV \$\$" "by signal 11"
    early "exit 3" "with status 3"
    early "true" "without a last line"
}

# early COMMAND WORDS: a program that ends so, in the middle of a line
early() {
    printf '#!/bin/sh\nprintf "load x\\n  WO"\n%s\n' "$1" >early.sh
    chmod +x early.sh
    RIG_PROGRAM=$work/early.sh "$rig" clash x >out 2>err
    holds "[ $? = 2 ]" "$1: another status"
    has "error the program ended early, $2: not all was done" "  WO"
}

# At a terminal a command that reads standard input says that it waits; one that reads a file does not.
terminal() {
    command -v script >/dev/null || return 0
    local words
    for words in encode "encode - --room 5" session "clash -" "decode -" "draw - x" "draw - x --svg" "dump -" \
        "match - $examples/p8.loads" "match $examples/pass.trace -" "night -" "sort -"; do
        printf '\004' | script -qec "$rig $words" /dev/null >out 2>&1
        holds 'grep -q "^rig: waiting for .*Ctrl-D" out' "rig $words at a terminal: $(cat out)"
    done
    for words in "clash $examples/p8.loads" "draw $examples/p8.loads p8" "night $examples/p8.loads"; do
        printf '\004' | script -qec "$rig $words --corrections -" /dev/null >out 2>&1
        holds 'grep -q "^rig: waiting for corrections; Ctrl-D" out' "corrections at a terminal: $(cat out)"
        printf '\004' | script -qec "$rig $words" /dev/null >out 2>&1
        holds '! grep -q waiting out' "a file is read, and it says that it waits"
    done
    for words in clash decode draw dump match night sort; do
        printf '\004' | script -qec "$rig $words" /dev/null >out 2>&1
        holds '! grep -q waiting out' "rig $words has no file, and says that it waits"
    done
}

# A dump is alone on standard output; how it went stands on standard error.
dumps() {
    local bad
    input "5 3" "6 3" "9 1" && "$rig" dump - <in >out 2>err
    holds "[ $? = 0 ] && cmp -s out '$examples/case.vcd'" "the dump of document 02: $(cat out)"
    holds 'grep -qx "rig: ok 142 bytes for 3 samples" err' "the last line of a dump: $(cat err)"
    for bad in "1 refused 19: the trace has no sample" "1 refused 4 sample 0 (line 1): a level is above 3|5 4" \
        "1 refused 7 sample 1 (line 2): a stamp is not above the one before it; its stamp is that of line 1|5 3|5 1" \
        "1 $(crossed 2 3 2 3)|4 3|6 1|5 3" \
        "2 error line 1: expected STAMP LEVEL, two decimal numbers, not 'x'|x"; do
        printf '%s\n' "$bad" | tr '|' '\n' | tail -n +2 >in
        "$rig" dump - <in >out 2>err
        holds "[ $? = ${bad%% *} ] && [ ! -s out ]" "a dump that fails: $(cat out err)"
        bad=${bad%%|*}
        holds '[ "$(cat err)" = "rig: ${bad#* }" ]' "a dump that fails: $(cat err), expected ${bad#* }"
    done
    input && expect 2 "" dump none && holds 'grep -q "rig: error cannot open none: no such file" err' "no file to dump"
    "$rig" clash "$examples/night.loads" --trace upload-17 >drawn 2>err
    holds "[ $? = 3 ]" "the trace of a load that is cut: $(tail -n 1 drawn)"
    expect 0 "ok 5 events in 59 samples, no frame open, 0 bits pending" decode drawn && has "2800: FF NACK"
    "$rig" dump drawn >out 2>err
    holds "[ $? = 0 ] && grep -qx '#2900' out" "the dump of a load: $(cat err)"
    expect 1 "refused 16: 1 load: 1 refused" clash "$examples/night.loads" --trace upload-40 && alone
    expect 2 "error 0 loads: 1 fault outside the loads" clash "$examples/night.loads" --trace nix
    has "! no load 'nix' in the files"
    expect 2 "error expected a load after --trace" clash x --trace
    expect 2 "error --trace goes with none of --table, --registers and --wave" clash x --trace y --wave
    "$rig" dump "$examples/clean.trace" >/dev/full 2>err
    holds "[ $? = 2 ]" "a dump to a full disk: $(cat err)"
}

# A picture of one load: its block with the waveform, a drawing alone on standard output, or a dump.
drawings() {
    local p8=$examples/p8.loads night=$examples/night.loads
    : >in
    expect 0 "ok 1 load: 1 sent" draw "$p8" p8
    has "  byte 0   S|90               |0F                 P" "            1 0 0 1 0 0 0 0 A 0 0 0 0 1 1 1 1 A" \
        '  scl     ""\/\/\/\/\/\/\/\/\/\/\/\/\/\/\/\/\/\/\/"' '  sda     "\/"\.../"\................./"""""""\.../' \
        "  lost                              ^ 0 first"
    expect 3 "look 1 load: 1 cut" draw "$night" upload-17
    holds '[ "$(grep -c "^load " out)" = 1 ] && ! grep -q "^see " out' "one load is drawn: $(cat out)"
    expect 1 "refused 16: 1 load: 1 refused" draw "$night" upload-40
    has "  refused 16: attitude (line 440) ends with 50 18 C4 02, acknowledged, where payload (line 443) goes on with 7E"
    expect 2 "error 0 loads: 1 fault outside the loads" draw "$night" nix
    has "! no load 'nix' in the files"
    expect 0 "ok 1 load: 1 sent, 1 corrected" draw "$night" upload-40 --corrections "$examples/night.corrections"
    has "  corrected 1 thermal, 2 attitude"
    drawn 0 "ok 1 load: 1 sent" "$p8" p8 --svg
    holds 'cmp -s out "$root/docs/arbitration.svg"' "docs/arbitration.svg is not the drawing of p8"
    drawn 3 "look 1 load: 1 cut" --svg "$night" upload-17
    holds '[ "$(head -c 5 out)" = "<svg " ] && [ "$(tail -n 1 out)" = "</svg>" ]' "a drawing: $(cat out)"
    drawn 1 "refused 16: 1 load: 1 refused" "$night" --svg upload-40
    holds '[ ! -s out ]' "a load that is refused is drawn: $(cat out)"
    drawn 2 "error expected a load after the file" "$p8" --svg
    "$rig" draw "$p8" p8 --svg >/dev/full 2>err
    holds "[ $? = 2 ]" "a drawing to a full disk: $(cat err)"
}

# drawn STATUS LAST-LINE WORDS..: ./rig draw WORDS says its last line on standard error, and nothing else there
drawn() {
    local status=$1 last=$2 got
    shift 2
    checks=$((checks + 1))
    "$rig" draw "$@" <in >out 2>err
    got=$?
    [ "$got" = "$status" ] || failed "rig draw $*: status $got, expected $status: $(cat err)"
    [ "$(cat err)" = "rig: $last" ] || failed "rig draw $*: '$(cat err)', expected 'rig: $last'"
    holds '! grep -Eq "^(ok|look|refused|error) " out' "rig draw $*: the last line is on standard output: $(tail -n 1 out)"
}

# A load as a dump: on standard output what `rig dump` makes of its trace, and how that went on standard error.
drawn_dumps() {
    local words
    : >in
    for words in "$examples/p8.loads p8" "$examples/restarts.loads cut-in"; do
        "$rig" clash "${words% *}" --trace "${words#* }" 2>err | "$rig" dump - >first 2>said
        # shellcheck disable=SC2086
        "$rig" draw $words --vcd <in >out 2>err
        holds '[ -s first ] && cmp -s first out' "draw $words --vcd: not the dump of its trace: $(cat out)"
        holds 'grep -qx "$(cat said)" err' "draw $words --vcd: $(cat err)"
    done
    "$rig" draw --vcd "$examples/p8.loads" p8 <in >out 2>err
    holds "[ $? = 0 ] && [ -s out ]" "p8 as a dump: $(cat err)"
    "$rig" draw "$examples/night.loads" upload-40 --vcd >out 2>err
    holds "[ $? != 0 ] && ! grep -q '^[$]' out" "a dump of a load that is refused: $(cat out err)"
    "$rig" draw "$examples/p8.loads" p8 --vcd >/dev/full 2>err
    holds "[ $? = 2 ]" "a dump of a load to a full disk: $(cat err)"
}

# Every load of the examples that goes out is drawn as a document that an XML parser takes.
documents() {
    local file name status parse='import sys, xml.dom.minidom
for name in sys.argv[1:]: assert xml.dom.minidom.parse(name).documentElement.tagName == "svg", name'
    mkdir -p svg
    for file in "$examples"/*.loads; do
        while read -r name; do
            "$rig" draw "$file" "$name" --svg </dev/null >out 2>err
            status=$?
            case $status in 0 | 3) mv out "svg/${file##*/}.$name" ;; esac
            holds "[ -s err ]" "no last line on standard error: $file $name"
        done < <(awk '$1 == "load" { print $2 }' "$file")
    done
    holds '[ "$(find svg -type f | wc -l)" -gt 50 ]' "few drawings: $(find svg -type f | wc -l)"
    input "boards a<b>&amp; q" "load <x&y> 1 < 2 && 2 > 1 ]]> mémo" "board a<b>&amp; 92" "board q 90" "ack all" "end 1"
    "$rig" draw - "<x&y>" --svg <in >svg/escaped 2>err
    holds "[ $? = 0 ] && grep -qF '>0 a&lt;b&gt;&amp;amp; lost<' svg/escaped" "names are escaped: $(cat svg/escaped)"
    command -v python3 >/dev/null || return 0
    python3 -c "$parse" svg/* 2>err
    holds "[ $? = 0 ]" "a drawing that is no XML: $(tail -n 1 err)"
}

# put_dump LINES..: a dump of two wires with a first sample, 76 bytes in four lines, and then these
put_dump() { printf '%s\n' '$var wire 1 ! scl $end' '$var wire 1 " sda $end' '$enddefinitions $end' '#5 1! 1"' "$@"; }

# dump LINES..: such a dump as standard input of the next runs
dump() { put_dump "$@" >in; }

# not_read NUMBER WHERE WORDS HINT: the dump in the file `in` is refused so, on one line
not_read() {
    expect 1 "refused $1 byte $2: $3; $4" decode -
    alone
}

# A dump that is not read is refused with its place, its line, the word there and what to do about it.
dumps_refused() {
    local undeclared="a value of a wire that is not declared" wires two cut again form only
    wires="a dump needs just two wires of one bit, and a value for each at its first stamp"
    two="declare SCL, then SDA, each as wire 1, and dump only these two"
    cut="the text ends inside a line, a command or a section" again="the file may be cut: copy it again"
    form="this is not of the form of a dump with two wires" only="export a Value Change Dump of SCL and SDA alone"
    dump 'x!' && not_read 20 "76 (line 5)" "a value is x or z: 'x!'" "capture from where both lines have a level"
    dump '#9' '0"' '#9'
    not_read 21 "82 (line 7)" "a stamp is not above the one before it: '#9'" "packets may have crossed: export the capture again"
    dump '1%' && not_read 22 "76 (line 5)" "$undeclared: '1%'" "dump only the two wires"
    dump '$comment' && not_read 23 "85 (line 6)" "$cut" "$again"
    printf '$date' >in && not_read 23 "5 (line 1)" "$cut" "$again"
    dump '$var' && not_read 24 "76 (line 5)" "$wires: '\$var'" "$two"
    input '$var reg 1 ! scl $end' && not_read 24 "5 (line 1)" "$wires: 'reg'" "$two"
    input '$date $end' && not_read 24 "11 (line 2)" "$wires" "$two"
    dump '#4294967296'
    not_read 25 "76 (line 5)" "a stamp is above 4294967295: '#4294967296'" "choose a coarser timescale"
    dump 'b1 !' && not_read 27 "76 (line 5)" "$form: 'b1'" "$only"
    printf '\r\n\t$scope\n  class\001\n' >in && not_read 27 "12 (line 3)" "$form: 'class?'" "$only"
    dump && printf '%059923d\n' 0 >>in
    not_read 22 "76 (line 5)" "$undeclared: '$(printf '%032d' 0)..'" "dump only the two wires"
    dump && printf '%059924d\n' 0 >>in
    expect 1 "refused 26: the text is longer than 60000 bytes; dump a shorter time" decode - && alone
    dump && seq 6 4101 | awk '{ print "#" $1, $1 % 2 "!" }' >>in
    expect 1 "refused 6: more than 4096 samples; dump a shorter time" decode - && alone
    sed -i '$d' in
    expect 3 "look 0 events in 4096 samples, no frame open, 0 bits pending, no byte in any frame" decode -
}

# What is read of a dump, what the options ask of it, and which text is one.
dumps_read() {
    local needs="needs stamps that count 100 ns, and this dump" capture=$examples/capture.vcd lines
    local long="refused 26: the text is longer than 60000 bytes; dump a shorter time"
    lines="expected STAMP LEVEL, two decimal numbers, not '\$timescale'; this looks like a Value Change Dump: did you mean rig decode?"
    : >in
    expect 0 "ok 7 events in 99 samples, no frame open, 0 bits pending" decode "$capture" --room 7
    has "# a Value Change Dump whose stamps count 1 us" "start 0" "20: START" "114: 50 write ACK" "212: repeated START" \
        "305: 51 read ACK" "395: 7E NACK" "404: STOP"
    expect 1 "refused 8: the reply needs more room than was lent" decode "$capture" --room 6 && alone
    expect 2 "error --fast $needs counts 1 us" decode "$capture" --fast && alone
    dump && expect 2 "error --standard $needs has no timescale" decode --standard - && alone
    dump 'x!' && expect 1 "refused 20 byte 76 (line 5): a value is x or z: 'x!'; capture from where both lines have a level" decode --fast -
    input START "A0 ACK" STOP "gap 46" && "$rig" encode - <in 2>err | "$rig" dump - >drawn.vcd 2>>err
    expect 1 "refused 18 sample 3 (stamp 138): a phase of SCL is too short for the mode" decode drawn.vcd --standard && alone
    expect 0 "ok 3 events in 23 samples, no frame open, 0 bits pending" decode drawn.vcd --fast
    has "# a Value Change Dump whose stamps count 100 ns" "start 0" "gap 46"
    sed 's/$/\r/; s/ /\t/g' drawn.vcd >in && expect 0 "ok 3 events in 23 samples, no frame open, 0 bits pending" decode -
    (printf '%4096s' '' && cat drawn.vcd) >in && expect 0 "ok 3 events in 23 samples, no frame open, 0 bits pending" decode -
    (printf '%60000s' '' && cat drawn.vcd) >in && expect 1 "$long" decode - && alone
    (printf '%60001s' '' && cat drawn.vcd) >in && expect 2 "error line 1: longer than 4096 bytes" decode - && alone
    (yes '' | head -n 60001 && cat drawn.vcd) >in && expect 2 "error line 60002: $lines" decode - && alone
    (echo && sleep 0.2 && head -c 1 drawn.vcd && sleep 0.2 && tail -c +2 drawn.vcd) | "$rig" decode - >out 2>err
    holds "[ $? = 0 ] && grep -qx 'ok 3 events in 23 samples, no frame open, 0 bits pending' out" "a dump in pieces: $(cat out)"
    (echo 5 3 && sleep 0.2 && echo 6 3) | "$rig" decode - >out 2>err
    holds "[ $? = 3 ] && grep -qx 'start 5' out" "a trace in pieces: $(cat out)"
    (echo '# a dump' && cat drawn.vcd) >in && expect 2 "error line 2: $lines" decode - && alone
    "$rig" dump drawn.vcd >out 2>err
    holds "[ $? = 2 ] && [ ! -s out ]" "a dump of a dump: $(cat out err)"
    holds '[ "$(cat err)" = "rig: error line 1: $lines" ]' "a dump of a dump: $(cat err)"
}

# What is written is read back with the same events, and what is read is drawn again; a dump cut in a line is refused.
dumps_back() {
    local size n capture=$examples/capture.vcd
    "$rig" decode "$capture" | tee first | "$rig" encode >drawn 2>err
    holds "[ $? = 0 ]" "a dump that is read and drawn: $(tail -n 1 drawn)"
    "$rig" decode drawn >second
    holds '[ "$(grep -c "^[0-9]*: " first)" = 7 ]' "a dump of seven events: $(cat first)"
    holds 'cmp -s <(sed -n "s/^[0-9]*: //p" first) <(sed -n "s/^[0-9]*: //p" second)' "drawn and read again: $(cat second)"
    "$rig" clash "$examples/night.loads" --trace upload-17 2>err | "$rig" decode - >first
    "$rig" clash "$examples/night.loads" --trace upload-17 2>err | "$rig" dump - 2>>err | "$rig" decode - >second
    holds "[ $? = 0 ]" "the dump of a load: $(tail -n 1 second)"
    holds '[ "$(wc -l <first)" = 8 ] && tail -n +2 second | cmp -s first -' "the dump of a load has other events: $(cat second)"
    size=$(wc -c <"$capture")
    for ((n = 1; n < size; n += 7)); do
        head -c $n "$capture" >in
        [ -n "$(tail -c 1 in)" ] || continue
        "$rig" decode - <in >out 2>err
        holds "[ $? = 1 ] && grep -q '^refused 23 byte $n (line ' out" "the first $n bytes of capture.vcd: $(tail -n 1 out)"
    done
}

# The dumps of tests/dumps, made by other tools and for each rule, are said to be what is stored beside them.
corpus() {
    local file
    for file in "$root"/tests/dumps/*.vcd; do
        "$rig" decode "$file" >out 2>>err
        holds "cmp -s out '${file%.vcd}.expected'" "${file##*/}: not as stored: $(diff out "${file%.vcd}.expected" | head -n 3)"
    done
}

# A copy of the script with small crates of its own, and an rt that only pretends. No other rt can be reached.
scratch() {
    rm -rf scratch
    mkdir -p scratch/{bin,empty,crates/{rig,rig_clash,rig_match,text,other}/src,crates/text/out}
    cp -r "$rig" "$root/help" "$root/VERSION" "$root/RATTLE-VERSION" "$examples" scratch
    printf 'text:\nother:\nrig: text io # the program\nrig_clash: text\nrig_match: text\n' >scratch/crates.txt
    touch scratch/crates/{rig,rig_clash,rig_match,text,other}/src/lib.rt
    cat >scratch/bin/rt <<'RT'
#!/bin/sh
if [ "$1" = version ]; then cat RATTLE-VERSION 2>/dev/null; exit; fi
name=${PWD##*/}
case "$#:$1:$name" in 1:run:rig) program=$RT_PROGRAM ;; 1:run:rig_clash) program=$RT_CLASH ;; 1:run:rig_match) program=$RT_MATCH ;; *) exit 2 ;; esac
[ -z "$(cat)" ] || exit 2
echo "$name" >>../../tried
exec 3>&1 >&2
if [ "$name" = rig ]; then
    echo "rt: chose --jobs 2 for text"
    for turn in 1 2 3 4 5 6 7 8 9; do sleep "${RT_SLOW:-0}" && echo "fn text::f$turn: proved"; done
    printf 'logic=proved functions=9 ' && for turn in 1 2 3 4 5; do sleep "${RT_SLOW:-0}"; done && echo "sum=0 native=nat"
fi
if [ -e out/kept ] && cmp -s "$program" "out/$name"; then
    echo "rt: nothing has changed since the last proved build, by out/$name.stamp, so nothing is checked now"
else
    echo "rt: chose --jobs 2 for $name"
    if [ "${RT_BAD:-}" = "$name" ]; then echo "logic=not-proved" && exit "${RT_STATUS:-1}"; fi
    mkdir -p out
    cp "$program" "out/$name"
    echo "logic=proved functions=7 axioms=8 sum=0 native=nat"
fi
echo "rt: running out/$name; to give it other input, run that file yourself"
echo "error expected a command" >&3
exit 1
RT
    chmod +x scratch/bin/rt
}

# pretend WORDS..: the copy, with the pretended rt
pretend() {
    env -u RIG_PROGRAM -u RATTLE_HOME RT_PROGRAM="$program" RT_CLASH="$rehearsal" RT_MATCH="$matcher" PATH="${rt_at:-$work/scratch/bin}:/usr/bin:/bin" \
        scratch/rig "$@" >out 2>err
}

# times COUNT PROGRAM: so often was rt asked for the program
times() { [ "$(grep -cx "$2" scratch/tried)" = "$1" ]; }

# The program is built from what it is made of, once, and never held to a stored output. That it ends with another status
# than 0, and what it prints, where rt runs it, is no matter.
building() {
    local calls="clash $examples/p8.loads" crate
    scratch
    # shellcheck disable=SC2086
    RT_SLOW=0.6 RIG_PATIENCE=1 pretend $calls
    holds "[ $? = 0 ]" "the first use: $(tail -n 1 out)"
    holds 'grep -qx "rig: crate 1 of 4: text proved ([89] s)" err' "no count of crates: $(cat err)"
    for crate in "2 of 4: rig" "3 of 4: rig_clash" "4 of 4: rig_match"; do
        holds 'grep -q "^rig: crate $crate proved (" err' "no line for the crate $crate: $(cat err)"
    done
    holds '[ "$(grep -c "^rig: crate 1 of 4: text still at work (" err)" -ge 4 ]' "a silent build: $(cat err)"
    holds '[ "$(paste -sd " " scratch/tried)" = "rig rig_clash rig_match" ]' "other programs were built: $(cat scratch/tried)"
    holds 'cmp -s "$program" scratch/target/bin/rig && cmp -s "$rehearsal" scratch/target/bin/rig_clash && cmp -s "$matcher" scratch/target/bin/rig_match' "not the programs that were built"
    holds 'grep -qx "error expected a command" scratch/target/rig.log' "the log lacks what was said"
    echo "# an edit" >>scratch/examples/night.loads
    touch scratch/crates/other/src/lib.rt scratch/crates/text/out
    # shellcheck disable=SC2086
    pretend $calls
    holds '[ ! -s err ] && times 1 rig' "an example was edited, and it builds again: $(cat err)"
    sleep 1
    touch scratch/crates/text/src/lib.rt
    # shellcheck disable=SC2086
    pretend $calls
    holds 'times 1 rig' "touched and not changed, and it builds again"
    echo "// more" >scratch/crates/text/src/lib.rt
    # shellcheck disable=SC2086
    pretend $calls
    holds 'times 2 rig' "a source has changed, and it does not build"
}

# Where a build fails an older proved program is run, and that is said; the same sources are not tried again.
failing() {
    echo "// wrong" >scratch/crates/rig/src/lib.rt
    RT_BAD=rig pretend clash "$examples/p8.loads"
    holds "[ $? = 0 ]" "the older program is not run: $(tail -n 1 out)"
    holds 'grep -q "could not be proved and built" err && grep -q "this is the program proved on" err' "$(cat err)"
    RT_BAD=rig pretend clash "$examples/p8.loads"
    holds 'times 3 rig && grep -q "was not proved" err' "tried again: $(cat err)"
    echo "// half wrong" >scratch/crates/rig_match/src/lib.rt
    touch scratch/crates/rig{,_clash}/out/kept
    RT_BAD=rig_match RT_STATUS=3 pretend clash "$examples/p8.loads"
    holds "[ $? = 0 ]" "the older programs are not run: $(tail -n 1 out)"
    holds 'grep -q "^rig: crate 2 of 4: rig proved before$" err && grep -q "^rig: crate 4 of 4: rig_match NOT PROVED (" err' "$(cat err)"
    RT_BAD=rig_match pretend clash "$examples/p8.loads"
    holds 'times 5 rig && times 4 rig_match && grep -q "could not be proved and built" err' "what rt could not tell is not tried again: $(cat err)"
    rm scratch/crates/rig{,_clash}/out/kept
    echo "// other" >scratch/crates/rig/src/lib.rt
    rt_at=$work/scratch/empty pretend clash "$examples/p8.loads"
    holds "[ $? = 0 ] && grep -q 'rt was not found' err" "without rt, an older program standing: $(cat err)"
    rm -rf scratch/target
    rt_at=$work/scratch/empty pretend clash "$examples/p8.loads"
    holds "[ $? = 2 ]" "without rt and without a program"
    holds 'grep "^error rt was not found" out | grep -qF "$(cat "$root/RATTLE-VERSION")"' "which rt: $(cat out)"
    holds 'grep -q "PATH (.*scratch/empty" out' "where rt was looked for: $(cat out)"
    rt_at=$work/scratch/empty pretend help clash
    holds "[ $? = 0 ] && [ \"$(tail -n 1 out)\" = 'ok help' ]" "help without rt: $(tail -n 1 out)"
    RT_BAD=rig pretend clash "$examples/p8.loads"
    holds "[ $? = 2 ] && grep -q '^error the program could not be proved and built: ' out" "a failed build: $(cat out)"
}

# What the papers show is what the program says: each line that README shows is one of the outputs it names, and the
# loads of the page for the desk are rehearsed.
papers() {
    local line
    for line in "clash night.loads" "clash night.loads --table" "clash cut.loads" "match astray.trace astray.loads" "night rounds.loads"; do
        # shellcheck disable=SC2086
        (cd "$examples" && "$rig" $line)
    done >all 2>/dev/null
    grep '^    ' "$root/README.md" | cut -c5- | grep -Ev '^(\./rig|\.ci/run|\.\.)' >shown
    holds '[ "$(wc -l <shown)" -gt 15 ]' "README shows $(wc -l <shown) lines of output"
    while IFS= read -r line; do
        holds 'grep -qxF -e "$line" all' "README shows '$line', which nothing prints"
    done <shown
    sed -n '/^    # what the boards send/,/^    end/p' "$root/docs/DESK.md" | cut -c5- >in
    expect 0 "ok 1 load: 1 sent" clash -
    cp in "$work/desk" && input && expect 0 "ok 1 load: 1 sent" night "$work/desk"
}

# The examples' output is what the independent model says: tests/expected has it.
stored() {
    local stored name command file
    for stored in "$root"/tests/expected/*.*; do
        name=${stored##*/}
        command=${name%%.*}
        file=$examples/${name#*.}
        case $command in
            table) "$rig" clash "$file" --table ;;
            whole) "$rig" clash "$file" --registers --wave ;;
            draw) stored_drawing "${name#*.}" ;;
            match) "$rig" match "$file" "${file%.trace}.loads" ;;
            corrected) "$rig" clash "${file%.corrections}.loads" --corrections "$file" ;;
            *) "$rig" "$command" "$file" ;;
        esac >out 2>>err
        holds "cmp -s out '$stored'" "$name: not the stored output: $(diff out "$stored" | head -n 3)"
    done
}

# stored_drawing NAME.loads or NAME.svg: of one load of the example NAME.loads
stored_drawing() {
    local file=$examples/${1%.*}.loads load=cut-in
    case $1 in p8.*) load=p8 ;; esac
    case $1 in
        *.svg) "$rig" draw "$file" $load --svg ;;
        *) "$rig" draw "$file" $load ;;
    esac
}

# The word after the file, in `after`: for draw a load, the first of the file where there is one. No process is started
# for it: there are thousands of runs.
find_after() {
    local word rest
    after=''
    case $1 in draw*) ;; *) return ;; esac
    while read -r word after rest; do [ "$word" != load ] || break; done <"$2" 2>>err
    [ "$word" = load ] && [ -n "$after" ] || after=x
}

# A run of the program on each file, all in one output, with a line between runs that no run prints.
run_on() {
    local command=$1 file after chosen=$program
    case $command in clash* | draw* | night*) chosen=$rehearsal ;; esac
    shift
    for file in "$@"; do
        printf '== %s %s\n' "$command" "$file"
        find_after "$command" "$file"
        # shellcheck disable=SC2086
        "$chosen" $command "$file" ${after:+"$after"} 2>>err
        printf '== status %s\n' $?
    done
}

# The same of match, which reads standard input.
run_match() {
    local file
    for file in "$@"; do
        printf '== match %s\n' "$file"
        "$matcher" match <"$file" 2>>err
        printf '== status %s\n' $?
    done
}

# Each run ended by itself, and its last line is of a known kind.
judge() {
    local runs
    if ! runs=$(awk '
        /^== status/ {
            n++
            if ($3 == 0 && last ~ /^(ok|look|refused [0-9]+[: ]|error )/) next
            print name ": status " $3 ": " last
            bad++
            next
        }
        /^== / { name = $0; last = ""; next }
        { last = $0 }
        END { print n; exit bad > 0 }' all); then
        failed "$runs"
    fi
    checks=$((checks + $(echo "$runs" | tail -n 1)))
}

# beginnings FILE MOST: every twentieth beginning of it, of fewer than so many bytes, in the folder cut
beginnings() {
    local text n
    text=$(cat "$1" && printf .)
    text=${text%.}
    for ((n = 1; n < ${#text} && n < $2; n += 20)); do printf '%s' "${text:0:n}" >"cut/$n.${1##*/}"; done
}

# Every twentieth beginning of each example.
truncated() {
    local file
    mkdir -p cut
    for file in "$examples"/*.*; do beginnings "$file" 3000; done
    run_on "clash --table" cut/*.loads >all
    run_on draw cut/*.loads >>all
    run_on "draw --svg" cut/*.loads >>all
    run_on night cut/*.loads >>all
    run_on "clash $examples/sent.loads --corrections" cut/*.corrections >>all
    run_on "night $examples/sent.loads --corrections" cut/*.corrections >>all
    run_on decode cut/*.trace cut/*.vcd >>all
    "$rehearsal" clash "$examples/astray.loads" --wave >both 2>>err && "$program" decode "$examples/astray.trace" --thin >>both
    beginnings both 100000
    run_match cut/*.both >>all
    run_on dump cut/*.trace >>all
    run_on sort cut/*.trace >>all
    run_on encode cut/*.events >>all
    run_on session cut/*.session >>all
    judge
}

# Four thousand files: a third of random bytes, the rest of random words of the formats, in some the values of a dump.
random() {
    local words=(boards load board ack end expect all - p q r a 90 12 0F 0 1 2 255 256 4294967295 99999999999999999999
        START STOP repeated cut byte ACK NACK write read power tick sample lines readw writew USICNT 078 07F start gap
        512 513 514 515 : 50: ok look '#' $'\n' $'\n' $'\n' $'\t')
    local values=('#6' '#7' '#80' '#90' '#1000' '0!' '1!' '0"' '1"' '0!' '1!' '0"' '1"' '$dumpall' '$end' '$comment' 'x!' 1)
    local text i n bytes=('\x'{{0..9},{a..f}}{{0..9},{a..f}})
    RANDOM=1
    mkdir -p random
    for ((i = 0; i < 4000; i++)); do
        text=
        if ((i % 3 == 0)); then
            for ((n = RANDOM % 60; n > 0; n--)); do text+=${bytes[RANDOM % 256]}; done
            # shellcheck disable=SC2059
            printf "$text" >random/$i
        elif ((i % 10 == 5)); then
            for ((n = RANDOM % 40; n > 0; n--)); do text+="${values[RANDOM % ${#values[@]}]}"$'\n'; done
            put_dump "$text" >random/$i
        else
            if ((i % 2 == 0)); then text=$'boards p q\nload x\n'; fi
            for ((n = RANDOM % 40; n > 0; n--)); do text+="${words[RANDOM % ${#words[@]}]} "; done
            printf '%s' "$text" >random/$i
        fi
    done
    run_on clash random/*0 random/*4 >all
    run_on draw random/*0 random/*4 >>all
    run_on night random/*0 random/*4 >>all
    run_on "clash $examples/sent.loads --corrections" random/*8 >>all
    run_on decode random/*1 random/*5 random/*9 >>all
    run_on sort random/*1 random/*9 >>all
    run_match random/*2 >>all
    run_on encode random/*2 random/*6 >>all
    run_on session random/*3 random/*7 >>all
    judge
}

# A session answers each line by one line, and says one more at the end.
answers() {
    local lines
    cat random/*7 >in
    lines=$(awk 'END { print NR }' in)
    "$program" session <in >out
    holds "[ $(wc -l <out) = $((lines + 1)) ]" "a session of $lines lines has $(wc -l <out) answers"
}

cd "$work" || exit 2
builds="building failing"
# these must reach the pretended rt alone: the true one would prove for minutes
if PATH=/usr/bin:/bin command -v rt >/dev/null; then
    builds=''
    failed "rt stands in /usr/bin or /bin: building is not tried"
fi
if [ -z "${RIG_PROGRAM:-}" ]; then "$rig" build >out || { cat out && exit 1; }; fi
program=$(readlink -f "${RIG_PROGRAM:-$root/target/bin/rig}")
rehearsal=${RIG_PROGRAM:+$program}
matcher=${rehearsal:-$root/target/bin/rig_match}
rehearsal=${rehearsal:-$root/target/bin/rig_clash}
[ -z "${RIG_PROGRAM:-}" ] || export RIG_PROGRAM=$program
for part in commands help slips corrections cut_corrections cut_short refusals most_boards wrong_lines night rounds \
    rounds_refused most_rounds many_loads sessions traces captures sorts sorts_refused matches matches_refused thinned lists round_trips dumps dumps_refused dumps_read \
    dumps_back corpus drawings drawn_dumps documents streams terminal $builds papers stored truncated random answers; do
    $part
done
if [ "$failures" -gt 0 ]; then
    echo "rig tests: $failures of $checks checks FAILED"
    exit 1
fi
echo "rig tests: $checks checks, all passed"
