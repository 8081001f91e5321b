#!/bin/sh
# shellcheck disable=SC2016
# Runs ./voltamar on many command lines and compares exit status, standard output and standard error; then the script around the
# program, over a small tree with a prover that only pretends. With VOLTAMAR in the environment that program is tried, and no script.
# Run by .ci/run.
root=$(cd "$(dirname "$0")/.." && pwd) || exit 2
examples=$root/examples
room=$(mktemp -d) || exit 2
trap 'chmod -R u+w "$room"; rm -rf "$room"' EXIT
chmod 755 "$room"
cd "$room" || exit 2
failures=0
unset RT_JOBS # the gate sets it for its own proofs; the script chooses its number by itself
voltamar=${VOLTAMAR:-$root/voltamar}
program=${VOLTAMAR:-$root/target/program/voltamar}

wrong() {
    echo "cli.sh: $*" >&2
    failures=$((failures + 1))
}
expect() { # WHAT COMMAND..: the command succeeds
    what=$1
    shift
    "$@" || wrong "$what"
}
status_is() { # STATUS WHAT COMMAND..: the command ends with the status; its output goes to got.out and got.err
    want=$1 what=$2
    shift 2
    "$@" >got.out 2>got.err
    got=$?
    [ "$got" = "$want" ] || wrong "$what: status $got, not $want: $(head -c 300 got.err)"
}

# ---- one call: status, standard output, standard error

compare() { # STATUS WORDS..: the output has to be want.out and want.err
    want=$1
    shift
    status_is "$want" "voltamar $*" "$voltamar" "$@"
    cmp -s got.out want.out || wrong "voltamar $*: another standard output: $(head -c 300 got.out | tr -d '\0')"
    cmp -s got.err want.err || wrong "voltamar $*: another standard error: $(head -c 300 got.err)"
}
gives() { # FILE WORDS..: done, and the output is what FILE holds
    cp "$1" want.out
    : >want.err
    shift
    compare 0 "$@"
}
says() { # TEXT WORDS..: done, and the output is TEXT, a printf format
    # shellcheck disable=SC2059
    printf -- "$1" >want.out
    : >want.err
    shift
    compare 0 "$@"
}
complains() { # STATUS TEXT WORDS..: nothing on standard output, and TEXT on standard error
    : >want.out
    # shellcheck disable=SC2059
    printf -- "$2" >want.err
    status=$1
    shift 2
    compare "$status" "$@"
}

make_files() {
    cp "$examples/old.sheet" "$examples/new.sheet" "$examples/lift.sheet" "$examples/lift-revised.sheet" .
    cp "$examples/lift.commands" "$examples/new.commands" .
    : >empty
    mkdir folder
    head -c 30 old.sheet >torn
    head -c 5000 /dev/zero >zeros
    printf '\000\001\000LOWER 0 \000\000\000\000\011\000\000\000\017\000\000\000\000\000\000' >lower
    printf '\000\001\000FLOORS  \003\000\000\000\020\000\000\000\000\017\000\000\000\000\000' >upper
    printf '\000\000\000\000\001\000LOCKED  \000\000\020\000\000\000\000\000\000\000\000\000\000' >number
    printf '\000\000\000\000\001\000LOCKED  \377\377\017\000\020\000\000\000\000\000\000\000\000' >else
    printf '\000\000\000\000\001\000LOCKED  \377\377\017\000\017\002\001\001\001\001\001\001\001' >flag
    head -c 59 old.sheet >four
    term='\005\000\000\000\017\000\000\000'
    # shellcheck disable=SC2059
    {
        printf "\003\000DOORLOCK$term\001BRAKE   $term\011DOORLOCK$term\000\000\000\000" >again
        printf "\002\000        $term\001        $term\000\000\000\000" >blanks
        printf "\001\000        $term\001\001        \003\000\000\000\011\000\000\000\017\000\000\000\000\000\000" >blank
    }
    printf '\237\040\000\000\000' >load
    printf '\236\103\000\000\000' >address
    printf '\236\040\000\000' >short
    printf '\236\020\000\000\000' >between
    printf '\236\017\000\000\000' >wordless
    head -c 9 /dev/zero | tr '\0' '\377' >noise
    { printf '\236\040\000\000\000'; for _ in 1 2 3 4; do printf '\237\000\000\000\000'; done; } >words
    long=$(head -c 5000 /dev/zero | tr '\0' x)
    cut=$(head -c 60 /dev/zero | tr '\0' x)..
    make_samples
}

# A word of samples is a letter, two digits and a line feed, so that line 0 is the letter's lowest bit. The sheet `open`
# takes the words in which it is 1: those with A, C, E.
make_samples() {
    printf '\001\000DOOR    \001\000\000\000\001\000\000\000\000\000\001\002S0 CAPT \010\000\000\000\000\000\000\000\004\000\004\000' >open
    head -c 5 /dev/zero >five
    printf '@00\nA01\nB02\nC03\nD04\n' >samples
    printf 'A01\nC03\n' >taken
    { yes @00 | head -n 4095; echo A95; } >most
    echo A95 >taken95
    { cat most; printf x; } >over
    { cat most samples; } >further
    { cat samples; printf E; } >part1
    { cat samples; printf E0; } >part2
    { cat samples; printf E05; } >part3
    printf E05 >lone
}

samples() {
    for name in old new lift lift-revised; do
        says "$name.sheet: accepted\n" check "$name.sheet"
        gives "$examples/$name.commands" compile "$name.sheet"
        gives "$examples/$name.back" read "$examples/$name.commands"
        gives "$examples/$name.sheet.txt" show "$name.sheet"
        gives "$examples/$name.commands.txt" show --commands "$examples/$name.commands"
        says '' notice "$name.sheet" "$name.sheet"
    done
    gives "$examples/old-new.notice" notice old.sheet new.sheet
    says 'TERM 00 NAME\nTERM 01 ALTR 00000004\nTERM 02 NEW\nRANG 00 GONE\n' notice old.sheet new.sheet
    gives "$examples/lift-revised.notice" notice lift.sheet lift-revised.sheet
    gives "$examples/lift.taken" bench lift.sheet "$examples/lift.words"
    # sum 7 of the revised lift asks for a term that is not there: it stays in state 2, which takes the last six samples. With A for
    # the pair of term 8 it goes to state 4, which takes none (examples/README.md)
    gives "$examples/lift-revised.taken" bench lift-revised.sheet "$examples/lift-revised.words"
    { head -c 375 lift-revised.sheet; printf '\010'; tail -c +377 lift-revised.sheet; } >repaired
    head -c 92 "$examples/lift-revised.taken" >first23
    gives first23 bench repaired "$examples/lift-revised.words"
    # the table of tests/cases runs on the same samples
    for name in old.sheet new.sheet lift.sheet lift-revised.sheet old.commands lift.commands; do
        expect "tests/cases/data/$name is not the sample" cmp -s "$examples/$name" "$root/tests/cases/data/$name"
    done
}

# The table of command lines: tests/cases/args has one word to a line and a line `--` after each case; stdout has what each case says,
# on standard output and on standard error, and its status.
cases() {
    cp -r "$root/tests/cases/data" cases
    set --
    while IFS= read -r word; do
        if [ "$word" = -- ]; then
            (cd cases && "$voltamar" "$@" 2>&1 </dev/null; echo "-- $?")
            set --
        else
            set -- "$@" "$word"
        fi
    done <"$root/tests/cases/args" >transcript
    cmp "$root/tests/cases/stdout" transcript || wrong 'the table of tests/cases gives another transcript'
}

sections() {
    tail -c +2 old.sheet | head -c 34 >part
    gives part section old.sheet 0
    tail -c +37 old.sheet | head -c 21 >part
    gives part section old.sheet 1
    gives part section old.sheet 001
    tail -c +483 lift.sheet | head -c 88 >part
    gives part section lift.sheet 4
    for number in 3 4 5 257 99999999999999999999999999; do says '' section old.sheet $number; done
    complains 2 "two: not a section's number\n" section old.sheet two
    complains 2 "1 : not a section's number\n" section old.sheet '1 '
    complains 2 "-0: not a section's number\n" section -- old.sheet -0
    complains 2 "argument 3: not a section's number\n" section old.sheet ''
    complains 1 "$torn" section torn 0
    complains 1 "$torn" section torn 9
}

torn='torn: refused 1 at 18: count or record incomplete; terms, record 2: 12 of its 17 bytes are there\n'
lower="lower: refused 6 at 2: lower bound is 0; ranges, record 1, slot 0 'LOWER 0 ': lower 0, where 1 is the least\n"
label='label the same as an earlier one of its section'
again="again: refused 19 at 35: $label; terms, record 3, slot 9 'DOORLOCK': the same label as record 1, slot 0\n"
state=": refused 18 at 5: a state's field too big for its place; states, record 1, slot 0 'LOCKED  '"
refusals() {
    complains 1 'empty: refused 1 at 0: count or record incomplete; terms: the count is missing\n' check empty
    complains 1 "$torn" check torn
    complains 1 "$lower" check lower
    complains 1 "$lower" compile lower
    complains 1 "upper: refused 8 at 2: upper bound too big for the mask's lines; ranges, record 1, slot 0 'FLOORS  ': upper 16, where four masked lines hold at most 15\n" check upper
    complains 1 "number$state: number 1048576, where at most 1048575 fits\n" check number
    complains 1 "else$state: else state 16, where at most 15 fits\n" compile else
    complains 1 "flag$state: flag stop1 is 2, where a flag is 0 or 1\n" notice old.sheet flag
    complains 1 "$again" check again
    complains 1 "$again" compile again
    complains 1 "$again" notice old.sheet again
    complains 1 "blanks: refused 19 at 18: $label; terms, record 2, slot 1 '        ': the same label as record 1, slot 0\n" check blanks
    says 'blank: accepted\n' check blank
    complains 1 'four: refused 1 at 59: count or record incomplete; states: the count is missing\n' check four
    complains 1 'zeros: refused 11 at 5: bytes left over; byte 00 hex after the last section\n' compile zeros
    complains 1 "noise: refused 2 at 0: count above the section's most; terms: count 255, where 10 is the most\n" check noise
    complains 1 "short: refused 13 at 0: stream ends inside a command or item; 4 of a command's 5 bytes are there, at the start\n" read short
    complains 1 'load: refused 14 at 0: opcode other than the one due; opcode 9F, where a select (9E) is due, at the start\n' read load
    complains 1 'address: refused 15 at 0: address unknown, not rising, or not the one due; select 43, an address at which no item starts\n' read address
    complains 1 'between: refused 15 at 0: address unknown, not rising, or not the one due; select 10, an address at which no item starts\n' read between
    complains 1 "wordless: refused 13 at 5: stream ends inside a command or item; 0 of a command's 5 bytes are there, after select 0F without its word\n" read wordless
    complains 1 'words: refused 16 at 0: words that no accepted description writes; select 20, terms, slot 0\n' read words
    complains 1 "$torn" notice torn lower
    complains 1 "$lower" notice old.sheet lower
    says '\000\000\000\000\000' read empty
    printf '   0  terms: 2\n   1  slot 0 "DOORLOCK" target 00000005 mask 0000000F\n  18  *** refused 1 at 18: count or record incomplete\n' >want.out
    # shellcheck disable=SC2059
    printf "$torn" >want.err
    compare 1 show torn
}

# which samples a sheet takes; its own refusals come first, and nothing is written beside a complaint
too_many='refused 20 at 4096: too many samples (the place is the most); more than 16384 bytes, where a run takes at most 4096 samples of four bytes; head -c 16384 keeps the first 4096'
left_over='left over behind the last whole word, where a word has four bytes'
benches() {
    gives taken bench open samples
    says '' bench open empty
    says '' bench five samples
    says '' bench five empty
    says 'A95\n' bench open most
    says '' bench five most
    complains 1 "over: $too_many\n" bench open over
    complains 1 "further: $too_many\n" bench five further
    complains 1 "standard input: $too_many\n" bench open - <further
    complains 1 "part1: 1 byte $left_over\n" bench open part1
    complains 1 "part2: 2 bytes $left_over\n" bench open part2
    complains 1 "part3: 3 bytes $left_over\n" bench five part3
    complains 1 "lone: 3 bytes $left_over\n" bench open lone
    for words in samples over part1 empty; do complains 1 "$lower" bench lower $words; done
    complains 1 "$again" bench again samples
    complains 1 'four: refused 1 at 59: count or record incomplete; states: the count is missing\n' bench four samples
    complains 2 'missing: no such file\n' bench missing samples
    complains 2 'missing: no such file\n' bench lower missing
    complains 2 'folder: is a directory\n' bench open folder
    says '' bench open samples -o result
    expect '-o of bench' cmp -s result taken
    for words in over part1; do
        status_is 1 "-o of bench and $words" "$voltamar" bench open $words -o result
        expect "$words leaves the file" cmp -s result taken
    done
    status_is 1 '-o of bench and a refused sheet' "$voltamar" bench lower samples -o unmade
    expect 'a refused sheet makes no file' test ! -e unmade
    # what is taken is a file of samples again, and the sheet takes all of it
    gives taken bench open taken
}

# what is read back is a sheet: its labels are those of the reader, and it compiles to the stream again
labels() {
    for name in old new lift lift-revised; do
        cp "$examples/$name.back" back
        says 'back: accepted\n' check back
        gives "$examples/$name.commands" compile back
    done
    cp "$root/tests/cases/data/longest.commands" .
    says '' read longest.commands -o back
    says 'back: accepted\n' check back
    gives longest.commands compile back
    "$voltamar" show back >shown
    for line in 'slot 0 "T00     "' 'slot 9 "T09     "' 'slot 1 "R01     "' 'slot 1 "E01     "' 'slot 10 "S10     "' 'slot 47 "S47     "' \
        'slot 15 "Q15     "'; do
        expect "the sheet that is read has no $line" grep -qF "$line" shown
    done
}

# file names that look like what the program says, break a line, or look like an option
names() {
    cp old.sheet 'a name: refused 1 at 0'
    cp old.sheet z
    cp old.sheet ./-x
    cp old.sheet "$(printf 'two\nlines')"
    says 'a name: refused 1 at 0: accepted\n' check 'a name: refused 1 at 0'
    complains 2 'another: refused 1 at 0: no such file\n' check 'another: refused 1 at 0'
    complains 2 'z: refused 1: no such file\n' notice 'z: refused 1' z
    complains 2 '0: refused 9: no such file\n' section '0: refused 9' 0
    says 'two?lines: accepted\n' check "$(printf 'two\nlines')"
    complains 2 '-x: no such option\nusage: voltamar check SHEET..\n' check -x
    says '-x: accepted\n' check -- -x
    says './-x: accepted\n' check ./-x
    # a name that is longer than any may be is cut
    complains 2 "$cut: no such verb; the nearest is check, and \`voltamar help\` lists them all\n" "$long"
}

# Bytes of a name, in octal, and how they are shown: controls, C1 controls, what turns a text around, what ends a line, what is no UTF-8
# shellcheck disable=SC2059
shown_names() {
    while read -r bytes shown; do
        name=$(printf "n${bytes}m")
        cp old.sheet "$name"
        says "n${shown}m: accepted\n" check "$name"
        says '' notice --report "$name" new.sheet -o page
        expect "the page has the name with $bytes as it is shown" grep -qxF "Old sheet: $(printf "n${shown}m")" page
        rm "$name"
    done <<'EOF'
\001\033[2J\177 ??[2J?
\233 ?
\302\233\302\200 ??
\302\240 \302\240
\342\200\256x\342\200\252 ?x?
\342\201\246\342\201\251\342\201\252 ??\342\201\252
\330\234\342\200\216\342\200\217\342\200\220 ???\342\200\220
\342\200\250\342\200\251 ??
\303\244\342\202\254\360\237\230\200 \303\244\342\202\254\360\237\230\200
\300\257\340\200\257\355\240\200 ????????
\364\220\200\200\365\377 ??????
\303(\342\202(\360\237\230( ?(??(???(
EOF
}

file_trouble() {
    complains 2 'folder: is a directory\n' check folder
    complains 2 'folder: is a directory\n' read folder
    complains 2 'missing: no such file\n' compile missing
    complains 2 'old.sheet/x: cannot be read\n' compile old.sheet/x
    complains 2 'argument 2: no such file\n' check ''
    complains 2 "$cut: name too long\n" check "$long"
    complains 2 'missing: no such file\n' notice torn missing
    complains 2 'folder: is a directory\n' notice folder missing
    if [ "$(id -u)" != 0 ]; then
        cp old.sheet locked
        chmod 000 locked
        complains 2 'locked: permission denied\n' check locked
    fi
    # several files: each is judged, and the status is the worst
    printf 'old.sheet: accepted\nnew.sheet: accepted\n' >want.out
    # shellcheck disable=SC2059
    printf "$torn" >want.err
    compare 1 check old.sheet torn new.sheet
    echo 'missing: no such file' >>want.err
    compare 2 check old.sheet torn missing new.sheet
}

misuse() {
    status_is 2 'no word at all' "$voltamar"
    "$voltamar" help >overview
    cmp -s got.err overview || wrong 'no word at all: not the overview on standard error'
    complains 2 'usage: voltamar check SHEET..\n' check
    complains 2 'usage: voltamar section [-o FILE] [--force] SHEET N\n' section old.sheet
    complains 2 'usage: voltamar notice [-o FILE] [--report [--no-digest]] OLD NEW\n' notice old.sheet
    complains 2 'usage: voltamar notice [-o FILE] [--report [--no-digest]] OLD NEW\n' notice --force old.sheet new.sheet
    complains 2 'usage: voltamar notice [-o FILE] [--report [--no-digest]] OLD NEW\n' notice --no-digest old.sheet new.sheet
    complains 2 'usage: voltamar compile [-o FILE] [--force] SHEET\n' compile --no-digest old.sheet
    complains 2 'usage: voltamar compile [-o FILE] [--force] SHEET\n' compile --report old.sheet
    complains 2 'usage: voltamar check SHEET..\n' check -o - old.sheet
    complains 2 'usage: voltamar compile [-o FILE] [--force] SHEET\n' compile old.sheet -o
    for words in 'bench open' 'bench open samples samples' 'bench --report open samples' 'bench --commands open samples' 'bench open samples -o'; do
        # shellcheck disable=SC2086
        complains 2 'usage: voltamar bench [-o FILE] [--force] SHEET WORDS\n' $words
    done
    complains 2 '--fast: no such option\nusage: voltamar read [-o FILE] [--force] STREAM\n' read --fast new.commands
    near='no such verb; the nearest is %s, and `voltamar help` lists them all\\n'
    # shellcheck disable=SC2059
    {
        complains 2 "checks: $(printf "$near" check)" checks old.sheet
        complains 2 "notcie: $(printf "$near" notice)" notcie old.sheet new.sheet
        complains 2 "compil: $(printf "$near" compile)" help compil
        complains 2 "bnech: $(printf "$near" bench)" bnech open samples
    }
}

helps() {
    gives overview help
    gives overview --help
    gives overview -h
    for verb in check section compile read notice show bench help; do
        "$voltamar" help $verb >want
        expect "help $verb says how it is called" grep -q "^usage: voltamar $verb" want
        gives want $verb --help
        gives want $verb -h
        expect "the overview names $verb" grep -q "voltamar $verb" overview
        expect "the man page has $verb" grep -q "^.B voltamar $verb" "$root/program/voltamar.1"
    done
    version=$(sed -n 's/^#define VOLTAMAR_VERSION "\(.*\)"/\1/p' "$root/include/voltamar.h")
    says "voltamar $version\n" --version
    expect 'the version in rust/Cargo.toml' grep -q "^version = \"$version\"" "$root/rust/Cargo.toml"
    expect 'the version in the man page' grep -q "voltamar $version" "$root/program/voltamar.1"
}

# the words of the refusals stand in three languages; a number between that no refusal has is no_refusal in the first
meanings() {
    sed -n 's/^ *∷ \("\(.*\)"\|no_refusal\)$/\2/p' "$root/crates/refusal/specs/Words.antt" | awk '$0 != "" { print NR, $0 }' >of_text
    cat >meanings.c <<EOF
#include <stdio.h>
#include "voltamar.h"
int main(void) {
    for (int n = 1; n < 256; n++) printf("%d %s\n", n, voltamar_meaning((uint8_t)n));
}
EOF
    cc -std=c99 "-I$root/include" meanings.c "$root/include/meaning.c" -o meanings || wrong 'include/meaning.c does not compile'
    ./meanings | grep -v " not a refusal's number\$" >of_c
    sed -n 's/^ *\([0-9]*\) => "\(.*\)",$/\1 \2/p' "$root/rust/src/lib.rs" >of_rust
    [ "$(wc -l <of_text)" -ge 21 ] || wrong 'meanings: not found'
    expect 'include/meaning.c has other words' cmp -s of_text of_c
    expect 'rust/src/lib.rs has other words' cmp -s of_text of_rust
}

# ---- where the input comes from and the output goes

inputs() {
    "$voltamar" compile - <lift.sheet | cmp -s - lift.commands || wrong 'standard input'
    { head -c 20 lift.sheet; sleep 0.1; tail -c +21 lift.sheet; } | "$voltamar" compile /dev/stdin | cmp -s - lift.commands || wrong 'a file in pieces'
    mkfifo fifo
    cat old.sheet >fifo &
    gives "$examples/old-new.notice" notice fifo new.sheet
    status_is 1 'a refused sheet from standard input' "$voltamar" check - <torn
    sed 's/^torn/standard input/' <got.err >named
    printf 'standard input%s' "${torn#torn}" | sed 's/\\n$//' >want
    expect 'its name' grep -qF "$(cat want)" named
    complains 2 'standard input: cannot be both sheets\n' notice - - <old.sheet
    complains 2 'standard input: cannot be both the sheet and the words\n' bench - - <open
    "$voltamar" bench - samples <open | cmp -s - taken || wrong 'a sheet of the bench from standard input'
    "$voltamar" bench open - <samples | cmp -s - taken || wrong 'words from standard input'
    head -c 16384 over | "$voltamar" bench open - | cmp -s - taken95 || wrong 'the start of too many words'
    { head -c 6 samples; sleep 0.1; tail -c +7 samples; } | "$voltamar" bench open /dev/stdin | cmp -s - taken || wrong 'words in pieces'
    ln -s "$voltamar" link
    ./link compile lift.sheet | cmp -s - lift.commands || wrong 'by a link'
}

# -o FILE: whole or not at all
output_files() {
    rm -rf made && mkdir made
    while read -r sample words; do
        # shellcheck disable=SC2086
        says '' $words -o made/result
        expect "-o of $words" cmp -s made/result "$examples/$sample"
    done <<EOF
lift.commands compile lift.sheet
lift.back read lift.commands
lift-revised.notice notice lift.sheet lift-revised.sheet
EOF
    says '' section old.sheet 1 -o made/result
    tail -c +37 old.sheet | head -c 21 | cmp -s - made/result || wrong '-o of section'
    cp old.sheet made/result
    status_is 1 '-o of a refused sheet' "$voltamar" notice -o made/result torn new.sheet
    expect 'a refusal leaves the file' cmp -s made/result old.sheet
    status_is 2 '-o of a missing sheet' "$voltamar" compile missing -o made/result
    expect 'a missing sheet leaves the file' cmp -s made/result old.sheet
    (ulimit -f 0; "$voltamar" compile lift.sheet -o made/result 2>&1; echo "status $?") | cat >told
    expect 'a failed write leaves the file' cmp -s made/result old.sheet
    printf 'made/result: cannot be written\nstatus 2\n' | cmp -s - told || wrong "a failed write is told: $(cat told)"
    status_is 2 '-o of a folder' "$voltamar" compile lift.sheet -o folder
    status_is 2 '-o in no folder' "$voltamar" compile lift.sheet -o nowhere/result
    mkfifo made/pipe
    status_is 2 '-o of a fifo' "$voltamar" compile lift.sheet -o made/pipe
    expect 'the fifo is still one' test -p made/pipe
    status_is 2 '-o of a device' "$voltamar" compile lift.sheet -o /dev/null
    expect 'the device is still one' test -c /dev/null
    nothing_beside 'output files'
}

nothing_beside() { # WHAT
    left=$(find . -name '*.voltamar-*' | wc -l)
    [ "$left" = 0 ] || wrong "$1: $left files left beside"
    find . -name '*.voltamar-*' -delete
}

# -o onto a file that is read: by its name, another name of it, a link, a hard link, and by way of standard input
onto_inputs() {
    rm -rf own && mkdir own
    cp lift.sheet own/sheet
    ln -s sheet own/link
    ln own/sheet own/hard
    for target in own/sheet ./own/../own/sheet own/link own/hard; do
        for words in 'compile own/sheet' 'compile -' 'section own/sheet 0' 'notice new.sheet own/sheet' \
            'notice --report own/link new.sheet' 'bench own/hard samples'; do
            # shellcheck disable=SC2086
            complains 2 "$target: is an input too, and would be replaced\n" $words -o $target <own/sheet
            expect "$words -o $target leaves the file" cmp -s own/sheet lift.sheet
        done
    done
    cp samples own/samples
    complains 2 'own/samples: is an input too, and would be replaced\n' bench open own/samples -o own/samples
    complains 2 'torn: is an input too, and would be replaced\n' compile torn -o torn
    expect 'the link is still one' test -L own/link
    echo other >own/other
    says '' compile own/sheet -o own/other
    expect 'a file that is no input is replaced' cmp -s own/other lift.commands
    nothing_beside 'onto an input'
}

as_nobody() { if [ "$(id -u)" = 0 ]; then setpriv --reuid=65534 --regid=65534 --clear-groups "$@"; else "$@"; fi; }
mode_is() { # MODE WHAT
    [ "$(stat -c %a made/moded)" = "$1" ] || wrong "$2: mode $(stat -c %a made/moded), not $1"
}

# the mode of the file that is replaced stays, but for bits that would run it as another; a new file's mode is the usual one
modes() {
    for mode in 600 640 604 755 666; do
        echo before >made/moded
        chmod $mode made/moded
        says '' compile lift.sheet -o made/moded
        expect "-o over mode $mode" cmp -s made/moded lift.commands
        mode_is $mode 'a file that is replaced'
    done
    chmod 6755 made/moded
    says '' compile lift.sheet -o made/moded
    mode_is 755 'a file that runs as its owner'
    for mask in 022:644 077:600; do
        rm -f made/moded
        (umask ${mask%:*}; exec "$program" compile lift.sheet -o made/moded) || wrong "umask ${mask%:*}"
        mode_is ${mask#*:} "umask ${mask%:*}"
    done
}

# a file that may not be written is not replaced, even where its folder would allow it
protected() {
    command -v setpriv >/dev/null || return
    as_nobody test -x "$program" || return
    mkdir made/open
    chmod 777 made/open
    echo before >made/open/result
    chmod 444 made/open/result
    status_is 2 'a file that may not be written' as_nobody "$program" compile lift.sheet -o made/open/result
    expect 'it says so' grep -qx 'made/open/result: not a regular file that can be written' got.err
    [ "$(cat made/open/result)" = before ] || wrong 'a file that may not be written is replaced'
    # a folder that can be written and not read
    chmod 333 made/open
    status_is 0 'a folder that cannot be read' as_nobody "$program" compile new.sheet -o made/open/new
    expect 'the file there' cmp -s made/open/new new.commands
    chmod 755 made/open
}

# names at the limits, and the name that is standard output
long_names() {
    part=$(head -c 255 /dev/zero | tr '\0' y)
    for length in 1 229 230 238 254 255; do
        last=$(printf %s "$part" | head -c $length)
        says '' compile lift.sheet -o "made/$last"
        expect "a last part of $length bytes" cmp -s "made/$last" lift.commands
        (cd made && exec "$program" compile ../new.sheet -o "$last") || wrong "a last part of $length bytes alone"
        expect "a last part of $length bytes again" cmp -s "made/$last" new.commands
    done
    complains 2 "made/y$part: name too long\n" compile lift.sheet -o "made/y$part"
    complains 2 "$cut: name too long\n" compile lift.sheet -o "$long"
    complains 2 'argument 4: no such file\n' compile lift.sheet -o ''
    gives lift.commands compile lift.sheet -o -
    gives lift.commands compile - -o - <lift.sheet
    gives "$examples/old-new.notice" notice -o - old.sheet new.sheet
    expect '-o - makes no file' test ! -e ./-
    says '' compile lift.sheet -o ./-
    expect '-o ./- does' cmp -s ./- lift.commands
    nothing_beside 'long names'
}

# Each system call of replacing a file, made to fail: the file is as it was, or whole where only the folder could not be synced; the
# failure is told, and nothing is left beside
failing_calls() {
    cc -std=c99 -O2 -shared -fPIC "$root/tests/failing.c" -o failing.so || wrong 'tests/failing.c does not compile'
    with() { # CALL WORDS..
        env LD_PRELOAD="$room/failing.so" ASAN_OPTIONS=verify_asan_link_order=0:detect_leaks=0 FAIL="$1" CALLS="$room/calls" "$program" compile "$2" -o made/failing
    }
    while IFS=: read -r status call said; do
        cp old.sheet made/failing
        status_is "$status" "$call fails" with "$call" lift.sheet
        printf "$said" >want
        expect "$call fails: $(cat got.err)" cmp -s got.err want
        case $call in
        sync\ *folder | open\ folder | getentropy | *short) expect "$call fails: the file" cmp -s made/failing lift.commands ;;
        *) expect "$call fails: the file is as it was" cmp -s made/failing old.sheet ;;
        esac
        nothing_beside "$call"
    done <<EOF
2:create:made/failing: cannot be written\\n
2:write:made/failing: cannot be written\\n
2:write nothing:made/failing: cannot be written\\n
2:fchmod:made/failing: cannot be written\\n
2:sync file:made/failing: cannot be written\\n
2:close:made/failing: cannot be written\\n
2:rename:made/failing: cannot be written\\n
2:sync folder:made/failing: is written, but its folder could not be synced\\n
2:open folder:made/failing: is written, but its folder could not be synced\\n
0:sync no folder:
0:getentropy:
0:read short:
0:write short:
EOF
    status_is 2 'read fails' with read lift.sheet
    expect 'read fails: told' grep -qx 'lift.sheet: cannot be read' got.err
    # the file is safe before it has its name, and the name is before the run is done
    rm -f calls
    status_is 0 'no call fails' with none lift.sheet
    printf 'sync file\nrename\nsync folder\n' | cmp -s - calls || wrong "the steps of replacing a file: $(tr '\n' ',' <calls)"
}

# no process is started, and no pipe made: nothing of the system can keep the digests from a page
no_process() {
    nm -D --undefined-only "$root/target/program/voltamar" >imports || wrong 'nm'
    expect 'the program imports calls' grep -q ' fsync' imports
    ! grep -E ' (v?fork|clone|exec[a-z]*|f?exec.*|posix_spawnp?|popen|system|pipe2?|socket[a-z]*)(@|$)' imports || wrong 'the program can start a process'
}

# Signals at any moment: the file is the old one or the new one, nothing is left beside, and the run is done or ends by the signal
kills() {
    cp old.sheet made/killed
    for delay in $(seq 200 100 3000) 3500 4000 5000 6000 8000; do # microseconds
        for signal in TERM INT HUP; do
            timeout --preserve-status -s $signal "$(printf '0.%06d' $delay)" "$program" compile lift.sheet -o made/killed
            echo "$signal $?"
            cmp -s made/killed old.sheet || cmp -s made/killed lift.commands || wrong "a file in pieces after $signal"
        done
    done >ends 2>/dev/null
    grep -vxE '(TERM|INT|HUP) 0|TERM 143|INT 130|HUP 129' ends && wrong 'a signal has another end'
    nothing_beside 'signals'
}

# a signal that is ignored stays so
ignored_signals() {
    mkfifo waits
    for signal in TERM INT HUP; do
        sh -c 'trap "" "$1"; exec "$0" compile waits -o made/ignoring' "$program" $signal &
        waiting=$!
        exec 8>waits
        kill -s $signal $waiting
        cat new.sheet >&8
        exec 8>&-
        wait $waiting || wrong "$signal is ignored, and ends the run"
        expect "the file of a run that ignores $signal" cmp -s made/ignoring new.commands
        rm -f made/ignoring
    done
}

two_at_once() {
    for _ in 1 2 3 4 5 6 7 8; do
        "$voltamar" compile lift.sheet -o made/shared &
        "$voltamar" compile new.sheet -o made/shared &
    done
    wait
    cmp -s made/shared lift.commands || cmp -s made/shared new.commands || wrong 'two runs at once: a mixed file'
    nothing_beside 'two runs at once'
}

# an output that takes nothing
no_output() {
    for words in 'check lift.sheet' 'compile lift.sheet' 'bench open samples' 'show lift.sheet' 'notice old.sheet new.sheet' 'notice --report old.sheet new.sheet' help --version; do
        # shellcheck disable=SC2086
        status_is 2 "closed standard output, $words" sh -c '"$0" "$@" >&-' "$voltamar" $words
        expect "closed standard output, $words: told" grep -qx 'standard output: cannot be written' got.err
        [ -w /dev/full ] || continue
        # shellcheck disable=SC2086
        status_is 2 "a full device, $words" sh -c '"$0" "$@" >/dev/full' "$voltamar" $words
        expect "a full device, $words: told" grep -qx 'standard output: cannot be written' got.err
    done
    status_is 0 'closed standard output and -o' sh -c '"$0" compile lift.sheet -o made/result >&-' "$voltamar"
    expect 'it is written' cmp -s made/result lift.commands
    status_is 1 'closed standard error' sh -c '"$0" check torn 2>&-' "$voltamar"
    status_is 0 'closed standard input' sh -c '"$0" check old.sheet <&-' "$voltamar"
}

terminal() {
    command -v script >/dev/null || return
    for verb in 'compile lift.sheet' 'read lift.commands' 'section lift.sheet 0' 'bench open samples'; do
        status_is 2 "$verb at a terminal" script -qec "$voltamar $verb" /dev/null
        expect "$verb at a terminal: told" grep -q 'is a terminal' got.out
        status_is 0 "$verb --force" script -qec "$voltamar $verb --force" /dev/null
        status_is 0 "$verb -o" script -qec "$voltamar $verb -o made/result" /dev/null
    done
    status_is 0 'a notice at a terminal' script -qec "$voltamar notice old.sheet new.sheet" /dev/null
}

lines_are() { # FILE: the lines of the page are those of the notice
    grep -E '^(TERM|RANG|EDGE|SUMS|STAT) ' page | cmp -s - "$examples/$1" || wrong "the lines of the report are not $1"
}
reports() {
    says '' notice --report old.sheet new.sheet -o page
    for line in 'Old sheet: old.sheet' 'New sheet: new.sheet' "           60 bytes, SHA-256 $(sha256sum <old.sheet | head -c 64)" \
        "           56 bytes, SHA-256 $(sha256sum <new.sheet | head -c 64)" 'Lines by sort: NAME 1, ALTR 1, WORD 0, NEW 1, GONE 1' \
        "    old label 'DOORLOCK', new label 'DOORLK  '" "    old label 'FLOORS  ', new label (no such slot)" 'TERM 01 ALTR 00000004'; do
        expect "the report has no line '$line'" grep -qxF "$line" page
    done
    lines_are old-new.notice
    "$voltamar" notice --report lift.sheet lift-revised.sheet >page
    lines_are lift-revised.notice
    for line in 'Lines by sort: NAME 3, ALTR 4, WORD 2, NEW 3, GONE 3' "    old label 'MOVING  ', new label 'RIDING  '" \
        'SUMS 08 ALTR 0400' '    sources that hit in it: RANG 00' \
        "    Altered: the state's number, else state or flags are others." "    old label 'STOPPED ', new label (no such slot)"; do
        expect "the report has no line '$line'" grep -qxF "$line" page
    done
    # program/main.c has room for the longest sheet and one byte
    cp "$root/tests/cases/data/longest.sheet" "$root/tests/cases/data/longer.sheet" .
    "$voltamar" notice --report old.sheet longest.sheet >page
    expect 'the report on the longest sheet' grep -qxF "           1571 bytes, SHA-256 $(sha256sum <longest.sheet | head -c 64)" page
    complains 1 'longer.sheet: refused 11 at 1571: bytes left over; byte 00 hex after the last section\n' notice --report old.sheet longer.sheet
    "$voltamar" notice --report old.sheet old.sheet >page
    expect 'no alteration' grep -q '^No alteration' page
    cat old.sheet >fifo &
    "$voltamar" notice --report fifo new.sheet >page
    expect 'the digest of what came through a fifo' grep -qF "$(sha256sum <old.sheet | head -c 64)" page
    cp page before
    status_is 1 'the report on a refused sheet' "$voltamar" notice --report old.sheet torn -o page
    expect 'it leaves the page' cmp -s page before
}

# program/sha256.h beside sha256sum: 0 to 200 bytes, and some more
digests() {
    cat >digests.c <<'EOF'
#include <stdio.h>
#include "sha256.h"
int main(void) {
    static uint8_t bytes[100000], digits[SHA256_DIGITS];
    size_t n = fread(bytes, 1, sizeof bytes, stdin);
    for (size_t k = 0; k <= n; k += k < 200 ? 1 : k < 4000 ? 1271 : 31999) {
        sha256(bytes, k, digits);
        printf("%d %.64s\n", (int)k, (const char *)digits);
    }
}
EOF
    cc -std=c99 -Wall -Wextra -Wpedantic -Werror -O2 "-I$root/program" digests.c -o digests || wrong 'program/sha256.h does not compile'
    head -c 100000 /dev/urandom >random
    ./digests <random >own_digests
    while read -r length _; do
        echo "$length $(head -c "$length" random | sha256sum | head -c 64)"
    done <own_digests >their_digests
    [ "$(wc -l <own_digests)" -ge 205 ] || wrong 'digests: too few'
    cmp -s own_digests their_digests || wrong "digests: $(diff own_digests their_digests | head -n 2)"
}

page_by() { # WHAT COMMAND..: the same page
    how=$1
    shift
    status_is 0 "the page $how" "$@"
    cmp -s got.out page || wrong "another page $how"
}
# nothing around the program takes the digests from the page; only --no-digest does
pages() {
    "$program" notice --report old.sheet new.sheet >page
    mkdir -p tools
    printf '#!/bin/sh\nexit 1\n' >tools/sha256sum
    chmod +x tools/sha256sum
    page_by 'without any tool' env PATH="$room" "$program" notice --report old.sheet new.sheet
    page_by 'beside a sha256sum that fails' env PATH="$room/tools:$PATH" "$program" notice --report old.sheet new.sheet
    page_by 'where SIGCHLD is ignored' env --ignore-signal=CHLD "$program" notice --report old.sheet new.sheet
    for limit in 4 5 6; do
        page_by "with descriptors below $limit" sh -c 'ulimit -S -n "$1"; exec "$0" notice --report old.sheet new.sheet' "$program" $limit
    done
    status_is 0 '--no-digest' "$voltamar" notice --report --no-digest old.sheet new.sheet
    grep -Eq '[0-9a-fA-F]{64}' got.out && wrong '--no-digest: a digest'
    mv got.out page
    lines_are old-new.notice
}

# each verb on the longest files, in as much stack as README says that the program needs
little_stack() {
    stack=$(sed -n 's/.* \([0-9]*\) KiB of stack.*/\1/p' "$root/README.md" | head -n 1)
    cp "$root/tests/cases/data/most.words" .
    for words in 'check longest.sheet' 'section longest.sheet 3' 'compile longest.sheet' 'read longest.commands' \
        'notice old.sheet longest.sheet' 'notice --report lift.sheet longest.sheet -o page' 'show longest.sheet' \
        'show --commands longest.commands' 'bench longest.sheet most.words' 'help notice'; do
        # shellcheck disable=SC2086
        status_is 0 "${stack:-256} KiB of stack, $words" sh -c 'ulimit -S -s "$0"; exec "$@"' "${stack:-256}" "$program" $words
    done
}

# where SIGPIPE is ignored no verb undoes it; where it is not, it ends each
pipes() {
    for words in 'notice old.sheet new.sheet' 'notice --report old.sheet new.sheet' 'show lift.sheet'; do
        # shellcheck disable=SC2086
        { sleep 0.1; sh -c 'trap "" PIPE; exec "$0" "$@"' "$program" $words 2>got.err; echo $? >got; } | :
        [ "$(cat got)" = 2 ] || wrong "SIGPIPE ignored, $words: status $(cat got)"
        expect "SIGPIPE ignored, $words: told" grep -qx 'standard output: cannot be written' got.err
        # shellcheck disable=SC2086
        { sleep 0.1; "$program" $words; echo $? >got; } 2>/dev/null | :
        [ "$(cat got)" = 141 ] || wrong "SIGPIPE, $words: status $(cat got)"
    done
}

# ---- the script around the program, in a small tree whose prover pretends: it hands out the real archives

make_tree() {
    mkdir -p tree/crates/one/src tree/crates/voltamar_cli tree/crates/voltamar_c kit/bin
    cp -r "$root/voltamar" "$root/program" "$root/include" "$root/LICENSE" tree
    printf 'one:\nvoltamar_cli: one io\nvoltamar_c: one\n' >tree/crates.txt
    : >tree/crates/one/src/lib.rt
    cat >kit/bin/rt <<EOF
#!/bin/sh
echo "\$* \$RT_JOBS \$TMPDIR" >>"$room/calls"
if [ "\$1" = lib ]; then
    mkdir -p out
    cp "$root/target/staticlib/lib\$2.a" out
    exit
fi
sleep "\${SLOW:-0}" &
echo "\$\$ \$!" >>"$room/proofs"
wait
EOF
    chmod +x kit/bin/rt
}
in_tree() { PATH="$room/kit/bin:$PATH" tree/voltamar "$@"; }
proofs() { wc -l <proofs; }
without_rt() { # the PATH with the usual tools and no prover
    mkdir -p usual
    for tool in sh find cp mv mkdir sed cat dirname readlink rm sleep cc ld as ar chmod awk tail flock setsid id; do
        [ -e "usual/$tool" ] || ln -s "$(command -v $tool)" usual/
    done
    PATH=$room/usual "$@"
}

first_build() {
    make_tree
    status_is 2 'nothing built and no prover' without_rt tree/voltamar --version
    expect 'it says that rt is missing' grep -q 'rt is not on the PATH' got.err
    SLOW=1 in_tree --version >got1 2>err1 &
    sleep 0.3
    SLOW=1 in_tree --version >got2 2>err2 &
    wait
    expect 'two first runs at once: nothing is said' test -s got1
    expect 'two first runs at once: another output' cmp -s got1 got2
    [ "$(proofs)" = 1 ] || wrong "two first runs at once: $(proofs) proofs"
    expect 'the second waits' grep -q 'waiting' err2
    expect 'the first names its log' grep -q 'the log is .*/target/build.log' err1
    [ "$(grep -c 'one is proved, 1 of 2 crates left' err1)" = 1 ] || wrong 'the first names what is proved, once, and how many are left'
    expect 'what it rests on is proved first, several crates at a time' grep -q "^check one $(($(nproc) + 1)) " calls
    expect 'then the archive is made' grep -q '^lib voltamar_cli ' calls
    # shellcheck disable=SC2013
    for memory in $(grep -o '/dev/shm/voltamar.*' calls); do [ ! -e "$memory" ] || wrong "$memory is left in memory"; done
    status_is 0 'a second call' in_tree --version
    [ "$(proofs)" = 1 ] || wrong 'a second call proves again'
    [ ! -s got.err ] || wrong 'a second call says something'
}

later_builds() {
    rm tree/target/program/voltamar
    status_is 0 'a deleted program' without_rt tree/voltamar --version
    [ "$(proofs)" = 1 ] || wrong 'a deleted program is proved again'
    sleep 0.01
    touch tree/crates/one/src/lib.rt
    status_is 0 'sources newer, no prover' without_rt tree/voltamar check old.sheet
    expect 'it says that the older program runs' grep -q 'the older program runs' got.err
    status_is 0 'sources newer' in_tree --version
    [ "$(proofs)" = 2 ] || wrong 'newer sources are not proved'
    mkdir -p tree/crates/one/proofs
    : >tree/crates/one/proofs/Later.antt
    : >tree/program/later
    status_is 0 'and then no more, whatever else is newer' in_tree --version
    [ "$(proofs)" = 2 ] || wrong 'proved without need'
}

runs() { grep -s '^State:' "/proc/$1/status" | grep -qv Z; }
a_signal() {
    touch tree/crates/one/src/lib.rt
    PATH="$room/kit/bin:$PATH" SLOW=20 tree/voltamar --version 2>got.err &
    script=$!
    sleep 0.8
    began=$(date +%s)
    kill -TERM $script
    wait $script && wrong 'a stopped build succeeds'
    [ $(($(date +%s) - began)) -lt 10 ] || wrong 'a stopped build goes on'
    # the prover, and what the prover started
    for process in $(tail -n 1 proofs); do
        runs "$process" && wrong 'a stopped build leaves the prover running'
    done
    status_is 0 'the lock is free again' in_tree --version
}

# a tree that cannot be written, for one who is not root
unwritable() {
    command -v setpriv >/dev/null || return
    as_nobody test -x tree/voltamar || return
    chmod -R a-w tree
    status_is 0 'a tree that cannot be written' as_nobody tree/voltamar --version
    sleep 0.01
    touch tree/crates/one/src/lib.rt
    PATH="$room/kit/bin:$PATH" as_nobody tree/voltamar --version >got.out 2>got.err || wrong 'sources newer in such a tree'
    expect 'it says that the older program runs' grep -q 'the older program runs' got.err
    chmod -R u+w tree
    rm -rf tree/target
    chmod a-w tree
    PATH="$room/kit/bin:$PATH" status_is 2 'nothing built in such a tree' as_nobody tree/voltamar --version
    expect 'it says that target cannot be written' grep -q 'cannot be written' got.err
    chmod -R u+w tree
}

installs() {
    status_is 2 'install without a place' in_tree install
    status_is 0 'install' in_tree install "$room/a prefix"
    rm -rf moved && mv tree moved
    for file in bin/voltamar lib/libvoltamar.a include/voltamar.h lib/pkgconfig/voltamar.pc share/man/man1/voltamar.1; do
        expect "$file is installed" test -s "a prefix/$file"
    done
    "a prefix/bin/voltamar" notice old.sheet new.sheet | cmp -s - "$examples/old-new.notice" || wrong 'the installed program'
    cc -std=c99 -Wall -Wextra -Wpedantic -Werror "-Ia prefix/include" "$root/tests/library.c" "-La prefix/lib" -lvoltamar -o installed_test || wrong 'the installed library'
    (cd "$root" && "$room/installed_test" >/dev/null) || wrong 'the installed library runs'
    expect 'the pkg-config file has the prefix' grep -qx "prefix=$room/a prefix" 'a prefix/lib/pkgconfig/voltamar.pc'
    expect 'the pkg-config file has the version' grep -qx "Version: $version" 'a prefix/lib/pkgconfig/voltamar.pc'
    mv moved tree
}

"$voltamar" --version >/dev/null || wrong 'not built'
make_files
parts='samples cases sections refusals benches labels names shown_names file_trouble misuse helps meanings inputs
    output_files onto_inputs modes protected long_names failing_calls no_process kills ignored_signals two_at_once no_output terminal
    reports digests pages pipes little_stack'
[ -n "${VOLTAMAR-}" ] || parts="$parts first_build later_builds a_signal unwritable installs"
for part in $parts; do
    $part
done
[ "$failures" -eq 0 ] && echo "cli.sh: ok"
[ "$failures" -eq 0 ]
