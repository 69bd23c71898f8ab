#!/bin/sh
# The viewer in C: proves and builds the static library, compiles the program and the calls over it, and compares what they say with what they should.
cd "$(dirname "$0")/.." || exit 1
work=$(mktemp -d) || exit 1
trap 'rm -rf "$work"' EXIT
failed=0

fail() {
    printf 'viewer.sh: FAILED: %.200s\n' "$*"
    failed=$((failed + 1))
}

compile() { # SOURCE PROGRAM
    "${CC:-gcc}" -std=c11 -O2 -Wall -Wextra -Werror -Icrates/viewer/include "$1" crates/viewer/out/libviewer.a -o "$work/$2"
}

# What stands in $work/said and $work/erred is what printf makes of two texts.
said() { # LABEL STDOUT STDERR
    printf "$2" | cmp -s - "$work/said" || fail "standard output $1"
    printf "$3" | cmp -s - "$work/erred" || fail "standard error $1"
}

# Runs the program on what printf makes of a text.
run() { # STATUS INPUT STDOUT STDERR WORD..
    status=$1 input=$2 out=$3 err=$4
    shift 4
    printf "$input" | "$work/viewer" "$@" >"$work/said" 2>"$work/erred"
    [ $? -eq "$status" ] || fail "status of viewer $* on $input"
    said "of viewer $* on $input" "$out" "$err"
}

accepts() { # FRAMING INPUT ITEMS
    run 0 "$2" "accepted $3\n" '' read "$1"
}

# A refusal is the same to both commands.
refuses() { # FRAMING INPUT NUMBER PLACE
    run 1 "$2" '' "refused $3 $4\n" read "$1"
    run 1 "$2" '' "refused $3 $4\n" respell "$1" A
    run 1 "$2" '' "refused $3 $4\n" respell "$1" B
}

# A spelling in text, the canonical text and the canonical binary, each read and respelt into both framings.
spells() { # TEXT CANONICAL BINARY ITEMS
    for text in "$1" "$2"; do
        accepts A "$text" "$4"
        run 0 "$text" "$2" '' respell A A
        run 0 "$text" "$3" '' respell A B
    done
    accepts B "$3" "$4"
    run 0 "$3" "$2" '' respell B A
    run 0 "$3" "$3" '' respell B B
}

misused() { # WORD..
    run 2 '' '' 'usage: viewer read A|B | viewer respell A|B A|B\n' "$@"
}

(cd crates/viewer && rt lib) >"$work/log" 2>&1 || { cat "$work/log"; echo 'viewer.sh: FAILED: the library is not built'; exit 1; }
# What a program without a C library has to bring along.
needed=$(nm -u crates/viewer/out/libviewer.a | awk '$1 == "U" { print $2 }' | sort -u)
[ "$needed" = memmove ] || fail "names that the library needs: $needed"
compile crates/viewer/c/viewer.c viewer && compile tests/calls.c calls || { echo 'viewer.sh: FAILED: the programs are not compiled'; exit 1; }

head='\002\002\002\002\000\000\000'
spells '\002sMN Run\003' '\002sMN Run\003' "$head"'\007sMN Run\031' 0
spells '\002sAN Run 01\003' '\002sAN Run 1\003' "$head"'\011sAN Run \001\064' 1
spells '\002sWN LFPparticle 1 +500\003' '\002sWN LFPparticle 1 1F4\003' "$head"'\023sWN LFPparticle \001\001\364\320' 2
spells '\002sMN SetAccessMode +3 F4724744\003' '\002sMN SetAccessMode 3 F4724744\003' "$head"'\027sMN SetAccessMode \003\364\162\107\104\263' 2
spells '\002sRA DeviceIdent 06 LMS 10 0 \003' '\002sRA DeviceIdent 6 LMS 10 0 \003' "$head"'\032sRA DeviceIdent \000\006LMS 10\000\000\177' 4
spells '\002sSN LMDscandata 0 1 9F14CE 0 0 2 3 A B 0 0 7 0 0 +2500 021C 0 0 0 0 0 0 0 0\003' \
    '\002sSN LMDscandata 0 1 9F14CE 0 0 2 3 A B 0 0 7 0 0 9C4 21C 0 0 0 0 0 0 0 0\003' \
    "$head"'\104sSN LMDscandata \000\000\000\001\000\237\024\316\000\000\000\002\000\003\000\000\000\012\000\000\000\013\000\000\007\000\000\000\000\000\011\304\000\000\002\034\000\000\000\000\000\000\000\000\000\000\000\000\000\000\000\000\264' 24
run 0 "$head"'\010sMN Run \071' "$head"'\007sMN Run\031' '' respell B B

refuses A '' 1 0
refuses B '' 1 0
refuses A "$(printf '%065537d' 0)" 1 0
refuses B "$(printf '%065537d' 0)" 1 0
refuses A "$(printf '%065536d' 0)" 2 0
refuses A '\002sMN Run' 2 7
refuses B '\002sMN Run\003' 2 1
refuses B "$head"'\007sMN Run\030' 3 15
refuses A '\002sMN run\003' 4 1
refuses B "$head"'\007sMN Ruu\002' 4 8
refuses A '\002sWN LFPparticle 1\003' 5 18
refuses B "$head"'\021sWN LFPparticle \001\045' 5 25
refuses A '\002sWN LFPparticle 1 +65536\003' 6 18
refuses B "$head"'\011sAN Run \002\067' 6 15
refuses A '\002sRA DeviceIdent 21 x\003' 7 16
refuses B "$head"'\023sRA DeviceIdent \000!xS' 7 23
refuses A '\002sMN Run \003' 8 8
refuses B "$head"'\011sMN Run 1\010' 8 16

misused
misused read
misused read C
misused respell A
misused respell A 1
misused write A B
misused read A B

"$work/calls" >"$work/said" 2>"$work/erred" || fail 'status of calls'
said 'of calls' 'read 0: 0 2
read 0: 1 0
read 1: 2 1
read 2: 255 2
read 256: 255 256
read 4294967296: 255 4294967296
read 18446744073709551615: 255 18446744073709551615
respell 7 9 in 64: 255 7, altered 0
respell 7 0 in 64: 255 7, altered 0
respell 0 9 in 64: 255 9, altered 0
respell 0 9 in 0: 255 9, altered 0
respell 0 1 in 0: 6 18, altered 0
respell 0 1 in 64: 6 18, altered 0
respell 0 0 in 0: 9 23, altered 0
respell 0 0 in 22: 9 23, altered 0
respell 0 0 in 23: 0 23, altered 23
respell 0 0 in 64: 0 23, altered 23
respell 0 1 in 27: 9 28, altered 0
respell 0 1 in 28: 0 28, altered 28
respell 0 1 in 64: 0 28, altered 28
' ''

[ "$failed" -eq 0 ] || { echo "viewer.sh: $failed comparisons failed"; exit 1; }
echo 'viewer.sh: ok'
