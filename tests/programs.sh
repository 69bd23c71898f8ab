#!/bin/sh
# The programs sheet and respell: what they print, where, and with which status, on input that is accepted, on input that is refused, and on wrong arguments.
cd "$(dirname "$0")/.." || exit 1
work=$(mktemp -d) || exit 1
trap 'rm -rf "$work"' EXIT
failed=0

fail() {
    printf 'programs.sh: FAILED: %.200s\n' "$*"
    failed=$((failed + 1))
}

# Proves and builds a program; what its run prints is looked at elsewhere.
build() { # NAME WORD..
    name=$1
    shift
    (cd "crates/$name" && rm -f "out/$name" && rt run -- "$@" </dev/null >"$work/log" 2>&1)
    [ -x "crates/$name/out/$name" ] || { cat "$work/log"; echo "programs.sh: FAILED: $name is not built"; exit 1; }
}

# Runs a program on what printf makes of a text, and compares its status and what it writes.
run() { # STATUS INPUT STDOUT STDERR NAME WORD..
    status=$1 input=$2 out=$3 err=$4 name=$5
    shift 5
    printf "$input" | "crates/$name/out/$name" "$@" >"$work/said" 2>"$work/erred"
    [ $? -eq "$status" ] || fail "status of $name $* on $input"
    printf "$out" | cmp -s - "$work/said" || fail "standard output of $name $* on $input"
    printf "$err" | cmp -s - "$work/erred" || fail "standard error of $name $* on $input"
}

build sheet
build respell A

head='\002\002\002\002\000\000\000'
text='\002sWN LFPparticle 1 +500\003'
canonical='\002sWN LFPparticle 1 1F4\003'
binary="$head"'\023sWN LFPparticle \001\001\364\320'

run 0 "$text" 'sWN LFPparticle\nBool 16 1\nUint_16 18 1F4\n' '' sheet
run 0 "$binary" 'sWN LFPparticle\nBool 23 1\nUint_16 25 1F4\n' '' sheet
run 0 '\002sWN LFPparticle 1 +65536\003' 'refused 6 18\n' '' sheet
run 0 '' 'refused 1 0\n' '' sheet
run 0 "$(printf '%065537d' 0)" 'refused 1 0\n' '' sheet
run 0 "$(printf '%065536d' 0)" 'refused 2 0\n' '' sheet
run 1 "$text" '' 'usage: sheet < TELEGRAM\n' sheet A

for spelling in "$text" "$canonical" "$binary"; do
    run 0 "$spelling" "$canonical" '' respell A
    run 0 "$spelling" "$binary" '' respell B
done
run 1 '\002sWN LFPparticle 2 +500\003' '' 'refused 6 16\n' respell B
run 1 '' '' 'refused 1 0\n' respell A
run 1 "$(printf '%065537d' 0)" '' 'refused 1 0\n' respell A
run 1 "$text" '' 'usage: respell A|B < TELEGRAM\n' respell
run 1 "$text" '' 'usage: respell A|B < TELEGRAM\n' respell C
run 1 "$text" '' 'usage: respell A|B < TELEGRAM\n' respell AB
run 1 "$text" '' 'usage: respell A|B < TELEGRAM\n' respell A B

[ "$failed" -eq 0 ] || { echo "programs.sh: $failed comparisons failed"; exit 1; }
echo 'programs.sh: ok'
