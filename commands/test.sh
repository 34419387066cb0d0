#!/bin/sh
# Tests of ./simulate, ./cagvost and the host's build script, for when program and library are built (commands/prove.sh). The last
# line is 'N passed, M failed'.
CDPATH= cd -- "$(dirname -- "$0")/.." || exit 1
top=$PWD
. commands/room.sh
room=$(mktemp -d) || exit 1
mkdir -p "$room/files" "$room/fails" "$room/works" "$room/bare" "$room/books" "$room/elsewhere/clone" || exit 1
passed=0
failed=0

# What the command before this one left is as it should be if the words after the first succeed.
should() { # WHAT WORDS...
    what=$1
    shift
    if "$@"; then
        passed=$((passed + 1))
    else
        echo "commands: it should be that $what (status $status)"
        cat "$room/said"
        failed=$((failed + 1))
    fi
}

simulate=./simulate
simulate() {
    TMPDIR="$room/files" "$simulate" "$@" > "$room/listing" 2> "$room/said"
    status=$?
}

ended() { # STATUS LISTING
    [ "$status" = "$1" ] && cmp -s "$room/listing" "$2"
}

# Status 2, nothing on standard output, and on standard error a line with these words.
did_not_run() { # WORDS
    ended 2 /dev/null && grep -q "$1" "$room/said"
}

did_not_run_in_a_line() { # WORDS
    did_not_run "$1" && [ "$(wc -l < "$room/said")" -eq 1 ]
}

says() { # LINE
    grep -qx "$1" "$room/said"
}

does_not_say() { # WORDS
    ! grep -q "$1" "$room/said"
}

# Waits until the words after the first succeed, for at most so many seconds.
within() { # SECONDS WORDS...
    seconds=$1
    shift
    until "$@"; do
        [ "$seconds" -gt 0 ] || return 1
        sleep 1
        seconds=$((seconds - 1))
    done
}

simulate
should "no argument shows the usage" did_not_run '^usage: ./simulate BOOK'
simulate < examples/paper.book
should "no argument shows the usage, with a book on standard input too" did_not_run '^usage: ./simulate BOOK'
simulate examples/paper.book examples/full.book
should "two arguments show the usage" did_not_run '^usage: ./simulate BOOK'
simulate examples/missing.book
should "a missing file is named" did_not_run_in_a_line 'examples/missing.book'
simulate examples
should "a directory is no book" did_not_run_in_a_line 'examples is a directory'

simulate examples/paper.book
should "an accepted book is listed, with status 0" ended 0 examples/paper.txt
should "nothing is proved that is up to date" does_not_say ' proved$'
simulate - < examples/paper.book
should "- is standard input" ended 0 examples/paper.txt
simulate examples/refused_5.book
should "a refused book has status 1" ended 1 examples/refused_5.txt
simulate - < examples/refused_5.book
should "a refused book on standard input has status 1" ended 1 examples/refused_5.txt

simulate - < /dev/null
echo 'refused 1 at 0' > "$room/expected"
should "nothing on standard input is a refused book" ended 1 "$room/expected"

# From another folder, by a relative path that CDPATH would lead astray.
cp examples/paper.book "$room/books/a b.book"
cp examples/refused_5.book "$room/books/-x.book"
{ cat examples/largest.book; head -c 69258 /dev/zero; } > "$room/books/long.book"
head -c 30743 "$room/books/long.book" | crates/simulate/out/simulate > "$room/expected"
ln -s "$top" "$room/books/clone"
cd "$room/books" || exit 1
simulate=clone/simulate
export CDPATH="$room/elsewhere"
simulate 'a b.book'
should "a book is found from another folder, with a space in its name" ended 0 "$top/examples/paper.txt"
simulate -x.book
should "a name that starts with - is a book's too" ended 1 "$top/examples/refused_5.txt"
simulate long.book
should "of 100,000 bytes the first 30,743 count" ended 1 "$room/expected"
unset CDPATH
simulate=./simulate
cd "$top" || exit 1

# In place of rt, one that finds a crate up to date, proves the next, waits until that is said and fails at a third; then none.
cat > "$room/fails/rt" << 'END'
#!/bin/sh
exec >&2 # as rt run does
echo 'rt: chose --jobs 2 for modular'
echo 'fn modular::reduce: proved'
echo 'crate modular: modules loaded=61 checked=0'
echo 'logic=proved functions=1 sum=0'
echo 'rt: chose --jobs 2 for search'
echo 'fn search::one_if: proved'
echo 'crate search: modules loaded=0 checked=53'
echo 'logic=proved functions=1 sum=0'
seconds=0
until grep -q '^search proved' "${0%/*}/../said" || [ "$seconds" = 20 ]; do
    sleep 1
    seconds=$((seconds + 1))
done
[ "$seconds" != 20 ] || echo 'rt: nothing was said in time'
echo 'rt: chose --jobs 2 for inverse'
echo './proofs/inverse/Answers.antt:3:5: error: `returns`: expected another type'
echo 'fn inverse::inverse: not proved'
echo 'crate inverse: modules loaded=20 checked=9'
echo 'logic=not-proved'
exit 1
END
chmod +x "$room/fails/rt"
path=$PATH
PATH=$room/fails:$PATH
simulate examples/paper.book
PATH=$path
should "a failed proof ends with status 2 and what rt said" did_not_run '^fn inverse::inverse: not proved$'
should "each crate that is proved is named" says 'search proved'
should "it is named as it is proved" does_not_say 'nothing was said in time'
should "one that is up to date or fails is not named" does_not_say '^\(modular\|inverse\) proved'
for tool in sh cat chmod dirname find head mktemp rm sleep; do ln -s "$(command -v "$tool")" "$room/bare/$tool"; done
PATH=$room/bare
simulate examples/paper.book
PATH=$path
should "a missing rt is named" did_not_run_in_a_line 'no rt here'

# A folder with these commands alone, where rt builds a program if there is none; then programs that fail or break off.
program=$room/clone/crates/simulate/out/simulate
mkdir -p "${program%/*}" || exit 1
cp -R simulate commands "$room/clone"
cat > "$room/works/rt" << 'END'
#!/bin/sh
[ ! -e out/simulate ] || exit 0
printf '#!/bin/sh\necho verdict clean\n' > out/simulate
chmod +x out/simulate
: > out/simulate.stamp
END
chmod +x "$room/works/rt"
PATH=$room/works:$PATH
simulate=$room/clone/simulate
: > "$program.stamp"
echo 'verdict clean' > "$room/expected"
simulate examples/paper.book
should "a program that is missing is built, whatever the stamp says" ended 0 "$room/expected"
for words in 'exit 3' 'echo verdict clean; exit 3'; do
    printf '#!/bin/sh\n%s\n' "$words" > "$program"
    simulate examples/paper.book
    should "a program that fails is said to ($words)" did_not_run_in_a_line 'ended with status 3'
done
for words in true 'echo outcome 1' 'printf "verdict cl"'; do
    printf '#!/bin/sh\n%s\n' "$words" > "$program"
    simulate examples/paper.book
    should "a listing that breaks off is not shown ($words)" did_not_run_in_a_line 'the listing breaks off'
done
rm -f "$room/clone/.lock"
mkdir "$room/clone/.lock"
simulate examples/paper.book
should "without a file to lock nothing runs" did_not_run_in_a_line '.lock cannot be written'
simulate=./simulate
PATH=$path

# Another build holds the lock until ./simulate has said that it waits, or for a minute.
if command -v flock > /dev/null; then
    (
        . commands/lock.sh
        : > "$room/held"
        within 60 grep -q 'waiting' "$room/said"
    ) &
    within 60 [ -e "$room/held" ]
    simulate examples/paper.book
    wait
    should "a second build waits and says so" grep -q 'another build of this clone' "$room/said"
    should "it runs afterwards" ended 0 examples/paper.txt
fi
should "no temporary file is left" [ -z "$(ls "$room/files")" ]

# The build script with CAGVOST_LIB: a folder without the archive, with a file that is none, and with an archive.
check_host() {
    (cd ./host && CAGVOST_LIB="$room/files" CARGO_TARGET_DIR="$room/cargo" cargo check --offline) > "$room/said" 2>&1
    status=$?
}
host_refuses() {
    [ "$status" != 0 ] && grep -q 'error: .*CAGVOST_LIB is .*libcagvost.a' "$room/said"
}
host_takes() { # FOLDER
    [ "$status" = 0 ] && grep -q "link-search=native=$1\$" "$room"/cargo/debug/build/*/output
}
check_host
should "CAGVOST_LIB without the archive is an error" host_refuses
echo 'no archive' > "$room/files/libcagvost.a"
check_host
should "CAGVOST_LIB with a file that is no archive is an error" host_refuses
echo '!<arch>' > "$room/files/libcagvost.a"
check_host
should "CAGVOST_LIB with an archive is taken" host_takes "$(cd "$room/files" && pwd -P)"

# ./cagvost: what it hands on, and what it says where it cannot build. host/tests/command.rs tests the command itself.
cagvost=./cagvost
cagvost() {
    TMPDIR="$room/files" "$cagvost" "$@" > "$room/listing" 2> "$room/said"
    status=$?
}
rm -f "$room/files/libcagvost.a"
cagvost
should "no command shows the usage" did_not_run '^usage: cagvost COMMAND'
cagvost run examples/paper.book
should "a run is listed as the program lists it" ended 0 examples/paper.txt
cagvost run - < examples/refused_5.book
should "a refused book has status 1 here too" ended 1 examples/refused_5.txt
cd "$room/books" || exit 1
cagvost=clone/cagvost
export CDPATH="$room/elsewhere"
cagvost run 'a b.book'
should "the command finds a book from another folder" ended 0 "$top/examples/paper.txt"
unset CDPATH
cd "$top" || exit 1

# On a terminal: a long count, which is stopped here, says how far it is; and bytes are not shown.
if command -v script > /dev/null; then
    script -qec "timeout 4 ./cagvost share examples/ghz.circuit --error 0.01 --shots 1000000000000 > $room/listing" /dev/null > "$room/said" < /dev/null
    status=$?
    should "a long count says how far it is" grep -q ' of 1000000000000 shots, 0 % ' "$room/said"
    should "this is not in what it prints" [ ! -s "$room/listing" ]
    script -qec './cagvost book examples/paper.book' /dev/null > "$room/said" < /dev/null
    status=$?
    should "bytes are not shown on a terminal" grep -q 'not shown on a terminal' "$room/said"
fi

# A folder with the commands alone: no toolchain, then one that proves a crate and fails at the next, then no cargo.
cp cagvost "$room/clone"
rm -rf "$room/clone/.lock"
for part in out src specs proofs; do mkdir -p "$room/clone/crates/cagvost/$part"; done
cagvost=$room/clone/cagvost
printf '#!/bin/sh\nexit 3\n' > "$room/bare/cargo"
chmod +x "$room/bare/cargo"
PATH=$room/bare
cagvost help
PATH=$path
should "a missing rt is named by the command" did_not_run_in_a_line 'no rt here'
PATH=$room/fails:$room/bare:$PATH
cagvost help
should "a failed proof ends the command with status 2 and what rt said" did_not_run '^fn inverse::inverse: not proved$'
should "the command names each crate that is proved" says 'search proved'
: > "$room/clone/crates.txt"
touch -d '2 days ago' "$room/clone/crates.txt" "$room"/clone/crates/cagvost/*
touch -d '1 day ago' "$room/clone/crates/cagvost/out/libcagvost.a"
: > "$room/clone/crates/cagvost/out/cagvost.stamp"
cagvost help
should "a command that is not built does not run" did_not_run_in_a_line 'cargo did not build'
for part in src specs proofs; do
    : > "$room/clone/crates/cagvost/$part/changed"
    cagvost help
    should "what has changed is proved anew ($part)" did_not_run '^fn inverse::inverse: not proved$'
    rm "$room/clone/crates/cagvost/$part/changed"
    touch -d '2 days ago' "$room/clone/crates/cagvost/$part"
done
rm "$room/bare/cargo"
PATH=$room/bare
cagvost help
PATH=$path
should "a missing cargo is named" did_not_run_in_a_line 'no cargo here'
should "no temporary file is left by the command" [ -z "$(ls "$room/files")" ]

echo "$passed passed, $failed failed"
[ "$failed" = 0 ]
