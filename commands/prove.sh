#!/bin/sh
# Proves and builds the crate that is named, cagvost or simulate; called at the top of the repository, with its lock. rt lib and rt run
# prove one crate after the other: where nothing is built yet, rt all check comes before them, with four crates at a time.
cd "crates/$1" || exit 2
case $1 in
simulate)
    [ -e out/simulate ] || rt all check --jobs 4 || exit
    rt run < /dev/null 2>&1 > /dev/null # an empty book: what is wanted is the program
    ;;
*)
    [ -e "out/lib$1.a" ] || rt all check --jobs 4 || exit
    rt lib
    ;;
esac
