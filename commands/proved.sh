# Sourced by a command that has a folder $room and is at the top of the repository, with its lock.

# Proves and builds the crate that is named, and says on standard error which crates were proved just now. If that fails, so does
# this, and standard error has what rt said.
prove() { # cagvost|simulate
    : > "$room/log"
    { TMPDIR=$room sh commands/prove.sh "$1" 2>&1; echo $? > "$room/status"; } | name_proved
    [ "$(cat "$room/status")" = 0 ] && return
    cat "$room/log" >&2
    return 1
}

# Keeps in $room/log the lines of rt but for those of what is proved or loaded. A crate's begin with its name; where all was loaded,
# as it is up to date, the crate was not proved just now.
name_proved() {
    while IFS= read -r line; do
        case $line in
        'rt: chose --jobs '*) name=${line##* } ;;
        '== '*) name=${line#== } ;;
        'crate '*' checked=0') name= ;;
        'logic=proved '*)
            [ -z "$name" ] || echo "$name proved" >&2
            name=
            ;;
        *': proved' | 'logic '* | 'statements '* | 'library '*': modules '* | 'crate '*': modules '* | 'axioms '*) ;;
        *) printf '%s\n' "$line" >> "$room/log" ;;
        esac
    done
}
