# Sourced at the top of the repository: from here on, until descriptor 9 is closed, no other command that sources this builds
# in this clone. If one does already, it is waited for.
#
# rt has locks of its own, but only while it runs. So a program that is built would be gone before it is run, and a library before
# it is copied, where an rt ci begins meanwhile, which removes what is built. The lock is the kernel's: this shell holds it
# together with the rt that it starts, and it ends with them, however they end. So no lock is left behind, and an rt that is
# still running after an interrupt is waited for too.
if ! { true >> .lock; } 2> /dev/null; then
    echo "${0##*/}: the file $PWD/.lock cannot be written, so nothing is built" >&2
    exit 2
fi
exec 9>> .lock
if command -v flock > /dev/null; then
    flock -n 9
    case $? in
    0) ;;
    1)
        echo "${0##*/}: another build of this clone is under way; waiting until it has ended" >&2
        until flock -n 9; do sleep 1; done
        ;;
    *) echo "${0##*/}: flock cannot lock .lock: do not start a second build of this clone beside this one" >&2 ;;
    esac
else
    echo "${0##*/}: no lock without flock: do not start a second build of this clone beside this one" >&2
fi
