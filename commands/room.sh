# Sourced by a command before it makes the folder $room for its temporary files: the folder is removed as the command ends, also
# where a signal ends it.
room=

# What an interrupted rt still has running may write its own temporary files for a moment.
clean() {
    tries=0
    until rm -rf "$room" 2> /dev/null || [ "$tries" = 10 ]; do
        tries=$((tries + 1))
        sleep 1
    done
}

trap clean EXIT
trap 'exit 129' HUP
trap 'exit 130' INT
trap 'exit 143' TERM
