# Functions for the scripts beside it, which read this file.

# can_count: whether instructions can be counted
can_count() {
    command -v valgrind >/dev/null 2>&1
}

# instructions PROGRAM WORD..: how many a run takes, by callgrind
instructions() {
    valgrind --tool=callgrind --callgrind-out-file=/dev/null "$@" 2>&1 >/dev/null | awk '/Collected :/ { print $4 }'
}
