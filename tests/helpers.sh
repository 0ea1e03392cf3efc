# What tests/launcher, tests/narrations and tests/rescue share: the programs to try, a folder to try them in,
# how a command is run, how what it left is compared, and the count of cases. To be sourced: it goes to a new
# folder, which is removed at the end, and $0 says whose cases they are.
#
# $root is the repository, $tns the launcher and $programs the folder of the programs; the variable
# TNS_PROGRAMS can name that of others. The file `nothing` is empty. Assumes GNU's tools on Linux and, for
# `builds`, a C compiler for this machine (HOSTCC, or else CC, names another than cc). For `interposes` it
# assumes one for the programs' machine (CC, or else cc), and programs whose loader heeds LD_PRELOAD.
set -eu
LC_ALL=C
export LC_ALL
CDPATH='' cd -- "$(dirname -- "$0")/.."
suite=${0##*/} root=$PWD tns=$PWD/tns programs=${TNS_PROGRAMS-$PWD/target/bin}
case $programs in /*) ;; *) programs=$root/$programs ;; esac
there=$(mktemp -d)
trap 'rm -rf "$there"' EXIT
trap 'exit 1' INT TERM # the folder is removed then too
if [ -n "${TNS_PROGRAMS+set}" ]; then
    mkdir -p "$there/tree/target"
    ln -s "$programs" "$there/tree/target/bin"
    cp "$tns" "$there/tree/tns"
    tns=$there/tree/tns
fi
cd "$there"
: >nothing
passed=0 failed=0

needs() { # PROGRAM..: they must have been built
    for program; do
        [ -x "$programs/$program" ] || {
            echo "$suite: $programs/$program is missing; \`tools/build program $program\` makes it" >&2
            exit 1
        }
    done
}

builds() { # NAME..: of tests/NAME.c
    for name; do ${HOSTCC:-${CC:-cc}} -std=c99 -O2 -Wall -Wextra -Werror -o "$name" "$root/tests/$name.c"; done
}

# The library of tests/calls.c, and a launcher whose programs are these with the library before them:
# interposed/tns, which is to be called in this folder. The library is the program's alone, not the launcher's.
interposes() { # PROGRAM..
    ${CC:-cc} -std=c99 -O2 -Wall -Wextra -Werror -shared -fPIC -o calls.so "$root/tests/calls.c"
    mkdir -p interposed/target/bin
    cp "$tns" interposed/tns
    ln -s "$programs" interposed/programs
    for each; do
        cat >"interposed/target/bin/$each" <<'END'
#!/bin/sh
rm -f calls.told calls.kept
LD_PRELOAD=./calls.so
export LD_PRELOAD
exec "./interposed/programs/${0##*/}" "$@"
END
        chmod +x "interposed/target/bin/$each"
    done
}

# That launcher: reads come as $1 says, and $2 fails, the read of that number or another call. The first read is 1,
# and 0 is nothing. The clock is the system's.
interposed() { # READS FAILING WORD..
    TNS_READS=$1 TNS_FAILS=$2 TNS_CLOCK=0
    export TNS_READS TNS_FAILS TNS_CLOCK
    shift 2
    ./interposed/tns "$@"
}

# What the library reported last: $reads is how many reads there were, $cuts how many it made short, $gave how many
# bytes they gave, $end the number of the first that gave the end, $final how many bytes the last gave that gave
# some, $failures how often a call was made to fail, and $seconds how many went by on its own clock. Where it was not
# there they are 0.
asks_calls() {
    reads=0 cuts=0 gave=0 end=0 final=0 failures=0 seconds=0
    [ ! -f calls.told ] || read -r reads cuts gave end final failures seconds <calls.told
    rm -f calls.told
}

# The reads of the last run came as $2 says, and gave $3 bytes to their end, $4 times over. By single bytes there
# is one for each, and one for the end; of the others some were made short, and some were not.
expect_reads() { # NAME READS BYTES TIMES
    asks_calls
    why=
    [ "$gave" -eq $(($3 * $4)) ] || why="$gave bytes, not $(($3 * $4))"
    case $2 in
    single) wanted=$((($3 + 1) * $4)) ;;
    *) wanted=$reads ;;
    esac
    [ "$reads" -eq $wanted ] && [ "$cuts" -gt 0 ] && [ "$2 $cuts" != "short $reads" ] || why="$why
$reads reads, $cuts of them made short"
    count "$1, how reads came"
}

# Runs a command with its output and its errors in the files `out` and `err`, and its status in $status.
run() { # COMMAND..
    status=0
    "$@" >out 2>err || status=$?
}

# The status of a command whose output goes into a pipe goes by the file `ended`.
piped() { # COMMAND..
    "$@" && echo 0 >ended || echo $? >ended
}

# A case that differs, and why; and one that is judged by whether $why is empty.
off() { # NAME WHY
    failed=$((failed + 1))
    echo "$suite: $1: $2"
}
count() { # NAME
    if [ -z "$why" ]; then passed=$((passed + 1)); else off "$1" "$why"; fi
}

# What differs is added to $why: two files, and what the last case left.
same() { # WANTED FOUND
    cmp -s "$1" "$2" || why="$why
$(cmp "$1" "$2" 2>&1 | head -n 1)
$(diff "$1" "$2" 2>&1 | head -n 5)"
}
compare() { # STATUS OUT ERR
    why=
    [ "$status" = "$1" ] || why="status $status, not $1"
    same "$2" out
    same "$3" err
}

# What the case left is compared: its status, and its output and errors with these files.
expect() { # NAME STATUS OUT ERR
    compare "$2" "$3" "$4"
    count "$1"
}

# Nobody reads what is written, which is more than a pipe holds: a signal ends the program, silently, or
# where the signal is ignored the write fails.
unread() { # WORD INPUT
    : >out
    piped "$tns" "$1" <"$2" 2>err | :
    read -r status <ended
    echo 'tns: standard output: Broken pipe' >broken
    if [ "$status" = 2 ]; then
        expect "$1 to a pipe that nobody reads, the signal ignored" 2 nothing broken
    else
        expect "$1 to a pipe that nobody reads" 141 nothing nothing
    fi
}

# The programs are for x86-64; elsewhere they run under an emulator.
is_native() { [ "$(uname -m)" = x86_64 ]; }

# Sets $memory to how much a program may have in a test of what it holds, in KiB: 16 MiB. Where the programs run
# under an emulator, which takes more by itself, it is a step more than the least with which the program $1
# answers an input of no bytes, twenty times.
little_memory() { # PROGRAM
    memory=16384
    ! is_native || return 0
    until twenty sh -c 'ulimit -v "$1" && exec "$2" </dev/null >/dev/null' sh $memory "$programs/$1" 2>/dev/null; do
        memory=$((memory + 4096))
        [ $memory -lt 1048576 ] || {
            echo "$suite: $1 does not answer an input of no bytes in 1 GiB" >&2
            exit 1
        }
    done
    memory=$((memory + 4096))
}
twenty() { # COMMAND..
    for _ in 1 2 3 4 5 6 7 8 9 10 11 12 13 14 15 16 17 18 19 20; do "$@" || return; done
}

# Last, how many cases passed and how many failed.
tally() {
    echo "$suite: $passed passed, $failed failed"
    [ "$failed" -eq 0 ]
}

# Makes the program `ended`, which runs a command as a terminal would: in a group of its own, with no signal ignored.
# After the command's output it says in a line how that ended, `status N` or `signal N`, which a shell cannot tell
# apart. Its own status is 0.
makes_ended() {
    cat >ended.c <<'END'
#define _POSIX_C_SOURCE 200809L
#include <signal.h>
#include <stdio.h>
#include <sys/wait.h>
#include <unistd.h>

int main(int count, char **words) {
    const int signals[] = {SIGHUP, SIGINT, SIGQUIT, SIGPIPE, SIGTERM};
    int status;
    pid_t child = count > 1 ? fork() : -1;
    if (child == 0) {
        for (int i = 0; i < 5; i++) signal(signals[i], SIG_DFL);
        if (setpgid(0, 0) == 0) execvp(words[1], words + 1);
        _exit(127);
    }
    if (child < 0 || waitpid(child, &status, 0) != child) return 1;
    if (WIFSIGNALED(status)) return printf("signal %d\n", WTERMSIG(status)) < 0;
    return printf("status %d\n", WEXITSTATUS(status)) < 0;
}
END
    ${HOSTCC:-${CC:-cc}} -std=c99 -O2 -Wall -Wextra -Werror -o ended ended.c
}
