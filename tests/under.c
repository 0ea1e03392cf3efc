/* Runs a command under circumstances that a shell cannot make, for tests/rescue. Its status is the command's.
 *
 *   under terminal SCREEN COMMAND..  standard error is a terminal
 *   under screen SCREEN COMMAND..    standard output is one too, the same
 *   under modes COMMAND..            root has no right to pass over the modes of files; of anybody else the
 *                                    rights are as they were
 *
 * The terminal has 24 lines of 80 characters. Once the command and all that it started have let go of it, the
 * file SCREEN holds what it shows, and what has moved off its top before that: each line without the blanks
 * at its end, and no empty lines at the end. The file SCREEN.told says in a line what was shown on the way:
 *
 *   silent         nothing was written
 *   plain          no percent was shown
 *   progress N HIGHEST TIMES ERASED
 *                  N different percents were shown, none over 100, and none after a higher one,
 *                  the last being HIGHEST; and so many times one was written, and one erased
 *   wrong: WHY     something else, or the cursor ends at another place than a line's start
 *
 * Status 124 if the command does not end within five minutes, 125 if there is no terminal to be had, the
 * files cannot be written, or root keeps its right, and 126 if the command cannot be run. Assumes Linux.
 */
#define _GNU_SOURCE
#include <errno.h>
#include <fcntl.h>
#include <linux/capability.h>
#include <poll.h>
#include <signal.h>
#include <stdio.h>
#include <stdlib.h>
#include <string.h>
#include <sys/ioctl.h>
#include <sys/prctl.h>
#include <sys/wait.h>
#include <time.h>
#include <unistd.h>

enum { ROWS = 24, COLUMNS = 80, SECONDS = 300, LATE = 124, UNABLE = 125, NOT_RUN = 126 };

static void end(int status, const char *why) {
    fprintf(stderr, "under: %s\n", why);
    exit(status);
}

/* The screen. */

static char cells[ROWS][COLUMNS];
static int row, column, blank_rows;
static FILE *screen;
static const char *wrong;

/* Empty lines are written once a line follows that is not. */
static void put_row(const char *cell) {
    int length = COLUMNS;
    while (length > 0 && cell[length - 1] == ' ') length--;
    if (length == 0) {
        blank_rows++;
        return;
    }
    for (; blank_rows > 0; blank_rows--) putc('\n', screen);
    fwrite(cell, 1, (size_t)length, screen);
    putc('\n', screen);
}

static void next_row(void) {
    if (row + 1 < ROWS) {
        row++;
        return;
    }
    put_row(cells[0]);
    memmove(cells[0], cells[1], (ROWS - 1) * COLUMNS);
    memset(cells[ROWS - 1], ' ', COLUMNS);
}

static void erase(int from, int to) {
    memset(cells[row] + from, ' ', (size_t)(to - from));
}

/* What a sequence of the form ESC [ NUMBER LETTER does; others are wrong here. */
static void control(int number, int letter) {
    int here = column < COLUMNS ? column : COLUMNS - 1;
    if (letter == 'K' && number <= 2)
        erase(number == 0 ? here : 0, number == 1 ? here + 1 : COLUMNS);
    else if (letter == 'G')
        column = number == 0 ? 0 : number - 1;
    else if (letter != 'm')
        wrong = "a control sequence that is none of this terminal's";
    if (column > COLUMNS) column = COLUMNS;
}

/* The percents. */

static long shown, times, erased, last_percent = -1;

/* The number before a percent sign, perhaps after a blank. */
static void take_percent(void) {
    long percent = 0;
    int stop = column > 0 && cells[row][column - 1] == ' ' ? column - 1 : column, digits = 0;
    for (int unit = 1; digits < stop && unit <= 1000; digits++, unit *= 10) {
        char digit = cells[row][stop - 1 - digits];
        if (digit < '0' || digit > '9') break;
        percent += unit * (digit - '0');
    }
    if (digits == 0 || percent > 100) wrong = "a percent sign after no number up to 100";
    if (percent < last_percent) wrong = "a percent after a higher one";
    if (percent != last_percent) shown++;
    times++;
    last_percent = percent;
}

static void put_byte(int byte) {
    enum { TEXT, ESCAPED, NUMBER };
    static int state = TEXT, number;
    if (state == ESCAPED) {
        state = byte == '[' ? NUMBER : TEXT;
        number = 0;
        if (state == TEXT) wrong = "an escape that begins no control sequence";
    } else if (state == NUMBER && byte >= '0' && byte <= '9') {
        if (number < 1000) number = 10 * number + byte - '0';
    } else if (state == NUMBER) {
        state = TEXT;
        control(number, byte);
    } else if (byte == 27) {
        state = ESCAPED;
    } else if (byte == '\r') {
        column = 0;
    } else if (byte == '\n') {
        next_row();
    } else if (byte == '\b') {
        if (column > 0) column--;
    } else if (byte < ' ' || byte == 127) {
        wrong = "a control character";
    } else {
        if (column == COLUMNS) {
            next_row();
            column = 0;
        }
        if (byte == '%') take_percent();
        if (byte == ' ' && cells[row][column] == '%') erased++;
        cells[row][column++] = (char)byte;
    }
}

/* Running. */

static void replace(char **command) {
    execvp(command[0], command);
    fprintf(stderr, "under: %s: %s\n", command[0], strerror(errno));
    _exit(NOT_RUN);
}

/* A terminal's two ends: ours, and the one for the command. */
static void open_terminal(int *ours, int *theirs) {
    struct winsize size = {.ws_row = ROWS, .ws_col = COLUMNS};
    const char *name;
    *ours = posix_openpt(O_RDWR | O_NOCTTY | O_CLOEXEC);
    if (*ours < 0 || grantpt(*ours) != 0 || unlockpt(*ours) != 0 || (name = ptsname(*ours)) == NULL)
        end(UNABLE, "no terminal");
    *theirs = open(name, O_RDWR | O_NOCTTY | O_CLOEXEC);
    if (*theirs < 0 || ioctl(*theirs, TIOCSWINSZ, &size) != 0) end(UNABLE, "no terminal");
}

static long seconds(void) {
    struct timespec t;
    clock_gettime(CLOCK_MONOTONIC, &t);
    return (long)t.tv_sec;
}

/* Takes what is written until nobody holds the other end; how many bytes there were. */
static long long take(int ours, pid_t child) {
    static char bytes[65536];
    long long count = 0;
    long last = seconds() + SECONDS;
    for (;;) {
        struct pollfd wait = {.fd = ours, .events = POLLIN};
        long left = last - seconds();
        int ready = left <= 0 ? 0 : poll(&wait, 1, (int)left * 1000);
        if (ready < 0 && errno == EINTR) continue;
        if (ready <= 0) {
            kill(-child, SIGKILL);
            end(LATE, "the command does not end");
        }
        ssize_t got = read(ours, bytes, sizeof bytes);
        if (got < 0 && errno == EINTR) continue;
        if (got <= 0) return count;
        for (ssize_t k = 0; k < got; k++) put_byte((unsigned char)bytes[k]);
        count += got;
    }
}

static void tell(const char *name, long long count) {
    char path[4096];
    FILE *told;
    if (snprintf(path, sizeof path, "%s.told", name) >= (int)sizeof path) end(UNABLE, "a long name");
    told = fopen(path, "w");
    if (told == NULL) end(UNABLE, "the files cannot be written");
    if (wrong == NULL && column != 0) wrong = "the cursor ends within a line";
    if (wrong != NULL)
        fprintf(told, "wrong: %s\n", wrong);
    else if (count == 0)
        fprintf(told, "silent\n");
    else if (shown == 0)
        fprintf(told, "plain\n");
    else
        fprintf(told, "progress %ld %ld %ld %ld\n", shown, last_percent, times, erased);
    if (fclose(told) != 0) end(UNABLE, "the files cannot be written");
}

static int at_terminal(const char *name, int is_output_too, char **command) {
    int ours, theirs, status;
    memset(cells, ' ', sizeof cells);
    screen = fopen(name, "we");
    if (screen == NULL) end(UNABLE, "the files cannot be written");
    open_terminal(&ours, &theirs);
    pid_t child = fork();
    if (child == 0) {
        setpgid(0, 0);
        dup2(theirs, 2);
        if (is_output_too) dup2(theirs, 1);
        replace(command);
    }
    if (child < 0) end(UNABLE, "no process");
    /* By now or by then: whichever of the two comes first. */
    setpgid(child, child);
    close(theirs);
    long long count = take(ours, child);
    if (waitpid(child, &status, 0) != child) end(UNABLE, "no status");
    for (int k = 0; k < ROWS; k++) put_row(cells[k]);
    if (fclose(screen) != 0) end(UNABLE, "the files cannot be written");
    tell(name, count);
    return WIFEXITED(status) ? WEXITSTATUS(status) : 128 + WTERMSIG(status);
}

static void keep_modes(void) {
    if (geteuid() != 0) return;
    if (prctl(PR_CAPBSET_DROP, CAP_DAC_OVERRIDE, 0, 0, 0) != 0 ||
        prctl(PR_CAPBSET_DROP, CAP_DAC_READ_SEARCH, 0, 0, 0) != 0)
        end(UNABLE, "root keeps its right");
}

int main(int count, char **given) {
    const char *word = count > 1 ? given[1] : "";
    if (!strcmp(word, "terminal") && count > 3) return at_terminal(given[2], 0, given + 3);
    if (!strcmp(word, "screen") && count > 3) return at_terminal(given[2], 1, given + 3);
    if (!strcmp(word, "modes") && count > 2) {
        keep_modes();
        replace(given + 2);
    }
    fprintf(stderr, "usage: under terminal|screen SCREEN COMMAND.. | under modes COMMAND..\n");
    return UNABLE;
}
