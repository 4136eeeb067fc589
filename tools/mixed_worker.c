/* mixed_worker FOLDER SECONDS: a client in C for mixed_attacks.py. It comes by the door of a folder, tells `hello`, sends each line of
 * its input, and prints the answer, or `gone ERRNO` and ends with status 3. A line that begins with `+` is tried again while another
 * transaction is in the way. A signal comes each 50 milliseconds, and hurts nothing. */
#include "../clients/c/boost.h"

#include <errno.h>
#include <signal.h>
#include <stdio.h>
#include <stdlib.h>
#include <string.h>
#include <sys/time.h>

enum { LONGEST = 8192, GONE = 3, PATIENCE = 2 };

static void pass(int number)
{
    (void)number;
}

/* A signal again and again, whose handler lets no call be taken up by the system. */
static void have_signals(void)
{
    struct sigaction action = { .sa_handler = pass };
    struct itimerval often = { .it_interval = { .tv_usec = 50000 }, .it_value = { .tv_usec = 50000 } };
    sigaction(SIGALRM, &action, NULL);
    setitimer(ITIMER_REAL, &often, NULL);
}

static int gone(void)
{
    printf("gone %d\n", errno);
    fflush(stdout);
    return GONE;
}

/* The next line of the input without its line feed; NULL at the end. */
static char *next_line(char *line, int size)
{
    for (;;) {
        errno = 0;
        if (fgets(line, size, stdin) != NULL) {
            line[strcspn(line, "\n")] = '\0';
            return line;
        }
        if (errno != EINTR)
            return NULL;
        clearerr(stdin);
    }
}

int main(int count, char **words)
{
    static char line[LONGEST];
    if (count != 3)
        return 2;
    struct boost *store = boost_join_within(words[1], atoi(words[2]));
    if (store == NULL)
        return gone();
    boost_set_timeout(store, atoi(words[2]));
    puts("hello");
    fflush(stdout);
    have_signals();
    while (next_line(line, sizeof line) != NULL) {
        const char *answer = line[0] == '+' ? boost_try(store, PATIENCE, "%s", line + 1) : boost_ask(store, "%s", line);
        if (answer == NULL)
            return gone();
        puts(answer);
        fflush(stdout);
    }
    return boost_close(store);
}
