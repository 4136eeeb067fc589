/* c_attacks PROGRAM DISK: what may happen to a program with the client in C; see tools/c_attacks.py. */
#include "../clients/c/boost.h"

#include <errno.h>
#include <fcntl.h>
#include <signal.h>
#include <stdio.h>
#include <stdlib.h>
#include <string.h>
#include <sys/stat.h>
#include <sys/time.h>
#include <sys/wait.h>
#include <time.h>
#include <unistd.h>

static const char *program, *disk;

/* What another user puts in the place of each FIFO that is made, if anything: a link to this file. */
static const char *swapped;

/* In the place of that of the library. */
int mkfifo(const char *path, mode_t mode)
{
    return swapped != NULL ? symlink(swapped, path) : mknod(path, S_IFIFO | mode, 0);
}

static void must(int holds, const char *what)
{
    if (!holds) {
        fprintf(stderr, "c_attacks: %s: %s\n", what, strerror(errno));
        exit(1);
    }
}

static struct boost *started(void)
{
    struct boost *store = boost_start(program, disk);
    must(store != NULL, "start");
    return store;
}

static void is_answered(struct boost *store, const char *line, const char *wanted)
{
    const char *answer = boost_ask(store, "%s", line);
    must(answer != NULL && strncmp(answer, wanted, strlen(wanted)) == 0, line);
}

/* How many signals are to come, at least, while answers are awaited. */
enum { SIGNALS = 100 };

static volatile sig_atomic_t signals;

static void count(int number)
{
    (void)number;
    signals++;
}

/* A handled signal each millisecond breaks no call off. */
static void signals_come(void)
{
    struct sigaction action = { .sa_handler = count };
    struct itimerval each = { { 0, 1000 }, { 0, 1000 } }, none = { { 0, 0 }, { 0, 0 } };
    struct boost *store = started();
    sigaction(SIGALRM, &action, NULL);
    setitimer(ITIMER_REAL, &each, NULL);
    is_answered(store, "make counter signals", "place");
    int answers = 0;
    while (answers < 200 || (signals < SIGNALS && answers < 1000000)) {
        char wanted[40];
        snprintf(wanted, sizeof wanted, "done; total %d; kept", ++answers);
        is_answered(store, "keep signals bump 1; signals read", wanted);
    }
    is_answered(store, "keep signals bump -1000000; signals read", "done; total");
    char back[60];
    snprintf(back, sizeof back, "keep signals bump %d; signals read", 1000200 - answers);
    is_answered(store, back, "done; total 200; kept");
    int status = boost_close(store);
    setitimer(ITIMER_REAL, &none, NULL);
    must(status == 0, "the status behind signals");
    must(signals >= SIGNALS, "signals that come while answers are awaited");
    printf("signals_come: %d answers in step beside %d signals\n", answers, (int)signals);
}

/* A line that is too long, or has a line feed in it, is not sent, and all goes on in step. */
static void lines_that_are_none(void)
{
    char line[5000];
    struct boost *store = started();
    memset(line, 'x', sizeof line);
    line[4092] = '\0';
    is_answered(store, line, "error NotUnderstood");
    line[4092] = 'x';
    line[4093] = '\0';
    is_answered(store, line, "error LineTooLong");
    must(boost_refusal("error LineTooLong") == -1, "the refusal of a line that is too long");
    is_answered(store, "status\nc1 make counter none", "error NotUnderstood");
    is_answered(store, "do signals read", "total 200");
    must(boost_close(store) == 0, "the status behind lines");
    const char *none[] = { "", " ", "stock; credit", "a;", "a b", "a\n", "a\r", "\177", "\303\244", "read; credit fill 7 1" };
    for (size_t at = 0; at < sizeof none / sizeof *none; at++)
        must(!boost_is_word(none[at]), "a text that is no word");
    must(boost_is_word("a") && boost_is_word("orders_2026-11.x") && boost_is_word("18446744073709551615") && boost_is_word("-"), "a word");
    printf("lines_that_are_none: not sent\n");
}

/* The server stands still: the answer does not come in time, and from then on nothing is sent. */
static void a_server_that_stands_still(void)
{
    struct boost *store = started();
    boost_set_timeout(store, 1);
    is_answered(store, "do signals read", "total 200");
    system("pkill -STOP -f 'listen '\"$C_ATTACKS_DISK\"");
    usleep(200000);
    must(boost_ask(store, "do signals read") == NULL && errno == ETIMEDOUT, "an answer of a server that stands still");
    must(boost_ask(store, "do signals read") == NULL && errno == EPIPE, "an answer behind one that did not come");
    must(boost_close(store) == 128 + SIGKILL, "the status of a server that is out of step");
    printf("a_server_that_stands_still: told in time, and out of step from then on\n");
}

static double seconds_of_now(void)
{
    struct timespec time;
    clock_gettime(CLOCK_MONOTONIC, &time);
    return (double)time.tv_sec + (double)time.tv_nsec / 1e9;
}

/* Neither the end of a server that stands still, nor the hello of one that says none, is waited for longer than the time that is set. */
static void ends_and_starts_that_never_come(void)
{
    struct boost *store = started();
    boost_set_timeout(store, 1);
    is_answered(store, "do signals read", "total 200");
    system("pkill -STOP -f 'listen '\"$C_ATTACKS_DISK\"");
    usleep(200000);
    double began = seconds_of_now();
    must(boost_close(store) == 128 + SIGKILL, "the status of a server that stands still at its end");
    must(seconds_of_now() - began < 5, "the time of an end");
    char path[4096];
    snprintf(path, sizeof path, "%s.sleeps", disk);
    FILE *file = fopen(path, "w");
    fputs("#!/bin/sh\nexec sleep 1000\n", file);
    fclose(file);
    chmod(path, 0755);
    began = seconds_of_now();
    must(boost_start_within(path, disk, 1) == NULL && errno == ETIMEDOUT, "a server that says no hello");
    must(seconds_of_now() - began < 5, "the time of a start");
    must(waitpid(-1, NULL, 0) < 0 && errno == ECHILD, "a child that is left");
    printf("ends_and_starts_that_never_come: killed in time\n");
}

/* A file that another user of the folder's group puts in the place of a FIFO is neither written nor given to that group. */
static void a_file_in_the_place_of_a_fifo(void)
{
    char folder[4096], door[8192], precious[8192];
    snprintf(folder, sizeof folder, "%s.run", disk);
    snprintf(door, sizeof door, "%s/door", folder);
    snprintf(precious, sizeof precious, "%s.precious", disk);
    FILE *file = fopen(precious, "w");
    fputs("precious", file);
    fclose(file);
    chmod(precious, 0600);
    must(mkdir(folder, 0700) == 0 && chmod(folder, 0770) == 0 && mkfifo(door, 0660) == 0, "a folder with a door");
    int reader = open(door, O_RDWR);
    swapped = precious;
    must(boost_join_within(folder, 1) == NULL, "a client whose FIFOs are links");
    swapped = NULL;
    struct stat found;
    must(stat(precious, &found) == 0 && (found.st_mode & 0777) == 0600 && found.st_size == 8, "the file in the place of a FIFO");
    close(reader);
    printf("a_file_in_the_place_of_a_fifo: untouched\n");
}

/* In a forked process the client is no one's, and the parent's goes on; the server ends though the child holds its input. */
static void forked(void)
{
    struct boost *store = started();
    pid_t child = fork();
    if (child == 0) {
        if (boost_ask(store, "do signals bump 1") != NULL || errno != EPERM)
            _exit(1);
        sleep(20);
        _exit(0);
    }
    is_answered(store, "do signals read", "total 200");
    must(boost_close(store) == 0, "the end beside a forked process");
    kill(child, SIGKILL);
    waitpid(child, NULL, 0);
    printf("forked: the server ended beside the child\n");
}

/* A wait of a line is longer than the time-out of others, and says how long it may be. */
static void waits_for_work(void)
{
    struct timespec began, ended;
    struct boost *store = started();
    boost_ask(store, "make set jobs");
    boost_set_timeout(store, 1);
    clock_gettime(CLOCK_MONOTONIC, &began);
    const char *answer = boost_within(store, 1.5, "do jobs pick");
    clock_gettime(CLOCK_MONOTONIC, &ended);
    must(answer != NULL && strncmp(answer, "nothing; place ", 15) == 0, "a wait that is over");
    must((double)(ended.tv_sec - began.tv_sec) + (double)(ended.tv_nsec - began.tv_nsec) / 1e9 >= 1.5, "it was over early");
    is_answered(store, "do jobs add 7", "yes; place ");
    answer = boost_within(store, 30, "keep jobs pick");
    must(answer != NULL && strncmp(answer, "id 7; kept ", 11) == 0, "a job that is there");
    must(boost_refusal(boost_within(store, -0.1, "do jobs pick")) == -1, "less than no time");
    must(boost_refusal(boost_within(store, 86401, "do jobs pick")) == -1, "more than a day");
    boost_set_timeout(store, 0);
    is_answered(store, "do jobs pick", "nothing; place ");
    must(boost_close(store) == 0, "close");
    printf("waits_for_work: for 1.5 seconds, longer than other answers may take\n");
}

/* The program's standard input and output are closed, and the server is given its own all the same. */
static void closed_streams(void)
{
    int input = dup(0), output = dup(1);
    close(0), close(1);
    struct boost *store = started();
    is_answered(store, "do signals read", "total 200");
    must(boost_close(store) == 0, "the status behind closed streams");
    dup2(input, 0), dup2(output, 1);
    close(input), close(output);
    printf("closed_streams: served\n");
}

static int open_files(void)
{
    int count = 0;
    for (int file = 0; file < 1000; file++)
        count += fcntl(file, F_GETFD) >= 0;
    return count;
}

static void files_are_given_back(void)
{
    int before = open_files();
    for (int i = 0; i < 20; i++)
        must(boost_close(started()) == 0, "a round");
    must(boost_start("/nowhere/boost", disk) == NULL && errno == ECHILD, "a program that is not there");
    must(boost_join_within("/nowhere", 1) == NULL && errno == ENOENT, "a folder that is not there");
    must(open_files() == before, "descriptors that are left");
    printf("files_are_given_back: none is left\n");
}

int main(int count, char **words)
{
    must(count == 3, "PROGRAM DISK");
    program = words[1];
    disk = words[2];
    setenv("C_ATTACKS_DISK", disk, 1);
    setvbuf(stdout, NULL, _IOLBF, 0);
    signals_come();
    lines_that_are_none();
    a_server_that_stands_still();
    ends_and_starts_that_never_come();
    a_file_in_the_place_of_a_fifo();
    forked();
    closed_streams();
    waits_for_work();
    files_are_given_back();
    return 0;
}
