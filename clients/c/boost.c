/* A client of `boost listen`: see boost.h. */
#define _GNU_SOURCE
#include "boost.h"

#include <errno.h>
#include <fcntl.h>
#include <poll.h>
#include <signal.h>
#include <stdarg.h>
#include <stdio.h>
#include <stdlib.h>
#include <string.h>
#include <sys/file.h>
#include <sys/random.h>
#include <sys/socket.h>
#include <sys/stat.h>
#include <sys/un.h>
#include <sys/wait.h>
#include <time.h>
#include <unistd.h>

enum { LONGEST = 4095, MOST_SECONDS = 86400, PIECE = 4096 };
enum { NO_MEMORY = 4, BUSY = 9, NO_SUCH_TXN = 10, TOO_MANY_LIVE = 12, BACKLOG = 14, ALREADY_LIVE = 25 };   /* refusals */

/* What each line of a server begins with that is of no client. */
static const char NOBODY[] = "- ";
/* What the name of a gate's socket begins with. */
static const char GATE[] = "unix:";

struct boost {
    int to, from;      /* where lines go and answers come from; -1 once the client is out of step */
    const char *tag;   /* what each line begins with: "c1 " of a child, "" at a door */
    pid_t child;       /* the server, where it is a child; else 0 */
    pid_t owner;       /* the process that made the client */
    int timeout;       /* seconds for an answer; 0: for ever */
    int is_open;       /* a transaction is, or may be */
    char *bytes;       /* what was read and not used yet, behind the last answer, and the room for it */
    size_t used, held, room;
};

static double now(void)
{
    struct timespec time;
    clock_gettime(CLOCK_MONOTONIC, &time);
    return (double)time.tv_sec + (double)time.tv_nsec / 1e9;
}

/* ---- lines */

static void close_file(int *file)
{
    if (*file >= 0)
        close(*file);
    *file = -1;
}

/* The client is out of step: nothing more is sent or read. */
static const char *give_up(struct boost *store, int why)
{
    close_file(&store->to);
    close_file(&store->from);
    errno = why;
    return NULL;
}

/* Waits until a file can be read or written, up to the end that is given; 0 where that has passed, -1 where it cannot be had. */
static int wait_for(int file, short events, double end)
{
    struct pollfd waited = { .fd = file, .events = events };
    for (;;) {
        double left = end - now();
        int milliseconds = end == 0 ? -1 : left > 0 ? (int)(left * 1000) + 1 : 0;
        int ready = poll(&waited, 1, milliseconds);
        if (ready >= 0 || errno != EINTR)
            return ready;
    }
}

/* Writes all of a text, up to the end that is given. */
static int write_within(int file, const char *text, size_t size, double end)
{
    while (size > 0) {
        int ready = wait_for(file, POLLOUT, end);
        if (ready <= 0) {
            errno = ready == 0 ? ETIMEDOUT : errno;
            return -1;
        }
        ssize_t written = write(file, text, size);
        if (written < 0 && errno != EINTR && errno != EAGAIN)
            return -1;
        if (written > 0) {
            text += written;
            size -= (size_t)written;
        }
    }
    return 0;
}

/* Makes room for a piece more behind what is held. */
static int make_room(struct boost *store)
{
    memmove(store->bytes, store->bytes + store->used, store->held - store->used);
    store->held -= store->used;
    store->used = 0;
    if (store->room - store->held >= PIECE)
        return 0;
    char *more = realloc(store->bytes, 2 * store->room + PIECE);
    if (more == NULL)
        return -1;
    store->bytes = more;
    store->room = 2 * store->room + PIECE;
    return 0;
}

/* Reads a piece more, up to the end that is given. A part of a line at the end of all is none. */
static int read_more(struct boost *store, double end)
{
    if (make_room(store) != 0)
        return -1;
    for (;;) {
        int ready = wait_for(store->from, POLLIN, end);
        if (ready <= 0) {
            errno = ready == 0 ? ETIMEDOUT : errno;
            return -1;
        }
        ssize_t size = read(store->from, store->bytes + store->held, store->room - store->held);
        if (size > 0) {
            store->held += (size_t)size;
            return 0;
        }
        if (size == 0) {
            errno = EPIPE;
            return -1;
        }
        if (errno != EINTR && errno != EAGAIN)
            return -1;
    }
}

/* The next line without its line feed and without the tag; NULL, and the client is out of step, where it does not come. */
static const char *next_line(struct boost *store, double end)
{
    size_t looked = store->used;
    char *feed;
    while ((feed = memchr(store->bytes + looked, '\n', store->held - looked)) == NULL) {
        size_t seen = store->held - store->used;
        if (read_more(store, end) != 0)
            return give_up(store, errno);
        looked = store->used + seen;
    }
    char *line = store->bytes + store->used;
    *feed = '\0';
    store->used = (size_t)(feed + 1 - store->bytes);
    const char *tag = strncmp(line, NOBODY, strlen(NOBODY)) == 0 ? NOBODY : store->tag;
    return strncmp(line, tag, strlen(tag)) == 0 ? line + strlen(tag) : line;
}

static double end_of(const struct boost *store)
{
    return store->timeout > 0 ? now() + store->timeout : 0;
}

static int begins(const char *text, const char *with)
{
    return strncmp(text, with, strlen(with)) == 0;
}

/* Notes whether a transaction is open behind the answer to a line. Calls that were refused have taken it back, but where the whole line
 * was refused before them. */
static void note_open(struct boost *store, const char *line, const char *answer)
{
    int refusal = boost_refusal(answer), has_calls = begins(line, "do ") || begins(line, "keep ");
    int is_end = has_calls || begins(line, "keep\n") || begins(line, "commit\n") || begins(line, "abort\n");
    int is_taken_back = has_calls && refusal > 0 && refusal != NO_MEMORY && refusal != ALREADY_LIVE;
    if (begins(answer, "begun "))
        store->is_open = 1;
    else if ((is_end && refusal == 0) || is_taken_back || refusal == NO_SUCH_TXN || begins(answer, "error Idle"))
        store->is_open = 0;
}

/* Asks a line that may wait for so many thousandths of a second in the server, less than 0 where it does not. */
static const char *ask(struct boost *store, long waits, const char *format, va_list words)
{
    if (store->owner != getpid() || store->to < 0) {
        errno = store->owner != getpid() ? EPERM : EPIPE;
        return NULL;
    }
    char line[LONGEST + 2];
    int tag = snprintf(line, sizeof line, "%s", store->tag);
    if (waits >= 0)
        tag += snprintf(line + tag, sizeof line - (size_t)tag, "within %ld.%03ld ", waits / 1000, waits % 1000);
    int size = vsnprintf(line + tag, sizeof line - (size_t)tag, format, words);
    if (size < 0)
        return NULL;
    if (tag + size > LONGEST)
        return "error LineTooLong";
    if (memchr(line, '\n', (size_t)(tag + size)) != NULL)
        return "error NotUnderstood";
    line[tag + size] = '\n';
    double end = end_of(store);
    if (end > 0 && waits > 0)
        end += (double)waits / 1000;
    if (write_within(store->to, line, (size_t)(tag + size + 1), end) != 0)
        return give_up(store, errno);
    const char *answer = next_line(store, end);
    if (answer != NULL)
        note_open(store, line + tag, answer);
    return answer;
}

const char *boost_ask(struct boost *store, const char *format, ...)
{
    va_list words;
    va_start(words, format);
    const char *answer = ask(store, -1, format, words);
    va_end(words);
    return answer;
}

const char *boost_within(struct boost *store, double seconds, const char *format, ...)
{
    if (!(seconds >= 0 && seconds <= MOST_SECONDS))
        return "error NotUnderstood";
    va_list words;
    va_start(words, format);
    const char *answer = ask(store, (long)(seconds * 1000 + 0.5), format, words);
    va_end(words);
    return answer;
}

int boost_is_word(const char *text)
{
    size_t size = strlen(text), at = 0;
    while (at < size && text[at] > ' ' && text[at] < 127 && text[at] != ';')
        at++;
    return size > 0 && at == size;
}

void boost_set_timeout(struct boost *store, int seconds)
{
    store->timeout = seconds > 0 ? seconds : 0;
}

int boost_refusal(const char *answer)
{
    if (answer == NULL || strncmp(answer, "error ", 6) == 0)
        return -1;
    return strncmp(answer, "refused ", 8) == 0 ? atoi(answer + 8) : 0;
}

int boost_passes(int refusal)
{
    return refusal == BUSY || refusal == TOO_MANY_LIVE || refusal == BACKLOG;
}

long long boost_number(const char *answer, const char *words)
{
    size_t size = strlen(words);
    for (const char *part = answer; part != NULL;) {
        if (strncmp(part, words, size) == 0 && part[size] == ' ')
            return atoll(part + size + 1);
        part = strstr(part, "; ");
        if (part != NULL)
            part += 2;
    }
    return -1;
}

/* Sleeps for a random time, from half of so many microseconds on: so that two do not meet again and again. */
static void pause_for(unsigned microseconds)
{
    unsigned chance = 0;
    if (getrandom(&chance, sizeof chance, GRND_NONBLOCK) < 0)
        chance = (unsigned)getpid();
    unsigned slept = microseconds / 2 + chance % (microseconds / 2);
    struct timespec time = { .tv_nsec = (long)slept * 1000 };
    nanosleep(&time, NULL);
}

const char *boost_try(struct boost *store, int seconds, const char *format, ...)
{
    int is_once = store->is_open;                             /* asked again, the line would be a transaction of its own */
    double end = now() + seconds;
    for (unsigned pause = 200;; pause = pause < 50000 ? pause * 2 : pause) {
        va_list words;
        va_start(words, format);
        const char *answer = ask(store, -1, format, words);
        va_end(words);
        if (answer == NULL || is_once || !boost_passes(boost_refusal(answer)) || now() > end)
            return answer;
        pause_for(pause);
    }
}

/* ---- values */

char *boost_hex(char *text, const void *value, int size)
{
    const unsigned char *bytes = value;
    if (size == 0)
        return strcpy(text, "-");
    for (int i = 0; i < size; i++)
        sprintf(text + 2 * i, "%02x", bytes[i]);
    return text;
}

int boost_unhex(void *value, const char *text)
{
    unsigned char *bytes = value;
    int size = 0;
    if (strcmp(text, "-") == 0)
        return 0;
    for (; text[0] != '\0' && size < BOOST_VALUE; text += 2, size++) {
        int read = 0;
        unsigned int byte;
        if (sscanf(text, "%2x%n", &byte, &read) != 1 || read != 2)
            return -1;
        bytes[size] = (unsigned char)byte;
    }
    return text[0] == '\0' ? size : -1;
}

/* ---- coming in */

/* A client over two files, which are closed where it cannot be made. */
static struct boost *client(int to, int from, const char *tag, pid_t child)
{
    struct boost *store = calloc(1, sizeof *store);
    char *bytes = malloc(PIECE);
    if (store == NULL || bytes == NULL) {
        free(store);
        free(bytes);
        close(to), close(from);
        return NULL;
    }
    fcntl(to, F_SETFL, O_NONBLOCK);
    *store = (struct boost){
        .to = to, .from = from, .tag = tag, .child = child, .owner = getpid(), .bytes = bytes, .room = PIECE,
    };
    return store;
}

static int status_of(pid_t child)
{
    int status = 0;
    while (waitpid(child, &status, 0) < 0 && errno == EINTR)
        continue;
    return WIFEXITED(status) ? WEXITSTATUS(status) : 128 + WTERMSIG(status);
}

/* A pipe whose two ends are above 2, so that a child can be given them as its standard input and output. */
static int pipe_above(int ends[2])
{
    int low[2];
    if (pipe2(low, O_CLOEXEC) != 0)
        return -1;
    for (int i = 0; i < 2; i++) {
        ends[i] = fcntl(low[i], F_DUPFD_CLOEXEC, 3);
        close(low[i]);
    }
    if (ends[0] >= 0 && ends[1] >= 0)
        return 0;
    close_file(&ends[0]);
    close_file(&ends[1]);
    return -1;
}

/* Becomes the server. Ctrl-C at a terminal is for the program, which ends the server by itself. */
static void become(const char *program, const char *disk, int input, int output)
{
    setpgid(0, 0);
    signal(SIGPIPE, SIG_DFL);
    if (dup2(input, 0) == 0 && dup2(output, 1) == 1)
        execlp(program, program, "listen", disk, (char *)NULL);
    _exit(127);
}

struct boost *boost_start(const char *program, const char *disk)
{
    return boost_start_within(program, disk, 0);
}

struct boost *boost_start_within(const char *program, const char *disk, int seconds)
{
    int to[2], from[2];
    signal(SIGPIPE, SIG_IGN);
    if (pipe_above(to) != 0)
        return NULL;
    if (pipe_above(from) != 0) {
        close(to[0]), close(to[1]);
        return NULL;
    }
    pid_t child = fork();
    if (child == 0)
        become(program, disk, to[0], from[1]);
    close(to[0]), close(from[1]);
    if (child < 0) {
        close(to[1]), close(from[0]);
        return NULL;
    }
    struct boost *store = client(to[1], from[0], "c1 ", child);
    if (store == NULL) {
        status_of(child);
        errno = ENOMEM;
        return NULL;
    }
    const char *hello = next_line(store, seconds > 0 ? now() + seconds : 0);
    if (hello != NULL && strcmp(hello, "hello boost 1") == 0)
        return store;
    int why = hello == NULL && errno == ETIMEDOUT ? ETIMEDOUT : ECHILD;
    boost_close(store);
    errno = why;
    return NULL;
}

/* Writes at the door of a folder, which has no reader where no server is there. */
static int ask_door(const char *folder, const char *text)
{
    char path[4096];
    snprintf(path, sizeof path, "%s/door", folder);
    int door = open(path, O_WRONLY | O_NONBLOCK | O_CLOEXEC);
    if (door < 0)
        return -1;
    int written = text[0] == '\0' ? 0 : write_within(door, text, strlen(text), now() + 1);
    int why = errno;
    close(door);
    errno = why;
    return written;
}

/* Says hello, behind a line feed that ends what somebody may have left at the door, and waits up to an end for the answer: once a
 * second it looks whether a server is there still. */
static int say_hello(const char *folder, const char *word, int from, double end)
{
    char hello[80];
    snprintf(hello, sizeof hello, "\nhello %s\n", word);
    for (int asked = ask_door(folder, hello); asked == 0; asked = ask_door(folder, "")) {
        double second = now() + 1;
        if (wait_for(from, POLLIN, second < end ? second : end) > 0)
            return 0;
        if (now() >= end) {
            errno = ETIMEDOUT;
            return -1;
        }
    }
    return -1;
}

/* Waits for the hello of a server, if there is one; without it the client is let go. */
static struct boost *greeted(struct boost *store, double end)
{
    const char *hello = store == NULL ? NULL : next_line(store, end);
    if (hello != NULL && strcmp(hello, "hello boost 1") == 0)
        return store;
    int why = hello != NULL ? EPROTO : errno;
    if (store != NULL)
        boost_close(store);
    errno = why;
    return NULL;
}

/* Opens again, for one way, what is open for both. */
static int open_again(int file, int way)
{
    char path[sizeof "/proc/self/fd/" + 3 * sizeof file];
    snprintf(path, sizeof path, "/proc/self/fd/%d", file);
    return file < 0 ? -1 : open(path, way | O_CLOEXEC);
}

/* Comes in over two FIFOs that are open for both ways, which holds them open until their other ends are, and closes these. */
static struct boost *come_in(const char *folder, const char *word, int held, int guard, double end)
{
    int to = open_again(held, O_WRONLY), from = open_again(guard, O_RDONLY);
    int here = to >= 0 && from >= 0 && say_hello(folder, word, from, end) == 0;
    int why = errno;
    close_file(&held);
    close_file(&guard);
    if (here)
        flock(from, LOCK_EX | LOCK_NB);       /* by which the server sees, while this client waits, that it is there */
    if (!here) {
        close_file(&to);
        close_file(&from);
        errno = why;
        return NULL;
    }
    return greeted(client(to, from, "", 0), end);
}

/* Makes a FIFO in a folder and opens it for both ways, which waits for nobody. It is of the folder's group too, which may read and
 * write it, where that may write the folder. Nobody's file is opened or changed that another of the group puts in its place. */
static int make_fifo(const char *path, const struct stat *folder)
{
    struct stat made;
    if (mkfifo(path, 0600) != 0)
        return -1;
    int file = open(path, O_RDWR | O_NOFOLLOW | O_NONBLOCK | O_CLOEXEC);
    if (file < 0)
        return -1;
    if (fstat(file, &made) != 0 || !S_ISFIFO(made.st_mode)) {
        close(file);
        errno = ENXIO;
        return -1;
    }
    flock(file, LOCK_EX | LOCK_NB);           /* a server that comes now removes no FIFO that has a lock */
    int is_shared = (folder->st_mode & S_IWGRP) != 0;
    if (is_shared && (made.st_gid == folder->st_gid || fchown(file, (uid_t)-1, folder->st_gid) == 0))
        fchmod(file, 0660);                   /* who is not of the group serves its own user alone */
    return file;
}

/* Connects to a socket; again a little later where as many wait already as a socket lets wait. */
static int connect_within(int file, const struct sockaddr_un *address, double end)
{
    const struct timespec pause = { .tv_nsec = 50000000 };
    while (connect(file, (const struct sockaddr *)address, sizeof *address) != 0) {
        if (errno != EAGAIN && errno != EINTR)
            return -1;
        if (now() > end) {
            errno = ETIMEDOUT;
            return -1;
        }
        nanosleep(&pause, NULL);
    }
    return 0;
}

static struct boost *join_gate(const char *path, double end)
{
    struct sockaddr_un address = { .sun_family = AF_UNIX };
    if (strlen(path) >= sizeof address.sun_path) {
        errno = ENAMETOOLONG;
        return NULL;
    }
    strcpy(address.sun_path, path);
    int to = socket(AF_UNIX, SOCK_STREAM | SOCK_CLOEXEC | SOCK_NONBLOCK, 0);
    int from = to < 0 || connect_within(to, &address, end) != 0 ? -1 : fcntl(to, F_DUPFD_CLOEXEC, 0);
    if (from < 0) {
        int why = errno;
        close_file(&to);
        errno = why;
        return NULL;
    }
    return greeted(client(to, from, "", 0), end);
}

struct boost *boost_join_within(const char *folder, int seconds)
{
    if (strncmp(folder, GATE, strlen(GATE)) == 0) {
        signal(SIGPIPE, SIG_IGN);
        return join_gate(folder + strlen(GATE), now() + seconds);
    }
    static unsigned count;
    unsigned chance = 0;
    struct stat found;
    char word[64], to[4096], from[4096];
    signal(SIGPIPE, SIG_IGN);
    if (stat(folder, &found) != 0 || getrandom(&chance, sizeof chance, 0) < 0)
        return NULL;
    snprintf(word, sizeof word, "c-%d-%u-%08x", (int)getpid(), __atomic_fetch_add(&count, 1, __ATOMIC_RELAXED), chance);
    snprintf(to, sizeof to, "%s/%s.to", folder, word);
    snprintf(from, sizeof from, "%s/%s.from", folder, word);
    if (ask_door(folder, "") != 0)            /* a server removes those without a lock that lie there before */
        return NULL;
    struct boost *store = NULL;
    int held = make_fifo(to, &found), guard = held < 0 ? -1 : make_fifo(from, &found);
    if (guard >= 0)
        store = come_in(folder, word, held, guard, now() + seconds);
    else
        close_file(&held);
    int why = errno;
    unlink(to), unlink(from);                 /* the server has removed them, unless it never came */
    errno = why;
    return store;
}

struct boost *boost_join(const char *folder)
{
    return boost_join_within(folder, BOOST_PATIENCE);
}

/* Tells a child to end, and waits for that up to the time-out: its answers end then. Whether it did. */
static int has_child_ended(struct boost *store)
{
    double end = end_of(store);
    if (store->to < 0)                                        /* out of step: it may stand still */
        return 0;
    write_within(store->to, "\nend\n", 5, now() + 1);         /* a forked process may hold the pipe open */
    close_file(&store->to);
    do
        store->held = store->used = 0;
    while (read_more(store, end) == 0);
    return errno != ETIMEDOUT;
}

int boost_close(struct boost *store)
{
    int is_of_parent = store->owner == getpid() && store->child != 0, status = 0;
    if (is_of_parent && !has_child_ended(store))
        kill(store->child, SIGKILL);
    close_file(&store->to);
    close_file(&store->from);
    if (is_of_parent)
        status = status_of(store->child);
    free(store->bytes);
    free(store);
    return status;
}
