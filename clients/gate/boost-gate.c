/* boost-gate FOLDER SOCKET: a Unix socket for many programs, beside a store's server `boost listen DISK FOLDER`. See docs/GATE.md.
 *
 * The gate is up to 64 clients of the server's door: its seats. A program that connects to the socket asks line by line, as at the
 * door. It has a seat for a transaction, or for a line outside of one, and gives it back; who finds none waits its turn.
 *
 * One thread serves all, and waits in `epoll_wait` alone: no file blocks. What programs and the server are told is written once all
 * that came has been looked at. This file begins and ends the gate; gate.h names what is in the others. */
#define _GNU_SOURCE
#include "gate.h"

#include <errno.h>
#include <fcntl.h>
#include <getopt.h>
#include <grp.h>
#include <netinet/in.h>
#include <poll.h>
#include <signal.h>
#include <stdio.h>
#include <stdlib.h>
#include <string.h>
#include <sys/file.h>
#include <sys/resource.h>
#include <sys/signalfd.h>
#include <sys/socket.h>
#include <sys/stat.h>
#include <sys/un.h>
#include <unistd.h>

struct gate gate;

/* ---- the socket */

/* Holds the folder of the socket, so that of two gates that begin at once one sees the other. After two seconds it goes on without:
 * then it is no gate that has it. -1 where there is none. */
static int hold_folder(void)
{
    enum { TIMES = 100, MILLISECONDS = 20 };
    char path[sizeof((struct sockaddr_un *)0)->sun_path];
    snprintf(path, sizeof path, "%s", gate.path);
    char *slash = strrchr(path, '/');
    if (slash != NULL)
        slash[slash == path] = '\0';
    int folder = open(slash == NULL ? "." : path, O_RDONLY | O_DIRECTORY | O_CLOEXEC);
    for (int i = 0; folder >= 0 && flock(folder, LOCK_EX | LOCK_NB) != 0 && i < TIMES; i++)
        poll(NULL, 0, MILLISECONDS);
    return folder;
}

static void let_go_of(int folder)
{
    if (folder >= 0)
        close(folder);
}

/* Removes the socket, unless another one has been put into its place. */
static void remove_socket(void)
{
    struct stat found;
    int folder = hold_folder();
    if (lstat(gate.path, &found) == 0 && found.st_dev == gate.device && found.st_ino == gate.inode)
        unlink(gate.path);
    let_go_of(folder);
}

/* Whether somebody listens at a socket; where nobody does it is removed. Anything but a socket stays, and is in the way. */
static int is_taken(const struct sockaddr_un *address)
{
    struct stat found;
    if (lstat(address->sun_path, &found) != 0 || !S_ISSOCK(found.st_mode))
        return 0;
    int file = socket(AF_UNIX, SOCK_STREAM | SOCK_CLOEXEC | SOCK_NONBLOCK, 0);
    if (file < 0)
        fail(REFUSED, "no socket: %s", strerror(errno));
    int is_dead = connect(file, (const struct sockaddr *)address, sizeof *address) != 0 && errno == ECONNREFUSED;
    close(file);
    if (is_dead)
        unlink(address->sun_path);
    return !is_dead;
}

/* Makes the socket for its owner alone, and then for the group. */
static void make_socket(int file, const struct sockaddr_un *address, const struct group *group)
{
    struct stat made;
    mode_t mask = umask(0177);
    if (file < 0 || bind(file, (const struct sockaddr *)address, sizeof *address) != 0 || lstat(gate.path, &made) != 0)
        fail(NO_FILE, "cannot make %s: %s", gate.path, strerror(errno));
    umask(mask);
    gate.device = made.st_dev;
    gate.inode = made.st_ino;
    if (group != NULL && (lchown(gate.path, (uid_t)-1, group->gr_gid) != 0 || chmod(gate.path, 0660) != 0)) {
        int why = errno;
        unlink(gate.path);
        fail(NO_FILE, "%s cannot be for the group %s: %s", gate.path, group->gr_name, strerror(why));
    }
    if (listen(file, SOMAXCONN) != 0)
        fail(NO_FILE, "cannot listen at %s: %s", gate.path, strerror(errno));
}

static int open_socket(const char *group)
{
    struct sockaddr_un address = { .sun_family = AF_UNIX };
    struct group *found = group == NULL ? NULL : getgrnam(group);
    if (group != NULL && found == NULL)
        fail(NO_FILE, "there is no group %s", group);
    if (strlen(gate.path) >= sizeof address.sun_path)
        fail(NO_FILE, "the path of a socket has %zu bytes at most: %s", sizeof address.sun_path - 1, gate.path);
    strcpy(address.sun_path, gate.path);
    int file = socket(AF_UNIX, SOCK_STREAM | SOCK_CLOEXEC | SOCK_NONBLOCK, 0), folder = hold_folder();
    if (is_taken(&address))
        fail(NO_FILE, "another run has %s", gate.path);
    make_socket(file, &address, found);
    let_go_of(folder);
    return file;
}

/* A port of the loopback alone. */
static int open_port(int number)
{
    struct sockaddr_in address = {
        .sin_family = AF_INET, .sin_port = htons((uint16_t)number), .sin_addr.s_addr = htonl(INADDR_LOOPBACK),
    };
    int one = 1, file = socket(AF_INET, SOCK_STREAM | SOCK_CLOEXEC | SOCK_NONBLOCK, 0);
    if (file < 0 || setsockopt(file, SOL_SOCKET, SO_REUSEADDR, &one, sizeof one) != 0
        || bind(file, (struct sockaddr *)&address, sizeof address) != 0 || listen(file, SOMAXCONN) != 0)
        fail(NO_FILE, "cannot open the port %d: %s", number, strerror(errno));
    return file;
}

/* ---- the run */

/* Whether there is nothing to look after: nobody is joined, all who come are taken, and no seat is to come or to go. */
static int is_at_rest(void)
{
    return gate.count == 0 && gate.socket.events != 0 && number_of(COMING) == 0 && number_of(SERVING) <= SEATS_KEPT;
}

/* In how many milliseconds something is to be done, if nothing comes; -1: never. */
static int pause_for(void)
{
    double seconds = gate.looked + LOOK - gate.now;
    if (gate.ends > 0)
        seconds = PAUSE_LEAST;
    else if (is_at_rest())
        return -1;
    else if (gate.retry > gate.now && gate.retry - gate.now < seconds)
        seconds = gate.retry - gate.now;
    return seconds > 0 ? (int)(seconds * 1000) + 1 : 0;
}

/* Whether all is answered that was asked, once the gate was told to end. */
static int is_over(void)
{
    const struct program *program;
    if (gate.ends == 0 || gate.now >= gate.ends)
        return gate.ends > 0;
    TAILQ_FOREACH (program, &gate.programs, link)
        if (program->asked > 0 || held(&program->answers) > 0)
            return 0;
    return 1;
}

/* A second signal ends it at once. */
static void hear_signal(struct watch *watch, uint32_t events)
{
    struct signalfd_siginfo told;
    (void)events;
    if (read(watch->file, &told, sizeof told) != sizeof told)
        return;
    if (gate.ends > 0)
        exit(0);
    gate.ends = gate.now + ENDING;
    remove_socket();
    accept_more();
}

static void look(void)
{
    look_at_all();
    wait_for_commits();
    let_seats_go();
    for (int i = 0; i < gate.seats; i++)
        if (gate.of[i].state == COMING)
            look_after(&gate.of[i]);
    gate.looked = gate.now;
}

static void run(void)
{
    struct epoll_event events[EVENTS];
    while (!is_over()) {
        int count = epoll_wait(gate.epoll, events, EVENTS, pause_for());
        gate.now = now();
        for (int i = 0; i < count; i++) {
            struct watch *watch = events[i].data.ptr;
            if (watch->events != 0)                        /* an earlier one may have ended it */
                watch->ready(watch, events[i].events);
        }
        if (gate.now >= gate.looked + LOOK)
            look();
        call_next();
        come_in_as_wanted();
        tell_all();
        flush_seats();
        bury();
    }
    for (int i = 0; i < gate.seats; i++)
        if (gate.of[i].state == COMING)
            remove_fifos(&gate.of[i]);
}

/* ---- beginning */

/* Nothing that is opened becomes a standard stream. */
static void open_streams(void)
{
    for (int file = 0; file <= 2; file++)
        if (fcntl(file, F_GETFD) < 0 && open("/dev/null", O_RDWR) != file)
            exit(NO_FILE);
}

/* As many files as programs and seats want, of those that the system gives. */
static void raise_files(void)
{
    enum { OF_A_SEAT = 4, OTHERS = 16 };
    struct rlimit files;
    rlim_t others = (rlim_t)gate.seats * OF_A_SEAT + OTHERS, wanted = PROGRAMS + others;
    if (getrlimit(RLIMIT_NOFILE, &files) != 0)
        fail(REFUSED, "the limit of open files is not known: %s", strerror(errno));
    if (files.rlim_cur < wanted) {
        files.rlim_cur = files.rlim_max < wanted ? files.rlim_max : wanted;
        setrlimit(RLIMIT_NOFILE, &files);
        getrlimit(RLIMIT_NOFILE, &files);
    }
    if (files.rlim_cur <= others)
        fail(REFUSED, "%lu open files are too few for %d seats", (unsigned long)files.rlim_cur, gate.seats);
    gate.most = files.rlim_cur < wanted ? (int)(files.rlim_cur - others) : PROGRAMS;
    if (gate.most < PROGRAMS)
        note("with %lu open files %d programs are joined at once, and not %d", (unsigned long)files.rlim_cur, gate.most, PROGRAMS);
}

static void watch_signals(void)
{
    sigset_t set;
    sigemptyset(&set);
    sigaddset(&set, SIGTERM);
    sigaddset(&set, SIGINT);
    sigprocmask(SIG_BLOCK, &set, NULL);
    signal(SIGPIPE, SIG_IGN);
    gate.signals = (struct watch){ .file = signalfd(-1, &set, SFD_NONBLOCK | SFD_CLOEXEC), .ready = hear_signal };
    watch_for(&gate.signals, EPOLLIN);
}

static void make_seats(void)
{
    for (int i = 0; i < MOST_SEATS; i++) {
        struct seat *seat = &gate.of[i];
        seat->to = (struct watch){ .file = -1, .of = seat, .ready = go_on_writing };
        seat->from = (struct watch){ .file = -1, .of = seat, .ready = hear_seat };
        seat->held[0] = seat->held[1] = -1;
        TAILQ_INIT(&seat->asked);
    }
}

/* The port is opened before the socket, which nobody has to remove where it cannot be. One seat comes in at once: so it is told
 * early where no server is there. */
static void begin(const char *group, int port)
{
    raise_files();
    gate.epoll = epoll_create1(EPOLL_CLOEXEC);
    gate.now = gate.looked = now();
    gate.pause = PAUSE_LEAST;
    TAILQ_INIT(&gate.resting);
    TAILQ_INIT(&gate.programs);
    TAILQ_INIT(&gate.waiting);
    TAILQ_INIT(&gate.patient);
    TAILQ_INIT(&gate.telling);
    TAILQ_INIT(&gate.gone);
    make_seats();
    watch_signals();
    gate.port = (struct watch){ .file = port == 0 ? -1 : open_port(port), .ready = accept_some };
    gate.socket = (struct watch){ .file = open_socket(group), .ready = accept_some };
    accept_more();
    come_in(&gate.of[0]);
}

static const char TEXT[] =
    "usage: boost-gate FOLDER SOCKET [--group NAME] [--port N] [--seats N] [--idle SECONDS] [--patience SECONDS]\n"
    "A Unix socket for many programs, beside a store's server `boost listen DISK FOLDER`.\n"
    "  --group NAME        who is of the group may connect; else the owner alone\n"
    "  --port N            also a port of 127.0.0.1, for whoever has an account on this machine\n"
    "  --seats N           how many clients of the server it is at most, 1 to 64; 60\n"
    "  --idle SECONDS      a transaction whose program says nothing for so long is undone; never\n"
    "  --patience SECONDS  so long a program waits for a server that is not there; 10, and 0 for ever\n";

/* The number of an option, from the least to the most that it may be. */
static int number_from(const char *text, int least, int most)
{
    char *end;
    errno = 0;
    long number = strtol(text, &end, 10);
    if (errno != 0 || *text == '\0' || *end != '\0' || number < least || number > most)
        fail(USAGE, "no number from %d to %d: %s", least, most, text);
    return (int)number;
}

int main(int count, char **words)
{
    enum { GROUP = 1, PORT, IDLE, PATIENCE, PLACES, HELP, MOST_PORT = 65535, MOST_SECONDS = 1000000 };
    static const struct option options[] = {
        { "group", required_argument, NULL, GROUP }, { "port", required_argument, NULL, PORT },
        { "seats", required_argument, NULL, PLACES }, { "idle", required_argument, NULL, IDLE },
        { "patience", required_argument, NULL, PATIENCE }, { "help", no_argument, NULL, HELP }, { 0 },
    };
    const char *group = NULL;
    int port = 0;
    open_streams();
    gate.seats = 60;
    gate.patience = 10;
    for (int option; (option = getopt_long(count, words, "", options, NULL)) >= 0;) {
        switch (option) {
        case GROUP: group = optarg; break;
        case PORT: port = number_from(optarg, 1, MOST_PORT); break;
        case PLACES: gate.seats = number_from(optarg, 1, MOST_SEATS); break;
        case IDLE: gate.idle = number_from(optarg, 1, MOST_SECONDS); break;
        case PATIENCE: gate.patience = number_from(optarg, 0, MOST_SECONDS); break;
        case HELP: fputs(TEXT, stdout); return 0;
        default: fputs(TEXT, stderr); return USAGE;
        }
    }
    if (count - optind != 2 || strlen(words[optind]) > FOLDER) {
        fputs(TEXT, stderr);
        return USAGE;
    }
    gate.folder = words[optind];
    gate.path = words[optind + 1];
    begin(group, port);
    run();
    return 0;
}
