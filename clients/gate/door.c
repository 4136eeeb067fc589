/* Seats that come in at the door of a server: docs/LISTEN.md says how, under "At the door". The client in C (clients/c) does the same
 * and waits for the hello; here the hello is one of the things that are waited for at once. */
#define _GNU_SOURCE
#include "gate.h"

#include <errno.h>
#include <fcntl.h>
#include <stdio.h>
#include <string.h>
#include <sys/random.h>
#include <sys/stat.h>
#include <unistd.h>

/* The path of a file in the folder. */
struct path {
    char text[FOLDER + WORD + sizeof "/.from"];
};

static struct path path_of(const char *word, const char *end)
{
    struct path path;
    snprintf(path.text, sizeof path.text, "%s/%s%s", gate.folder, word, end);
    return path;
}

void remove_fifos(const struct seat *seat)
{
    unlink(path_of(seat->word, ".to").text);
    unlink(path_of(seat->word, ".from").text);
}

/* Gives up a seat that was coming, and looks for a server a little later. */
void come_later(struct seat *seat, const char *what, int why)
{
    if (seat->state == COMING)
        remove_fifos(seat);
    close_seat(seat);
    if (!gate.is_away)
        note("%s at %s: %s", what, gate.folder, why == ENXIO ? "nobody reads its door" : strerror(why));
    gate.is_away = 1;
    gate.retry = gate.now + gate.pause;
    gate.pause = gate.pause * 2 < PAUSE_MOST ? gate.pause * 2 : PAUSE_MOST;
}

static int open_door(void)
{
    struct stat found;
    int door = open(path_of("door", "").text, O_WRONLY | O_NONBLOCK | O_CLOEXEC);
    if (door >= 0 && (fstat(door, &found) != 0 || !S_ISFIFO(found.st_mode))) {
        close(door);
        errno = ENXIO;
        return -1;
    }
    return door;
}

/* The line feed before the hello ends what another left at the door of a line. A door that is full is tried again. */
static void say_hello(struct seat *seat, int door)
{
    char hello[WORD + sizeof "\nhello \n"];
    int size = snprintf(hello, sizeof hello, "\nhello %s\n", seat->word);
    seat->is_unsaid = write(door, hello, (size_t)size) != size;
}

/* Makes a FIFO and opens it for both ways, which waits for nobody. It is for the group of the folder too where that may write
 * there. Nobody's file is opened or changed that another of the group puts in its place. */
static int make_fifo(const char *path)
{
    struct stat folder, made;
    if (stat(gate.folder, &folder) != 0 || mkfifo(path, 0600) != 0)
        return -1;
    int file = open(path, O_RDWR | O_NOFOLLOW | O_NONBLOCK | O_CLOEXEC);
    if (file < 0)
        return -1;
    if (fstat(file, &made) != 0 || !S_ISFIFO(made.st_mode)) {
        close(file);
        errno = ENXIO;
        return -1;
    }
    int is_shared = (folder.st_mode & S_IWGRP) != 0;
    if (is_shared && (made.st_gid == folder.st_gid || fchown(file, (uid_t)-1, folder.st_gid) == 0))
        fchmod(file, 0660);
    return file;
}

/* Opens again, for one way, what is open for both. */
static int open_again(int file, int way)
{
    char path[sizeof "/proc/self/fd/" + 3 * sizeof file];
    snprintf(path, sizeof path, "/proc/self/fd/%d", file);
    return open(path, way | O_NONBLOCK | O_CLOEXEC);
}

static int open_fifos(struct seat *seat)
{
    seat->held[0] = make_fifo(path_of(seat->word, ".to").text);
    if (seat->held[0] >= 0)
        seat->held[1] = make_fifo(path_of(seat->word, ".from").text);
    if (seat->held[1] < 0)
        return -1;
    seat->to.file = open_again(seat->held[0], O_WRONLY);
    seat->from.file = open_again(seat->held[1], O_RDONLY);
    return seat->to.file < 0 || seat->from.file < 0 ? -1 : 0;
}

/* A word that no other client has. */
static void name(struct seat *seat)
{
    static unsigned count;
    unsigned chance = 0;
    if (getrandom(&chance, sizeof chance, GRND_NONBLOCK) < 0)
        chance = (unsigned)(gate.now * 1e6);
    snprintf(seat->word, sizeof seat->word, "gate-%d-%u-%08x", (int)getpid(), count++, chance);
}

void come_in(struct seat *seat)
{
    int door = open_door();
    if (door < 0) {
        come_later(seat, "no server", errno);
        return;
    }
    name(seat);
    seat->state = COMING;
    seat->since = gate.now;
    if (open_fifos(seat) == 0) {
        say_hello(seat, door);
        watch_for(&seat->from, EPOLLIN);
    } else {
        come_later(seat, "no FIFOs can be made", errno);
    }
    close(door);
}

/* Looks after a seat that waits for its hello: whether a server is there still, and whether it is of use to wait. A new server has
 * removed its FIFOs; and one that passes them over, as it cannot open them, says nothing here. */
void look_after(struct seat *seat)
{
    int door = open_door();
    if (door < 0) {
        come_later(seat, "no server", errno);
        return;
    }
    if (seat->is_unsaid)
        say_hello(seat, door);
    close(door);
    seat->looks = access(path_of(seat->word, ".to").text, F_OK) == 0 ? 0 : seat->looks + 1;
    if (seat->looks > 1 || gate.now - seat->since > COMING_MOST) {
        remove_fifos(seat);
        close_seat(seat);
        come_in(seat);
    }
}

int number_of(enum state state)
{
    int number = 0;
    for (int i = 0; i < gate.seats; i++)
        number += gate.of[i].state == state;
    return number;
}

/* As many seats come in as programs wait, and one where nobody knows yet whether a server is there. */
void come_in_as_wanted(void)
{
    int is_wanted = gate.count > 0 && number_of(SERVING) == 0;
    int wanted = (gate.waiters > is_wanted ? gate.waiters : is_wanted) - number_of(COMING);
    for (int i = 0; i < gate.seats && wanted > 0 && gate.now >= gate.retry && gate.ends == 0; i++) {
        if (gate.of[i].state == ABSENT) {
            come_in(&gate.of[i]);
            wanted--;
        }
    }
}
