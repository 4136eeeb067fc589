/* What the parts of boost-gate share: see boost-gate.c for what it is. */
#ifndef GATE_H
#define GATE_H

#include <stddef.h>
#include <stdint.h>
#include <sys/epoll.h>
#include <sys/queue.h>
#include <sys/types.h>

enum {
    LONGEST = 4095,          /* bytes of a line, without its line feed */
    PROGRAMS = 1024,         /* programs that are joined at once */
    MOST_SEATS = 64,         /* clients of a server */
    WINDOW = 32,             /* lines of a program that the server has and has not answered */
    READ = 65536,            /* bytes that one read takes */
    LINES_HELD = 16384,      /* bytes of lines of a program that wait: then no more are read */
    ANSWERS_HELD = 65536,    /* bytes of answers that a program has not read: then none of its lines are carried out */
    ANSWERS_MOST = 4 << 20,  /* and then none are read that other programs wait for behind its own */
    ROOM_KEPT = 4096,        /* bytes of room that an empty buffer keeps */
    HEAD = 256,              /* bytes of an answer that tell what it is */
    WORD = 64,               /* bytes of a seat's word at the door */
    EVENTS = 256,            /* files that one wait tells of */
    NOTES = 200,             /* notes on standard error, which nobody may read */
    FOLDER = 4000,           /* bytes of the path of a folder */
    SEATS_KEPT = 8,          /* seats that nobody wants and that stay, of the 64 that a server has for all */
};
enum { REFUSED = 1, USAGE = 2, NO_FILE = 4 };   /* statuses of the program, as those of `boost` */

#define HELLO "hello boost 1\n"
#define REST 10.0          /* seconds in which nobody wants a seat, until it is let go */
#define COMING_MOST 60.0   /* seconds in which it has to be served, before it says hello anew */
#define LOOK 0.5           /* seconds between two looks at who is late */
#define PAUSE_LEAST 0.05   /* seconds between two looks for a server, at first */
#define PAUSE_MOST 1.0     /* and later */
#define ENDING 5.0         /* seconds in which what was asked is answered, once the gate is told to end */
#define DEAF 60.0          /* seconds in which a program has to read some of its answers, unless --idle says others */

/* Bytes that wait. */
struct bytes {
    char *bytes;
    size_t begin, end, room;
};

/* A file that is waited for, of a seat or a program. It is known to epoll while there are events. */
struct watch {
    int file;
    void *of;
    uint32_t events;
    void (*ready)(struct watch *watch, uint32_t events);
};

enum verb { OTHER, BEGIN, CALL, COMMIT, KEEP, ABORT, MAKE, DO, DO_AND_KEEP, WITHIN, KEPT, WAIT, STATUS, BYE };

/* A line that the server has not answered yet; of no program where that is gone, and where the gate asks by itself. */
struct asked {
    TAILQ_ENTRY(asked) link;
    struct program *program;
    enum verb verb;
};

enum state { ABSENT, COMING, SERVING };

/* A client of the server's door. */
struct seat {
    struct watch to, from;
    enum state state;
    int held[2];                  /* both FIFOs, opened for both ways until the hello has come */
    char word[WORD];
    int is_unsaid;                /* its hello was not written yet, as the door was full */
    int looks;                    /* at how many looks its FIFOs were gone, and no hello was there */
    struct bytes lines;           /* that were not written yet */
    TAILQ_HEAD(, asked) asked;
    char head[HEAD];              /* the beginning of the answer that is read */
    size_t head_size;
    struct program *holder;
    int is_open;                  /* it has a transaction, of its holder or of one that is gone */
    int is_undoing;               /* the gate has asked for its abort */
    int is_resting;
    double since;                 /* when it began to come in, or to rest */
    uint64_t commits, kept;       /* what it committed, and how many of these are known to be kept */
    TAILQ_ENTRY(seat) link;
};

enum commit { NO_COMMIT, AT_SEAT, IS_KEPT };

struct program {
    struct watch socket;
    struct bytes lines, answers;
    struct seat *seat;            /* which it holds */
    unsigned asked, enders;       /* lines with no answer yet, and how many of these may end a transaction */
    int is_apart;                 /* they are one line to the seat of its last commit, whoever holds that */
    enum commit commit;           /* its last one: */
    struct seat *last;            /* the seat that made it, */
    uint64_t number;              /* and the which it was of that */
    int is_on_port, is_greeted, is_waiting, is_telling;
    int is_patient;               /* its line may wait in the server, and stands in a line before it does */
    int is_within;                /* it does, or is to once it has a seat */
    int is_skipping;              /* in a line that is too long */
    int was_idle;                 /* its transaction was undone, which it does not know yet */
    int is_over;                  /* it says no more */
    int is_finishing;             /* it is let go once it has been told all */
    int is_gone;
    double spoke, waits, took;    /* when it last said something, began to wait, took some of its answers */
    TAILQ_ENTRY(program) link, queue, telling;
};

TAILQ_HEAD(programs, program);
TAILQ_HEAD(seats, seat);

struct gate {
    const char *folder, *path;
    int seats;
    double idle, patience;        /* seconds; 0: for ever */
    int epoll;
    struct watch socket, port, signals;
    dev_t device;                 /* the socket as a file */
    ino_t inode;
    struct seat of[MOST_SEATS];
    struct seats resting;
    struct programs programs, waiting, patient, telling, gone;
    int count, most, waiters, within;   /* of programs */
    double now, looked;
    double retry, pause, left;    /* when a server is looked for again, how long after that, and when the last seat ended */
    int is_away;                  /* no server was there */
    double ends;                  /* when it ends; 0: it was not told to */
    int notes;
};
extern struct gate gate;

/* common.c: bytes, files that are waited for, notes */
double now(void);
void note(const char *format, ...) __attribute__((format(printf, 1, 2)));
void fail(int status, const char *format, ...) __attribute__((format(printf, 2, 3), noreturn));
void *memory(void *old, size_t size);
size_t held(const struct bytes *bytes);
void add(struct bytes *to, const char *bytes, size_t size);
void drop(struct bytes *from, size_t size);
void watch_for(struct watch *watch, uint32_t events);
void close_watch(struct watch *watch);
int is(const char *text, const char *other);
int begins(const char *text, const char *with);

/* door.c: seats that come in */
void come_in(struct seat *seat);
void come_in_as_wanted(void);
void come_later(struct seat *seat, const char *what, int why);
void look_after(struct seat *seat);
void remove_fifos(const struct seat *seat);
int number_of(enum state state);

/* seats.c: what the server is asked and answers */
void ask(struct seat *seat, struct program *program, enum verb verb, const char *line, size_t size);
void close_seat(struct seat *seat);
void learn_commits(struct seat *seat);
void hold(struct program *program, struct seat *seat);
void give_back(struct program *program);
struct seat *resting_seat(const struct program *program);
void hear_seat(struct watch *watch, uint32_t events);
void go_on_writing(struct watch *watch, uint32_t events);
void wait_for_commits(void);
void let_seats_go(void);
void flush_seats(void);

/* lines.c: what programs ask */
void serve(struct program *program);
void go_on(struct program *program);
void wait_no_more(struct program *program);
void call_next(void);

/* programs.c: programs that come, are told and go */
void tell(struct program *program, const char *bytes, size_t size);
void answer(struct program *program, const char *line);
int is_full(const struct program *program);
void look_at(struct program *program, int is_blocked);
void greet(struct program *program);
void finish(struct program *program);
void accept_some(struct watch *watch, uint32_t events);
void accept_more(void);
void look_at_all(void);
void tell_all(void);
void bury(void);

#endif
