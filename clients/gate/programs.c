/* Programs that come, are told, are late and go. */
#define _GNU_SOURCE
#include "gate.h"

#include <errno.h>
#include <netinet/in.h>
#include <netinet/tcp.h>
#include <stdlib.h>
#include <string.h>
#include <sys/socket.h>

/* ---- what programs are told */

static void tell_soon(struct program *program)
{
    if (!program->is_telling && !program->is_gone)
        TAILQ_INSERT_TAIL(&gate.telling, program, telling);
    program->is_telling = 1;
}

void tell(struct program *program, const char *bytes, size_t size)
{
    if (held(&program->answers) == 0)
        program->took = gate.now;
    add(&program->answers, bytes, size);
    tell_soon(program);
}

void answer(struct program *program, const char *line)
{
    tell(program, line, strlen(line));
    tell(program, "\n", 1);
}

int is_full(const struct program *program)
{
    return held(&program->answers) > ANSWERS_HELD;
}

/* Waits for what is of use of a program: that it is gone is told always. */
void look_at(struct program *program, int is_blocked)
{
    uint32_t events = EPOLLHUP;
    if (!program->is_over && held(&program->lines) < LINES_HELD)
        events |= EPOLLIN;
    if (is_blocked)
        events |= EPOLLOUT;
    watch_for(&program->socket, events);
}

void greet(struct program *program)
{
    if (program->is_greeted || program->is_finishing)
        return;
    program->is_greeted = 1;
    tell(program, HELLO, strlen(HELLO));
    serve(program);
}

/* ---- programs that go */

/* The answers that it waits for are for nobody. */
static void forget(struct program *program)
{
    struct asked *asked;
    for (int i = 0; i < gate.seats && program->asked > 0; i++)
        TAILQ_FOREACH (asked, &gate.of[i].asked, link)
            if (asked->program == program)
                asked->program = NULL;
    program->asked = 0;
}

/* A program is let go once it has been told what there is: none of its lines is carried out any more, and what it has open is
 * undone. */
void finish(struct program *program)
{
    forget(program);
    wait_no_more(program);
    if (program->is_waiting) {
        TAILQ_REMOVE(&gate.waiting, program, queue);
        program->is_waiting = 0;
        gate.waiters--;
    }
    program->is_finishing = program->is_over = 1;
    drop(&program->lines, held(&program->lines));
    look_at(program, program->socket.events & EPOLLOUT);
    tell_soon(program);
    give_back(program);
}

/* What lies in its socket is read, so that nothing that it was told is lost by a reset; but not for ever, of one that says more and
 * more. */
static void let_go(struct program *program)
{
    enum { TIMES = 100 };
    char bytes[ROOM_KEPT];
    if (program->is_gone)
        return;
    finish(program);
    for (int i = 0; i < TIMES && recv(program->socket.file, bytes, sizeof bytes, MSG_DONTWAIT) > 0; i++)
        continue;
    close_watch(&program->socket);
    program->is_gone = 1;
    TAILQ_REMOVE(&gate.telling, program, telling);
    TAILQ_REMOVE(&gate.programs, program, link);
    TAILQ_INSERT_TAIL(&gate.gone, program, link);
    gate.count--;
    accept_more();
}

/* Those that are gone are forgotten once nobody looks at them any more. */
void bury(void)
{
    struct program *program;
    while ((program = TAILQ_FIRST(&gate.gone)) != NULL) {
        TAILQ_REMOVE(&gate.gone, program, link);
        free(program->lines.bytes);
        free(program->answers.bytes);
        free(program);
    }
}

/* Writes to a program what it is told. What waited for that goes on. */
static void tell_now(struct program *program)
{
    int is_blocked = 0;
    while (held(&program->answers) > 0 && !is_blocked) {
        const char *bytes = program->answers.bytes + program->answers.begin;
        ssize_t size = send(program->socket.file, bytes, held(&program->answers), MSG_NOSIGNAL);
        if (size > 0) {
            drop(&program->answers, (size_t)size);
            program->took = gate.now;
        } else if (errno == EAGAIN) {
            is_blocked = 1;
        } else if (errno != EINTR) {
            let_go(program);
            return;
        }
    }
    look_at(program, is_blocked);
    if (program->is_finishing && !is_blocked)
        let_go(program);
    else if (!is_full(program))
        go_on(program);
}

void tell_all(void)
{
    struct program *program;
    while ((program = TAILQ_FIRST(&gate.telling)) != NULL) {
        TAILQ_REMOVE(&gate.telling, program, telling);
        program->is_telling = 0;
        tell_now(program);
    }
}

/* ---- programs that come, and say something */

static void read_lines(struct program *program)
{
    char bytes[LINES_HELD];
    size_t size = held(&program->lines), room = size < LINES_HELD ? LINES_HELD - size : 0;
    ssize_t came = room == 0 ? 0 : recv(program->socket.file, bytes, room, 0);
    if (came > 0 && !program->is_finishing) {
        add(&program->lines, bytes, (size_t)came);
        program->spoke = gate.now;
    } else if (came == 0 && room > 0) {
        program->is_over = 1;
    } else if (came < 0 && errno != EAGAIN && errno != EINTR) {
        let_go(program);
        return;
    }
    serve(program);
}

/* What a program says that is gone already is carried out where it need not wait for a seat. */
static void hear_program(struct watch *watch, uint32_t events)
{
    struct program *program = watch->of;
    if (events & EPOLLIN)
        read_lines(program);
    if (events & (EPOLLHUP | EPOLLERR))
        let_go(program);
    else if (events & EPOLLOUT)
        tell_soon(program);
}

static void come(int file, int is_on_port)
{
    struct program *program = memory(NULL, sizeof *program);
    int one = 1;
    if (is_on_port)
        setsockopt(file, IPPROTO_TCP, TCP_NODELAY, &one, sizeof one);
    *program = (struct program){
        .socket = { .file = file, .of = program, .ready = hear_program },
        .is_on_port = is_on_port, .spoke = gate.now, .waits = gate.now, .took = gate.now,
    };
    TAILQ_INSERT_TAIL(&gate.programs, program, link);
    gate.count++;
    look_at(program, 0);
    if (number_of(SERVING) > 0)
        greet(program);
    accept_more();
}

/* More than may be joined wait for one that goes. */
void accept_more(void)
{
    int is_room = gate.count < gate.most && gate.ends == 0;
    watch_for(&gate.socket, is_room ? EPOLLIN : 0);
    watch_for(&gate.port, is_room ? EPOLLIN : 0);
}

/* Where the system gives no more files it is asked again at the next look. */
void accept_some(struct watch *watch, uint32_t events)
{
    (void)events;
    for (int i = 0; i < EVENTS && watch->events != 0; i++) {
        int file = accept4(watch->file, NULL, NULL, SOCK_NONBLOCK | SOCK_CLOEXEC);
        if (file >= 0) {
            come(file, watch == &gate.port);
        } else {
            if (errno != EAGAIN && errno != EINTR && errno != ECONNABORTED)
                watch_for(watch, 0);
            return;
        }
    }
}

/* ---- who is late */

/* Whether a program was given time enough, to read its answers or for a server to come. */
static const char *why_late(const struct program *program, int is_served)
{
    double deaf = gate.idle > 0 ? gate.idle : DEAF;
    double alone_since = program->waits > gate.left ? program->waits : gate.left;
    int is_patient = is_served || gate.patience == 0 || (program->is_greeted && !program->is_waiting);
    if (held(&program->answers) > 0 && gate.now - program->took > deaf)
        return "reads nothing";
    return is_patient || gate.now - alone_since <= gate.patience ? NULL : "waited for a server";
}

static int is_idle(const struct program *program)
{
    int is_silent = program->seat != NULL && program->asked == 0 && !is_full(program);
    return gate.idle > 0 && is_silent && gate.now - program->spoke > gate.idle;
}

static void note_late(const struct program *program, const char *why)
{
    struct ucred who = { 0 };
    socklen_t size = sizeof who;
    if (program->is_on_port || getsockopt(program->socket.file, SOL_SOCKET, SO_PEERCRED, &who, &size) != 0)
        note("a program is let go that %s", why);
    else
        note("the program of process %d is let go that %s", (int)who.pid, why);
}

void look_at_all(void)
{
    struct program *program, *next;
    int is_served = number_of(SERVING) > 0;
    for (program = TAILQ_FIRST(&gate.programs); program != NULL; program = next) {
        next = TAILQ_NEXT(program, link);
        const char *why = why_late(program, is_served);
        if (why != NULL) {
            note_late(program, why);
            let_go(program);
        } else if (is_idle(program)) {
            program->was_idle = 1;
            give_back(program);
        }
    }
    accept_more();
}
