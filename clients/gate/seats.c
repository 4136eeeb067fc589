/* What the server is asked over the seats, and what it answers. */
#define _GNU_SOURCE
#include "gate.h"

#include <errno.h>
#include <poll.h>
#include <stdlib.h>
#include <string.h>
#include <sys/file.h>
#include <unistd.h>

/* ---- seats that rest, are held and end */

static void rest(struct seat *seat)
{
    seat->is_resting = 1;
    seat->since = gate.now;
    TAILQ_INSERT_HEAD(&gate.resting, seat, link);
}

static void rest_no_more(struct seat *seat)
{
    if (seat->is_resting)
        TAILQ_REMOVE(&gate.resting, seat, link);
    seat->is_resting = 0;
}

void close_seat(struct seat *seat)
{
    struct asked *asked;
    close_watch(&seat->to);
    close_watch(&seat->from);
    for (int i = 0; i < 2; i++) {
        if (seat->held[i] >= 0)
            close(seat->held[i]);
        seat->held[i] = -1;
    }
    rest_no_more(seat);
    while ((asked = TAILQ_FIRST(&seat->asked)) != NULL) {
        TAILQ_REMOVE(&seat->asked, asked, link);
        free(asked);
    }
    drop(&seat->lines, held(&seat->lines));
    seat->state = ABSENT;
    seat->is_open = seat->is_undoing = seat->is_unsaid = seat->looks = 0;
    seat->head_size = 0;
    seat->commits = seat->kept = 0;
}

/* Tells by their end those programs whose last commit it made, where nobody knows whether that is kept. */
static void end_commits(const struct seat *seat)
{
    struct program *program;
    TAILQ_FOREACH (program, &gate.programs, link) {
        if (program->last != seat)
            continue;
        if (program->number <= seat->kept)
            program->commit = IS_KEPT;
        else
            finish(program);
        program->last = NULL;
    }
}

/* A seat is gone: so are the programs whose line is not answered, whose transaction is open, or of whose last commit nobody knows
 * whether it is kept. */
static void end_seat(struct seat *seat)
{
    struct program *holder = seat->holder;
    struct asked *asked;
    gate.left = gate.now;
    seat->holder = NULL;
    if (holder != NULL) {
        holder->seat = NULL;
        finish(holder);
    }
    TAILQ_FOREACH (asked, &seat->asked, link)
        if (asked->program != NULL)
            finish(asked->program);
    end_commits(seat);
    close_seat(seat);
}

/* Whether the server waits for work for a program that is gone. */
static int is_left(const struct seat *seat)
{
    const struct asked *asked = TAILQ_FIRST(&seat->asked);
    return asked != NULL && asked->verb == WITHIN && asked->program == NULL && seat->commits == seat->kept;
}

/* One that nobody holds rests, once all is answered and nothing is open. Where the server does not abort, its end is the abort; and by
 * its end the server learns that nobody waits for work. */
static void settle(struct seat *seat)
{
    if (seat->state != SERVING || seat->holder != NULL || seat->is_resting || (!TAILQ_EMPTY(&seat->asked) && !is_left(seat)))
        return;
    if (is_left(seat) || (seat->is_open && seat->is_undoing)) {
        end_seat(seat);
    } else if (seat->is_open) {
        seat->is_undoing = 1;
        ask(seat, NULL, ABORT, "abort", strlen("abort"));
    } else {
        seat->is_undoing = 0;
        rest(seat);
    }
}

void hold(struct program *program, struct seat *seat)
{
    rest_no_more(seat);
    seat->holder = program;
    program->seat = seat;
}

/* Also with a transaction that is open, or lines that are not answered yet. */
void give_back(struct program *program)
{
    struct seat *seat = program->seat;
    if (seat == NULL)
        return;
    program->seat = NULL;
    seat->holder = NULL;
    settle(seat);
}

/* Whether the server of a seat that rests is there still. */
static int is_alive(const struct seat *seat)
{
    struct pollfd looked = { .fd = seat->from.file, .events = POLLIN };
    return poll(&looked, 1, 0) == 0;
}

/* A seat that rests: that of the program's last commit, or the one that rests the shortest. */
struct seat *resting_seat(const struct program *program)
{
    for (;;) {
        struct seat *seat = program->last != NULL && program->last->is_resting ? program->last : TAILQ_FIRST(&gate.resting);
        if (seat == NULL || is_alive(seat))
            return seat;
        end_seat(seat);
    }
}

/* ---- asking */

void ask(struct seat *seat, struct program *program, enum verb verb, const char *line, size_t size)
{
    struct asked *asked = memory(NULL, sizeof *asked);
    *asked = (struct asked){ .program = program, .verb = verb };
    TAILQ_INSERT_TAIL(&seat->asked, asked, link);
    add(&seat->lines, line, size);
    add(&seat->lines, "\n", 1);
    rest_no_more(seat);
    if (program != NULL) {
        program->asked++;
        program->enders += verb != CALL;
    }
}

/* Writes what there is for a seat. Where nobody reads it any more the end of its answers tells so. */
static void write_lines(struct seat *seat)
{
    while (held(&seat->lines) > 0) {
        ssize_t size = seat->to.file < 0 ? -1 : write(seat->to.file, seat->lines.bytes + seat->lines.begin, held(&seat->lines));
        if (size > 0) {
            drop(&seat->lines, (size_t)size);
        } else if (seat->to.file >= 0 && errno == EAGAIN) {
            watch_for(&seat->to, EPOLLOUT);
            return;
        } else if (seat->to.file < 0 || errno != EINTR) {
            close_watch(&seat->to);
            drop(&seat->lines, held(&seat->lines));
        }
    }
    watch_for(&seat->to, 0);
}

void go_on_writing(struct watch *watch, uint32_t events)
{
    (void)events;
    write_lines(watch->of);
}

/* Whether a line is asked of a seat that another program waits for than its holder. */
static int is_shared(const struct seat *seat)
{
    const struct asked *asked;
    TAILQ_FOREACH (asked, &seat->asked, link)
        if (asked->program != NULL && asked->program != seat->holder)
            return 1;
    return 0;
}

/* Writes what there is for all seats. The answers of a program that does not read are left in the pipe, unless others wait for theirs
 * behind them. */
void flush_seats(void)
{
    for (int i = 0; i < gate.seats; i++) {
        struct seat *seat = &gate.of[i];
        if (seat->state != SERVING)
            continue;
        if (held(&seat->lines) > 0 && seat->to.events == 0)
            write_lines(seat);
        int is_heard = seat->holder == NULL || !is_full(seat->holder)
            || (held(&seat->holder->answers) <= ANSWERS_MOST && is_shared(seat));
        watch_for(&seat->from, is_heard ? EPOLLIN : 0);
    }
}

/* Learns whether the commits of a seat are kept that programs have not waited for. */
void learn_commits(struct seat *seat)
{
    const struct asked *asked;
    int is_waiting = seat->state != SERVING || seat->commits == seat->kept;
    TAILQ_FOREACH (asked, &seat->asked, link)
        is_waiting |= asked->verb == WAIT;
    if (!is_waiting)
        ask(seat, NULL, WAIT, "wait", strlen("wait"));
}

/* So that the end of a seat is none of these programs, and no later commit of another is in the way of a `kept`. */
void wait_for_commits(void)
{
    for (int i = 0; i < gate.seats; i++)
        learn_commits(&gate.of[i]);
}

/* Lets those seats go that nobody wanted for long: others may want to be clients of the server. */
void let_seats_go(void)
{
    struct seat *seat, *next;
    int number = number_of(SERVING);
    for (seat = TAILQ_FIRST(&gate.resting); seat != NULL; seat = next) {
        next = TAILQ_NEXT(seat, link);
        if (number > SEATS_KEPT && gate.now - seat->since > REST && seat->kept == seat->commits) {
            number--;
            end_seat(seat);
        }
    }
}

/* ---- answers */

/* A commit or making was answered. */
static void note_commit(struct seat *seat, struct program *program, int is_kept)
{
    seat->commits++;
    if (is_kept)
        seat->kept = seat->commits;
    if (program != NULL) {
        program->commit = AT_SEAT;
        program->last = seat;
        program->number = seat->commits;
    }
}

/* Whether an answer says that no transaction is open behind it. Calls of one line that were refused have taken it back, but where the
 * whole line was refused before them. */
static int is_end(enum verb verb, const char *head, int is_refused)
{
    int has_calls = verb == DO || verb == DO_AND_KEEP;
    int is_of_line = begins(head, "error ") || begins(head, "refused 4 ") || begins(head, "refused 25 ");
    return is(head, "aborted") || is(head, "error Idle") || begins(head, "refused 10 ") || (has_calls && !is_of_line)
        || ((verb == COMMIT || verb == KEEP) && !is_refused);
}

/* What an answer tells of its seat, and of the program that is told. */
static void note_answer(struct seat *seat, const struct asked *asked)
{
    const char *head = seat->head;
    enum verb verb = asked->verb;
    int is_refused = begins(head, "refused ") || begins(head, "error ");
    int is_commit = verb == COMMIT || verb == KEEP || verb == DO || verb == DO_AND_KEEP || verb == WITHIN || verb == MAKE;
    if (begins(head, "begun "))
        seat->is_open = 1;
    if (is_end(verb, head, is_refused))
        seat->is_open = 0;
    if ((verb == WAIT || verb == KEPT) && is(head, "kept"))
        seat->kept = seat->commits;
    if (!is_refused && is_commit)
        note_commit(seat, asked->program, verb == KEEP || verb == DO_AND_KEEP);
}

/* The server has undone the transaction of a seat's holder, who said nothing, and told that to a line of another program, or of the
 * gate. The holder is told by its next line, and the other line is asked again. */
static void pass_on_idle(struct seat *seat, const struct asked *asked)
{
    struct program *holder = seat->holder, *program = asked->program;
    if (holder != NULL && holder->asked == 0) {
        holder->was_idle = 1;
        give_back(holder);
    }
    if (program != NULL && seat->state == SERVING)
        ask(seat, program, asked->verb, asked->verb == WAIT ? "wait" : "kept", strlen("wait"));
}

static int is_apart(const struct seat *seat, const struct asked *asked)
{
    return asked->program != seat->holder || (asked->program != NULL && asked->program->is_apart);
}

/* An answer is whole. One of a line apart is told now. After a `Lost` the talk ends, as at the door. */
static void end_answer(struct seat *seat)
{
    struct asked *asked = TAILQ_FIRST(&seat->asked);
    struct program *program = asked->program;
    TAILQ_REMOVE(&seat->asked, asked, link);
    seat->head[seat->head_size] = '\0';
    seat->head_size = 0;
    note_answer(seat, asked);
    if (program != NULL) {
        program->asked--;
        program->enders -= asked->verb != CALL;
        program->spoke = gate.now;
        if (asked->verb == WITHIN)
            wait_no_more(program);
    }
    if (is(seat->head, "error Idle") && is_apart(seat, asked)) {
        pass_on_idle(seat, asked);
    } else if (program != NULL) {
        if (program->is_apart)
            answer(program, seat->head);
        if (begins(seat->head, "refused 23 "))
            finish(program);
        go_on(program);
    }
    free(asked);
    settle(seat);
}

/* Passes answers on as they come. */
static void take_answers(struct seat *seat, const char *bytes, size_t size)
{
    while (size > 0 && seat->state == SERVING) {
        struct asked *asked = TAILQ_FIRST(&seat->asked);
        if (asked == NULL) {                               /* nobody asked for it: it is no server of this protocol */
            end_seat(seat);
            return;
        }
        const char *feed = memchr(bytes, '\n', size);
        size_t part = feed == NULL ? size : (size_t)(feed - bytes) + 1;
        size_t text = feed == NULL ? part : part - 1, room = HEAD - 1 - seat->head_size;
        memcpy(seat->head + seat->head_size, bytes, text < room ? text : room);
        seat->head_size += text < room ? text : room;
        if (asked->program != NULL && !asked->program->is_apart)
            tell(asked->program, bytes, part);
        if (feed != NULL)
            end_answer(seat);
        bytes += part;
        size -= part;
    }
}

/* The hello has come: from now on each side sees the other's end. */
static void begin_serving(struct seat *seat, const char *bytes, size_t size)
{
    struct program *program;
    if (size != strlen(HELLO) || memcmp(bytes, HELLO, size) != 0) {
        come_later(seat, "no server of this kind", EPROTO);
        return;
    }
    for (int i = 0; i < 2; i++) {
        close(seat->held[i]);
        seat->held[i] = -1;
    }
    flock(seat->from.file, LOCK_EX | LOCK_NB);             /* by which the server sees, while a line waits, that the gate is there */
    seat->state = SERVING;
    if (gate.is_away)
        note("a server is at %s", gate.folder);
    gate.is_away = 0;
    gate.retry = 0;
    gate.pause = PAUSE_LEAST;
    rest(seat);
    TAILQ_FOREACH (program, &gate.programs, link)
        greet(program);
}

void hear_seat(struct watch *watch, uint32_t events)
{
    static char bytes[READ];
    struct seat *seat = watch->of;
    (void)events;
    ssize_t size = read(watch->file, bytes, sizeof bytes);
    if (size < 0 && (errno == EAGAIN || errno == EINTR))
        return;
    if (size <= 0)
        end_seat(seat);
    else if (seat->state == COMING)
        begin_serving(seat, bytes, (size_t)size);
    else
        take_answers(seat, bytes, (size_t)size);
}
