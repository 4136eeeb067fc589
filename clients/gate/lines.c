/* Lines that programs ask: which are carried out now, and which wait. */
#define _GNU_SOURCE
#include "gate.h"

#include <string.h>

struct line {
    const char *text;
    size_t size, taken;    /* without its line feed, more than LONGEST where it is too long; and with it */
};

/* The next whole line of a program. Of one that is too long nothing is held but its end. */
static int next_line(struct program *program, struct line *line)
{
    const char *text = program->lines.bytes + program->lines.begin;
    size_t size = held(&program->lines);
    const char *feed = size == 0 ? NULL : memchr(text, '\n', size);
    if (feed == NULL) {
        program->is_skipping |= size > LONGEST;
        if (program->is_skipping)
            drop(&program->lines, size);
        return 0;
    }
    *line = (struct line){ .text = text, .size = (size_t)(feed - text), .taken = (size_t)(feed - text) + 1 };
    if (program->is_skipping)
        line->size = LONGEST + 1;
    else if (line->size <= LONGEST && line->size > 0 && text[line->size - 1] == '\r')
        line->size--;
    return 1;
}

/* What a line asks for. One with a byte 0, by which a server wakes itself, is none that is understood. */
static enum verb verb_of(const struct line *line)
{
    static const struct {
        const char *word;
        enum verb verb;
        int is_alone;
    } words[] = {
        { "call", CALL, 0 }, { "do", DO, 0 }, { "within", WITHIN, 0 }, { "keep", KEEP, 1 }, { "begin", BEGIN, 1 }, { "commit", COMMIT, 1 },
        { "later", CALL, 0 }, { "abort", ABORT, 1 }, { "wait", WAIT, 1 }, { "kept", KEPT, 1 }, { "make", MAKE, 0 },
        { "status", STATUS, 1 }, { "bye", BYE, 1 },
    };
    if (line->size > LONGEST)
        return OTHER;
    const char *space = memchr(line->text, ' ', line->size);
    size_t size = space == NULL ? line->size : (size_t)(space - line->text);
    if (space != NULL && size == strlen("keep") && memcmp(line->text, "keep", size) == 0)
        return DO_AND_KEEP;
    for (size_t i = 0; i < sizeof words / sizeof words[0]; i++)
        if (size == strlen(words[i].word) && memcmp(line->text, words[i].word, size) == 0)
            return words[i].is_alone && space != NULL ? OTHER : words[i].verb;
    return OTHER;
}

/* What the gate answers by itself; NULL where the server is asked. */
static const char *own_answer(const struct program *program, const struct line *line, enum verb verb)
{
    if (program->was_idle)
        return "error Idle";
    if (line->size > LONGEST)
        return "error LineTooLong";
    if (memchr(line->text, '\0', line->size) != NULL || (verb == OTHER && program->is_on_port))
        return "error NotUnderstood";
    if (verb == BYE)
        return "bye";
    if (verb != WAIT && verb != KEPT)
        return NULL;
    if (program->commit == NO_COMMIT)
        return "no ticket";
    return program->commit == IS_KEPT || program->number <= program->last->kept ? "kept" : NULL;
}

/* After a `bye` nothing is carried out; and on a port after a line that is none of this protocol, as a web page may send one. */
static void answer_by_itself(struct program *program, const char *own, enum verb verb)
{
    answer(program, own);
    if (program->was_idle)
        program->was_idle = 0;
    else if (verb == BYE || (verb == OTHER && program->is_on_port))
        finish(program);
}

/* A program has a seat, or waits for one. */
static int has_seat(struct program *program)
{
    if (program->seat != NULL || program->is_waiting)
        return program->seat != NULL;
    struct seat *seat = TAILQ_EMPTY(&gate.waiting) ? resting_seat(program) : NULL;
    if (program->is_finishing)                             /* the seat of its last commit was gone */
        return 0;
    if (seat != NULL) {
        hold(program, seat);
        return 1;
    }
    program->is_waiting = 1;
    program->waits = gate.now;
    gate.waiters++;
    TAILQ_INSERT_TAIL(&gate.waiting, program, queue);
    return 0;
}

/* Whether one more line may go to the server: where others wait, none that may be of another transaction than those before it. */
static int may_ask(const struct program *program)
{
    if (program->asked == 0)
        return 1;
    if (program->asked >= WINDOW)
        return 0;
    return TAILQ_EMPTY(&gate.waiting) || (program->seat->is_open && program->enders == 0);
}

/* How many programs wait in the server at most: three quarters of the seats, so that others have theirs meanwhile. */
static int most_within(void)
{
    return gate.seats - gate.seats / 4;
}

/* Whether a line that may wait in the server goes there now. Where as many wait as may, it stands in a line without a seat. */
static int may_wait(struct program *program)
{
    int is_refused = program->seat != NULL && program->seat->is_open;
    if (program->asked > 0 || program->is_patient)
        return 0;
    if (is_refused || program->is_within)
        return 1;
    if (gate.within < most_within()) {
        program->is_within = 1;
        gate.within++;
        return 1;
    }
    give_back(program);
    program->is_patient = 1;
    TAILQ_INSERT_TAIL(&gate.patient, program, queue);
    return 0;
}

void wait_no_more(struct program *program)
{
    gate.within -= program->is_within;
    program->is_within = 0;
    if (program->is_patient)
        TAILQ_REMOVE(&gate.patient, program, queue);
    program->is_patient = 0;
}

/* Carries a line out. 0 where that has to wait: for a seat, or for the answers to those before it. */
static int carry_out(struct program *program, const struct line *line)
{
    if (line->size == 0 || (line->text[0] == '#' && line->size <= LONGEST))
        return 1;
    enum verb verb = verb_of(line);
    const char *own = own_answer(program, line, verb);
    int is_apart = verb == WAIT || verb == KEPT;
    if (program->asked > 0 && (program->is_apart || is_apart || own != NULL))
        return 0;
    program->is_apart = own == NULL && is_apart;
    if (own != NULL) {
        answer_by_itself(program, own, verb);
    } else if (is_apart) {
        ask(program->last, program, verb, line->text, line->size);
    } else {
        if ((verb == WITHIN && !may_wait(program)) || !has_seat(program) || !may_ask(program))
            return 0;
        if (verb == WITHIN)                                /* nobody waits for its seat's commits behind a line that waits */
            learn_commits(program->seat);
        ask(program->seat, program, verb, line->text, line->size);
    }
    return 1;
}

/* Carries out what may be carried out of a program's lines. */
void serve(struct program *program)
{
    struct line line;
    while (program->is_greeted && !program->is_finishing && gate.ends == 0 && !is_full(program) && next_line(program, &line)) {
        if (!carry_out(program, &line))
            break;
        program->is_skipping = 0;
        if (!program->is_finishing)
            drop(&program->lines, line.taken);
    }
    if (program->is_finishing)
        return;
    look_at(program, program->socket.events & EPOLLOUT);
    if (program->is_greeted && program->is_over && program->asked == 0 && !next_line(program, &line))
        finish(program);
}

/* Whether a program holds a seat of which it has no need now. */
static int is_through(const struct program *program)
{
    return program->seat != NULL && program->asked == 0 && !program->seat->is_open;
}

/* Goes on with a program that was answered, or that has been given a seat. */
void go_on(struct program *program)
{
    if (is_through(program) && !TAILQ_EMPTY(&gate.waiting))
        give_back(program);
    serve(program);
    if (is_through(program))
        give_back(program);
}

/* Has those go on who may wait in the server now. */
static void call_patient(void)
{
    struct program *program;
    while (gate.within < most_within() && (program = TAILQ_FIRST(&gate.patient)) != NULL) {
        wait_no_more(program);
        go_on(program);
    }
}

/* Gives the seats that rest to those who wait, in their order. */
void call_next(void)
{
    struct program *program;
    call_patient();
    while ((program = TAILQ_FIRST(&gate.waiting)) != NULL) {
        struct seat *seat = resting_seat(program);
        if (seat == NULL)
            return;
        if (program != TAILQ_FIRST(&gate.waiting))         /* the seat of its last commit was gone, and so it is */
            continue;
        TAILQ_REMOVE(&gate.waiting, program, queue);
        program->is_waiting = 0;
        gate.waiters--;
        hold(program, seat);
        serve(program);
        if (is_through(program))
            give_back(program);
    }
}
