/* job_queue FOLDER: puts jobs, and takes them, each with a note of it in the same transaction. A worker that dies between `begin` and
 * `keep` leaves its job in the queue. A server is at FOLDER. */
#include "../boost.h"

#include <stdio.h>
#include <stdlib.h>
#include <string.h>
#include <unistd.h>

enum { JOBS = 20, NAME_TAKEN = 5, NO_SUCH_TXN = 10 };

/* Ends the program where the store is gone, or did not understand. */
static const char *heard(const char *answer)
{
    if (boost_refusal(answer) < 0) {
        fprintf(stderr, "job_queue: %s\n", answer == NULL ? "the server is gone" : answer);
        exit(1);
    }
    return answer;
}

/* Ends the program where the store refuses what it should not. */
static void need(const char *answer, int allowed)
{
    int refusal = boost_refusal(heard(answer));
    if (refusal != 0 && refusal != allowed) {
        fprintf(stderr, "job_queue: %s\n", answer);
        exit(1);
    }
}

/* Gives an attempt up: 0 where there was no job, -1 where it is to be tried again. */
static int give_up(struct boost *store, int refusal)
{
    if (refusal != 0 && !boost_passes(refusal)) {
        fprintf(stderr, "job_queue: refused %d\n", refusal);
        exit(1);
    }
    need(boost_ask(store, "abort"), NO_SUCH_TXN);   /* where the line that was to finish it was refused, none is open any more */
    return refusal == 0 ? 0 : -1;
}

/* Takes a job and notes it, in one transaction: 1 where one was there, 0 where none is, -1 where it is to be tried again. */
static int work(struct boost *store, int is_last)
{
    unsigned long long priority, tag;
    need(boost_ask(store, "begin"), 0);
    const char *answer = heard(boost_ask(store, "call jobs take"));
    if (sscanf(answer, "item %llu %llu", &priority, &tag) != 2)
        return give_up(store, boost_refusal(answer));
    if (is_last)
        _exit(0);                                 /* dies with the job in its hands */
    answer = heard(boost_ask(store, "keep done add %llu", tag));
    return boost_refusal(answer) == 0 ? 1 : give_up(store, boost_refusal(answer));
}

int main(int count, char **words)
{
    int dies = count > 2;                         /* with one word more it dies at its third job */
    struct boost *store = count > 1 ? boost_join(words[1]) : NULL;
    if (store == NULL) {
        perror("job_queue");
        return 1;
    }
    if (dies) {
        need(boost_ask(store, "make queue jobs"), NAME_TAKEN);
        need(boost_ask(store, "make set done"), NAME_TAKEN);
        for (int job = 0; job < JOBS; job++)
            need(boost_try(store, 60, "keep jobs add %d %d", job % 3, job), 0);
    }
    int done = 0;
    for (int got = 1; got != 0; done += got > 0)
        got = work(store, dies && done == 2);
    printf("%d jobs done\n", done);
    return boost_close(store);
}
