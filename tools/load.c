/* Clients that make one transaction behind another for some seconds, of `boost listen` or of Redis: see round_trips.py and
 * gate_rates.py.
 *
 *     load boost FOLDER CLIENTS SECONDS DEPTH LINE LAST     they come by the door of the folder
 *     load boost unix:PATH CLIENTS SECONDS DEPTH LINE LAST  they come by the socket of a gate
 *     load redis SOCKET CLIENTS SECONDS DEPTH LINE LAST     they connect to a socket of Redis
 *
 * Each client, a thread, sends so many lines at once, LAST behind all others, and then reads as many answers. What is printed is a
 * JSON object: the answers a second of all clients, the answers in all, and within how many microseconds half and 99 of 100 of the
 * batches were answered. An answer that refuses ends it all with status 1. */
#include "../clients/c/boost.c"

#include <pthread.h>
#include <sys/socket.h>
#include <sys/un.h>

enum { PATIENCE = 60 };    /* seconds in which an answer has to come */

struct load {
    const char *way, *place, *line, *last;
    double seconds;
    int depth;
};

/* What one client did: how long each of its batches took, in microseconds. */
struct client {
    const struct load *load;
    struct boost *store;
    pthread_t thread;
    double *times;
    size_t count, room;
};

static pthread_barrier_t start;

static void fail(const char *why)
{
    fprintf(stderr, "load: %s\n", why);
    exit(1);
}

/* A client of Redis, whose answers are lines too. */
static struct boost *connect_to(const char *path)
{
    struct sockaddr_un address = { .sun_family = AF_UNIX };
    snprintf(address.sun_path, sizeof address.sun_path, "%s", path);
    int to = socket(AF_UNIX, SOCK_STREAM | SOCK_CLOEXEC, 0);
    if (to < 0 || connect(to, (struct sockaddr *)&address, sizeof address) != 0)
        return NULL;
    return client(to, dup(to), "", 0);
}

static struct boost *come(const struct load *load)
{
    return strcmp(load->way, "redis") == 0 ? connect_to(load->place) : boost_join(load->place);
}

static void note(struct client *client, double time)
{
    if (client->count == client->room) {
        client->room = client->room == 0 ? 4096 : 2 * client->room;
        client->times = realloc(client->times, client->room * sizeof *client->times);
        if (client->times == NULL)
            fail("no memory");
    }
    client->times[client->count++] = time;
}

/* The lines of one batch, as they are sent. */
static char *batch_of(const struct load *load)
{
    char *batch = calloc((size_t)load->depth, strlen(load->line) + strlen(load->last) + 2);
    char *end = batch;
    for (int i = 1; batch != NULL && i <= load->depth; i++)
        end += sprintf(end, "%s\n", i < load->depth ? load->line : load->last);
    return batch;
}

static void read_answers(struct client *client)
{
    for (int i = 0; i < client->load->depth; i++) {
        const char *answer = next_line(client->store, now() + PATIENCE);
        if (answer == NULL || boost_refusal(answer) != 0 || answer[0] == '-')
            fail(answer == NULL ? "the server is gone" : answer);
    }
}

static void *run(void *argument)
{
    struct client *client = argument;
    char *batch = batch_of(client->load);
    if (batch == NULL)
        fail("no memory");
    size_t size = strlen(batch);
    pthread_barrier_wait(&start);
    double end = now() + client->load->seconds;
    for (double begun = now(); begun < end; begun = now()) {
        if (write_within(client->store->to, batch, size, now() + PATIENCE) != 0)
            fail("the server is gone");
        read_answers(client);
        note(client, (now() - begun) * 1e6);
    }
    free(batch);
    return NULL;
}

static int order(const void *one, const void *other)
{
    double a = *(const double *)one, b = *(const double *)other;
    return (a > b) - (a < b);
}

/* All times of all clients, in order. */
static double *all_times(const struct client *clients, int count, size_t *batches)
{
    *batches = 0;
    for (int i = 0; i < count; i++)
        *batches += clients[i].count;
    double *times = calloc(*batches + 1, sizeof *times), *next = times;
    for (int i = 0; times != NULL && i < count; next += clients[i].count, i++)
        memcpy(next, clients[i].times, clients[i].count * sizeof *times);
    if (times == NULL || *batches == 0)
        fail("nothing was answered");
    qsort(times, *batches, sizeof *times, order);
    return times;
}

int main(int count, char **words)
{
    if (count != 8)
        fail("boost FOLDER, boost unix:PATH or redis SOCKET, then CLIENTS SECONDS DEPTH LINE LAST");
    struct load load = { words[1], words[2], words[6], words[7], atof(words[4]), atoi(words[5]) };
    int threads = atoi(words[3]);
    struct client *clients = calloc((size_t)threads, sizeof *clients);
    pthread_barrier_init(&start, NULL, (unsigned)threads + 1);
    for (int i = 0; i < threads; i++) {
        clients[i] = (struct client){ .load = &load, .store = come(&load) };
        if (clients[i].store == NULL)
            fail("no server");
    }
    for (int i = 0; i < threads; i++)
        pthread_create(&clients[i].thread, NULL, run, &clients[i]);
    pthread_barrier_wait(&start);
    double begun = now();
    for (int i = 0; i < threads; i++)
        pthread_join(clients[i].thread, NULL);
    double seconds = now() - begun;
    size_t batches;
    double *times = all_times(clients, threads, &batches);
    size_t answers = batches * (size_t)load.depth;
    printf("{\"rate\": %.0f, \"answers\": %zu, \"half_us\": %.0f, \"most_us\": %.0f}\n", (double)answers / seconds, answers,
           times[batches / 2], times[batches * 99 / 100]);
    return 0;
}
