/* A client of `boost listen`: this header and boost.c, for Linux. See docs/LISTEN.md for the words.
 *
 *     struct boost *store = boost_join("/var/lib/store");
 *     const char *answer = boost_ask(store, "keep hits bump %d", 1);    "done; kept 7"
 *     boost_close(store);
 *
 * One thread at a time uses a client. A client that was made before a fork belongs to the parent: in the child every call of it is NULL
 * with EPERM, and boost_close only closes what the child inherited, so close it there, and open another one. A write to a server that
 * is gone fails and raises no signal: SIGPIPE is ignored from the first boost_start or boost_join on. A signal that is handled breaks
 * no call off. */
#ifndef BOOST_H
#define BOOST_H

#ifdef __cplusplus
extern "C" {
#endif

struct boost;

/* Starts `PROGRAM listen DISK` as a child of this process, in a process group of its own, and is its one client. NULL where it does
 * not start: errno is ECHILD then where it ended without a hello, ETIMEDOUT where none came in the seconds that are given, and else
 * what the system says. A store that is large, or whose server was killed, may take long to open: without seconds, or with 0, it is
 * waited for without an end. */
struct boost *boost_start(const char *program, const char *disk);
struct boost *boost_start_within(const char *program, const char *disk, int seconds);

/* Comes by the door of a folder: `boost listen DISK FOLDER`. Where 64 clients are served it waits until one goes, BOOST_PATIENCE
 * seconds, or the seconds that are given. NULL where it cannot: errno is ENXIO or ENOENT then where no server is there, and
 * ETIMEDOUT where the server did not come to it in time: it has 64 clients, or it could not open the FIFOs, and then its standard
 * error says why. Where the folder may be written by its group, so may the client's FIFOs.
 *
 * `unix:PATH` names the socket of a gate (docs/GATE.md), which serves more than 64 programs. errno is ENOENT or ECONNREFUSED then where
 * no gate is there, EPIPE where it found no server, and ETIMEDOUT where its server did not come in time. */
enum { BOOST_PATIENCE = 60 };
struct boost *boost_join(const char *folder);
struct boost *boost_join_within(const char *folder, int seconds);

/* From now on an answer, and the end of a child, is waited for so many seconds at most, 0 or less: for ever, as at first. */
void boost_set_timeout(struct boost *store, int seconds);

/* Sends a line, as printf writes it, and gives its answer without the line feed, which stays until the next call. A line of over
 * 4,095 bytes, with the tag that a child's lines have, is answered `error LineTooLong`, and one with a line feed in it
 * `error NotUnderstood`; neither is sent. Where the server does not understand a line, more may stand behind these two words, for a
 * person. NULL where the server is gone (EPIPE), where no answer came in time (ETIMEDOUT), and else what the system says: what was
 * committed and not told kept may be kept or not. From then on each call is NULL with EPIPE, so no answer is ever taken for that of
 * another line. */
const char *boost_ask(struct boost *store, const char *format, ...) __attribute__((format(printf, 2, 3)));

/* Whether a text is one word of a line: printing characters of ASCII, none of which is a space or a semicolon. Look at each text that
 * comes from elsewhere before it goes into a line: one with `; ` in it would bring a call of its own. Numbers and boost_hex are words. */
int boost_is_word(const char *text);

/* Asks again while another transaction is in the way, for so many seconds: for a `do` or a `keep` with calls that is a transaction of its
 * own. The last answer.
 *
 * Where a transaction is open such a line finishes it: boost_ask(store, "keep results put %d %s", job, text) makes its calls, commits, and
 * is answered once that is kept, all in one round trip. Refused, it has taken all of the transaction back. Then begin anew, as the same
 * line would be a transaction of its own: so boost_try asks it once. */
const char *boost_try(struct boost *store, int seconds, const char *format, ...) __attribute__((format(printf, 3, 4)));

/* Asks a `do` or a `keep` with calls that waits in the server, for so many seconds at most, from 0 to 86,400: until no call is answered
 * `nothing` and no other transaction is in the way. So a worker waits for a job: boost_within(store, 30, "keep jobs take"). Once the
 * time is over it is done as it stands, or refused. The answer is waited for as much longer than others. A number of seconds that is
 * none of these is answered `error NotUnderstood`. */
const char *boost_within(struct boost *store, double seconds, const char *format, ...) __attribute__((format(printf, 3, 4)));

/* The number of the refusal that an answer tells. -1 where the line was not carried out: it was not understood, too long, of no
 * client, or the first one behind a silence in which the server took the open transaction back (`error Idle`); also of NULL. 0 else. */
int boost_refusal(const char *answer);

/* Whether the refusal passes by itself: another transaction is in the way, too many are live, or too many records wait. */
int boost_passes(int refusal);

/* The number that stands behind these words in an answer to the line `status`, as "used" or "collection counter hits"; -1 where they
 * do not stand in it. */
long long boost_number(const char *answer, const char *words);

/* The most bytes of a value, which a store in format 2 has; one in format 1 has values to 256 bytes. */
enum { BOOST_VALUE = 1024 };

/* The bytes of a value as the words of a line, two digits for each and `-` for none; and back, which gives how many there are, or
 * -1 where the text is none. `text` has room for 2 * BOOST_VALUE + 1 bytes, `value` for BOOST_VALUE. */
char *boost_hex(char *text, const void *value, int size);
int boost_unhex(void *value, const char *text);

/* Lets the client go: what it had open is taken back. A child is told to end, or killed where an answer of it did not come, or its end
 * does not in time, which loses nothing that was told kept; its status is given once it has ended, 128 and the signal's number where it
 * was killed. 0 of a server that was joined. */
int boost_close(struct boost *store);

#ifdef __cplusplus
}
#endif

#endif
