/* id_service PROGRAM DISK: starts a server as a child, draws identifiers, and gives one back. A draw gives the greatest identifier that is
 * taken and one more: what is given back is drawn again only where it was the greatest. */
#include "../boost.h"

#include <stdio.h>
#include <stdlib.h>

enum { NAME_TAKEN = 5 };

/* Ends the program where the store is gone, or refused what no program can do without. */
static const char *need(const char *answer, int allowed)
{
    int refusal = boost_refusal(answer);
    if (refusal != 0 && refusal != allowed) {
        fprintf(stderr, "id_service: %s\n", answer == NULL ? "the server is gone" : answer);
        exit(1);
    }
    return answer;
}

int main(int count, char **words)
{
    struct boost *store = count > 2 ? boost_start(words[1], words[2]) : NULL;
    if (store == NULL) {
        perror("id_service");
        return 1;
    }
    need(boost_ask(store, "make pool ids"), NAME_TAKEN);
    for (int i = 0; i < 3; i++) {
        unsigned long long id, place;
        if (sscanf(need(boost_try(store, 60, "keep ids draw"), 0), "id %llu; kept %llu", &id, &place) != 2)
            return 1;
        printf("drawn %llu\n", id);
    }
    printf("given back: %s\n", need(boost_try(store, 60, "keep ids release 0"), 0));
    return boost_close(store);
}
