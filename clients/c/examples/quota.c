/* quota FOLDER: spends from an account side by side with others, and fills it up. A server is at FOLDER. */
#include "../boost.h"

#include <stdio.h>
#include <stdlib.h>
#include <string.h>

enum { NAME_TAKEN = 5 };

/* Ends the program where the store is gone, or refused what no program can do without. */
static const char *need(const char *answer, int allowed)
{
    int refusal = boost_refusal(answer);
    if (refusal != 0 && refusal != allowed) {
        fprintf(stderr, "quota: %s\n", answer == NULL ? "the server is gone" : answer);
        exit(1);
    }
    return answer;
}

int main(int count, char **words)
{
    struct boost *store = count > 1 ? boost_join(words[1]) : NULL;
    if (store == NULL) {
        perror("quota");
        return 1;
    }
    need(boost_ask(store, "make stock alice"), NAME_TAKEN);
    need(boost_try(store, 60, "keep later alice fill 250"), 0);
    int granted = 0;
    for (int i = 0; i < 40; i++)
        granted += strncmp(need(boost_try(store, 60, "do alice spend %d", 10), 0), "yes", 3) == 0;
    printf("%d of 40 asks granted, %s\n", granted, need(boost_try(store, 60, "do alice level"), 0));
    return boost_close(store);
}
