/* The program replay with a heap that refuses one request: refuse NUMBER WORDS..., where replay.c is built with -Dmain=replay_main.
 * It prints the number of requests as the last line of its error output. */
#include "heap_refusing.h"
#include <stdio.h>
#include <stdlib.h>

int replay_main(int count, char **words);

int main(int count, char **words)
{
    if (count < 2) {
        return 2;
    }
    vt_heap_refuse_at = strtoul(words[1], NULL, 10);
    int status = replay_main(count - 1, words + 1);
    fprintf(stderr, "requests %lu\n", vt_heap_requests);
    return status;
}
