/* Lists the objects of a pool by the layout of their records: ID, kind and number of bytes.
 *
 *     records POOL
 *
 * The status is 1 if the bytes have another layout: a kind that is not known, or a record that ends behind the pool.
 */
#include "files.h"
#include "vt_records.h"
#include <stdio.h>
#include <stdlib.h>
#include <string.h>

/* Behind the pool are so many bytes of 0: no count of a record lies farther from its beginning. */
enum { ROOM = 65536 + 64 };

static int list(const uint8_t *bytes, size_t count)
{
    size_t at = 0;

    while (at < count) {
        size_t length = vt_record_length(bytes + at);
        if (length == 0 || length > count - at) {
            fprintf(stderr, "records: the record at %zu is of no known kind, or ends behind the pool\n", at);
            return 1;
        }
        printf("%u %u %zu\n", (unsigned)vt_number(bytes + at, VT_RECORD_ID, 2), bytes[at + VT_RECORD_KIND], length);
        at += length;
    }
    return 0;
}

int main(int count, char **words)
{
    size_t size = 0;
    uint8_t *file = count == 2 ? read_file(words[1], &size) : NULL;
    uint8_t *pool = file == NULL ? NULL : calloc(size + ROOM, 1);
    int status = 2;

    if (pool != NULL) {
        memcpy(pool, file, size);
        status = list(pool, size);
    } else {
        fprintf(stderr, count == 2 ? "records: the pool cannot be read\n" : "usage: records POOL\n");
    }
    free(file);
    free(pool);
    return status;
}
