/* Checks a pool file: prints its report, or the line of its fault or refusal. With a mask it prints the screen after the change to
 * that mask in place of the report; 65535 is the mask that is active at first. All findings go to the standard error.
 *
 *     check FILE [MASK]
 *
 * The status is 0 if the pool is accepted, 1 if it is not, and 2 after another error.
 */
#include "vt_check.h"
#include <stdbool.h>
#include <stdio.h>
#include <stdlib.h>

/* The address of the working set on the screen. */
enum { ADDRESS = 0x80 };

/* Reads a file as a whole. Returns NULL after an error. */
static uint8_t *read_file(const char *name, size_t *count)
{
    FILE *file = fopen(name, "rb");
    uint8_t *bytes = NULL;
    long end = -1;

    if (file != NULL && fseek(file, 0, SEEK_END) == 0) {
        end = ftell(file);
    }
    if (end >= 0 && fseek(file, 0, SEEK_SET) == 0) {
        bytes = malloc((size_t)end + 1);
    }
    if (bytes != NULL && fread(bytes, 1, (size_t)end, file) != (size_t)end) {
        free(bytes);
        bytes = NULL;
    }
    if (file != NULL) {
        fclose(file);
    }
    *count = bytes == NULL ? 0 : (size_t)end;
    return bytes;
}

/* Writes a text to the standard output. */
static int print(const uint8_t *text, uint64_t count)
{
    return fwrite(text, 1, (size_t)count, stdout) == (size_t)count ? 0 : 2;
}

/* Prints the report. The first call asks how much room it needs. */
static int print_report(const uint8_t *pool, size_t count)
{
    uint8_t none = 0;
    uint64_t room = vt_report(pool, count, &none, 0);
    uint8_t *text = room == UINT64_MAX ? NULL : malloc((size_t)room + 1);
    int status = 2;

    if (text != NULL && vt_report(pool, count, text, (size_t)room) == room) {
        status = print(text, room);
    }
    free(text);
    return status;
}

/* Prints the screen of a mask, or nothing if there is none. */
static int print_screen(const uint8_t *pool, size_t count, uint32_t mask)
{
    uint8_t none = 0;
    uint64_t room = vt_draw(pool, count, ADDRESS, mask, &none, 0);
    uint8_t *text = room == UINT64_MAX ? NULL : malloc((size_t)room + 1);
    int status = 2;

    if (text != NULL && vt_draw(pool, count, ADDRESS, mask, text, (size_t)room) == room) {
        status = print(text, room);
    }
    free(text);
    return status;
}

/* Prints all findings, a line each. The first call asks how many there are. */
static bool print_findings(const uint8_t *pool, size_t count)
{
    struct vt_verdict none;
    uint64_t room = vt_findings(pool, count, &none, 0);
    struct vt_verdict *all = room == UINT64_MAX ? NULL : malloc(((size_t)room + 1) * sizeof *all);
    bool told = all != NULL && vt_findings(pool, count, all, (size_t)room) == room;

    for (uint64_t k = 0; told && k < room; k++) {
        fprintf(stderr, "%s %u at %llu object %u other %u\n", all[k].kind == VT_FAULT ? "fault" : "rule", (unsigned)all[k].number,
                (unsigned long long)all[k].at, (unsigned)all[k].object, (unsigned)all[k].other);
    }
    free(all);
    return told;
}

int main(int argc, char **argv)
{
    struct vt_verdict verdict;
    size_t count;
    uint8_t *pool;
    int status;

    if (argc != 2 && argc != 3) {
        fprintf(stderr, "usage: check FILE [MASK]\n");
        return 2;
    }
    pool = read_file(argv[1], &count);
    if (pool == NULL) {
        fprintf(stderr, "%s: cannot be read\n", argv[1]);
        return 2;
    }
    vt_check_pool(pool, count, &verdict);
    if (argc == 3) {
        status = print_screen(pool, count, (uint32_t)strtoul(argv[2], NULL, 10));
    } else {
        status = print_report(pool, count);
    }
    if (status == 0 && verdict.kind != VT_ACCEPTED) {
        status = verdict.kind == VT_WANT_OF_MEMORY ? 2 : 1;
    }
    if (!print_findings(pool, count)) {
        status = 2;
    }
    free(pool);
    return status;
}
