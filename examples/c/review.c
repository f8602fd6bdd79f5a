/* Checks an answer that somebody else made for a job, from two files, and prints that it is right, or its first wrong line.
 * Ends with 0 where it is right, with 1 where a line is wrong, and with 2 where the call is wrong, a file cannot be read or
 * nothing can be printed. */
#include <inttypes.h>
#include <stdio.h>
#include <stdlib.h>

#include <sagecruet.h>

static void fail(const char *name)
{
    perror(name);
    exit(2);
}

/* All bytes of a file, of any length. */
static uint8_t *bytes_of(const char *name, size_t *len)
{
    FILE *file = fopen(name, "rb");
    uint8_t *bytes = NULL;
    size_t room = 0;
    if (file == NULL)
        fail(name);
    for (*len = 0; *len == room;) {
        room += room + 4096;
        bytes = realloc(bytes, room);
        if (bytes == NULL)
            fail(name);
        *len += fread(bytes + *len, 1, room - *len, file);
    }
    if (ferror(file))
        fail(name);
    fclose(file);
    return bytes;
}

int main(int argc, char **argv)
{
    uint8_t *job, *claimed;
    size_t job_len, claimed_len;
    struct sagecruet_checked found;
    if (argc != 3) {
        fputs("review JOB ANSWER: the names of two files\n", stderr);
        return 2;
    }
    job = bytes_of(argv[1], &job_len);
    claimed = bytes_of(argv[2], &claimed_len);
    found = sagecruet_check(job, job_len, claimed, claimed_len);
    if (found.line == 0) {
        puts("right");
    } else if (found.from == claimed_len) { /* it stops after whole right lines */
        printf("line %" PRIu64 " at byte %zu is missing\n", found.line, found.from);
    } else {
        printf("line %" PRIu64 " at byte %zu is wrong: ", found.line, found.from);
        fwrite(claimed + found.from, 1, found.len, stdout);
        puts("");
    }
    free(job);
    free(claimed);
    if (fflush(stdout) != 0 || ferror(stdout))
        fail("standard output");
    return found.line == 0 ? 0 : 1;
}
