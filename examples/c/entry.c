/* Stands for an entry screen: takes what a screen holds as numbers, and prints the job. The numbers are practice, nutrient,
 * mode, rate, task and amount, then use, cover, soil and area of each sub-area; a word is told by its code. */
#include <stdio.h>
#include <stdlib.h>

#include <sagecruet.h>

int main(int argc, char **argv)
{
    uint64_t *held = calloc((size_t)argc + 6, sizeof *held); /* more than are told, so that no pointer is past its end */
    uint8_t text[SAGECRUET_JOB_ROOM];
    struct sagecruet_written job;
    if (held == NULL || argc < 7)
        return 2;
    for (int i = 1; i < argc; i++) {
        char *end;
        held[i - 1] = strtoull(argv[i], &end, 10);
        if (end == argv[i] || *end != '\0')
            return 2;
    }
    job = sagecruet_job(held[0], held[1], held[2], held[3], held[4], held[5], held + 6, (size_t)argc - 7, text, sizeof text);
    if (job.answer == SAGECRUET_GRANTED)
        fwrite(text, 1, job.len, stdout);
    else
        printf("answer=%d\n", (int)job.answer);
    free(held);
    return fflush(stdout) == 0 && job.answer == SAGECRUET_GRANTED ? 0 : 1;
}
