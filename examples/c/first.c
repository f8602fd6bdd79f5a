/* Answers the job on standard input. */
#include <stdio.h>

#include <sagecruet.h>

int main(void)
{
    uint8_t job[SAGECRUET_LONGEST_JOB + 1]; /* one byte more, so that a longer job is refused and not cut short */
    uint8_t text[SAGECRUET_ROOM];
    size_t job_len = fread(job, 1, sizeof job, stdin);
    size_t text_len = sagecruet_answer(job, job_len, text, sizeof text);
    fwrite(text, 1, text_len, stdout);
    return fflush(stdout) == 0 ? 0 : 1;
}
