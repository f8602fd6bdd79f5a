/* Every function of Sagecruet's C interface at work. All numbers are whole, so they are printed exactly: what stands
 * before the point by /, and what stands behind it by %. */
#include <inttypes.h>
#include <stdio.h>
#include <stdlib.h>
#include <string.h>

#include <sagecruet.h>

#define COUNT(list) (sizeof(list) / sizeof((list)[0]))

/* A curve sheet of our own: three depths, two rates, and the percents of the first rate, then of the second. */
static const uint64_t depths[] = {20, 60, 100};
static const uint64_t rates[] = {25, 75};
static uint64_t percents[] = {20000, 50000, 70000, 40000, 65000, 80000};
#define SHEET depths, COUNT(depths), rates, COUNT(rates), percents, COUNT(percents)

/* Prints a number that is counted in 1/10^places of a unit. */
static void show(const char *name, uint64_t number, int places, const char *unit)
{
    uint64_t one = 1;
    for (int i = 0; i < places; i++)
        one *= 10;
    printf("  %s: %" PRIu64 ".%0*" PRIu64 " %s\n", name, number / one, places, number % one, unit);
}

/* The number behind a key of an answer text. No key is the end of another. */
static uint64_t number_of(const char *text, const char *key)
{
    const char *found = strstr(text, key);
    return found ? strtoull(found + strlen(key), NULL, 10) : 0;
}

/* The word behind the key `basis=` of an answer text, up to the end of its line. */
static void show_basis(const char *text)
{
    const char *found = strstr(text, "basis=");
    if (found)
        printf("  basis: %.*s\n", (int)strcspn(found + 6, "\n"), found + 6);
}

/* The words of enum sagecruet_basis, by their numbers. */
static const char *const bases[] = {"none", "printed", "between", "start", "held"};

/* The codes of the words that are used here: their places in the lists of sagecruet.h, from 0. */
enum { BASIN = 1, P = 0, N = 1, STEP = 0, SIZE = 2, COM = 0, IMP = 0, PER = 1, ON_B = 1, ON_C = 2, ON_U = 5, NO_SOIL = 6 };

/* Writes a job for the size of a basin in mode step, with a zero byte behind it, or says that there is none. */
static void write_job(char *job, uint64_t nutrient, uint64_t rate, uint64_t target, const uint64_t *areas, size_t areas_len)
{
    struct sagecruet_written written = sagecruet_job(BASIN, nutrient, STEP, rate, SIZE, target, areas, areas_len,
                                                     (uint8_t *)job, SAGECRUET_JOB_ROOM);
    job[written.len] = '\0';
    if (written.answer != SAGECRUET_GRANTED)
        printf("  it is not written: refused %" PRIu64 "\n", written.answer);
}

/* Works a job out, on the sheet above or on the published tables, and prints its answer with units. */
static void answer(const char *job, bool on_sheet)
{
    const uint8_t *bytes = (const uint8_t *)job;
    size_t len = strlen(job); /* without the zero byte, which is no part of a job */
    char text[SAGECRUET_ROOM + 1];
    size_t written = on_sheet ? sagecruet_answer_on(bytes, len, SHEET, (uint8_t *)text, SAGECRUET_ROOM)
                              : sagecruet_answer(bytes, len, (uint8_t *)text, SAGECRUET_ROOM);
    text[written] = '\0';

    switch (number_of(text, "answer=")) {
    case SAGECRUET_GRANTED:
        show("load", number_of(text, "load="), 4, "pounds a year");
        show("depth", number_of(text, "depth="), 2, "inches");
        show("credit", number_of(text, "credit="), 3, "percent");
        show_basis(text);
        show("volume", number_of(text, "volume="), 5, "cubic feet");
        show("removed", number_of(text, "removed="), 4, "pounds a year");
        break;
    case SAGECRUET_MALFORMED_TEXT: {
        struct sagecruet_part part = sagecruet_fault(bytes, len);
        printf("  line %" PRIu64 " cannot be read: %.*s\n", number_of(text, "line="), (int)part.len, job + part.from);
        break;
    }
    case SAGECRUET_TARGET_UNREACHABLE:
        puts("  no size reaches the target");
        break;
    default:
        printf("  refused %" PRIu64 " on line %" PRIu64 "\n", number_of(text, "answer="), number_of(text, "line="));
    }
}

/* Works a stored job out as it came, rewrites it in its place, and works it out again. */
static void rewritten(char *job)
{
    answer(job, false);
    sagecruet_rewrite((uint8_t *)job, strlen(job));
    puts("Rewritten");
    answer(job, false);
}

/* Checks an answer that somebody else made for a job. */
static void check(const char *job, const char *claimed)
{
    struct sagecruet_checked found = sagecruet_check((const uint8_t *)job, strlen(job), (const uint8_t *)claimed, strlen(claimed));
    if (found.line == 0)
        puts("  it is right");
    else if (found.from == strlen(claimed))
        printf("  line %" PRIu64 " is missing\n", found.line);
    else
        printf("  line %" PRIu64 " is wrong: %.*s\n", found.line, (int)found.len, claimed + found.from);
}

/* Tests the sheet above. */
static void test(void)
{
    struct sagecruet_verdict verdict = sagecruet_sheet(SHEET);
    if (verdict.answer == SAGECRUET_GRANTED)
        puts("  it keeps the rules");
    else
        printf("  it breaks a rule: list %" PRIu64 ", place %" PRIu64 "\n", verdict.list, verdict.place);
}

/* Prints a percent of the sheet above with its basis, or why there is none. */
static void percent(const char *name, bool mix, uint64_t rate, uint64_t depth)
{
    struct sagecruet_percent_answer found = sagecruet_percent(SHEET, mix, rate, depth);
    if (found.answer == SAGECRUET_GRANTED) {
        show(name, found.percent, 3, "percent");
        printf("  basis: %s\n", bases[found.basis]);
    } else if (found.answer == SAGECRUET_RATE_BELOW_SHEET) {
        printf("  %s: the soil is slower than every rate of the sheet\n", name);
    } else if (found.answer == SAGECRUET_UNFIT_SHEET) {
        printf("  %s: the sheet breaks a rule, list %" PRIu64 ", place %" PRIu64 "\n", name, found.list, found.place);
    } else {
        printf("  %s: refused %" PRIu64 "\n", name, found.answer);
    }
}

/* Prints the rate of a reading, or why there is none. */
static void rate(const char *name, struct sagecruet_value found)
{
    if (found.answer == SAGECRUET_GRANTED)
        show(name, found.value, 2, "inches per hour");
    else
        printf("  %s: refused %" PRIu64 "\n", name, found.answer);
}

int main(void)
{
    /* Use, cover, soil and area of each sub-area. */
    static const uint64_t paved[] = {COM, IMP, NO_SOIL, 257};
    static const uint64_t unfit[] = {COM, IMP, ON_C, 257};
    static const uint64_t unknown[] = {COM, IMP, NO_SOIL, 257, COM, PER, ON_U, 300};
    static const uint64_t several[] = {COM, IMP, NO_SOIL, 400, COM, PER, ON_C, 200, COM, PER, ON_B, 150};
    /* The job at the top of sagecruet.h. */
    static const char sample[] = "practice=basin\nnutrient=N\nmode=step\nrate=0\ntask=load\namount=0\n"
                                 "area=ind,imp,-,1013\narea=com,per,C,185\narea=for,per,C,89\n";
    char job[SAGECRUET_JOB_ROOM + 1];

    puts("A job for a basin that removes 70 percent of the phosphorus of 2.57 paved acres");
    write_job(job, P, 39, 70000, paved, COUNT(paved));
    fputs(job, stdout);
    puts("Its answer by the published tables");
    answer(job, false);
    puts("The same with a slip");
    memcpy(strstr(job, "step"), "stop", 4);
    answer(job, false);
    puts("A job with a soil under the pavement");
    write_job(job, P, 39, 70000, unfit, COUNT(unfit));
    puts("The first with 3.00 pervious acres of a soil that is not known, stored when it counted as C");
    write_job(job, P, 39, 70000, unknown, COUNT(unknown));
    rewritten(job);
    puts("Three answers that consultants made for the nitrogen of a site");
    check(sample, "answer=0\nload=1568350\ndepth=0\ncredit=0\nbasis=none\nvolume=0\nremoved=0\n");
    check(sample, "answer=0\nload=1569000\ndepth=0\ncredit=0\nbasis=none\nvolume=0\nremoved=0\n");
    check(sample, "answer=0\n");

    puts("A sheet of our own");
    test();
    percent("0.40 inches at 0.50 in/hr, mixed", true, 50, 40);
    percent("0.60 inches at 0.50 in/hr", false, 50, 60);
    percent("0.10 inches at 0.50 in/hr", false, 50, 10);
    percent("2.00 inches at 0.50 in/hr", false, 50, 200);
    percent("0.40 inches at 0.24 in/hr", false, 24, 40);
    puts("A practice for 55.001 percent of the nitrogen of 7.50 acres, by that sheet");
    write_job(job, N, 50, 55001, several, COUNT(several));
    answer(job, true);
    puts("The same for 70.001 percent of the paved 4.00 acres");
    write_job(job, N, 50, 70001, several, 4); /* its first sub-area */
    answer(job, true);
    puts("The sheet with a percent that falls");
    percents[4] = 35000;
    test();
    percent("0.40 inches at 0.50 in/hr", false, 50, 40);

    puts("A probe");
    rate("127 millimetres per hour", sagecruet_reading(true, 127.0f));
    rate("-1 inches per hour", sagecruet_reading(false, -1.0f));
    return 0;
}
