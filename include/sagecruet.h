/* Sagecruet's C interface: stormwater loads, credits and design volumes.
 *
 * Link libsagecruet.a, which is for x86-64 Linux: `make` in the repository's folder builds it, `make install` installs
 * it. docs/C.md leads from there to a running program, and examples/c/example.c uses every function.
 *
 * Every function is proved to give its answer for every input. It keeps no state, takes no memory of its own and
 * changes nothing but the bytes of a text that it writes, or of a job that it rewrites. What the proof leaves to the
 * caller is what a C pointer cannot say. Each list is handed over as a pointer and a count:
 *
 *   - the pointer is not null, even where the count is 0;
 *   - it is aligned for its type;
 *   - it has that many elements behind it, and no other thread writes them during the call;
 *   - a text to be written overlaps no other list of the same call.
 *
 * A job is a text of at most 4,096 bytes. These nine lines ask for the yearly nitrogen of a site of three sub-areas:
 *
 *     practice=basin
 *     nutrient=N
 *     mode=step
 *     rate=0
 *     task=load
 *     amount=0
 *     area=ind,imp,-,1013
 *     area=com,per,C,185
 *     area=for,per,C,89
 *
 * The order is fixed, each line ends with a line feed, the last one too, and there are 1 to 32 lines `area`. The count
 * of a job is that of its bytes, without the zero byte at the end of a C string. What may stand behind the sign `=`:
 *
 *   practice   trench, basin, biofilter, wetland, isr, sand, wetpond, drypond or swale
 *   nutrient   P or N
 *   mode       step or mix: the two ways to take the rate, `mix` false and true at sagecruet_percent
 *   rate       NUMBER: the site's infiltration rate for trench and basin, 0 for the others, whose tables have none
 *   task       load, credit or size
 *   amount     NUMBER: 0 for load, the volume of the practice for credit, the wanted percent for size
 *   area       USE,COVER,SOIL,NUMBER: one sub-area, with commas and without spaces
 *     USE      com, ind, hdr, mdr, ldr, hwy, for, open or ag: commercial, industrial, residential of high, medium and
 *              low density, highway, forest, open land, agriculture
 *     COVER    imp or per: impervious and directly connected, or pervious
 *     SOIL     A, B, C, CD, D, U or -: the last under imp, the others under per. U means not known, and counts as C for
 *              loads and as D for runoff; where C is meant, C is to be written
 *     NUMBER   1 to 14 digits with no point, comma, sign or leading zero
 *
 * The repository's README.md says which practice of the document each word stands for. With task load the practice, mode
 * and rate have to read and have no effect; the limit of a rate below holds for credit and size.
 *
 * Units, all whole numbers:
 *
 *   area             hundredths of an acre                   1 to 1,000,000, and so the total of a site
 *   depth            hundredths of an inch                   0 to 200
 *   rate             hundredths of an inch per hour          0 to 10,000
 *   volume           hundred-thousandths of a cubic foot     0 to 10^13
 *   load, removed    ten-thousandths of a pound per year     0 to 10^13
 *   percent, credit  thousandths of a percent                0 to 100,000
 */
#ifndef SAGECRUET_H
#define SAGECRUET_H

#include <stdbool.h>
#include <stddef.h>
#include <stdint.h>

#ifdef __cplusplus
extern "C" {
#endif

/* The bytes that hold any answer text. */
#define SAGECRUET_ROOM 161

/* The bytes that hold any job text that sagecruet_job writes. */
#define SAGECRUET_JOB_ROOM 837

/* The bytes of the longest job text; a longer one is refused 1. */
#define SAGECRUET_LONGEST_JOB 4096

/* The most lines `area` of a job, which are the sub-areas of its site. */
#define SAGECRUET_MOST_AREAS 32

/* The most depths and the most rates of a sheet. */
#define SAGECRUET_MOST_DEPTHS 16
#define SAGECRUET_MOST_RATES 8

/* The numbers given back, in an answer text as `answer=N` and in the structs below as `answer`. docs/REFUSALS.md says
 * when each is given and what to do about it. Of an answer text, 13 is told by the length 0. 16 and 17 are for site
 * records, which no call of this header takes: none gives them. */
enum sagecruet_number {
    SAGECRUET_GRANTED = 0,             /* The job is granted. */
    SAGECRUET_MALFORMED_TEXT = 1,      /* The job cannot be read. */
    SAGECRUET_UNFIT_SUB_AREA = 2,      /* A sub-area does not fit. */
    SAGECRUET_TOTAL_AREA_PASSED = 3,   /* The site is too large. */
    SAGECRUET_NO_PUBLISHED_SHEET = 4,  /* There is no such practice. */
    SAGECRUET_UNFIT_SHEET = 5,         /* The lent sheet breaks a rule. */
    SAGECRUET_RATE_OUT_OF_RANGE = 6,   /* The rate is out of range. */
    SAGECRUET_RATE_BELOW_SHEET = 7,    /* The soil is too slow for the practice. */
    SAGECRUET_NO_IMPERVIOUS_AREA = 8,  /* The site has no impervious area. */
    SAGECRUET_AMOUNT_OUT_OF_RANGE = 9, /* The amount is out of range for the task. */
    SAGECRUET_TARGET_UNREACHABLE = 10, /* No size reaches the target. */
    SAGECRUET_READING_NOT_A_RATE = 11, /* The reading is no rate. */
    SAGECRUET_READING_TOO_FAST = 12,   /* The reading is too fast. */
    SAGECRUET_BUFFER_TOO_SHORT = 13,   /* There is no room for the text. */
    SAGECRUET_SITE_FULL = 14,          /* The site has more than 32 sub-areas. */
    SAGECRUET_PAST_LARGEST = 15,       /* A load or a volume is past the largest number. */
    SAGECRUET_NUMBER_NOT_HELD = 16,    /* The site does not hold this number, or its numbers are not in order. */
    SAGECRUET_NUMBERS_SPENT = 17       /* The site has no number left for a sub-area. */
};

/* A part of a job text: the place of its first byte, and its length. */
struct sagecruet_part {
    size_t from;
    size_t len;
};

/* What the test of a sheet says: SAGECRUET_GRANTED, or SAGECRUET_UNFIT_SHEET. With the second, `list` is 1 for the
 * depths, 2 for the rates or 3 for the percents, and `place` is the first offending index in that list, counted from 0;
 * both are 0 where the lengths of the lists do not fit together. With the first, both are 0. */
struct sagecruet_verdict {
    uint64_t answer;
    uint64_t list;
    uint64_t place;
};

/* The basis of a percent: how it was found. sagecruet_percent gives the number, an answer text the word, as `basis=WORD`;
 * the word stands first behind each number. It goes by the depth, and not by the percent that comes out. */
enum sagecruet_basis {
    SAGECRUET_BASIS_NONE = 0,    /* none: no percent was asked for, or it was refused. */
    SAGECRUET_BASIS_PRINTED = 1, /* printed: the depth is one of the sheet's, and no two rates are mixed. */
    SAGECRUET_BASIS_BETWEEN = 2, /* between: another depth from the first to the last, or any of them where rates mix. */
    SAGECRUET_BASIS_START = 3,   /* start: a depth below the first, 0 among them. */
    SAGECRUET_BASIS_HELD = 4     /* held: a depth beyond the last, whose percent is kept. */
};

/* A number given back, the percent that was asked for, and its basis, by the number above. Beside a refusal both are 0.
 * Beside SAGECRUET_UNFIT_SHEET `list` and `place` are those of struct sagecruet_verdict; else they are 0. */
struct sagecruet_percent_answer {
    uint64_t answer;
    uint64_t percent;
    uint64_t basis;
    uint64_t list;
    uint64_t place;
};

/* A number given back, and the rate that was asked for: 0 beside a refusal. */
struct sagecruet_value {
    uint64_t answer;
    uint64_t value;
};

/* A number given back, and the length of the text that was written: 0 beside a refusal. */
struct sagecruet_written {
    uint64_t answer;
    size_t len;
};

/* What the check of an answer says: `line` is 0 where the answer is right, else the number of its first wrong line, counted
 * from 1. `from` and `len` are the part of it that is this line without its line feed: the place of its first byte, and its
 * length. Where the answer is right they are an empty part at its end. */
struct sagecruet_checked {
    uint64_t line;
    size_t from;
    size_t len;
};

/* Works a job out on the published tables, from the text of the job to the text of its answer.
 *
 * The answer text is written at the start of `text`, with no zero byte after it, and its length is returned; no other
 * byte of `text` changes. Where `text_len` is less than the answer text needs (refusal 13), 0 is returned and `text`
 * keeps every byte. SAGECRUET_ROOM bytes are room enough for any answer.
 *
 * A granted job answers seven lines, a refused one two:
 *
 *     answer=0            answer=7
 *     load=1568350        line=0
 *     depth=0
 *     credit=0
 *     basis=none
 *     volume=0
 *     removed=0
 *
 * They are the load of the site; the depth that was used; the percent at that depth; its basis, a word of enum
 * sagecruet_basis; the volume, which is the amount of a credit and the design volume of a size; and the load that is
 * removed. A load job has 0 from `depth` on, and the basis none.
 *
 * `line` counts from 1 and is the line of the job in which a 1, 2, 3 or 14 arose; a missing line has the number that it
 * would have. It is 0 beside every other refusal, and where the text is too long. */
size_t sagecruet_answer(const uint8_t *job, size_t job_len, uint8_t *text, size_t text_len);

/* The same with a lent sheet in the place of the tables: the job's practice has to read, and is not used. The sheet is
 * tested when the task is credit or size; one that breaks a rule is refused 5, where a practice would be refused 4. Which
 * list and place it is, the answer does not say: sagecruet_sheet does. */
size_t sagecruet_answer_on(const uint8_t *job, size_t job_len,
                           const uint64_t *depths, size_t depths_len,
                           const uint64_t *rates, size_t rates_len,
                           const uint64_t *percents, size_t percents_len,
                           uint8_t *text, size_t text_len);

/* The offending line of a job text that is refused 1, without its line feed: the line as it stands in the text; an
 * empty part at the end where a line is missing; an empty part at the start where the text is too long. A text that
 * is not refused 1 has an empty part at its end, one that is refused 2, 3 or 14 too: its line is found by its number. */
struct sagecruet_part sagecruet_fault(const uint8_t *job, size_t job_len);

/* Writes a job: the text that reads as the values which are given. A word is told by its code, its place in the list at
 * the top of this header, counted from 0: a practice from 0 for trench to 8 for swale, a soil from 0 for A to 6 for -.
 * `areas` has four numbers for each sub-area, the codes of its use, cover and soil and its area, and `areas_len` counts
 * the numbers.
 *
 * The text is written at the start of `text`, with no zero byte after it; no other byte of `text` changes, and a refusal
 * changes none. SAGECRUET_JOB_ROOM bytes are room enough for any job. Refusals, tried in this order:
 *
 *   1   the list ends inside a sub-area
 *   14  there are more than 32 sub-areas
 *   1   a nutrient, mode, task, use, cover or soil is a code with no word
 *   2   an area is not from 1 to 1,000,000, or a soil does not go with its cover
 *   3   the total area is above 1,000,000; 2 and 3 are tried at each sub-area before the next
 *   1   there is no sub-area, the practice is a code with no word, or the rate or the amount has more than 14 digits
 *   13  `text_len` is less than the text needs
 *
 * Whether the job is granted is not asked: one that sagecruet_answer refuses 6 to 10 is written like any other. */
struct sagecruet_written sagecruet_job(uint64_t practice, uint64_t nutrient, uint64_t mode, uint64_t rate,
                                       uint64_t task, uint64_t amount,
                                       const uint64_t *areas, size_t areas_len,
                                       uint8_t *text, size_t text_len);

/* Checks an answer text that somebody else made for a job. It is right exactly when it is, byte for byte, what
 * sagecruet_answer writes for the job on the published tables; for a job that is refused those are two lines. Else its
 * first wrong line is the first that is not the same line of the right answer, both with their line feed:
 *
 *   - where `claimed` stops after whole right lines, it is the one that is missing, an empty part at the end, and `from` is
 *     `claimed_len`, as it is of no other wrong line;
 *   - a line without its line feed is wrong, and its part runs to the end;
 *   - where more bytes stand behind a right answer, it begins there.
 *
 * So a leading zero, a space or a carriage return makes a line wrong. Both texts may have any bytes and any length: a job
 * of more than 4,096 bytes is checked against its refusal too. Nothing is refused. */
struct sagecruet_checked sagecruet_check(const uint8_t *job, size_t job_len, const uint8_t *claimed, size_t claimed_len);

/* Rewrites a stored job in its place: C for each soil U; the length and every other byte stay. It is for jobs that were
 * stored while U counted as C for runoff too: rewritten, each gets the answer that it got then. A job that is refused 1,
 * 2, 3 or 14 is left as it came. Rewrite only jobs that were stored then: twice changes nothing more, but in a job that was
 * stored since, U means not known, and would become C. */
void sagecruet_rewrite(uint8_t *job, size_t job_len);

/* Tests a sheet: 1 to 16 depths, strictly rising, from 1 to 200; 1 to 8 rates, strictly rising, from 1 to 10,000, or
 * the single rate 0; a percent from 0 to 100,000 for each rate and depth, rate by rate, never falling within a rate. */
struct sagecruet_verdict sagecruet_sheet(const uint64_t *depths, size_t depths_len,
                                         const uint64_t *rates, size_t rates_len,
                                         const uint64_t *percents, size_t percents_len);

/* The percent of a sheet at a rate and a depth, and its basis. The curve of a rate is a straight line from depth 0 and
 * percent 0 to the first depth, and from each depth to the next; beyond the last depth it keeps the last percent. With
 * `mix` false the percent is on the curve of the fastest rate that is not above `rate`; with `mix` true it is on the
 * straight line between the curves of the two rates beside it, and from the fastest rate on it is on that one's curve
 * alone. Rates are mixed where `mix` is true and `rate` is strictly between two neighbouring rates of the sheet. The
 * percent is rounded down once, at the end. Refusals, tried in this order:
 *
 *   5   the sheet breaks a rule; the list and the place are given as sagecruet_sheet gives them
 *   6   the rate is above 10,000, or it is not 0 on a sheet with the single rate 0
 *   7   the rate is below the slowest of the sheet
 *   9   the depth is above 200 */
struct sagecruet_percent_answer sagecruet_percent(const uint64_t *depths, size_t depths_len,
                                                  const uint64_t *rates, size_t rates_len,
                                                  const uint64_t *percents, size_t percents_len,
                                                  bool mix, uint64_t rate, uint64_t depth);

/* The rate of a probe reading, which is in millimetres per hour with `millimetres` true and in inches per hour with it
 * false: the hundredth of an inch per hour that is nearest to its exact value, an exact half going down. So 0.52f
 * inches, a float a little below 0.52, give 52, 12.7f millimetres give 50, and 0.125f inches give 12. Refused 11 where it
 * is not a number, infinite or below zero (-0.0 is 0), and 12 where the nearest hundredth is above 10,000. */
struct sagecruet_value sagecruet_reading(bool millimetres, float reading);

#ifdef __cplusplus
}
#endif

#endif
