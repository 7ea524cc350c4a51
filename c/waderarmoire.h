/*
 * Waderarmoire, the tree circuit planner: C interface of the static library.
 *
 * One call reads a network sheet and writes the report of its plan, in halves of a circuit or in
 * whole circuits, or lists its sites in the order of work, or replays a booking log over it, or
 * trims it with the sheet of a neighbouring region, or tells within what its total and trimmed sizes
 * lie for sizes still under survey, or judges a plan drawn by hand, or tells why one of the texts is
 * refused. Further calls look up the name of a site and put a refusal into words. Link with libwaderarmoire.a, which is built for x86-64 Linux.
 *
 * The library allocates nothing, keeps nothing between calls, has no global state and calls
 * nothing but memcpy and memset: any number of threads may call it at once, each with a buffer
 * or list of its own. It reads the sheet and writes the buffer or list within their lengths and
 * touches no other memory of the caller's. Every call ends, whatever the sheet holds.
 *
 * A plan or an order needs at most 168 KiB of stack, whatever the shape of the tree, two regions
 * or a step of one at most 160 KiB, a judgement, a replay or a report on ranges at most 136 KiB: nothing
 * recurses but the digits of a number of nine or more, twenty deep at most (measured on the largest trees, with
 * what a new thread itself needs). A thread of WADERARMOIRE_STACK_BYTES has enough for every sheet and log.
 *
 * The heading of a sheet tells its edition, and that its limits: under "network", tab, "1" it may
 * have 256 sites and 16,384 bytes, under "network", tab, "2" 384 sites and 24,576 bytes.
 */
#ifndef WADERARMOIRE_H
#define WADERARMOIRE_H

#include <stddef.h>
#include <stdint.h>

#ifdef __cplusplus
extern "C" {
#endif

/* The largest sheet that is read, in bytes: one of edition 2. Of edition 1 it has 16,384. */
#define WADERARMOIRE_SHEET_BYTES 24576

/* A report buffer of this length is enough for every accepted sheet. */
#define WADERARMOIRE_REPORT_BYTES 65536

/*
 * A list of this length is enough for the order of every accepted sheet: one of edition 2 has so
 * many sites at most. Of edition 1 it has 256.
 */
#define WADERARMOIRE_SITES 384

/* A list of this length is enough for the trimmed sizes of every accepted sheet. */
#define WADERARMOIRE_LINKS 383

/* The largest log that is replayed, in bytes and in lines; a list of so many answers is enough. */
#define WADERARMOIRE_LOG_BYTES 65536
#define WADERARMOIRE_LOG_LINES 4096

/* The largest plan drawn by hand that is judged, in bytes and in lines. */
#define WADERARMOIRE_PLAN_BYTES 65536
#define WADERARMOIRE_PLAN_LINES 1024

/* A buffer of this length is enough for the words of every refusal. */
#define WADERARMOIRE_WORDS_BYTES 256

/* A thread with a stack of this length can plan every sheet. */
#define WADERARMOIRE_STACK_BYTES 196608

/*
 * Plans the network of a sheet of sheet_len bytes in halves of a circuit and writes the report
 * headed "plan" into a buffer of report_len bytes.
 *
 * The caller owes this: sheet points to sheet_len bytes that may be read, report to report_len
 * bytes that may be written; neither pointer is null, not even with length 0; the two areas do
 * not overlap; and nobody else writes to either during the call. The bytes may hold anything.
 *
 * The sheet is not changed. On success the report stands at the start of the buffer and the bytes
 * after it keep their values; on a refusal the whole buffer keeps its values.
 *
 * The answer holds three numbers, taken out by the functions below.
 */
uint64_t waderarmoire_plan(const uint8_t *sheet, size_t sheet_len, uint8_t *report,
                           size_t report_len);

/*
 * Plans the network of a sheet in whole circuits: all amounts are even in halves, and the total is
 * the largest among such plans. Writes the report headed "whole". The caller owes the same, and
 * the answer is of the same form.
 */
uint64_t waderarmoire_whole(const uint8_t *sheet, size_t sheet_len, uint8_t *report,
                            size_t report_len);

/*
 * Writes the report headed "span" on a range sheet: the least and the greatest total in halves, then
 * for each link its names, its low and its high size, and its least and its greatest trimmed size.
 * For every choice of sizes from low to high, total and trimmed sizes lie within these, and both
 * ends of each are reached. A range sheet is headed "ranges", tab, "1"; its link lines have a low and
 * a high size and no reserve. It is measured by edition 2, and so is any other sheet here. The caller
 * owes the same as of waderarmoire_plan, and the answer is of the same form.
 */
uint64_t waderarmoire_ranges(const uint8_t *sheet, size_t sheet_len, uint8_t *report,
                             size_t report_len);

/*
 * Writes the numbers of all sites of a sheet, counted from 1 by their lines, into a list of list_len
 * places, in the order of work: always the lowest-numbered untaken site with at most one unvisited
 * link is taken. A link is visited once one of its sites is taken.
 *
 * The caller owes the same, with the list in the place of the report. On success the places after
 * the order keep their values; on a refusal the whole list keeps its values. The answer is of the
 * same form, with the count of sites in the place of the length.
 */
uint64_t waderarmoire_order(const uint8_t *sheet, size_t sheet_len, size_t *list,
                            size_t list_len);

/*
 * Replays a booking log of log_len bytes over the network of a sheet and writes the answer to each
 * line into a list of answers_len places. A line is "+" to open or "-" to give up, then the names of
 * two ends in either order and an amount in halves from 1 to 2,000,000, parted by tabs. Its answer:
 *   0  done; else nothing is moved:
 *   2  first field neither "+" nor "-", or a line that is not ended
 *  10  wrong number of fields
 *  11  a name is not 1 to 12 letters or digits
 *  17  name of digits only
 *  12  a number is not written in decimal without a leading zero
 *   3  amount 0 or above 2,000,000
 *   6  the names are not those of two different ends (a-z read as A-Z), or another
 *      end stands on the path between them
 *  14  of "-": less than that is open between them
 *  15  of "+": a link on the path would carry more than twice its usable size
 *  16  of "+": 512 other pairs are open
 *
 * The caller owes the same for sheet, log and answers, the last of which is written. On success the
 * places after the answers keep their values; on a refusal the whole list keeps its values.
 * The answer of the call holds four numbers: the text that is refused (1 the sheet, 2 the log), its
 * number and line, and the count of lines answered, which stands in the place of the length. The
 * sheet's refusals come first; a log gets 1 for more bytes or lines than those above, then 9 for
 * more lines than places, both at line 0.
 */
uint64_t waderarmoire_replay(const uint8_t *sheet, size_t sheet_len, const uint8_t *log,
                             size_t log_len, uint64_t *answers, size_t answers_len);

/*
 * Trims two neighbouring regions that share one link, each with a sheet of its own, and writes the
 * trimmed sizes of each, in the order of its links' lines, into its list: sizes for the first,
 * sizes2 for the second. Into sums, which has two places, go their sums over the links of each
 * region's own ends, a marked end counting each of its links; the far site, which stands for the
 * other side of the shared link, counts for the other region. The trimmed sizes are those of the
 * joined tree, and the two sums add up to its total in halves.
 *
 * The caller owes the same for the two sheets, the two lists and sums, the last three of which are
 * written and overlap nothing. On success the places after the sizes keep their values; on a refusal
 * both lists and sums keep theirs.
 *
 * The answer of the call holds the counts of sizes, waderarmoire_count and waderarmoire_count2, or
 * a refusal with its sheet, which stands in the place of the text: 1 or 2, the faults of the first
 * coming first; then 18, of sheet 0 at line 0, unless the sheets have in common exactly two names,
 * these joined by a link in both, of equal usable size, one having a single link and no mark in the
 * first sheet, the other so in the second; then 9 at line 0, of the first region that has more
 * links than places.
 */
uint64_t waderarmoire_regions(const uint8_t *first, size_t first_len, const uint8_t *second,
                              size_t second_len, uint64_t *sizes, size_t sizes_len,
                              uint64_t *sizes2, size_t sizes2_len, uint64_t *sums);

/*
 * The first step of a region without its neighbour's sheet: tells its first trimmed size of the
 * link between two names, in either order and in either case. This number is all that the neighbour
 * needs to know. The caller owes the same for the sheet and the two names.
 *
 * The answer is of the same form as that of waderarmoire_plan, with the trimmed size in the place of
 * the length. After the faults of the sheet comes 18, at line 0, for what this sheet alone shows to
 * be wrong: it does not have the two names, no link joins them, or neither has a single link and no
 * mark.
 */
uint64_t waderarmoire_region_first(const uint8_t *sheet, size_t sheet_len, const uint8_t *name,
                                   size_t name_len, const uint8_t *name2, size_t name2_len);

/*
 * The second step: given the number that the neighbour's first step tells, writes the region's own
 * part of what waderarmoire_regions answers. The caller owes the same, with a list that is written;
 * the places after the sizes keep their values, and on a refusal the whole list does.
 *
 * The answer of the call holds the count of sizes and their sum, waderarmoire_region_count and
 * waderarmoire_region_sum, or a refusal: those of the first step, also 18 for a number above the
 * usable size of the link, as no neighbour has it that gives the link the same; and then 9 at line 0
 * for more links than places.
 */
uint64_t waderarmoire_region_answer(const uint8_t *sheet, size_t sheet_len, const uint8_t *name,
                                    size_t name_len, const uint8_t *name2, size_t name2_len,
                                    uint64_t number, uint64_t *sizes, size_t sizes_len);

/*
 * Judges a plan drawn by hand, of plan_len bytes, over the network of a sheet. A line of the plan is
 * "P", then the names of two ends in either order and an amount in halves from 1 to 2,000,000,
 * parted by tabs; the lines of a report that begin with "P" are such. A plan of 0 bytes has no lines
 * and is accepted. The plan is refused for
 *   1  more bytes or lines than those above, at line 0
 *   2  first field other than "P", or a line that is not ended
 *  10  wrong number of fields
 *  11  a name is not 1 to 12 letters or digits
 *  17  name of digits only
 *  12  a number is not written in decimal without a leading zero
 *   3  amount 0 or above 2,000,000
 *   6  the names are not those of two different ends (a-z read as A-Z), or another
 *      end stands on the path between them
 *  20  the pair is given on an earlier line, in either order
 *  21  after the last line, at line 0: some link would carry more than twice its usable size
 * The sheet's refusals come first. The lowest line at fault decides, within a line in this order.
 *
 * The caller owes the same for sheet and plan, neither of which is written. On a refusal the answer
 * holds the text that is refused (1 the sheet, 2 the plan), its number and line; on success the total
 * and whether it is the largest, taken out by waderarmoire_total and waderarmoire_is_largest.
 */
uint64_t waderarmoire_judge(const uint8_t *sheet, size_t sheet_len, const uint8_t *plan,
                            size_t plan_len);

/*
 * Looks up where the name of a site stands on a sheet, by the site's number: sites are counted from 1 by
 * their lines, as in the order of work. The answer holds an offset and a length, waderarmoire_offset and
 * waderarmoire_length: the bytes of the site's own line, in the sheet itself. The length is 0 for a number
 * without a site, and for every number over a sheet that is refused. The caller owes the same for the sheet.
 */
uint64_t waderarmoire_name(const uint8_t *sheet, size_t sheet_len, size_t site);

/*
 * Writes what a refusal means, a line of text ended by a line feed, from the start of a buffer of text_len bytes as
 * far as it goes, and tells the length of the line; WADERARMOIRE_WORDS_BYTES are enough. No byte 0 is put behind
 * it. The first is for a refusal of one sheet: of a plan, an order, ranges or a step of a region. The others
 * also take which text or sheet is refused, waderarmoire_text. All take their words from one table; they are
 * those of the programs. The caller owes that text points to text_len bytes that may be written.
 */
size_t waderarmoire_words(uint64_t number, size_t line, uint8_t *text, size_t text_len);
size_t waderarmoire_words_of_replay(uint64_t of, uint64_t number, size_t line, uint8_t *text,
                                    size_t text_len);
size_t waderarmoire_words_of_regions(uint64_t of, uint64_t number, size_t line, uint8_t *text,
                                     size_t text_len);
size_t waderarmoire_words_of_judge(uint64_t of, uint64_t number, size_t line, uint8_t *text,
                                   size_t text_len);

/*
 * The number of the refusal, or 0 for success:
 *   1  no bytes, or more than 16,384 (edition 2: 24,576)
 *   2  wrong heading, letter or line ending
 *   3  size or reserve above 1,000,000
 *   4  more sites than 256 (edition 2: 384)
 *   5  name already given to a site (a-z read as A-Z)
 *   6  link to a name not given on a line above (a-z read as A-Z)
 *   7  link whose sites are already joined by links above, or are one site
 *   8  fewer than two sites, or not all sites are joined
 *   9  answer longer than the buffer or list for it: the report, of the order the sites, of regions
 *      the links
 *  10  wrong number of fields
 *  11  a name is not 1 to 12 letters or digits
 *  12  a number is not written in decimal without a leading zero
 *  13  reserve above the size
 *  17  name of digits only
 *  18  the two sheets do not share one link
 *  19  of ranges, low size above the high size
 * A sheet whose line 1 is no heading is measured by edition 1. The lowest line with a fault
 * decides; within a line the order is 2, 10, 11, 17, then 4, 5 for a site and 12, 3, 13 or 19, 6, 7
 * for a link.
 */
static inline unsigned waderarmoire_number(uint64_t answer)
{
    return (unsigned)(answer >> 40) & 0xfffu;
}

/*
 * Of a replay or a judgement, the text that is refused: 1 the sheet, 2 the other; of two regions, the
 * sheet, or 0 with 18; 0 for success.
 */
static inline unsigned waderarmoire_text(uint64_t answer)
{
    return (unsigned)(answer >> 52);
}

/* The line at fault, counted from 1, or 0 when no line is. */
static inline unsigned waderarmoire_line(uint64_t answer)
{
    return (unsigned)(answer >> 20) & 0xfffffu;
}

/*
 * The length of the report in bytes, or of a name, or the count of sites of the order or of lines
 * answered; 0 on a refusal.
 */
static inline size_t waderarmoire_length(uint64_t answer)
{
    return (size_t)(answer & 0xfffffu);
}

/* Of a name, the offset of its first byte on the sheet. */
static inline size_t waderarmoire_offset(uint64_t answer)
{
    return (size_t)(answer >> 20);
}

/* How many sizes two regions have, the first and the second, if they are not refused. */
static inline size_t waderarmoire_count(uint64_t answer)
{
    return (size_t)(answer >> 20);
}

static inline size_t waderarmoire_count2(uint64_t answer)
{
    return (size_t)(answer & 0xfffffu);
}

/* How many sizes one region has in its second step, and their sum, if it is not refused. */
static inline size_t waderarmoire_region_count(uint64_t answer)
{
    return (size_t)(answer >> 30);
}

static inline uint64_t waderarmoire_region_sum(uint64_t answer)
{
    return answer & 0x3fffffffu;
}

/* The total in halves of a plan that is accepted. */
static inline uint64_t waderarmoire_total(uint64_t answer)
{
    return answer >> 1;
}

/* Whether no fitting plan has a greater total than one that is accepted: 1, or else 0. */
static inline int waderarmoire_is_largest(uint64_t answer)
{
    return (int)(answer & 1u);
}

#ifdef __cplusplus
}
#endif

#endif
