/*
 * Reads one sheet on standard input and writes the report, or the line "refused", tab, number,
 * tab, line. With the word "whole" behind its name it plans in whole circuits; with the word
 * "ranges" it writes the report headed "span" on a range sheet; with the word "order" it writes the
 * numbers of the sites in the order of work, one a line, and with the word "named" also their names, and
 * a refusal in words on standard error, as the program does. With the word "replay" and two file names,
 * a sheet and a booking log, it writes the answer to each line of the log, or "refused", tab, text,
 * tab, number, tab, line.
 *
 * With the word "regions" and two file names, the sheets of two regions that share one link, it
 * writes of each "region", tab, its number, tab, its sum, and its trimmed sizes, one a line; or
 * "refused", tab, sheet, tab, number, tab, line. With the word "region", the file name of a sheet
 * and the two shared names it writes "first", tab, its first trimmed size of the shared link; with
 * the neighbour's number behind them its own part of the answer, headed "region", tab, its sum.
 *
 * With the word "judge" and two file names, a sheet and a plan drawn by hand, it writes "judged", tab,
 * the total in halves, tab, "yes" or "no", or a refusal as of a log. Build, from the root of the
 * repository:
 *
 *   gcc -O2 -Ic c/example.c target/staticlib/libwaderarmoire.a -o example
 */
#include <stdio.h>
#include <stdlib.h>
#include <string.h>

#include "waderarmoire.h"

/* One byte more than a sheet may have shows that it has too many. */
static uint8_t sheet[WADERARMOIRE_SHEET_BYTES + 1];
static uint8_t report[WADERARMOIRE_REPORT_BYTES];
static size_t list[WADERARMOIRE_SITES];
static uint8_t log_text[WADERARMOIRE_LOG_BYTES + 1];
static uint8_t plan_text[WADERARMOIRE_PLAN_BYTES + 1];
static uint64_t answers[WADERARMOIRE_LOG_LINES];
static uint8_t sheet2[WADERARMOIRE_SHEET_BYTES + 1];
static uint64_t sizes[WADERARMOIRE_LINKS];
static uint64_t sizes2[WADERARMOIRE_LINKS];

/* Whether all that was printed is written. */
static int end_output(void)
{
    if (fflush(stdout) != 0 || ferror(stdout)) {
        perror("standard output");
        return 1;
    }
    return 0;
}

/* Reads a file into the places of a buffer; 1 where it cannot be read. */
static int read_file(const char *name, uint8_t *text, size_t places, size_t *length)
{
    FILE *file = fopen(name, "rb");
    if (file == NULL) {
        perror(name);
        return 1;
    }
    *length = fread(text, 1, places, file);
    int failed = ferror(file);
    if (failed)
        perror(name);
    fclose(file);
    return failed != 0;
}

/* Writes numbers, one a line. */
static void print_numbers(const uint64_t *numbers, size_t count)
{
    for (size_t place = 0; place < count; place++)
        printf("%llu\n", (unsigned long long)numbers[place]);
}

/* Replays a log over a sheet, both files. */
static int replay(const char *sheet_name, const char *log_name)
{
    size_t sheet_len, log_len;
    if (read_file(sheet_name, sheet, sizeof sheet, &sheet_len) != 0
        || read_file(log_name, log_text, sizeof log_text, &log_len) != 0)
        return 1;
    uint64_t answer = waderarmoire_replay(sheet, sheet_len, log_text, log_len, answers,
                                          WADERARMOIRE_LOG_LINES);
    if (waderarmoire_number(answer) != 0)
        printf("refused\t%u\t%u\t%u\n", waderarmoire_text(answer), waderarmoire_number(answer),
               waderarmoire_line(answer));
    print_numbers(answers, waderarmoire_length(answer));
    return end_output();
}

/* Trims two regions, both files. */
static int regions(const char *name, const char *name2)
{
    size_t length, length2;
    if (read_file(name, sheet, sizeof sheet, &length) != 0
        || read_file(name2, sheet2, sizeof sheet2, &length2) != 0)
        return 1;
    uint64_t sums[2];
    uint64_t answer = waderarmoire_regions(sheet, length, sheet2, length2, sizes, WADERARMOIRE_LINKS,
                                           sizes2, WADERARMOIRE_LINKS, sums);
    if (waderarmoire_number(answer) != 0) {
        printf("refused\t%u\t%u\t%u\n", waderarmoire_text(answer), waderarmoire_number(answer),
               waderarmoire_line(answer));
        return end_output();
    }
    printf("region\t1\t%llu\n", (unsigned long long)sums[0]);
    print_numbers(sizes, waderarmoire_count(answer));
    printf("region\t2\t%llu\n", (unsigned long long)sums[1]);
    print_numbers(sizes2, waderarmoire_count2(answer));
    return end_output();
}

/* One of the two steps of a region: the second with the neighbour's number, the first without. */
static int region(const char *file, const char *one, const char *other, const char *number)
{
    size_t length;
    if (read_file(file, sheet, sizeof sheet, &length) != 0)
        return 1;
    const uint8_t *name = (const uint8_t *)one, *name2 = (const uint8_t *)other;
    uint64_t answer;
    if (number == NULL)
        answer = waderarmoire_region_first(sheet, length, name, strlen(one), name2, strlen(other));
    else
        answer = waderarmoire_region_answer(sheet, length, name, strlen(one), name2, strlen(other),
                                            strtoull(number, NULL, 10), sizes, WADERARMOIRE_LINKS);
    if (waderarmoire_number(answer) != 0) {
        printf("refused\t%u\t%u\n", waderarmoire_number(answer), waderarmoire_line(answer));
    } else if (number == NULL) {
        printf("first\t%zu\n", waderarmoire_length(answer));
    } else {
        printf("region\t%llu\n", (unsigned long long)waderarmoire_region_sum(answer));
        print_numbers(sizes, waderarmoire_region_count(answer));
    }
    return end_output();
}

/* Judges a plan over a sheet, both files. */
static int judge(const char *sheet_name, const char *plan_name)
{
    size_t sheet_len, plan_len;
    if (read_file(sheet_name, sheet, sizeof sheet, &sheet_len) != 0
        || read_file(plan_name, plan_text, sizeof plan_text, &plan_len) != 0)
        return 1;
    uint64_t answer = waderarmoire_judge(sheet, sheet_len, plan_text, plan_len);
    if (waderarmoire_text(answer) != 0)
        printf("refused\t%u\t%u\t%u\n", waderarmoire_text(answer), waderarmoire_number(answer),
               waderarmoire_line(answer));
    else
        printf("judged\t%llu\t%s\n", (unsigned long long)waderarmoire_total(answer),
               waderarmoire_is_largest(answer) ? "yes" : "no");
    return end_output();
}

/* Says on standard error what the refusal of a sheet means. */
static void say(uint64_t answer)
{
    uint8_t words[WADERARMOIRE_WORDS_BYTES];
    fflush(stdout);
    size_t length = waderarmoire_words(waderarmoire_number(answer), waderarmoire_line(answer), words,
                                       sizeof words);
    fwrite(words, 1, length, stderr);
}

/* Writes the number and the name of each site of a list. */
static void print_sites(const size_t *sites, size_t count, size_t sheet_len)
{
    for (size_t place = 0; place < count; place++) {
        uint64_t name = waderarmoire_name(sheet, sheet_len, sites[place]);
        printf("%zu\t%.*s\n", sites[place], (int)waderarmoire_length(name),
               (const char *)sheet + waderarmoire_offset(name));
    }
}

int main(int count, char **words)
{
    if (count == 4 && strcmp(words[1], "replay") == 0)
        return replay(words[2], words[3]);
    if (count == 4 && strcmp(words[1], "regions") == 0)
        return regions(words[2], words[3]);
    if ((count == 5 || count == 6) && strcmp(words[1], "region") == 0)
        return region(words[2], words[3], words[4], count == 6 ? words[5] : NULL);
    if (count == 4 && strcmp(words[1], "judge") == 0)
        return judge(words[2], words[3]);

    size_t sheet_len = fread(sheet, 1, sizeof sheet, stdin);
    if (ferror(stdin)) {
        perror("standard input");
        return 1;
    }

    const char *word = count > 1 ? words[1] : "plan";
    int in_order = strcmp(word, "order") == 0;
    int named = strcmp(word, "named") == 0;
    uint64_t answer;
    if (in_order || named)
        answer = waderarmoire_order(sheet, sheet_len, list, WADERARMOIRE_SITES);
    else if (strcmp(word, "whole") == 0)
        answer = waderarmoire_whole(sheet, sheet_len, report, sizeof report);
    else if (strcmp(word, "ranges") == 0)
        answer = waderarmoire_ranges(sheet, sheet_len, report, sizeof report);
    else
        answer = waderarmoire_plan(sheet, sheet_len, report, sizeof report);

    size_t length = waderarmoire_length(answer);
    if (waderarmoire_number(answer) != 0) {
        printf("refused\t%u\t%u\n", waderarmoire_number(answer), waderarmoire_line(answer));
        if (named)
            say(answer);
    } else if (named)
        print_sites(list, length, sheet_len);
    else if (in_order)
        for (size_t place = 0; place < length; place++)
            printf("%zu\n", list[place]);
    else
        fwrite(report, 1, length, stdout);

    return end_output();
}
