/*
 * Holds chart.c against the printed table on standard input, word by word. Written by hand, names
 * included: it shares only chart.h with what it tests.
 *
 *     cc -std=c99 -Wall -Wextra -Werror -pedantic -o test chart.c test.c && table | ./test
 *
 * Status 0 and one line if all 350 cells agree; else status 1, and the first difference on standard
 * error.
 */
#include <stdio.h>
#include <stdlib.h>
#include <string.h>

#include "chart.h"

struct name {
    int value;
    const char *word;
};

/* In the table's order: each value must be its index. */
static const struct name modes[] = {
    {CHART_REST, "Rest"},
    {CHART_AWAIT_ACK, "AwaitAck"},
    {CHART_ACK_BODY, "AckBody"},
    {CHART_ACK_END_GOOD, "AckEnd with a good Ack"},
    {CHART_ACK_END_NONE, "AckEnd without a good Ack"},
    {CHART_OPENED, "Opened"},
    {CHART_ADDRESSED, "Addressed"},
    {CHART_HEAD_OWN, "HeadOwn"},
    {CHART_HEAD_ALL, "HeadAll"},
    {CHART_BODY_OWN, "BodyOwn"},
    {CHART_BODY_ALL, "BodyAll"},
    {CHART_TAIL_OWN_GOOD, "TailOwn with good data"},
    {CHART_TAIL_OWN_BAD, "TailOwn with bad data"},
    {CHART_TAIL_ALL_GOOD, "TailAll with good data"},
    {CHART_TAIL_ALL_BAD, "TailAll with bad data"},
    {CHART_WAIT, "Wait"},
    {CHART_OWED, "Owed"},
    {CHART_SENDING, "Sending"},
    {CHART_TOLD, "Told"},
    {CHART_ANSWERING, "Answering"},
    {CHART_ACKING, "Acking"},
    {CHART_HOLDING, "Holding"},
    {CHART_SPURIOUS, "Spurious"},
    {CHART_LISTENING, "Listening"},
    {CHART_ASKED, "Asked"},
};

static const struct name classes[] = {
    {CHART_ON_START, "Start"},
    {CHART_ON_END, "End"},
    {CHART_ON_PREFIX, "Prefix"},
    {CHART_ON_GAP, "Gap"},
    {CHART_ON_DHEAD, "Dhead"},
    {CHART_ON_DEST_OWN, "Dest own"},
    {CHART_ON_DEST_ALL, "Dest 63"},
    {CHART_ON_DEST_OTHER, "Dest other"},
    {CHART_ON_HEADER_GOOD, "Header good"},
    {CHART_ON_HEADER_BAD, "Header bad"},
    {CHART_ON_DATA_GOOD, "Data good"},
    {CHART_ON_DATA_BAD, "Data bad"},
    {CHART_ON_ACK_GOOD, "Ack good"},
    {CHART_ON_ACK_BAD, "Ack bad"},
};

/* The table's words. */
static const struct name reports[] = {
    {CHART_NONE, "-"},
    {CHART_MISS, "miss"},
    {CHART_ACK, "ack"},
    {CHART_GOOD, "good"},
    {CHART_DCRC, "dcrc"},
    {CHART_BROAD, "broad"},
    {CHART_DROP, "drop"},
};

#define COUNT(list) ((int)(sizeof(list) / sizeof((list)[0])))

static void look_at_names(const struct name *names, int count, int expected)
{
    int k;

    if (count != expected) {
        fprintf(stderr, "chart.h: %d where %d are named\n", expected, count);
        exit(1);
    }
    for (k = 0; k < count; k++) {
        if (names[k].value != k) {
            fprintf(stderr, "chart.h: the name for %s is %d, not %d\n", names[k].word, names[k].value, k);
            exit(1);
        }
    }
}

/* Reads a word of the table, and gives back what ended it: a space, a line's end or the input's. */
static int read_word(char *word, size_t size)
{
    size_t length = 0;
    int c;

    while ((c = getchar()) != EOF && c != ' ' && c != '\n') {
        if (length + 1 < size)
            word[length++] = c == '\0' ? '?' : (char)c;
    }
    word[length] = '\0';
    return c;
}

/* The next word must be this one, and end so. */
static void expect(int mode, int class, const char *what, const char *expected, int end)
{
    char word[16];
    int ended = read_word(word, sizeof word);

    if (strcmp(word, expected) == 0 && ended == end)
        return;
    fprintf(stderr, "chart.c: %s on %s: ", modes[mode].word, classes[class].word);
    if (strcmp(word, expected) != 0)
        fprintf(stderr, "%s %s here, \"%s\" in the table\n", what, expected, word);
    else
        fprintf(stderr, "in the table no %s after the %s\n", end == ' ' ? "space" : "end of line", what);
    exit(1);
}

static void look_at_cell(int mode, int class)
{
    const struct chart_cell *cell = &chart[mode][class];
    char number[16];

    sprintf(number, "%d", cell->next);
    expect(mode, class, "next mode", number, ' ');
    expect(mode, class, "report", cell->report < COUNT(reports) ? reports[cell->report].word : "?", ' ');
    sprintf(number, "%d", cell->pends);
    expect(mode, class, "pending mark", number, class < COUNT(classes) - 1 ? ' ' : '\n');
}

int main(void)
{
    int mode, class;

    look_at_names(modes, COUNT(modes), CHART_MODES);
    look_at_names(classes, COUNT(classes), CHART_CLASSES);
    look_at_names(reports, COUNT(reports), CHART_REPORTS);
    for (mode = 0; mode < COUNT(modes); mode++) {
        for (class = 0; class < COUNT(classes); class++)
            look_at_cell(mode, class);
    }
    if (getchar() != EOF) {
        fprintf(stderr, "chart.c: the table goes on after its last line\n");
        return 1;
    }
    printf("chart.c: %d cells agree\n", COUNT(modes) * COUNT(classes));
    return fflush(stdout) == 0 ? 0 : 1;
}
