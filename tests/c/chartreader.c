/*
 * The chart reader through its C header. At the top of the repository, after host/library.sh:
 *
 *     cc -std=c99 -Wall -Wextra -Wpedantic -Werror -Wconversion -Iinclude tests/c/chartreader.c \
 *         target/staticlib/libreader.a -o target/chartreader_c && target/chartreader_c
 *
 * It ends with 1 and one line at the first thing that is not as it must be.
 */
#include "chartreader.h"

#include <stdio.h>
#include <stdlib.h>
#include <string.h>

static struct chart chart, before, other;
static uint8_t row[CHART_ROW_BYTES];
static unsigned checks;

static void check(int holds, const char *what, int line) {
    checks++;
    if (holds)
        return;
    fprintf(stderr, "tests/c/chartreader.c:%d: not so: %s\n", line, what);
    exit(1);
}

#define CHECK(holds) check((holds), #holds, __LINE__)

/* ---- small helpers */

#define SCXML "event=open\nname=scxml\n"
#define STATE_A "event=empty\nname=state\nkey=id\nvalue=a\n"
#define END_SCXML "event=end\nname=scxml\n"
#define OPEN_A "event=open\nname=state\nkey=id\nvalue=a\n"
#define ONENTRY "event=open\nname=onentry\n"

static const uint8_t *bytes(const char *text) { return (const uint8_t *)text; }

static uint32_t feed(const char *event) { return chart_feed(&chart, bytes(event), strlen(event)); }

static uint32_t feed_all(const char *events, size_t *event) {
    return chart_feed_stream(&chart, bytes(events), strlen(events), event);
}

static void clear(struct chart *c) { memset(c, 0, sizeof *c); }

static void keep(void) { memcpy(&before, &chart, sizeof chart); }

static int unchanged(void) { return memcmp(&before, &chart, sizeof chart) == 0; }

static int all_zeros(const uint8_t *from, size_t count) {
    for (size_t i = 0; i < count; i++)
        if (from[i] != 0)
            return 0;
    return 1;
}

/* The row by kind and number, its buffer full of other bytes before. */
static uint32_t read_row(uint32_t kind, uint32_t number) {
    memset(row, 0xee, sizeof row);
    return chart_row(&chart, kind, number, row);
}

static int text_is(size_t column, const char *wanted) {
    size_t length;
    const uint8_t *text = chart_text(&chart, row, column, &length);
    return text != NULL && length == strlen(wanted) && memcmp(text, wanted, length) == 0;
}

static int text_absent(size_t column) {
    size_t length = 7;
    return chart_text(&chart, row, column, &length) == NULL && length == 0;
}

/* A list is exactly these values; 0 ends them. */
static int list_is(uint32_t list, uint32_t owner, const uint32_t *values) {
    uint32_t m = 0;
    while ((m = chart_next_member(&chart, list, owner, m)) != 0)
        if (chart.members[m - 1][CHART_MEMBER_VALUE] != *values++)
            return 0;
    return *values == 0;
}

/* ---- document 01's example */

static void example_states(void) {
    CHECK(read_row(CHART_STATE, 1) == CHART_ACCEPTED);
    CHECK(text_is(CHART_STATE_NAME, "__id1"));
    CHECK(chart_column(row, CHART_STATE_PARENT) == 0);
    CHECK(chart_column(row, CHART_STATE_INITIAL) == 1);
    CHECK(chart_column(row, CHART_STATE_DOC) == 1);
    CHECK(list_is(CHART_CHILDREN, 1, (const uint32_t[]){2, 0}));
    CHECK(read_row(CHART_STATE, 2) == CHART_ACCEPTED);
    CHECK(text_is(CHART_STATE_NAME, "a"));
    CHECK(chart_column(row, CHART_STATE_PARENT) == 1);
    CHECK(chart_column(row, CHART_STATE_INITIAL) == 0);
    CHECK(chart_column(row, CHART_STATE_DOC) == 2);
    CHECK(list_is(CHART_CHILDREN, 2, (const uint32_t[]){0}));
}

static void example_transition(void) {
    CHECK(chart_transition_number(&chart, 1) == 1);
    CHECK(chart_transition_number(&chart, 2) == 0);
    CHECK(read_row(CHART_TRANSITION, 1) == CHART_ACCEPTED);
    CHECK(chart_column(row, CHART_TRANSITION_SOURCE) == 1);
    CHECK(chart_column(row, CHART_TRANSITION_TYPE) == CHART_EXTERNAL);
    CHECK(chart_column(row, CHART_TRANSITION_DOC) == 0);
    CHECK(chart_column(row, CHART_TRANSITION_CONTENT) == 0);
    CHECK(text_absent(CHART_TRANSITION_COND));
    CHECK(list_is(CHART_TARGETS, 1, (const uint32_t[]){2, 0}));
}

static void example_is_there(void) {
    CHECK(chart.position.states == 2 && chart.position.transitions == 1 && chart.position.regions == 0);
    CHECK(read_row(CHART_CHART, 1) == CHART_ACCEPTED);
    CHECK(chart_column(row, CHART_CHART_ROOT) == 1);
    CHECK(text_absent(CHART_CHART_NAME));
    example_states();
    example_transition();
}

static void events_one_by_one(void) {
    clear(&chart);
    CHECK(feed(SCXML) == CHART_ACCEPTED);
    CHECK(feed(STATE_A) == CHART_ACCEPTED);
    CHECK(chart.position.opened == 1);
    CHECK(feed(END_SCXML) == CHART_ACCEPTED);
    CHECK(chart.position.opened == 0);
    example_is_there();
}

/* The same chart, byte for byte, through one stream and through two. */
static void streams(void) {
    size_t event = 9;
    memcpy(&other, &chart, sizeof chart);
    clear(&chart);
    CHECK(feed_all(SCXML STATE_A END_SCXML, &event) == CHART_ACCEPTED && event == 0);
    example_is_there();
    CHECK(memcmp(&chart, &other, sizeof chart) == 0);
    clear(&chart);
    CHECK(feed_all(SCXML STATE_A, NULL) == CHART_ACCEPTED);
    CHECK(feed_all("", &event) == CHART_ACCEPTED && event == 0);
    CHECK(feed_all(END_SCXML, NULL) == CHART_ACCEPTED);
    CHECK(memcmp(&chart, &other, sizeof chart) == 0);
}

/* ---- refusals */

struct refused {
    uint32_t number;
    const char *before;
    const char *event;
};

static const struct refused refusals[] = {
    {CHART_NOT_IN_FORM, "", "event=open\nname=scxml"},
    {CHART_NOT_IN_FORM, "", ""},
    {CHART_NOT_IN_FORM, SCXML, STATE_A END_SCXML},
    {CHART_NOT_IN_FORM, SCXML, "event=empty\nname=state\nkey=id\nvalue=\xc3\xa9\n"},
    {CHART_REPEATED_KEY, SCXML, "event=empty\nname=state\nkey=id\nvalue=a\nkey=id\nvalue=b\n"},
    {CHART_WRONG_END, SCXML, "event=end\nname=state\n"},
    {CHART_WRONG_END, "", END_SCXML},
    {CHART_LEFT_OUT, SCXML, "event=empty\nname=include\n"},
    {CHART_WRONG_PARENT, SCXML, "event=empty\nname=onentry\n"},
    {CHART_SECOND_SCXML, SCXML, SCXML},
    {CHART_MISSING, SCXML OPEN_A ONENTRY, "event=empty\nname=raise\n"},
    {CHART_TOGETHER, SCXML OPEN_A ONENTRY, "event=empty\nname=send\nkey=event\nvalue=x\nkey=eventexpr\nvalue=y\n"},
    {CHART_UNKNOWN_WORD, "", "event=open\nname=scxml\nkey=binding\nvalue=sometimes\n"},
    {CHART_INITIAL_SET, SCXML "event=open\nname=state\nkey=id\nvalue=a\nkey=initial\nvalue=b\n", "event=open\nname=initial\n"},
    {CHART_NO_IF, SCXML OPEN_A ONENTRY "event=open\nname=if\nkey=cond\nvalue=c\nevent=empty\nname=else\n",
     "event=empty\nname=else\n"},
};

/* By itself, a refused event changes nothing at all. */
static void refusal_changes_nothing(const struct refused *r) {
    clear(&chart);
    CHECK(feed_all(r->before, NULL) == CHART_ACCEPTED);
    keep();
    CHECK(feed(r->event) == r->number);
    CHECK(unchanged());
}

/* In a stream, what came before it stays. */
static void refusal_in_a_stream(void) {
    size_t event = 0;
    uint32_t number;
    clear(&chart);
    CHECK(feed_all(SCXML, NULL) == CHART_ACCEPTED);
    keep();
    number = feed_all("event=end\nname=state\n" STATE_A, &event);
    CHECK(number == CHART_WRONG_END && event == 1 && unchanged());
    CHECK(feed_all(STATE_A, NULL) == CHART_ACCEPTED);
    memcpy(&other, &chart, sizeof chart);
    clear(&chart);
    number = feed_all(SCXML STATE_A "event=end\nname=state\n" END_SCXML, &event);
    CHECK(number == CHART_WRONG_END && event == 3);
    CHECK(memcmp(&chart, &other, sizeof chart) == 0);
}

static void every_refusal(void) {
    for (size_t i = 0; i < sizeof refusals / sizeof refusals[0]; i++)
        refusal_changes_nothing(&refusals[i]);
    refusal_in_a_stream();
}

/* ---- document 01's charts at the edges */

static void value_of(size_t length, uint32_t number) {
    static char event[CHART_VALUE_BYTES + 100];
    size_t at = (size_t)sprintf(event, "event=empty\nname=state\nkey=id\nvalue=");
    memset(event + at, 'v', length);
    strcpy(event + at + length, "\n");
    clear(&chart);
    CHECK(feed(SCXML) == CHART_ACCEPTED);
    CHECK(feed(event) == number);
}

static void states_to_the_limit(void) {
    char event[80];
    clear(&chart);
    CHECK(feed(SCXML) == CHART_ACCEPTED);
    for (int i = 2; i <= CHART_STATES; i++) {
        sprintf(event, "event=empty\nname=state\nkey=id\nvalue=s%d\n", i);
        CHECK(feed(event) == CHART_ACCEPTED);
    }
    keep();
    CHECK(feed(STATE_A) == CHART_FULL);
    CHECK(unchanged());
    CHECK(feed("event=empty\nname=state\nkey=id\nvalue=s256\n") == CHART_ACCEPTED);
}

static void elements_to_the_limit(void) {
    clear(&chart);
    for (int i = 0; i < CHART_OPENED; i++)
        CHECK(feed("event=open\nname=unknown\n") == CHART_ACCEPTED);
    keep();
    CHECK(feed("event=open\nname=unknown\n") == CHART_TOO_DEEP);
    CHECK(feed("event=empty\nname=unknown\n") == CHART_TOO_DEEP);
    CHECK(unchanged());
    CHECK(feed("event=end\nname=unknown\n") == CHART_ACCEPTED);
}

static void edges(void) {
    value_of(CHART_VALUE_BYTES, CHART_ACCEPTED);
    value_of(CHART_VALUE_BYTES + 1, CHART_NOT_IN_FORM);
    states_to_the_limit();
    elements_to_the_limit();
}

/* ---- question 1: short slices */

static const size_t limits[13] = {
    CHART_CHARTS,  CHART_STATES, CHART_TRANSITIONS, CHART_REGIONS, CHART_ENTRIES, CHART_INVOKES,      CHART_DATA,
    CHART_PARAMETERS, CHART_MEMBERS, CHART_OPENED,  CHART_OPENED,  CHART_OPEN_REGIONS, CHART_CHARGE,
};

#define COUNTED(c, n)                                                                                              \
    (c)->chart, (n)[0], (c)->states, (n)[1], (c)->transitions, (n)[2], (c)->regions, (n)[3], (c)->entries, (n)[4], \
    (c)->invokes, (n)[5], (c)->data, (n)[6], (c)->parameters, (n)[7], (c)->members, (n)[8], (c)->opened, (n)[9],   \
    (c)->open_names, (n)[10], (c)->open_regions, (n)[11], (c)->text, (n)[12]

static void lend(const size_t *counts, uint32_t number) {
    const struct chart *seen = &chart;
    const uint8_t *event = bytes(STATE_A);
    struct chart_answer answer = chart_event(COUNTED(&chart, counts), chart.position, event, strlen(STATE_A));
    struct chart_streamed streamed = chart_stream(COUNTED(&chart, counts), chart.position, event, strlen(STATE_A));
    CHECK(answer.number == number && streamed.number == number && streamed.event == 1);
    CHECK(memcmp(&answer.position, &before.position, sizeof answer.position) == 0);
    CHECK(memcmp(&streamed.position, &before.position, sizeof answer.position) == 0);
    memset(row, 0xee, sizeof row);
    CHECK(chart_read_row(COUNTED(seen, counts), chart.position, CHART_STATE, 1, row, sizeof row) == number);
    CHECK(all_zeros(row, sizeof row));
    CHECK(unchanged());
}

static void short_slices(void) {
    size_t counts[13];
    clear(&chart);
    CHECK(feed(SCXML) == CHART_ACCEPTED);
    keep();
    for (size_t i = 0; i < 13; i++) {
        memcpy(counts, limits, sizeof counts);
        counts[i]--;
        lend(counts, CHART_TOO_SHORT);
    }
}

/* ---- question 2: rows that do not keep the rules */

static void corrupted(uint32_t *number, uint32_t wrong) {
    uint32_t right = *number;
    *number = wrong;
    keep();
    lend(limits, CHART_OUT_OF_ORDER);
    CHECK(feed(STATE_A) == CHART_OUT_OF_ORDER && unchanged());
    CHECK(read_row(CHART_STATE, 1) == CHART_OUT_OF_ORDER && all_zeros(row, sizeof row));
    *number = right;
}

static void corrupted_rows(void) {
    clear(&chart);
    CHECK(feed_all(SCXML OPEN_A "event=empty\nname=transition\nkey=target\nvalue=b\n", NULL) == CHART_ACCEPTED);
    corrupted(&chart.transitions[0][CHART_TRANSITION_SOURCE], 9);
    corrupted(&chart.transitions[0][CHART_TRANSITION_SOURCE], 0);
    corrupted(&chart.states[1][CHART_STATE_NAME], CHART_CHARGE);
    corrupted(&chart.states[1][CHART_STATE_PARENT], 4);
    corrupted(&chart.states[1][CHART_STATE_EXPR + 2], 1);
    corrupted(&chart.members[0][CHART_MEMBER_VALUE], 0);
    corrupted(&chart.opened[1][0], 99);
    corrupted(&chart.position.states, CHART_STATES + 1);
    corrupted(&chart.position.ids, 0);
    corrupted(&chart.position.charge, 0);
    keep();
    CHECK(read_row(CHART_STATE, 1) == CHART_ACCEPTED && unchanged());
}

/* ---- question 16 */

static void no_such_row(uint32_t kind, uint32_t number) {
    CHECK(read_row(kind, number) == CHART_NO_ROW);
    CHECK(all_zeros(row, sizeof row));
}

static void rows_that_are_not_there(void) {
    clear(&chart);
    keep();
    for (uint32_t kind = CHART_CHART; kind <= CHART_MEMBER + 1; kind++)
        no_such_row(kind, 1);
    CHECK(feed_all(SCXML STATE_A END_SCXML, NULL) == CHART_ACCEPTED);
    keep();
    no_such_row(CHART_CHART, 2);
    no_such_row(CHART_STATE, 0);
    no_such_row(CHART_STATE, 3);
    no_such_row(CHART_STATE, UINT32_MAX);
    no_such_row(CHART_TRANSITION, 2);
    no_such_row(CHART_MEMBER + 1, 1);
    CHECK(unchanged());
}

/* Too short a buffer is left as it was. */
static void short_buffer(void) {
    memset(row, 0xee, sizeof row);
    CHECK(chart_read_row(CHART_LENT((const struct chart *)&chart), chart.position, CHART_STATE, 1, row, CHART_ROW_BYTES - 1) ==
          CHART_TOO_SHORT);
    CHECK(row[0] == 0xee && memcmp(row, row + 1, sizeof row - 1) == 0);
}

/* ---- rows with actions, texts and lists */

#define ACTIONS                                                                                                              \
    SCXML OPEN_A "event=open\nname=transition\nkey=event\nvalue=lamp.* door\nkey=cond\nvalue=x < 3\nkey=target\nvalue=b a\n" \
    "event=empty\nname=send\nkey=event\nvalue=go\nkey=namelist\nvalue=p q\n"                                                 \
    "event=open\nname=if\nkey=cond\nvalue=c\nevent=whole\nname=script\ntext= one\\ntwo \nevent=end\nname=if\n"               \
    "event=end\nname=transition\n"

static void transition_with_actions(void) {
    CHECK(read_row(CHART_TRANSITION, 1) == CHART_ACCEPTED);
    CHECK(text_is(CHART_TRANSITION_COND, "x < 3"));
    CHECK(chart_column(row, CHART_TRANSITION_CONTENT) == 2);
    CHECK(list_is(CHART_TARGETS, 1, (const uint32_t[]){3, 2, 0}));
    CHECK(list_is(CHART_STATE_TRANSITIONS, 2, (const uint32_t[]){1, 0}));
    uint32_t word = chart_next_member(&chart, CHART_EVENT_WORDS, 1, 0);
    CHECK(read_row(CHART_MEMBER, word) == CHART_ACCEPTED && text_is(CHART_MEMBER_WORD, "lamp"));
    word = chart_next_member(&chart, CHART_EVENT_WORDS, 1, word);
    CHECK(read_row(CHART_MEMBER, word) == CHART_ACCEPTED && text_is(CHART_MEMBER_WORD, "door"));
    CHECK(chart_next_member(&chart, CHART_EVENT_WORDS, 1, word) == 0);
}

static void entries_of_regions(void) {
    CHECK(chart_region_number(&chart, 1) == 2 && chart_region_number(&chart, 2) == 3 && chart_region_number(&chart, 3) == 0);
    uint32_t send = chart_next_entry(&chart, 2, 0);
    CHECK(read_row(CHART_ENTRY, send) == CHART_ACCEPTED);
    CHECK(chart_column(row, CHART_ENTRY_KIND) == CHART_SEND && text_is(CHART_ENTRY_EVENT, "go"));
    CHECK(chart_column(row, CHART_ENTRY_STATE) == 2 && text_is(CHART_ENTRY_STATE_NAME, "a"));
    CHECK(chart_next_member(&chart, CHART_SEND_NAMELIST, send, 0) != 0);
    uint32_t branch = chart_next_entry(&chart, 2, send);
    CHECK(read_row(CHART_ENTRY, branch) == CHART_ACCEPTED);
    CHECK(chart_column(row, CHART_ENTRY_KIND) == CHART_IF && text_is(CHART_ENTRY_COND, "c"));
    CHECK(chart_column(row, CHART_ENTRY_CONTENT) == 3 && chart_column(row, CHART_ENTRY_ELSE) == 0);
    CHECK(chart_next_entry(&chart, 2, branch) == 0);
    uint32_t script = chart_next_entry(&chart, 3, 0);
    CHECK(read_row(CHART_ENTRY, script) == CHART_ACCEPTED);
    CHECK(chart_column(row, CHART_ENTRY_KIND) == CHART_SCRIPT && text_is(CHART_ENTRY_TEXT, "one\ntwo"));
}

static void rows_with_actions(void) {
    clear(&chart);
    CHECK(feed_all(ACTIONS, NULL) == CHART_ACCEPTED);
    transition_with_actions();
    entries_of_regions();
}

/* ---- words for numbers, and the header's own promises */

static void words(void) {
    for (uint32_t number = CHART_ACCEPTED; number <= CHART_NO_ROW; number++)
        CHECK(strlen(chart_question(number)) > 10 && strcmp(chart_question(number), chart_question(number + 1)) != 0);
    CHECK(strcmp(chart_question(17), chart_question(UINT32_MAX)) == 0);
    CHECK(sizeof(struct chart) == 683168);
    CHECK(chart_column((const uint8_t[]){9, 9, 9, 9, 4, 3, 2, 1}, 1) == 0x01020304);
}

int main(void) {
    events_one_by_one();
    streams();
    every_refusal();
    edges();
    short_slices();
    corrupted_rows();
    rows_that_are_not_there();
    short_buffer();
    rows_with_actions();
    words();
    printf("the chart reader from C: %u checks\n", checks);
    return 0;
}
