/*
 * The chart reader for C.
 *
 * A chart says what a lamp, a fan or a dowser does on which event. The reader is fed a chart's elements one at a time, as
 * event lines, and builds tables of states, transitions and regions (blocks of actions) in memory that you lend. It
 * answers each event with a number: 0, or the first question that the event fails, and then nothing has changed. It keeps
 * nothing between two calls, allocates nothing, calls nothing but memcpy and memset, and takes some 30 KB of stack.
 *
 * All that it needs is one struct. Zeros are the empty chart, so a static one is ready for the first event:
 *
 *     #include "chartreader.h"
 *     #include <stdio.h>
 *     #include <string.h>
 *
 *     static struct chart lamp;          // 683,168 bytes: too much for most stacks
 *
 *     int main(void) {
 *         static const char lines[] =
 *             "event=open\nname=scxml\n"
 *             "event=empty\nname=state\nkey=id\nvalue=off\n"
 *             "event=end\nname=scxml\n";
 *         size_t event;
 *         uint32_t number = chart_feed_stream(&lamp, (const uint8_t *)lines, strlen(lines), &event);
 *         if (number != CHART_ACCEPTED) {
 *             fprintf(stderr, "event %zu: %u: %s\n", event, (unsigned)number, chart_question(number));
 *             return 1;
 *         }
 *         for (uint32_t state = 1; state <= lamp.position.states; state++) {
 *             uint8_t row[CHART_ROW_BYTES];
 *             size_t length;
 *             if (chart_row(&lamp, CHART_STATE, state, row) != CHART_ACCEPTED)
 *                 return 1;
 *             const uint8_t *name = chart_text(&lamp, row, CHART_STATE_NAME, &length);
 *             printf("state %u: %.*s, below %u\n", (unsigned)state, (int)length, (const char *)name,
 *                    (unsigned)chart_column(row, CHART_STATE_PARENT));
 *         }
 *         return 0;
 *     }
 *
 * It prints
 *
 *     state 1: __id1, below 0
 *     state 2: off, below 1
 *
 * and is compiled, where target/staticlib/libreader.a was written by host/library.sh, by
 *
 *     cc -std=c99 -Iinclude lamp.c target/staticlib/libreader.a
 *
 * Numbers. States have the numbers 1, 2, .. to position.states. Transitions and regions keep a number of their own, drawn
 * from one counter: chart_transition_number and chart_region_number give it by place. All other rows are numbered by
 * creation from 1. Wherever a row holds the number of another row, 0 is none.
 *
 * Lists. Children, targets, event words and so on are the members of one list and owner, in order of creation:
 *
 *     uint32_t m = 0;
 *     while ((m = chart_next_member(&lamp, CHART_CHILDREN, 1, m)) != 0)
 *         printf("child %u\n", (unsigned)lamp.members[m - 1][CHART_MEMBER_VALUE]);
 *
 * A region's entries are those that name it (chart_next_entry), an if's branches are regions.
 *
 * Rows. chart_row asks whether all lent rows keep the chart rules before it gives one; this takes up to a quarter of a
 * millisecond on full tables. A program that knows its struct untouched may read its tables at once: the columns are the
 * same, but for the name of the state that a send or an invoke keeps, which only a row that was read shows, and for
 * parameters that have left the chart, which chart_row refuses with 16.
 *
 * Charts in other memory: chart_event, chart_stream and chart_read_row take each table as a pointer and a number of rows.
 */
#ifndef CHARTREADER_H
#define CHARTREADER_H

#include <stddef.h>
#include <stdint.h>

#ifdef __cplusplus
extern "C" {
#endif

/* ---- limits */

/* Rows of each table. */
#define CHART_CHARTS 1
#define CHART_STATES 256
#define CHART_TRANSITIONS 512
#define CHART_REGIONS 512
#define CHART_ENTRIES 2048
#define CHART_INVOKES 64
#define CHART_DATA 256
#define CHART_PARAMETERS 512
#define CHART_MEMBERS 4096
#define CHART_OPENED 32
#define CHART_OPEN_REGIONS 64

/* The text charge: over accepted events, the lengths of all values, texts and generated names. */
#define CHART_CHARGE 65535
/* Numbers drawn from each counter. */
#define CHART_DRAWN 65535

/* Of one event, counted unescaped; an event's lines together as they stand. */
#define CHART_NAME_BYTES 64
#define CHART_ATTRIBUTES 16
#define CHART_KEY_BYTES 64
#define CHART_VALUE_BYTES 1024
#define CHART_TEXT_BYTES 4096
#define CHART_EVENT_BYTES 49152

/* Numbers in a row of each width, and in a row as it is read. */
#define CHART_NARROW 8
#define CHART_MIDDLE 24
#define CHART_WIDE 48
#define CHART_ROW_COLUMNS 50
#define CHART_ROW_BYTES 200

/* ---- answers: each number is the question that was answered no */

enum chart_number {
    CHART_ACCEPTED = 0,      /* all yes */
    CHART_TOO_SHORT = 1,     /* Are the lent slices long enough for every limit? */
    CHART_OUT_OF_ORDER = 2,  /* Do the lent rows and the position keep the chart rules? */
    CHART_NOT_IN_FORM = 3,   /* Is the event in form and within its own limits, bytes up to 127? */
    CHART_REPEATED_KEY = 4,  /* Are its keys different? */
    CHART_WRONG_END = 5,     /* For end: is it the innermost open name? */
    CHART_LEFT_OUT = 6,      /* Is it neither include, nor data or script with src, nor send with delay? */
    CHART_TOO_DEEP = 7,      /* Are fewer than 32 open? */
    CHART_WRONG_PARENT = 8,  /* Is the parent allowed? */
    CHART_SECOND_SCXML = 9,  /* Is an scxml the first? */
    CHART_MISSING = 10,      /* Are required attributes there? */
    CHART_TOGETHER = 11,     /* Are attributes and texts apart that exclude each other? */
    CHART_UNKNOWN_WORD = 12, /* Are binding, history type, transition type words that are known? */
    CHART_INITIAL_SET = 13,  /* For initial, and a transition in it: is the state's initial 0? */
    CHART_NO_IF = 14,        /* Does the else walk meet an if in every region? */
    CHART_FULL = 15,         /* Would the chart stay within the limits? */
    CHART_NO_ROW = 16        /* For reading a row by id: does the row exist? */
};

/* ---- kinds of row, as chart_row takes them */

enum chart_kind {
    CHART_CHART = 0, /* one row, number 1; it exists from the first scxml on */
    CHART_STATE = 1,
    CHART_TRANSITION = 2,
    CHART_REGION = 3,
    CHART_ENTRY = 4,
    CHART_INVOKE = 5,
    CHART_DATUM = 6,
    CHART_PARAMETER = 7,
    CHART_MEMBER = 8
};

/*
 * ---- columns of each kind of row
 *
 * A column marked T is a text: where it begins in the chart's text, plus one, and in the next column its length; 0 and 0
 * where it is absent. chart_text gives its bytes.
 */

enum chart_chart_column {
    CHART_CHART_ROOT = 0,      /* a state */
    CHART_CHART_SCRIPT = 1,    /* a region */
    CHART_CHART_BINDING = 2,   /* enum chart_binding */
    CHART_CHART_NAME = 3,      /* T */
    CHART_CHART_DATAMODEL = 5, /* T */
    CHART_CHART_VERSION = 7    /* T */
};

enum chart_state_column {
    CHART_STATE_NAME = 0,        /* T */
    CHART_STATE_DOC = 2,         /* the doc id; 0: no element has declared the state */
    CHART_STATE_INITIAL = 3,     /* a transition */
    CHART_STATE_PARENT = 4,      /* a state */
    CHART_STATE_PARALLEL = 5,    /* 0 or 1 */
    CHART_STATE_FINAL = 6,       /* 0 or 1 */
    CHART_STATE_HISTORY = 7,     /* enum chart_history */
    CHART_STATE_DONEDATA = 8,    /* 0 without one; else its parameters are those from this number on */
    CHART_STATE_HAS_CONTENT = 9, /* 1: its donedata has a content, by the two texts that follow */
    CHART_STATE_TEXT = 10,       /* T */
    CHART_STATE_EXPR = 12        /* T */
};

enum chart_transition_column {
    CHART_TRANSITION_NUMBER = 0,
    CHART_TRANSITION_DOC = 1,      /* 0: made for a state without initial */
    CHART_TRANSITION_SOURCE = 2,   /* a state */
    CHART_TRANSITION_TYPE = 3,     /* enum chart_type */
    CHART_TRANSITION_WILDCARD = 4, /* 1: one of its event words is * */
    CHART_TRANSITION_CONTENT = 5,  /* a region */
    CHART_TRANSITION_COND = 6      /* T */
};

enum chart_region_column { CHART_REGION_NUMBER = 0 };

enum chart_entry_column {
    CHART_ENTRY_REGION = 0,      /* the region that holds it */
    CHART_ENTRY_KIND = 1,        /* enum chart_entry_kind */
    CHART_ENTRY_STATE = 2,       /* send: the state around it */
    CHART_ENTRY_CONTENT = 3,     /* if, foreach: the region of what it does */
    CHART_ENTRY_ELSE = 4,        /* if: the region of its else; of an elseif, it holds one more if */
    CHART_ENTRY_HAS_CONTENT = 5, /* send: 1 with a content, by its text and expr */
    CHART_ENTRY_COND = 6,        /* T, as all that follow; each has the name of its attribute */
    CHART_ENTRY_ARRAY = 8,
    CHART_ENTRY_EXPR = 10,
    CHART_ENTRY_EVENT = 12,
    CHART_ENTRY_EVENTEXPR = 14,
    CHART_ENTRY_TARGET = 16,
    CHART_ENTRY_TARGETEXPR = 18,
    CHART_ENTRY_TYPE = 20,
    CHART_ENTRY_TYPEEXPR = 22,
    CHART_ENTRY_ID = 24,
    CHART_ENTRY_IDLOCATION = 26,
    CHART_ENTRY_DELAYEXPR = 28,
    CHART_ENTRY_SENDID = 30,
    CHART_ENTRY_SENDIDEXPR = 32,
    CHART_ENTRY_LOCATION = 34,
    CHART_ENTRY_LABEL = 36,
    CHART_ENTRY_ITEM = 38,
    CHART_ENTRY_INDEX = 40,
    CHART_ENTRY_TEXT = 42,      /* a script's or content's text; an assign's, in quotes, in place of expr */
    CHART_ENTRY_STATE_NAME = 48 /* T, only in a row that was read: the name of CHART_ENTRY_STATE */
};

enum chart_invoke_column {
    CHART_INVOKE_STATE = 0,       /* the state that invokes */
    CHART_INVOKE_AUTOFORWARD = 1, /* 0 or 1 */
    CHART_INVOKE_FINALIZE = 2,    /* a region */
    CHART_INVOKE_HAS_CONTENT = 3, /* 1 with a content, by its text and expr */
    CHART_INVOKE_TYPE = 4,        /* T, as all that follow */
    CHART_INVOKE_TYPEEXPR = 6,
    CHART_INVOKE_SRC = 8,
    CHART_INVOKE_SRCEXPR = 10,
    CHART_INVOKE_ID = 12,
    CHART_INVOKE_IDLOCATION = 14,
    CHART_INVOKE_TEXT = 16,
    CHART_INVOKE_EXPR = 18,
    CHART_INVOKE_STATE_NAME = 48 /* T, only in a row that was read: the name of CHART_INVOKE_STATE */
};

/* A value stands in one of the two columns expr and text. */
enum chart_datum_column {
    CHART_DATUM_STATE = 0, /* the state that holds it */
    CHART_DATUM_ID = 1,    /* T */
    CHART_DATUM_EXPR = 3,  /* T */
    CHART_DATUM_TEXT = 5   /* T */
};

enum chart_parameter_column {
    CHART_PARAMETER_KIND = 0,    /* enum chart_owner_kind */
    CHART_PARAMETER_OWNER = 1,   /* an entry, an invoke or a state, by the kind */
    CHART_PARAMETER_NAME = 2,    /* T */
    CHART_PARAMETER_EXPR = 4,    /* T */
    CHART_PARAMETER_LOCATION = 6 /* T */
};

enum chart_member_column {
    CHART_MEMBER_LIST = 0,  /* enum chart_list */
    CHART_MEMBER_OWNER = 1, /* a state, a transition, an entry or an invoke, by the list */
    CHART_MEMBER_VALUE = 2, /* a state, a region or a transition, by the list; 0 for a word */
    CHART_MEMBER_WORD = 3   /* T */
};

/* ---- codes in columns */

enum chart_binding { CHART_EARLY = 0, CHART_LATE = 1 };

enum chart_history { CHART_NO_HISTORY = 0, CHART_SHALLOW = 1, CHART_DEEP = 2 };

enum chart_type { CHART_EXTERNAL = 0, CHART_INTERNAL = 1 };

enum chart_entry_kind {
    CHART_IF = 1,
    CHART_SCRIPT = 2,
    CHART_LOG = 3,
    CHART_FOREACH = 4,
    CHART_SEND = 5,
    CHART_RAISE = 6,
    CHART_CANCEL = 7,
    CHART_ASSIGN = 8
};

/* Whose parameter it is. */
enum chart_owner_kind {
    CHART_OF_SEND = 1,    /* an entry's */
    CHART_OF_INVOKE = 2,  /* an invoke's */
    CHART_OF_DONEDATA = 3 /* a state's */
};

enum chart_list {
    CHART_CHILDREN = 1,          /* of a state: states */
    CHART_HISTORIES = 2,         /* of a state: states */
    CHART_ONENTRY = 3,           /* of a state: regions */
    CHART_ONEXIT = 4,            /* of a state: regions */
    CHART_STATE_TRANSITIONS = 5, /* of a state: transitions */
    CHART_TARGETS = 6,           /* of a transition: states */
    CHART_EVENT_WORDS = 7,       /* of a transition: words */
    CHART_SEND_NAMELIST = 8,     /* of an entry: words */
    CHART_INVOKE_NAMELIST = 9    /* of an invoke: words */
};

/* ---- what is lent */

/* The reading position: rows in use of each table, the current region, what was drawn from each counter, the text. */
struct chart_position {
    uint32_t opened;
    uint32_t states;
    uint32_t transitions;
    uint32_t regions;
    uint32_t entries;
    uint32_t invokes;
    uint32_t data;
    uint32_t parameters;
    uint32_t members;
    uint32_t open_regions;
    uint32_t current;
    uint32_t ids;
    uint32_t docs;
    uint32_t names;
    uint32_t used;
    uint32_t charge;
};

struct chart_answer {
    uint32_t number;
    struct chart_position position;
};

/* `event` is the refused event's place from 1; 0 where all were accepted. */
struct chart_streamed {
    uint32_t number;
    size_t event;
    struct chart_position position;
};

/* A whole chart. Zeros are the empty one. The text has one byte more than it needs, so that no byte of the struct is
 * padding and memcmp compares charts. */
struct chart {
    struct chart_position position;
    uint32_t chart[CHART_CHARTS][CHART_MIDDLE];
    uint32_t states[CHART_STATES][CHART_MIDDLE];
    uint32_t transitions[CHART_TRANSITIONS][CHART_NARROW];
    uint32_t regions[CHART_REGIONS][CHART_NARROW];
    uint32_t entries[CHART_ENTRIES][CHART_WIDE];
    uint32_t invokes[CHART_INVOKES][CHART_MIDDLE];
    uint32_t data[CHART_DATA][CHART_NARROW];
    uint32_t parameters[CHART_PARAMETERS][CHART_NARROW];
    uint32_t members[CHART_MEMBERS][CHART_NARROW];
    uint32_t opened[CHART_OPENED][CHART_NARROW];
    uint8_t open_names[CHART_OPENED][CHART_NAME_BYTES];
    uint32_t open_regions[CHART_OPEN_REGIONS][CHART_NARROW];
    uint8_t text[CHART_CHARGE + 1];
};

/* ---- the library's functions: each slice is a pointer and its number of rows (of bytes for text, event and row) */

#define CHART_SLICES(access)                                               \
    access uint32_t(*chart)[CHART_MIDDLE], size_t chart_rows,              \
    access uint32_t(*states)[CHART_MIDDLE], size_t state_rows,             \
    access uint32_t(*transitions)[CHART_NARROW], size_t transition_rows,   \
    access uint32_t(*regions)[CHART_NARROW], size_t region_rows,           \
    access uint32_t(*entries)[CHART_WIDE], size_t entry_rows,              \
    access uint32_t(*invokes)[CHART_MIDDLE], size_t invoke_rows,           \
    access uint32_t(*data)[CHART_NARROW], size_t data_rows,                \
    access uint32_t(*parameters)[CHART_NARROW], size_t parameter_rows,     \
    access uint32_t(*members)[CHART_NARROW], size_t member_rows,           \
    access uint32_t(*opened)[CHART_NARROW], size_t opened_rows,            \
    access uint8_t(*open_names)[CHART_NAME_BYTES], size_t open_name_rows,  \
    access uint32_t(*open_regions)[CHART_NARROW], size_t open_region_rows, \
    access uint8_t *text, size_t text_bytes

/* One event. A number other than 0 has changed nothing, and gives the position back as it was. */
struct chart_answer chart_event(CHART_SLICES(), struct chart_position position, const uint8_t *event, size_t event_bytes);

/* Many events, one behind the other, up to the first refusal; what was accepted before it stays. */
struct chart_streamed chart_stream(CHART_SLICES(), struct chart_position position, const uint8_t *events,
                                   size_t events_bytes);

/* A row by kind and number into 200 bytes: 0, or 1, 2 or 16 and a row of zeros. A shorter buffer gets 1 and stays. */
uint32_t chart_read_row(CHART_SLICES(const), struct chart_position position, uint32_t kind, uint32_t number, uint8_t *row,
                        size_t row_bytes);

/* ---- a whole chart */

/* The tables of a struct chart as slices. */
#define CHART_LENT(c)                                                                                           \
    (c)->chart, CHART_CHARTS, (c)->states, CHART_STATES, (c)->transitions, CHART_TRANSITIONS, (c)->regions,     \
    CHART_REGIONS, (c)->entries, CHART_ENTRIES, (c)->invokes, CHART_INVOKES, (c)->data, CHART_DATA,             \
    (c)->parameters, CHART_PARAMETERS, (c)->members, CHART_MEMBERS, (c)->opened, CHART_OPENED, (c)->open_names, \
    CHART_OPENED, (c)->open_regions, CHART_OPEN_REGIONS, (c)->text, CHART_CHARGE

/* One event's lines into the chart: its number. Where it is not 0 the chart is as it was. */
static inline uint32_t chart_feed(struct chart *c, const uint8_t *event, size_t bytes) {
    struct chart_answer answer = chart_event(CHART_LENT(c), c->position, event, bytes);
    c->position = answer.position;
    return answer.number;
}

/* A stream of events into the chart: the first number that is not 0, or 0. The refused event's place from 1 comes by
 * `event`, which may be NULL; the events before it are in the chart. */
static inline uint32_t chart_feed_stream(struct chart *c, const uint8_t *events, size_t bytes, size_t *event) {
    struct chart_streamed answer = chart_stream(CHART_LENT(c), c->position, events, bytes);
    c->position = answer.position;
    if (event != NULL)
        *event = answer.event;
    return answer.number;
}

/* A row by kind and number: 0, or 2 or 16 and a row of zeros. */
static inline uint32_t chart_row(const struct chart *c, uint32_t kind, uint32_t number, uint8_t row[CHART_ROW_BYTES]) {
    return chart_read_row(CHART_LENT(c), c->position, kind, number, row, CHART_ROW_BYTES);
}

/* A column of a row as it was read: lowest byte first. */
static inline uint32_t chart_column(const uint8_t *row, size_t column) {
    const uint8_t *b = row + 4 * column;
    return (uint32_t)b[0] | (uint32_t)b[1] << 8 | (uint32_t)b[2] << 16 | (uint32_t)b[3] << 24;
}

/* A text in a column of a row as it was read: its bytes, not ended by 0, and their number; NULL and 0 where it is absent. */
static inline const uint8_t *chart_text(const struct chart *c, const uint8_t *row, size_t column, size_t *length) {
    uint32_t at = chart_column(row, column);
    uint32_t bytes = chart_column(row, column + 1);
    *length = 0;
    if (at == 0 || at - 1 > CHART_CHARGE || bytes > CHART_CHARGE - (at - 1))
        return NULL;
    *length = bytes;
    return c->text + (at - 1);
}

/* The number of the transition, or region, that stands at a place from 1; 0 past the last. */
static inline uint32_t chart_transition_number(const struct chart *c, uint32_t place) {
    if (place == 0 || place > c->position.transitions || place > CHART_TRANSITIONS)
        return 0;
    return c->transitions[place - 1][CHART_TRANSITION_NUMBER];
}

static inline uint32_t chart_region_number(const struct chart *c, uint32_t place) {
    if (place == 0 || place > c->position.regions || place > CHART_REGIONS)
        return 0;
    return c->regions[place - 1][CHART_REGION_NUMBER];
}

/* The number of the next member of an owner's list after a member, the first after 0; 0 where there is none. */
static inline uint32_t chart_next_member(const struct chart *c, uint32_t list, uint32_t owner, uint32_t after) {
    for (uint32_t m = after; m < c->position.members && m < CHART_MEMBERS; m++)
        if (c->members[m][CHART_MEMBER_LIST] == list && c->members[m][CHART_MEMBER_OWNER] == owner)
            return m + 1;
    return 0;
}

/* The number of the next entry of a region after an entry, the first after 0; 0 where there is none. */
static inline uint32_t chart_next_entry(const struct chart *c, uint32_t region, uint32_t after) {
    for (uint32_t e = after; e < c->position.entries && e < CHART_ENTRIES; e++)
        if (c->entries[e][CHART_ENTRY_REGION] == region)
            return e + 1;
    return 0;
}

/* The question that a number stands for, in words. */
static inline const char *chart_question(uint32_t number) {
    static const char *const questions[] = {
        "All questions were answered yes.",
        "Are the lent slices long enough for every limit?",
        "Do the lent rows and the reading position keep the chart rules and the limits?",
        "Is the event in form and within its own limits, bytes up to 127?",
        "Are its keys different?",
        "Does the end close the innermost open element?",
        "Is it neither include, nor data or script with src, nor send with delay?",
        "Are fewer than 32 elements open?",
        "Is the parent allowed?",
        "Is this scxml the first?",
        "Are the required attributes there?",
        "Are attributes and texts that exclude each other apart?",
        "Are binding, history type and transition type words that are known?",
        "Is the state without an initial transition so far?",
        "Does the else walk meet an if in every region?",
        "Would the chart stay within the limits?",
        "Does the row exist?",
    };
    if (number >= sizeof questions / sizeof questions[0])
        return "There is no such number.";
    return questions[number];
}

#ifdef __cplusplus
}
#endif

#endif
