/* Reads and checks every word that rufflesquash.h documents, from C: of settings, answers, events, metrics, parts and rows, on inputs whose
 * numbers differ from word to word, so that two words that change places are seen; and runs, cells, readers and queries, which are opaque, by
 * their calls. The expected numbers are read off the header and the PostgreSQL documentation. host/test builds and runs it; it prints what differs, and its last line is how many
 * checks were made. */
#include "rufflesquash.h"
#include <inttypes.h>
#include <stdio.h>
#include <string.h>

#define R(name) RUFFLESQUASH_##name
#define LEN(array) (sizeof(array) / sizeof *(array))

static unsigned checks, wrong;

static void same_at(int line, const char *what, uint64_t actual, uint64_t expected) {
    checks++;
    if (actual != expected) {
        wrong++;
        printf("words.c:%d: %s is %" PRIu64 " (%" PRIX64 "), not %" PRIu64 " (%" PRIX64 ")\n", line, what, actual, actual, expected, expected);
    }
}

static void bytes_at(int line, const char *what, const void *actual, const void *expected, size_t len) {
    checks++;
    if (len != 0 && memcmp(actual, expected, len) != 0) {
        wrong++;
        printf("words.c:%d: the bytes of %s differ\n", line, what);
    }
}

#define SAME(actual, expected) same_at(__LINE__, #actual, (uint64_t)(actual), (uint64_t)(expected))
#define BYTES(actual, expected, len) bytes_at(__LINE__, #actual, actual, expected, len)
/* All words of an answer. */
#define WORDS(actual, ...) words_at(__LINE__, #actual, actual, LEN(actual), (const uint64_t[]){__VA_ARGS__}, LEN(((const uint64_t[]){__VA_ARGS__})))

/* Words that are not named are 0. */
static void words_at(int line, const char *what, const uint64_t *actual, size_t len, const uint64_t *expected, size_t named) {
    for (size_t i = 0; i < len || i < named; i++) {
        char name[64];
        snprintf(name, sizeof name, "%s[%zu]", what, i);
        same_at(line, name, i < len ? actual[i] : 0, i < named ? expected[i] : 0);
    }
}

/* ---- bytes of a server */

struct text {
    uint8_t at[512];
    size_t len;
};

static void put(struct text *t, const void *bytes, size_t len) {
    memcpy(t->at + t->len, bytes, len);
    t->len += len;
}

static void put_number(struct text *t, uint64_t n, int bytes) {
    while (bytes-- > 0) t->at[t->len++] = (uint8_t)(n >> (8 * bytes));
}

static void put_message(struct text *t, char tag, const struct text *body) {
    put(t, &tag, 1);
    put_number(t, body->len + 4, 4);
    put(t, body->at, body->len);
}

/* CopyData with XLogData around the plugin's data. */
static struct text xlog_data(uint64_t start, uint64_t end, int64_t time, const struct text *data) {
    struct text body = {.len = 0}, message = {.len = 0};
    put(&body, "w", 1);
    put_number(&body, start, 8);
    put_number(&body, end, 8);
    put_number(&body, (uint64_t)time, 8);
    put(&body, data->at, data->len);
    put_message(&message, 'd', &body);
    return message;
}

static struct text keepalive(uint64_t end, int64_t time, uint8_t reply) {
    struct text body = {.len = 0}, message = {.len = 0};
    put(&body, "k", 1);
    put_number(&body, end, 8);
    put_number(&body, (uint64_t)time, 8);
    put_number(&body, reply, 1);
    put_message(&message, 'd', &body);
    return message;
}

static struct text status(uint64_t position, int64_t time, uint8_t reply) {
    struct text body = {.len = 0}, message = {.len = 0};
    put(&body, "r", 1);
    for (int i = 0; i < 3; i++) put_number(&body, position, 8);
    put_number(&body, (uint64_t)time, 8);
    put_number(&body, reply, 1);
    put_message(&message, 'd', &body);
    return message;
}

static struct text plain(char tag, const char *payload, size_t len) {
    struct text body = {.len = 0}, message = {.len = 0};
    put(&body, payload, len);
    put_message(&message, tag, &body);
    return message;
}

static struct text at_the_stop(void) {
    struct text data = {.len = 0};
    put(&data, "Insert", 6);
    return xlog_data(0x800000009, 0x90000000A, 5, &data);
}

/* ---- a run that is fed */

#define MS 1000000u
#define LIMIT 200
#define FILL 0xAA
#define CLIENT_TIME (-9)

static const uint64_t settings[R(SETTINGS_WORDS)] = {
    [R(SETTINGS_STATUS_INTERVAL_NANOS)] = 10 * MS,
    [R(SETTINGS_IDLE_WAKEUP_INTERVAL_NANOS)] = 30 * MS,
    [R(SETTINGS_MAX_MESSAGE_BYTES)] = LIMIT,
    [R(SETTINGS_HAS_STOP)] = 1,
    [R(SETTINGS_STOP_AT_LSN)] = 0x900000009,
    [R(SETTINGS_TIMING)] = 1,
    [R(SETTINGS_BINARY)] = 1,
};

static uint64_t run[R(RUN_WORDS)], answer[R(ANSWER_WORDS)];
static uint8_t payload[LIMIT + 8], out[64];
/* What the page is to show as the server's end beside its other readers. */
static uint64_t moment, queue, server;
static bool stop, ended;

/* A counter of the run, and a word of its last status. */
static uint64_t metric(size_t at) {
    uint64_t metrics[R(METRICS_WORDS)];
    rufflesquash_metrics(run, metrics);
    return metrics[at];
}

static uint64_t last_sent(size_t at) {
    uint64_t last[R(STATUS_WORDS)];
    rufflesquash_last_sent(run, last);
    return last[at];
}

/* A position's text. */
static const char *shown(uint64_t position, char text[24]) {
    snprintf(text, 24, "%" PRIX64 "/%" PRIX64, position >> 32, position & 0xFFFFFFFF);
    return text;
}

/* The service page shows what the other calls tell; an output a byte short gets 4 and nothing. */
static void same_page(void) {
    static const char *const states[] = {"OPENING", "TURN", "DRAIN", "READING", "WAITING", "HANDLING", "OFFERING", "ENDED"};
    char page[199], position[24], sent[24], end[24];
    uint8_t room[202];
    uint64_t n = 7;
    snprintf(page, sizeof page, "%-12s%20s\n%-12s%20s\n%-12s%20s\n%-12s%20" PRIu64 "\n%-12s%20" PRIu64 "\n%-12s%20s\n", "POSITION",
             shown(rufflesquash_position(run), position), "SENT", last_sent(R(STATUS_SENT)) ? shown(last_sent(R(STATUS_POSITION)), sent) : "-",
             "SERVER", shown(server, end), "EVENTS", metric(R(METRICS_EVENTS_FORWARDED)), "STALLS", metric(R(METRICS_STALL_COUNT)), "STATE",
             states[rufflesquash_state(run)]);
    memset(room, FILL, sizeof room);
    SAME(rufflesquash_page(run, room, 197, &n), 4);
    SAME(n, 0);
    for (size_t i = 0; i < sizeof room; i++) SAME(room[i], FILL);
    SAME(rufflesquash_page(run, room, 200, &n), 0);
    SAME(n, 198);
    BYTES(room, page, 198);
    for (size_t i = 198; i < sizeof room; i++) SAME(room[i], FILL);
}

/* One step or advance with these bytes, a microsecond later. */
static void call(bool several, const uint8_t *unread, size_t len) {
    moment += 1000;
    memset(out, FILL, sizeof out);
    memset(answer, FILL, sizeof answer);
    (several ? rufflesquash_advance : rufflesquash_step)(run, moment, CLIENT_TIME, stop, queue, ended, unread, len, payload, sizeof payload, out,
                                                         sizeof out, answer);
    for (size_t i = answer[R(ANSWER_WRITTEN)]; i < sizeof out; i++) SAME(out[i], FILL);
    SAME(rufflesquash_state(run) <= R(STATE_ENDED), 1);
    /* A message whose boundary is refused moves the counter and not the page. */
    if (answer[R(ANSWER_REFUSAL)] == 0) server = metric(R(METRICS_LAST_WAL_END));
    same_page();
}

static void step(const uint8_t *unread, size_t len) {
    call(false, unread, len);
}

static void begin_run(uint64_t start) {
    memset(run, FILL, sizeof run);
    memset(payload, FILL, sizeof payload);
    moment = 5 * MS, queue = R(QUEUE_FREE), stop = false, ended = false, server = 0;
    SAME(rufflesquash_already_open(settings, start, run), 0);
}

/* A run that has sent its first status and waits: its moment is that of the step that began the wait. */
static void begin_waiting(uint64_t start) {
    begin_run(start);
    step(NULL, 0);
    step(NULL, 0);
    SAME(rufflesquash_state(run), R(STATE_WAITING));
}

/* Steps over these bytes until an event, bytes to send or a refusal; how many bytes were taken. */
static size_t feed(const struct text *t) {
    size_t at = 0;
    for (int i = 0; i < 20; i++) {
        step(t->at + at, t->len - at);
        at += answer[R(ANSWER_TAKEN)];
        if (answer[R(ANSWER_REFUSAL)] != 0 || answer[R(ANSWER_EVENT)] != 0 || answer[R(ANSWER_WRITTEN)] != 0) break;
    }
    return at;
}

/* ---- runs */

static const struct rufflesquash_bytes names[] = {{(const uint8_t *)"a'b", 3}, {(const uint8_t *)"c", 1}};
static const char query[] =
    "START_REPLICATION SLOT slot LOGICAL 16/B374D848 (proto_version '1', publication_names 'a''b,c', messages 'true', binary 'true')";

/* A run of which no step was made. */
static void fresh_run(uint64_t state, uint64_t start) {
    SAME(rufflesquash_state(run), state);
    SAME(rufflesquash_position(run), start);
    for (size_t i = 0; i < R(METRICS_WORDS); i++) SAME(metric(i), 0);
    for (size_t i = 0; i < R(STATUS_WORDS); i++) SAME(last_sent(i), 0);
    for (uint64_t file = 0; file < R(FILES); file++) {
        SAME(rufflesquash_position(run), start);
        SAME(rufflesquash_report(run, file, start + 1, 1), 0);
    }
    SAME(rufflesquash_position(run), start + 1);
}

static void opening(void) {
    const struct text expected = plain('Q', query, sizeof query);
    uint8_t room[512];
    uint64_t written = 7;
    memset(run, FILL, sizeof run);
    memset(room, FILL, sizeof room);
    SAME(rufflesquash_open(settings, (const uint8_t *)"slot", 4, names, 2, 0x16B374D848, 0x77, run, room, sizeof room, &written), 0);
    SAME(written, expected.len);
    BYTES(room, expected.at, expected.len);
    SAME(room[written], FILL);
    fresh_run(R(STATE_OPENING), 0x77);
    SAME(rufflesquash_already_open(settings, 0x78, run), 0);
    fresh_run(R(STATE_TURN), 0x78);
}

/* Each flag by itself: binary is seen in the query, timing in the answer with a status, the stop position after an event. */
static void flags_of_settings(void) {
    const struct text expected = plain('Q', query, sizeof query), message = at_the_stop();
    uint8_t room[512];
    uint64_t written, flags[R(SETTINGS_WORDS)];
    memcpy(flags, settings, sizeof settings);
    flags[R(SETTINGS_BINARY)] = 0;
    SAME(rufflesquash_open(flags, (const uint8_t *)"slot", 4, names, 2, 0x16B374D848, 0x77, run, room, sizeof room, &written), 0);
    SAME(written, expected.len - 15);
    flags[R(SETTINGS_BINARY)] = 1, flags[R(SETTINGS_TIMING)] = 0, flags[R(SETTINGS_HAS_STOP)] = 0;
    SAME(rufflesquash_open(flags, (const uint8_t *)"slot", 4, names, 2, 0x16B374D848, 0x77, run, room, sizeof room, &written), 0);
    BYTES(room, expected.at, expected.len);
    begin_run(0x10);
    SAME(rufflesquash_already_open(flags, 0x10, run), 0);
    step(NULL, 0);
    step(NULL, 0);
    SAME(feed(&message), message.len);
    SAME(answer[R(ANSWER_EVENT)], R(EVENT_XLOG_DATA));
    SAME(rufflesquash_state(run), R(STATE_TURN));
    for (uint64_t file = 0; file < R(FILES); file++) SAME(rufflesquash_report(run, file, 0x44, moment), 0);
    moment += 10 * MS;
    step(NULL, 0);
    WORDS(answer, 0, 0, 39);
}

/* Refused, run and out are as they were and written is 0. */
static void refused_openings(void) {
    const struct text expected = plain('Q', query, sizeof query);
    uint8_t room[512];
    uint64_t written, before[R(RUN_WORDS)], long_interval[R(SETTINGS_WORDS)];
    memset(room, FILL, sizeof room);
    memcpy(before, run, sizeof run);
    memset(room, FILL, sizeof room);
    for (int i = R(SETTINGS_STATUS_INTERVAL_NANOS); i <= R(SETTINGS_IDLE_WAKEUP_INTERVAL_NANOS); i++) {
        memcpy(long_interval, settings, sizeof settings);
        long_interval[i] = UINT64_C(86400000000001);
        written = 7;
        SAME(rufflesquash_open(long_interval, (const uint8_t *)"slot", 4, names, 2, 1, 2, run, room, sizeof room, &written), 1);
        SAME(written, 0);
        SAME(rufflesquash_already_open(long_interval, 2, run), 1);
    }
    SAME(rufflesquash_open(settings, (const uint8_t *)"slot", 4, names, 2, 0x16B374D848, 2, run, room, expected.len - 1, &written), 4);
    SAME(written, 0);
    SAME(room[0], FILL);
    BYTES(run, before, sizeof run);
}

static void opening_is_skipped_and_accepted(void) {
    struct text bytes = plain('N', "notice", 6), accepted = plain('W', "\0\0\0", 3);
    uint64_t written;
    uint8_t room[512];
    moment = 5 * MS, queue = R(QUEUE_FREE), stop = false, ended = false, server = 0;
    SAME(rufflesquash_open(settings, NULL, 0, NULL, 0, 0, 0, run, room, sizeof room, &written), 0);
    uint64_t next[R(NEXT_WORDS)];
    rufflesquash_next_step(run, sizeof payload, R(QUEUE_FREE), next);
    WORDS(next, R(NEXT_ON_INPUT));
    step(bytes.at, bytes.len);
    WORDS(answer, 0, bytes.len);
    SAME(rufflesquash_state(run), R(STATE_OPENING));
    step(accepted.at, accepted.len);
    WORDS(answer, 0, accepted.len);
    SAME(rufflesquash_state(run), R(STATE_TURN));
}

/* The states in turn, and the first status. */
static void states(void) {
    uint64_t next[R(NEXT_WORDS)];
    begin_run(0x10);
    rufflesquash_next_step(run, sizeof payload, R(QUEUE_FREE), next);
    WORDS(next, R(NEXT_AT_ONCE));
    step(NULL, 0);
    const struct text first = status(0x10, CLIENT_TIME, 0);
    WORDS(answer, 0, 0, 39);
    BYTES(out, first.at, first.len);
    const uint64_t sent = moment;
    SAME(rufflesquash_state(run), R(STATE_DRAIN));
    SAME(last_sent(R(STATUS_SENT)), 1);
    SAME(last_sent(R(STATUS_POSITION)), 0x10);
    SAME(last_sent(R(STATUS_AT)), sent);
    SAME(metric(R(METRICS_LAST_APPLIED_LSN)), 0x10);
    step(NULL, 0);
    WORDS(answer, 0);
    SAME(rufflesquash_state(run), R(STATE_WAITING));
    rufflesquash_next_step(run, sizeof payload, R(QUEUE_FREE), next);
    WORDS(next, R(NEXT_FROM), moment + 30 * MS);
}

/* Reports, and the status that confirms the smallest; a lower report changes nothing, nor does one of no file. */
static void reports(void) {
    uint64_t next[R(NEXT_WORDS)], before[R(RUN_WORDS)];
    begin_waiting(0x10);
    const uint64_t sent = last_sent(R(STATUS_AT)), reported = moment + 5;
    SAME(rufflesquash_report(run, 1, 0x55, reported - 3), 0);
    SAME(rufflesquash_report(run, 3, 0x77, reported - 2), 0);
    SAME(rufflesquash_report(run, 0, 0x44, reported - 1), 0);
    SAME(rufflesquash_position(run), 0x10);
    SAME(rufflesquash_report(run, 2, 0x66, reported), 0);
    memcpy(before, run, sizeof run);
    SAME(rufflesquash_report(run, 2, 0x33, reported + 7), 0);
    SAME(rufflesquash_report(run, R(FILES), 0x99, reported + 7), 31);
    SAME(rufflesquash_report(run, UINT64_C(1) << 32, 0x99, reported + 7), 31);
    SAME(rufflesquash_report(run, UINT64_MAX, 0x99, reported + 7), 31);
    BYTES(run, before, sizeof run);
    SAME(rufflesquash_position(run), 0x44);
    /* Lower positions of all files change nothing; the answer is the smallest all the same. */
    const uint64_t lower[R(POSITIONS_WORDS)] = {0x43, 0x55, 0x11, 0};
    SAME(rufflesquash_report_each(run, lower, reported + 8), 0x44);
    BYTES(run, before, sizeof run);
    step(NULL, 0);
    SAME(rufflesquash_state(run), R(STATE_TURN));
    /* A new wait has a status pending. */
    step(NULL, 0);
    step(NULL, 0);
    SAME(rufflesquash_state(run), R(STATE_WAITING));
    rufflesquash_next_step(run, sizeof payload, R(QUEUE_FREE), next);
    WORDS(next, R(NEXT_FROM), sent + 10 * MS);
    SAME(next[R(NEXT_KIND)], R(NEXT_FROM));
    SAME(next[R(NEXT_MOMENT)], sent + 10 * MS);
    moment = sent + 10 * MS - 1000;
    step(NULL, 0);
    const struct text second = status(0x44, CLIENT_TIME, 0);
    WORDS(answer, 0, 0, 39, 1, moment - reported);
    SAME(answer[R(ANSWER_WAITED_TOLD)], 1);
    SAME(answer[R(ANSWER_WAITED_NANOS)], moment - reported);
    BYTES(out, second.at, second.len);
    SAME(rufflesquash_state(run), R(STATE_TURN));
    uint64_t last[R(STATUS_WORDS)], metrics[R(METRICS_WORDS)];
    rufflesquash_last_sent(run, last);
    WORDS(last, 1, 0x44, moment);
    rufflesquash_metrics(run, metrics);
    WORDS(metrics, 0, 2, 0, 0, 0, 0x44, 0);
}

/* A message that is read by pieces, within a wait. */
static void pieces(void) {
    const struct text message = keepalive(0x30, -5, 0);
    begin_waiting(0x10);
    step(message.at, 3);
    WORDS(answer, 0, 3);
    step(message.at + 3, 7);
    WORDS(answer, 0, 7);
    SAME(rufflesquash_state(run), R(STATE_WAITING));
    BYTES(payload, message.at + 5, 5);
    SAME(payload[5], FILL);
    step(message.at + 10, message.len - 10);
    SAME(rufflesquash_state(run), R(STATE_HANDLING));
    SAME(metric(R(METRICS_LAST_WAL_END)), 0);
    step(NULL, 0);
    SAME(rufflesquash_state(run), R(STATE_OFFERING));
    SAME(metric(R(METRICS_LAST_WAL_END)), 0x30);
    SAME(metric(R(METRICS_EVENTS_FORWARDED)), 0);
    step(NULL, 0);
    WORDS(answer, 0, 0, 0, 0, 0, R(EVENT_KEEP_ALIVE), 0x30, (uint64_t)-5, 0);
    SAME(metric(R(METRICS_EVENTS_FORWARDED)), 1);
}

/* ---- events */

static void begins(void) {
    struct text data = {.len = 0};
    put(&data, "B", 1);
    /* Below the stop position, so that the run goes on. */
    put_number(&data, 0x855667788, 8);
    put_number(&data, (uint64_t)-3, 8);
    put_number(&data, 0xFFFFFFFE, 4);
    const struct text message = xlog_data(0x51, 0x52, 53, &data);
    begin_waiting(0x10);
    SAME(feed(&message), message.len);
    WORDS(answer, 0, 0, 0, 0, 0, R(EVENT_BEGIN), 0x855667788, (uint64_t)-3, 0xFFFFFFFE);
    SAME(metric(R(METRICS_LAST_WAL_END)), 0x52);
}

static void events(void) {
    struct text data = {.len = 0}, message;
    begin_waiting(0x10);
    data.len = 0;
    put(&data, "C\x07", 2);
    put_number(&data, 0x61, 8);
    put_number(&data, 0x62, 8);
    put_number(&data, (uint64_t)-63, 8);
    message = xlog_data(0x51, 0x53, 53, &data);
    SAME(feed(&message), message.len);
    WORDS(answer, 0, 0, 0, 0, 0, R(EVENT_COMMIT), 0x61, 0x62, (uint64_t)-63);
    SAME(answer[R(ANSWER_EVENT_1)], 0x61);
    SAME(answer[R(ANSWER_EVENT_2)], 0x62);
    for (int flags = 0; flags < 2; flags++) {
        data.len = 0;
        put(&data, "M", 1);
        put_number(&data, (uint64_t)flags, 1);
        put_number(&data, 0x71, 8);
        put(&data, "prefix", 7);
        put_number(&data, 4, 4);
        put(&data, "\x01\x02\x03\x04", 4);
        message = xlog_data(0x51, 0x54, 53, &data);
        SAME(feed(&message), message.len);
        WORDS(answer, 0, 0, 0, 0, 0, R(EVENT_MESSAGE), (uint64_t)flags, 0x71, 35, 6, 46, 4);
        BYTES(payload + answer[R(ANSWER_EVENT_3)], "prefix", 6);
        BYTES(payload + answer[R(ANSWER_EVENT_5)], "\x01\x02\x03\x04", 4);
    }
    data.len = 0;
    put(&data, "Insert", 6);
    message = xlog_data(0x81, 0x82, -83, &data);
    SAME(feed(&message), message.len);
    WORDS(answer, 0, 0, 0, 0, 0, R(EVENT_XLOG_DATA), 0x81, 0x82, (uint64_t)-83, 25, 6);
    BYTES(payload + answer[R(ANSWER_EVENT_4)], "Insert", 6);
    SAME(metric(R(METRICS_LAST_WAL_END)), 0x82);
    SAME(metric(R(METRICS_EVENTS_FORWARDED)), 4);
}

/* A keepalive that asks is answered before its event. */
static void reply(void) {
    const struct text message = keepalive(0x30, 5, 1), expected = status(0x10, CLIENT_TIME, 1);
    begin_waiting(0x10);
    feed(&message);
    WORDS(answer, 0, 0, 39);
    BYTES(out, expected.at, expected.len);
    step(NULL, 0);
    WORDS(answer, 0, 0, 0, 0, 0, R(EVENT_KEEP_ALIVE), 0x30, 5, 1);
    uint64_t metrics[R(METRICS_WORDS)];
    rufflesquash_metrics(run, metrics);
    WORDS(metrics, 1, 2, 1, 0, 0, 0x10, 0x30);
}

/* A stall, its counters and the next step. */
static void stall(void) {
    const struct text message = keepalive(0x31, 5, 0);
    uint64_t next[R(NEXT_WORDS)];
    begin_waiting(0x10);
    queue = R(QUEUE_FULL);
    for (size_t at = 0; metric(R(METRICS_STALL_COUNT)) == 0 && at <= message.len; at += answer[R(ANSWER_TAKEN)]) {
        step(message.at + at, message.len - at);
    }
    SAME(rufflesquash_state(run), R(STATE_OFFERING));
    SAME(metric(R(METRICS_STALL_COUNT)), 1);
    rufflesquash_next_step(run, sizeof payload, R(QUEUE_FREE), next);
    WORDS(next, R(NEXT_AT_ONCE));
    rufflesquash_next_step(run, sizeof payload, R(QUEUE_FULL), next);
    WORDS(next, R(NEXT_FROM), last_sent(R(STATUS_AT)) + 10 * MS);
    moment += 7 * 1000;
    queue = R(QUEUE_FREE);
    step(NULL, 0);
    WORDS(answer, 0, 0, 0, 0, 0, R(EVENT_KEEP_ALIVE), 0x31, 5, 0);
    SAME(metric(R(METRICS_STALL_MICROS_TOTAL)), 8);
    uint64_t metrics[R(METRICS_WORDS)];
    rufflesquash_metrics(run, metrics);
    WORDS(metrics, 1, 1, 0, 1, 8, 0x10, 0x31);
    /* Every number but 0 and 1 is a closed queue, which drops. */
    for (uint64_t closed = R(QUEUE_CLOSED); closed < 4; closed++) {
        begin_waiting(0x10);
        queue = closed;
        for (size_t at = 0, i = 0; i < 8; i++, at += answer[R(ANSWER_TAKEN)]) step(message.at + at, message.len - at);
        SAME(metric(R(METRICS_EVENTS_FORWARDED)), 0);
        SAME(metric(R(METRICS_LAST_WAL_END)), 0x31);
    }
}

/* The stop position: an event, then StoppedAt with CopyDone, and the end. */
static void stopping(void) {
    const struct text message = at_the_stop();
    uint64_t next[R(NEXT_WORDS)];
    begin_waiting(0x10);
    feed(&message);
    WORDS(answer, 0, 0, 0, 0, 0, R(EVENT_XLOG_DATA), 0x800000009, 0x90000000A, 5, 25, 6);
    SAME(rufflesquash_state(run), R(STATE_OFFERING));
    step(NULL, 0);
    WORDS(answer, 0, 0, 5, 0, 0, R(EVENT_STOPPED_AT), 0x90000000A);
    BYTES(out, "c\0\0\0\x04", 5);
    SAME(rufflesquash_state(run), R(STATE_ENDED));
    rufflesquash_next_step(run, sizeof payload, R(QUEUE_FREE), next);
    WORDS(next, R(NEXT_NEVER));
    uint64_t before[R(RUN_WORDS)];
    memcpy(before, run, sizeof run);
    step(NULL, 0);
    WORDS(answer, 2);
    BYTES(run, before, sizeof run);
    /* A stop request ends a wait. */
    begin_waiting(0x10);
    stop = true;
    step(NULL, 0);
    WORDS(answer, 0, 0, 5);
    BYTES(out, "c\0\0\0\x04", 5);
}

/* What an offer remembers of the stop position while its event waits. */
static void stop_is_remembered(void) {
    const struct text message = at_the_stop();
    begin_waiting(0x10);
    queue = R(QUEUE_FULL);
    for (size_t at = 0, i = 0; i < 4; i++, at += answer[R(ANSWER_TAKEN)]) step(message.at + at, message.len - at);
    queue = R(QUEUE_FREE);
    step(NULL, 0);
    WORDS(answer, 0, 0, 0, 0, 0, R(EVENT_XLOG_DATA), 0x800000009, 0x90000000A, 5, 25, 6);
    step(NULL, 0);
    WORDS(answer, 0, 0, 5, 0, 0, R(EVENT_STOPPED_AT), 0x90000000A);
}

/* Each refusal of a step stands in its word; 2 to 5 change nothing. */
static void refusals(void) {
    uint64_t before[R(RUN_WORDS)];
    begin_run(0x10);
    memcpy(before, run, sizeof run);
    rufflesquash_step(run, 1, 0, false, 0, false, NULL, 0, payload, LIMIT - 1, out, 38, answer);
    WORDS(answer, 3);
    rufflesquash_step(run, 0, 0, false, 0, false, NULL, 0, payload, LIMIT, out, 38, answer);
    WORDS(answer, 4);
    rufflesquash_step(run, 0, 0, false, 0, false, NULL, 0, payload, LIMIT, out, 39, answer);
    WORDS(answer, 5);
    rufflesquash_advance(run, UINT64_C(1) << 63, 0, false, 0, false, NULL, 0, payload, LIMIT, out, 39, answer);
    WORDS(answer, 5);
    BYTES(run, before, sizeof run);
}

static void refused_messages(void) {
    static const struct {
        const char *bytes;
        size_t len, taken;
        uint64_t refusal;
    } messages[] = {
        {"d\0\0\0\x03", 5, 5, 6},   {"d\0\0\0\xCD", 5, 5, 7},   {"d\0\0\0\x04", 5, 5, 10},
        {"d\0\0\0\x05w", 6, 6, 11}, {"d\0\0\0\x05k", 6, 6, 12}, {"d\0\0\0\x05x", 6, 6, 13},
    };
    for (size_t i = 0; i < LEN(messages); i++) {
        struct text message = {.len = 0};
        put(&message, messages[i].bytes, messages[i].len);
        begin_waiting(0x10);
        SAME(feed(&message), messages[i].taken);
        SAME(answer[R(ANSWER_REFUSAL)], messages[i].refusal);
        SAME(rufflesquash_state(run), R(STATE_ENDED));
    }
}

static void refused_boundaries(void) {
    static const struct {
        const char *data;
        size_t len;
        uint64_t refusal;
    } boundaries[] = {
        {"C", 1, 14},
        {"B\0\0\0\0\0\0\0\0\0\0\0\0\0\0\0\0", 17, 15},
        {"B", 1, 16},
        {"M\0\0\0\0\0\0\0\0\0p", 11, 17},
        {"M\0\0\0\0\0\0\0\0\0\0\0\0\0\x01", 15, 18},
    };
    for (size_t i = 0; i < LEN(boundaries); i++) {
        struct text data = {.len = 0};
        put(&data, boundaries[i].data, boundaries[i].len);
        const struct text message = xlog_data(1, 2, 3, &data);
        begin_waiting(0x10);
        feed(&message);
        WORDS(answer, boundaries[i].refusal);
    }
}

static void input_that_ends(void) {
    begin_waiting(0x10);
    ended = true;
    step(NULL, 0);
    WORDS(answer, 8);
    begin_waiting(0x10);
    step((const uint8_t *)"d\0\0\0\x09x", 6);
    ended = true;
    step(NULL, 0);
    WORDS(answer, 9);
}

static void server_errors(void) {
    static const char error[] = "SERROR\0C42P01\0Mno slot\0";
    const struct text message = plain('E', error, sizeof error);
    uint64_t part[R(ERROR_WORDS)];
    begin_waiting(0x10);
    rufflesquash_error_part(run, sizeof payload, part);
    WORDS(part, 0);
    feed(&message);
    WORDS(answer, 19);
    rufflesquash_error_part(run, sizeof payload, part);
    WORDS(part, 1, sizeof error);
    SAME(part[R(ERROR_GIVEN)], 1);
    BYTES(payload, error, sizeof error);
    rufflesquash_error_part(run, 9, part);
    WORDS(part, 1, 9);
    rufflesquash_error_part(run, 0, part);
    WORDS(part, 1);
}

/* `advance` answers what its steps answer, with all that they took. */
static void several_steps(void) {
    struct text data = {.len = 0};
    put(&data, "Insert", 6);
    const struct text message = xlog_data(0x81, 0x82, -83, &data), first = status(0x10, CLIENT_TIME, 0), second = status(0x44, CLIENT_TIME, 0);
    uint64_t drained[R(RUN_WORDS)], by_steps[R(RUN_WORDS)];
    begin_run(0x10);
    call(true, NULL, 0);
    WORDS(answer, 0, 0, 39);
    BYTES(out, first.at, first.len);
    /* The same run by steps. */
    const uint64_t began = moment;
    memcpy(drained, run, sizeof run);
    for (size_t at = 0, i = 0; i < 4; i++, at += answer[R(ANSWER_TAKEN)], moment = began) step(message.at + at, message.len - at);
    memcpy(by_steps, run, sizeof run);
    memcpy(run, drained, sizeof run);
    memset(payload, FILL, sizeof payload);
    call(true, message.at, message.len);
    BYTES(run, by_steps, sizeof run);
    WORDS(answer, 0, message.len, 0, 0, 0, R(EVENT_XLOG_DATA), 0x81, 0x82, (uint64_t)-83, 25, 6);
    BYTES(payload, message.at + 5, message.len - 5);
    SAME(payload[message.len - 5], FILL);
    SAME(rufflesquash_state(run), R(STATE_DRAIN));
    step(message.at, 4);
    SAME(rufflesquash_state(run), R(STATE_TURN));
    WORDS(answer, 0);
    /* Turn, drain, and a wait that takes them. */
    call(true, message.at, 4);
    SAME(rufflesquash_state(run), R(STATE_WAITING));
    WORDS(answer, 0, 4);
    /* A status with its waiting time. */
    begin_waiting(0x10);
    for (uint64_t file = 0; file < R(FILES); file++) SAME(rufflesquash_report(run, file, 0x44, moment + 3), 0);
    const uint64_t reported = moment + 3;
    moment = last_sent(R(STATUS_AT)) + 10 * MS;
    call(true, NULL, 0);
    WORDS(answer, 0, 0, 39, 1, moment - reported);
    BYTES(out, second.at, second.len);
}

/* ---- words that no call made */

static uint64_t random_word(void) {
    static uint64_t seed = 88172645463325252;
    seed ^= seed << 13, seed ^= seed >> 7, seed ^= seed << 17;
    return seed * 0x2545F4914F6CDD1D;
}

static void inside(uint64_t from, uint64_t len, uint64_t end) {
    SAME(from <= end, 1);
    SAME(len <= end - from, 1);
}

typedef void stepping(uint64_t *, uint64_t, int64_t, bool, uint64_t, bool, const uint8_t *, size_t, uint8_t *, size_t, uint8_t *, size_t, uint64_t *);

/* Parts lie within the buffer whatever words a call is given: words that offer an event or have ended with an error, some of them put in at random. */
static void made_up_words(void) {
    struct text data = {.len = 0};
    put(&data, "M\0\0\0\0\0\0\0\0\1p\0\0\0\0\2xy", 18);
    const struct text offered = xlog_data(1, 2, 3, &data), error = plain('E', "Mno slot\0", 10);
    uint64_t kept[2][R(RUN_WORDS)], part[R(ERROR_WORDS)];
    unsigned handed_on = 0;
    begin_waiting(0x10);
    for (size_t at = 0, i = 0; i < 2; i++, at += answer[R(ANSWER_TAKEN)]) step(offered.at + at, offered.len - at);
    SAME(rufflesquash_state(run), R(STATE_OFFERING));
    memcpy(kept[0], run, sizeof run);
    begin_waiting(0x10);
    feed(&error);
    memcpy(kept[1], run, sizeof run);
    for (int i = 0; i < 40000; i++) {
        const size_t room = random_word() & 1 ? sizeof payload : LIMIT;
        stepping *const move = random_word() & 1 ? rufflesquash_advance : rufflesquash_step;
        memcpy(run, kept[i % 2], sizeof run);
        for (uint64_t n = random_word() % 4; n < 8; n++) run[random_word() % R(RUN_WORDS)] = random_word() >> (random_word() % 64);
        rufflesquash_error_part(run, room, part);
        inside(0, part[R(ERROR_LEN)], room);
        move(run, moment + 1000, 0, false, R(QUEUE_FREE), false, NULL, 0, payload, room, out, sizeof out, answer);
        if (answer[R(ANSWER_EVENT)] == R(EVENT_MESSAGE)) {
            inside(answer[R(ANSWER_EVENT_3)], answer[R(ANSWER_EVENT_4)], room);
            inside(answer[R(ANSWER_EVENT_5)], answer[R(ANSWER_EVENT_6)], room);
            handed_on++;
        } else if (answer[R(ANSWER_EVENT)] == R(EVENT_XLOG_DATA)) {
            inside(answer[R(ANSWER_EVENT_4)], answer[R(ANSWER_EVENT_5)], room);
        }
    }
    SAME(handed_on > 5000, 1);
}

/* ---- texts and positions */

static void texts(void) {
    uint8_t room[64];
    uint64_t n = 9, marks = 9;
    memset(room, FILL, sizeof room);
    SAME(rufflesquash_lossy((const uint8_t *)"a\xE2\x82z", 4, room, sizeof room, &n, &marks), 0);
    SAME(n, 5);
    SAME(marks, 1);
    BYTES(room, "a\xEF\xBF\xBDz\xAA", 6);
    SAME(rufflesquash_lossy((const uint8_t *)"\xEF\xBF\xBD", 3, room, sizeof room, &n, &marks), 0);
    SAME(n, 3);
    SAME(marks, 0);
    memset(room, FILL, sizeof room);
    SAME(rufflesquash_lossy_by_table((const uint8_t *)"a\xE2\x82z\xE2\x82\xAC\xF0\x9F", 9, room, sizeof room, &n, &marks), 0);
    SAME(n, 11);
    SAME(marks, 2);
    BYTES(room, "a\xEF\xBF\xBDz\xE2\x82\xAC\xEF\xBF\xBD\xAA", 12);
    marks = 9;
    SAME(rufflesquash_error_text((const uint8_t *)"C42P01\0Mno slot\0", 17, room, sizeof room, &n, &marks), 0);
    SAME(n, 24);
    SAME(marks, 0);
    BYTES(room, "no slot (SQLSTATE 42P01)\xAA", 25);
    SAME(rufflesquash_error_text((const uint8_t *)"M\xFF\xFF\0C\xFF\0D\xFF\0", 11, room, sizeof room, &n, &marks), 0);
    SAME(n, 21);
    SAME(marks, 3);
    BYTES(room, "\xEF\xBF\xBD\xEF\xBF\xBD (SQLSTATE \xEF\xBF\xBD)", 21);
    SAME(rufflesquash_display_position(0x16B374D848, room, sizeof room, &n), 0);
    SAME(n, 11);
    BYTES(room, "16/B374D848", 11);
    SAME(rufflesquash_display_position(UINT64_MAX, room, 17, &n), 0);
    SAME(n, 17);
    BYTES(room, "FFFFFFFF/FFFFFFFF", 17);
    SAME(rufflesquash_display_position(UINT64_MAX, room, 16, &n), 4);
    SAME(n, 0);
    n = 9, marks = 9;
    SAME(rufflesquash_lossy((const uint8_t *)"\xFFxy", 3, room, 2, &n, &marks), 4);
    SAME(n, 0);
    SAME(marks, 0);
    n = 9, marks = 9;
    SAME(rufflesquash_lossy_by_table((const uint8_t *)"\xFFxy", 3, room, 2, &n, &marks), 4);
    SAME(n, 0);
    SAME(marks, 0);
    n = 9, marks = 9;
    SAME(rufflesquash_error_text((const uint8_t *)"M\xFFo slot\0", 10, room, 2, &n, &marks), 4);
    SAME(n, 0);
    SAME(marks, 0);
    BYTES(room, "FFFFFFFF/FFFFFFFF", 17);
    SAME(rufflesquash_well_formed_prefix((const uint8_t *)"a\xE2\x82\xACz\xE2\x82", 7), 5);
    SAME(rufflesquash_well_formed_prefix((const uint8_t *)"\xE2\x82", 2), 0);
    SAME(rufflesquash_well_formed_prefix((const uint8_t *)"\xEF\xBF\xBD", 3), 3);
    static uint8_t too_long[1048577];
    memset(too_long, 'a', sizeof too_long);
    SAME(rufflesquash_well_formed_prefix(too_long, sizeof too_long), sizeof too_long);
    memset(too_long, 0xFF, sizeof too_long);
    n = 9, marks = 9;
    SAME(rufflesquash_lossy(too_long, sizeof too_long, room, 0, &n, &marks), 25);
    SAME(n, 0);
    SAME(marks, 0);
    n = 9, marks = 9;
    SAME(rufflesquash_lossy_by_table(too_long, sizeof too_long, room, 0, &n, &marks), 25);
    SAME(n, 0);
    SAME(marks, 0);
    n = 9, marks = 9;
    SAME(rufflesquash_error_text(too_long, sizeof too_long, room, 0, &n, &marks), 25);
    SAME(n, 0);
    SAME(marks, 0);
}

static void position_texts(void) {
    uint64_t n;
    SAME(rufflesquash_parse_position((const uint8_t *)"16/B374D848", 11, &n), 0);
    SAME(n, 0x16B374D848);
    static const struct {
        const char *text;
        uint64_t refusal;
    } refused[] = {{"16B374D848", 22}, {"x/1", 23}, {"1/x", 24}};
    for (size_t i = 0; i < LEN(refused); i++) {
        n = 9;
        SAME(rufflesquash_parse_position((const uint8_t *)refused[i].text, strlen(refused[i].text), &n), refused[i].refusal);
        SAME(n, 0);
    }
}

/* ---- a progress cell */

static void cells(void) {
    uint64_t cell[R(CELL_WORDS)];
    rufflesquash_cell_new(0x11, true, cell);
    SAME(rufflesquash_cell_load(cell), 0x11);
    SAME(rufflesquash_cell_pending_since(cell), 0);
    SAME(rufflesquash_cell_raise(cell, 0x11, 4), 0);
    SAME(rufflesquash_cell_pending_since(cell), 0);
    SAME(rufflesquash_cell_raise(cell, 0x22, 5), 1);
    SAME(rufflesquash_cell_raise(cell, 0x33, 6), 0);
    SAME(rufflesquash_cell_load(cell), 0x33);
    SAME(rufflesquash_cell_pending_since(cell), 5);
    SAME(rufflesquash_cell_take_signal(cell), 0x33);
    SAME(rufflesquash_cell_load(cell), 0x33);
    SAME(rufflesquash_cell_pending_since(cell), 5);
    /* What was sent is below the position: the moment at which it was read is pending from now on. */
    SAME(rufflesquash_cell_take_pending(cell, 0x32, 8), 5);
    SAME(rufflesquash_cell_pending_since(cell), 8);
    SAME(rufflesquash_cell_take_pending(cell, 0x33, 9), 8);
    SAME(rufflesquash_cell_pending_since(cell), 0);
    rufflesquash_cell_carry_pending(cell, 7);
    rufflesquash_cell_carry_pending(cell, 6);
    rufflesquash_cell_carry_pending(cell, 10);
    SAME(rufflesquash_cell_pending_since(cell), 6);
    SAME(rufflesquash_cell_load(cell), 0x33);
    /* The signal was taken, so that a raise is new again. */
    SAME(rufflesquash_cell_raise(cell, 0x34, 11), 1);
    SAME(rufflesquash_cell_raise(cell, 0x35, 12), 0);
    rufflesquash_cell_new(0x12, false, cell);
    SAME(rufflesquash_cell_raise(cell, 0x23, 5), 1);
    SAME(rufflesquash_cell_load(cell), 0x23);
    SAME(rufflesquash_cell_pending_since(cell), 0);
    rufflesquash_cell_carry_pending(cell, 7);
    SAME(rufflesquash_cell_pending_since(cell), 0);
}

/* ---- messages before and after the stream */

static void writers(void) {
    static const struct rufflesquash_bytes texts[] = {{(const uint8_t *)"user", 4}, {(const uint8_t *)"me", 2}, {(const uint8_t *)"a", 1}, {NULL, 0}};
    static const char startup[] = "\0\0\0\x14\0\x03\0\0user\0me\0a\0\0";
    const struct text select = plain('Q', "SELECT 1", 9), first = status(0x16B374D848, -7, 0), second = status(0x16B374D848, -7, 1);
    const struct {
        const void *bytes;
        size_t len;
    } all[] = {
        {startup, sizeof startup}, {select.at, select.len}, {"c\0\0\0\x04", 5}, {"X\0\0\0\x04", 5}, {first.at, first.len}, {second.at, second.len},
    };
    for (size_t i = 0; i < LEN(all); i++) {
        for (int spare = 1; spare >= -1; spare--) {
            uint8_t room[64];
            uint64_t n = 9, refusal = 99;
            const size_t len = all[i].len + (size_t)spare;
            memset(room, FILL, sizeof room);
            switch (i) {
            case 0: refusal = rufflesquash_write_startup(196608, texts, LEN(texts), room, len, &n); break;
            case 1: refusal = rufflesquash_write_query((const uint8_t *)"SELECT 1", 8, room, len, &n); break;
            case 2: refusal = rufflesquash_write_copy_done(room, len, &n); break;
            case 3: refusal = rufflesquash_write_terminate(room, len, &n); break;
            default: refusal = rufflesquash_write_status(0x16B374D848, -7, i == 5, room, len, &n); break;
            }
            SAME(refusal, spare < 0 ? 4 : 0);
            SAME(n, spare < 0 ? 0 : all[i].len);
            BYTES(room, all[i].bytes, n);
            for (size_t j = n; j < sizeof room; j++) SAME(room[j], FILL);
        }
    }
}

static void writers_of_long_texts(void) {
    static uint8_t too_long[1048577];
    const struct rufflesquash_bytes one = {too_long, sizeof too_long};
    uint8_t room[8];
    uint64_t n = 9;
    SAME(rufflesquash_write_query(too_long, sizeof too_long, room, 0, &n), 25);
    SAME(n, 0);
    n = 9;
    SAME(rufflesquash_write_startup(196608, &one, 1, room, 0, &n), 25);
    SAME(n, 0);
}

static void readers(void) {
    const struct text message = plain('T', "abcdefg", 7);
    uint64_t reader[R(READER_WORDS)] = {0}, read[R(READ_WORDS)];
    uint8_t room[8];
    memset(room, FILL, sizeof room);
    rufflesquash_read(reader, sizeof room, message.at, 3, false, room, sizeof room, read);
    WORDS(read, 0, 3);
    rufflesquash_read(reader, sizeof room, message.at + 3, 4, false, room, sizeof room, read);
    WORDS(read, 0, 4);
    BYTES(room, "ab\xAA\xAA\xAA\xAA\xAA\xAA", 8);
    rufflesquash_read(reader, sizeof room, message.at + 7, message.len - 7, true, room, sizeof room, read);
    WORDS(read, 0, 5, 1, 'T', 7);
    BYTES(room, "abcdefg\xAA", 8);
    WORDS(reader, 0);
    rufflesquash_read(reader, sizeof room, NULL, 0, true, room, sizeof room, read);
    WORDS(read, 8);
}

static void refused_reads(void) {
    static const struct {
        const char *bytes;
        size_t room, taken;
        uint64_t refusal;
    } refused[] = {{"T\0\0\0\x0B", 7, 0, 3}, {"T\0\0\0\x03", 8, 5, 6}, {"T\0\0\0\x0D", 8, 5, 7}};
    const struct text message = plain('T', "abcdefg", 7);
    uint64_t reader[R(READER_WORDS)], read[R(READ_WORDS)];
    uint8_t room[8];
    for (size_t i = 0; i < LEN(refused); i++) {
        memset(reader, 0, sizeof reader);
        rufflesquash_read(reader, sizeof room, (const uint8_t *)refused[i].bytes, 5, false, room, refused[i].room, read);
        WORDS(read, refused[i].refusal, refused[i].taken);
        /* After 7 the reader is shut, after 6 it is at a new header. */
        rufflesquash_read(reader, sizeof room, message.at, message.len, false, room, sizeof room, read);
        WORDS(read, refused[i].refusal == 7 ? 7 : 0, refused[i].refusal == 7 ? 0 : 12, refused[i].refusal != 7, refused[i].refusal == 7 ? 0 : 'T',
              refused[i].refusal == 7 ? 0 : 7);
    }
    memset(reader, 0, sizeof reader);
    rufflesquash_read(reader, sizeof room, message.at, 6, false, room, sizeof room, read);
    rufflesquash_read(reader, sizeof room, NULL, 0, true, room, sizeof room, read);
    WORDS(read, 9);
}

static void queries(void) {
    static const uint8_t row[] = {0, 3, 0, 0, 0, 3, 'o', 'n', 'e', 0xFF, 0xFF, 0xFF, 0xFF, 0, 0, 0, 0};
    uint64_t query[R(QUERY_WORDS)] = {0}, fold[R(FOLD_WORDS)];
    uint8_t error[8];
    memset(error, FILL, sizeof error);
    rufflesquash_query_message(query, 'T', NULL, 0, error, sizeof error, fold);
    WORDS(fold, R(FOLD_MORE));
    rufflesquash_query_message(query, 'D', row, sizeof row, error, sizeof error, fold);
    WORDS(fold, R(FOLD_ROW), 3);
    WORDS(query, 0);
    rufflesquash_query_message(query, 'Z', (const uint8_t *)"I", 1, error, sizeof error, fold);
    WORDS(fold, R(FOLD_READY));
    rufflesquash_query_message(query, 'E', (const uint8_t *)"Mfive\0", 7, error, sizeof error, fold);
    WORDS(fold, R(FOLD_MORE));
    BYTES(error, "Mfive\0\0\xAA", 8);
    rufflesquash_query_message(query, 'E', (const uint8_t *)"Mthirteen is", 13, error, sizeof error, fold);
    BYTES(error, "Mthirtee", 8);
    rufflesquash_query_message(query, 'Z', (const uint8_t *)"I", 1, error, sizeof error, fold);
    WORDS(fold, R(FOLD_FAILED), 8, 13);
    WORDS(query, 0);
    rufflesquash_query_message(query, 'D', row, sizeof row - 1, error, sizeof error, fold);
    WORDS(fold, R(FOLD_REFUSED), 20);
    WORDS(query, 0);
}

static void rows(void) {
    static const uint8_t row[] = {0, 3, 0, 0, 0, 3, 'o', 'n', 'e', 0xFF, 0xFF, 0xFF, 0xFF, 0, 0, 0, 0};
    static const uint64_t expected[][3] = {
        {R(COLUMN_VALUE), 6, 3}, {R(COLUMN_NULL), 0, 0}, {R(COLUMN_VALUE), 17, 0}, {R(COLUMN_ABSENT), 0, 0}, {R(COLUMN_ABSENT), 0, 0}};
    uint64_t column[R(COLUMN_WORDS)], columns = 9;
    SAME(rufflesquash_data_row(row, sizeof row, &columns), 0);
    SAME(columns, 3);
    for (size_t i = 0; i < LEN(expected); i++) {
        SAME(rufflesquash_column(row, sizeof row, i < 4 ? i : SIZE_MAX, column), 0);
        WORDS(column, expected[i][0], expected[i][1], expected[i][2]);
    }
    SAME(rufflesquash_data_row(row, sizeof row - 1, &columns), 20);
    SAME(columns, 0);
    SAME(rufflesquash_column(row, sizeof row - 1, 0, column), 20);
    WORDS(column, 0);
}

static void requests_and_errors(void) {
    static const char letters[] = "SCMDHPWstcdnFLR";
    uint64_t request[R(AUTH_WORDS)], part[R(FIELD_WORDS)];
    rufflesquash_auth_request((const uint8_t *)"\0\0\0\x05salt", 8, request);
    WORDS(request, 0, 5, 4, 4);
    rufflesquash_auth_request((const uint8_t *)"\xFF\xFF\xFF\xFE!", 5, request);
    WORDS(request, 0, (uint64_t)-2, 4, 1);
    rufflesquash_auth_request((const uint8_t *)"\0\0\0", 3, request);
    WORDS(request, 21);
    /* All fields, each as long as its number and twice, of which the last counts. */
    uint8_t error[512];
    size_t n = 0, from[15];
    for (int again = 0; again < 2; again++) {
        for (size_t i = 0; i < 15; i++) {
            error[n++] = (uint8_t)letters[i];
            from[i] = n;
            for (size_t j = 0; j < i; j++) error[n++] = 'x';
            error[n++] = 0;
        }
    }
    error[n++] = 0;
    for (size_t i = 0; i < 15; i++) {
        rufflesquash_error_field(error, n, i, part);
        WORDS(part, 1, from[i], i);
    }
    rufflesquash_error_field(error, n, 15, part);
    WORDS(part, 0);
    rufflesquash_error_field((const uint8_t *)"Mno\0", 5, R(FIELD_CODE), part);
    WORDS(part, 0);
    static const size_t numbers[] = {
        R(FIELD_SEVERITY),  R(FIELD_CODE),       R(FIELD_MESSAGE), R(FIELD_DETAIL), R(FIELD_HINT),
        R(FIELD_POSITION),  R(FIELD_WHERE),      R(FIELD_SCHEMA),  R(FIELD_TABLE),  R(FIELD_COLUMN),
        R(FIELD_DATA_TYPE), R(FIELD_CONSTRAINT), R(FIELD_FILE),    R(FIELD_LINE),   R(FIELD_ROUTINE),
    };
    for (size_t i = 0; i < 15; i++) SAME(numbers[i], i);
}

static void kinds(void) {
    /* By number, from 0. */
    static const char *of = "nuuuuuptiippppppppp" /* to 18 */ "spplllu" /* to 25 */ "pppppuuuuu";
    static const uint64_t numbers[128] = {
        ['n'] = R(KIND_NONE),      ['u'] = R(KIND_USAGE),  ['i'] = R(KIND_IO),
        ['p'] = R(KIND_PROTOCOL),  ['s'] = R(KIND_SERVER), ['t'] = R(KIND_MESSAGE_TOO_LARGE),
        ['l'] = R(KIND_PARSE_LSN),
    };
    SAME(strlen(of), 36);
    for (uint64_t i = 0; i < 36; i++) {
        SAME(rufflesquash_refusal_kind(i), numbers[(int)of[i]]);
        SAME(rufflesquash_refusal_is_transient(i), i == 8 || i == 9);
    }
    SAME(rufflesquash_refusal_kind(36), R(KIND_NONE));
    SAME(rufflesquash_refusal_kind(UINT64_C(1) << 32 | 31), R(KIND_NONE));
    SAME(rufflesquash_refusal_kind(UINT64_MAX), R(KIND_NONE));
    SAME(rufflesquash_refusal_is_transient(UINT64_MAX), 0);
}

/* ---- opening hours */

static void opening_hours(void) {
    /* Each weekday's window is its own, so that no two can be taken for each other; Saturday is shut. Moment 0 is a Saturday, 00:00. */
    static const uint64_t opens[R(HOURS_DAYS)] = {60, 120, 180, 240, 300, 0, 420}, closes[R(HOURS_DAYS)] = {61, 122, 183, 244, 305, 0, 427};
    static const uint64_t none[R(HOURS_DAYS)] = {0}, whole[R(HOURS_DAYS)] = {1440, 1440, 1440, 1440, 1440, 1440, 1440};
    const int64_t minute = 60000000, most = INT64_C(4611686018427387904);
    uint64_t hall[R(HOURS_WORDS)] = {9, 9, 9};
    SAME(rufflesquash_hours(opens, closes, 0, 0, hall), 0);
    SAME(hall[R(HOURS_OPEN)], 0);
    SAME(hall[R(HOURS_CHANGES)], 1);
    SAME(hall[R(HOURS_MOMENT)], (1440 + 420) * minute);
    /* Sunday, then Monday to Friday, each at its opening and its closing minute. */
    static const int days[] = {6, 0, 1, 2, 3, 4};
    for (int i = 0; i < 6; i++) {
        int64_t day = (1 + i) * 1440 * minute;
        SAME(rufflesquash_hours(opens, closes, 0, day + (int64_t)opens[days[i]] * minute, hall), 0);
        WORDS(hall, 1, 1, (uint64_t)(day + (int64_t)closes[days[i]] * minute));
        SAME(rufflesquash_hours(opens, closes, 0, day + (int64_t)closes[days[i]] * minute - 1, hall), 0);
        WORDS(hall, 1, 1, (uint64_t)(day + (int64_t)closes[days[i]] * minute));
        SAME(rufflesquash_hours(opens, closes, 0, day + (int64_t)closes[days[i]] * minute, hall), 0);
        SAME(hall[R(HOURS_OPEN)], 0);
    }
    /* An hour ahead of UTC all comes an hour sooner; before moment 0 the answer is negative. */
    SAME(rufflesquash_hours(opens, closes, 60, 0, hall), 0);
    WORDS(hall, 0, 1, (uint64_t)((1440 + 360) * minute));
    SAME(rufflesquash_hours(opens, closes, 0, -1440 * minute, hall), 0);
    WORDS(hall, 0, 1, (uint64_t)(-1140 * minute));
    /* Hours that never change. */
    SAME(rufflesquash_hours(none, none, 840, most, hall), 0);
    WORDS(hall, 0);
    SAME(rufflesquash_hours(none, whole, -840, -most, hall), 0);
    WORDS(hall, 1);
    /* 32, then 33, then 34. */
    memset(hall, 9, sizeof hall);
    SAME(rufflesquash_hours(whole, none, 841, most + 1, hall), 32);
    WORDS(hall, 0);
    memset(hall, 9, sizeof hall);
    SAME(rufflesquash_hours(none, whole, 841, most + 1, hall), 33);
    WORDS(hall, 0);
    SAME(rufflesquash_hours(none, whole, -841, 0, hall), 33);
    SAME(rufflesquash_hours(none, whole, INT64_MIN, 0, hall), 33);
    memset(hall, 9, sizeof hall);
    SAME(rufflesquash_hours(none, whole, 840, most + 1, hall), 34);
    WORDS(hall, 0);
    SAME(rufflesquash_hours(none, whole, 840, INT64_MIN, hall), 34);
    static const uint64_t high[R(HOURS_DAYS)] = {0, 0, 0, 0, 0, 0, UINT64_MAX};
    SAME(rufflesquash_hours(none, high, 0, 0, hall), 32);
}

/* ---- a load: seed 1 draws a Begin, seed 2 other data with two letters; of each the numbers were drawn by hand */

/* Marsaglia's generator, here once more, for the numbers that the events are to have. */
static uint64_t drawn(uint64_t *state) {
    *state ^= *state << 13;
    *state ^= *state >> 7;
    *state ^= *state << 17;
    return *state;
}

static void load(void) {
    static const uint8_t begin[] = {0x64, 0, 0, 0, 0x32, 0x77, 0x10, 0x00, 0x41, 0x06, 0x0C, 0x01, 0x14, 0x41, 0x9B, 0x1E, 0x84,
                                    0x2F, 0x6E, 0x86, 0x26, 0x29, 0, 0, 0, 0, 0, 0, 0, 0, 0x42, 0xF5, 0x54, 0xF5, 0x03, 0x55, 0x5D, 0x80, 0x25,
                                    0, 0, 0, 0, 0, 0, 0, 0, 0x90, 0x59, 0x92, 0x65};
    uint8_t out[4096];
    uint64_t written = 9, event[R(LOAD_WORDS)], state = 1;
    memset(out, 7, sizeof out);
    SAME(rufflesquash_load(1, 1, out, sizeof out, &written), 0);
    SAME(written, sizeof begin);
    BYTES(out, begin, sizeof begin);
    SAME(out[sizeof begin], 7);
    SAME(rufflesquash_load(1, 1, out, sizeof begin - 1, &written), 4);
    SAME(written, 0);
    SAME(rufflesquash_load(0, 1, out, 0, &written), 35);
    SAME(written, 0);
    /* A hundred events, each from the same draws. */
    for (int i = 0; i < 100; i++) {
        uint64_t own = state, kind = drawn(&own) % 4, a = drawn(&own), b = drawn(&own), c = 0, d = 0;
        if (kind != 0)
            c = drawn(&own);
        if (kind % 2 == 1)
            d = drawn(&own);
        state = rufflesquash_load_event(state, event);
        SAME(state, own);
        if (kind == 0)
            WORDS(event, R(EVENT_KEEP_ALIVE), a, 0, b & 1);
        else if (kind == 1)
            WORDS(event, R(EVENT_BEGIN), c, 0, d & UINT32_MAX);
        else if (kind == 2)
            WORDS(event, R(EVENT_XLOG_DATA), a, b, 0, 25, c % 64 + 1);
        else
            WORDS(event, R(EVENT_COMMIT), c, d);
    }
}

/* A null pointer with length 0, in every place of a buffer. */
static void null_pointers(void) {
    static const uint64_t no_limit[R(SETTINGS_WORDS)] = {0};
    uint64_t n = 9;
    const struct rufflesquash_bytes none = {NULL, 0};
    uint8_t room[128];
    SAME(rufflesquash_open(settings, NULL, 0, NULL, 0, 0, 0, run, NULL, 0, &n), 4);
    SAME(rufflesquash_open(settings, NULL, 0, &none, 1, 0, 0, run, room, sizeof room, &n), 0);
    SAME(rufflesquash_already_open(no_limit, 0, run), 0);
    rufflesquash_step(run, 1, 0, false, 0, false, NULL, 0, NULL, 0, NULL, 0, answer);
    WORDS(answer, 4);
    rufflesquash_step(run, 1, 0, false, 0, false, NULL, 0, NULL, 0, room, sizeof room, answer);
    WORDS(answer, 0, 0, 39);
    rufflesquash_advance(run, 1, 0, false, 0, false, NULL, 0, NULL, 0, NULL, 0, answer);
    WORDS(answer, 4);
    rufflesquash_advance(run, 2, 0, false, 0, false, NULL, 0, NULL, 0, room, sizeof room, answer);
    SAME(answer[R(ANSWER_REFUSAL)], 0);
}

static void null_pointers_elsewhere(void) {
    uint64_t n = 9, marks = 9, request[R(AUTH_WORDS)], part[R(FIELD_WORDS)], column[R(COLUMN_WORDS)], fold[R(FOLD_WORDS)], read[R(READ_WORDS)];
    uint64_t query[R(QUERY_WORDS)] = {0}, reader[R(READER_WORDS)] = {0};
    uint8_t room[128];
    SAME(rufflesquash_well_formed_prefix(NULL, 0), 0);
    SAME(rufflesquash_lossy(NULL, 0, NULL, 0, &n, &marks), 0);
    SAME(n, 0);
    SAME(marks, 0);
    n = 9, marks = 9;
    SAME(rufflesquash_lossy_by_table(NULL, 0, NULL, 0, &n, &marks), 0);
    SAME(n, 0);
    SAME(marks, 0);
    SAME(rufflesquash_error_text(NULL, 0, NULL, 0, &n, &marks), 4);
    SAME(rufflesquash_display_position(0, NULL, 0, &n), 4);
    SAME(rufflesquash_parse_position(NULL, 0, &n), 22);
    SAME(rufflesquash_write_startup(196608, NULL, 0, NULL, 0, &n), 4);
    SAME(rufflesquash_write_startup(196608, NULL, 0, room, sizeof room, &n), 0);
    BYTES(room, "\0\0\0\x09\0\x03\0\0\0", 9);
    SAME(rufflesquash_write_query(NULL, 0, NULL, 0, &n), 4);
    SAME(rufflesquash_write_query(NULL, 0, room, sizeof room, &n), 0);
    BYTES(room, "Q\0\0\0\x05\0", 6);
    SAME(rufflesquash_write_copy_done(NULL, 0, &n), 4);
    SAME(rufflesquash_write_terminate(NULL, 0, &n), 4);
    SAME(rufflesquash_write_status(0, 0, false, NULL, 0, &n), 4);
    rufflesquash_read(reader, 0, NULL, 0, false, NULL, 0, read);
    WORDS(read, 0);
    rufflesquash_query_message(query, 'E', NULL, 0, NULL, 0, fold);
    WORDS(fold, R(FOLD_MORE));
    SAME(rufflesquash_data_row(NULL, 0, &n), 20);
    SAME(rufflesquash_column(NULL, 0, 0, column), 20);
    rufflesquash_auth_request(NULL, 0, request);
    WORDS(request, 21);
    rufflesquash_error_field(NULL, 0, 0, part);
    WORDS(part, 0);
}

/* ---- rows of pgoutput */

/* A Relation: 0x10203040, "sp", "rel", identity `f`, columns "k" (flags 1, type 0x17, modifier -1) and "val" (flags 0, type 0x0413, modifier 36). */
static void row_relations(void) {
    static const uint8_t data[] = "R\x10\x20\x30\x40sp\0rel\0f\0\2\1k\0\0\0\0\x17\xFF\xFF\xFF\xFF\0val\0\0\0\x04\x13\0\0\0\x24";
    size_t len = sizeof data - 1;
    uint64_t row[R(ROW_WORDS)], one[R(DESCRIPTION_WORDS)];
    SAME(rufflesquash_row(data, len, row), 0);
    WORDS(row, R(ROW_RELATION), 0x10203040, 'f', 2, 15, 0, 0, 5, 2, 8, 3);
    SAME(row[R(ROW_KIND)], R(ROW_RELATION));
    SAME(row[R(ROW_ID)], 0x10203040);
    SAME(row[R(ROW_BYTE)], 'f');
    SAME(row[R(ROW_COUNT)], 2);
    SAME(row[R(ROW_FROM)], 15);
    BYTES(data + row[R(ROW_NAMESPACE_FROM)], "sp", row[R(ROW_NAMESPACE_LEN)]);
    BYTES(data + row[R(ROW_NAME_FROM)], "rel", row[R(ROW_NAME_LEN)]);
    SAME(rufflesquash_row_description(data, len, row[R(ROW_FROM)], one), 26);
    WORDS(one, 0, 1, 16, 1, 0x17, UINT64_MAX);
    SAME(rufflesquash_row_description(data, len, 26, one), len);
    SAME(one[R(DESCRIPTION_REFUSAL)], 0);
    SAME(one[R(DESCRIPTION_FLAGS)], 0);
    SAME(one[R(DESCRIPTION_NAME_FROM)], 27);
    SAME(one[R(DESCRIPTION_NAME_LEN)], 3);
    SAME(one[R(DESCRIPTION_TYPE)], 0x413);
    SAME(one[R(DESCRIPTION_MODIFIER)], 36);
    SAME(rufflesquash_row_description(data, len, len, one), 0);
    WORDS(one, 26);
    SAME(rufflesquash_row(data, len - 1, row), 26);
    WORDS(row, 0);
}

/* A Type, an Origin, a Truncate. */
static void row_names(void) {
    static const uint8_t type[] = "Y\0\0\x40\1ns\0name", origin[] = "O\1\2\3\4\5\6\7\x08orig", truncate[] = "T\0\0\0\2\3\0\0\0\5\xFF\0\0\1";
    size_t len = sizeof truncate - 1;
    uint64_t row[R(ROW_WORDS)], one[R(IDENTIFIER_WORDS)];
    SAME(rufflesquash_row(type, sizeof type, row), 0);
    WORDS(row, R(ROW_TYPE), 0x4001, 0, 0, 0, 0, 0, 5, 2, 8, 4);
    SAME(rufflesquash_row(origin, sizeof origin, row), 0);
    WORDS(row, R(ROW_ORIGIN), 0x0102030405060708, 0, 0, 0, 0, 0, 0, 0, 9, 4);
    SAME(rufflesquash_row(truncate, len, row), 0);
    WORDS(row, R(ROW_TRUNCATE), 0, 3, 2, 6);
    SAME(rufflesquash_row_identifier(truncate, len, row[R(ROW_FROM)], one), 10);
    SAME(one[R(IDENTIFIER_REFUSAL)], 0);
    SAME(one[R(IDENTIFIER_ID)], 5);
    SAME(rufflesquash_row_identifier(truncate, len, 10, one), 14);
    WORDS(one, 0, 0xFF000001);
    SAME(rufflesquash_row_identifier(truncate, len, 14, one), 0);
    WORDS(one, 26);
}

/* An Insert, Updates with and without an old tuple, a Delete, and every kind of column. */
static void row_tuples(void) {
    static const uint8_t insert[] = "I\0\0\0\7N\0\4nut\0\0\0\2abb\0\0\0\1\xFF", update[] = "U\0\0\0\7K\0\1nN\0\2uu", plain[] = "U\0\0\0\7N\0\0",
                         full[] = "D\0\0\0\7O\0\3nnn";
    size_t len = sizeof insert - 1;
    uint64_t row[R(ROW_WORDS)], one[R(TUPLE_WORDS)];
    SAME(rufflesquash_row(insert, len, row), 0);
    WORDS(row, R(ROW_INSERT), 7, 0, 4, 8);
    SAME(rufflesquash_row_column(insert, len, row[R(ROW_FROM)], one), 9);
    WORDS(one, 0, R(TUPLE_NULL));
    SAME(rufflesquash_row_column(insert, len, 9, one), 10);
    WORDS(one, 0, R(TUPLE_UNCHANGED));
    SAME(rufflesquash_row_column(insert, len, 10, one), 17);
    SAME(one[R(TUPLE_REFUSAL)], 0);
    SAME(one[R(TUPLE_KIND)], R(TUPLE_TEXT));
    SAME(one[R(TUPLE_FROM)], 15);
    SAME(one[R(TUPLE_LEN)], 2);
    BYTES(insert + one[R(TUPLE_FROM)], "ab", one[R(TUPLE_LEN)]);
    SAME(rufflesquash_row_column(insert, len, 17, one), len);
    WORDS(one, 0, R(TUPLE_BINARY), 22, 1);
    SAME(rufflesquash_row_column(insert, len, len, one), 0);
    WORDS(one, 26, R(TUPLE_NONE));
    SAME(rufflesquash_row_column(insert, len, 0, one), 0);
    WORDS(one, 27, R(TUPLE_NONE));
    SAME(rufflesquash_row_column(insert, len, SIZE_MAX, one), 0);
    WORDS(one, 26);
    SAME(rufflesquash_row(update, sizeof update - 1, row), 0);
    WORDS(row, R(ROW_UPDATE), 7, 'K', 2, 12, 1, 8);
    SAME(rufflesquash_row(plain, sizeof plain - 1, row), 0);
    WORDS(row, R(ROW_UPDATE), 7, 0, 0, 8);
    SAME(rufflesquash_row(full, sizeof full - 1, row), 0);
    WORDS(row, R(ROW_DELETE), 7, 'O', 0, 0, 3, 8);
    SAME(row[R(ROW_OLD_COUNT)], 3);
    SAME(row[R(ROW_OLD_FROM)], 8);
}

/* No row, refusals, and data that are none. */
static void refused_rows(void) {
    uint64_t row[R(ROW_WORDS)] = {1}, column[R(TUPLE_WORDS)] = {1}, description[R(DESCRIPTION_WORDS)] = {1}, identifier[R(IDENTIFIER_WORDS)] = {1};
    SAME(rufflesquash_row((const uint8_t *)"B", 1, row), 0);
    WORDS(row, R(ROW_NONE));
    SAME(rufflesquash_row((const uint8_t *)"C", 1, row), 0);
    SAME(rufflesquash_row((const uint8_t *)"M", 1, row), 0);
    SAME(rufflesquash_row((const uint8_t *)"S", 1, row), 27);
    WORDS(row, 0);
    SAME(rufflesquash_row((const uint8_t *)"I\0\0\0\1", 5, row), 26);
    SAME(rufflesquash_row((const uint8_t *)"I\0\0\0\1K", 6, row), 27);
    SAME(rufflesquash_row(NULL, 0, row), 26);
    SAME(rufflesquash_row_column(NULL, 0, 0, column), 0);
    WORDS(column, 26);
    SAME(rufflesquash_row_description(NULL, 0, 7, description), 0);
    WORDS(description, 26);
    SAME(rufflesquash_row_identifier(NULL, 0, SIZE_MAX, identifier), 0);
    WORDS(identifier, 26);
}

/* ---- which files a transaction touched */

static uint64_t touched_by(uint64_t kind, size_t from, size_t len, uint64_t *bits) {
    static const uint32_t identifiers[] = {7, 8, 7};
    static const uint64_t files[] = {2, 0, 1};
    /* an Insert into relation 7, a Truncate of relations 7 and 8 */
    static const uint8_t bytes[] = "I\0\0\0\7N\0\1nT\0\0\0\2\0\0\0\0\7\0\0\0\10";
    return rufflesquash_touched(identifiers, LEN(identifiers), files, LEN(files), kind, bytes + from, len, bits);
}

static void touched(void) {
    uint64_t bits = 0;
    SAME(touched_by(R(EVENT_XLOG_DATA), 0, 9, &bits), 0);
    SAME(bits, 4);
    SAME(touched_by(R(EVENT_COMMIT), 0, 9, &bits), 0);
    SAME(bits, 4);
    SAME(touched_by(R(EVENT_XLOG_DATA), 9, 14, &bits), 0);
    SAME(bits, 5);
    SAME(touched_by(R(EVENT_BEGIN), 0, 9, &bits), 0);
    SAME(bits, 0);
    /* a row that is cut, and one with a surplus */
    SAME(touched_by(R(EVENT_XLOG_DATA), 0, 8, &bits), 0);
    SAME(bits, 0);
    SAME(touched_by(R(EVENT_XLOG_DATA), 0, 23, &bits), 0);
    SAME(bits, 4);
    /* no other number clears or is read, and bits above the four are not kept */
    for (uint64_t kind = 0; kind < 16; kind++)
        if (kind != R(EVENT_BEGIN) && kind != R(EVENT_XLOG_DATA)) {
            bits = UINT64_MAX - 2;
            SAME(touched_by(kind, 0, 9, &bits), 0);
            SAME(bits, 13);
        }
    SAME(touched_by(UINT64_MAX, 0, 9, &bits), 0);
    SAME(bits, 13);
    /* a file above 3 leaves the word as it was; of two arrays the shorter length holds */
    const uint32_t ids[] = {1, 2};
    const uint64_t bad[] = {3, 4};
    bits = 0xF5;
    SAME(rufflesquash_touched(ids, 2, bad, 2, R(EVENT_BEGIN), NULL, 0, &bits), 31);
    SAME(bits, 0xF5);
    SAME(rufflesquash_touched(ids, 1, bad, 2, R(EVENT_BEGIN), NULL, 0, &bits), 0);
    SAME(bits, 0);
    bits = 3;
    SAME(rufflesquash_touched(NULL, 0, NULL, 0, R(EVENT_COMMIT), NULL, 0, &bits), 0);
    SAME(bits, 3);
}

/* ---- a relation cache */

static struct {
    uint64_t held;
    uint32_t ids[R(CACHE_RELATIONS)];
    uint8_t counts[R(CACHE_RELATIONS)];
    uint64_t words[R(CACHE_COLUMNS)];
    uint8_t names[R(CACHE_NAMES)];
} cache;

/* so many bytes are lent for the names */
static size_t lent = R(CACHE_NAMES);

static uint64_t cache_message(const uint8_t *data, size_t len, uint64_t row[R(ROW_WORDS)]) {
    return rufflesquash_cache_message(&cache.held, cache.ids, cache.counts, cache.words, cache.names, lent, data, len, row);
}

static void cache_column(uint32_t id, size_t index, uint64_t column[R(CACHE_COLUMN_WORDS)]) {
    rufflesquash_cache_column(cache.held, cache.ids, cache.counts, cache.words, cache.names, lent, id, index, column);
}

/* Relation 0x10203040 with columns "k", of the key, of type 23, and "value", of type 0x80000001. */
static void caches(void) {
    static const uint8_t relation[] = "R\x10\x20\x30\x40sp\0rel\0f\0\2\1k\0\0\0\0\x17\xFF\xFF\xFF\xFF\xFEvalue\0\x80\0\0\1\0\0\0\0";
    static const uint8_t insert[] = "I\x10\x20\x30\x40N\0\2nu";
    uint64_t row[R(ROW_WORDS)], column[R(CACHE_COLUMN_WORDS)], columns = 1;
    SAME((size_t)((const uint8_t *)cache.names - (const uint8_t *)&cache), 16712);
    memset(&cache, 0xA5, sizeof cache);
    cache_column(7, 0, column);
    WORDS(column, 0);
    SAME(cache_message(insert, sizeof insert - 1, row), 30);
    rufflesquash_cache_clear(&cache.held, cache.ids, cache.counts, cache.words);
    const uint8_t *bytes = (const uint8_t *)&cache;
    size_t zeros = 0;
    while (zeros < sizeof cache && bytes[zeros] == 0)
        zeros++;
    SAME(zeros, 16712);
    SAME(cache_message(insert, sizeof insert - 1, row), 30);
    WORDS(row, 0);
    SAME(cache_message(relation, sizeof relation - 1, row), 0);
    WORDS(row, R(ROW_RELATION), 0x10203040, 'f', 2, 15, 0, 0, 5, 2, 8, 3);
    SAME(rufflesquash_cache_count(cache.held, cache.ids, cache.counts, 0x10203040, &columns), 1);
    SAME(columns, 2);
    cache_column(0x10203040, 0, column);
    WORDS(column, 1, 0, 1, 1, 23);
    SAME(column[R(CACHE_COLUMN_GIVEN)], 1);
    SAME(column[R(CACHE_COLUMN_KEY)], 1);
    cache_column(0x10203040, 1, column);
    WORDS(column, 1, 1, 5, 0, 0x80000001);
    SAME(column[R(CACHE_COLUMN_TYPE)], 0x80000001);
    /* key flag, type, length and place of each name, from the most significant bit on */
    SAME(cache.words[0], (uint64_t)1 << 63 | (uint64_t)23 << 31 | 1 << 24);
    SAME(cache.words[1], (uint64_t)0x80000001 << 31 | 5 << 24 | 1);
    BYTES(cache.names + column[R(CACHE_COLUMN_NAME_FROM)], "value", column[R(CACHE_COLUMN_NAME_LEN)]);
    cache_column(0x10203040, 2, column);
    WORDS(column, 0);
    /* words that no call has left: their names lie in the names all the same */
    cache.words[0] = UINT64_MAX;
    cache_column(0x10203040, 0, column);
    WORDS(column, 1, R(CACHE_NAMES), 0, 1, UINT32_MAX);
    cache.words[0] = (uint64_t)127 << 24 | (R(CACHE_NAMES) - 1);
    cache_column(0x10203040, 0, column);
    WORDS(column, 1, R(CACHE_NAMES) - 1, 1, 0, 0);
    SAME(cache_message(insert, sizeof insert - 1, row), 0);
    WORDS(row, R(ROW_INSERT), 0x10203040, 0, 2, 8);
    SAME(cache_message(insert, sizeof insert - 2, row), 26);
    SAME(rufflesquash_cache_count(cache.held, cache.ids, cache.counts, 7, &columns), 0);
    SAME(columns, 0);
    /* six bytes hold both names, five do not: nothing is altered then */
    rufflesquash_cache_clear(&cache.held, cache.ids, cache.counts, cache.words);
    lent = 5;
    SAME(cache_message(relation, sizeof relation - 1, row), 4);
    WORDS(row, 0);
    SAME(cache.held, 0);
    lent = 6;
    SAME(cache_message(relation, sizeof relation - 1, row), 0);
    BYTES(cache.names, "kvalue", 6);
    SAME(cache.names[6], 0xA5);
}

int main(void) {
    SAME(rufflesquash_abi(), R(ABI));
    opening();
    flags_of_settings();
    refused_openings();
    opening_is_skipped_and_accepted();
    states();
    reports();
    pieces();
    begins();
    events();
    reply();
    stall();
    stopping();
    stop_is_remembered();
    refusals();
    refused_messages();
    refused_boundaries();
    input_that_ends();
    server_errors();
    several_steps();
    made_up_words();
    texts();
    position_texts();
    cells();
    writers();
    writers_of_long_texts();
    readers();
    refused_reads();
    queries();
    rows();
    requests_and_errors();
    kinds();
    opening_hours();
    load();
    touched();
    null_pointers();
    null_pointers_elsewhere();
    row_relations();
    row_names();
    row_tuples();
    refused_rows();
    caches();
    printf("%u words and texts checked from C, %u wrong\n", checks, wrong);
    return wrong != 0;
}
