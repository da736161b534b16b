/* Made by .ci/border.rs from the Rattle sources, where changes are made: the functions of libffi_export.a, for C. Rust programs use the crate
 * beside this file. What each call does is docs/SCOPE.md, section 9.
 *
 * A host compares the number of the interface, opens a run (rufflesquash_open) and sends what that wrote. Then it makes steps (rufflesquash_step,
 * rufflesquash_advance): each takes bytes that came from the server, writes bytes that are to be sent, and may hand on an event. While nothing
 * comes, rufflesquash_next_step tells when the next step is due. What was applied is reported (rufflesquash_report), and statuses confirm it.
 *
 * A run, a progress cell, a reader of messages and a simple query are arrays of words of 64 bits that the host lends. They are opaque: a host
 * keeps and copies them whole, and looks into them with the calls alone. Any words are those of some run, so no call refuses words. What a word
 * holds may change with the number of the interface.
 *
 * Settings and answers are arrays of words that have names. Flags are 1 or 0 in answers, and true unless 0 where a host hands them in. Times are
 * two's complement. Words that a case does not use are 0.
 *
 * - A lent buffer is a pointer and a length. An empty one may have any pointer, the null pointer too; so may an empty list of texts. Arrays of
 *   words and single words are never null.
 * - Buffers of one call do not overlap, unless all of them are only read. They stay valid for the call, and the library keeps none of them.
 * - Nothing is read or written outside of what is lent.
 * - A part that an answer names lies within the buffer of which it is a part, whatever words the call was given: its place and its place plus its
 *   length are at most that buffer's length.
 *
 * A call that can refuse answers the refusal's number, 1 to 35 (docs/SCOPE.md, section 7), 0 for none, and gives a count or position through a
 * lent word, which is 0 where it refuses; where more is answered the number is a word of the answer. */
#ifndef RUFFLESQUASH_H
#define RUFFLESQUASH_H

#include <stdbool.h>
#include <stddef.h>
#include <stdint.h>

#ifdef __cplusplus
extern "C" {
#endif

/* The interface: its number grows with every change of a function, of a constant or of what they mean. */
#define RUFFLESQUASH_ABI 14 /* A host compares this number, which it was built with, with the one that rufflesquash_abi answers. */

/* Settings: intervals are nanoseconds, a flag is true unless 0. */
#define RUFFLESQUASH_SETTINGS_WORDS 7                      /* How many words settings have. */
#define RUFFLESQUASH_SETTINGS_STATUS_INTERVAL_NANOS 0      /* How long after a status the next one is due, at most 86,400 seconds. */
#define RUFFLESQUASH_SETTINGS_IDLE_WAKEUP_INTERVAL_NANOS 1 /* How long a wait lasts until a status is sent, at most 86,400 seconds. */
#define RUFFLESQUASH_SETTINGS_MAX_MESSAGE_BYTES 2          /* The longest payload of a message in bytes; more than 1,073,741,824 counts as that. */
#define RUFFLESQUASH_SETTINGS_HAS_STOP 3                   /* Whether there is a stop position. */
#define RUFFLESQUASH_SETTINGS_STOP_AT_LSN 4                /* The stop position. */
#define RUFFLESQUASH_SETTINGS_TIMING 5                     /* Whether a status tells how long the position that it confirms had waited. */
#define RUFFLESQUASH_SETTINGS_BINARY 6                     /* Whether the query asks for binary values. */

/* Opaque words: a host keeps and copies them whole, and any words are those of some run, cell, reader or query. */
#define RUFFLESQUASH_RUN_WORDS 64   /* How many words a run has. */
#define RUFFLESQUASH_CELL_WORDS 4   /* How many words a progress cell has. */
#define RUFFLESQUASH_READER_WORDS 8 /* How many words a reader of messages has. All of them are 0 at the beginning of a message. */
#define RUFFLESQUASH_QUERY_WORDS 4  /* How many words a simple query has of which the answer is read. All of them are 0 before its first message. */

/* Files: they are numbered from 0, and every other number is none. */
#define RUFFLESQUASH_FILES 4           /* How many files a run has. */
#define RUFFLESQUASH_POSITIONS_WORDS 4 /* How many positions are handed in where each file is reported for, in the order of their numbers. */

/* States of a run: every other number is RUFFLESQUASH_STATE_ENDED. */
#define RUFFLESQUASH_STATE_OPENING 0  /* The server has not yet begun the stream. */
#define RUFFLESQUASH_STATE_TURN 1     /* A round begins. */
#define RUFFLESQUASH_STATE_DRAIN 2    /* Messages at hand are looked for. */
#define RUFFLESQUASH_STATE_READING 3  /* A message is read. */
#define RUFFLESQUASH_STATE_WAITING 4  /* Nothing was at hand. */
#define RUFFLESQUASH_STATE_HANDLING 5 /* A whole message is there. */
#define RUFFLESQUASH_STATE_OFFERING 6 /* An event is offered to the queue. */
#define RUFFLESQUASH_STATE_ENDED 7    /* No further step is accepted. */

/* The queue to the consumer: every other number is RUFFLESQUASH_QUEUE_CLOSED. */
#define RUFFLESQUASH_QUEUE_FREE 0   /* An event is taken. */
#define RUFFLESQUASH_QUEUE_FULL 1   /* No event is taken now. */
#define RUFFLESQUASH_QUEUE_CLOSED 2 /* Events are dropped. */

/* What a step answers. */
#define RUFFLESQUASH_ANSWER_WORDS 12       /* How many words the answer of a step has. */
#define RUFFLESQUASH_ANSWER_REFUSAL 0      /* The refusal's number, 0 for none. */
#define RUFFLESQUASH_ANSWER_TAKEN 1        /* How many unread bytes were taken. */
#define RUFFLESQUASH_ANSWER_WRITTEN 2      /* How many bytes at the front of the output are to be sent. */
#define RUFFLESQUASH_ANSWER_WAITED_TOLD 3  /* Whether a waiting time is told, 1 or 0. */
#define RUFFLESQUASH_ANSWER_WAITED_NANOS 4 /* The waiting time in nanoseconds. */
#define RUFFLESQUASH_ANSWER_EVENT 5        /* The event's kind. */
#define RUFFLESQUASH_ANSWER_EVENT_1 6      /* The event's first number. */
#define RUFFLESQUASH_ANSWER_EVENT_2 7      /* The event's second number. */
#define RUFFLESQUASH_ANSWER_EVENT_3 8      /* The event's third number. */
#define RUFFLESQUASH_ANSWER_EVENT_4 9      /* The event's fourth number. */
#define RUFFLESQUASH_ANSWER_EVENT_5 10     /* The event's fifth number. */
#define RUFFLESQUASH_ANSWER_EVENT_6 11     /* The event's sixth number. */

/* Kinds of events, each with its numbers: every other kind is none. Times are microseconds from 2000-01-01. */
#define RUFFLESQUASH_EVENT_NOTHING 0    /* No event. */
#define RUFFLESQUASH_EVENT_KEEP_ALIVE 1 /* KeepAlive: wal_end, server time, whether a reply is requested. */
#define RUFFLESQUASH_EVENT_BEGIN 2      /* Begin: final position, commit time, xid. */
#define RUFFLESQUASH_EVENT_COMMIT 3     /* Commit: position, end position, commit time. */
/* Message: whether it is transactional, position, the prefix's place in payload and its length, the content's place and its length. */
#define RUFFLESQUASH_EVENT_MESSAGE 4
#define RUFFLESQUASH_EVENT_XLOG_DATA 5  /* XLogData: wal_start, wal_end, server time, the data's place in payload and its length. */
#define RUFFLESQUASH_EVENT_STOPPED_AT 6 /* StoppedAt: the position that reached the stop position. */

/* When to step again. */
#define RUFFLESQUASH_NEXT_WORDS 2  /* How many words the answer has. */
#define RUFFLESQUASH_NEXT_KIND 0   /* Its kind. */
#define RUFFLESQUASH_NEXT_MOMENT 1 /* Of RUFFLESQUASH_NEXT_FROM the moment, else 0. */

/* Kinds of next steps. */
#define RUFFLESQUASH_NEXT_AT_ONCE 0  /* The next step moves. */
#define RUFFLESQUASH_NEXT_FROM 1     /* Steps from a moment on move; it may lie at or before the last accepted one. */
#define RUFFLESQUASH_NEXT_ON_INPUT 2 /* No step moves until something comes. */
#define RUFFLESQUASH_NEXT_NEVER 3    /* The run has ended. */

/* Counters of a run: each starts again at 0 after its largest value. */
#define RUFFLESQUASH_METRICS_WORDS 7              /* How many counters a run has. */
#define RUFFLESQUASH_METRICS_EVENTS_FORWARDED 0   /* Events handed on. */
#define RUFFLESQUASH_METRICS_FEEDBACK_SENT 1      /* Statuses sent. */
#define RUFFLESQUASH_METRICS_KEEPALIVE_REPLIES 2  /* Statuses sent in reply to a keepalive. */
#define RUFFLESQUASH_METRICS_STALL_COUNT 3        /* Stalls begun. */
#define RUFFLESQUASH_METRICS_STALL_MICROS_TOTAL 4 /* Microseconds of stalls that ended. */
#define RUFFLESQUASH_METRICS_LAST_APPLIED_LSN 5   /* The position last confirmed. */
#define RUFFLESQUASH_METRICS_LAST_WAL_END 6       /* The server's end last told. */

/* The last status. */
#define RUFFLESQUASH_STATUS_WORDS 3    /* How many words are told of the last status. */
#define RUFFLESQUASH_STATUS_SENT 0     /* Whether there was one, 1 or 0. */
#define RUFFLESQUASH_STATUS_POSITION 1 /* The position that it confirmed. */
#define RUFFLESQUASH_STATUS_AT 2       /* The moment of its step. */

/* The error that ended a run. */
#define RUFFLESQUASH_ERROR_WORDS 2 /* How many words are told of the error. */
#define RUFFLESQUASH_ERROR_GIVEN 0 /* Whether a server error ended the run, 1 or 0. */
#define RUFFLESQUASH_ERROR_LEN 1   /* How many bytes it has at the front of the payload buffer, at most the length that was handed in. */

/* What a read answers. */
#define RUFFLESQUASH_READ_WORDS 5   /* How many words the answer of a read has. */
#define RUFFLESQUASH_READ_REFUSAL 0 /* The refusal's number, 0 for none. */
#define RUFFLESQUASH_READ_TAKEN 1   /* How many unread bytes were taken. */
#define RUFFLESQUASH_READ_WHOLE 2   /* Whether a message is whole, 1 or 0. */
#define RUFFLESQUASH_READ_TAG 3     /* The whole message's tag. */
#define RUFFLESQUASH_READ_LEN 4     /* The length of its payload, which stands at the front of payload. */

/* What a message of a simple query answers. */
#define RUFFLESQUASH_FOLD_WORDS 3     /* How many words the answer has. */
#define RUFFLESQUASH_FOLD_KIND 0      /* Its kind. */
#define RUFFLESQUASH_FOLD_VALUE 1     /* Its value, which its kind says, else 0. */
#define RUFFLESQUASH_FOLD_ERROR_LEN 2 /* Of RUFFLESQUASH_FOLD_FAILED how many bytes the error had, else 0. */

/* Kinds of answers to a simple query, each with its value: the first two go on; the others end the query, and its words are then those of a new
 * one. */
#define RUFFLESQUASH_FOLD_MORE 0    /* Nothing to tell. */
#define RUFFLESQUASH_FOLD_ROW 1     /* A row: how many columns it has. */
#define RUFFLESQUASH_FOLD_READY 2   /* The query is done. */
#define RUFFLESQUASH_FOLD_FAILED 3  /* The server refused it: how many bytes of its error stand at the front of error. */
#define RUFFLESQUASH_FOLD_REFUSED 4 /* The message is refused: the refusal's number, 20. */

/* A column of a DataRow. */
#define RUFFLESQUASH_COLUMN_WORDS 3 /* How many words are told of a column. */
#define RUFFLESQUASH_COLUMN_KIND 0  /* Its kind. */
#define RUFFLESQUASH_COLUMN_FROM 1  /* The value's place in payload, else 0. */
#define RUFFLESQUASH_COLUMN_LEN 2   /* The value's length, else 0. */

/* Kinds of columns of a DataRow. */
#define RUFFLESQUASH_COLUMN_ABSENT 0 /* The row has no such column. */
#define RUFFLESQUASH_COLUMN_NULL 1   /* The column is null. */
#define RUFFLESQUASH_COLUMN_VALUE 2  /* The column has a value. */

/* An authentication request. */
#define RUFFLESQUASH_AUTH_WORDS 4   /* How many words are told of a request. */
#define RUFFLESQUASH_AUTH_REFUSAL 0 /* The refusal's number (21), 0 for none. */
#define RUFFLESQUASH_AUTH_CODE 1    /* The code in two's complement. */
#define RUFFLESQUASH_AUTH_FROM 2    /* The place of the rest in payload. */
#define RUFFLESQUASH_AUTH_LEN 3     /* The rest's length. */

/* A field of an error. */
#define RUFFLESQUASH_FIELD_WORDS 3 /* How many words are told of a field. */
#define RUFFLESQUASH_FIELD_GIVEN 0 /* Whether the field is given, 1 or 0. */
#define RUFFLESQUASH_FIELD_FROM 1  /* Its place in payload. */
#define RUFFLESQUASH_FIELD_LEN 2   /* Its length. */

/* Fields of an error by their numbers. */
#define RUFFLESQUASH_FIELD_SEVERITY 0    /* The severity. */
#define RUFFLESQUASH_FIELD_CODE 1        /* The SQLSTATE. */
#define RUFFLESQUASH_FIELD_MESSAGE 2     /* The message. */
#define RUFFLESQUASH_FIELD_DETAIL 3      /* The detail. */
#define RUFFLESQUASH_FIELD_HINT 4        /* The hint. */
#define RUFFLESQUASH_FIELD_POSITION 5    /* The position in the query. */
#define RUFFLESQUASH_FIELD_WHERE 6       /* The context. */
#define RUFFLESQUASH_FIELD_SCHEMA 7      /* The schema. */
#define RUFFLESQUASH_FIELD_TABLE 8       /* The table. */
#define RUFFLESQUASH_FIELD_COLUMN 9      /* The column. */
#define RUFFLESQUASH_FIELD_DATA_TYPE 10  /* The data type. */
#define RUFFLESQUASH_FIELD_CONSTRAINT 11 /* The constraint. */
#define RUFFLESQUASH_FIELD_FILE 12       /* The source file of the server. */
#define RUFFLESQUASH_FIELD_LINE 13       /* The line in that file. */
#define RUFFLESQUASH_FIELD_ROUTINE 14    /* The routine in that file. */

/* Kinds of refusals. */
#define RUFFLESQUASH_KIND_NONE 0              /* No refusal has the number. */
#define RUFFLESQUASH_KIND_USAGE 1             /* Usage: the call was not used as it is to be. */
#define RUFFLESQUASH_KIND_IO 2                /* Io: the input ended within a message, or before one. */
#define RUFFLESQUASH_KIND_PROTOCOL 3          /* Protocol: the bytes are not what the protocol says, or do not fit what is held. */
#define RUFFLESQUASH_KIND_SERVER 4            /* Server: the server sent an error. */
#define RUFFLESQUASH_KIND_MESSAGE_TOO_LARGE 5 /* MessageTooLarge: a message is longer than the limit. */
#define RUFFLESQUASH_KIND_PARSE_LSN 6         /* ParseLsn: a text is no position. */

/* Opening hours: windows, Monday first. */
#define RUFFLESQUASH_HOURS_DAYS 7 /* How many windows there are. */

/* What the opening hours answer. */
#define RUFFLESQUASH_HOURS_WORDS 3   /* How many words the answer has. */
#define RUFFLESQUASH_HOURS_OPEN 0    /* Whether the hall is open, 1 or 0. */
#define RUFFLESQUASH_HOURS_CHANGES 1 /* Whether that ever changes, 1 or 0. */
#define RUFFLESQUASH_HOURS_MOMENT 2  /* The first later moment at which it changes, in two's complement, 0 where it never does. */

/* The head of a row: words that a row does not have are 0. */
#define RUFFLESQUASH_ROW_WORDS 11         /* How many words a row's head has. */
#define RUFFLESQUASH_ROW_KIND 0           /* Its kind. */
#define RUFFLESQUASH_ROW_ID 1             /* The identifier of a relation or type, of an Origin the position of the commit at the origin. */
#define RUFFLESQUASH_ROW_BYTE 2           /* The replica identity of a Relation, the letter before an old tuple, the options of a Truncate. */
#define RUFFLESQUASH_ROW_COUNT 3          /* How many columns, descriptions or relations there are. */
#define RUFFLESQUASH_ROW_FROM 4           /* The place in data of the first one. */
#define RUFFLESQUASH_ROW_OLD_COUNT 5      /* How many columns the old tuple has. */
#define RUFFLESQUASH_ROW_OLD_FROM 6       /* The place in data of its first column. */
#define RUFFLESQUASH_ROW_NAMESPACE_FROM 7 /* The namespace's place in data. */
#define RUFFLESQUASH_ROW_NAMESPACE_LEN 8  /* The namespace's length. */
#define RUFFLESQUASH_ROW_NAME_FROM 9      /* The name's place in data. */
#define RUFFLESQUASH_ROW_NAME_LEN 10      /* The name's length. */

/* Kinds of rows, each with the words of its head. */
#define RUFFLESQUASH_ROW_NONE 0     /* No row, or refused. */
/* Relation: its identifier, its replica identity, its descriptions (rufflesquash_row_description), namespace and name. */
#define RUFFLESQUASH_ROW_RELATION 1
#define RUFFLESQUASH_ROW_TYPE 2     /* Type: its identifier, namespace and name. */
#define RUFFLESQUASH_ROW_ORIGIN 3   /* Origin: its position and its name. */
#define RUFFLESQUASH_ROW_INSERT 4   /* Insert: the relation's identifier, the new tuple (rufflesquash_row_column). */
/* Update: the relation's identifier, the new tuple, the old tuple after 'K' where it has the key alone, after 'O' where it has all columns; the
 * byte is 0 where no old tuple is sent. */
#define RUFFLESQUASH_ROW_UPDATE 5
#define RUFFLESQUASH_ROW_DELETE 6   /* Delete: the relation's identifier, the old tuple after 'K' or 'O', as such. */
#define RUFFLESQUASH_ROW_TRUNCATE 7 /* Truncate: its options, its relations (rufflesquash_row_identifier). */

/* A column of a tuple. */
#define RUFFLESQUASH_TUPLE_WORDS 4   /* How many words are told of a column. */
#define RUFFLESQUASH_TUPLE_REFUSAL 0 /* The refusal's number (26, 27), 0 for none. */
#define RUFFLESQUASH_TUPLE_KIND 1    /* Its kind. */
#define RUFFLESQUASH_TUPLE_FROM 2    /* The place of the value of a text or binary column in data, else 0. */
#define RUFFLESQUASH_TUPLE_LEN 3     /* The length of that value, else 0. */

/* Kinds of columns of a tuple. */
#define RUFFLESQUASH_TUPLE_NONE 0      /* The column is refused. */
#define RUFFLESQUASH_TUPLE_NULL 1      /* The column is null. */
#define RUFFLESQUASH_TUPLE_UNCHANGED 2 /* The value is unchanged and not sent. */
#define RUFFLESQUASH_TUPLE_TEXT 3      /* The value is a text. */
#define RUFFLESQUASH_TUPLE_BINARY 4    /* The value is binary. */

/* A description: a column of a Relation. */
#define RUFFLESQUASH_DESCRIPTION_WORDS 6     /* How many words are told of a description. */
#define RUFFLESQUASH_DESCRIPTION_REFUSAL 0   /* The refusal's number (26), 0 for none. */
#define RUFFLESQUASH_DESCRIPTION_FLAGS 1     /* The flags; 1 where the column belongs to the key. */
#define RUFFLESQUASH_DESCRIPTION_NAME_FROM 2 /* The name's place in data. */
#define RUFFLESQUASH_DESCRIPTION_NAME_LEN 3  /* The name's length. */
#define RUFFLESQUASH_DESCRIPTION_TYPE 4      /* The type. */
#define RUFFLESQUASH_DESCRIPTION_MODIFIER 5  /* The type modifier in two's complement. */

/* A relation of a Truncate. */
#define RUFFLESQUASH_IDENTIFIER_WORDS 2   /* How many words are told of a relation. */
#define RUFFLESQUASH_IDENTIFIER_REFUSAL 0 /* The refusal's number (26), 0 for none. */
#define RUFFLESQUASH_IDENTIFIER_ID 1      /* Its identifier. */

/* An event of a load: its kind and its six numbers, as in the answer of a step. */
#define RUFFLESQUASH_LOAD_WORDS 7 /* How many words the event has. */

/* The lent memory of a relation cache: 16,712 bytes in four parts, and the names, for which as many bytes are lent as the host has. */
#define RUFFLESQUASH_CACHE_RELATIONS 64 /* At most so many relations are held, each with an identifier and a count of columns. */
#define RUFFLESQUASH_CACHE_COLUMNS 2048 /* The words of their columns, 32 for each relation. */
#define RUFFLESQUASH_CACHE_NAMES 129024 /* No more bytes of the names are read or written: 63 for each column. */

/* A column of a held relation. */
#define RUFFLESQUASH_CACHE_COLUMN_WORDS 5     /* How many words are told of a column. */
#define RUFFLESQUASH_CACHE_COLUMN_GIVEN 0     /* Whether there is such a column, 1 or 0. */
#define RUFFLESQUASH_CACHE_COLUMN_NAME_FROM 1 /* The place of its name in names. */
#define RUFFLESQUASH_CACHE_COLUMN_NAME_LEN 2  /* The length of its name. */
#define RUFFLESQUASH_CACHE_COLUMN_KEY 3       /* Whether it belongs to the key, 1 or 0. */
#define RUFFLESQUASH_CACHE_COLUMN_TYPE 4      /* Its type. */

/* A text in a list of texts. */
struct rufflesquash_bytes {
    const uint8_t *at;
    size_t len;
};

/* ---- The number of the interface. */

/* The number of the interface that the archive has, RUFFLESQUASH_ABI. */
uint64_t rufflesquash_abi(void);

/* ---- A run. */

/* Writes the query that opens a stream, and makes the run. Answers the refusal (1, 25, 4); refused, run and out are as they were and written is 0.
 *
 * The position is what the query asks for, the start is where confirmations begin. */
uint64_t rufflesquash_open(const uint64_t settings[RUFFLESQUASH_SETTINGS_WORDS], const uint8_t *slot, size_t slot_len,
                           const struct rufflesquash_bytes *publications, size_t publications_len, uint64_t position, uint64_t start,
                           uint64_t run[RUFFLESQUASH_RUN_WORDS], uint8_t *out, size_t out_len, uint64_t *written);

/* Makes a run whose stream has begun already: no query is sent. Answers the refusal (1); refused, run is as it was. */
uint64_t rufflesquash_already_open(const uint64_t settings[RUFFLESQUASH_SETTINGS_WORDS], uint64_t start, uint64_t run[RUFFLESQUASH_RUN_WORDS]);

/* One step of a run. The parts that the event names lie in payload, whatever the words of the run are.
 *
 * The moment is nanoseconds, 1 to 2^63 - 1, the client's time microseconds from 2000-01-01. That the input has ended counts only where no byte is
 * unread. The payload buffer is as long as the limit at least, and is lent unchanged to every step. Out has 39 bytes at least; what is written
 * there is sent before the next step. Without a refusal a run ends at a stop request, at its stop position, or at the server's CopyDone; it has
 * then written its own. */
void rufflesquash_step(uint64_t run[RUFFLESQUASH_RUN_WORDS], uint64_t moment, int64_t client_time, bool stop, uint64_t queue, bool ended,
                       const uint8_t *unread, size_t unread_len, uint8_t *payload, size_t payload_len, uint8_t *out, size_t out_len,
                       uint64_t answer[RUFFLESQUASH_ANSWER_WORDS]);

/* One to four steps with the same input, until one of them has a refusal, an event or bytes to send. The answer is the last one's; taken is their
 * sum. */
void rufflesquash_advance(uint64_t run[RUFFLESQUASH_RUN_WORDS], uint64_t moment, int64_t client_time, bool stop, uint64_t queue, bool ended,
                          const uint8_t *unread, size_t unread_len, uint8_t *payload, size_t payload_len, uint8_t *out, size_t out_len,
                          uint64_t answer[RUFFLESQUASH_ANSWER_WORDS]);

/* A file, 0 to 3, has applied all before a position. Answers the refusal: 31 for every other number, on any run, and run is as it was.
 *
 * A status confirms the smallest over the four files of the largest of the start and that file's reports; a host with fewer files reports for all
 * four. */
uint64_t rufflesquash_report(uint64_t run[RUFFLESQUASH_RUN_WORDS], uint64_t file, uint64_t position, uint64_t moment);

/* Each of the four files has applied all before its position: reports of the files 0 to 3, in this order and at one moment, of which none is
 * refused. Answers what a status would confirm now. */
uint64_t rufflesquash_report_each(uint64_t run[RUFFLESQUASH_RUN_WORDS], const uint64_t positions[RUFFLESQUASH_POSITIONS_WORDS], uint64_t moment);

/* When a step moves next while no byte is unread, the input has not ended, no stop is requested, the queue stays as it is and nothing is reported.
 *
 * A host that has unread bytes, an ended input or a stop request steps at once instead. */
void rufflesquash_next_step(const uint64_t run[RUFFLESQUASH_RUN_WORDS], size_t payload_len, uint64_t queue, uint64_t next[RUFFLESQUASH_NEXT_WORDS]);

/* The state of a run. */
uint64_t rufflesquash_state(const uint64_t run[RUFFLESQUASH_RUN_WORDS]);

/* The counters of a run. */
void rufflesquash_metrics(const uint64_t run[RUFFLESQUASH_RUN_WORDS], uint64_t counters[RUFFLESQUASH_METRICS_WORDS]);

/* What a status would confirm now. */
uint64_t rufflesquash_position(const uint64_t run[RUFFLESQUASH_RUN_WORDS]);

/* The last status that a run sent. */
void rufflesquash_last_sent(const uint64_t run[RUFFLESQUASH_RUN_WORDS], uint64_t status[RUFFLESQUASH_STATUS_WORDS]);

/* Whether a server error ended the run, and its length at the front of the payload buffer of its steps, of which the length is handed in. */
void rufflesquash_error_part(const uint64_t run[RUFFLESQUASH_RUN_WORDS], size_t payload_len, uint64_t part[RUFFLESQUASH_ERROR_WORDS]);

/* The service page of a run: six lines of 32 characters and a newline, 198 bytes, at the front of out. Answers the refusal (4); refused, out is as
 * it was and written is 0.
 *
 * A label stands flush left in 12 characters, its value flush right in 20: POSITION (what a status would confirm now), SENT (what the last status
 * confirmed, a hyphen before the first), SERVER (wal_end of the last XLogData or keepalive that was handled without refusal), EVENTS (handed on),
 * STALLS (begun), STATE. */
uint64_t rufflesquash_page(const uint64_t run[RUFFLESQUASH_RUN_WORDS], uint8_t *out, size_t out_len, uint64_t *written);

/* ---- Texts and positions: refused, out is as it was and what is given beside it is 0.
 *
 * The marks are how many U+FFFD were put in, one for each ill-formed part of the texts that are shown; one that was in the text already is not
 * counted. */

/* The lossy text of bytes, such as a prefix. Answers the refusal (25, 4). */
uint64_t rufflesquash_lossy(const uint8_t *text, size_t text_len, uint8_t *out, size_t out_len, uint64_t *written, uint64_t *marks);

/* The same, where every byte is looked up in the constant table of UTF-8's states, one after the other. It answers and writes what
 * rufflesquash_lossy does, which is faster. */
uint64_t rufflesquash_lossy_by_table(const uint8_t *text, size_t text_len, uint8_t *out, size_t out_len, uint64_t *written, uint64_t *marks);

/* The length of the longest well-formed beginning of a text of any length. Refuses nothing. */
uint64_t rufflesquash_well_formed_prefix(const uint8_t *text, size_t text_len);

/* The text of the error that the payload of an ErrorResponse holds. Answers the refusal (25, 4). */
uint64_t rufflesquash_error_text(const uint8_t *payload, size_t payload_len, uint8_t *out, size_t out_len, uint64_t *written, uint64_t *marks);

/* The position that a text names: two hexadecimal numbers of 1 to 8 digits with a slash between. Answers the refusal (22, 23, 24); refused,
 * position is 0. */
uint64_t rufflesquash_parse_position(const uint8_t *text, size_t text_len, uint64_t *position);

/* The text of a position, at most 17 bytes. Answers the refusal (4). */
uint64_t rufflesquash_display_position(uint64_t position, uint8_t *out, size_t out_len, uint64_t *written);

/* ---- A progress cell: it has one position, where a run has four files; these calls are for a host that keeps a cell of its own. Moments are
 * nanoseconds, 0 is none. */

/* A new cell. With timing it keeps the moment of the first raise that no status has covered. */
void rufflesquash_cell_new(uint64_t start, bool timed, uint64_t cell[RUFFLESQUASH_CELL_WORDS]);

/* The position. */
uint64_t rufflesquash_cell_load(const uint64_t cell[RUFFLESQUASH_CELL_WORDS]);

/* The pending moment. */
uint64_t rufflesquash_cell_pending_since(const uint64_t cell[RUFFLESQUASH_CELL_WORDS]);

/* A report of a position at a moment. Answers 1 where the signal is new, else 0. */
uint64_t rufflesquash_cell_raise(uint64_t cell[RUFFLESQUASH_CELL_WORDS], uint64_t position, uint64_t moment);

/* Clears the signal. Answers the position. */
uint64_t rufflesquash_cell_take_signal(uint64_t cell[RUFFLESQUASH_CELL_WORDS]);

/* A status was sent with a position that was read at a moment. Answers the moment that was pending. */
uint64_t rufflesquash_cell_take_pending(uint64_t cell[RUFFLESQUASH_CELL_WORDS], uint64_t sent, uint64_t loaded_at);

/* A pending moment from an earlier session: the older one counts. */
void rufflesquash_cell_carry_pending(uint64_t cell[RUFFLESQUASH_CELL_WORDS], uint64_t since);

/* ---- Messages of the client: refused, out is as it was and written is 0. */

/* A startup message; its texts are names and values in turn. Answers the refusal (25, 4). */
uint64_t rufflesquash_write_startup(int32_t version, const struct rufflesquash_bytes *texts, size_t texts_len, uint8_t *out, size_t out_len,
                                    uint64_t *written);

/* A simple query. Answers the refusal (25, 4). */
uint64_t rufflesquash_write_query(const uint8_t *text, size_t text_len, uint8_t *out, size_t out_len, uint64_t *written);

/* A CopyDone. Answers the refusal (4). */
uint64_t rufflesquash_write_copy_done(uint8_t *out, size_t out_len, uint64_t *written);

/* A Terminate. Answers the refusal (4). */
uint64_t rufflesquash_write_terminate(uint8_t *out, size_t out_len, uint64_t *written);

/* A status that confirms a position in all its three places, 39 bytes. Answers the refusal (4). */
uint64_t rufflesquash_write_status(uint64_t position, int64_t client_time, bool reply, uint8_t *out, size_t out_len, uint64_t *written);

/* ---- Messages of the server, before and after the stream. */

/* One read of the server's messages, as the steps of a run do it. Refusals: 3, 6, 7, 8, 9.
 *
 * The payload buffer has at least the limit's bytes and is lent unchanged to every read. */
void rufflesquash_read(uint64_t reader[RUFFLESQUASH_READER_WORDS], size_t max_message_size, const uint8_t *unread, size_t unread_len, bool ended,
                       uint8_t *payload, size_t payload_len, uint64_t answer[RUFFLESQUASH_READ_WORDS]);

/* A whole message in answer to a simple query. The front of error takes the bytes of a server's error. */
void rufflesquash_query_message(uint64_t query[RUFFLESQUASH_QUERY_WORDS], uint8_t tag, const uint8_t *payload, size_t payload_len, uint8_t *error,
                                size_t error_len, uint64_t answer[RUFFLESQUASH_FOLD_WORDS]);

/* How many columns a DataRow has. Answers the refusal (20); refused, columns is 0. */
uint64_t rufflesquash_data_row(const uint8_t *payload, size_t payload_len, uint64_t *columns);

/* A column of a DataRow, from 0. Answers the refusal (20); refused, all words are 0. */
uint64_t rufflesquash_column(const uint8_t *payload, size_t payload_len, size_t index, uint64_t column[RUFFLESQUASH_COLUMN_WORDS]);

/* An authentication request. */
void rufflesquash_auth_request(const uint8_t *payload, size_t payload_len, uint64_t answer[RUFFLESQUASH_AUTH_WORDS]);

/* A field of an ErrorResponse by its number. */
void rufflesquash_error_field(const uint8_t *payload, size_t payload_len, size_t field, uint64_t part[RUFFLESQUASH_FIELD_WORDS]);

/* ---- Kinds by the number of a refusal. */

/* The kind of a refusal by its number, RUFFLESQUASH_KIND_NONE where no refusal has it. */
uint64_t rufflesquash_refusal_kind(uint64_t refusal);

/* Whether a new connection may help after a refusal, by its number: 1 or 0. */
uint64_t rufflesquash_refusal_is_transient(uint64_t refusal);

/* ---- Opening hours. */

/* Whether a venue's hall is open at a moment, and the first later moment at which that changes. Answers the refusal (32, 33, 34, in this order);
 * refused, all words are 0.
 *
 * For each weekday, Monday first, the minutes from 0 to 1440 at which its window opens and closes: the opening minute is open, the closing minute
 * shut, equal minutes mean shut all day. The offset is the minutes, -840 to 840, by which the venue's clock is ahead of UTC. Moments are
 * microseconds from 2000-01-01 00:00 UTC, a Saturday, at most 2^62 from it; the moment of the change may lie past that. A window to 1440 and one
 * from 0 on the next day meet without a change. */
uint64_t rufflesquash_hours(const uint64_t opens[RUFFLESQUASH_HOURS_DAYS], const uint64_t closes[RUFFLESQUASH_HOURS_DAYS], int64_t offset,
                            int64_t moment, uint64_t answer[RUFFLESQUASH_HOURS_WORDS]);

/* ---- Rows: in the data of an event of kind RUFFLESQUASH_EVENT_XLOG_DATA, or in any data of pgoutput, protocol version 1. Any data and any place
 * are answered.
 *
 * Refusals: 26 where a field is cut short or a count or length is negative, 27 where a letter stands that may not, the first of them in the order
 * of the bytes. Refused, all other words are 0. */

/* The row that the data hold, judged to its end; what follows it is not read. Answers the refusal (26, 27). Data that begin with B, C or M are no
 * row. */
uint64_t rufflesquash_row(const uint8_t *data, size_t data_len, uint64_t row[RUFFLESQUASH_ROW_WORDS]);

/* The column of a tuple at a place. Answers the place of the next one, 0 where it is refused.
 *
 * From the place that a head names on, so many calls as the head counts are not refused, each at the place that the last one answered. */
uint64_t rufflesquash_row_column(const uint8_t *data, size_t data_len, size_t at, uint64_t column[RUFFLESQUASH_TUPLE_WORDS]);

/* The description at a place, a column of a Relation. Answers the place of the next one, 0 where it is refused. */
uint64_t rufflesquash_row_description(const uint8_t *data, size_t data_len, size_t at, uint64_t description[RUFFLESQUASH_DESCRIPTION_WORDS]);

/* The relation of a Truncate at a place. Answers the place of the next one, 0 where it is refused. */
uint64_t rufflesquash_row_identifier(const uint8_t *data, size_t data_len, size_t at, uint64_t identifier[RUFFLESQUASH_IDENTIFIER_WORDS]);

/* ---- Touched files: which of the four files a transaction touched. */

/* The files that a transaction touched, after one more event: its kind, and of an XLogData its data. What is lent with any other kind is not read.
 * Answers the refusal: 31 where one of the first 64 entries has a file above 3, whatever the event is, and then touched is as it was.
 *
 * The call is made for every event in order. A Begin clears all bits; an XLogData that is an Insert, Update, Delete or Truncate sets the bit of
 * the file of every relation that it names; all else leaves them, so that at a Commit they are its transaction's. Bit n of touched stands for file
 * n; it is 0 at first and is handed in as the last call left it. Bits above the four are not read, and are 0 afterwards.
 *
 * The list: identifiers of relations and their files, 0 to 3, in two arrays of which the shorter length holds. A relation outside it touches no
 * file, of a repeated one the first entry holds, entries past the sixty-fourth are not read. A row that is cut short, or that has a letter which
 * the protocol does not list, touches nothing. */
uint64_t rufflesquash_touched(const uint32_t *identifiers, size_t identifiers_len, const uint64_t *files, size_t files_len, uint64_t kind,
                              const uint8_t *data, size_t data_len, uint64_t *touched);

/* ---- A load for benchmarks. */

/* Writes so many messages of a server, drawn from a seed, over the front of out: CopyData with keepalives, Begins, Commits and other data in turn
 * as they are drawn. Answers the refusal (35 for a seed of 0, then 4); refused, out is as it was and written is 0. */
uint64_t rufflesquash_load(uint64_t seed, uint64_t messages, uint8_t *out, size_t out_len, uint64_t *written);

/* The event of the message that is drawn from a state, of which the first is the seed. Answers the next state.
 *
 * It is the event that a run hands on that was opened already and has no stop position; the data of an XLogData begin at place 25 of its payload. */
uint64_t rufflesquash_load_event(uint64_t state, uint64_t event[RUFFLESQUASH_LOAD_WORDS]);

/* ---- A relation cache: what the Relation messages of a stream said of their columns, and rows matched with it.
 *
 * The memory is lent in five parts: how many relations are held (64 bits); of each slot its relation's identifier (32 bits) and how many columns
 * that has (8 bits); a word of each column (64 bits); and the bytes of the names. Column c of the relation in slot r has number 32 r + c. A word
 * has, from its most significant bit on, whether the column belongs to the key (1 bit), its type (32), its name's length (7) and its name's place
 * in names (24). The names lie without gaps, in the order of the columns' numbers, so as many bytes suffice as the names have that are held: for
 * names of at most L bytes, L for each column, and 63 × 2,048 = 129,024 always; bytes past these are neither read nor written. Every call gets
 * the memory as the last one left it. Any content of it is some cache: a call with it has one stated outcome, whatever the bytes are; a name that
 * a word places outside of names ends with them. */

/* An empty cache: every byte of what is lent is 0. The names are not lent: nothing of them is read before it is written. */
void rufflesquash_cache_clear(uint64_t *held, uint32_t ids[RUFFLESQUASH_CACHE_RELATIONS], uint8_t counts[RUFFLESQUASH_CACHE_RELATIONS],
                              uint64_t words[RUFFLESQUASH_CACHE_COLUMNS]);

/* One message: the row that its data hold, as rufflesquash_row answers it. A Relation is held from then on, in place of an earlier one with its
 * identifier: the names of later slots are moved. Answers the refusal (26 to 30, 4); refused, the memory is as it was and all words are 0.
 *
 * - 26, 27: those of rufflesquash_row.
 * - 28: a Relation, where 64 others are held.
 * - 29: a Relation with more than 32 columns or with a column's name of more than 63 bytes. The former description of the relation stays, and rows
 *   with the old number of columns are read under the old names.
 * - 30: an Insert, Update or Delete whose relation is not held or has another number of columns than one of its tuples.
 * - 4: a Relation, where the names of those that are held, or of those that would be, are longer than names. It is told after 26 to 29. */
uint64_t rufflesquash_cache_message(uint64_t *held, uint32_t ids[RUFFLESQUASH_CACHE_RELATIONS], uint8_t counts[RUFFLESQUASH_CACHE_RELATIONS],
                                    uint64_t words[RUFFLESQUASH_CACHE_COLUMNS], uint8_t *names, size_t names_len, const uint8_t *data,
                                    size_t data_len, uint64_t row[RUFFLESQUASH_ROW_WORDS]);

/* Whether a relation is held, 1 or 0, and how many columns it has. */
uint64_t rufflesquash_cache_count(uint64_t held, const uint32_t ids[RUFFLESQUASH_CACHE_RELATIONS],
                                  const uint8_t counts[RUFFLESQUASH_CACHE_RELATIONS], uint32_t id, uint64_t *columns);

/* A column of a relation, from 0. All words are 0 where the relation is not held or has no such column. Of names the length alone is read. */
void rufflesquash_cache_column(uint64_t held, const uint32_t ids[RUFFLESQUASH_CACHE_RELATIONS], const uint8_t counts[RUFFLESQUASH_CACHE_RELATIONS],
                               const uint64_t words[RUFFLESQUASH_CACHE_COLUMNS], const uint8_t *names, size_t names_len, uint32_t id, size_t index,
                               uint64_t column[RUFFLESQUASH_CACHE_COLUMN_WORDS]);

#ifdef __cplusplus
}
#endif

#endif
