/*
 * The stream between the second program and the driver. Numbers go high byte first.
 *
 * A request is one call: its name (1 byte), four numbers (2 bytes each), then each lent buffer in the order of
 * enum lent_name: how many elements (4 bytes), the fill (1 byte), how many bytes are given (4 bytes), the given bytes.
 * The buffer holds the given bytes and the fill after them, as x86-64 keeps them: two-byte numbers low byte first.
 *
 * A reply: what the call returned (2 bytes), the four answer numbers (8 bytes each), then runs, and NO_MORE_RUNS after
 * the last (1 byte). A run is a stretch of bytes that changed: the buffer (1 byte), its position counted from the start
 * of the guard before the buffer (4 bytes), its length (4 bytes), then 1 and the one byte it is full of, or 0 and all
 * its bytes.
 */
#ifndef STREAM_H
#define STREAM_H

enum call_name {
    CALL_CHECK,
    CALL_NUMBERS,
    CALL_NET,
    CALL_NET_SECTION,
    CALL_WRITE_JOB,
    CALL_READ_TEXT,
    CALL_WRITE_TEXT,
    CALL_ONE_ROUND,
    CALL_FINISH,
    CALL_PLAN,
    CALL_WRITE_SHEET,
    CALL_READ_SHEET,
    CALL_AUDIT,
    CALL_EVIDENCE,
    CALL_SPARE,
    CALL_HEADROOM,
    CALL_COUNT
};

enum lent_name { LENT_JOB, LENT_TEXT, LENT_SHEET, LENT_ENDS, LENT_PLAN, LENT_ROOM, LENT_SCRATCH, LENT_COUNT };

/* In place of a run's buffer: the guards of the answer, which is lent with every call; the end of the runs. */
enum { LENT_ANSWER = LENT_COUNT, NO_MORE_RUNS = 255 };

/* Bytes of guard before and after each lent buffer. */
enum { GUARD_SIZE = 64 };

/* Bytes of one element of each lent buffer. */
#define LENT_ELEMENT_SIZES { 1, 1, 1, 2, 2, 1, 2 }

#endif
