/* The checker's one service entry for C, with document 01's numbers and a sentence for each. */
#ifndef FRAMECHECK_H
#define FRAMECHECK_H

#include <stddef.h>
#include <stdint.h>

#ifdef __cplusplus
extern "C" {
#endif

/* Answers a stream of frames: one answer line for each line, written to the room; the number of answer bytes comes back, or
 * one of the whole-stream refusals below, and then the room is untouched. Room after the last answer is untouched. Each call
 * starts with no building held. A null pointer with length 0 is fine for either. Nothing is kept between calls and nothing is
 * allocated, so calls may run side by side. */
int64_t checker_answer(const uint8_t *stream, size_t stream_len, uint8_t *room, size_t room_len);

enum {
    FRAMECHECK_MOST_BYTES = 65535,     /* bytes of a stream */
    FRAMECHECK_MOST_LINES = 1024,      /* lines of a stream */
    FRAMECHECK_ROOM_A_LINE = 33,       /* bytes of answer room for each line */
    FRAMECHECK_MOST_POINTS = 512,
    FRAMECHECK_MOST_POLYGONS = 256,
    FRAMECHECK_MOST_RING = 128,        /* entries in a ring */
    FRAMECHECK_MOST_ENTRIES = 1024,    /* entries in all rings */
    FRAMECHECK_MOST_COORDINATE = 100000, /* mm, in size */
    FRAMECHECK_MOST_TOLERANCE = 1000,  /* mm */
    FRAMECHECK_LONGEST_FRAME = 514,    /* digits: a polygon of 128 entries */
    FRAMECHECK_NO_USER = 0xFFFF        /* where an edge has no first or no second user */
};

/* Document 02 adds one frame to document 01's:
 *   0C, point 4, point 4                  edge question: who uses the edge between two points, named in either order */

/* The answer to a line, each field in upper-case hexadecimal:
 *   00                                    begin, point or polygon accepted
 *   00, check 2, a 4, b 4, faulty 4, six-volume 16   end of load, move or turn accepted: the report
 *   00, finding 2, position 4, stamp 8, part 16      question accepted
 *   00, users 4, first user 4, second user 4         edge question accepted
 *   01 to 07                              refused
 * Report and question's answer are both 32 digits: the line's kind tells them apart. A finding's position is, for 03, the least
 * entry of the ring whose number stood earlier, the closing entry aside; for 05 the least edge that meets another where it must not,
 * an edge having the index of its first entry; for 06 the least entry that is too far from the plane; else 0. All count from 0. In a
 * report a is the lowest polygon with a finding, and b its position. A polygon is a user of an edge once for each time that its ring
 * goes from one of the points to the other, whatever its finding; a step from a number to itself is no edge. First and second are the two
 * lowest of the users so counted, FFFF where there is none: an edge used twice by polygon 3 and once by 5 has 3, 3 and 3. Two points that
 * share no edge have no users. */

/* The checks; 01 to 06 are also a polygon's findings. 06 goes by true distance, exactly: it fails where, for some point p of the ring,
 * (N.(p - first))^2 > tolerance^2 * (Nx^2 + Ny^2 + Nz^2), N being the ring's normal. */
enum {
    FRAMECHECK_ACCEPTED = 0x00,
    FRAMECHECK_FEW_ENTRIES = 0x01,
    FRAMECHECK_OPEN_RING = 0x02,
    FRAMECHECK_NUMBER_TWICE = 0x03,
    FRAMECHECK_ZERO_NORMAL = 0x04,
    FRAMECHECK_EDGES_MEET = 0x05,
    FRAMECHECK_NOT_PLANAR = 0x06,
    FRAMECHECK_FEW_POLYGONS = 0x07,
    FRAMECHECK_EDGE_ONCE = 0x08,
    FRAMECHECK_EDGE_MORE_THAN_TWICE = 0x09,
    FRAMECHECK_EDGE_SAME_DIRECTION = 0x0A,
    FRAMECHECK_NOT_REACHED = 0x0B,
    FRAMECHECK_NOT_LINKED = 0x0C,
    FRAMECHECK_NO_VOLUME = 0x0D
};

/* A frame's refusals. */
enum {
    FRAMECHECK_BROKEN = 0x01,
    FRAMECHECK_WRONG_STATE = 0x02,
    FRAMECHECK_BEYOND_BOUND = 0x03,
    FRAMECHECK_TABLE_FULL = 0x04,
    FRAMECHECK_UNKNOWN_NUMBER = 0x05,
    FRAMECHECK_PLACE_TAKEN = 0x06,
    FRAMECHECK_LATE = 0x07
};

/* Whole-stream refusals, as returned. */
enum {
    FRAMECHECK_STREAM_TOO_LONG = -1,
    FRAMECHECK_TOO_MANY_LINES = -2,
    FRAMECHECK_ROOM_TOO_SHORT = -3
};

static inline const char *framecheck_check_sentence(int check) {
    switch (check) {
    case FRAMECHECK_ACCEPTED: return "No check fails.";
    case FRAMECHECK_FEW_ENTRIES: return "The ring has fewer than 4 entries.";
    case FRAMECHECK_OPEN_RING: return "The ring's last entry differs from its first.";
    case FRAMECHECK_NUMBER_TWICE: return "With the last entry left aside, some point number stands twice in the ring.";
    case FRAMECHECK_ZERO_NORMAL: return "The ring's normal is zero in all three components.";
    case FRAMECHECK_EDGES_MEET: return "Two edges of the ring meet where they must not.";
    case FRAMECHECK_NOT_PLANAR: return "A point of the ring lies further from its plane than the tolerance.";
    case FRAMECHECK_FEW_POLYGONS: return "The building has fewer than 4 polygons; element a is their count.";
    case FRAMECHECK_EDGE_ONCE: return "The edge a, b is used once.";
    case FRAMECHECK_EDGE_MORE_THAN_TWICE: return "The edge a, b is used more than twice.";
    case FRAMECHECK_EDGE_SAME_DIRECTION: return "The edge a, b is used twice in the same direction.";
    case FRAMECHECK_NOT_REACHED: return "Polygon a is not reachable from polygon 0 across shared edges.";
    case FRAMECHECK_NOT_LINKED: return "The polygons at point a are not all linked across edges that end at it.";
    case FRAMECHECK_NO_VOLUME: return "The six-volume is zero or negative.";
    default: return "Not a check of document 01.";
    }
}

/* What a report says of the polygon a and the position b where its check has one, or a null pointer. */
static inline const char *framecheck_position_sentence(int check) {
    switch (check) {
    case FRAMECHECK_NUMBER_TWICE: return "The number of entry b of polygon a stood earlier in its ring.";
    case FRAMECHECK_EDGES_MEET: return "Edge b of polygon a meets another edge where it must not.";
    case FRAMECHECK_NOT_PLANAR: return "Entry b of polygon a lies further from the polygon's plane than the tolerance.";
    default: return NULL;
    }
}

static inline const char *framecheck_refusal_sentence(int refusal) {
    switch (refusal) {
    case FRAMECHECK_BROKEN: return "A character, kind or length that the frame table does not have.";
    case FRAMECHECK_WRONG_STATE: return "A load frame while no load is running, or a correction or question while no building is held.";
    case FRAMECHECK_BEYOND_BOUND: return "The tolerance or a coordinate is beyond its bound.";
    case FRAMECHECK_TABLE_FULL: return "One point, polygon or entry more than the tables hold.";
    case FRAMECHECK_UNKNOWN_NUMBER:
        return "A point or polygon number that is not below the present count, or an edge asked for from a point to itself.";
    case FRAMECHECK_PLACE_TAKEN: return "The place is that of another point.";
    case FRAMECHECK_LATE: return "The correction's number is not above the last accepted one.";
    default: return "Not a refusal of document 01.";
    }
}

static inline const char *framecheck_stream_refusal_sentence(int64_t refusal) {
    switch (refusal) {
    case FRAMECHECK_STREAM_TOO_LONG: return "The stream has more than 65,535 bytes.";
    case FRAMECHECK_TOO_MANY_LINES: return "The stream has more than 1,024 lines.";
    case FRAMECHECK_ROOM_TOO_SHORT: return "The answer room is shorter than 33 bytes for each line.";
    default: return "Not a whole-stream refusal of document 01.";
    }
}

/* Lines of a stream: each ends with a line feed; text after the last line feed is a line too. */
static inline size_t framecheck_lines(const uint8_t *stream, size_t stream_len) {
    size_t lines = 0;
    size_t i;
    for (i = 0; i < stream_len; i++) lines += stream[i] == '\n';
    return lines + (stream_len > 0 && stream[stream_len - 1] != '\n');
}

#ifdef __cplusplus
}
#endif

#endif
