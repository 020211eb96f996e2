/* The planner for C and C++: it plans drawing files, and writes them.
 *
 * The archive is made by `rt lib` in crates/planner_c (crates/planner_c/out/libplanner_c.a, for x86-64 Linux):
 *
 *     cc program.c -I bindings crates/planner_c/out/libplanner_c.a
 *
 * bindings/example.c is such a program. docs/DRAWING-FILE.md has the drawing file and what each refusal means. The archive
 * takes two names that a program might have given to something else: `plan` and `save_drawing`. All other names begin with
 * planner_ or PLANNER_.
 */
#ifndef CARDERMOSS_PLANNER_H
#define CARDERMOSS_PLANNER_H

#include <stddef.h>
#include <stdint.h>

#ifdef __cplusplus
extern "C" {
#endif

/* Why a drawing is refused: the first condition that holds, in this order. 16 is of save_drawing alone, and 4 says something
 * else there. 10 is given no more: it refused optimal pairing with more than 20 odd points, and such drawings are planned now. */
enum planner_refusal {
    PLANNER_PLANNED = 0,              /* not refused */
    PLANNER_SAVED = 0,                /* the same, of save_drawing */
    PLANNER_FILE_TOO_LONG = 1,        /* more than 65,536 bytes */
    PLANNER_RECORD_CUT_OFF = 2,       /* a record's head or body passes the end of the file */
    PLANNER_RECORDS_OUT_OF_ORDER = 3, /* not one settings, then lines, then links */
    PLANNER_RECORD_LENGTH = 4,        /* a body has not the length that its kind asks; of save_drawing: the lists do not fit
                                         one another */
    PLANNER_SETTING_OUT_OF_RANGE = 5, /* width, height, pairing or flags */
    PLANNER_TOO_MUCH = 6,             /* more than 256 lines, 1,024 points or 255 links */
    PLANNER_OWN_LINKS = 15,           /* flag 4 asks for links, and the file has links of its own */
    PLANNER_OFF_THE_GRID = 7,         /* a coordinate is no multiple of 1/1024 from -4,096 to 4,096 */
    PLANNER_LINK_ASTRAY = 8,          /* a link names a line or a segment that is not there */
    PLANNER_UNLINKED = 9,             /* some part can't be reached from the first point; never with flag 4 */
    PLANNER_TABLES_TOO_SMALL = 11,    /* optimal pairing, and tables too short for the odd points: see below */
    PLANNER_NO_WAY_BACK = 12,         /* proved never to happen */
    PLANNER_TOO_MANY_STEPS = 13,      /* with its retraces the drawing has more than 4,000 strokes */
    PLANNER_OUTPUT_TOO_SMALL = 14,    /* less than 6 bytes and 16 for each point of the line */
    PLANNER_DESTINATION_TOO_SMALL = 16 /* of save_drawing, never of plan: the destination is shorter than the file */
};

/* Sizes to lend. Only optimal pairing needs tables, from 4 odd points on: for a drawing with n of them 2^n + n*n floats and
 * 2^n bytes, and where n is above PLANNER_MOST_OPTIMAL n*n floats and no bytes. A drawing has at most PLANNER_MOST_ODD.
 *
 * With 4 to PLANNER_MOST_OPTIMAL odd points optimal pairing compares all choices of pairs, and none that leaves two points out
 * costs less than the one taken. A pair costs the least distance along the strokes from its earlier point in the drawing to its
 * later; the pairs are added from 0.0 on, in falling order of their earlier points, each sum rounded. What PLANNER_CLOSE adds is
 * not in that sum; `retrace` is added piece by piece, along ways that fit the least distances within 1e-10, so it can differ from
 * it by that little; and with more odd points nothing of the kind is promised (docs/DRAWING-FILE.md, 'The line').
 *
 * Tables of PLANNER_ENOUGH_FLOATS and PLANNER_ENOUGH_BYTES (8.4 MB and 1 MB) are enough for every drawing: whoever lends these
 * is never given PLANNER_TABLES_TOO_SMALL. They are the tables for 20 odd points. The tables for more than 20 have no bytes, so
 * they are not enough for 4 to 20.
 *
 * PLANNER_MOST_POINTS is of the line that plan answers, so that an output for so many is large enough for every line; a
 * drawing may have PLANNER_MOST_DRAWN_POINTS.
 *
 * (n & 31 is n where it counts. Above 63 a shift by n itself would be undefined.) */
#define PLANNER_MOST_OPTIMAL 20
#define PLANNER_MOST_ODD 1022
#define PLANNER_BYTES_FOR(n) ((n) > PLANNER_MOST_OPTIMAL ? (size_t)0 : (size_t)1 << ((n) & 31))
#define PLANNER_FLOATS_FOR(n) (PLANNER_BYTES_FOR(n) + (size_t)(n) * (size_t)(n))
#define PLANNER_ENOUGH_FLOATS PLANNER_FLOATS_FOR(PLANNER_MOST_OPTIMAL)
#define PLANNER_ENOUGH_BYTES PLANNER_BYTES_FOR(PLANNER_MOST_OPTIMAL)
#define PLANNER_MOST_POINTS 4001
#define PLANNER_OUTPUT_FOR(points) (6 + 16 * (size_t)(points))

/* The answer. Where refusal is not 0, the other members are 0. */
struct planner_outcome {
    uint32_t refusal; /* a planner_refusal */
    double retrace;   /* the length, in pixels, of what is gone over again */
    size_t before;    /* odd points before repair */
    size_t after;     /* odd points after it: 0 or 2 */
    size_t points;    /* points of the line */
};

/* Plans the drawing file of file_length bytes. A coordinate that is -0.0 there is read as 0.0, and the line has no -0.0.
 *
 * Planned: the front of the output holds the line as one record: its body's length as four bytes, the kind 4 as two,
 * then x and y of each point as 8-byte floats, all little-endian. Later bytes of the output keep their values.
 * Refused: all of the output keeps its values.
 * In both cases every entry of both tables is 0 (+0.0) afterwards, whatever they held before.
 *
 * The caller sees to this: each pointer points to that many bytes or doubles (it may be null where the length is 0),
 * doubles are aligned as C aligns them, the four ranges do not overlap, and nobody else reads or writes them before the
 * call returns. The call keeps no pointer, takes no memory from the heap and has no state of its own, so several
 * threads may call it at once, each with its own tables and output. The planner's arrays stand on the stack of the
 * calling thread: 331,320 bytes were the most that a drawing of those tried took (docs/PERFORMANCE.md), and tools/test runs
 * the examples with 2 MB.
 */
struct planner_outcome plan(const uint8_t *file, size_t file_length, double *floats, size_t floats_length,
                            uint8_t *bytes, size_t bytes_length, uint8_t *output, size_t output_length);

/* ---- saving a drawing */

/* Settings. Flags are added up, 0 is none. What PLANNER_OPTIMAL promises is said above PLANNER_MOST_OPTIMAL. */
#define PLANNER_GREEDY 0
#define PLANNER_OPTIMAL 1
#define PLANNER_CLOSE 1
#define PLANNER_INSIDE 2
#define PLANNER_LINK 4

/* The most that a drawing may have, points counted in all lines together, and the bytes of the largest file: a destination
 * of so many bytes is never too short. */
#define PLANNER_MOST_LINES 256
#define PLANNER_MOST_DRAWN_POINTS 1024
#define PLANNER_MOST_LINKS 255
#define PLANNER_MOST_FILE 29666

/* The answer of save_drawing. Where refusal is not 0, bytes is 0. */
struct planner_saved {
    uint32_t refusal; /* a planner_refusal */
    size_t bytes;     /* of the file */
};

/* Writes the one drawing file that the planner reads as this drawing. A coordinate that is -0.0 is saved as 0.0, as the
 * planner reads it: the file has no -0.0, and of the files without -0.0 no other is read as this drawing.
 *
 * sizes has, for each line, how many points it has; coordinates has x and y of each point, all lines one behind the other.
 * segments has, for each link, the line and the segment of its first end and the line and the segment of its second; ends
 * has x and y of its first end and x and y of its second.
 *
 * Saved: the front of the destination holds the file. Later bytes of the destination keep their values.
 * Refused: all of the destination keeps its values. The numbers are, in this order:
 *     4           the lists do not fit one another: coordinates are not two for each point, or segments and ends not four
 *                 each for each link (this is all that 4 says here)
 *     5 6 15 7 8  what the planner would say of the file, each asked of the whole drawing before the next
 *     16          the destination is shorter than the file
 * No number is cut down to the width that the file has for it: line 65,537 is not there and is refused with 8. 9 to 14 are
 * not asked: a drawing can be saved while its lines are not linked yet.
 *
 * The caller sees to this: each pointer points to that many entries (it may be null where the length is 0), aligned as C
 * aligns them, the destination overlaps none of the lists, nobody else writes any of them before the call returns, and
 * nobody else reads the destination. The call keeps no pointer, takes no memory from the heap and has no state of its own, so
 * several threads may call it at once, each with its own destination. 256 bytes of stack were enough for every drawing
 * tried.
 */
struct planner_saved save_drawing(uint32_t width, uint32_t height, uint8_t pairing, uint8_t flags, const uint32_t *sizes,
                                  size_t sizes_length, const double *coordinates, size_t coordinates_length,
                                  const uint32_t *segments, size_t segments_length, const double *ends,
                                  size_t ends_length, uint8_t *destination, size_t destination_length);

/* ---- a drawing made step by step, for a program that has no such lists. This is plain C, tested and not proved; what it hands
 * to save_drawing is saved as proved. planner_begin comes first. No memory is taken from the heap.
 *
 *     struct planner_drawing d; // 30 KB
 *     uint8_t file[PLANNER_MOST_FILE];
 *     planner_begin(&d, 10, 10, PLANNER_GREEDY, 0);
 *     planner_line(&d);
 *     planner_point(&d, 0, 0);
 *     planner_point(&d, 8, 0);
 *     planner_line(&d);
 *     planner_point(&d, 4, 4);
 *     planner_link(&d, planner_at(0, 0, 4, 0), planner_at(1, 0, 4, 4));
 *     struct planner_saved saved = planner_save(&d, file, sizeof file);
 *
 * Nothing is checked before planner_save, which answers as save_drawing does, and never 4.
 */

/* Each array has room for one more than a drawing may have, so that the writer sees a drawing that is too large and refuses
 * it with 6. What is more than one too many is not kept: 6 is given all the same, and nothing of such a drawing is written.
 * (Only 5 comes before 6, and it is about the settings, which are kept.) */
struct planner_drawing {
    uint32_t width, height;
    uint8_t pairing, flags;
    size_t lines, points, links; /* how many there are */
    uint32_t sizes[PLANNER_MOST_LINES + 1];
    double coordinates[2 * (PLANNER_MOST_DRAWN_POINTS + 1)];
    uint32_t segments[4 * (PLANNER_MOST_LINKS + 1)];
    double ends[4 * (PLANNER_MOST_LINKS + 1)];
};

/* An end of a link: the line and the segment that it names, counted from 0, and its point. */
struct planner_end {
    size_t line, segment;
    double x, y;
};

/* A number as a u32. One that is too large becomes the largest, which is too large for every setting and no line's or
 * segment's number, so it is refused as the number itself would be. */
static inline uint32_t planner_number(size_t number)
{
    return number < UINT32_MAX ? (uint32_t)number : UINT32_MAX;
}

/* A byte, likewise. */
static inline uint8_t planner_byte(size_t number)
{
    return number < UINT8_MAX ? (uint8_t)number : UINT8_MAX;
}

/* Begins a drawing without lines and links. It comes before all other calls, and whatever d held is gone. */
static inline void planner_begin(struct planner_drawing *d, size_t width, size_t height, size_t pairing, size_t flags)
{
    d->width = planner_number(width);
    d->height = planner_number(height);
    d->pairing = planner_byte(pairing);
    d->flags = planner_byte(flags);
    d->lines = 0;
    d->points = 0;
    d->links = 0;
}

/* Starts a line without points, and returns its number, which links name. */
static inline size_t planner_line(struct planner_drawing *d)
{
    if (d->lines <= PLANNER_MOST_LINES)
        d->sizes[d->lines++] = 0;
    return d->lines - 1;
}

/* Adds a point to the line that was started last; where there is none, it starts one. Any x and y may be handed in; what is not on
 * the grid of 1/1024 is refused with 7 when the drawing is saved, and -0.0 is saved as 0.0. on_grid of bindings/example.c rounds
 * to the grid. */
static inline void planner_point(struct planner_drawing *d, double x, double y)
{
    if (d->lines == 0)
        planner_line(d);
    if (d->points > PLANNER_MOST_DRAWN_POINTS)
        return;
    d->coordinates[2 * d->points] = x;
    d->coordinates[2 * d->points + 1] = y;
    d->points++;
    d->sizes[d->lines - 1]++;
}

static inline struct planner_end planner_at(size_t line, size_t segment, double x, double y)
{
    struct planner_end end;
    end.line = line;
    end.segment = segment;
    end.x = x;
    end.y = y;
    return end;
}

/* Adds a link. The lines that it names may come later. */
static inline void planner_link(struct planner_drawing *d, struct planner_end first, struct planner_end second)
{
    size_t at = 4 * d->links;
    if (d->links > PLANNER_MOST_LINKS)
        return;
    d->segments[at] = planner_number(first.line);
    d->segments[at + 1] = planner_number(first.segment);
    d->segments[at + 2] = planner_number(second.line);
    d->segments[at + 3] = planner_number(second.segment);
    d->ends[at] = first.x;
    d->ends[at + 1] = first.y;
    d->ends[at + 2] = second.x;
    d->ends[at + 3] = second.y;
    d->links++;
}

/* Saves the drawing, which stays as it is and can be gone on with. */
static inline struct planner_saved planner_save(const struct planner_drawing *d, uint8_t *destination, size_t destination_length)
{
    return save_drawing(d->width, d->height, d->pairing, d->flags, d->sizes, d->lines, d->coordinates, 2 * d->points,
                        d->segments, 4 * d->links, d->ends, 4 * d->links, destination, destination_length);
}

#ifdef __cplusplus
}
#endif

#endif
