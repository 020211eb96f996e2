/* Plans a drawing file and prints what the program `plan` prints; makes, saves and plans a drawing; saves numbers.
 *
 *     cc -O2 bindings/example.c -I bindings crates/planner_c/out/libplanner_c.a -o example
 *     ./example DRAWING                          with what `plan` lends
 *     ./example DRAWING FLOATS BYTES OUTPUT      with tables and an output of these lengths
 *     ./example --build DRAWING                  makes a drawing as an editor does, saves it there, and plans the file
 *     ./example --save < NUMBERS > DRAWING       saves a drawing given in numbers
 *
 * NUMBERS are words and numbers, parted by blanks or ends of rows. Each list begins with how many entries it has, and a
 * coordinate is its 64 bits in hexadecimal digits. This is a line from (0, 0) to (3, 4):
 *
 *     destination 29666
 *     settings 10 10 0 0
 *     sizes 1 2
 *     coordinates 4 0000000000000000 0000000000000000 4008000000000000 4010000000000000
 *     segments 0
 *     ends 0
 *
 * Where saving is refused, nothing is printed, 'refused N' stands on standard error, and the status is 1.
 *
 * It also sees whether the calls kept their contract about what they were lent: tables zero, the other bytes of the output
 * and of the destination as they were. If not, it says so and ends with status 3.
 */
#include "planner.h"

#include <inttypes.h>
#include <stdio.h>
#include <stdlib.h>
#include <string.h>

/* as the archive is compiled */
_Static_assert(sizeof(struct planner_outcome) == 40, "the outcome's size");
_Static_assert(sizeof((struct planner_outcome){0}.refusal) == 4, "refusal is a uint32_t");
_Static_assert(offsetof(struct planner_outcome, retrace) == 8, "retrace");
_Static_assert(offsetof(struct planner_outcome, before) == 16, "before");
_Static_assert(offsetof(struct planner_outcome, after) == 24, "after");
_Static_assert(offsetof(struct planner_outcome, points) == 32, "points");
_Static_assert(sizeof(struct planner_saved) == 16, "the size of what saving answers");
_Static_assert(sizeof((struct planner_saved){0}.refusal) == 4, "its refusal is a uint32_t");
_Static_assert(offsetof(struct planner_saved, refusal) == 0, "its refusal");
_Static_assert(offsetof(struct planner_saved, bytes) == 8, "bytes");
_Static_assert(PLANNER_FLOATS_FOR(4) == 32 && PLANNER_BYTES_FOR(4) == 16, "tables for 4 odd points");
_Static_assert(PLANNER_FLOATS_FOR(22) == 484 && PLANNER_BYTES_FOR(22) == 0, "and for 22");
_Static_assert(PLANNER_ENOUGH_FLOATS == 1048976 && PLANNER_ENOUGH_BYTES == 1048576, "and for every drawing");
_Static_assert(PLANNER_FLOATS_FOR(PLANNER_MOST_ODD) <= PLANNER_ENOUGH_FLOATS, "the most odd points among them");
_Static_assert(PLANNER_MOST_FILE == 16 + 6 * PLANNER_MOST_LINES + 16 * PLANNER_MOST_DRAWN_POINTS + 46 * PLANNER_MOST_LINKS,
               "the largest file: settings, heads of lines, points, links");

enum { MOST_FILE = 1 << 20, UNTOUCHED = 0xA5, BEHIND = 64 };

static double number_of(uint64_t bits)
{
    double value;
    memcpy(&value, &bits, sizeof value);
    return value;
}

static double coordinate(const uint8_t *from)
{
    uint64_t bits = 0;
    for (int i = 7; i >= 0; i--)
        bits = bits << 8 | from[i];
    return number_of(bits);
}

static void broken(const char *promise)
{
    printf("not kept: %s\n", promise);
    exit(3);
}

static void wrong(const char *words)
{
    fprintf(stderr, "example: %s\n", words);
    exit(2);
}

/* Memory for so many bytes. malloc may give a null pointer for no bytes at all, which the planner takes. */
static void *room(size_t bytes)
{
    void *memory = bytes ? malloc(bytes) : NULL;
    if (bytes && !memory)
        wrong("there is not enough memory");
    return memory;
}

/* ---- planning a file */

static void check_lent(struct planner_outcome r, const double *floats, size_t floats_length, const uint8_t *bytes,
                       size_t bytes_length, const uint8_t *output, size_t output_length)
{
    const double zero = 0.0;
    for (size_t i = 0; i < floats_length; i++)
        if (memcmp(&floats[i], &zero, sizeof zero) != 0)
            broken("the f64 table is zero afterwards");
    for (size_t i = 0; i < bytes_length; i++)
        if (bytes[i] != 0)
            broken("the byte table is zero afterwards");
    for (size_t i = r.refusal ? 0 : PLANNER_OUTPUT_FOR(r.points); i < output_length; i++)
        if (output[i] != UNTOUCHED)
            broken("bytes of the output behind the line keep their values");
    if (r.refusal && (r.retrace != 0 || r.before || r.after || r.points))
        broken("a refusal's other members are 0");
}

static void print(struct planner_outcome r, const uint8_t *output)
{
    uint64_t bits;
    if (r.refusal) {
        printf("refused %" PRIu32 "\n", r.refusal);
        return;
    }
    memcpy(&bits, &r.retrace, sizeof bits);
    printf("ok %016" PRIx64 " %zu %zu %zu\n", bits, r.before, r.after, r.points);
    for (size_t i = 0; i < r.points; i++) {
        const uint8_t *point = output + PLANNER_OUTPUT_FOR(i);
        printf("%ld %ld\n", (long)(coordinate(point) * 1024), (long)(coordinate(point + 8) * 1024));
    }
}

static void planned(const char *path, const size_t *lengths)
{
    FILE *source = fopen(path, "rb");
    if (!source)
        wrong("there is no such drawing");
    uint8_t *file = room(MOST_FILE);
    double *floats = room(lengths[0] * sizeof *floats);
    uint8_t *bytes = room(lengths[1]);
    uint8_t *output = room(lengths[2]);
    size_t file_length = fread(file, 1, MOST_FILE, source);
    fclose(source);
    for (size_t i = 0; i < lengths[0]; i++)
        floats[i] = -1.5;
    if (bytes)
        memset(bytes, UNTOUCHED, lengths[1]);
    if (output)
        memset(output, UNTOUCHED, lengths[2]);
    struct planner_outcome r = plan(file, file_length, floats, lengths[0], bytes, lengths[1], output, lengths[2]);
    check_lent(r, floats, lengths[0], bytes, lengths[1], output, lengths[2]);
    print(r, output);
    free(file);
    free(floats);
    free(bytes);
    free(output);
}

/* ---- saving a drawing */

/* A destination, and bytes behind it that are not lent. A destination of no bytes is a null pointer. */
static uint8_t *destination_for(size_t length)
{
    uint8_t *memory = room(length + BEHIND);
    memset(memory, UNTOUCHED, length + BEHIND);
    return memory;
}

static void check_destination(struct planner_saved r, const uint8_t *destination, size_t length)
{
    if (r.refusal && r.bytes)
        broken("where a drawing is refused, bytes is 0");
    if (r.bytes > length)
        broken("the file fits the destination");
    for (size_t i = r.bytes; i < length; i++)
        if (destination[i] != UNTOUCHED)
            broken(r.refusal ? "refused, the destination keeps its bytes" : "bytes of the destination behind the file keep their values");
    for (size_t i = length; i < length + BEHIND; i++)
        if (destination[i] != UNTOUCHED)
            broken("nothing behind the destination is touched");
}

/* Saves a drawing to a destination of this length; sees that the drawing and what was lent are as promised. */
static struct planner_saved saved_to(const struct planner_drawing *d, uint8_t *destination, size_t length)
{
    static struct planner_drawing before;
    memcpy(&before, d, sizeof before);
    struct planner_saved r = planner_save(d, length ? destination : NULL, length);
    if (memcmp(&before, d, sizeof before) != 0)
        broken("the drawing stays as it is");
    check_destination(r, destination, length);
    return r;
}

/* The nearest coordinate on the grid; half a step goes away from 0. What lies outside -4,096 to 4,096, or is no number, stays as
 * it is, so that saving gives 7. The product and the rest are exact. A zero comes out as 0.0, since a whole number has no -0; the
 * writer would take -0.0 as well, and save 0.0. */
static double on_grid(double pixels)
{
    if (!(pixels >= -4096 && pixels <= 4096))
        return pixels;
    long steps = (long)(pixels * 1024);
    double rest = pixels * 1024 - (double)steps;
    if (rest >= 0.5)
        steps++;
    if (rest <= -0.5)
        steps--;
    return (double)steps / 1024;
}

static void check_grid(void)
{
    const double step = 1.0 / 1024, below_half = 0.49999999999999994;
    const double infinite = number_of(0x7ff0000000000000), no_number = number_of(0x7ff8000000000000);
    const double tried[][2] = {{0, 0}, {-0.0, 0}, {0.1, 102 * step}, {-0.1, -102 * step}, {below_half * step, 0}, {-below_half * step, 0},
                               {0.5 * step, step}, {-0.5 * step, -step}, {-0.0001, 0}, {-number_of(1), 0}, {4096, 4096}, {-4096, -4096},
                               {4095.9999, 4096}, {4096.0001, 4096.0001}, {-1e300, -1e300}, {infinite, infinite}, {no_number, no_number}};
    for (size_t i = 0; i < sizeof tried / sizeof *tried; i++) {
        double found = on_grid(tried[i][0]);
        if (memcmp(&found, &tried[i][1], sizeof found) != 0)
            broken("on_grid gives the nearest coordinate, and leaves what is too far");
    }
}

/* A point of a hexagon around (12, 12), for corners 0 to 5. */
static void corner(struct planner_drawing *d, double radius, int number)
{
    const double x[6] = {1, 0.5, -0.5, -1, -0.5, 0.5};
    const double half_root_3 = 0.8660254037844386, y[6] = {0, 1, 1, 0, -1, -1};
    planner_point(d, on_grid(12 + radius * x[number]), on_grid(12 + radius * half_root_3 * y[number]));
}

/* examples/saved-by-an-editor.txt: a hexagon, a triangle in it and a link between them. */
static void draw(struct planner_drawing *d)
{
    planner_begin(d, 24, 24, PLANNER_GREEDY, PLANNER_CLOSE);
    size_t hexagon = planner_line(d);
    for (int i = 0; i <= 6; i++)
        corner(d, 10, i % 6);
    size_t triangle = planner_line(d);
    for (int i = 0; i <= 6; i += 2)
        corner(d, 5, i % 6);
    planner_link(d, planner_at(hexagon, 0, 22, 12), planner_at(triangle, 0, 17, 12));
}

/* How many records of this kind a file has. */
static size_t records(const uint8_t *file, size_t length, unsigned kind)
{
    size_t found = 0, at = 0;
    while (at < length) {
        found += (file[at + 4] | (unsigned)file[at + 5] << 8) == kind;
        at += 6 + (file[at] | (size_t)file[at + 1] << 8 | (size_t)file[at + 2] << 16 | (size_t)file[at + 3] << 24);
    }
    return found;
}

/* Lines that the planner links. The links that it makes stay out of the drawing: saved again, it has none. */
static void linked_by_the_planner(void)
{
    static struct planner_drawing d;
    uint8_t *file = destination_for(PLANNER_MOST_FILE), *again = destination_for(PLANNER_MOST_FILE);
    size_t output_length = PLANNER_OUTPUT_FOR(PLANNER_MOST_POINTS);
    uint8_t *output = room(output_length);
    planner_begin(&d, 12, 12, PLANNER_GREEDY, PLANNER_LINK);
    for (int y = 2; y <= 10; y += 4) {
        planner_line(&d);
        planner_point(&d, 1, y);
        planner_point(&d, 11, y);
    }
    struct planner_saved r = saved_to(&d, file, PLANNER_MOST_FILE);
    if (r.refusal || plan(file, r.bytes, NULL, 0, NULL, 0, output, output_length).refusal)
        broken("lines that the planner is to link are saved and planned");
    struct planner_saved s = saved_to(&d, again, PLANNER_MOST_FILE);
    if (s.refusal || s.bytes != r.bytes || memcmp(file, again, r.bytes) != 0)
        broken("planned, a drawing is saved as before");
    if (records(again, s.bytes, 2) != 3 || records(again, s.bytes, 3) != 0)
        broken("links that the planner makes are not saved");
    free(file);
    free(again);
    free(output);
}

/* A line, a dot and a link between them, with points on both axes; zero is 0.0 or -0.0. */
static void draw_zeros(struct planner_drawing *d, double zero)
{
    planner_begin(d, 8, 8, PLANNER_GREEDY, 0);
    planner_line(d);
    planner_point(d, zero, zero);
    planner_point(d, 3, zero);
    planner_point(d, zero, 4);
    planner_line(d);
    planner_point(d, -2, zero);
    planner_link(d, planner_at(0, 0, zero, zero), planner_at(1, 0, -2, zero));
}

/* A -0.0 that is handed to the writer is saved as 0.0, and the drawing keeps its own. */
static void minus_zeros_saved(void)
{
    static struct planner_drawing plain, minus;
    uint8_t *file = destination_for(PLANNER_MOST_FILE), *again = destination_for(PLANNER_MOST_FILE);
    draw_zeros(&plain, 0.0);
    draw_zeros(&minus, -0.0);
    if (memcmp(plain.coordinates, minus.coordinates, sizeof(double)) == 0 || memcmp(plain.ends, minus.ends, sizeof(double)) == 0)
        broken("0.0 and -0.0 are handed in as two patterns");
    struct planner_saved r = saved_to(&plain, file, PLANNER_MOST_FILE), s = saved_to(&minus, again, PLANNER_MOST_FILE);
    if (r.refusal || s.refusal || r.bytes != s.bytes || memcmp(file, again, r.bytes) != 0)
        broken("-0.0 is saved as 0.0");
    free(file);
    free(again);
}

/* A comb of 20 teeth with optimal pairing: 42 odd points. So many floats as PLANNER_FLOATS_FOR says are just enough, and no bytes
 * are needed. */
static void many_odd_points(void)
{
    enum { TEETH = 20, ODD = 2 * TEETH + 2 };
    static struct planner_drawing d;
    const size_t tried[][2] = {{PLANNER_FLOATS_FOR(ODD), PLANNER_BYTES_FOR(ODD)}, {PLANNER_FLOATS_FOR(ODD) - 1, PLANNER_ENOUGH_BYTES},
                               {PLANNER_ENOUGH_FLOATS, PLANNER_ENOUGH_BYTES}};
    size_t output_length = PLANNER_OUTPUT_FOR(PLANNER_MOST_POINTS);
    uint8_t *file = destination_for(PLANNER_MOST_FILE), *output = room(output_length);
    double *floats = room(PLANNER_ENOUGH_FLOATS * sizeof *floats);
    uint8_t *bytes = room(PLANNER_ENOUGH_BYTES);
    planner_begin(&d, 46, 13, PLANNER_OPTIMAL, 0);
    planner_line(&d);
    for (int x = 2; x <= 2 * TEETH + 4; x += 2)
        planner_point(&d, x, 4);
    for (int x = 4; x <= 2 * TEETH + 2; x += 2) {
        planner_line(&d);
        planner_point(&d, x, 4);
        planner_point(&d, x, 10);
    }
    struct planner_saved r = saved_to(&d, file, PLANNER_MOST_FILE);
    for (size_t i = 0; i < sizeof tried / sizeof *tried; i++) {
        for (size_t k = 0; k < tried[i][0]; k++)
            floats[k] = -1.5;
        memset(bytes, UNTOUCHED, tried[i][1]);
        memset(output, UNTOUCHED, output_length);
        struct planner_outcome o = plan(file, r.bytes, floats, tried[i][0], tried[i][1] ? bytes : NULL, tried[i][1], output, output_length);
        check_lent(o, floats, tried[i][0], bytes, tried[i][1], output, output_length);
        if (tried[i][0] < PLANNER_FLOATS_FOR(ODD) ? o.refusal != PLANNER_TABLES_TOO_SMALL : o.refusal || o.before != ODD)
            broken("n*n floats are just enough for n odd points above 20");
    }
    free(file);
    free(floats);
    free(bytes);
    free(output);
}

static void built(const char *path)
{
    static struct planner_drawing d;
    const size_t lengths[3] = {0, 0, PLANNER_OUTPUT_FOR(PLANNER_MOST_POINTS)};
    uint8_t *file = destination_for(PLANNER_MOST_FILE), *again = destination_for(PLANNER_MOST_FILE);
    check_grid();
    draw(&d);
    struct planner_saved r = saved_to(&d, file, PLANNER_MOST_FILE);
    if (r.refusal)
        broken("this drawing is saved");
    if (saved_to(&d, again, r.bytes - 1).refusal != PLANNER_DESTINATION_TOO_SMALL || saved_to(&d, again, 0).refusal != PLANNER_DESTINATION_TOO_SMALL)
        broken("a destination that is too short is told by 16");
    if (saved_to(&d, again, r.bytes).refusal || memcmp(file, again, r.bytes) != 0)
        broken("a destination as long as the file is enough");
    memset(again, UNTOUCHED, r.bytes);
    /* drawings that are not taken: a point between two steps of the grid; lines that are not there, and would be line 0 if
       their numbers were cut down to what the file, or a list, has for them */
    planner_point(&d, 0.0001, 0);
    if (saved_to(&d, again, PLANNER_MOST_FILE).refusal != PLANNER_OFF_THE_GRID)
        broken("a point off the grid is told by 7");
    for (int bits = 16; bits <= 32; bits += 16) {
        draw(&d);
        planner_link(&d, planner_at(0, 0, 22, 12), planner_at((size_t)1 << bits, 0, 22, 12));
        if (saved_to(&d, again, PLANNER_MOST_FILE).refusal != PLANNER_LINK_ASTRAY)
            broken("a link to no line is told by 8");
    }
    /* far more than a drawing may have */
    for (int i = 0; i < 3000; i++) {
        planner_line(&d);
        planner_point(&d, 1, 1);
        planner_link(&d, planner_at(0, 0, 22, 12), planner_at(1, 0, 17, 12));
    }
    if (saved_to(&d, again, PLANNER_MOST_FILE).refusal != PLANNER_TOO_MUCH)
        broken("too much is told by 6");
    linked_by_the_planner();
    minus_zeros_saved();
    many_odd_points();
    FILE *target = fopen(path, "wb");
    if (!target || fwrite(file, 1, r.bytes, target) != r.bytes || fclose(target) != 0)
        wrong("the drawing can't be written there");
    free(file);
    free(again);
    planned(path, lengths);
}

/* ---- saving numbers */

static uint64_t whole(uint64_t most)
{
    uint64_t value;
    if (scanf("%" SCNu64, &value) != 1 || value > most)
        wrong("a whole number is missing, or too large");
    return value;
}

static void word(const char *wanted)
{
    char found[16];
    if (scanf("%15s", found) != 1 || strcmp(found, wanted) != 0)
        wrong("a list is missing, or not at its place");
}

static uint32_t *numbers(const char *name, size_t *length)
{
    word(name);
    *length = whole(1 << 24);
    uint32_t *list = room(*length * sizeof *list);
    for (size_t i = 0; i < *length; i++)
        list[i] = (uint32_t)whole(UINT32_MAX);
    return list;
}

static double *coordinates(const char *name, size_t *length)
{
    word(name);
    *length = whole(1 << 24);
    double *list = room(*length * sizeof *list);
    for (size_t i = 0; i < *length; i++) {
        uint64_t bits;
        if (scanf("%" SCNx64, &bits) != 1)
            wrong("a coordinate is missing");
        list[i] = number_of(bits);
    }
    return list;
}

/* Answers the number of the refusal, or 0. */
static uint32_t saved(void)
{
    static struct planner_drawing d;
    uint64_t settings[4];
    size_t sizes_length, coordinates_length, segments_length, ends_length, points = 0, at = 0;
    word("destination");
    size_t length = whole(1 << 24);
    word("settings");
    for (int i = 0; i < 4; i++)
        settings[i] = whole(i < 2 ? UINT32_MAX : UINT8_MAX);
    uint32_t *sizes = numbers("sizes", &sizes_length);
    double *points_at = coordinates("coordinates", &coordinates_length);
    uint32_t *segments = numbers("segments", &segments_length);
    double *ends = coordinates("ends", &ends_length);

    uint8_t *destination = destination_for(length);
    struct planner_saved r = save_drawing(
        (uint32_t)settings[0], (uint32_t)settings[1], (uint8_t)settings[2], (uint8_t)settings[3], sizes, sizes_length,
        points_at, coordinates_length, segments, segments_length, ends, ends_length, length ? destination : NULL, length);
    check_destination(r, destination, length);

    /* Made step by step, the same drawing has the same answer and the same file. Lists that don't fit are no drawing. */
    for (size_t i = 0; i < sizes_length; i++)
        points += sizes[i];
    if (2 * points == coordinates_length && segments_length % 4 == 0 && segments_length == ends_length) {
        uint8_t *again = destination_for(length);
        planner_begin(&d, settings[0], settings[1], settings[2], settings[3]);
        for (size_t i = 0; i < sizes_length; i++) {
            planner_line(&d);
            for (uint32_t k = 0; k < sizes[i]; k++, at += 2)
                planner_point(&d, points_at[at], points_at[at + 1]);
        }
        for (size_t i = 0; i < segments_length; i += 4)
            planner_link(&d, planner_at(segments[i], segments[i + 1], ends[i], ends[i + 1]),
                         planner_at(segments[i + 2], segments[i + 3], ends[i + 2], ends[i + 3]));
        struct planner_saved step_by_step = saved_to(&d, again, length);
        if (step_by_step.refusal != r.refusal || step_by_step.bytes != r.bytes || memcmp(again, destination, length) != 0)
            broken("made step by step, a drawing is saved as it is from lists");
        free(again);
    } else if (r.refusal != PLANNER_RECORD_LENGTH) {
        broken("lists that do not fit one another are told by 4");
    }

    if (r.refusal)
        fprintf(stderr, "refused %" PRIu32 "\n", r.refusal);
    else if (fwrite(destination, 1, r.bytes, stdout) != r.bytes || fflush(stdout) != 0)
        wrong("the file can't be written");
    free(sizes);
    free(points_at);
    free(segments);
    free(ends);
    free(destination);
    return r.refusal;
}

int main(int argc, char **argv)
{
    size_t lengths[3] = {PLANNER_FLOATS_FOR(12), PLANNER_BYTES_FOR(12), PLANNER_OUTPUT_FOR(PLANNER_MOST_POINTS)};
    if (argc == 2 && strcmp(argv[1], "--save") == 0) {
        return saved() ? 1 : 0;
    } else if (argc == 3 && strcmp(argv[1], "--build") == 0) {
        built(argv[2]);
    } else if (argc == 2 || argc == 5) {
        for (int i = 0; i < argc - 2; i++)
            lengths[i] = strtoull(argv[2 + i], NULL, 10);
        planned(argv[1], lengths);
    } else {
        fprintf(stderr, "usage: example DRAWING [FLOATS BYTES OUTPUT] | --build DRAWING | --save\n");
        return 2;
    }
    return 0;
}
