#!/usr/bin/env python3
"""Shows that the comparison with the port sees a planner, and a writer, that does what it must not.

usage: oracle/faulty.py SOURCE OUT ARCHIVE

SOURCE, OUT and ARCHIVE are those of oracle/build SOURCE OUT --planner ARCHIVE. Puts a layer over the planner and the writer of
ARCHIVE that does one of the things below after a call, and runs the oracle's comparison on it; fails if one of them is not seen.
It needs a C compiler and objcopy.
"""
import os
import pathlib
import random
import shutil
import subprocess
import sys

import drawing as d
import handed
from generate import KINDS, MINUS_ZERO_KINDS, bits

HERE = pathlib.Path(__file__).resolve().parent

FAULTS = {
    "nothing, which is right": "",
    "reads behind the file": "sink = f[fl];",
    "reads before the file": "sink = f[-1];",
    "changes the file": "((uint8_t *)f)[0] ^= 1;",
    "leaves an f64 that is -0.0": "if (tl) t[tl - 1] = -0.0;",
    "reads before the f64 table": "sink = t[-1] != 0;",
    "writes behind the f64 table": "t[tl] = 0;",
    "leaves a byte of the byte table": "if (bl) b[0] = 1;",
    "writes behind the byte table": "b[bl] = 0;",
    "changes the output of a refused file": "if (r.refusal && ol) o[ol - 1] ^= 1;",
    "changes the byte behind the record": "if (!r.refusal && ol > 6 + 16 * r.points) o[6 + 16 * r.points] ^= 1;",
    "writes behind the output": "o[ol] = 0;",
    "changes a bit of a point": "if (!r.refusal && r.points) o[6] ^= 1;",
    "writes the last point twice": "if (!r.refusal && r.points && ol >= 22 + 16 * r.points) { memcpy(o + 6 + 16 * r.points, o + 16 * r.points - 10, 16);"
    " uint32_t l = 16 * ++r.points; memcpy(o, &l, 4); }",
    "leaves the last point out": "if (!r.refusal && r.points) { uint32_t l = 16 * --r.points; memcpy(o, &l, 4); memcpy(o + 6 + l, was + 6 + l, 16); }",
    "gives points for a refused file": "if (r.refusal) r.points = 1;",
    "gives a retrace of -0.0": "if (!r.refusal && r.retrace == 0) r.retrace = -0.0;",
    "counts one odd node more": "r.after += !r.refusal;",
    "accepts with a short output": "if (r.refusal == 14) r.refusal = 0;",
    "passes over flag 4": "uint8_t c[80000]; for (size_t i = 0; i < fl; i++) c[i] = f[i]; if (fl > 15) c[15] &= ~4; r = right(c, fl, t, tl, b, bl, o, ol);",
    "says 7 for 15": "if (r.refusal == 15) r.refusal = 7;",
    "refuses a flagged file with 9": "if (fl > 15 && f[15] & 4 && !r.refusal) r = (Outcome){9, 0, 0, 0, 0};",
}

BELOW, LOWEST = hex(bits(-1 / 1024)), hex(bits(-4096.0))

# Run on drawings with minus zeros. `was` is the output before the call; AGAIN is a call with other coordinates in the file.
ZERO_FAULTS = {
    "minus zero: nothing else, which is right": "",
    "minus zero: refuses it with 7": "if (!r.refusal && swapped(n, f, fl, 0, MINUS, 0)) { memcpy(o, was, ol); r = (Outcome){7, 0, 0, 0, 0}; }",
    "minus zero: reads it as a step below zero": f"AGAIN(0, MINUS, {BELOW})",
    "minus zero: reads it as a step below zero in lines": f"AGAIN(2, MINUS, {BELOW})",
    "minus zero: reads it as a step below zero in links": f"AGAIN(3, MINUS, {BELOW})",
    "minus zero: reads it as -4,096": f"AGAIN(0, MINUS, {LOWEST})",
    "minus zero: takes the number next to it": "AGAIN(0, MINUS + 1, 0)",
    "minus zero: takes the smallest number": "AGAIN(0, 1, 0)",
    "minus zero: writes it for each zero": "if (!r.refusal) for (size_t i = 0; i < r.points; i++) { SIGN(o + 6 + 16 * i) SIGN(o + 14 + 16 * i) }",
    "minus zero: writes it for one zero": "if (!r.refusal && r.points) SIGN(o + 6)",
    "minus zero: cleans the file": "if (swapped(n, f, fl, 0, MINUS, 0)) memcpy((uint8_t *)f, n, fl);",
}

# Of the writer: s, c, g, e are sizes, coordinates, segments and ends, o the destination, and sl to ol their lengths.
SAVER_FAULTS = {
    "the writer does nothing else, which is right": "",
    **{f"the writer reads behind the {name}": f"sink = {x}[{x}l] != 0;" for name, x in (
        ("sizes", "s"), ("coordinates", "c"), ("segments", "g"), ("ends", "e"), ("destination", "o"))},
    **{f"the writer reads before the {name}": f"sink = {x}[-1] != 0;" for name, x in (
        ("sizes", "s"), ("coordinates", "c"), ("segments", "g"), ("ends", "e"), ("destination", "o"))},
    "the writer changes a size": "if (sl) ((uint32_t *)s)[sl - 1] ^= 1;",
    "the writer changes a coordinate": "if (cl) ((uint64_t *)c)[0] ^= 1;",
    "the writer changes a segment": "if (gl) ((uint32_t *)g)[gl - 1] ^= 1;",
    "the writer changes an end": "if (el) ((uint64_t *)e)[0] ^= 1;",
    "the writer writes behind the destination": "o[ol] = 0;",
    "the writer writes before the destination": "o[-1] = 0;",
    "the writer changes the byte behind the file": "if (!r.refusal && ol > r.bytes) o[r.bytes] ^= 1;",
    "the writer clears the last byte of the destination": "if (!r.refusal && ol > r.bytes) o[ol - 1] = 0;",
    "the writer changes the destination of a refused drawing": "if (r.refusal && ol) o[ol - 1] ^= 1;",
    "the writer begins to write before it says 16": "if (r.refusal == 16 && ol > 5) o[0] = 10;",
    "the writer gives bytes for a refused drawing": "if (r.refusal) r.bytes = 16;",
    "the writer gives a byte more": "r.bytes += !r.refusal;",
    "the writer changes a bit of a coordinate": "if (!r.refusal && cl) o[22] ^= 1;",
    "the writer exchanges a link's ends":
    "if (!r.refusal && gl) for (int k = 0; k < 16; k++) { uint8_t *a = o + r.bytes - 32 + k, b = a[0]; a[0] = a[16]; a[16] = b; }",
    "the writer says 7 for 15": "if (r.refusal == 15) r.refusal = 7;",
    "the writer says 16 for 8 where both hold": "if (r.refusal == 8 && ol < 16 + 6 * sl + 8 * cl + 46 * (gl / 4)) r.refusal = 16;",
    "the writer says 6 for 4": "if (r.refusal == 4) r.refusal = 6;",
    "the writer cuts lines and segments to 16 bits": "static uint32_t n[300000]; for (size_t i = 0; i < gl; i++) n[i] = (uint16_t)g[i];"
    " r = right_save(w, h, p, f, s, sl, c, cl, n, gl, e, el, o, ol);",
    "the writer refuses -0.0": "if (!r.refusal && (has_minus(c, cl) || has_minus(e, el))) { memcpy(o, was, ol); r = (Saved){7, 0}; }",
    "the writer keeps the sign of -0.0 in lines": "if (!r.refusal) put(o, r.bytes, c, cl, 0, MINUS);",
    "the writer keeps the sign of -0.0 in links": "if (!r.refusal) put(o, r.bytes, e, el, cl, MINUS);",
    "the writer saves -0.0 as a step below zero": f"if (!r.refusal) put(o, r.bytes, c, cl, 0, {BELOW});",
    "the writer saves -0.0 as a step below zero in links": f"if (!r.refusal) put(o, r.bytes, e, el, cl, {BELOW});",
    "the writer cleans the coordinates": "for (size_t i = 0; i < cl; i++) if (c[i] == MINUS) ((uint64_t *)c)[i] = 0;",
    "the writer cleans the ends": "for (size_t i = 0; i < el; i++) if (e[i] == MINUS) ((uint64_t *)e)[i] = 0;",
}

LAYER = """
#include <stddef.h>
#include <stdint.h>
#include <stdlib.h>
#include <string.h>
#define MINUS ((uint64_t)1 << 63)
#define AGAIN(kind, old, by) if (swapped(n, f, fl, kind, old, by)) { memcpy(o, was, ol); r = right(n, fl, t, tl, b, bl, o, ol); }
#define SIGN(at) if (value(at) == 0) (at)[7] = 0x80;
static uint8_t was[80000], n[80000];
static uint64_t value(const uint8_t *p) { uint64_t v; memcpy(&v, p, 8); return v; }
static size_t places[20000];
/* Where the coordinates of a drawing file begin, of its lines (2), of its links (3) or of both (0); gives how many there are. */
static size_t find(const uint8_t *f, size_t fl, int kind) {
    size_t found = 0;
    for (size_t i = 0; i + 6 <= fl;) {
        uint32_t length; memcpy(&length, f + i, 4);
        if (length > fl - i - 6) return 0;
        int k = f[i + 4];
        if ((k == 2 || k == 3) && (!kind || k == kind))
            for (size_t j = k == 3 ? 8 : 0; j + 8 <= length; j += 8) places[found++] = i + 6 + j;
        i += 6 + length;
    }
    return found;
}
/* A copy of the file with other coordinates; gives how many have changed. */
static size_t swapped(uint8_t *to, const uint8_t *f, size_t fl, int kind, uint64_t old, uint64_t by) {
    size_t all = find(f, fl, kind), count = 0;
    memcpy(to, f, fl);
    for (size_t i = 0; i < all; i++) if (value(f + places[i]) == old) { memcpy(to + places[i], &by, 8); count++; }
    return count;
}
/* Puts this pattern into a saved file where a minus zero was handed over; the first of these numbers is number `first` of the file. */
static void put(uint8_t *o, size_t ol, const uint64_t *c, size_t cl, size_t first, uint64_t by) {
    find(o, ol, 0);
    for (size_t i = 0; i < cl; i++) if (c[i] == MINUS) memcpy(o + places[first + i], &by, 8);
}
static int has_minus(const uint64_t *c, size_t cl) { for (size_t i = 0; i < cl; i++) if (c[i] == MINUS) return 1; return 0; }
typedef struct { uint32_t refusal; double retrace; size_t before, after, points; } Outcome;
Outcome right(const uint8_t *f, size_t fl, double *t, size_t tl, uint8_t *b, size_t bl, uint8_t *o, size_t ol);
static volatile uint8_t sink;
Outcome plan(const uint8_t *f, size_t fl, double *t, size_t tl, uint8_t *b, size_t bl, uint8_t *o, size_t ol) {
    memcpy(was, o, ol);
    Outcome r = right(f, fl, t, tl, b, bl, o, ol);
    switch (atoi(getenv("FAULT"))) {
%s
    }
    return r;
}
typedef struct { uint32_t refusal; size_t bytes; } Saved;
Saved right_save(uint32_t w, uint32_t h, uint8_t p, uint8_t f, const uint32_t *s, size_t sl, const uint64_t *c, size_t cl,
                 const uint32_t *g, size_t gl, const uint64_t *e, size_t el, uint8_t *o, size_t ol);
Saved save_drawing(uint32_t w, uint32_t h, uint8_t p, uint8_t f, const uint32_t *s, size_t sl, const uint64_t *c, size_t cl,
                   const uint32_t *g, size_t gl, const uint64_t *e, size_t el, uint8_t *o, size_t ol) {
    if (ol) memcpy(was, o, ol);
    Saved r = right_save(w, h, p, f, s, sl, c, cl, g, gl, e, el, o, ol);
    switch (atoi(getenv("FAULT"))) {
%s
    }
    return r;
}
"""


def main():
    source, out, archive = (pathlib.Path(word) for word in sys.argv[1:])
    out.mkdir(parents=True, exist_ok=True)
    layered = out / "faulty.a"
    shutil.copy(archive, layered)
    cases = lambda faults, first: "\n".join(f"    case {k}: {{ {text} break; }}" for k, text in enumerate(faults.values(), first))
    planner_faults = FAULTS | ZERO_FAULTS
    (out / "faulty.c").write_text(LAYER % (cases(planner_faults, 0), cases(SAVER_FAULTS, len(planner_faults))))
    for command in (["objcopy", "--redefine-sym", "plan=right", "--redefine-sym", "save_drawing=right_save", layered],
                    ["cc", "-O1", "-c", out / "faulty.c", "-o", out / "faulty.o"],
                    ["ar", "r", layered, out / "faulty.o"], [sys.executable, HERE / "build", source, out, "--fast-root", "--planner", layered]):
        subprocess.run(command, check=True)
    rng = random.Random("faulty")
    drawings = [KINDS[kind](rng) for kind, count in (("output", 200), ("made_few", 50), ("own_links", 50)) for _ in range(count)]
    batch = b"".join(d.batched(file, **lent) for file, lent in drawings)
    # The kinds with many lines, points or links have nothing that these faults need.
    kinds = [kind for kind in handed.HANDED_KINDS if not kind.endswith(("_large", "_lines", "_too_many"))]
    saved_batch = b"".join(handed.batched(*handed.HANDED_KINDS[kind](rng)) for kind in kinds for _ in range(100))
    zero_batch = b"".join(d.batched(file, **lent) for kind in MINUS_ZERO_KINDS.values() for file, lent in (kind(rng) for _ in range(60)))
    wrong = 0
    runs = ([(name, "--against", batch) for name in FAULTS] + [(name, "--against-minus-zero", zero_batch) for name in ZERO_FAULTS] +
            [(name, "--against-saved", saved_batch) for name in SAVER_FAULTS])
    for k, (name, mode, given) in enumerate(runs):
        run = subprocess.run([out / "oracle", mode], input=given, capture_output=True, env=dict(os.environ, FAULT=str(k)))
        is_right = (run.returncode == 0) == name.endswith("which is right")
        wrong += not is_right
        print(f"{name}: {'seen' if run.returncode else 'not seen'}" + ("" if is_right else ", WRONG"))
    print(f"{len(runs) - wrong} right, {wrong} wrong")
    sys.exit(wrong > 0)


main()
