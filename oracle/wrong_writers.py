#!/usr/bin/env python3
"""Shows that the list of saved drawings tells writer.rs from versions of it that are nearly right.

usage: oracle/wrong_writers.py OUT [--only TEXT]

OUT is a folder to write to. Makes each edit of VERSIONS in the text of writer.rs, and runs the version that results on
oracle/saved.txt. Prints how many answers differ and the first of them; fails if a version gives every answer of the list.
"""
import argparse
import pathlib
import shutil
import subprocess
import sys

import handed as h
import saved

HERE = pathlib.Path(__file__).resolve().parent
MAIN = "mod handed;\nmod reader;\nmod writer;\n\nfn main() {\n    handed::print_rows(writer::save);\n}\n"


def refusal(number, condition):
    return f"    if {condition} {{\n        return refused({number});\n    }}\n"


# The checks of `save` in their order, as its text has them.
FIVE, SIX = refusal(5, "settings_wrong(handed)"), refusal(6, "too_many(&parts)")
FIFTEEN, SEVEN = refusal(15, "own_links(handed, &parts)"), refusal(7, "off_grid(&parts)")
EIGHT, SIXTEEN = refusal(8, "astray(&parts)"), refusal(16, "destination.len() < file.len()")
FOUR = """    let Some(parts) = parts(handed) else {
        return refused(4);
    };
"""
MADE = "    let file = file_of(handed, &parts);\n"
COPIED = "    destination[..file.len()].copy_from_slice(&file);\n"
REFUSED = "    let refused = |refusal| Saved { refusal, bytes: 0 };\n"
NO_PARTS = "Parts { lines: Vec::new(), links: Vec::new() }"
SUM = "let points: u128 = handed.sizes.iter().map(|&n| u128::from(n)).sum();"
NAMES = "let names = parts.links.iter().flat_map(|link| link.names.chunks(2));"
IN_LINES, IN_LINKS = "parts.lines.iter().flat_map(|line| line.iter())", "parts.links.iter().flat_map(|link| link.ends.iter())"
LINE_WRITTEN = "        record(&mut file, 2, &line_body(line));\n"
LINES = "    for line in &parts.lines {\n" + LINE_WRITTEN + "    }\n"
LINKS = "    for link in &parts.links {\n        record(&mut file, 3, &link_body(link));\n    }\n"
LINE_BODY = "line.iter().flat_map(|&bits| stored(bits)).collect()"
LINK_ENDS = "    for &bits in link.ends {\n        body.extend(stored(bits));\n    }\n"
ZERO, ANY_OFF = "0 => fraction == 0,", "in_lines.chain(in_links).any(|&bits| !on_grid(bits))"
MINUS_ZERO, STORED = "any(|&bits| bits == 1 << 63)", "(if is_zero { 0 } else { bits })"
HERE_ANY = "names.into_iter().any(|name| !is_there(parts, name[0] as usize, name[1] as usize))"


def moved(block, behind):
    """A check that comes too late: behind another block."""
    return (block, ""), (behind, behind + block)


def kept_in_lines(condition):
    """The sign is kept in number k of a line's coordinates where the condition holds."""
    kept = f"if {condition} {{ bits.to_le_bytes() }} else {{ stored(bits) }}"
    return [(LINE_BODY, f"line.iter().enumerate().flat_map(|(k, &bits)| {kept}).collect()")]


def kept_in_links(place):
    """The sign is kept in this one of a link's four coordinates."""
    kept = f"body.extend(if k == {place} {{ bits.to_le_bytes() }} else {{ stored(bits) }});"
    return [("for &bits in link.ends", "for (k, &bits) in link.ends.iter().enumerate()"), ("body.extend(stored(bits));", kept)]


def most(name, value, by):
    return [(f"const MOST_{name} = {value};", f"const MOST_{name} = {by};")]


# Pairs of old and new text. An old text stands once in writer.rs.
VERSIONS = {
    "5: width 8,191 at most": [("handed.width > MOST_SIDE", "handed.width > MOST_SIDE - 1")],
    "5: width 8,193 at most": [("handed.width > MOST_SIDE", "handed.width > MOST_SIDE + 1")],
    "5: height 8,191 at most": [("handed.height > MOST_SIDE", "handed.height > MOST_SIDE - 1")],
    "5: height 8,193 at most": [("handed.height > MOST_SIDE", "handed.height > MOST_SIDE + 1")],
    "5: height cut to 16 bits": [("handed.height > MOST_SIDE", "handed.height & 0xffff > MOST_SIDE")],
    "5: pairing 0 at most": most("PAIRING: u8", 1, 0),
    "5: pairing 2": most("PAIRING: u8", 1, 2),
    "5: only the second bit of the pairing": [("handed.pairing > MOST_PAIRING", "handed.pairing & 2 != 0")],
    "5: flags 3 at most": most("FLAGS: u8", 7, 3),
    "5: flags 6 at most": most("FLAGS: u8", 7, 6),
    "5: flags 8": most("FLAGS: u8", 7, 8),
    "5: only the fourth bit of the flags": [("handed.flags > MOST_FLAGS", "handed.flags & 8 != 0")],
    "6: 255 lines at most": most("LINES: usize", 256, 255),
    "6: 257 lines at most": most("LINES: usize", 256, 257),
    "6: 1,023 points at most": most("POINTS: usize", 1024, 1023),
    "6: 1,025 points at most": most("POINTS: usize", 1024, 1025),
    "6: 254 links at most": most("LINKS: usize", 255, 254),
    "6: 256 links at most": most("LINKS: usize", 255, 256),
    "6: empty lines not counted": [("parts.lines.len() > MOST_LINES", "parts.lines.iter().filter(|l| !l.is_empty()).count() > MOST_LINES")],
    "6: lines with points not counted": [("parts.lines.len() > MOST_LINES", "parts.lines.iter().filter(|l| l.is_empty()).count() > MOST_LINES")],
    "6: 1,024 points in each line": [("points > MOST_POINTS", "parts.lines.iter().any(|l| l.len() / 2 > MOST_POINTS)")],
    "6: ends of links counted as points": [("points > MOST_POINTS", "points + 2 * parts.links.len() > MOST_POINTS")],
    "6: 512 points, coordinates counted": [("map(|line| line.len() / 2).sum()", "map(|line| line.len()).sum()")],
    "6: lines counted in 16 bits": [("parts.lines.len() > MOST_LINES", "parts.lines.len() as u16 > MOST_LINES as u16")],
    "6: points counted in 16 bits": [("points > MOST_POINTS", "points as u16 > MOST_POINTS as u16")],
    "6: links counted in 16 bits": [("parts.links.len() > MOST_LINKS", "parts.links.len() as u16 > MOST_LINKS as u16")],
    "6: links counted in 8 bits": [("parts.links.len() > MOST_LINKS", "parts.links.len() as u8 as usize > MOST_LINKS")],
    "15: left to the reader": [(FIFTEEN, "")],
    "15: only flags 4": [("handed.flags & LINK != 0", "handed.flags == LINK")],
    "15: flags 4 without links too": [(" && !parts.links.is_empty()", "")],
    "15: the links are left out": [(
        FIFTEEN, "let mut parts = parts; if own_links(handed, &parts) { parts.links.clear(); }\n")],
    "15: the flag is left out": [(
        FIFTEEN, "let mut copy = handed.clone(); if own_links(handed, &parts) { copy.flags &= !LINK; } let handed = &copy;\n")],
    "7: left to the reader": [(SEVEN, "")],
    "7: minus zero is refused": [(ZERO, "0 => bits == 0,")],
    "7: minus zero is refused in lines": [(ANY_OFF, f"in_lines.clone().{MINUS_ZERO} || {ANY_OFF}")],
    "7: minus zero is refused in links": [(ANY_OFF, f"in_links.clone().{MINUS_ZERO} || {ANY_OFF}")],
    "7: minus zero is taken, plain zero is not": [(ZERO, "0 => bits == 1 << 63,")],
    "7: the smallest numbers are taken": [(ZERO, "0 => true,")],
    "7: the smallest numbers above zero are taken": [(ZERO, "0 => fraction == 0 || bits >> 63 == 0,")],
    "7: the smallest numbers below zero are taken": [(ZERO, "0 => fraction == 0 || bits >> 63 == 1,")],
    "7: small normal numbers are taken": [(ZERO, ZERO + "\n        1..=1012 => fraction == 0,")],
    "7: infinities are taken": [(ZERO, ZERO + "\n        2047 => fraction == 0,")],
    "7: no number is taken": [(ZERO, ZERO + "\n        2047 => fraction != 0,")],
    "7: large whole numbers are taken": [(ZERO, ZERO + "\n        1065..=1085 => true,")],
    "7: 2^64 is taken, as 0 in 64 bits": [(ZERO, ZERO + "\n        1087.. => exponent != 2047,")],
    "7: the grid of 1/2048": [("1065 - exponent", "1064 - exponent"), ("1013..=1064", "1012..=1063"), ("4096 * 1024", "4096 * 2048")],
    "7: the grid of 1/512": [("1065 - exponent", "1066 - exponent"), ("1013..=1064", "1014..=1065"), ("4096 * 1024", "4096 * 512")],
    "7: below 4,096": [(">> shift <= MOST_STEPS", ">> shift < MOST_STEPS")],
    "7: a step above 4,096": [(">> shift <= MOST_STEPS", ">> shift <= MOST_STEPS + 1")],
    "7: below -4,096 too": [(">> shift <= MOST_STEPS", ">> shift <= MOST_STEPS * (1 + (bits >> 63))")],
    "7: -4,096 is refused": [(">> shift <= MOST_STEPS", ">> shift <= MOST_STEPS - (bits >> 63)")],
    "7: rounded to the grid": [("digits % (1 << shift) == 0 && digits", "digits")],
    "7: the lowest bit passed over": [("digits % (1 << shift) == 0", "(digits & !1) % (1 << shift) == 0")],
    "7: only in lines": [(IN_LINKS, IN_LINKS + ".take(0)")],
    "7: only in links": [(IN_LINES, IN_LINES + ".take(0)")],
    "7: only x in lines": [(IN_LINES, "parts.lines.iter().flat_map(|line| line.iter().step_by(2))")],
    "7: only y in lines": [(IN_LINES, "parts.lines.iter().flat_map(|line| line.iter().skip(1).step_by(2))")],
    **{f"7: number {k} of a link's four passed over": [(
        IN_LINKS, f"parts.links.iter().flat_map(|link| link.ends.iter().enumerate().filter(|&(k, _)| k != {k}).map(|(_, b)| b))")]
       for k in range(4)},
    "7: all lines but the last": [(IN_LINES, "parts.lines.iter().rev().skip(1).flat_map(|line| line.iter())")],
    "7: all links but the last": [(IN_LINKS, "parts.links.iter().rev().skip(1).flat_map(|link| link.ends.iter())")],
    "minus zero: the sign is kept": [("let is_zero = bits << 1 == 0;", "let is_zero = bits == 0;")],
    "minus zero: the sign is kept in lines": kept_in_lines("true"),
    "minus zero: the sign is kept in x of points": kept_in_lines("k % 2 == 0"),
    "minus zero: the sign is kept in y of points": kept_in_lines("k % 2 == 1"),
    "minus zero: the sign is kept in a line's first point": kept_in_lines("k < 2"),
    "minus zero: the sign is kept behind a line's first point": kept_in_lines("k > 1"),
    "minus zero: the sign is kept in dots": kept_in_lines("line.len() == 2"),
    "minus zero: the sign is kept in lines of flagged drawings": [(LINE_WRITTEN, LINE_WRITTEN.replace("&line_body(line)", """
            &if handed.flags & LINK != 0 { line.iter().flat_map(|bits| bits.to_le_bytes()).collect() } else { line_body(line) }"""))],
    "minus zero: the sign is kept in links": [("body.extend(stored(bits));", "body.extend(bits.to_le_bytes());")],
    **{f"minus zero: the sign is kept in number {k} of a link's four": kept_in_links(k) for k in range(4)},
    "minus zero: saved as a step below zero": [(STORED, "(if bits == 1 << 63 { (-1.0f64 / 1024.0).to_bits() } else { bits })")],
    "minus zero: saved as -4,096": [(STORED, "(if bits == 1 << 63 { (-4096.0f64).to_bits() } else { bits })")],
    "minus zero: saved for both zeros": [(STORED, "(if is_zero { 1 << 63 } else { bits })")],
    "minus zero: all signs are lost": [(STORED, "(bits & !(1 << 63))")],
    "minus zero: points at it left out": [(
        LINE_BODY, "line.chunks(2).filter(|point| !point.contains(&(1 << 63))).flatten().flat_map(|&bits| stored(bits)).collect()")],
    "minus zero: links at it left out": [(
        LINKS, LINKS.replace("        record", "        if link.ends.contains(&(1 << 63)) { continue; }\n        record"))],
    "minus zero: points that it makes alike written once": [(
        LINE_BODY, "{ let mut points: Vec<_> = line.chunks(2).map(|p| [stored(p[0]), stored(p[1])]).collect();"
        " points.dedup_by(|a, b| a == b && line.contains(&(1 << 63))); points.into_iter().flatten().flatten().collect() }")],
    "minus zero: links that it makes alike written once": [(
        "    for link in &parts.links {", "    for (k, link) in parts.links.iter().enumerate() {\n"
        "        if parts.links[..k].iter().any(|l| l.ends != link.ends && link_body(l) == link_body(link)) { continue; }")],
    "8: left to the reader": [(EIGHT, "")],
    "8: an empty line may be named": [("points > 0 && (segment == 0", "line < parts.lines.len() && (segment == 0")],
    "8: the segment behind the last": [("segment + 2 <= points", "segment + 1 <= points")],
    "8: not the last segment": [("segment + 2 <= points", "segment + 2 < points")],
    "8: no segment of a dot": [("points > 0 && (segment == 0 || segment + 2 <= points)", "segment + 2 <= points")],
    "8: segment 1 of a dot": [("segment == 0 ||", "segment == 0 || points == 1 && segment == 1 ||")],
    "8: any segment": [(" && (segment == 0 || segment + 2 <= points)", "")],
    "8: the line behind the last": [("parts.lines.get(line)", "parts.lines.get(line.min(parts.lines.len().saturating_sub(1)))")],
    "8: only first ends": [(NAMES, "let names = parts.links.iter().map(|link| &link.names[..2]);")],
    "8: only second ends": [(NAMES, "let names = parts.links.iter().map(|link| &link.names[2..]);")],
    "8: all links but the first": [(NAMES, "let names = parts.links.iter().skip(1).flat_map(|link| link.names.chunks(2));")],
    "8: all links but the last": [(NAMES, "let names = parts.links.iter().rev().skip(1).flat_map(|link| link.names.chunks(2));")],
    "8: lines cut to 16 bits": [(HERE_ANY, HERE_ANY.replace("name[0] as", "name[0] as u16 as"))],
    "8: segments cut to 16 bits": [(HERE_ANY, HERE_ANY.replace("name[1] as", "name[1] as u16 as"))],
    "8: line and segment exchanged": [(
        HERE_ANY, "names.into_iter().any(|name| !is_there(parts, name[1] as usize, name[0] as usize))")],
    "8: segment + 2 in 32 bits": [("segment + 2 <= points", "(segment as u32).wrapping_add(2) as usize <= points")],
    "4: left out for coordinates, those too many passed over": [("2 * points !=", "2 * points >")],
    "4: an odd coordinate passed over": [("2 * points != handed.coordinates.len() as u128", "points != handed.coordinates.len() as u128 / 2")],
    "4: sizes summed in 32 bits": [(SUM, "let points = u128::from(handed.sizes.iter().fold(0u32, |a, &b| a.wrapping_add(b)));")],
    "4: twice the sum in 32 bits": [(
        "2 * points != handed.coordinates.len() as u128", "(points as u32).wrapping_mul(2) as usize != handed.coordinates.len()")],
    "4: as many coordinates as points taken for a drawing of nothing": [(
        SUM, SUM + f"\n    if points == handed.coordinates.len() as u128 {{ return Some({NO_PARTS}); }}")],
    "4: sizes without coordinates taken for no lines": [(
        SUM, SUM + f"\n    if handed.coordinates.is_empty() {{ return Some({NO_PARTS}); }}")],
    "4: links that are not whole passed over": [
        ("handed.segments.len() % 4 != 0 || ", ""), ("handed.segments.chunks(4)", "handed.segments.chunks_exact(4)")],
    "4: ends too many passed over": [("handed.ends.len() != handed.segments.len()", "handed.ends.len() < handed.segments.len()")],
    "4: links without ends passed over": [("handed.ends.len() != handed.segments.len()", "handed.ends.len() > handed.segments.len()"), (
        "handed.ends.chunks(4))", "handed.ends.chunks_exact(4))")],
    "4: only pairs of ends": [
        ("handed.segments.len() % 4 != 0", "handed.segments.len() % 2 != 0"), ("handed.segments.chunks(4)", "handed.segments.chunks_exact(4)")],
    "4: says 6": [("return refused(4);", "return refused(6);")],
    "4: behind 5": [(FIVE, ""), (FOUR, FIVE + FOUR)],
    "4: behind 16": [(FOUR, "    if destination.len() < 16 {\n        return refused(16);\n    }\n" + FOUR)],
    "5 behind 6": moved(FIVE, SIX),
    "5 behind 15": moved(FIVE, FIFTEEN),
    "5 behind 7": moved(FIVE, SEVEN),
    "5 behind 8": moved(FIVE, EIGHT),
    "5 behind 16": moved(FIVE, SIXTEEN),
    "6 behind 15": moved(SIX, FIFTEEN),
    "6 behind 7": moved(SIX, SEVEN),
    "6 behind 8": moved(SIX, EIGHT),
    "6 behind 16": moved(SIX, SIXTEEN),
    "15 behind 7": moved(FIFTEEN, SEVEN),
    "15 behind 8": moved(FIFTEEN, EIGHT),
    "15 behind 16": moved(FIFTEEN, SIXTEEN),
    "7 behind 8": moved(SEVEN, EIGHT),
    "7 behind 16": moved(SEVEN, SIXTEEN),
    "8 behind 16": moved(EIGHT, SIXTEEN),
    "7 and 8 link by link": [(SEVEN + EIGHT, """    for link in &parts.links {
        if link.ends.iter().any(|&bits| !on_grid(bits)) {
            return refused(7);
        }
        if link.names.chunks(2).any(|name| !is_there(&parts, name[0] as usize, name[1] as usize)) {
            return refused(8);
        }
    }
""" + SEVEN + EIGHT)],
    "16 before all others": [(FIVE, MADE + SIXTEEN + FIVE)],
    "16: left out, what there is room for is written": [(SIXTEEN, "    let file = &file[..file.len().min(destination.len())];\n"), (
        COPIED, "    destination[..file.len()].copy_from_slice(file);\n")],
    "16: found while writing": [(
        SIXTEEN, "if let Some(part) = file.get(..destination.len()) { destination.copy_from_slice(part); }\n" + SIXTEEN)],
    "16: settings written before it is known": [(
        SIXTEEN, "if destination.len() >= 16 { destination[..16].copy_from_slice(&file[..16]); }\n" + SIXTEEN)],
    "16: a byte more asked": [("destination.len() < file.len()", "destination.len() <= file.len()")],
    "16: heads not counted": [("destination.len() < file.len()", "destination.len() + 6 * parts.lines.len() < file.len()")],
    "16: room for the largest file asked": [("destination.len() < file.len()", "destination.len() < 29_666")],
    "16: says 14": [("return refused(16);", "return refused(14);")],
    "16: answers the bytes that are needed": [("return refused(16);", "return Saved { refusal: 16, bytes: file.len() };")],
    "refused: settings are written all the same": [(
        SEVEN, f"if destination.len() >= 16 {{ destination[..16].copy_from_slice(&file_of(handed, &{NO_PARTS})); }}\n" + SEVEN)],
    "refused: the destination is cleared": [(
        REFUSED, "    let before = destination.to_vec();\n    destination.fill(0);\n" + REFUSED), (
        COPIED, "    destination.copy_from_slice(&before);\n" + COPIED)],
    "saved: later bytes cleared": [(COPIED, COPIED + "    destination[file.len()..].fill(0);\n")],
    "saved: a zero behind the file": [(COPIED, COPIED + "    if let Some(byte) = destination.get_mut(file.len()) {\n        *byte = 0;\n    }\n")],
    "saved: answers the destination's length": [("Saved { refusal: 0, bytes: file.len() }", "Saved { refusal: 0, bytes: destination.len() }")],
    "file: links before lines": [(LINES + LINKS, LINKS + LINES)],
    "file: lines from the last to the first": [("    for line in &parts.lines {", "    for line in parts.lines.iter().rev() {")],
    "file: links from the last to the first": [("    for link in &parts.links {", "    for link in parts.links.iter().rev() {")],
    "file: empty lines left out": [(LINE_WRITTEN, "        if !line.is_empty() {\n    " + LINE_WRITTEN + "        }\n")],
    "file: links with one point twice left out": [(
        LINKS, LINKS.replace("        record", "        if link.ends[..2] == link.ends[2..] { continue; }\n        record"))],
    "file: links alike written once": [(
        "    for link in &parts.links {", "    for (k, link) in parts.links.iter().enumerate() {\n"
        "        if parts.links[..k].iter().any(|l| l.names == link.names && l.ends == link.ends) { continue; }")],
    "file: points alike written once": [(
        LINE_BODY, "{ let mut points: Vec<&[u64]> = line.chunks(2).collect(); points.dedup();"
        " points.concat().into_iter().flat_map(stored).collect() }")],
    "file: x and y exchanged": [(LINE_BODY, "line.chunks(2).flat_map(|p| [p[1], p[0]]).flat_map(stored).collect()")],
    "file: a line from its end to its start": [(LINE_BODY, "line.rchunks(2).flat_map(|p| [p[0], p[1]]).flat_map(stored).collect()")],
    "file: a coordinate's highest byte first": [(LINE_BODY, "line.iter().flat_map(|&bits| stored(bits).into_iter().rev()).collect()")],
    "file: a link's coordinates, highest byte first": [("body.extend(stored(bits));", "body.extend(stored(bits).into_iter().rev());")],
    "file: a link's ends exchanged": [("for &name in link.names", "for &name in [&link.names[2..], &link.names[..2]].concat().iter()"), (
        "for &bits in link.ends", "for &bits in [&link.ends[2..], &link.ends[..2]].concat().iter()")],
    "file: only the points of a link's ends exchanged": [("for &bits in link.ends", "for &bits in [&link.ends[2..], &link.ends[..2]].concat().iter()")],
    "file: only the names of a link's ends exchanged": [(
        "for &name in link.names", "for &name in [&link.names[2..], &link.names[..2]].concat().iter()")],
    "file: both lines of a link, then both segments": [("for &name in link.names", "for name in [0, 2, 1, 3].map(|k| link.names[k])")],
    "file: segment before line": [("for &name in link.names", "for name in [1, 0, 3, 2].map(|k| link.names[k])")],
    "file: a link's coordinates before its names": [
        (LINK_ENDS, ""), ("    for &name in link.names {", LINK_ENDS + "    for &name in link.names {")],
    "file: a name's highest byte first": [("(name as u16).to_le_bytes()", "(name as u16).to_be_bytes()")],
    "file: a name of one byte and a zero": [("(name as u16).to_le_bytes()", "[name as u8, 0]")],
    "file: a body's length highest byte first": [("(body.len() as u32).to_le_bytes()", "(body.len() as u32).to_be_bytes()")],
    "file: a line's length a point short": [(
        "(body.len() as u32).to_le_bytes()", "(body.len() as u32 - if kind == 2 && body.len() > 0 { 16 } else { 0 }).to_le_bytes()")],
    "file: a length of one byte": [("(body.len() as u32).to_le_bytes()", "[body.len() as u8, 0, 0, 0]")],
    "file: a length with its head": [("(body.len() as u32).to_le_bytes()", "(body.len() as u32 + 6).to_le_bytes()")],
    "file: a kind's highest byte first": [("kind.to_le_bytes()", "kind.to_be_bytes()")],
    "file: the line's kind is the answer's": [("record(&mut file, 2,", "record(&mut file, 4,")],
    "file: the kind before the length": [
        ("    file.extend((body.len() as u32).to_le_bytes());\n", ""),
        ("    file.extend(kind.to_le_bytes());\n", "    file.extend(kind.to_le_bytes());\n    file.extend((body.len() as u32).to_le_bytes());\n")],
    "file: width and height exchanged": [
        ("handed.width.to_le_bytes()", "handed.side.to_le_bytes()"), ("handed.height.to_le_bytes()", "handed.width.to_le_bytes()"),
        ("handed.side.to_le_bytes()", "handed.height.to_le_bytes()")],
    "file: width's highest byte first": [("handed.width.to_le_bytes()", "handed.width.to_be_bytes()")],
    "file: height of one byte and three zeros": [("handed.height.to_le_bytes()", "(handed.height & 0xff).to_le_bytes()")],
    "file: pairing and flags exchanged": [
        ("body.push(handed.pairing)", "body.push(handed.bits)"), ("body.push(handed.flags)", "body.push(handed.pairing)"),
        ("body.push(handed.bits)", "body.push(handed.flags)")],
    "file: flag 4 left out": [("body.push(handed.flags)", "body.push(handed.flags & 3)")],
    "file: pairing always Greedy": [("body.push(handed.pairing)", "body.push(0)")],
}


def edited(text, pairs):
    for old, new in pairs:
        if text.count(old) != 1:
            sys.exit(f"this text stands in writer.rs {text.count(old)} times:\n{old}")
        text = text.replace(old, new)
    return text


def rows(program, batch):
    """The rows that a version prints; fewer than there are drawings if it stops on one."""
    return subprocess.run([program], input=batch, capture_output=True).stdout.decode().splitlines()


def build(folder, text):
    (folder / "writer.rs").write_text(text)
    subprocess.run(["rustc", "-C", "opt-level=1", "--edition", "2024", "-A", "warnings", "-o", folder / "saver", folder / "main.rs"], check=True)
    return folder / "saver"


def main():
    parser = argparse.ArgumentParser()
    parser.add_argument("out", type=pathlib.Path)
    parser.add_argument("--only", default="")
    args = parser.parse_args()
    args.out.mkdir(parents=True, exist_ok=True)
    for name in ("handed.rs", "reader.rs"):
        shutil.copy(HERE / name, args.out)
    (args.out / "main.rs").write_text(MAIN)
    text = (HERE / "writer.rs").read_text()

    listed = saved.cases()
    batch = b"".join(h.batched(case.handed, case.destination) for case in listed)
    right = rows(build(args.out, text), batch)
    wrong = [case.name for case, row in zip(listed, right, strict=True) if saved.answered(*case[:3], row) != case]
    if wrong:
        sys.exit(f"writer.rs itself answers otherwise than the list says: {wrong[0]}")

    missed = tried = 0
    for name, pairs in VERSIONS.items():
        if args.only not in name:
            continue
        tried += 1
        got = rows(build(args.out, edited(text, pairs)), batch)
        if len(got) < len(right):
            # It stopped on a drawing; those behind it are not looked at.
            got.append("stopped")
        different = [case.name for case, a, b in zip(listed, right, got) if a != b]
        missed += not different
        print(f"{name}: " + (f"{len(different)} differ, first '{different[0]}'" if different else "NOT TOLD APART"), flush=True)
    print(f"{tried - missed} of {tried} versions told apart by {len(listed)} drawings")
    sys.exit(missed > 0)


main()
