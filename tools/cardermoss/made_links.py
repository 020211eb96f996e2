"""The links that the planner makes for a drawing with `flags link`, between the ends of its lines.

They lead from each line with points to each other, one link fewer than such lines, and no other such links have a smaller
sum of squared lengths. What this leaves open (docs/MADE-LINKS.md) is settled here as in the planner, so that the links that
are told and drawn are those that are planned.
"""
import itertools
import math

from .drawing_file import LINKING, STEPS, Link, in_steps, squared
from .drawing_text import link_text, steps_text

START, END = 0, 1  # the ends of a line


def planned(drawing):
    """The drawing that is planned: with `flags link` its links are those that are made. It has passed conditions 1 to 8
    and 15."""
    return drawing._replace(links=made_links(drawing.lines)) if drawing.settings.flags & LINKING else drawing


def made_links(lines):
    """One link fewer than there are lines with points, in the order of their ranking, the lower line's end first."""
    part = list(range(len(lines)))  # lines with the same number are linked already
    links = []
    for _, low, high, low_end, high_end in sorted(candidates(lines)):
        if part[low] != part[high]:
            part = [part[low] if number == part[high] else number for number in part]
            links.append(Link(low, *at_end(lines[low], low_end), high, *at_end(lines[high], high_end)))
    return links


def candidates(lines):
    """Every link from an end of one line to an end of another, as its rank: squared length, lower line, higher line, end of
    the lower line, end of the higher. Lines without points have none."""
    ends = [[in_steps(at_end(line, end)[1]) for end in (START, END)] if line else [] for line in lines]
    for low, high in itertools.combinations(range(len(lines)), 2):
        for (low_end, p), (high_end, q) in itertools.product(enumerate(ends[low]), enumerate(ends[high])):
            yield squared(p, q), low, high, low_end, high_end


def at_end(line, end):
    """The segment that a link at this end of a line names, and the point. For a dot it is segment 0 at both ends."""
    return (0, line[0]) if end == START else (max(0, len(line) - 2), line[-1])


# ---- in words

def told(drawing):
    """Which links are made for a drawing, and how long they are, as rows of text; none where it does not ask for any. The
    rows of the links can stand in the drawing's own text, in place of `link` among its flags."""
    if not drawing.settings.flags & LINKING:
        return []
    links = made_links(drawing.lines)
    if not links:
        return ["the planner makes no links: fewer than two lines have points"]
    return [f"the planner makes {'1 link' if len(links) == 1 else f'{len(links)} links'} between ends of lines:",
            *(f"  {link_text(link)}  # {length_words(link)}" for link in links)]


def length_words(link):
    """How long a link is: exactly, where that is a whole number of grid steps."""
    length = squared(in_steps(link.a), in_steps(link.b))
    if length == 0:
        return "where they meet"
    root = math.isqrt(length)
    if root * root < length:
        return f"about {math.sqrt(length) / STEPS:.6g} pixels long"
    return "1 pixel long" if root == STEPS else f"{steps_text(root)} pixels long"
