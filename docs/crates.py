#!/usr/bin/env python3
"""Draws docs/crates.svg, the way of the bytes through the crates, from crates.txt.

`docs/crates.py > docs/crates.svg`. Each crate of crates.txt stands in one stage below; one that
stands in none, or in two, is an error. Which crates the checker links is computed from crates.txt.
"""
import os
import re
import sys
from html import escape
from typing import Dict, List, NamedTuple, Set

TOP = os.path.dirname(os.path.dirname(os.path.abspath(__file__)))


class Stage(NamedTuple):
    """A box of the picture: where it stands across, its heading, and its crates."""
    left: int
    width: int
    heading: str
    crates: str


class Arrow(NamedTuple):
    """An arrow down from one row to the next, or across within a row, and what goes along it."""
    across: int
    label: str


WIDTH = 1000
HALF = 488
RIGHT = WIDTH - HALF
CHIP_HEIGHT, CHIP_GAP, HEADING, MARGIN, ARROW = 22, 6, 26, 10, 34

READER = Stage(0, WIDTH, "Reader: script to problem", """
    smt_sexp smt_script sort_check script_fault root_rewriting script_roots root_notes term_build
    declared_box value_build problem_build problem_session script_reading script_forms""")
SEARCH = Stage(0, HALF, "Search: problem to book", """
    solve_core box_worker cover_rule cover_book cover_data hc4 combine relaxation linear_program
    square_search semidefinite_program floats point_search clause_search book_lock lemma_shelf
    steal_pool""")
CHECKER = Stage(RIGHT, HALF, "Checker: certificate to verdict", """
    cert_read cert_check plain_eval cert_least goal_limit""")
WRITER = Stage(0, HALF, "Writer: book to certificate", "cert_text")
RUN = Stage(0, WIDTH, "Runs: words, ports, answers, exit statuses", """
    dpoly dpoly_check check_run command_line desk file_desk""")
COMMANDS = [
    Stage(0, 160, "minimize", "least_search least_text"),
    Stage(168, 160, "resume", "cert_base cert_resume cert_resumed"),
    Stage(336, 160, "join", "cert_join cert_joined cert_parting"),
    Stage(504, 160, "plan", "width_plan plan_law"),
    Stage(672, 160, "upgrade", "cert_upgrade"),
    Stage(840, 160, "demo", "gen_script demo_law"),
]
BELOW = Stage(0, WIDTH, "Below all of them: numbers, definitions, laws, what both ways share", """
    dyadic spelling_law interval_model ival poly_graph form_truth script_model cover_line
    square_model squares cover_model cert_model headline real_points""")
BESIDE = Stage(0, WIDTH, "Beside them: pictures, and worked rows", """
    cover_svg sample_problems number_rows interval_trial square_rows programme_rows contraction_rows
    reader_rows meaning_rows text_rows cover_rows search_rows thread_rows""")
ROWS: List[List[Stage]] = [
    [READER], [SEARCH, CHECKER], [WRITER], [RUN], COMMANDS, [BELOW], [BESIDE]]
# Arrows down into the row with this number.
DOWN: Dict[int, List[Arrow]] = {
    1: [Arrow(244, "problem"), Arrow(756, "problem")],
    2: [Arrow(244, "book")],
    3: [Arrow(244, "certificate, value"), Arrow(756, "verdict")],
}


def read_crates() -> Dict[str, List[str]]:
    """What each crate of crates.txt stands on, itself among the crates or not."""
    with open(os.path.join(TOP, "crates.txt"), encoding="utf-8") as file:
        rows = re.findall(r"^(\w+)[^:#\n]*:(.*)$", file.read(), re.M)
    return {name: rest.split() for name, rest in rows}


def closure(name: str, below: Dict[str, List[str]]) -> Set[str]:
    """The crate and all that it stands on, of this repository."""
    found = {name}
    for other in below[name]:
        if other in below:
            found |= closure(other, below)
    return found


def check_stages(below: Dict[str, List[str]]) -> None:
    """Each crate stands in one stage."""
    placed = [crate for row in ROWS for stage in row for crate in stage.crates.split()]
    for crate in sorted(set(below) | set(placed)):
        if placed.count(crate) != 1 or crate not in below:
            sys.exit(f"docs/crates.py: {crate} stands in {placed.count(crate)} stages")


class Picture:
    """The parts of the picture, from top to bottom."""

    def __init__(self, below: Dict[str, List[str]]) -> None:
        self.below = below
        self.of_checker = closure("dpoly_check", below)
        self.parts: List[str] = []

    def chips(self, stage: Stage, top: int) -> int:
        """Draws the crates of a stage in lines, and gives the lower end of the last line."""
        across, down = stage.left + MARGIN, top + HEADING
        for crate in stage.crates.split():
            width = 14 + round(7.3 * len(crate))
            if across + width > stage.left + stage.width - MARGIN:
                across, down = stage.left + MARGIN, down + CHIP_HEIGHT + CHIP_GAP
            kind = "both" if crate in self.of_checker else "one"
            on = " ".join(it for it in self.below[crate] if it in self.below)
            self.parts.append(
                f'<g class="{kind}"><title>{crate} stands on {on or "no other crate"}</title>'
                f'<rect x="{across}" y="{down}" width="{width}" height="{CHIP_HEIGHT}" rx="4"/>'
                f'<text x="{across + 7}" y="{down + 15}">{crate}</text></g>')
            across += width + CHIP_GAP
        return down + CHIP_HEIGHT

    def row(self, stages: List[Stage], top: int) -> int:
        """Draws stages side by side, and gives their lower end."""
        place = len(self.parts)
        end = max(self.chips(stage, top) for stage in stages) + MARGIN
        self.parts[place:place] = [
            f'<rect class="stage" x="{it.left}" y="{top}" width="{it.width}" '
            f'height="{end - top}" rx="6"/>'
            f'<text class="head" x="{it.left + MARGIN}" y="{top + 18}">{escape(it.heading)}</text>'
            for it in stages]
        return end

    def arrow(self, arrow: Arrow, begin: int, end: int) -> None:
        """Draws an arrow down, with its label beside it."""
        self.parts.append(
            f'<path class="way" d="M{arrow.across} {begin}V{end - 2}"/>'
            f'<text class="label" x="{arrow.across + 8}" y="{end - 12}">{arrow.label}</text>')

    def draw(self) -> str:
        """The whole picture as SVG."""
        ends: List[int] = []
        top = 30
        for number, row in enumerate(ROWS):
            arrows = DOWN.get(number, [])
            gap = 0 if number == 0 else ARROW if arrows else 14
            begin, top = top, top + gap
            for arrow in arrows:
                # where the row above has no box here, the way begins at the row before
                is_below = any(it.left <= arrow.across <= it.left + it.width
                               for it in ROWS[number - 1])
                self.arrow(arrow, begin if is_below else ends[number - 2], top)
            top = self.row(row, top)
            ends.append(top)
        across = ends[1] + ARROW + (ends[2] - ends[1] - ARROW) // 2
        self.parts.append(
            f'<path class="way" d="M{HALF} {across}H620V{ends[1] + 2}"/>'
            f'<text class="label" x="{HALF + 12}" y="{across - 6}">certificate</text>')
        return self.framed(top + 8)

    def framed(self, height: int) -> str:
        """The parts with what stands around them: sizes, colours and the legend."""
        legend = (
            '<text class="head" x="0" y="18">The way of the bytes</text>'
            '<g class="both"><rect x="420" y="2" width="22" height="22" rx="4"/></g>'
            '<text x="450" y="17">dpoly and dpoly-check stand on it</text>'
            '<g class="one"><rect x="690" y="2" width="22" height="22" rx="4"/></g>'
            '<text x="720" y="17">dpoly alone, or neither of them</text>')
        return "\n".join([
            f'<svg xmlns="http://www.w3.org/2000/svg" viewBox="-4 -4 {WIDTH + 8} {height + 8}" '
            f'font-family="sans-serif" font-size="12">',
            "<style>.stage{fill:#f4f4f1;stroke:#b9b9b0}.head{font-weight:bold;font-size:13px}"
            ".both rect{fill:#cfe3f5;stroke:#5b8db8}.one rect{fill:#fff;stroke:#a0a0a0}"
            ".way{fill:none;stroke:#333;stroke-width:1.5;marker-end:url(#tip)}"
            ".label{font-style:italic}</style>",
            '<defs><marker id="tip" viewBox="0 0 8 8" refX="7" refY="4" markerWidth="7" '
            'markerHeight="7" orient="auto"><path d="M0 0L8 4L0 8z"/></marker></defs>',
            f'<rect x="-4" y="-4" width="{WIDTH + 8}" height="{height + 8}" fill="#fff"/>',
            legend, *self.parts, "</svg>"])


def main() -> None:
    """Prints the picture."""
    below = read_crates()
    check_stages(below)
    print(Picture(below).draw())


if __name__ == "__main__":
    main()
