"""What the crates state: the base definitions and the axioms."""

import pathlib
import re

TOP = pathlib.Path(__file__).resolve().parents[2]
BASE_LINES = TOP / "crates/hol_terms/specs/BaseLines.antt"


def unescaped(text):
    return text.replace("\\\\", "\\").replace('\\"', '"')


def base_lines():
    """The lines of the base definitions and of the axioms, in canonical text."""
    definitions, axioms = BASE_LINES.read_text().split("axiom_lines =")
    return [[unescaped(line) for line in re.findall(r'codes "(.*)"', part)] for part in (definitions, axioms)]
