"""nbgrader's configuration for the lessons, which `lessons/make --nbgrader` puts into the folder of a course.

nbgrader gives the point of a judge's cell unless an error is in its output. The lessons' judges print what they find instead, and
end without an error, so that each student would have all points for each exercise, done or not. Here a judge that doesn't say
`right` gets an error, after nbgrader has run it and before it takes down the points.
"""
import re

from nbconvert.preprocessors import Preprocessor
from nbformat.v4 import new_output
from traitlets import Bool

# What a judge prints if its exercise is right: a line for each case, and its verdict.
RIGHT = re.compile(r"(?:[^\n]* gives [^\n]*\n)+right\n")


def is_judge(cell):
    """Whether a cell is a judge that nbgrader gives points for. Its name in nbgrader says so and not its tag, which a student may
    change: nbgrader gives no points for a cell with a name that it doesn't know."""
    known = cell.metadata.get("nbgrader", {})
    return cell.cell_type == "code" and known.get("grade", False) and known.get("grade_id", "").startswith("judge-")


def printed(cell):
    """What a cell printed, which may come in parts."""
    return "".join(output.text for output in cell.outputs if output.output_type == "stream")


def has_error(cell):
    return any(output.output_type == "error" for output in cell.outputs)


class Verdicts(Preprocessor):
    """Adds an error to the output of each judge that doesn't say that its exercise is right."""

    enabled = Bool(True).tag(config=True)

    def preprocess_cell(self, cell, resources, index):
        if is_judge(cell) and not has_error(cell) and not RIGHT.fullmatch(printed(cell)):
            last = printed(cell).rstrip("\n").split("\n")[-1] or "the judge printed nothing"
            cell.outputs.append(new_output("error", ename="NotRight", evalue=last, traceback=[f"NotRight: {last}"]))
        return cell, resources


# nbgrader's first one runs the cells, and a later one takes down the points.
c.Autograde.autograde_preprocessors.insert(1, Verdicts)

# The exercises in `source` are as students get them. nbgrader would put the same few words into all of them, whatever is in them:
# some have a routine with a bug.
c.ClearSolutions.enabled = False
