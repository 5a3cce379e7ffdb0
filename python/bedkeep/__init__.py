"""bedkeep from Python: sessions that stay open, and runs of one subcommand.

    with bedkeep.Session("sizes", "genes.bed") as session:
        session.add("chr1", 390, 500, "geneC")
        for block in session.view("merge -d 10"):
            print(block.chromosome, block.start, block.end)
        session.save("corrected.bed")

    for block in bedkeep.merge("sizes", "genes.bed", d=100):
        ...

    bedkeep.apply("sizes", "genes.bed", "corrections", "corrected.bed")  # also `diff`, `log` and `replay`, as python3 -m bedkeep has them

A record is the columns of a BED line: chromosome, start, end, and then name, score and strand if the file has them. Start
counts from 0, and end is not included. The program is the argument `program`, else what BEDKEEP in the environment names,
else `bedkeep` on the path, or where pip put it.
"""
__version__ = "1.0.0"

from .commands.apply import Applied, apply
from .commands.diff import diff
from .commands.log import Logged, log
from .commands.replay import replay
from .errors import BadOptions, Damaged, Ended, Error, InputOutput, NoMemory, NotFound, Refused
from .given import Genome, Track
from .printed_rows import Row
from .runs import Rows, cluster, complement, genomecov, getfasta, intersect, merge, records, subtract
from .session import Session
from .tables import edits, to_frame

__all__ = [
    "BadOptions", "Damaged", "Ended", "Error", "InputOutput", "NoMemory", "NotFound", "Refused",
    "Applied", "Genome", "Logged", "Row", "Rows", "Session", "Track", "apply", "diff", "edits", "log", "replay", "to_frame",
    "cluster", "complement", "genomecov", "getfasta", "intersect", "merge", "records", "subtract",
]


def __dir__() -> list[str]:
    """What is public; the modules aren't."""
    return [*__all__, *(name for name in globals() if name.startswith("__"))]
