"""The list that `help` of the prompt prints, and which command is meant by one that there isn't."""
from __future__ import annotations

from difflib import get_close_matches
from typing import Iterable

HELP = """\
add COLUMNS              a record into the track: add chr1 100 200 geneA
remove COLUMNS           a record out of it; remove geneA if one has that name
replace COLUMNS COLUMNS  the first one out, the second one in
set COLUMN RECORD VALUE  another value of a column: set end geneA 250, set thickEnd ..
merge RECORD RECORD      one record of two, with the name and score of the first
split RECORD AT          two records of one: split geneA 150
shift REGION BY          all records within a place, or of a name: shift chr1:1-500 -10
rename OLD NEW           all records of a name
addb, removeb, replaceb  the same for the second file
resize CHROMOSOME N      another length of a chromosome
1, 2, ..                 what was offered with that number
undo, redo               takes the last correction back; does it again
history [TEXT]           the corrections with their numbers, or those with a text in them
undo NUMBER              takes that one back
# TEXT                   the reason for the next line; at a terminal it is asked for
# together: TEXT         that for the lines down to an empty one, done whole or not at all
why TEXT                 the reason for the last correction
next                     the next line of a script that no longer fits, which the next
                         correction decides about; take: as it is mended; drop REASON:
                         it isn't wanted any more; later: it is left for now
show PLACE               the records that overlap a place, or that of a name
find NAME                the records of a name, in any case, or with it in their names
near PLACE               the records that are nearest to it
merge -d 10              the rows of this view; also cluster, complement, genomecov,
                         intersect, subtract, getfasta and records, with their options
merge -d 10 PLACE        its rows that overlap the place
review [PAGE.html]       writes a page to look at each correction, and opens it
save [--sorted] FILE     writes all records as a BED file, in the order of the file, or
                         of the track
script [FILE]            shows the accepted corrections as a script, or writes them
help                     this list
quit                     ends, as Ctrl-D does
A place is chr1:101-200 (from 1, as in IGV), chr1 100 200 (from 0, as in a BED file),
chr1:150 (one base, from 1), or chr1. RECORD is the place or the name of one. The
columns of a record, and AT, count from 0. Spaces separate fields, or TABs if a line
has one."""
MEANT = {"closest": "near", "delete": "remove", "del": "remove", "rm": "remove", "insert": "add", "move": "shift", "slop": "set",
         "join": "merge", "combine": "merge", "cut": "split", "list": "records", "ls": "records", "sort": "records",
         "print": "records", "printall": "records", "showall": "show", "open": "show", "close": "show", "go": "show",
         "goto": "show", "search": "find", "grep": "find", "write": "save", "coverage": "genomecov", "revert": "undo",
         "end": "quit", "q": "quit", "?": "help", "h": "help"}


def command_meant(given: str, commands: Iterable[str]) -> str:
    """The command that may be meant by one that there isn't, or nothing."""
    close = get_close_matches(given.lower(), list(commands), 1)
    return MEANT.get(given.lower(), close[0] if close else "")
