"""A session: a track that is edited line by line while views of it stay open."""
# mypy: disable-error-code="import"
from __future__ import annotations

import functools
import html
import os
import re
import tempfile
import threading
from collections import Counter
from collections.abc import Mapping
from heapq import nsmallest
from types import MappingProxyType
from typing import TYPE_CHECKING, Any, Callable, Iterable, Iterator, NamedTuple, Optional, Sequence, TypeVar, Union, cast

from .arguments import Sources
from .bed import lengths_of, width_of
from .changes import Copies
from .conversation import Answer, Conversation, Take
from .encoding import Path, decoded, encoded
from .errors import Ended, Error, Refused
from .files import plain, same_file, stamp, whole
from .forms import BED, headers_of
from .given import SCORE, Genome, Track, path_of, score_of
from .interrupts import Interrupts
from .placement import Looks, write_placed
from .printed_rows import RECORD, Lines, Reader, Row, lines_with, row_of, shows_second
from .program import find, other_version
from .record import NARROWEST, WIDEST, Record, record_of
from .regions import Order, Region, Regions, absent
from .script import TOGETHER, Move, Script, accepted, edits_of, is_edit, line_of, pieces_of, text_of
from .tables import frame_of_text
from .wide_session import Wide, WideScript

if TYPE_CHECKING:
    from pandas import DataFrame

Columns = Iterable[Union[str, int]]
STANDARD_INPUT = {"/dev/stdin", "/dev/fd/0", "/proc/self/fd/0"}
OPENED = "view:"  # how the names of views begin that `view` opens
UNKNOWN = "no such command or wrong fields"  # also how a program refuses what a later version knows
UNDONE = "not done, since line"  # how the refusal of a line begins whose group has one that is refused
LONGEST = 1 << 32  # more than a sequence can have
HEADED = re.compile("^#(.*)\n", re.MULTILINE)  # the line above the rows of a view, of several
REACH = 10_000  # how far from a record those near it are looked for at first
Call = TypeVar("Call", bound=Callable[..., Any])


def alone(call: Call) -> Call:
    """Makes a method of a session one that a single thread is in at a time, and that no process which was forked can use."""
    @functools.wraps(call)
    def locked(session: Session, *words: Any, **options: Any) -> Any:
        session._talk.refuse_forked()
        with session._lock:
            return call(session, *words, **options)

    return cast(Call, locked)


class Seen(NamedTuple):
    """What `Session.edit_seen` saw.

    refused: as `Session.edit` returns it; before, after: the rows of each open view, by its options, each with its end
    inverse: the lines that take the edits back, with all columns of their records
    warnings: what of these can't hold any more, as `Session.warnings` has it
    """

    refused: list[Refused]
    before: dict[str, str]
    after: dict[str, str]
    inverse: list[str]
    warnings: list[tuple[str, str]]


class Session:
    """A track over a genome file, edited by lines of a script, and views of it.

    Records are columns, `add("chr1", 10, 20)`, or one sequence of them, `add(("chr1", 10, 20))`: as many as the file has,
    `width`. Start counts from 0, and end is not included. A line that is refused raises Refused and changes nothing. If the
    program ends, the call raises Ended, and so does each call after it; `script()` still has what the calls before it did.

    An interrupt (Ctrl-C) is raised once the answer that was begun is complete, and the session can be used on. A second
    interrupt closes it, and so does the first one while the files are read. Threads may share a session: a call waits until that of
    another is over. A process that was forked can't use it. The program ends with `close`, at the end of `with`, or when nobody
    holds the session any more.

    Parameters
    ----------
    genome : Genome
        The genome file, packed by gzip or not, or the length of each chromosome, as a dict, a table or pairs.
    bed : Track
        The BED file, packed by gzip or not, a table, or rows, such as those of a run. No file is ever changed.
    second : Track, optional
        The second file, for intersect, subtract and the edits of it.
    fasta : path, optional
        The bases, for getfasta.
    width : int, optional
        The number of columns of a BED file without a record.
    program : path, optional
        The program, instead of the one that is found.
    wide : bool, optional
        Takes files of more than six columns, and GFF3 and GTF. The columns from the seventh on go along with their records,
        and `records` and `save` have them. A line that gives them names a record by all columns, one that gives six leaves them,
        moved by the rules of BED12 and narrowPeak; a line after which they can't hold is refused, and the line that would fit is
        in its hint.
    leave_blocks : bool, optional
        Such a line is done, the columns are left, and `warnings` has it.
    limit : int, optional
        How many records a file may have, and how many lines may be sent, one more a call: 4,000,000 if it isn't given, at most
        100,000,000.

    Raises
    ------
    BadOptions, Damaged, InputOutput, NoMemory
        The files can't be used.
    NotFound
        The program isn't there.

    Examples
    --------
    >>> with bedkeep.Session("sizes", "genes.bed") as session:
    ...     session.replace(("chr1", 100, 200, "geneA"), ("chr1", 100, 250, "geneA"))
    ...     session.view("merge -d 50")
    [Row(chromosome='chr1', start=100, end=400)]
    """

    def __init__(self, genome: Genome, bed: Track, second: Optional[Track] = None, fasta: Optional[Path] = None,
                 width: Optional[int] = None, program: Optional[Path] = None, wide: bool = False,
                 leave_blocks: bool = False, limit: Optional[int] = None) -> None:
        self._named: dict[str, list[str]] = {}
        self._opened = 0
        self._count: Optional[int] = None  # of the records before all edits, once it is asked for
        self._lock = threading.RLock()
        self._refused: list[Refused] = []  # of the last call of `edit`
        with Sources() as sources:
            given = {"-i": sources.track(bed)}
            if second is not None:
                given["-b"] = sources.track(second)
            self._wide = Wide(given, sources.names, width, leave_blocks) if wide else None
            read = self._wide.narrow if self._wide else {option: sources.unpacked(path) for option, path in given.items()}
            sources.names.update((path, sources.name_of(given[option])) for option, path in read.items() if path != given[option])
            files = {"-g": sources.kept(sources.genome(genome)), **read}
            if fasta is not None:
                files["-fi"] = path_of(fasta)
            if STANDARD_INPUT.intersection(files.values()):
                raise ValueError("standard input of a session is its script")
            if self._wide and self._wide.form is not BED:
                width = self._wide.width
            self._program = find(program)
            words = [self._program, "session", *(word for option in files.items() for word in option)]
            if width is not None:
                words += ["-width", str(min(width, WIDEST) if wide else width)]
            if limit is not None:
                words += ["-limit", str(limit)]
            self._source = None if given["-i"] in sources.texts else self._wide.source if self._wide else given["-i"]
            self._source_read = stamp(self._source) if self._source else None
            if self._source_read is None:
                self._source = None
            genome_read = stamp(files["-g"])
            self._talk = Conversation(words, sources.descriptors)
            try:
                self.width = self._find_width("remove", loads=True)
                if stamp(files["-g"]) != genome_read:
                    raise Error(f"{files['-g']} was written while it was read")
                lengths = lengths_of(files["-g"])
            except Ended as failure:
                self.end()
                if not wide and any(map(needs_wide, given.values())):
                    failure.hint = ("wide=True takes files of more than six columns",)
                raise sources.renamed(failure, self._program) from None
            except BaseException:
                self.end()
                raise
            self._second_width = width_of(read["-b"]) or 0 if "-b" in read else 0
            sources.free()
        self._script = self._wide.script(lengths) if self._wide else Script(lengths)
        self._inputs = [sources.name_of(path) for path in {**files, **given}.values() if path not in sources.texts]
        self._name = sources.name_of(files["-i"])

    def __enter__(self) -> Session:
        return self

    def __exit__(self, *_: object) -> None:
        self.end()

    def end(self) -> None:
        """Ends the session. `script()` can be called afterwards. In a process that was forked it does nothing.

        Examples
        --------
        >>> session.end()
        >>> session.script()
        ''
        """
        if self._talk.is_forked:
            return
        with self._lock:
            self._talk.end()
            if self._wide:
                self._wide.close()

    @alone
    def __len__(self) -> int:
        """The number of records.

        Examples
        --------
        >>> len(session)
        2
        """
        added = self._copies(second=False).added
        if self._count is None:
            self._count = self._printed().count(b"\n") - added
        return self._count + added

    def __bool__(self) -> bool:
        """True, also without a record."""
        return True

    def __iter__(self) -> Iterator[Row]:
        """All records, as `records` has them.

        Examples
        --------
        >>> [record.name for record in session]
        ['geneA', 'geneB']
        """
        return iter(self.records())

    def __contains__(self, record: Columns) -> bool:
        """Whether the track has the record. The program is asked to replace it by itself, which changes nothing.

        Parameters
        ----------
        record : sequence of str or int
            All its columns: start counts from 0, and end is not included.

        Examples
        --------
        >>> ("chr1", 100, 200, "geneA") in session
        True
        """
        columns = _columns(record)
        return not self._send(line_of("replace", *columns, *columns))

    def has_second(self, record: Columns) -> bool:
        """Whether the second file has the record. False if there is no such file.

        Parameters
        ----------
        record : sequence of str or int
            All its columns: start counts from 0, and end is not included.

        Examples
        --------
        >>> session.has_second(("chr1", 150, 350))
        True
        """
        columns = _columns(record)
        return not self._send(line_of("replaceb", *columns, *columns))

    def __repr__(self) -> str:
        return f"<bedkeep.Session of {self._name}: {', '.join(self._state())}>"

    @alone
    def _repr_html_(self) -> str:
        """What a notebook shows: the last edits, and what the last call of `edit` refused."""
        edits = "".join(f"<tr><td>{'</td><td>'.join(map(html.escape, line.split(chr(9))))}</td></tr>" for line in self._edits()[-5:])
        refused = "".join(f"<tr><td>{html.escape(one.reason)}</td><td>{html.escape(one.line)}</td></tr>"
                          for one in self._refused[:10])
        if refused:
            refused = f"<p>{len(self._refused)} refused</p><table>{refused}</table>"
        return f"<b>bedkeep session of {html.escape(self._name)}</b>: {', '.join(self._state())}<table>{edits}</table>{refused}"

    # Edits

    def add(self, *record: Union[str, int, Columns]) -> None:
        """Puts a copy of the record into the track.

        Parameters
        ----------
        *record : str or int, or one sequence of these
            Its columns: chromosome, start (from 0), end (not included), and name, score and strand if the file has them.

        Raises
        ------
        Refused
            A column is damaged, there are too few or too many, the end is past that of the chromosome, or the track is full.

        Examples
        --------
        >>> session.add("chr1", 390, 500, "geneC")
        >>> session.add("chr2", 400, 501, "geneD")
        Traceback (most recent call last):
        bedkeep.errors.Refused: line 1: end past the sequence's end: ...
        """
        self._edit("add", record)

    def remove(self, *record: Union[str, int, Columns]) -> None:
        """Takes a copy of the record out of the track. All columns count.

        Parameters
        ----------
        *record : str or int, or one sequence of these
            Its columns: start counts from 0, and end is not included.

        Raises
        ------
        Refused
            The track has no such record.

        Examples
        --------
        >>> session.remove("chr1", 100, 200, "geneA")
        >>> session.remove("chr1", 100, 200, "geneA")
        Traceback (most recent call last):
        bedkeep.errors.Refused: line 1: no such record: ...
        """
        self._edit("remove", record)

    def replace(self, old: Columns, new: Columns) -> None:
        """Takes a copy of one record out of the track and puts one of another in.

        Parameters
        ----------
        old, new : sequence of str or int
            All columns of both: start counts from 0, and end is not included.

        Raises
        ------
        Refused
            The track has no such record, or the new one is refused as `add` would. The old one is there then.

        Examples
        --------
        >>> session.replace(("chr1", 100, 200, "geneA"), ("chr1", 100, 250, "geneA"))
        """
        self._send_one(line_of("replace", *_columns(old), *_columns(new)), done=self._script.add)

    def add_second(self, *record: Union[str, int, Columns]) -> None:
        """`add` for the second file.

        Parameters
        ----------
        *record : str or int, or one sequence of these
            Its columns: start counts from 0, and end is not included.

        Raises
        ------
        Refused
            As by `add`, or there is no second file.

        Examples
        --------
        >>> session.add_second("chr1", 0, 50)
        """
        self._edit("addb", record)

    def remove_second(self, *record: Union[str, int, Columns]) -> None:
        """`remove` for the second file.

        Parameters
        ----------
        *record : str or int, or one sequence of these
            Its columns: start counts from 0, and end is not included.

        Raises
        ------
        Refused
            As by `remove`, or there is no second file.

        Examples
        --------
        >>> session.remove_second("chr1", 150, 350)
        """
        self._edit("removeb", record)

    def replace_second(self, old: Columns, new: Columns) -> None:
        """`replace` for the second file.

        Parameters
        ----------
        old, new : sequence of str or int
            All columns of both: start counts from 0, and end is not included.

        Raises
        ------
        Refused
            As by `replace`, or there is no second file.

        Examples
        --------
        >>> session.replace_second(("chr1", 150, 350), ("chr1", 150, 360))
        """
        self._send_one(line_of("replaceb", *_columns(old), *_columns(new)), done=self._script.add)

    def resize(self, chromosome: str, length: int) -> None:
        """Corrects the length of a chromosome.

        Parameters
        ----------
        chromosome : str
            Its name in the genome.
        length : int
            The number of its bases.

        Raises
        ------
        Refused
            The genome has no such chromosome, or a record ends past the length.

        Examples
        --------
        >>> session.resize("chr2", 600)
        """
        self._send_one(line_of("resize", chromosome, length), done=self._script.add)

    @alone
    def edit(self, lines: Union[str, Iterable[str]], strict: bool = False) -> list[Refused]:
        r"""Carries out the edits of a script, all at once, and returns what was refused; all other lines are done.

        The lines of a paragraph below a comment that begins with `# together:` are done whole, or none of them is.

        Parameters
        ----------
        lines : str or iterable of str
            The text of a script, an open file, or any lines. Comments are part of `script()`.
        strict : bool, optional
            Raises the first one that was refused instead; its `others` are those after it.

        Returns
        -------
        list of Refused
            Each with its line, the number of the line from 1, and the reason.

        Raises
        ------
        Refused
            If it is strict.

        Examples
        --------
        >>> refused = session.edit("add\tchr1\t390\t500\tgeneC\nremove\tchr1\t300\t401\tgeneB\n")
        >>> [(one.number, one.reason) for one in refused]
        [(2, 'no such record')]
        """
        self._refused = self._carry_out(edits_of(lines))
        if strict and self._refused:
            self._refused[0].others = self._refused[1:]
            raise self._refused[0]
        return self._refused

    @alone
    def edit_together(self, lines: Union[str, Iterable[str]], reason: str = "") -> None:
        r"""Carries out edits whole, with their reason, or raises the first Refused and does none. `undo` takes all back.

        Parameters
        ----------
        lines : str or iterable of str
            Edits alone, without a comment or an empty line.
        reason : str, optional
            A comment above them.

        Raises
        ------
        Refused
            One of them is refused.
        ValueError
            One of them is no edit.

        Examples
        --------
        >>> session.edit_together("remove\tchr1\t100\t200\tgeneA\nremove\tchr1\t300\t400\tgeneB", "both are repeats")
        >>> len(session)
        0
        """
        text = edits_of(lines)
        if not all(map(is_edit, text.split("\n")[:-1])):
            raise ValueError("an empty line or a comment among lines that are done together")
        comments = f"{TOGETHER} {reason}".splitlines()
        self._refused = self._carry_out("".join(f"# {line}".rstrip() + "\n" for line in comments) + text)
        for refused in self._refused:
            refused.number -= len(comments)
        for refused in self._refused:
            if not refused.reason.startswith(UNDONE):
                raise refused

    @alone
    def edit_seen(self, lines: Union[str, Iterable[str]], region: Optional[Region] = None, keep: bool = True) -> Seen:
        r"""Carries out edits as `edit` does, and has the rows of all open views before and after them, as `show_all` has them.

        That is one exchange with the program.

        Parameters
        ----------
        lines : str or iterable of str
            The edits.
        region : tuple of str, int, int, optional
            Chromosome, start (from 0) and end (not included). No rows come of a region that isn't there before and after.
        keep : bool, optional
            Whether the edits stay; else another exchange takes all of them back.

        Returns
        -------
        Seen
            `refused`, `before`, `after`, `inverse` and `warnings`.

        Raises
        ------
        ValueError
            Some of the lines, not all, are done together.

        Examples
        --------
        >>> session.watch("merge")
        'merge'
        >>> seen = session.edit_seen("add\tchr1\t200\t300\tgeneC", ("chr1", 0, 1000), keep=False)
        >>> seen.after["merge"]
        'chr1\t100\t400\n'
        >>> len(session)
        2
        """
        text = edits_of(lines)
        is_group = [is_group for _, is_group in pieces_of(text)] or [False]
        if len(is_group) > 1:
            raise ValueError("lines of which only some are done together")
        look = line_of("showall", *region) if region and self._named else ""
        printed: list[bytes] = []
        with Interrupts():
            warned = len(self.warnings())
            if is_group[0]:
                refused = self._send_group(text, 0, printed.append, look)
            else:
                refused = self._send(text, printed.append, self._script.add, whole=True, look=look)
            places = self._script.last_edits(sum(map(is_edit, text.split("\n"))) - len(refused))
            inverse = [self._script.reverse(place).rstrip("\n") for place in reversed(places)]
            warnings = self.warnings()[warned:]
            if keep:
                self._refused = refused
            elif places:
                self._take_back(places)
        shown = self._shown(b"".join(printed))
        before, after = (shown[0], shown[-1]) if len(shown) > 1 else ({}, {})
        return Seen(refused, before, before if is_group[0] and refused else after, inverse, warnings)

    @alone
    def undo(self) -> str:
        r"""Takes the last accepted edit back by the one that reverses it, and returns its line; of a group all its lines.

        The comments directly above go with it.

        Raises
        ------
        IndexError
            There is no edit.

        Examples
        --------
        >>> session.remove("chr1", 100, 200, "geneA")
        >>> session.undo()
        'remove\tchr1\t100\t200\tgeneA'
        """
        places = self._script.last()
        undone = "\n".join(self._script.lines()[place] for place in places)
        self._take_back(places)
        return undone

    @alone
    def inverse(self) -> str:
        r"""The lines that `undo` would send, each with its end.

        Raises
        ------
        IndexError
            There is no edit.

        Examples
        --------
        >>> session.remove("chr1", 100, 200, "geneA")
        >>> session.inverse()
        'add\tchr1\t100\t200\tgeneA\n'
        """
        return "".join(self._script.reverse(place) for place in reversed(self._script.last()))

    @alone
    def inverse_of(self, first: int, count: int) -> list[str]:
        r"""The lines that take back some edits, if none after them is about their records.

        Parameters
        ----------
        first : int
            The number of edits before them.
        count : int
            How many they are.

        Examples
        --------
        >>> session.remove("chr1", 100, 200, "geneA")
        >>> session.remove("chr1", 300, 400, "geneB")
        >>> session.inverse_of(0, 1)
        ['add\tchr1\t100\t200\tgeneA']
        """
        places = [place for place, line in enumerate(self._script.lines()) if is_edit(line)][first:first + count]
        return [self._script.reverse(place).rstrip("\n") for place in reversed(places)]

    @alone
    def explain(self, reason: str) -> None:
        """Puts the reason for the last accepted edit, or its group, above it, as a comment.

        Parameters
        ----------
        reason : str
            Each of its lines becomes one of the comment.

        Raises
        ------
        IndexError
            There is no edit.

        Examples
        --------
        >>> session.remove("chr1", 100, 200, "geneA")
        >>> session.explain("it is a repeat")
        >>> print(session.script(), end="")
        # it is a repeat
        remove  chr1  100  200  geneA
        """
        self._script.explain(reason)

    @alone
    def script(self) -> str:
        """The accepted edits, in their order, as the text of a script; without those that `undo` took back.

        Examples
        --------
        >>> session.remove("chr1", 100, 200, "geneA")
        >>> print(session.script(), end="")
        remove  chr1  100  200  geneA
        """
        return "".join(f"{line}\n" for line in self._script.lines())

    def warnings(self) -> list[tuple[str, str]]:
        """What of the columns from the seventh on can't hold any more, such as a thickEnd, after the line that left it so.

        Examples
        --------
        >>> session.warnings()
        []
        """
        return self._script.warnings if isinstance(self._script, WideScript) else []

    # Views

    @alone
    def open(self, name: str, words: str) -> None:
        """Opens a view under a name.

        Parameters
        ----------
        name : str
            What `rows` and `close` call it.
        words : str
            Its subcommand and options, such as `merge -d 10`.

        Raises
        ------
        Refused
            An option is wrong, the name is taken, or too many views are open.

        Examples
        --------
        >>> session.open("blocks", "merge -d 100")
        >>> session.rows("blocks")
        [Row(chromosome='chr1', start=100, end=400)]
        """
        listed = _words(words)
        self._send_one(line_of("open", name, " ".join(listed)), done=lambda _: self._named.update({name: listed}))

    @alone
    def watch(self, words: str) -> str:
        """Opens a view if none is open with these options, and returns them, by which `show_all` has its rows.

        Parameters
        ----------
        words : str
            Its subcommand and options, such as `merge -d 10`.

        Raises
        ------
        Refused
            An option is wrong, or too many views are open.

        Examples
        --------
        >>> session.watch("merge  -d 100")
        'merge -d 100'
        """
        return " ".join(self._named[self._view(words)])

    def close(self, name: Optional[str] = None) -> None:
        """Closes a view, or ends the session.

        Parameters
        ----------
        name : str, optional
            The name of the view. Without it the session ends.

        Raises
        ------
        Refused
            No view of that name is open.

        Examples
        --------
        >>> session.open("blocks", "merge")
        >>> session.close("blocks")
        """
        if name is None:
            self.end()
            return
        closed = name
        self._send_one(line_of("close", closed), done=lambda _: self._named.pop(closed))

    @alone
    def rows(self, name: str) -> list[Row]:
        """The rows of an open view, as the records are now.

        Parameters
        ----------
        name : str
            The name that it was opened under.

        Raises
        ------
        Refused
            No view of that name is open.

        Examples
        --------
        >>> session.open("depth", "genomecov -bg")
        >>> session.add("chr1", 150, 200, "geneC")
        >>> session.rows("depth")[1]
        Row(chromosome='chr1', start=150, end=200, depth=2)
        """
        return self._rows(name, line_of("print", name))

    @alone
    def view(self, words: str) -> list[Row]:
        """The rows of a view. It stays open, so that the next look at it is a print.

        Parameters
        ----------
        words : str
            Its subcommand and options, such as `merge -d 10`.

        Returns
        -------
        list of Row
            Start counts from 0, and end is not included; `position` of `genomecov -d` counts from 1.

        Raises
        ------
        Refused
            An option is wrong, or too many views are open.

        Examples
        --------
        >>> session.view("intersect")[0]
        Row(chromosome='chr1', start=150, end=200, name='geneA')
        """
        return self.rows(self._view(words))

    @alone
    def show(self, words: str, chromosome: str, start: int, end: int) -> list[Row]:
        """The rows of a view that share a position with an interval of a chromosome, whole.

        Of records, cluster, intersect, subtract and getfasta: the rows of the records that do so. The view stays open, as by
        `view`.

        Parameters
        ----------
        words : str
            Its subcommand and options, such as `merge -d 10`.
        chromosome : str
            The chromosome.
        start, end : int
            The interval: start counts from 0, and end is not included.

        Raises
        ------
        Refused
            An option or the interval is wrong, or too many views are open.

        Examples
        --------
        >>> session.show("merge", "chr1", 199, 300)
        [Row(chromosome='chr1', start=100, end=200)]
        """
        name = self._view(words)
        return self._rows(name, line_of("show", name, chromosome, start, end))

    @alone
    def stream(self, words: str, take: Callable[[bytes], object], region: Optional[Region] = None) -> None:
        r"""Hands on the rows of a view, or those of a region, as the program prints them: some whole lines at a time.

        Parameters
        ----------
        words : str
            Its subcommand and options, such as `merge -d 10`.
        take : callable
            What is called with some lines, as bytes.
        region : tuple of str, int, int, optional
            Chromosome, start (from 0) and end (not included).

        Raises
        ------
        Refused
            An option or the region is wrong, or too many views are open.

        Examples
        --------
        >>> session.stream("merge", print, ("chr1", 0, 200))
        b'chr1\t100\t200\n'
        """
        name, lines = self._view(words), Lines()
        line = line_of("show", name, *region) if region else line_of("print", name)
        self._send_one(line, lambda piece: take(lines.whole(piece)))

    @alone
    def show_all(self, chromosome: str, start: int, end: int) -> dict[str, str]:
        r"""The rows of each open view that `show` gives, by its options, as text: as the program prints them, each with its end.

        Parameters
        ----------
        chromosome : str
            The chromosome.
        start, end : int
            The interval: start counts from 0, and end is not included.

        Raises
        ------
        Refused
            The interval is wrong.

        Examples
        --------
        >>> session.watch("merge")
        'merge'
        >>> session.show_all("chr1", 0, 200)
        {'merge': 'chr1\t100\t200\n'}
        """
        printed: list[bytes] = []
        if self._named:
            self._send_one(line_of("showall", chromosome, start, end), printed.append)
        return self._shown(b"".join(printed))[0]

    @alone
    def records(self) -> list[Row]:
        """All records in the order of the genome file.

        Examples
        --------
        >>> session.records()[1]
        Row(chromosome='chr1', start=300, end=400, name='geneB')
        """
        rows: list[Row] = []
        reader = Reader(["records"], self.width)
        self._print_track(lambda lines: rows.extend(reader.rows(lines)))
        return rows

    @alone
    def region(self, chromosome: str, start: int = 0, end: Optional[int] = None) -> list[Row]:
        """The records that overlap an interval, or all of a chromosome, in their order.

        Parameters
        ----------
        chromosome : str
            The chromosome.
        start : int, optional
            Where the interval begins, from 0.
        end : int, optional
            Where it ends, not included. One past that of the chromosome is taken for it.

        Raises
        ------
        ValueError
            The genome has no such chromosome or position.

        Examples
        --------
        >>> session.region("chr1", 350)
        [Row(chromosome='chr1', start=300, end=400, name='geneB')]
        """
        if end is None:
            end = LONGEST
        self._refuse_place(chromosome, start)
        if start >= end:
            raise ValueError(f"a region from {start} to {end}: its start is not below its end")
        first, last = max(start, 0), min(end, self.lengths[chromosome])
        return self.show("records", chromosome, first, last) if first < last else []

    @alone
    def around(self, regions: Iterable[Region]) -> Counter[Record]:
        """The number of copies of each record that overlaps any of the regions, by one exchange with the program.

        Parameters
        ----------
        regions : iterable of tuples of str, int, int
            Chromosome, start (from 0) and end (not included); what of a region isn't in the genome is left out.

        Returns
        -------
        Counter
            Its records are tuples of text, of at most six columns.

        Examples
        --------
        >>> session.around([("chr1", 0, 150), ("chr2", 0, 500)])
        Counter({('chr1', '100', '200', 'geneA'): 1})
        """
        asked = Regions(regions, self.lengths)
        rows: Counter[bytes] = Counter()
        lines = Lines()

        def take(piece: bytes) -> None:
            rows.update(lines.whole(piece).split(b"\n")[:-1])

        name = self._view("records")
        for refused in self._send("".join(f"show\t{name}\t{where}\t{start}\t{end}\n" for where, start, end in asked), take):
            raise refused
        records = ((tuple(decoded(row).split("\t")), copies) for row, copies in rows.items())
        return Counter({record: copies // asked.overlapping(record) for record, copies in records})

    @alone
    def find(self, name: str) -> list[Row]:
        """The records of that name, in their order.

        Parameters
        ----------
        name : str
            The whole name.

        Examples
        --------
        >>> session.find("geneB")
        [Row(chromosome='chr1', start=300, end=400, name='geneB')]
        """
        return self._rows_of(record for record in self._with(name) if record[3] == name)

    @alone
    def named(self, names: Iterable[str]) -> dict[str, list[Record]]:
        """The records of each of the names, in their order, as tuples of text, of at most six columns.

        Parameters
        ----------
        names : iterable of str
            The whole names.

        Examples
        --------
        >>> session.named(["geneB", "geneX"])
        {'geneB': [('chr1', '300', '400', 'geneB')], 'geneX': []}
        """
        found: dict[bytes, list[Record]] = {encoded(name): [] for name in names}
        for line in self._printed().split(b"\n")[:-1] if self.width > NARROWEST else ():
            name = line.split(b"\t", NARROWEST + 1)[NARROWEST]
            if name in found:
                found[name].append(tuple(decoded(line).split("\t")))
        return {decoded(name): records for name, records in found.items()}

    @alone
    def search(self, part: str) -> list[Row]:
        """The records that have this in their names, in any case, in their order.

        Parameters
        ----------
        part : str
            Some of a name.

        Examples
        --------
        >>> session.search("NEB")
        [Row(chromosome='chr1', start=300, end=400, name='geneB')]
        """
        return self._rows_of(record for record in self._with(part) if part.casefold() in record[3].casefold())

    @alone
    def near(self, chromosome: str, start: int, end: int, count: int = 3) -> list[Row]:
        """The records of a chromosome whose start and end are nearest, the nearest first.

        Parameters
        ----------
        chromosome : str
            The chromosome.
        start, end : int
            Start counts from 0, and end is not included.
        count : int, optional
            How many records, at most.

        Raises
        ------
        ValueError
            The genome has no such chromosome or position.

        Examples
        --------
        >>> session.near("chr1", 300, 401, count=1)
        [Row(chromosome='chr1', start=300, end=400, name='geneB')]
        """
        def distance(row: Row) -> int:
            return abs(row.start - start) + abs(row.end - end)

        self._refuse_place(chromosome, start)
        reach = REACH
        while True:
            found = nsmallest(count, self.region(chromosome, max(start - reach, 0), end + reach), key=distance)
            if len(found) == count and distance(found[-1]) <= reach or reach >= LONGEST:
                return found
            reach *= 100

    @alone
    def tails(self, record: Columns, second: bool = False) -> list[str]:
        r"""The columns from the seventh on of each copy of a record, each after a TAB, in the order in which copies are taken.

        A file without such columns has none.

        Parameters
        ----------
        record : sequence of str or int
            The record, of which the first six columns count: start counts from 0, and end is not included.
        second : bool, optional
            In the second file.

        Examples
        --------
        >>> with bedkeep.Session("sizes", "exons.bed", wide=True) as session:
        ...     session.tails(("chr1", 100, 200, "geneA", 0, "+"))
        ['\t100\t200\t0\t2\t10,20\t0,80']
        """
        return self._wide.tails_of(_columns(record), second) if self._wide else []

    def columns(self, second: bool = False) -> int:
        """The number of columns of a file with those from the seventh on: 0 if it has no record, or isn't there.

        Parameters
        ----------
        second : bool, optional
            Of the second file.

        Examples
        --------
        >>> session.columns(), session.columns(second=True)
        (4, 3)
        """
        if self._wide:
            return self._wide.columns(second)
        return self._second_width if second else self.width

    @alone
    def format(self, second: bool = False) -> str:
        """The format of these columns, such as BED12 or narrowPeak, by the file's first record. Empty if they are text, or none.

        Parameters
        ----------
        second : bool, optional
            Of the second file.

        Examples
        --------
        >>> with bedkeep.Session("sizes", "exons.bed", wide=True) as session:
        ...     session.format()
        'BED12'
        """
        return self._wide.format(second) if self._wide else ""

    @alone
    def net(self, record: Columns, second: bool = False) -> int:
        """How many copies of a record the edits put in, less those that they took out.

        Parameters
        ----------
        record : sequence of str or int
            The record, of which the first six columns count: start counts from 0, and end is not included.
        second : bool, optional
            Into the second file.

        Examples
        --------
        >>> session.add("chr1", 100, 200, "geneA")
        >>> session.net(("chr1", 100, 200, "geneA"))
        1
        """
        return self._copies(second).net(record_of(_columns(record)))

    @alone
    def taken(self, record: Columns, second: bool = False) -> int:
        """How many copies of a record edits took out that haven't come back: if there are any, an `add` of it puts one back.

        Parameters
        ----------
        record : sequence of str or int
            The record, of which the first six columns count: start counts from 0, and end is not included.
        second : bool, optional
            Out of the second file.

        Examples
        --------
        >>> session.remove("chr1", 100, 200, "geneA")
        >>> session.taken(("chr1", 100, 200, "geneA"))
        1
        """
        return self._copies(second).taken(record_of(_columns(record)))

    @alone
    def moves(self) -> list[Move]:
        r"""What each accepted edit of the track did, in their order: the record that it took out and the one that it put in, or None.

        They are lines of BED with all their columns, the numbers without leading zeros.

        Examples
        --------
        >>> session.add("chr1", 0, 5, "geneC")
        >>> session.moves()
        [(None, 'chr1\t0\t5\tgeneC')]
        """
        return list(self._script.moves())

    @property
    @alone
    def lengths(self) -> Mapping[str, int]:
        """The length of each chromosome now.

        Examples
        --------
        >>> dict(session.lengths)
        {'chr1': 1000, 'chr2': 500}
        """
        return MappingProxyType(self._script.changes().lengths)

    def length(self, chromosome: str) -> int:
        """The length of a chromosome now.

        Parameters
        ----------
        chromosome : str
            Its name in the genome.

        Raises
        ------
        ValueError
            The genome has none such.

        Examples
        --------
        >>> session.resize("chr2", 600)
        >>> session.length("chr2")
        600
        """
        lengths = self.lengths
        if chromosome not in lengths:
            raise ValueError(absent(chromosome, lengths))
        return lengths[chromosome]

    def is_suspended(self) -> bool:
        """Whether a signal stopped the program, so that it answers once another one has it go on.

        Raises
        ------
        Ended
            It has ended.

        Examples
        --------
        >>> session.is_suspended()
        False
        """
        state = self._talk.state
        if state is not None and state != os.CLD_STOPPED:
            self._send("")
        return state == os.CLD_STOPPED

    @alone
    def to_frame(self, words: Optional[str] = None, names: str = "bedkeep") -> DataFrame:
        """The rows of a view, or all records, as a DataFrame of pandas, which has to be installed.

        Parameters
        ----------
        words : str, optional
            The subcommand and options of the view, such as `merge -d 10`.
        names : str, optional
            What the columns of a record are called, as in the rows ("bedkeep"), in bioframe or in pyranges.

        Raises
        ------
        Refused
            An option is wrong, or too many views are open.

        Examples
        --------
        >>> session.to_frame("merge", names="bioframe")["end"].tolist()
        [200, 400]
        """
        pieces: list[bytes] = []
        if words is None:
            self._print_track(pieces.append)
            columns = max(self.width, self._wide.width) if self._wide else self.width
            return frame_of_text(b"".join(pieces), ["records"], columns, None, names)
        self.stream(words, pieces.append)
        second = self._find_width("removeb") if shows_second(_words(words)) else None
        return frame_of_text(b"".join(pieces), _words(words), self.width, second, names)

    @alone
    def save(self, path: Path, sorted: bool = False) -> None:
        """Writes the BED file as it is after the edits, whole or not at all.

        Each line that no edit is about stays where it is, byte for byte; a record that replaces another is where that one was;
        one that is added is after the record that it follows in the track.

        Parameters
        ----------
        path : path
            Where to. `-` is standard output, and one that ends in .gz or .bgz is packed.
        sorted : bool, optional
            The headers, then all records in their order; so are those of a table or of a pipe.

        Raises
        ------
        ValueError
            The session reads the path, or the BED file was written again since it was read.

        Examples
        --------
        >>> session.remove("chr1", 100, 200, "geneA")
        >>> session.save("corrected.bed")
        >>> with open("corrected.bed") as file:
        ...     print(file.read(), end="")
        chr1  300  400  geneB
        """
        if self.reads(path):
            raise ValueError(f"{os.fspath(path)} is a file of this session, which isn't changed")
        with whole(path) as file:
            self.stream_file(file.write, sorted)

    @alone
    def stream_file(self, take: Callable[[bytes], object], sorted: bool = False) -> None:
        r"""Hands on what `save` writes, some bytes at a time.

        Parameters
        ----------
        take : callable
            What is called with some bytes.
        sorted : bool, optional
            As by `save`.

        Raises
        ------
        ValueError
            The BED file was written again since it was read.

        Examples
        --------
        >>> session.remove("chr1", 100, 200, "geneA")
        >>> pieces = []
        >>> session.stream_file(pieces.append)
        >>> b"".join(pieces)
        b'chr1\t300\t400\tgeneB\n'
        """
        self._talk.refuse_ended()
        if self._source is None:
            self._print_track(take)
            return
        if stamp(self._source) != self._source_read:
            raise ValueError(f"{self._name} was written again since it was read, so where its lines were isn't known")
        form = self._wide.form if self._wide else BED
        with tempfile.TemporaryDirectory(prefix="bedkeep-") as folder:
            source = plain(self._source, folder)
            if not sorted:
                write_placed(source, self._script.moves(), Looks(self.around, Order(self.lengths)), take, form)
                return
            headers, rest = headers_of(source, form)
            printed = form.printer(source)
            take(headers)
            self._print_track(lambda rows: take(printed(rows)))
            take(rest)

    def reads(self, path: Path) -> bool:
        """Whether the session reads this file, under any of its names.

        Parameters
        ----------
        path : path
            The file, which needn't be there.

        Examples
        --------
        >>> session.reads("./genes.bed")
        True
        """
        return any(same_file(file, path) for file in self._inputs)

    # What the calls above are made of

    def _edit(self, command: str, record: Sequence[Union[str, int, Columns]]) -> None:
        columns = _columns(record[0] if len(record) == 1 else record)
        self._send_one(line_of(command, *columns), done=self._script.add)

    def _rows(self, name: str, line: str) -> list[Row]:
        """What a line prints of an open view. The rows are made as the text comes, so that it is never there as a whole."""
        rows: list[Row] = []
        lines, reader = Lines(), Reader(self._named.get(name, []), self.width)
        self._send_one(line, lambda piece: rows.extend(reader.rows(lines.whole(piece))))
        return rows

    def _print_track(self, take: Callable[[bytes], object]) -> None:
        """Hands on the rows of all records, in their order."""
        joined = self._wide.joiner() if self._wide else bytes
        self.stream("records", lambda lines: take(joined(lines)))

    def _printed(self) -> bytes:
        """The lines of all records, at most six columns of them."""
        pieces: list[bytes] = []
        self.stream("records", pieces.append)
        return b"".join(pieces)

    def _with(self, part: str) -> Iterable[Record]:
        """The records with a name whose lines have a text in them, and maybe others, as tuples of text."""
        lines = lines_with(self._printed(), part) if self.width > NARROWEST else ()
        return (tuple(line.split("\t")) for line in lines)

    def _rows_of(self, records: Iterable[Record]) -> list[Row]:
        fields = RECORD[:self.width]
        return [row_of(fields, (record[0], int(record[1]), int(record[2]), *record[3:])) for record in records]

    def _copies(self, second: bool) -> Copies:
        changes = self._script.changes()
        return changes.second if second else changes.track

    def _refuse_place(self, chromosome: str, start: int) -> None:
        """Raises a ValueError for a place that the genome lacks."""
        length = self.length(chromosome)
        if start >= max(length, 1):
            raise ValueError(f"{chromosome} has {length} bases, so nothing is at {start}")

    def _edits(self) -> list[str]:
        return [line for line in self._script.lines() if line and not line.startswith("#")]

    def _state(self) -> list[str]:
        """What is short to say of a session."""
        return [f"{self.width} columns", f"{len(self._edits())} edits", *(["ended"] if self._talk.is_over else [])]

    def _carry_out(self, text: str) -> list[Refused]:
        """Does all lines of a script but those that are returned."""
        if TOGETHER not in text:
            return self._send(text, done=self._script.add)
        all_refused: list[Refused] = []
        before = 0
        for piece, is_group in pieces_of(text):
            refused = self._send_group(piece, before) if is_group else self._send(piece, done=self._script.add)
            for one in refused:
                one.number += before
            all_refused += refused
            before += piece.count("\n")
        return all_refused

    def _send_group(self, text: str, before: int, take: Take = len, look: str = "") -> list[Refused]:
        """Does all edits of a text, or returns each as refused. before: how many lines of the script are before it."""
        with Interrupts():
            refused = self._send(text, take, self._script.add, whole=True, look=look)
            done = sum(map(is_edit, text.split("\n"))) - len(refused)
            if refused and done:
                self._take_back(self._script.last_edits(done))
            return _together(text, refused, before)

    def _take_back(self, places: Sequence[int]) -> None:
        """Takes back the last edits, the last one first."""
        def forget(_: str) -> None:
            for place in reversed(places):
                self._script.forget(place)

        text = "".join(self._script.reverse(place) for place in reversed(places))
        refused = self._send(text, done=lambda sent: forget(sent) if sent == text else None, whole=True)
        if refused:  # An allocation failed.
            if len(places) > 1:
                self._talk.kill()
            raise refused[0]

    def _send_one(self, line: str, take: Take = len, done: Callable[[str], object] = len) -> None:
        for refused in self._send(line, take, done):
            raise refused

    @alone
    def _send(self, text: str, take: Take = len, done: Callable[[str], object] = len, whole: bool = False,
              loads: bool = False, look: str = "") -> list[Refused]:
        """Sends lines; `take` gets what they print, and `done` those that were accepted.

        whole: an interrupt leaves none out; loads: an interrupt ends the program at once; look: a line to send before and after them
        """
        with Interrupts(self._talk.kill, at_once=loads) as interrupts:
            def ask(lines: str, whole: bool) -> Answer:
                return self._talk.ask(lines, take, interrupts, whole)

            asked = f"{look}{text}{look}"
            answer = self._wide.ask(ask, asked, whole) if self._wide else ask(asked, whole)
            sent, refused, hints = answer.within(text.count("\n")) if look else answer
            lines = text.split("\n") if refused or interrupts.came else []
            if lines:
                text = accepted(lines[:sent], refused)
            if text:
                done(text)
        unknown = other_version(self._program) if UNKNOWN in refused.values() else ()
        return [Refused(reason, number, lines[number - 1], (*(unknown if reason == UNKNOWN else ()), *hints.get(number, ())))
                for number, reason in refused.items()]

    def _find_width(self, command: str, loads: bool = False) -> int:
        """Asks for the number of columns of a record, by records of empty columns: only one of them has the right number."""
        widths = range(3, 7)
        refused = self._send("".join(command + "\t" * width + "\n" for width in widths), loads=loads)
        return next(width for width, why in zip(widths, refused) if why.reason != "wrong number of columns")

    def _shown(self, printed: bytes) -> list[dict[str, str]]:
        """The rows of each view by its options, for each time that all were printed. No row begins as the line `#NAME` does."""
        parts = HEADED.split(decoded(printed))
        count = len(self._named)
        rows = [dict(zip(map(" ".join, self._named.values()), parts[begin:begin + 2 * count:2]))
                for begin in range(2, len(parts), 2 * count)] if count else []
        return rows or [{}]

    def _view(self, words: str) -> str:
        """The name of the view with these options, which is opened if it isn't yet."""
        mine = [name for name in self._named if name.startswith(OPENED)]
        for name, listed in self._named.items():
            if listed == _words(words):
                return name
        self._opened += 1
        name = f"{OPENED}{self._opened}"
        try:
            self.open(name, words)
        except Refused as refused:
            if refused.reason != "too many views" or not mine:
                raise Refused(refused.reason, 1, words, refused.hint) from None
            self.close(mine[0])
            self.open(name, words)
        return name


def _together(text: str, refused: Sequence[Refused], before: int) -> list[Refused]:
    """The refusals of all edits of a text, if one is refused. before: how many lines of the script are before it."""
    if not refused:
        return []
    numbers = {one.number: one for one in refused}
    because = f"{UNDONE} {before + refused[0].number} is refused"
    return [numbers.get(number) or Refused(because, number, line) for number, line in enumerate(text.split("\n"), 1) if is_edit(line)]


def needs_wide(path: Path) -> bool:
    """Whether it is a file that only a wide session takes."""
    return (width_of(path) or 0) > WIDEST


def _columns(record: object) -> list[str]:
    if isinstance(record, (str, bytes, Mapping, set, frozenset)) or hasattr(record, "columns") or not isinstance(record, Iterable):
        raise TypeError(f"a record is its columns, and not {record!r}")
    return [score_of(column) if place == SCORE else text_of(column) for place, column in enumerate(record)]


def _words(words: str) -> list[str]:
    """A view's subcommand and options. The rows of getfasta are a line each."""
    if not isinstance(words, str):
        raise TypeError(f"a view is a text, such as 'merge -d 10', and not {words!r}")
    listed = [word for word in words.split(" ") if word]
    if listed[:1] == ["getfasta"] and "-tab" not in listed:
        listed.append("-tab")
    return listed
