"""Runs of one subcommand. Each gives its rows one after another, as the program prints them.

A run begins with the call, and ends with its last row or when it is closed. If the program ends with such a status the call
raises BadOptions, Damaged, InputOutput or NoMemory; after the first rows they do. `width` is the number of columns of a BED
file without a record. A file may be packed by gzip, or a pipe; /dev/stdin is standard input. A genome may be a dict of lengths, and
a BED file a table, or rows, such as those of another run: all that `given` lists. Of these a TypeError or a ValueError names the row
that is no record.
"""
# mypy: disable-error-code="import"
from __future__ import annotations

import inspect
import os
import subprocess
from typing import TYPE_CHECKING, Generator, Iterator, Optional, Sequence, SupportsIndex, Union

from .arguments import Sources
from .bed import width_of
from .encoding import Path, decoded
from .errors import Ended, ended
from .given import Genome, Track, path_of
from .printed_rows import Lines, Reader, Row
from .program import environment, find
from .script import text_of
from .tables import frame_of_rows, frame_of_text

if TYPE_CHECKING:
    from pandas import DataFrame

PIECE = 1 << 20
Value = Union[None, bool, int, str, Sequence[int], Sequence[str]]


class Rows(Iterator[Row]):
    """The rows of a run, one after another. What isn't wanted any more is left out by `close`, or at the end of `with`.

    Examples
    --------
    >>> with bedkeep.merge("sizes", "genes.bed") as rows:
    ...     next(rows)
    Row(chromosome='chr1', start=100, end=200)
    """

    def __init__(self, pieces: Generator[bytes, None, None], words: Sequence[str], widths: Sequence[Optional[int]]) -> None:
        self._pieces = pieces
        self._words = words
        self._widths = [*widths, None]
        self._rows = _made(pieces, Reader(words, self._widths[0]))

    def __iter__(self) -> Iterator[Row]:
        return self._rows

    def __next__(self) -> Row:
        return next(self._rows)

    def __enter__(self) -> Rows:
        return self

    def __exit__(self, *_: object) -> None:
        self.close()

    def close(self) -> None:
        """Ends the run. There are no rows after that.

        Examples
        --------
        >>> rows = bedkeep.merge("sizes", "genes.bed")
        >>> rows.close()
        >>> list(rows)
        []
        """
        self._rows.close()
        self._pieces.close()

    def to_frame(self, names: str = "bedkeep") -> DataFrame:
        """The rows that are left, as a DataFrame of pandas.

        Parameters
        ----------
        names : str, optional
            As in `to_frame` of the package.

        Examples
        --------
        >>> bedkeep.merge("sizes", "genes.bed").to_frame()["start"].tolist()
        [100, 300]
        """
        rows = list(self._rows) if inspect.getgeneratorstate(self._rows) != inspect.GEN_CREATED else []
        if rows:
            return frame_of_rows(rows, rows[0]._fields, names)
        return frame_of_text(b"".join(self._pieces), self._words, self._widths[0], self._widths[1], names)


def _made(pieces: Generator[bytes, None, None], reader: Reader) -> Generator[Row, None, None]:
    for lines in pieces:
        yield from reader.rows(lines)


def merge(genome: Genome, bed: Track, *, d: Optional[int] = None, s: bool = False, c: Union[int, Sequence[int]] = (),
          o: Union[str, Sequence[str]] = (), width: Optional[int] = None, program: Optional[Path] = None) -> Rows:
    """Blocks of records that overlap or are book-ended: chromosome, start, end, results.

    Parameters
    ----------
    genome : path or dict
        The genome file, or the length of each chromosome.
    bed : path or table
        The records, in any order: start counts from 0, and end is not included.
    d : int, optional
        Records at most `d` bases apart are one block too.
    s : bool, optional
        Blocks of each strand by itself, without records of strand .; needs six columns.
    c : int or sequence of int, optional
        Columns by number: a summary of each.
    o : str or sequence of str, optional
        Operations: count, sum, min, max, collapse, distinct (default sum).
    width : int, optional
        The number of columns of a BED file without a record, 3 to 6.
    program : path, optional
        The program, instead of the one that is found.

    Raises
    ------
    BadOptions, Damaged, InputOutput, NoMemory, NotFound
        Also from the rows after the first ones.

    Examples
    --------
    >>> list(bedkeep.merge("sizes", "genes.bed", d=100, c=4, o="collapse"))
    [Row(chromosome='chr1', start=100, end=400, collapse_4='geneA,geneB')]
    """
    return _run(_words("merge", d=d, s=s, c=c, o=o), genome, [("-i", bed)], width, program)


def cluster(genome: Genome, bed: Track, *, d: Optional[int] = None, width: Optional[int] = None,
            program: Optional[Path] = None) -> Rows:
    """Every record, with the number of its block, from 1.

    Parameters
    ----------
    genome : path or dict
        The genome file, or the length of each chromosome.
    bed : path or table
        The records, in any order: start counts from 0, and end is not included.
    d : int, optional
        Records at most `d` bases apart are in one block.
    width : int, optional
        The number of columns of a BED file without a record, 3 to 6.
    program : path, optional
        The program, instead of the one that is found.

    Raises
    ------
    BadOptions, Damaged, InputOutput, NoMemory, NotFound
        Also from the rows after the first ones.

    Examples
    --------
    >>> [row.block for row in bedkeep.cluster("sizes", "genes.bed")]
    [1, 2]
    """
    return _run(_words("cluster", d=d), genome, [("-i", bed)], width, program)


def complement(genome: Genome, bed: Track, *, L: bool = False, width: Optional[int] = None,
               program: Optional[Path] = None) -> Rows:
    """The intervals that no record covers: chromosome, start, end.

    Parameters
    ----------
    genome : path or dict
        The genome file, or the length of each chromosome.
    bed : path or table
        The records, in any order: start counts from 0, and end is not included.
    L : bool, optional
        Only on sequences that have a record.
    width : int, optional
        The number of columns of a BED file without a record, 3 to 6.
    program : path, optional
        The program, instead of the one that is found.

    Raises
    ------
    BadOptions, Damaged, InputOutput, NoMemory, NotFound
        Also from the rows after the first ones.

    Examples
    --------
    >>> next(bedkeep.complement("sizes", "genes.bed"))
    Row(chromosome='chr1', start=0, end=100)
    """
    return _run(_words("complement", L=L), genome, [("-i", bed)], width, program)


def genomecov(genome: Genome, bed: Track, *, bg: bool = False, bga: bool = False, d: bool = False,
              width: Optional[int] = None, program: Optional[Path] = None) -> Rows:
    """Depth: how many records cover a position; one of `bg`, `bga` and `d` is required.

    Parameters
    ----------
    genome : path or dict
        The genome file, or the length of each chromosome.
    bed : path or table
        The records, in any order: start counts from 0, and end is not included.
    bg : bool, optional
        A row for each interval of one depth above 0.
    bga : bool, optional
        The same, also where the depth is 0.
    d : bool, optional
        A row for each position, counted from 1.
    width : int, optional
        The number of columns of a BED file without a record, 3 to 6.
    program : path, optional
        The program, instead of the one that is found.

    Raises
    ------
    BadOptions, Damaged, InputOutput, NoMemory, NotFound
        Also from the rows after the first ones.

    Examples
    --------
    >>> next(bedkeep.genomecov("sizes", "genes.bed", bg=True))
    Row(chromosome='chr1', start=100, end=200, depth=1)
    >>> next(bedkeep.genomecov("sizes", "genes.bed", d=True))
    Row(chromosome='chr1', position=1, depth=0)
    """
    return _run(_words("genomecov", bg=bg, bga=bga, d=d), genome, [("-i", bed)], width, program)


def intersect(genome: Genome, a: Track, b: Track, *, wa: bool = False, wb: bool = False, u: bool = False, v: bool = False,
              c: bool = False, width: Optional[int] = None, program: Optional[Path] = None) -> Rows:
    """The part of each record of `a` that each record of `b` overlaps, with the further columns of `a`.

    With `wb` the columns of `b`, and those of `a` after the third, have their names only if `a` is a regular file.

    Parameters
    ----------
    genome : path or dict
        The genome file, or the length of each chromosome.
    a : path or table
        The records, in any order: start counts from 0, and end is not included.
    b : path or table
        The records of the second file.
    wa : bool, optional
        The record whole.
    wb : bool, optional
        Also the other record whole.
    u : bool, optional
        The record once if it has an overlap.
    v : bool, optional
        The record once if it has none.
    c : bool, optional
        Each record with the number of its overlaps.
    width : int, optional
        The number of columns of a BED file without a record, 3 to 6.
    program : path, optional
        The program, instead of the one that is found.

    Raises
    ------
    BadOptions, Damaged, InputOutput, NoMemory, NotFound
        Also from the rows after the first ones.

    Examples
    --------
    >>> list(bedkeep.intersect("sizes", "genes.bed", "mask.bed", c=True))[1]
    Row(chromosome='chr1', start=300, end=400, name='geneB', hits=1)
    """
    return _run(_words("intersect", wa=wa, wb=wb, u=u, v=v, c=c), genome, [("-a", a), ("-b", b)], width, program)


def subtract(genome: Genome, a: Track, b: Track, *, A: bool = False, width: Optional[int] = None,
             program: Optional[Path] = None) -> Rows:
    """The parts of each record of `a` that no record of `b` covers.

    Parameters
    ----------
    genome : path or dict
        The genome file, or the length of each chromosome.
    a : path or table
        The records, in any order: start counts from 0, and end is not included.
    b : path or table
        The records of the second file.
    A : bool, optional
        Only whole records that have no overlap.
    width : int, optional
        The number of columns of a BED file without a record, 3 to 6.
    program : path, optional
        The program, instead of the one that is found.

    Raises
    ------
    BadOptions, Damaged, InputOutput, NoMemory, NotFound
        Also from the rows after the first ones.

    Examples
    --------
    >>> next(bedkeep.subtract("sizes", "genes.bed", "mask.bed"))
    Row(chromosome='chr1', start=100, end=150, name='geneA')
    """
    return _run(_words("subtract", A=A), genome, [("-a", a), ("-b", b)], width, program)


def getfasta(genome: Genome, bed: Track, fasta: Path, *, s: bool = False, width: Optional[int] = None,
             program: Optional[Path] = None) -> Rows:
    """The bases of each record whose sequence the FASTA file has: chromosome, start, end, bases; with `s` the strand before the bases.

    Parameters
    ----------
    genome : path or dict
        The genome file, or the length of each chromosome.
    bed : path or table
        The records, in any order: start counts from 0, and end is not included.
    fasta : path
        The bases of the sequences.
    s : bool, optional
        With the strand, and the bases of records on - reversed and complemented; needs six columns.
    width : int, optional
        The number of columns of a BED file without a record, 3 to 6.
    program : path, optional
        The program, instead of the one that is found.

    Raises
    ------
    BadOptions, Damaged, InputOutput, NoMemory, NotFound
        Also from the rows after the first ones.

    Examples
    --------
    >>> next(bedkeep.getfasta("sizes", "short.bed", "bases.fa"))
    Row(chromosome='chr1', start=0, end=7, bases='ACGTTAC')
    """
    return _run(_words("getfasta", s=s, tab=True), genome, [("-bed", bed)], width, program, fasta)


def records(genome: Genome, bed: Track, *, width: Optional[int] = None, program: Optional[Path] = None) -> Rows:
    """All records in the order of the genome file, those of a sequence by start and end, then by the bytes of other columns.

    Parameters
    ----------
    genome : path or dict
        The genome file, or the length of each chromosome.
    bed : path or table
        The records, in any order: start counts from 0, and end is not included.
    width : int, optional
        The number of columns of a BED file without a record, 3 to 6.
    program : path, optional
        The program, instead of the one that is found.

    Raises
    ------
    BadOptions, Damaged, InputOutput, NoMemory, NotFound
        Also from the rows after the first ones.

    Examples
    --------
    >>> [record.name for record in bedkeep.records("sizes", "genes.bed")]
    ['geneA', 'geneB']
    """
    return _run(_words("records"), genome, [("-i", bed)], width, program)


def _words(kind: str, **options: Value) -> list[str]:
    """A view's subcommand and options: options that are None, False or an empty list are left out."""
    words = [kind]
    for option, value in options.items():
        if value is True:
            words.append(f"-{option}")
        elif value is not None and value is not False:
            text = _text(option, value)
            words += [f"-{option}", text] if text or value == "" else []
    return words


def _text(option: str, value: Union[int, str, Sequence[int], Sequence[str]]) -> str:
    """The value of an option as the program is given it."""
    try:
        return text_of(value) if isinstance(value, (str, SupportsIndex)) else ",".join(map(text_of, value))
    except TypeError:
        raise TypeError(f"{option} is a whole number, a text or several of them, and not {value!r}") from None


def _run(words: list[str], genome: Genome, files: Sequence[tuple[str, Track]], width: Optional[int], program: Optional[Path],
         fasta: Optional[Path] = None) -> Rows:
    """Begins a run, and returns once its first rows are here or it has ended."""
    command = [find(program), *words]
    with Sources() as sources:
        command += ["-g", sources.genome(genome)]
        paths = [sources.unpacked(sources.track(file)) for _, file in files]
        for (option, _), path in zip(files, paths):
            command += [option, path]
        if fasta is not None:
            command += ["-fi", path_of(fasta)]
        if width is not None:
            command += ["-width", str(width)]
        widths = [width_of(path) or width for path in paths]
        pieces = _lines(command, sources)
        try:
            next(pieces, None)
        except Ended as failure:
            raise sources.renamed(failure, command[0]) from None
    return Rows(pieces, words, widths)


def _lines(command: Sequence[str], sources: Sources) -> Generator[bytes, None, None]:
    """What the program prints, in whole lines. The first piece is empty: it says that the run has begun."""
    lines = Lines()
    with subprocess.Popen(command, env=environment(), pass_fds=sources.descriptors,
                          stdout=subprocess.PIPE, stderr=subprocess.PIPE) as process:
        assert process.stdout and process.stderr
        try:
            # Standard error gets a few lines at most, which its pipe has room for.
            piece = os.read(process.stdout.fileno(), PIECE)
            if piece:
                yield b""
            while piece:
                yield lines.whole(piece)
                piece = os.read(process.stdout.fileno(), PIECE)
            messages = decoded(process.stderr.read())
            status = process.wait()
        except BaseException:
            process.kill()
            raise
    if status:
        raise ended(status, messages)
