"""bedkeep's subcommands with their options, as the table in its source has them."""

import sys
from pathlib import Path

sys.path.append(str(Path(__file__).resolve().parents[2] / "test"))
from options import read_table  # noqa: E402

RUNS = {run.name: run for run in read_table()}
# the subcommands that bedtools has too and that have options
SHARED = [run for run in RUNS.values() if run.view]


def values_of(subcommand):
    """For each option with a value, what the usage calls it."""
    return {option.name: option.value for option in RUNS[subcommand].view if option.value}


def plain_options(subcommand):
    """The options without a value."""
    return tuple(option.name for option in RUNS[subcommand].view if not option.value)
