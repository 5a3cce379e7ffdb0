"""What hatchling asks when it makes a wheel. If the program is there, bin/bedkeep, the wheel has it, and is for its platform."""
from pathlib import Path

from hatchling.builders.hooks.plugin.interface import BuildHookInterface
from hatchling.metadata.plugin.interface import MetadataHookInterface

PROGRAM = "bin/bedkeep"  # it is static
PLATFORMS = "manylinux_2_17_x86_64.manylinux2014_x86_64.musllinux_1_1_x86_64"  # each Linux, since it needs no library
LICENSE = "MIT"
LINKED = "MIT AND LGPL-2.1-or-later AND GPL-3.0-or-later WITH GCC-exception-3.1"  # of the program, and of what is linked into it


class License(MetadataHookInterface):
    """The license of the package, and of the program if the wheel has it."""

    def update(self, metadata):
        metadata["license"] = LINKED if Path(self.root, PROGRAM).is_file() else LICENSE


class Program(BuildHookInterface):
    """Puts the program where pip takes scripts from."""

    def initialize(self, version, build_data):
        if Path(self.root, PROGRAM).is_file():
            build_data["tag"] = f"py3-none-{PLATFORMS}"
            build_data["pure_python"] = False
            build_data["force_include"][PROGRAM] = f"bedkeep-{self.metadata.version}.data/scripts/bedkeep"
