"""python3 -m bedkeep"""
import sys

from .commands import main

if __name__ == "__main__":
    sys.exit(main())
