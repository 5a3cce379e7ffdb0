"""A page to look at corrections by: one HTML file that needs no network, made of what the program did with each line.

Each verdict, and the track and its blocks before and after all lines, are the program's. The pictures between follow its
verdicts line by line; no page is written unless they arrive at the track and the blocks that it printed. `output` writes it.
"""
