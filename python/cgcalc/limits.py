"""The most that the program takes, and what its options and the package's are by default."""
from __future__ import annotations

MOST_BYTES = 1_048_576
"""The most bytes of a session."""
MOST_LINES = 4_096
"""The most lines of a session that get an answer."""
MOST_CELLS = 67_108_864
"""The most that `--cells` may say: the cells of the table, which the answered lines share."""
MOST_POSITIONS = 1_048_576
"""The most that `--positions` may say: how long a list of a line may be."""
MOST_WORKERS = 64
"""The most that `--workers` may say."""
MOST_PROCESSES = 1_024
"""The most runs of the program that a session of the package has at once."""

CELLS = 4_194_304
"""What `--cells` is where nothing is said, here as in the program."""
POSITIONS = 65_536
"""What `--positions` is where nothing is said, here as in the program."""
SHARE = 1_048_576
"""The cells that a session of the package and the commands give each line where nothing is said."""
