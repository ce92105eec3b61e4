"""How a release is made: the record of a proof, the pages and completions of the commands, and the packages."""


class Unfit(Exception):
    """Why no package is made, in one sentence."""
