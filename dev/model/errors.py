"""How a command ends other than well. The text of each is what follows the first word of the printed line."""
from __future__ import annotations


class Refused(Exception):
    """Status 3, `refused ..`: a file is not valid input."""


class Rejected(Exception):
    """Status 1, `no ..`: a mesh and a certificate are not those of the scan."""


class Failed(Exception):
    """Status 4: a file could not be read or written."""
