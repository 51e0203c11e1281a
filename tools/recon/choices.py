"""What `recon-surface` chose, and why.

Names: Choice · Choices (what was chosen, warned of and timed).
"""
from __future__ import annotations

import sys
import time
from dataclasses import dataclass, field
from typing import Any, Dict, List

from recon.positions import Verdict
from recon.toolbox.output_files import user_names
from recon.toolbox.progress import cleared


@dataclass
class Choice:
    """A value, in the form of the option that overrides it, and the reason."""
    value: str
    why: str


@dataclass
class Choices:
    """The choices of a run by name, its warnings, the seconds of each of its steps, and of what ran beside them; and the verdict on its
    positions."""
    is_quiet: bool = False
    chosen: Dict[str, Choice] = field(default_factory=dict)
    warnings: List[str] = field(default_factory=list)
    seconds: Dict[str, float] = field(default_factory=dict)
    beside: Dict[str, float] = field(default_factory=dict)
    begun: float = field(default_factory=time.monotonic)
    step_begun: float = field(default_factory=time.monotonic)
    verdict: Verdict = Verdict()

    def tell(self, text: str) -> None:
        """A line of progress on standard error."""
        if not self.is_quiet:
            cleared()
            print(f'recon-surface: {time.monotonic() - self.begun:7.1f} s  {user_names(text)}', file=sys.stderr, flush=True)

    def choose(self, name: str, value: Any, why: str) -> None:
        self.chosen[name] = Choice(str(value), why)
        self.tell(f'{name}: {value} ({why})')

    def warn(self, text: str) -> None:
        self.warnings.append(text)
        self.tell('warning: ' + text)

    def timed(self, step: str) -> None:
        """Ends a step: its time is from the end of the one before it."""
        now = time.monotonic()
        self.seconds[step] = round(self.seconds.get(step, 0.0) + now - self.step_begun, 3)
        self.step_begun = now
