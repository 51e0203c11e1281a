"""One form of options for all tools: `unit=1000` and `--unit 1000` are the same, and so are `flips=no` and `--no-flips`.

Names: VERSION · version_line · dashed (arguments of one form in the other).
"""
from __future__ import annotations

import os
from typing import TYPE_CHECKING, Iterable, Sequence

if TYPE_CHECKING:
    import argparse

VERSION = '0.1'


def version_line(name: str) -> str:
    """Returns what `--version` prints."""
    return f'{name} {VERSION}'


def switches_of(parser: argparse.ArgumentParser) -> Iterable[str]:
    """The options without a value, as words."""
    return (word for action in parser._actions if action.nargs == 0 for word in action.option_strings)


def dashed(words: Sequence[str], parser: argparse.ArgumentParser) -> list[str]:
    """Returns arguments for a parser, with key=value as --key=value, key=yes as --key, and key=no as --no-key. The name of a file stays as it is."""
    known = {word for action in parser._actions for word in action.option_strings}
    switches = set(switches_of(parser))
    found: list[str] = []
    for word in words:
        key, equals, value = word.partition('=')
        option, negated = '--' + key.replace('_', '-'), '--no-' + key.replace('_', '-')
        if not equals or word.startswith('-') or os.path.exists(word) or option not in known and negated not in known:
            found.append(word)
        elif option in switches and value in ('yes', 'no'):
            found += [option] if value == 'yes' else []
        elif negated in switches and value in ('yes', 'no'):
            found += [negated] if value == 'no' else []
        else:
            found.append(f'{option}={value}')
    return found
