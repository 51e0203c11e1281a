"""What the programs of tools/ share on the command line.

The arguments are names first and then options `key=value`, as those of `recon`; --help prints the head of the program's file.
A program says one line and ends with 0 (3 where it wrote no point), or says on standard error why not and ends with 1 (2 where
the arguments are invalid).
"""
from __future__ import annotations

import os
import sys
import warnings
from decimal import Decimal
from typing import Any, Callable, Iterator, Sequence

from recon.toolbox.one_form import version_line
from recon.toolbox.ply_text import IS_NUMBER, Refusal, count_in
from recon.toolbox.progress import read_part, signs_of_life, step
from recon.toolbox.stopping import Stopped, stoppable

SWITCHES = ('above', 'outside', 'open_end', 'normals', 'flips', 'manifold', 'seen', 'fill')
FARTHEST = 300
PACKAGE = os.path.dirname(os.path.dirname(os.path.abspath(__file__)))


def field(key: str) -> str:
    """Returns the name under which an option is kept; `from` is a word of the language."""
    return 'from_' if key == 'from' else key


class NotUnderstood(Exception):
    """Invalid arguments."""


class Report:
    """What a program did, as a record. As text it is the line that the program prints; `is_empty` where a scan has no point."""

    @property
    def is_empty(self) -> bool:
        return False


class Options:
    """The values of the options by key, or None."""

    def __init__(self, keys: tuple[str, ...]) -> None:
        for key in keys:
            setattr(self, field(key), None)


def with_equals(words: Sequence[str], keys: tuple[str, ...]) -> Iterator[tuple[str, bool]]:
    """Returns the arguments, with `--unit 1000`, `--unit=1000`, `--seen` and `--no-flips` as unit=1000, seen=yes and flips=no, and whether each was
    written so."""
    rest = iter(words)
    for word in rest:
        key, equals, value = word[2:].partition('=')
        key = key.replace('-', '_')
        if not word.startswith('--'):
            yield word, False
        elif key in keys and equals:
            yield f'{key}={value}', True
        elif key in SWITCHES and key in keys:
            yield f'{key}=yes', True
        elif key[3:] in SWITCHES and key[3:] in keys and key.startswith('no_'):
            yield f'{key[3:]}=no', True
        elif key in keys:
            yield f'{key}={next(rest, "")}', True
        else:
            raise NotUnderstood


def read_words(words: list[str], name_count: int | None, keys: tuple[str, ...]) -> tuple[list[str], Options]:
    """Returns the names, and the options after them. Without a count all arguments that are no option are names."""
    names: list[str] = []
    options = Options(keys)
    for word, is_option in with_equals(words, keys):
        key, equals, value = word.partition('=')
        if name_count is not None and len(names) < name_count and not is_option:
            names.append(word)
        elif equals and key in keys:
            if getattr(options, field(key)) is not None or not value:
                raise NotUnderstood
            setattr(options, field(key), value)
        elif name_count is None:
            names.append(word)
        else:
            raise NotUnderstood
    if '' in names or name_count is not None and len(names) != name_count:
        raise NotUnderstood
    return names, options


def program_name() -> str:
    """Returns the name of the program that runs: `recon-scan` for the module `recon.scan`, however it was started."""
    folder, base = os.path.split(os.path.abspath(sys.argv[0]))
    stem, ending = os.path.splitext(base)
    return 'recon-' + stem.replace('_', '-') if folder == PACKAGE and ending == '.py' else base


def run(work: Callable[..., Any], doc: str, name_count: int | None, keys: tuple[str, ...]) -> None:
    """Runs `work(names, options)`, which returns a record of what it did, or its text, and prints that."""
    words = sys.argv[1:]
    name = program_name()
    try:
        if '--help' in words or '-h' in words:
            print(doc.strip(), flush=True)
            return
        if words == ['--version']:
            print(version_line(name), flush=True)
            return
        names, options = read_words(words, name_count, keys)
        # what is not finite is looked for where it matters
        warnings.simplefilter('ignore', RuntimeWarning)
        with stoppable(), signs_of_life(name), step('working', read_part(names + inputs_in(names))):
            report = work(names, options)
        print(f'{name}: {report}', flush=True)
        sys.exit(3 if isinstance(report, Report) and report.is_empty else 0)
    except NotUnderstood:
        sys.exit(told(2, f'{name}: invalid arguments: see {name} --help'))
    except Stopped as error:
        sys.exit(told(error.status, f'{name}: {error}'))
    except Refusal as refusal:
        sys.exit(told(1, f'{name}: error: {refusal}'))
    except ArithmeticError:
        sys.exit(told(1, f'{name}: error: a number is out of range'))
    except MemoryError:
        sys.exit(told(1, f'{name}: error: out of memory'))
    except BrokenPipeError:
        os.dup2(os.open(os.devnull, os.O_WRONLY), sys.stdout.fileno())
        sys.exit(0 if '--help' in words or '-h' in words else 1)
    except OSError as error:
        sys.exit(told(1, f'{name}: error: {error.strerror}: {error.filename or "writing"}'))


def inputs_in(names: list[str]) -> list[str]:
    """Returns the files of names as FILE=X,Y,Z."""
    return [name.rpartition('=')[0] for name in names if '=' in name]


def told(status: int, line: str) -> int:
    """Says a line on standard error, and answers the status."""
    print(line, file=sys.stderr)
    return status


def three(text: str, what: str) -> list[str]:
    """Returns the three numbers of `X,Y,Z`, as words. One of over 300 digits before its point, or of as many zeros after it, raises
    ArithmeticError."""
    words = text.split(',')
    if len(words) != 3 or not all(map(IS_NUMBER, words)):
        raise Refusal(f'{what} is not X,Y,Z: {text[:80]}')
    if any(number and abs(number.adjusted()) > FARTHEST for number in map(Decimal, words)):
        raise ArithmeticError
    return words


def whole(text: str, key: str, least: int, most: int) -> int:
    """Returns the value of an option, a whole number."""
    value = count_in(text, most)
    if value is None or value < least:
        raise Refusal(f'{key}= must be an integer from {least} to {most:,}')
    return value


def yes(value: str | None, key: str) -> bool:
    """Returns whether a switch is on."""
    if value not in (None, 'yes', 'no'):
        raise Refusal(f'{key}= must be yes or no')
    return value == 'yes'


def left_out(counts: dict[str, int]) -> str:
    """Returns what was left out, in words."""
    parts = [f'{count} {what}' for what, count in counts.items() if count]
    return ', '.join(parts) or 'nothing'


def number_of(count: int, what: str) -> str:
    """`1 point`, `2 points`."""
    return f'{count} {what}' + ('' if count == 1 else 's')
