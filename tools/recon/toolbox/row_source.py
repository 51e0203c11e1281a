"""Points of a file of rows (PLY, PCD, LAS, E57) with all their properties, or with lists of scanners.

Names: Rows · Listed · checked_index (the number of a scanner that is there).
"""
from __future__ import annotations

from typing import Any, Callable, Iterator, Sequence

import numpy as np

from recon.toolbox.blocks import Block, Column, Lists, Numbers, constant, finite_points
from recon.toolbox.flight import TIMES, Above, Flight
from recon.toolbox.ply_text import (ARE_THREE, FORMATS, IS_NUMBER, IS_WHOLE, SCANNER_LIMIT, Element, Property, Refusal, decimals, index_text,
                              read_positions)
from recon.toolbox.row_columns import columns_of
from recon.toolbox.sieve import Passage
from recon.toolbox.sources import Source, refuse_others
from recon.toolbox.text_columns import NotPlain
from recon.toolbox.tool import three

MOST_WEIGHTS = 1000


def index_column(vertex: Element, name: str | None) -> int | None:
    """Returns the place of the column that numbers the scanner, or None."""
    if name is not None:
        place = vertex.column(name)
        if place is None:
            raise Refusal(f'vertex has no property {name}; it has ' + ', '.join(p.name for p in vertex.properties))
    else:
        place = vertex.column('scanner')
        if place is None:
            place = vertex.column('scalar_scanner')
    return place


def weight_column(vertex: Element) -> int | None:
    """Returns the place of the weight that `recon` reads, or None."""
    for place, p in enumerate(vertex.properties):
        if p.name == 'weight' and p.count_kind is None and FORMATS[p.kind] not in 'fd':
            return place
    return None


def checked_index(word: str, limit: int | None, place: Callable[[], str]) -> str | None:
    """Returns the number of a scanner that is there, or None where it is not finite."""
    number = index_text(word, place)
    if number is not None and not 0 <= int(number) < (2 ** 31 if limit is None else limit):
        raise Refusal(f'{place()}: scanner index {number} is out of range' + ('' if limit is None else f' (number of scanners: {limit})'))
    return number


class OfReader(Source):
    """What both kinds of rows have in common: a reader, and its elements one after another."""

    def __init__(self, reader: Any, path: str, columns: list[Property]) -> None:
        super().__init__(columns, path)
        self.reader = reader
        self.weights: set[str] = set()
        self.vertex, self.scanners = reader.element('vertex'), reader.element('scanner')
        self.count = self.vertex.count
        self.places = self.vertex.point_columns()
        if self.scanners and self.scanners.count > SCANNER_LIMIT:
            raise Refusal(f'more than {SCANNER_LIMIT} scanners')

    def run(self, receiver: Passage) -> None:
        try:
            for element in self.reader.elements:
                if element is self.vertex:
                    self.pass_vertices(receiver)
                elif element is self.scanners:
                    self.read_scanners()
                else:
                    for _ in self.reader.rows(element):
                        pass
                    self.counts[f'rows of {element.name}'] = element.count
            self.reader.finish()
        finally:
            self.reader.close()

    def pass_vertices(self, receiver: Passage) -> None:
        raise NotImplementedError

    def close(self) -> None:
        self.reader.close()

    def element_blocks(self) -> Iterator[Block]:
        """Yields the points in blocks, and reads the other elements where they stand."""
        try:
            for element in self.reader.elements:
                if element is self.vertex:
                    yield from columns_of(self.reader, element)
                elif element is self.scanners:
                    self.read_scanners()
                else:
                    for _ in self.reader.rows(element):
                        pass
                    self.counts[f'rows of {element.name}'] = element.count
            self.reader.finish()
        finally:
            self.reader.close()

    def check_weights(self, block: Block) -> None:
        """Raises `NotPlain` for a weight that is no whole number."""
        if self.weight is not None and not all(map(IS_WHOLE, set(block.columns[self.weight].words()))):
            raise NotPlain

    def refuse_weight(self, word: str, place: Callable[[], str]) -> None:
        """Refuses a weight that is not a whole number. Those that occurred before are known."""
        if word not in self.weights:
            if not IS_WHOLE(word):
                raise Refusal(f'{place()}: the weight {word[:40]} is not {"an integer" if IS_NUMBER(word) else "a number"}')
            if len(self.weights) < MOST_WEIGHTS:
                self.weights.add(word)

    def read_scanners(self) -> None:
        """Takes the rows of the file's own element `scanner`."""
        x, y, z = self.scanners.point_columns()
        for row, words in enumerate(self.reader.rows(self.scanners)):
            position = [words[x], words[y], words[z]]
            if not ARE_THREE(' '.join(position)):
                raise Refusal(f'scanner row {row}: {" ".join(position)[:80]} is not a position')
            self.positions.append(position)


class Rows(OfReader):
    """Points whose properties are not lists. All are kept."""

    def __init__(self, reader: Any, path: str, options: Any) -> None:
        refuse_others(options, ('scanner', 'index', 'positions', 'open_end'), 'a PLY, PCD, LAS or E57 with scanners')
        super().__init__(reader, path, [Property(p.name, p.kind) for p in reader.element('vertex').properties])
        self.counts['without scanner'] = 0
        self.point, self.index = self.places, index_column(self.vertex, options.index)
        position = getattr(options, 'scanner', None)
        if options.positions:
            if self.scanners:
                raise Refusal('positions= cannot be used with a file that has an element scanner')
            self.positions = [words for words, _ in read_positions(options.positions)]
        elif position:
            # one position for all points, whatever the file says
            self.positions, self.scanners, self.index = [three(position, 'scanner=')], None, None
        has_positions = bool(options.positions or position)
        self.has_scanners = self.scanners is not None or has_positions
        self.limit = self.scanners.count if self.scanners else len(self.positions) if has_positions else None
        self.is_one = self.index is None and not self.scanners and self.limit == 1
        if self.has_scanners and self.index is None and not self.is_one:
            raise Refusal('vertex has no property scanner: pass the name of the property with the scanner index as index=')
        self.scanner, self.weight = len(self.columns) if self.is_one else self.index, weight_column(self.vertex)
        self.name_columns()

    def name_columns(self) -> None:
        """Gives the columns the names that they are written under."""
        for place, axis in zip(self.point, 'xyz'):
            self.columns[place].name = axis
        if self.index is not None:
            for p in self.columns:
                p.name = 'scanner_before' if p.name == 'scanner' else p.name
            self.columns[self.index] = Property('scanner', 'int')
        elif self.is_one:
            for p in self.columns:
                p.name = 'scanner_before' if p.name == 'scanner' else p.name
            self.columns.append(Property('scanner', 'int'))

    def blocks(self) -> Iterator[Block]:
        for block in self.element_blocks():
            self.check_weights(block)
            if self.is_one:
                block.columns.append(constant(0, block.count))
            elif self.index is not None:
                self.number_scanners(block, self.index)
            yield block

    def number_scanners(self, block: Block, index: int) -> None:
        """Puts whole numbers of scanners in the place of those of the file, and leaves out points that have none."""
        numbers = block.columns[index].floats()
        are_finite = np.isfinite(numbers)
        whole = np.where(are_finite, numbers, 0)
        limit = 2 ** 31 if self.limit is None else self.limit
        if block.count and ((whole % 1 != 0).any() or whole.min() < 0 or whole.max() >= limit):
            raise NotPlain
        block.columns[index] = Numbers(whole.astype(np.int64))
        if not are_finite.all():
            is_point = np.logical_and.reduce([np.isfinite(block.columns[k].floats()) for k in self.point])
            block.left_out = ~are_finite
            self.counts['without scanner'] += int(np.count_nonzero(block.left_out & is_point))

    def pass_vertices(self, receiver: Passage) -> None:
        x, y, z = self.point
        index, limit, is_one, row = self.index, self.limit, self.is_one, 0
        known: dict[str, str | None] = {}

        def place() -> str:
            return f'vertex row {row}'

        for row, words in enumerate(self.reader.rows(self.vertex)):
            if not decimals(words[x], words[y], words[z], place):
                self.counts['not finite'] += 1
                continue
            if index is not None:
                word = words[index]
                if word not in known:
                    known[word] = checked_index(word, limit, place)
                words[index] = known[word]
                if words[index] is None:
                    self.counts['without scanner'] += 1
                    continue
            if self.weight is not None:
                self.refuse_weight(words[self.weight], place)
            receiver.row(words + ['0'] if is_one else words)


class Listed(OfReader):
    """Points that name a list of scanners each. All their properties but other lists are kept."""
    has_lists = True

    def __init__(self, reader: Any, path: str, options: Any) -> None:
        refuse_others(options, ('open_end',), 'a PLY with lists of scanners')
        vertex = reader.element('vertex')
        self.named, self.weighed = vertex.column('scanner'), weight_column(vertex)
        if self.named is None or vertex.properties[self.named].count_kind is None or reader.element('scanner') is None:
            raise Refusal('a property of vertex other than the scanners is a list')
        self.kept = [k for k, p in enumerate(vertex.properties) if p.count_kind is None]
        columns = [Property(vertex.properties[k].name, vertex.properties[k].kind) for k in self.kept]
        super().__init__(reader, path, [*columns, Property('scanner', 'int', 'uint')])
        self.point, self.scanner = [self.kept.index(k) for k in self.places], len(columns)
        self.weight = None if self.weighed is None else self.kept.index(self.weighed)
        for column, axis in zip(self.point, 'xyz'):
            columns[column].name = axis

    def blocks(self) -> Iterator[Block]:
        for block in self.element_blocks():
            self.check_weights(block)
            lists = block.columns[-1]
            if not isinstance(lists, Lists) or int(lists.numbers.max(initial=0)) >= self.scanners.count or int(lists.numbers.min(initial=0)) < 0:
                raise NotPlain
            yield block

    def pass_vertices(self, receiver: Passage) -> None:
        row = 0

        def place() -> str:
            return f'vertex row {row}'

        for row, words in enumerate(self.reader.rows(self.vertex)):
            values = self.vertex.values(words)
            point = [values[k][0] for k in self.places]
            if not decimals(point[0], point[1], point[2], place):
                self.counts['not finite'] += 1
                continue
            named = [checked_index(word, self.scanners.count, place) for word in values[self.named]]
            numbers = [number for number in named if number is not None]
            if len(numbers) < len(named):
                raise Refusal(f'{place()}: a scanner index is not finite')
            if self.weighed is not None:
                self.refuse_weight(values[self.weighed][0], place)
            receiver.row([values[k][0] for k in self.kept] + [' '.join([str(len(numbers)), *numbers])])


class Airborne(OfReader):
    """Points that were seen from a flight, or from far above, and do not say from where. All properties are kept."""

    def __init__(self, reader: Any, path: str, options: Any) -> None:
        refuse_others(options, ('above', 'flight', 'open_end'), 'above= or flight=')
        vertex = reader.element('vertex')
        if vertex.has_lists() or reader.element('scanner') is not None:
            raise Refusal('above= and flight= are for files without scanner positions')
        columns = [Property('scanner_before' if p.name == 'scanner' else p.name, p.kind) for p in vertex.properties]
        super().__init__(reader, path, [*columns, Property('scanner', 'int')])
        self.point, self.scanner, self.weight = self.places, len(columns), weight_column(vertex)
        for place, axis in zip(self.point, 'xyz'):
            self.columns[place].name = axis
        self.above = Above()
        self.flight = Flight(options.flight) if options.flight is not None else None
        self.time = next((place for place in map(vertex.column, TIMES) if place is not None), None)
        if self.flight and self.time is None:
            raise Refusal('the points have no times: vertex has no property gpstime')

    def pass_vertices(self, receiver: Passage) -> None:
        x, y, z = self.point
        row, number, unknown = 0, '0', 0

        def place() -> str:
            return f'vertex row {row}'

        for row, words in enumerate(self.reader.rows(self.vertex)):
            if not decimals(words[x], words[y], words[z], place):
                self.counts['not finite'] += 1
                continue
            if self.flight:
                found = self.flight.number(words[self.time or 0])
                if found is None:
                    unknown += 1
                    continue
                number = found
            else:
                self.above.box.show(float(words[x]), float(words[y]), float(words[z]))
            if self.weight is not None:
                self.refuse_weight(words[self.weight], place)
            receiver.row([*words, number])
        self.positions = list(self.flight.positions) if self.flight else [self.above.position()]
        self.counts['before or after the flight'] = unknown

    def blocks(self) -> Iterator[Block]:
        self.counts['before or after the flight'] = 0
        for block in self.element_blocks():
            self.check_weights(block)
            if self.flight:
                block.columns.append(self.numbers_of(block, self.flight))
            else:
                self.above.box.show_all(finite_points(block, self.point))
                block.columns.append(constant(0, block.count))
            yield block
        self.positions = list(self.flight.positions) if self.flight else [self.above.position()]

    def numbers_of(self, block: Block, flight: Flight) -> Column:
        """Returns the positions of the points of a block, and leaves out those that were not seen on the flight."""
        rows = np.flatnonzero(np.logical_and.reduce([np.isfinite(block.columns[k].floats()) for k in self.point]))
        numbers = np.full(block.count, -1)
        numbers[rows] = flight.all_numbers(block.columns[self.time or 0].floats()[rows])
        block.left_out = numbers < 0
        self.counts['before or after the flight'] += int(np.count_nonzero(block.left_out[rows]))
        return Numbers(numbers)

    def remark(self) -> str:
        return '' if self.flight else self.above.remark()
