"""Arguments of all kinds, in all orders, at all limits and not UTF-8; the program's own name; numbers spelled at the limits of digits,
exponents and values, in scans, points and options; the generated scan."""
from __future__ import annotations

from typing import Optional, Sequence

from model.commands import LIMITS, NAMES, understood

from .judge import OLD, judge, texts_of
from .runs import Folder
from .shapes import Draw
from .small_files import SCANS
from .tally import Context, Tally

NUMBERS = [-1, 0, 1, 2, 7, 63, 64, 65, 255, 256, 999999, 1000000, 1000001, 65534, 65535, 65536, 1048576, 1048577, 8388607, 8388608, 8388609,
           9999999, 10000000, 2 ** 31, 2 ** 32 - 1, 2 ** 32, 2 ** 63, 2 ** 64 - 1, 2 ** 64, 10 ** 10, 10 ** 20]
ODD = ['', ' ', '-', '--', '=', ',', '\n', '\t', '\x7f', '\x01', '\u00b2', '\u0661', '\u202e', '\U0001f600', '\ufeff', '\udcff', '\udcc3',
       'a\udc80', '\u00e9', '*', '~', '$HOME', '.', '..', 'x' * 255, 'x' * 256, 'in', 'unit=1', 'help', '--help', '-h', '--version', 'a b', '0',
       'NaN', 'none', '%s', '%n', '"', "'", '\\']
DECIMALS = ['0', '1', '-1', '+1', '.5', '5.', '-.5e1', '1e3', '1E-3', '2097151', '2097151.4', '2097151.5', '-2097151.49', '2097152', '1e9999',
            '1e-9999', '1e10000', '0e99999', '0' * 40, '9' * 30, '9' * 31, '', ' 1', '1 ', 'nan', 'inf', '1_0', '0x1', '--1', '+', '1e', '1e+',
            '\u0661', '.', 'e5', '0.' + '0' * 29 + '1', '0.' + '0' * 31 + '1', '1e+0000000000001']
OPTIONS = ['Unit=1', 'UNIT=1', 'unit =1', 'unit= 1', ' unit=1', 'unit=1 ', 'unit', 'unit=', '=1', 'unit==1', 'unit=1=1', 'weight=1', 'units=1',
           'uni=1', 'smooth=1\n', 'vote=\udcff1', 'scanner=', 'scanner=,,', 'scanner=none', 'vote:1', '--unit=1', 'unit\u200b=1', 'scanner=1,2,3,',
           'scanner=,1,2', 'scanner', 'smooth=-0', 'smooth=00000000000']
GOOD = {'cells': ['in', 'o1'], 'build': ['in', 'o1', 'o2'], 'check': ['in', 'm', 'c'], 'upgrade': ['in', 'm', 'c', 'o1'], 'ask': ['in', 'q', 'o1'],
        'slice': ['m', '0', 'o1'], 'export': ['m', 'o1', 'o2', 'o3'], 'demo': ['4', '1'], 'sweep': ['in', '0', '1', '2', 'o1', 'o2']}
OPTIONS_OF: dict[str, Sequence[str]] = {**{name: allowed for name, (_, allowed) in NAMES.items()}, 'sweep': ('unit', 'vote', 'scanner')}
MOST_DEMO_ROWS, MOST_SURFACES = 40, 20


def number(draw: Draw) -> str:
    n, how = draw.choice(NUMBERS), draw.random()
    if how < 0.55:
        return str(n)
    if how < 0.75:
        return ('-' if n < 0 else '') + '0' * draw.randint(1, 25) + str(abs(n))
    return draw.choice(['+%d', ' %d', '%d ', '%d.', '%d.0', '%de0', '0x%x', '%d_0', '-%d', '--%d', '%d,', '\u0661%d', '%d\n', '1e%d']) % abs(n)


def option(draw: Draw) -> str:
    """Returns an option that may be understood."""
    how = draw.random()
    if how < 0.4:
        key = draw.choice(list(LIMITS))
        return f'{key}={draw.choice([*LIMITS[key], 1, 2, 8]) if draw.random() < 0.6 else number(draw)}'
    if how < 0.65:
        parts = [draw.choice(DECIMALS) if draw.random() < 0.4 else draw.choice(['0', '1', '50', '-3']) for _ in range(draw.choice([3, 3, 3, 2, 4]))]
        return 'scanner=' + draw.choice([',', ',', ',', ', ', ';']).join(parts)
    return draw.choice(OPTIONS if how < 0.8 else ODD)


def good_option(draw: Draw, key: str) -> str:
    if key == 'scanner':
        return 'scanner=' + ','.join(draw.choice(['0', '50', '-3.5', '1e2', '.5']) for _ in range(3))
    return f"{key}={'0' * draw.choice([0, 0, 0, 1, 3])}{draw.choice([*LIMITS[key], 1, 2, 3, 8])}"


def changed(draw: Draw, name: str, words: list[str]) -> list[str]:
    """Returns the arguments with one of them left out, put in, replaced or moved."""
    how, at = draw.random(), draw.randrange(len(words) + 1)
    if how < 0.2:
        return words[:at] + words[at + 1:]
    if how < 0.4:
        return words[:at] + [option(draw) if draw.random() < 0.4 else draw.choice(ODD)] + words[at:]
    if how < 0.6:
        return words[:at] + [draw.choice(ODD + ['o1', 'in', 'm', 'q'])] + words[at + 1:]
    if how < 0.8 and name in ('demo', 'sweep', 'slice'):
        at = draw.randrange(1, max(2, min(len(words), 5)))
        return words[:at] + [number(draw)] + words[at + 1:]
    return draw.sample(words, len(words)) if draw.random() < 0.3 else words[:at] + words[at:][::-1]


def drawn_words(draw: Draw) -> list[str]:
    name = draw.choice(list(GOOD))
    words, how = [name, *GOOD[name]], draw.random()
    allowed = OPTIONS_OF.get(name, ())
    if how < 0.4:
        words += [good_option(draw, key) for key in draw.sample(allowed, draw.randint(0, len(allowed)))]
    elif how < 0.75:
        words += [option(draw) for _ in range(draw.randint(1, 4))]
    for _ in range(draw.choice([0, 0, 0, 1, 1, 2]) if how < 0.75 else draw.randint(1, 3)):
        words = changed(draw, name, words)
    if name == 'sweep' and draw.random() < 0.3:
        count = draw.choice([1, 2, 3, 5, 63, 64, 65])
        outputs = [f'o{k}' for k in range(count + draw.choice([0, 0, 0, 1, -1]))]
        words = ['sweep', 'in', draw.choice(['0', '1', '65535', '65472', '65471']), draw.choice(['1', '1', '2', '1040', '65535']), str(count), *outputs]
    return words


def is_long(words: Sequence[str]) -> bool:
    """Returns whether the model would take long, or the names lead out of the folder."""
    command = understood(words)
    if command is None:
        return False
    far = command.name == 'demo' and command.numbers[0] > MOST_DEMO_ROWS or command.name == 'sweep' and command.numbers[2] > MOST_SURFACES
    return far or any('/' in name or '\0' in name for name in command.files)


def spelled(draw: Draw, unit: int) -> str:
    """Returns a decimal at some limit: of its digits, of its exponent, of its value, or at a half."""
    if draw.random() < 0.4:
        value = draw.choice([2097151, 2097152, 2097151.5, 0.5, 1.5, 1, 0, 7])
        n = int(value * 2) * 10 ** 40 // (2 * unit) + draw.choice([0, 0, 1, -1, 10 ** draw.randint(0, 39), -10 ** draw.randint(0, 39)])
        text = '%d.%040d' % divmod(max(0, n), 10 ** 40)
        before, _, after = text[:draw.choice([len(text), 29, 30, 31, 32, 33, 34, draw.randint(1, len(text))])].partition('.')
    else:
        digits = ''.join(draw.choice('0911234567') for _ in range(draw.choice([1, 2, 17, 18, 19, 28, 29, 30, 31, 32, 33])))
        at = draw.choice([0, len(digits), draw.randint(0, len(digits))])
        before, after = digits[:at], digits[at:]
    text = '0' * draw.choice([0, 0, 0, 1, 5, 30, 40]) + before + ('.' if after else draw.choice(['.', '', ''])) + after
    if draw.random() < 0.6:
        shift = draw.choice([0, 1, -1, draw.randint(-40, 40), len(after), -len(before), 9999, -9999, 10000])
        text += draw.choice('eE') + ('-' if shift < 0 else draw.choice(['', '+'])) + '0' * draw.choice([0, 0, 1, 4, 30]) + str(abs(shift))
    return draw.choice(['', '', '-', '+']) + text


def numbers(context: Context, tally: Tally, folder: Folder) -> None:
    """One number of a scan, of points or of an option, spelled at a limit."""
    draw, unit = context.draw, context.draw.choice([1, 1, 2, 3, 4, 7, 1000, 1000000])
    word, options = spelled(draw, unit), [f'unit={unit}']
    rows, scanner = [['0.1', '0', '0', '0'], ['0', '.25', '0', '0']], ['0', '0', '.5']
    xyz, weight = ['property int x', 'property int y', 'property int z'], []
    where = draw.randrange(5)
    if where == 0:
        rows[draw.randrange(2)][draw.randrange(3)] = word
    elif where == 1:
        wholes = ['0', '1', '255', '256', '9' * 18, '9' * 19, '1' + '0' * 18]
        weight = ['property int weight']
        rows = [row + [draw.choice([word, '0' * draw.randint(0, 40) + draw.choice(wholes)])] for row in rows]
        rows[0][3], rows[0][4] = draw.sample(rows[0][3:], 2)
    elif where == 2:
        scanner = [draw.choice(['1', word]), '0', word]
    head = ['ply', 'format ascii 1.0', 'element vertex 2', *xyz, 'property int scanner', *weight]
    body = [' '.join(row) for row in rows]
    data = '\n'.join([*head, 'element scanner 1', *xyz, 'end_header', *body, ' '.join(scanner), '']).encode()
    if where == 3:
        points = f'1 1 {word} 0 {spelled(draw, unit)} 0'.encode()
        judge(context, tally, 'numbers of points', folder, ['ask', 'in', 'q', 'o1', *options], {'in': data, 'q': points})
    elif where == 4:
        data = '\n'.join([*head, 'end_header', *body, '']).encode()
        place = f"scanner=0,{word},{draw.choice(['0', word])}"
        judge(context, tally, 'numbers of options', folder, ['cells', 'in', 'o1', place, *options], {'in': data})
    else:
        judge(context, tally, 'numbers of scans', folder, ['cells', 'in', 'o1', *options], {'in': data})


def demonstration(context: Context, tally: Tally, folder: Folder) -> None:
    """The generated scan, beside the reference program where it is large."""
    rows, seed = context.draw.choice([1, 2, 3, 7, 12, 30, 56, 3000]), context.draw.choice([0, 1, 2 ** 64 - 1, context.draw.getrandbits(64)])
    words = ['demo', str(rows), str(seed)]
    if rows <= MOST_DEMO_ROWS:
        judge(context, tally, 'demo', folder, words, {})
    elif context.reference:
        folder.put({})
        ours, theirs = folder.run([context.recon, *words]), folder.run([context.reference, *words])
        tally.runs += 1
        if (ours.status, ours.out) != (theirs.status, theirs.out) or folder.look():
            tally.fail('demo beside the reference', [context.recon, *words], {}, f'{ours}; reference: {theirs}')


def words_once(context: Context, tally: Tally, folder: Folder, bases: Sequence[dict[str, bytes]]) -> None:
    draw, words = context.draw, drawn_words(context.draw)
    if is_long(words):
        return
    files = {**draw.choice(bases), **{name: OLD for name in ('o1', 'o2') if draw.random() < 0.3}}
    names: list[Optional[str | bytes]] = [*[None] * 6, 'recon', b'\xff\xfe', 'build', 'unit=1']
    name = draw.choice(names)
    done, _ = judge(context, tally, 'arguments', folder, words, files, 300, name)
    if done.status == 2 and not done.err.startswith(b'usage: recon '):
        tally.fail('no usage', [context.recon, *words], files, str(done))


def run(context: Context, tally: Tally) -> None:
    kinds: list[tuple[str, list[str], bytes]] = [('decimals', [], b'1 2 3 0 0 0'), ('fixed', ['scanner=1,1,1', 'unit=100'], b'.1 0 .1 1 1 1')]
    folder, bases = Folder(), []
    for kind, options, points in kinds:
        mesh, _, cert = texts_of(SCANS[kind].data, options)
        bases.append({'in': SCANS[kind].data, 'm': mesh, 'c': cert, 'q': points})
    while not context.is_over():
        how = context.draw.random()
        if how < 0.4:
            numbers(context, tally, folder)
        elif how < 0.98:
            words_once(context, tally, folder, bases)
        else:
            demonstration(context, tally, folder)
    folder.close()
