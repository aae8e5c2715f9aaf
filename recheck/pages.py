#!/usr/bin/env python3
"""Tests of what the pages say:  python3 recheck/pages.py [--program PATH] [--view PATH]

Every command of README.md and of the pages in PAGES runs in a folder with a copy of the examples, page by page, and has
to print what stands below it: a block marked `text` right behind it, in which a line `..` stands for any lines; nothing
where there is no such block. A command marked `sh not-run` isn't run. A picture that a page makes has to be the one in
docs/pictures, and each of these has to be made by a page; the reports that docs/FORMATS.md tells of have to come out,
and the lines that it shows of one of version 2, of properties and of costs; each page that is named has to be there,
and recheck.py has to have as many lines as pages say.

The lines that docs/STORM.md speaks of are put into small models and have to be read, or refused with the note that
it tells, and its command has to mend what it is for.

PATH is a built plift, or a built plift-view. Without it the proved program is taken where it is built, else the copy
of `./plift --quick`. A page's word `--quick` is left out, so that both give what stands on the pages.
"""
from __future__ import annotations

import argparse
import os
import re
import shutil
import subprocess
import sys
import tempfile
import textwrap
from pathlib import Path
from typing import Iterator, NamedTuple

sys.dont_write_bytecode = True
sys.path.insert(0, str(Path(__file__).resolve().parent))
from programs import TOP, needed  # noqa: E402

PAGES = [
    'README.md',
    'docs/GUIDE.md',
    'docs/TUTORIAL.md',
    'docs/CHECKING.md',
    'docs/PERFORMANCE.md',
    'docs/LAB.md',
    'docs/SCALE.md',
]
STORM = 'docs/STORM.md'
LONGEST = 120  # seconds that a command may take
BLOCK = re.compile(r'^( *)```(\w+)( not-run)?\n(.*?)^ *```\n', re.S | re.M)
HEAD = '@type: DTMC\n@parameters\np\n'
MODEL = '@model\nstate 0 init\n1 : p\n2 : 1-p\nstate 1 done\n1 : 1\nstate 2\n2 : 1\n'
COIN = HEAD + MODEL

# Each a change of the coin's text (what is replaced, and by what), and the note; none where it is read.
LINES = [
    ('@model', '@model', None),
    ('\n', '\r\n', None),
    ('@parameters', '@value_type: double\n@parameters', None),
    ('@model', '@reward_models\nsteps\n@nr_states\n3\n@nr_choices\n3\n@model', None),
    ('state 0 init', '\t// [x=1]\nstate 0 [1, 2] "all done" heads init', None),
    ('1 : p', '\taction a [0]\n\t\t1 : p', None),
    ('1 : p\n2 : 1-p', '1 : (1-p)*0.5\n2 : 1/2+5e-1*p', None),
    (
        '@model\nstate 0 init\n1 : p\n2 : 1-p',
        '@placeholders\n$rest : 1-p\n@model\nstate 0 init\n1 : p\n2 : $rest',
        None,
    ),
    ('2 : 1-p', '2 : (-1)*(p+(-1))', None),
    ('2 : 1-p', '2 : ((-1)*p+1)/(1)', None),
    ('@model\nstate 0 init\n1 : p\n2 : 1-p', '@placeholders\n$0 : 1-p\n@model\nstate 0 init\n1 : p\n2 : $0', None),
    ('1 : p', 'action __NOLABEL__\n1 : p', None),
    ('@model', '@choice_labelling\na b\n@model', 'model: line 4: UnknownSection'),
    ('@model', '@state_valuations\n0 [x=1]\n@model', 'model: line 4: UnknownSection'),
    (' done', '', 'model: line 11: UnknownLabel'),
    ('1 : p', '1 : [0.4, 0.6]', 'model: line 6: Syntax'),
    ('@type', '\x1f\x8b@type', 'model: line 1: NotText'),
    ('@type', '\xef\xbb\xbf@type', 'model: line 1: NotText'),
    ('1 : p\n2 : 1-p', '1 : 0.97999999999999998\n2 : 0.02', 'rows: state 0 choice 0: set 0 sums to 49999999999999999'),
    ('DTMC', 'dtmc', 'model: line 1: UnsupportedType'),
    ('DTMC', 'CTMC', 'model: line 1: UnsupportedType'),
    ('DTMC', 'POMDP', 'model: line 1: UnsupportedType'),
    ('DTMC', 'SMG', 'model: line 1: UnsupportedType'),
    ('DTMC', 'Markov Automaton', 'model: line 1: UnsupportedType'),
    ('state 2', 'state 2 init', 'model: line 11: InitCount'),
    (' init', '', 'model: line 11: InitCount'),
    ('done\n1 : 1', 'done', 'model: line 8: NoChoice'),
    ('1 : p', '1 : p^2', 'model: line 6: Power'),
    ('1 : p', '1 : p*p', 'model: line 6: SharedParameter'),
    ('1 : p', '1 : p*(1-p)', 'model: line 6: SharedParameter'),
    ('1 : p', '1 : 1/p', 'model: line 6: ParametricDivisor'),
    (
        '@model\nstate 0 init\n1 : p\n2 : 1-p',
        '@placeholders\n$rest : p\n@model\nstate 0 init\n1 : p\n2 : 1-$rest',
        'model: line 9: Syntax',
    ),
    ('\np\n', '\np\'\n', 'model: line 3: Syntax'),
    ('\np\n', '\np a b c d e f g h i j k l m n o q\n', 'model: line 3: LimitParameters'),
    ('1 : p\n2 : 1-p', '0 : 0.3333\n1 : 0.3333\n2 : 0.3333', 'rows: state 0 choice 0: set 0 sums to 9999'),
    ('1 : p', '1 : 0.1234567890123456789', 'model: line 6: Wide'),
    ('@model', '@nr_states\n4\n@model', 'model: line 13: CountMismatch'),
    ('1 : p\n2 : 1-p', '1 : 1/4294967291\n2 : 1/4294967279', 'model: line 11: CommonDenominator'),
    (
        'p\n@model\nstate 0 init\n1 : p',
        'p a b c d\n@model\nstate 0 init\n1 : p+a+b+c+d',
        'model: line 6: LimitValueParameters',
    ),
    ('1 : p', '1 : p' + ' ' * 2**20, 'model: line 6: LongLine'),
    ('state 2\n2 : 1\n', ''.join(f'state {s}\n{s} : 1\n' for s in range(2, 65537)), 'model: line 131078: LimitStates'),
    ('state 0 init', 'state 0 !3 init', 'model: line 5: ExitRate'),
]

# A text with a fault of each kind that docs/STORM.md has a word for, which its first command mends.
EXPORT = '''// Exported
@type: dtmc
@parameters
p
@placeholders
$half : p/2
@reward_models

@choice_labelling
a b
@nr_states
5
@model
state 0 [1] init
	action 0
		1 : 4*$half^2
		2 : 1-p*p
state 1 done
state 2
	action 0
		1 : 0.33333333333333331
		2 : 0.33333333333333331
		3 : 0.33333333333333331
state 3
'''


class Command(NamedTuple):
    """A command of a page, and what it has to print."""

    text: str
    printed: str


class Tried(NamedTuple):
    """What was tried, and what isn't as it should be: nothing where all is."""

    what: str
    fault: str


def page_text(page: str) -> str:
    """A page without its comments."""
    return re.sub(r'<!--.*?-->', '', (TOP / page).read_text(), flags=re.S)


def page_commands(page: str) -> list[Command]:
    """The commands of a page that are run, in order."""
    text = page_text(page)
    found = list(BLOCK.finditer(text))
    commands = []
    for block, after in zip(found, [*found[1:], None]):
        if block[2] != 'sh' or block[3]:
            continue
        shown = ''
        if after and after[2] == 'text' and not text[block.end() : after.start()].strip():
            shown = textwrap.dedent(after[4])
        commands.append(Command(textwrap.dedent(block[4]), shown))
    return commands


def bash(command: str, folder: Path) -> str:
    """What a command prints on both streams."""
    try:
        done = subprocess.run(['bash', '-c', command], cwd=folder, capture_output=True, timeout=LONGEST)
    except subprocess.TimeoutExpired:
        return f'.. more than {LONGEST} seconds\n'
    return (done.stdout + done.stderr).decode(errors='replace')


def is_printed(said: str, printed: str) -> bool:
    """Whether that is what stands on the page, where a line `..` stands for any lines."""
    parts = [re.escape(part) for part in re.split(r'^\.\.\n', printed, flags=re.M)]
    return re.fullmatch('(?:.*\n)*?'.join(parts), said) is not None


def commands(page: str, folder: Path) -> Iterator[Tried]:
    """The commands of a page: whether each prints what stands behind it."""
    for command in page_commands(page):
        said = bash(command.text, folder)
        yield Tried(f'{page}: {command.text}', '' if is_printed(said, command.printed) else f'it prints:\n{said}')


def pictures(folders: list[Path]) -> Iterator[Tried]:
    """The pictures of docs/pictures: whether pages make them, byte for byte."""
    for picture in sorted((TOP / 'docs/pictures').glob('*.svg')):
        made = [folder / picture.name for folder in folders if (folder / picture.name).is_file()]
        fault = '' if made else 'no page makes it'
        if any(file.read_bytes() != picture.read_bytes() for file in made):
            fault = 'a page makes another one'
        yield Tried(f'docs/pictures/{picture.name}', fault)


def examples(folder: Path) -> Iterator[Tried]:
    """The reports that docs/FORMATS.md tells of: whether the words that it names give them."""
    told = re.findall(r'`(examples/\S+)` with `([^`]+)` gives `(examples/\S+)`', page_text('docs/FORMATS.md'))
    for model, options, report in told:
        said = bash(f'./plift verify {options} < {model} | cmp - {report}', folder)
        yield Tried(f'docs/FORMATS.md: {report}', said)
    yield Tried('docs/FORMATS.md: examples', '' if told else 'none is told of')


def second_version(folder: Path) -> Iterator[Tried]:
    """The report of version 2 that docs/FORMATS.md shows from its precision on: whether the words that it names give
    it."""
    told = re.search(
        r'^With `([^`]+)` the same coin gives .*?^```text\n(.*?)^```', page_text('docs/FORMATS.md'), re.S | re.M
    )
    options, shown = told.groups() if told else ('', '')
    said = bash(f"./plift verify {options} < examples/coin.drn | sed '1,/^bound/d'", folder)
    yield Tried('docs/FORMATS.md: a report of version 2', '' if told and said == shown else said)


def property_nodes(folder: Path) -> Iterator[Tried]:
    """The nodes of properties that docs/FORMATS.md shows: whether the words that it names give them."""
    page = page_text('docs/FORMATS.md')
    told = re.findall(
        r'^With (?:`(--formula [^`]+)`|the same words) .*? `(examples/\S+)`.*?:\n\n```text\n(.*?)^```',
        page,
        re.S | re.M,
    )
    options = told[0][0] if told else ''
    for _, model, shown in told:
        said = bash(f"./plift property {options} < {model} | sed '1,/^box/d'", folder)
        yield Tried(f'docs/FORMATS.md: a property of {model}', '' if said == shown else said)
    yield Tried('docs/FORMATS.md: properties', '' if len(told) == 2 else f'{len(told)} are told of')


def property_of_range(folder: Path) -> Iterator[Tried]:
    """The text of a property of version 2 that docs/FORMATS.md shows from its precision on: whether the words that it
    names give it, with the formula and the precision of the one before."""
    page = page_text('docs/FORMATS.md')
    told = re.search(r'^Over `([^`]+)` with `([^`]+)` the first of them .*?^```text\n(.*?)^```', page, re.S | re.M)
    region, options, shown = told.groups() if told else ('', '', '')
    before = re.findall(r'^With `(--formula [^`]+) --region \S+ (--precision \d+)`', page, re.M)[0]
    words = f"{' '.join(before)} --region '{region}' {options}"
    said = bash(f"./plift property {words} < examples/coin.drn | sed '1,/^property/d'", folder)
    yield Tried('docs/FORMATS.md: a property of version 2', '' if told and said == shown else said)


def cost_lines(folder: Path) -> Iterator[Tried]:
    """The end of a text for a budget that docs/FORMATS.md shows: whether the words that it names give it."""
    form = r'^With `(--goal [^`]+ --budget [^`]+)` .*? `(examples/\S+)`.*?:\n\n```text\n(.*?)^```'
    told = re.search(form, page_text('docs/FORMATS.md'), re.S | re.M)
    options, model, shown = told.groups() if told else ('', '', '')
    said = bash(f"./plift cost {options} < {model} | sed -n '/^cost/,$p'", folder)
    yield Tried('docs/FORMATS.md: a text for a budget', '' if told and said == shown else said)


def lengths() -> Iterator[Tried]:
    """What pages say of the lengths of recheck.py and lumped.py."""
    count, other = (len((TOP / 'recheck' / name).read_text().splitlines()) for name in ('recheck.py', 'lumped.py'))
    for page in ('README.md', 'docs/CHECKING.md', 'docs/GUIDE.md', 'docs/TUTORIAL.md'):
        told = set(re.findall(r'(\d+) lines (?:of Python|that shares nothing)', page_text(page)))
        fault = '' if told - {str(other)} == {str(count)} else f'recheck.py has {count}, lumped.py {other}'
        yield Tried(f'lines of recheck.py in {page}', fault)


def references() -> Iterator[Tried]:
    """The files that pages name: whether they are there."""
    for page in [TOP / 'README.md', *sorted((TOP / 'docs').glob('*.md'))]:
        text = BLOCK.sub('', page_text(str(page.relative_to(TOP))))
        names = re.findall(r'`((?:docs/)?[A-Z]+\.md)`', text) + re.findall(r'\]\(([^)#:]+)\)', text)
        missing = [name for name in names if not any((place / name).is_file() for place in (page.parent, TOP))]
        yield Tried(f'files named in {page.relative_to(TOP)}', ', '.join(f'{name} is not there' for name in missing))


def note(folder: Path, text: str) -> str:
    """What plift says of a model text."""
    (folder / 'model.drn').write_bytes(text.encode('latin-1'))
    return bash("./plift verify --goal done --bound 1 --region '1/10<=p<=2/5' < model.drn > written", folder).strip()


def storm_lines(folder: Path) -> Iterator[Tried]:
    """The lines that docs/STORM.md speaks of: whether each is read, or refused, as it says."""
    for old, new, want in LINES:
        said = note(folder, COIN.replace(old, new))
        yield Tried(f'{STORM}: {new[:100]!r}', '' if said == (want or '') else f'it says: {said}')


def storm_command(folder: Path) -> Iterator[Tried]:
    """The command of docs/STORM.md that mends a text: whether what was refused is read then."""
    command = page_commands(STORM)[0].text
    is_refused = note(folder, EXPORT) != ''
    bash(command, folder)
    left = note(folder, (folder / 'fitted.drn').read_text())
    yield Tried(f'{STORM}: {command}', left if is_refused else 'the text that it mends is read as it is')


def prepared(folder: Path, programs: dict[str, Path]) -> Path:
    """A folder with the examples, the checker and the programs, as a page's commands find them."""
    for part in ('examples', 'recheck', 'lab', 'tiles'):
        shutil.copytree(TOP / part, folder / part)
    for tool in ('plift-lab', 'plift-tiles'):
        shutil.copy(TOP / tool, folder)
    for name, program in programs.items():
        script = f'#!/bin/sh\n[ "$1" != --quick ] || shift\nexec "{program}" "$@"\n'
        (folder / name).write_text(script)
        (folder / name).chmod(0o755)
    return folder


def tried(place: Path, programs: dict[str, Path]) -> Iterator[Tried]:
    """All that is tried, in folders of this place."""
    folders = [prepared(place / Path(page).stem, programs) for page in PAGES]
    for page, folder in zip(PAGES, folders):
        yield from commands(page, folder)
    yield from pictures(folders)
    yield from examples(folders[0])
    yield from second_version(folders[0])
    yield from property_nodes(folders[0])
    yield from property_of_range(folders[0])
    yield from cost_lines(folders[0])
    yield from lengths()
    yield from references()
    storm = prepared(place / 'STORM', programs)
    yield from storm_lines(storm)
    yield from storm_command(storm)


def main() -> int:
    """Tries what the pages say and prints what isn't so; 1 where anything wasn't."""
    words = argparse.ArgumentParser(description='Tests of what the pages say.')
    words.add_argument('--program', '--bin', metavar='PATH', help='a built plift')
    words.add_argument('--view', metavar='PATH', help='a built plift-view')
    given = words.parse_args()
    programs = {'plift': needed('plift', given.program), 'plift-view': needed('plift-view', given.view)}
    os.environ['PLIFT_PROGRAM'] = str(programs['plift'])  # which plift-lab and plift-tiles ask
    count = wrong = 0
    with tempfile.TemporaryDirectory() as place:
        for what, fault in tried(Path(place), programs):
            count += 1
            if fault:
                wrong += 1
                print(f'not so: {what.strip()}\n  {fault.strip()}')
    print(f'{count} tried, {wrong} wrong')
    return int(wrong > 0)


if __name__ == '__main__':
    try:
        sys.exit(main())
    except KeyboardInterrupt:
        sys.exit(130)
