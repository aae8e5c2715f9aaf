#!/usr/bin/env python3
"""Writes the man page and the completion of plift-lab from the words that its commands take:  python3 lab/pages.py

They stand in man/plift-lab.1, completion/plift-lab.bash and completion/_plift-lab; a test tells where they are older
than the commands.
"""

from __future__ import annotations

import argparse
import sys
from pathlib import Path
from typing import Dict, List

sys.dont_write_bytecode = True
TOP = Path(__file__).resolve().parent.parent
sys.path.insert(0, str(TOP / 'lab'))

from plift_lab import cli  # noqa: E402
from plift_lab.version import VERSION  # noqa: E402

FOLDERS, FILES = ('--keep',), ('--report',)
STATUSES = (
    ('0', 'done'),
    ('1', 'stopped short of what was asked; what is known was told'),
    ('2', 'words or a file at fault, or plift refuses the question'),
    ('6, 8', 'writing failed; memory ran out'),
    ('10, 20, 30, 40', 'of verdict: accepted, rejected, mixed, unknown'),
    ('70', 'no plift was found, or it failed'),
    ('130', 'interrupted'),
)
EXAMPLES = (
    'plift-lab bounds retry.drn --goal lost --region p=10%..30%,q=5%..20%',
    'plift-lab verify retry.drn --formula \'P>=0.95 [F "delivered"]\' --region p=10%..30%,q=5%..20%',
    'plift-lab view retry.report > page.html',
)


def commands() -> Dict[str, argparse.ArgumentParser]:
    """The parser of each command."""
    found = next(action for action in cli.parser()._actions if isinstance(action, argparse._SubParsersAction))
    return dict(found.choices)


def options(words: argparse.ArgumentParser) -> List[argparse.Action]:
    """What a command takes by a name of its own."""
    return [action for action in words._actions if action.option_strings and action.dest != 'help']


def places(words: argparse.ArgumentParser) -> List[argparse.Action]:
    """What it takes by its place."""
    return [action for action in words._actions if not action.option_strings]


def about(name: str) -> str:
    """A command in a line."""
    return cli.about(name).splitlines()[0]


def told(action: argparse.Action) -> str:
    """What is told of an option."""
    return (action.help or '').replace('%%', '%')


def man(text: str) -> str:
    """A text as a man page has it."""
    return text.replace('\\', '\\e').replace('-', '\\-').replace('\'', '\\(aq')


def man_page() -> str:
    """The man page."""
    lines = [
        '.TH PLIFT-LAB 1 "" "plift %s" "User commands"' % VERSION,
        '.SH NAME',
        'plift\\-lab \\- numbers, thresholds, verdicts, leaves as data and pages, over the proved program plift',
        '.SH SYNOPSIS',
    ]
    for name, words in commands().items():
        lines.append('.B plift\\-lab %s' % name)
        lines += ['.I %s' % (action.metavar or action.dest.upper()) for action in places(words)]
        lines += ['.RI [ options ]', '.br']
    lines += [
        '.B plift\\-lab \\-\\-help',
        '.br',
        '.B plift\\-lab \\-\\-version',
        '.SH DESCRIPTION',
        '.B plift\\-lab',
        'asks',
        '.BR plift (1)',
        'for what a person wants to know. Nothing in it is believed: each answer names the reports that stand behind'
        ' it,',
        'and who judged them.',
        '.PP',
        'It takes the program that',
        '.B PLIFT_PROGRAM',
        'names, else that of its checkout or release, else an installed one, else a quick build, and builds none.',
        '.SH COMMANDS',
    ]
    for name, words in commands().items():
        lines += ['.SS %s' % name, man(about(name)) + '.' * (not about(name).endswith('.'))]
        for action in options(words):
            value = ' \\fI%s\\fR' % action.metavar if action.metavar else ''
            lines += ['.TP', '.B %s%s' % (man(action.option_strings[0]), value), man(told(action))]
    lines.append('.SH EXIT STATUS')
    for status, text in STATUSES:
        lines += ['.TP', '.B %s' % status, man(text)]
    lines += ['.SH EXAMPLES', '.nf', *map(man, EXAMPLES), '.fi', '.SH SEE ALSO']
    lines += ['.BR plift (1),', '.BR plift\\-view (1),', '.BR plift\\-tiles (1);']
    lines.append('LAB.md, which goes through these commands by example')
    return '\n'.join(lines) + '\n'


def bash() -> str:
    """The completion for bash."""
    found = commands()
    valued = sorted({one.option_strings[0] for words in found.values() for one in options(words) if one.metavar})
    of_files = [name for name in valued if name in FOLDERS + FILES]
    lines = [
        '# Completion of plift-lab for bash.',
        '',
        '_plift_lab() {',
        '    local offered= files=',
        '    COMPREPLY=()',
        '    case $COMP_CWORD:${COMP_WORDS[1]}:${COMP_WORDS[COMP_CWORD - 1]} in',
        '    1:*) offered=\'%s --help --version\' ;;' % ' '.join(found),
        '    %s) files=yes ;;' % ' | '.join('*:' + name for name in of_files),
        '    %s) ;;' % ' | '.join('*:' + name for name in valued if name not in of_files),
    ]
    for name, words in found.items():
        offered = ' '.join(['--help', *(action.option_strings[0] for action in options(words))])
        lines.append('    *:%s:*) offered=\'%s\' files=yes ;;' % (name, offered))
    lines += [
        '    esac',
        '    COMPREPLY=($(compgen -W "$offered" -- "${COMP_WORDS[COMP_CWORD]}"))',
        '    [ -z "$files" ] || [ "${COMP_WORDS[COMP_CWORD]:0:1}" = - ] ||',
        '        COMPREPLY+=($(compgen -f -- "${COMP_WORDS[COMP_CWORD]}"))',
        '}',
        '',
        'complete -o filenames -F _plift_lab plift-lab',
    ]
    return '\n'.join(lines) + '\n'


def zsh_quoted(text: str) -> str:
    """A text inside a quoted word of zsh, in brackets."""
    for sign in '\\:[]':
        text = text.replace(sign, '\\' + sign)
    return text.replace('\'', '\'\\\'\'')


def zsh() -> str:
    """The completion for zsh."""
    lines = ['#compdef plift-lab', '# Completion of plift-lab for zsh.', '', '_plift_lab() {', '    local -a commands']
    lines.append('    commands=(')
    lines += ['        \'%s:%s\'' % (name, zsh_quoted(about(name).rstrip('.'))) for name in commands()]
    lines += [
        '    )',
        '    if ((CURRENT == 2)); then',
        '        _describe command commands',
        '        compadd -- --help --version',
        '        return',
        '    fi',
        '    local command=${words[2]}',
        '    shift words',
        '    ((CURRENT--))',
        '    case $command in',
    ]
    for name, words in commands().items():
        offered = ['--help[the words]']
        for place in places(words):
            is_file = place.metavar in ('MODEL', 'REPORT')
            offered.append('%s:%s:%s' % ('*' if place.nargs else '1', place.dest, '_files' if is_file else ''))
        for action in options(words):
            option = action.option_strings[0]
            files = '_files -/' if option in FOLDERS else '_files' if option in FILES else ''
            value = ':%s:%s' % (action.metavar, files) if action.metavar else ''
            again = '*' if isinstance(action, argparse._AppendAction) else ''
            offered.append('%s%s[%s]%s' % (again, option, zsh_quoted(told(action).split(';')[0]), value))
        lines.append('    %s) _arguments %s ;;' % (name, ' '.join('\'%s\'' % one for one in offered)))
    return '\n'.join([*lines, '    esac', '}', '', '_plift_lab "$@"']) + '\n'


PAGES = {'man/plift-lab.1': man_page, 'completion/plift-lab.bash': bash, 'completion/_plift-lab': zsh}


def main() -> None:
    """Writes them."""
    for name, write in PAGES.items():
        (TOP / name).write_text(write(), 'utf-8')


if __name__ == '__main__':
    main()
