#!/usr/bin/env python3
"""Tests of recheck.py and lumped.py:  python3 recheck/test.py [--program PATH] [--changes N] [REPORT ..]

Examples, reports with changes whose answers were worked out by hand, every proper prefix of a report. The `check` of a
built plift is asked the same, and about N reports with random changes (1000 if left out) of the examples and of the
reports that are named; both have to say the same, byte for byte. What `lumped` writes of examples and of random chains
has to be the quotient that lumped.py computes. PATH is that plift; without it the proved program is asked where it is
built, else the copy of `./plift --quick`, and where neither is, recheck.py alone.
"""
from __future__ import annotations

import argparse
import io
import random
import re
import subprocess
import sys
import tempfile
from pathlib import Path
from typing import Dict, List, NamedTuple, Optional, Tuple

HERE = Path(__file__).resolve().parent
sys.dont_write_bytecode = True
sys.path.insert(0, str(HERE))
import recheck  # noqa: E402
from programs import needed, program  # noqa: E402

EXAMPLES = {path.stem.upper(): path.read_bytes() for path in sorted((HERE.parent / 'examples').glob('*.report'))}

# A coin that falls on heads with probability p, which is from 1/10 to 2/5: not more often than 1/2.
LOW = b'''plift 1;kind dtmc;parameters 1 p;common 1;states 3;init 0;goal 1 1;row 0 0 2;to 1 1:1;to 2 0:1 1:-1;row 1 0 1;
to 1 0:1;row 2 0 1;to 2 0:1;bound 1/2;precision 4;depth 0;grid 10;box 1 4;accept 7 16 0;'''.replace(
    b'\n', b''
).replace(
    b';', b'\n'
)

# The quotient of examples/die.drn for the goal one.
DIE = b'''plift 1;kind dtmc;parameters 1 p;common 1;states 5;init 0;goal 1 4;row 0 0 2;to 1 1:1;to 2 0:1 1:-1;row 1 0 2;to 2 0:1 1:-1;
to 3 1:1;row 2 0 1;to 2 0:1;row 3 0 2;to 1 1:1;to 4 0:1 1:-1;row 4 0 1;to 4 0:1;bound 1/3;precision 4;depth 0;grid 5;box 2 3;
accept 5 8 0 13 16;'''.replace(
    b'\n', b''
).replace(
    b';', b'\n'
)

# Each row: a part of that report, what stands in its place, and what lumped.py tells.
DIE_CHANGES = '''
states 5 | states 6 | line 5: states 6, not states 5
init 0 | init 1 | line 6: init 1, not init 0
goal 1 4 | goal 1 3 | line 7: goal 1 3, not goal 1 4
common 1 | common 2 | line 4: common 2, not common 1
to 1 1:1;to 2 0:1 1:-1 | to 2 0:1 1:-1;to 1 1:1 | line 9: to 2 0:1 1:-1, not to 1 1:1
row 3 0 2;to 1 1:1;to 4 0:1 1:-1 | row 3 0 2;to 1 1:1;to 4 0:1 1:-2 | line 18: to 4 0:1 1:-2, not to 4 0:1 1:-1
row 4 0 1;to 4 0:1; |  | line 19: nothing, not row 4 0 1
to 4 0:1;bound | to 4 0:1;row 5 0 0;bound | line 21: row 5 0 0, not nothing
'''

# One that is tossed again where it doesn't fall on heads. No number bounds it from below where p may be 0.
BACK = b'''plift 1;kind dtmc;parameters 1 p;common 1;states 2;init 0;goal 1 1;row 0 0 2;to 1 1:1;to 0 0:1 1:-1;row 1 0 1;
to 1 0:1;bound 1/4;precision 4;depth 0;grid 2;box 0 1;reject e 1 k 1 m 1 b 16/16;y 16 16;choice 0 -;rank 1 0;'''.replace(
    b'\n', b''
).replace(
    b';', b'\n'
)

# Texts for two steps: a coin that is tossed again in half of the cases, and shows heads with p.
AGAIN = '''plift-bounded 1;kind dtmc;parameters 1 p;common 2;states 3;init 0;goal 1 1;row 0 0 3;to 0 0:1;to 1 1:1;
to 2 0:1 1:-1;row 1 0 1;to 1 0:2;row 2 0 1;to 2 0:2;bound %s;steps 2;precision 4;depth 0;grid 5;box 1 2;%s'''
STEPS = {
    'WITHIN': (AGAIN % ('3/8', 'accept;x 1 4 16 0;x 2 6 16 0;')).replace('\n', '').replace(';', '\n').encode(),
    'ABOVE': (AGAIN % ('1/10', 'reject b 2/16;y 1 1 16 0;choice 1 0 - 0;y 2 2 16 0;choice 2 0 - 0;'))
    .replace('\n', '')
    .replace(';', '\n')
    .encode(),
}

# Texts of properties. Either of two choices shows heads with p, or with the rest.
TWIN = '''plift-property 1;kind mdp;parameters 1 p;common 1;states 3;init 0;goal 1 1;row 0 0 2;to 1 1:1;to 2 0:1 1:-1;
row 0 1 2;to 1 0:1 1:-1;to 2 1:1;row 1 0 1;to 1 0:1;row 2 0 1;to 2 0:1;property %s;precision 4;depth %d;grid 20;box %s;%s'''
# A coin of two hands is thrown again in half of the cases; one of them shows heads with p, the other with 1/2.
HANDS = '''plift-property 1;kind mdp;parameters 1 p;common 4;states 3;init 0;goal 1 1;row 0 0 3;to 0 0:2;to 1 1:2;to 2 0:2 1:-2;
row 0 1 3;to 0 0:2;to 1 0:1;to 2 0:1;row 1 0 1;to 1 0:4;row 2 0 1;to 2 0:4;property %s;precision 4;depth 0;grid 20;
box 12 16;holds;lower e 2 k 1 m 2 b 8/16;y 8 16 0;rank 1 0 -;'''
PROPERTIES_AS_ROWS = {
    'MOST': TWIN % ('<= 13/16', 0, '12 16', 'holds;x 13 16 0;'),
    'BELOW': TWIN % ('< 7/8', 0, '12 16', 'holds;x 13 16 0;'),
    'SOME': TWIN % ('<= 1/2', 0, '12 16', 'fails;lower e 1 k 1 m 1 b 9/16;y 9 16 0;choice 0 - -;rank 1 0 -;'),
    'SOME-BELOW': TWIN % ('< 9/16', 0, '12 16', 'fails;lower e 1 k 1 m 1 b 9/16;y 9 16 0;choice 0 - -;rank 1 0 -;'),
    'LEAST': HANDS % '>= 1/2',
    'ABOVE-ALL': HANDS % '> 3/8',
    'ONE': TWIN % ('>= 1/2', 0, '12 16', 'fails;x 7 16 0;choice 1 - 0;'),
    'ONE-ABOVE': TWIN % ('> 7/16', 0, '12 16', 'fails;x 7 16 0;choice 1 - 0;'),
    'HALVES': TWIN
    % ('< 1/2', 1, '4 16', 'split 0;unknown;fails;lower e 1 k 1 m 1 b 8/16;y 8 16 0;choice 0 - -;rank 1 0 -;'),
}
PROPERTIES = {name: text.replace('\n', '').replace(';', '\n').encode() for name, text in PROPERTIES_AS_ROWS.items()}

# Texts of costs. A coin that is tossed again in half of the cases, at 1 for each toss; heads with p, else it is left
# alone.
TOSSES = '''plift-cost 1;kind dtmc;parameters 1 p;common 2;states 3;init 0;goal 1 1;row 0 0 3;to 0 0:1;to 1 1:1;to 2 0:1 1:-1;
row 1 0 1;to 1 0:2;row 2 0 1;to 2 0:2;cost %s;cap %d;budget %s;precision 4;depth 0;grid 5;box 1 2;%s'''
# Either the goal at once, for 1/3 with p, else once more at the other state, for 3/4; or there at once.
WAYS = '''plift-cost 1;kind mdp;parameters 1 p;common 1;states 3;init 0;goal 1 1;row 0 0 2;to 1 1:1;to 2 0:1 1:-1;row 0 1 1;to 2 0:1;
row 1 0 1;to 1 0:1;row 2 0 1;to 1 0:1;cost 1/3 7/2 3/4;cap 2;budget %s;precision 6;depth 1;grid 4;box 0 4;%s'''
COSTS_AS_ROWS = {
    'TOSSES': TOSSES % ('1/1 0/1 0/1', 4, '2/1', 'accept 8 0 0;'),
    'ROUNDED': TOSSES % ('5/3 1/1 0/1', 4, '7/2', 'accept 14 0 0;'),
    'WAYS': WAYS % ('35/32', 'split 0;accept 35 0 24;accept 35 0 24;'),
}
COSTS = {name: text.replace('\n', '').replace(';', '\n').encode() for name, text in COSTS_AS_ROWS.items()}

# The coin again, in the second version: over halves of a region from 1/10 to 9/10, each leaf at its own precision.
RANGE = b'''plift 2;kind dtmc;parameters 1 p;common 1;states 3;init 0;goal 1 1;row 0 0 2;to 1 1:1;to 2 0:1 1:-1;row 1 0 1;
to 1 0:1;row 2 0 1;to 2 0:1;bound 1/2;precision 4;from 1;depth 2;grid 40;box 4 36;split 0;at 1;accept 1 2 0;split 0;unknown;
at 4;reject e 1 k 1 m 1 b 11/16;y 11 16 0;choice 0 - -;rank 1 0 -;'''.replace(
    b'\n', b''
).replace(
    b';', b'\n'
)

# A state with nine choices, whose rows recheck.py tests at once. Choice c goes on with c + 1 times p/20.
NINE_ROWS = ''.join(f'row 0 {c} 2;to 1 1:{c + 1};to 2 0:20 1:-{c + 1};' for c in range(9))
NINE = f'plift%s 1;kind mdp;parameters 1 p;common 20;states 3;init 0;goal 1 1;{NINE_ROWS}row 1 0 1;to 1 0:20;row 2 0 1;to 2 0:20;%s'
NINE_BOX = 'precision 4;depth 0;grid 10;box 1 4'
NINE_LOW = NINE % ('', f'bound 1/2;{NINE_BOX};accept 3 16 0;')
NINE_STEPS = NINE % ('-bounded', f'bound 1/2;steps 1;{NINE_BOX};accept;x 1 3 16 0;')
NINE_COSTS = NINE % ('-cost', f'cost 1/1 0/1 0/1;cap 4;budget 2/1;{NINE_BOX};accept 4 0 0;')
# One more choice, which goes on with q/2; each goes on with at least 1/64.
NINE_LEAST = NINE.replace('1 p', '2 p q').replace('row 1 0 1', 'row 0 9 2;to 1 2:10;to 2 0:20 2:-10;row 1 0 1') % (
    '-property',
    'property >= 1/64;precision 6;depth 0;grid 20;box 12 16 10 20;holds;lower e 6 k 1 m 6 b 1/64;y 1 64 0;rank 1 0 -;',
)
STEPS['NINE-STEPS'] = NINE_STEPS.replace(';', '\n').encode()
COSTS['NINE-COSTS'] = NINE_COSTS.replace(';', '\n').encode()
PROPERTIES['NINE-LEAST'] = NINE_LEAST.replace(';', '\n').encode()


def ranged(text: bytes) -> bytes:
    """The same tree in version 2, whose leaves have in turn the precision, one more and two more: each number is
    doubled so often."""
    lines, more, precision = [], -1, 0
    for line in text.decode().splitlines():
        key, *words = line.split(' ')
        if key in ('accept', 'reject', 'holds', 'fails'):
            more = (more + 1) % 3
            lines.append(f'at {precision + more}')
        if key in ('plift', 'plift-property'):
            line = f'{key} 2'
        elif key == 'precision':
            precision = int(words[0])
            line = f'precision {precision + 2}\nfrom {precision}'
        elif key in ('accept', 'x', 'y'):
            line = ' '.join([key, *(str(int(word) << more) for word in words)])
        elif key in ('reject', 'lower'):
            parts = [int(word) << more for word in words[-1].split('/')]
            line = ' '.join([key, *words[:-1], '/'.join(map(str, parts))])
        lines.append(line)
    return ('\n'.join(lines) + '\n').encode()


RANGED = {f'{name}-RANGED': ranged(text) for name, text in EXAMPLES.items()}
PROPERTIES.update({f'{name}-RANGED': ranged(text) for name, text in PROPERTIES.items()})
REPORTS = {'LOW': LOW, 'BACK': BACK, 'RANGE': RANGE, 'NINE': NINE_LOW.replace(';', '\n').encode(), **RANGED, **EXAMPLES}

# Each row: a report; changes, each a line's number and what stands there in its place (`;` between two lines, `-`
# for none), with ` / ` between two; and what is said, of a report that isn't sound without `not sound: `.
TABLE = '''
APART | | sound accept 1 reject 0 unknown 0
COIN | | sound accept 0 reject 1 unknown 0
PLAIN | | sound accept 1 reject 0 unknown 0
RETRY | | sound accept 1 reject 0 unknown 0
RETRY-TREE | | sound accept 1 reject 2 unknown 3
APART-RANGED | | sound accept 1 reject 0 unknown 0
COIN-RANGED | | sound accept 0 reject 1 unknown 0
PLAIN-RANGED | | sound accept 1 reject 0 unknown 0
RETRY-RANGED | | sound accept 1 reject 0 unknown 0
RETRY-TREE-RANGED | | sound accept 1 reject 2 unknown 3
LOW | | sound accept 1 reject 0 unknown 0
LOW | 20=accept 8 16 0 | sound accept 1 reject 0 unknown 0
LOW | 20=accept 16 16 16 / 15=bound 1/1 | sound accept 1 reject 0 unknown 0
LOW | 20=unknown | sound accept 0 reject 0 unknown 1
LOW | 15=bound 0/1 / 20=unknown | sound accept 0 reject 0 unknown 1
LOW | 17=depth 20 / 19=box 0 1048576 / 18=grid 1048576 / 20=accept 16 16 0 / 15=bound 1/1 | sound accept 1 reject 0 unknown 0

LOW | 1=plift 2 | line 17: Syntax
LOW | 1=plift 3 | line 1: Version
LOW | 1=plift 2 / 16=precision 4;from 4 / 20=at 4;accept 7 16 0 | sound accept 1 reject 0 unknown 0
LOW | 1=plift 2 / 16=precision 4;from 1 / 20=at 1;accept 1 2 0 | sound accept 1 reject 0 unknown 0
LOW | 1=plift 2 / 16=precision 4;from 1 / 20=at 2;accept 2 4 0 | sound accept 1 reject 0 unknown 0
LOW | 1=plift 2 / 16=precision 4;from 2 / 20=at 1;accept 1 2 0 | line 21: Limit
LOW | 1=plift 2 / 16=precision 4;from 1 / 20=at 5;accept 7 16 0 | line 21: Limit
LOW | 1=plift 2 / 16=precision 4;from 1 / 20=at 3;accept 3 8 0 | node 0 state 0 choice 0 corner 1: 32 > 30
LOW | 1=plift 2 / 16=precision 4;from 1 / 20=at 3;accept 4 4 0 | node 0 goal state 1 value 4
LOW | 1=plift 2 / 16=precision 4;from 1 / 20=at 3;accept 5 8 0 | node 0 bound: 10 > 8
LOW | 1=plift 2 / 16=precision 4;from 1 / 20=at 3;accept 4 9 0 | line 22: Limit
LOW | 1=plift 2 / 16=precision 4;from 1 / 20=at 3;unknown | line 22: Syntax
LOW | 1=plift 2 / 16=precision 4;from 1 / 20=at 3 | line 22: Truncated
LOW | 1=plift 2 / 16=precision 4;from 1 / 20=at | line 21: Syntax
LOW | 1=plift 2 / 16=precision 4;from 1 / 20=at 03 | line 21: Syntax
LOW | 1=plift 2 / 16=precision 4;from 1 | line 21: Syntax
LOW | 1=plift 2 / 16=precision 4;from 1 / 20=unknown | sound accept 0 reject 0 unknown 1
LOW | 1=plift 2 / 16=precision 4;from 5 | line 17: Limit
LOW | 1=plift 2 / 16=precision 4;from 0 | line 17: Limit
LOW | 1=plift 2 / 16=precision 4;from 1;from 1 | line 18: Syntax
LOW | 16=precision 4;from 4 | line 17: Syntax
LOW | 20=at 4;accept 7 16 0 | line 20: Syntax
RANGE | | sound accept 1 reject 1 unknown 1
RANGE | 17=from 4 / 22=at 4;accept 8 16 0 / 23=- | sound accept 1 reject 1 unknown 1
RANGE | 17=from 2 | line 22: Limit
RANGE | 26=at 3 | line 28: Limit
RANGE | 26=at 3 / 28=y 6 8 0 | line 27: Syntax
RANGE | 26=at 3 / 27=reject e 1 k 1 m 1 b 6/8 / 28=y 6 8 0 | node 4 state 0 choice 0 corner 0: 240 > 224
RANGE | 26=at 2 / 27=reject e 1 k 1 m 1 b 2/4 / 28=y 2 4 0 | node 4 bound: 4 <= 4
LOW | 1=plift -1 | line 1: Version
LOW | 1=plift 01 | line 1: Syntax
LOW | 1=plift 1 1 | line 1: Syntax
LOW | 1=plift 2 2 | line 1: Syntax
LOW | 1=plift | line 1: Syntax
LOW | 1= plift 1 | line 1: Syntax
LOW | 1=plift 1  | line 1: Syntax
LOW | 1=Plift 1 | line 1: Syntax
LOW | 2=kind ctmc | line 2: Syntax
LOW | 2=kind | line 2: Syntax
LOW | 2=kind dtmc mdp | line 2: Syntax
LOW | 2=kind mdp | sound accept 1 reject 0 unknown 0
LOW | 3=parameters | line 3: Syntax
LOW | 3=parameters 2 p | line 3: Syntax
LOW | 3=parameters 1 1p | line 3: Syntax
LOW | 3=parameters 2 p p | line 3: Syntax
LOW | 3=parameters 1 {65} | line 3: Limit
LOW | 3=parameters 1 {64} | sound accept 1 reject 0 unknown 0
LOW | 3=parameters 2 {65} {65} | line 3: Limit
LOW | 3=parameters 3 p p {65} | line 3: Syntax
LOW | 3=parameters 17 a b c d e f g h i j k l m n o p q | line 3: Limit
LOW | 3=parameters 17 a a c d e f g h i j k l m n o p q | line 3: Limit
LOW | 3=parameters 17 a a c d e f g h i j k l m n o p 9 | line 3: Syntax
LOW | 4=common 0 | line 4: Limit
LOW | 4=common -1 | line 4: Limit
LOW | 4=common 4611686018427387904 | line 4: Limit
LOW | 4=common 1 1 | line 4: Syntax
LOW | 4=common 4611686018427387903 | state 0 choice 0: set 0 sums to 1
LOW | 5=states 0 | line 5: Limit
LOW | 5=states 65537 | line 5: Limit
LOW | 5=states 4 | line 15: Syntax
LOW | 5=states 2 | line 10: Limit
LOW | 6=init 3 | line 6: Limit
LOW | 6=init -1 | line 6: Limit
LOW | 6=init -0 | line 6: Syntax
LOW | 7=goal 0 | line 7: Syntax
LOW | 7=goal | line 7: Syntax
LOW | 7=goal 1 1 2 | line 7: Syntax
LOW | 7=goal 2 1 1 | line 7: Syntax
LOW | 7=goal 2 2 1 | line 7: Syntax
LOW | 7=goal 1 3 | line 7: Limit
LOW | 7=goal 1 -1 | line 7: Limit
LOW | 7=goal 2 -1 -1 | line 7: Limit
LOW | 7=goal 2 3 3 | line 7: Limit
LOW | 7=goal 2 1 2 | node 0 goal state 2 value 0
LOW | 8=row 1 0 2 | line 8: Syntax
LOW | 8=row 0 1 2 | line 8: Syntax
LOW | 8=row 0 0 -1 | line 8: Syntax
LOW | 8=row 0 0 | line 8: Syntax
LOW | 8=row 0 0 2 2 | line 8: Syntax
LOW | 8=row 0 0 262145 | line 8: Limit
LOW | 8=row 0 0 262144 | line 11: Syntax
LOW | 11=row 1 0 262142 | line 13: Syntax
LOW | 11=row 1 0 262143 | line 11: Limit
LOW | 8=row 0 0 1 | line 10: Syntax
LOW | 8=row 0 0 3 | line 11: Syntax
LOW | 9=to 3 1:1 | line 9: Limit
LOW | 9=to -1 1:1 | line 9: Limit
LOW | 9=to | line 9: Syntax
LOW | 9=to 1 1 | line 9: Syntax
LOW | 9=to 1 1:1: | line 9: Syntax
LOW | 9=to 1 1:0 | line 9: Syntax
LOW | 9=to 1 2:1 | line 9: Limit
LOW | 9=to 1 -1:1 | line 9: Limit
LOW | 9=to 1 0:1 -1:1 | line 9: Syntax
LOW | 9=to 1 0:1 0:1 | line 9: Syntax
LOW | 9=to 1 0:1 0:0 | line 9: Syntax
LOW | 9=to 1 1:1267650600228229401496703205376 | line 9: Limit
LOW | 9=to 1 1:-1267650600228229401496703205376 | line 9: Limit
LOW | 9=to 1 2:1 0:1 | line 9: Limit
LOW | 9=to 3 0:0 1:1 2:1 3:1 4:1 5:1 6:1 7:1 8:1 9:1 10:1 11:1 12:1 13:1 14:1 15:1 16:1 | line 9: Syntax
LOW | 9=to 3 0:0 1:1 2:1 3:1 4:1 5:1 6:1 7:1 8:1 9:1 10:1 11:1 12:1 13:1 14:1 15:1 | line 9: Limit
LOW | 10=to 1 0:1 1:-1 | line 10: Syntax
LOW | 10=to 1 3:1 | line 10: Syntax
LOW | 10=to 2 1:-1 0:1 | line 10: Syntax
LOW | 10=to 2 0:1 1:-1;row 0 1 1;to 2 0:1 | line 11: Syntax
LOW | 2=kind mdp / 10=to 2 0:1 1:-1;row 0 1 1;to 2 0:1 | sound accept 1 reject 0 unknown 0
LOW | 2=kind mdp / 10=to 2 0:1 1:-1;row 0 2 1;to 2 0:1 | line 11: Syntax
LOW | 2=kind mdp / 10=to 2 0:1 1:-1;row 0 1 1;to 1 0:1 | node 0 state 0 choice 1 corner 0: 16 > 7
LOW | 3=parameters 5 a b c d e / 19=box 1 4 1 4 1 4 1 4 1 4 / 9=to 1 1:1 2:1 4:1 8:1 16:1 | line 9: Limit
LOW | 3=parameters 5 a b c d e / 19=box 1 4 1 4 1 4 1 4 1 4 / 8=row 0 0 3;to 1 1:1 2:1 8:1 / 9=to 2 4:1 8:-1 16:1 / 10=to 0 0:1 1:-1 2:-1 4:-1 16:-1 | state 0 choice 0: 5 parameters
LOW | 15=bound 2/4 | line 15: Syntax
LOW | 15=bound 0/2 | line 15: Syntax
LOW | 15=bound 1/2/3 | line 15: Syntax
LOW | 15=bound 1 /2 | line 15: Syntax
LOW | 15=bound 1 | line 15: Syntax
LOW | 15=bound 1/0 | line 15: Limit
LOW | 15=bound 1/-2 | line 15: Limit
LOW | 15=bound -1/2 | line 15: Limit
LOW | 15=bound -1/0 | line 15: Limit
LOW | 15=bound 3/2 | line 15: Limit
LOW | 15=bound 1/4294967296 | line 15: Limit
LOW | 15=bound 2/4294967296 | line 15: Syntax
LOW | 15=bound 4294967296/4294967296 | line 15: Limit
LOW | 15=bound 1/4294967295 | node 0 bound: 30064771065 > 16
LOW | 16=precision 0 | line 16: Limit
LOW | 16=precision 41 | line 16: Limit
LOW | 16=precision 5 | node 0 goal state 1 value 16
LOW | 17=depth 21 | line 17: Limit
LOW | 17=depth -1 | line 17: Limit
LOW | 17=depth 1 | line 19: Syntax
LOW | 15=bound 0/1 / 17=depth 2 / 19=box 0 4 | node 0 bound: 7 > 0
LOW | 18=grid 0 | line 18: Limit
LOW | 18=grid 4611686018427387904 | line 18: Limit
LOW | 19=box 4 4 | line 19: Syntax
LOW | 19=box 4 1 | line 19: Syntax
LOW | 19=box 1 | line 19: Syntax
LOW | 19=box 1 4 1 4 | line 19: Syntax
LOW | 19=box 1 4611686018427387904 | line 19: Limit
LOW | 19=box -4611686018427387904 1 | line 19: Limit
LOW | 17=depth 1 / 19=box -4611686018427387904 1 | line 19: Limit
LOW | 17=depth 1 / 19=box 1 4611686018427387904 | line 19: Syntax
LOW | 20=accept 7 16 | line 20: Syntax
LOW | 20=accept 7 16 0 0 | line 20: Syntax
LOW | 20=accept 07 16 0 | line 20: Syntax
LOW | 20=accept +7 16 0 | line 20: Syntax
LOW | 20=accept 7  16 0 | line 20: Syntax
LOW | 20=accept 7 17 0 | line 20: Limit
LOW | 20=accept 7 16 -1 | line 20: Limit
LOW | 20=accept 7 17 x | line 20: Syntax
LOW | 20=unknown 1 | line 20: Syntax
LOW | 20=- | line 20: Truncated
LOW | 20=split | line 20: Syntax
LOW | 20=split 1 | line 20: Limit
LOW | 20=accept{1048571} | line 20: Limit
LOW | 20=accept{1048570} | line 20: Syntax
LOW | 20=accept {1048570} | line 20: Limit

LOW | 10=to 2 0:1 1:-2 | state 0 choice 0: set 1 sums to -1
LOW | 10=to 2 0:2 1:-2 | state 0 choice 0: set 0 sums to 2
LOW | 12=to 1 | state 1 choice 0: set 0 sums to 0
LOW | 12=to 1 1:1 | state 1 choice 0: set 0 sums to 0
LOW | 19=box 1 12 | state 0 choice 0: target 2 at corner 1 has weight -2
LOW | 19=box -1 12 | state 0 choice 0: target 1 at corner 0 has weight -1
LOW | 16=precision 40 / 9=to 1 1:1237940039285380274899124224 / 10=to 2 0:1 1:-1237940039285380274899124224 | state 0 choice 0: too wide
LOW | 10=to 2 0:1 1:-2 / 20=accept 07 16 0 | state 0 choice 0: set 1 sums to -1
LOW | 10=to 2 0:1 1:-2 / 19=box 4 4 | line 19: Syntax

LOW | 20=accept 6 16 0 | node 0 state 0 choice 0 corner 1: 64 > 60
LOW | 20=accept 0 16 0 | node 0 state 0 choice 0 corner 0: 16 > 0
LOW | 20=accept 7 15 0 | node 0 goal state 1 value 15
LOW | 20=accept 0 15 0 | node 0 state 0 choice 0 corner 0: 15 > 0
LOW | 20=accept 9 16 0 | node 0 bound: 18 > 16
LOW | 20=accept 7 16 0;x | rest
LOW | 20=accept 7 16 0;- | rest
LOW | 20=split 0 | node 0 depth
LOW | 17=depth 1 / 19=box 2 4 / 20=unknown | node 0 depth
LOW | 17=depth 1 / 19=box 2 4 / 20=split 0;accept 5 16 0;accept 7 16 0 | sound accept 2 reject 0 unknown 0
LOW | 17=depth 1 / 19=box 2 4 / 20=split 0;accept 4 16 0;accept 7 16 0 | node 1 state 0 choice 0 corner 1: 48 > 40
LOW | 17=depth 1 / 19=box 2 4 / 20=split 0;accept 5 16 0;accept 6 16 0 | node 2 state 0 choice 0 corner 1: 64 > 60
LOW | 17=depth 1 / 19=box 2 4 / 20=split 0;accept 5 16 0;split 0 | node 2 depth
LOW | 17=depth 1 / 19=box 2 4 / 20=split 0;accept 5 16 0 | line 22: Truncated
LOW | 17=depth 1 / 19=box 2 4 / 20=split 0;accept 5 16 0;unknown;unknown | rest
LOW | 3=parameters 2 p q / 17=depth 1 / 19=box 2 4 0 10 / 20=split 1 | node 0 axis
LOW | 3=parameters 2 p q / 17=depth 1 / 19=box 2 4 0 10 / 20=split 0;unknown;unknown | sound accept 0 reject 0 unknown 2
PLAIN | 17=depth 5 / 18=grid 32 / 20=unknown | sound accept 0 reject 0 unknown 1
PLAIN | 20=split 0 | line 20: Limit

COIN | 20=reject e 1 k 1 m 2 b 9/16 | line 20: Syntax
COIN | 20=reject e 1 k 1 m 1 b 9/15 | line 20: Syntax
COIN | 20=reject e 1 k 1 m 1 b 8/16 | line 20: Syntax
COIN | 20=reject e 127 k 1 m 127 b 9/16 | line 20: Limit
COIN | 20=reject e -1 k 1 m -1 b 9/16 | line 20: Limit
COIN | 20=reject e 1 k 0 m 0 b 9/16 | line 20: Limit
COIN | 20=reject e 1 k 65537 m 65537 b 9/16 | line 20: Limit
COIN | 20=reject e 127 k 1 m 127 b 9 | line 20: Syntax
COIN | 20=reject k 1 e 1 m 1 b 9/16 | line 20: Syntax
COIN | 20=reject e 1 k 1 m 1 b 9/16 0 | line 20: Syntax
COIN | 20=reject e 2 k 1 m 2 b 9/16 | sound accept 0 reject 1 unknown 0
COIN | 20=reject e 126 k 1 m 126 b 9/16 | sound accept 0 reject 1 unknown 0
COIN | 20=reject e 1 k 65536 m 65536 b 9/16 | sound accept 0 reject 1 unknown 0
COIN | 20=reject e 1 k 65536 m 65536 b 9/16 / 23=rank 65536 0 - | sound accept 0 reject 1 unknown 0
COIN | 20=reject e 0 k 1 m 0 b 9/16 | node 0 state 0 choice 0 corner 0: weight 6 times 2^0 < 10
COIN | 20=reject e 1 k 1 m 1 b 8/16 / 21=y 8 16 0 | node 0 bound: 16 <= 16
COIN | 20=reject e 1 k 1 m 1 b 10/16 / 21=y 10 16 0 | node 0 state 0 choice 0 corner 0: 100 > 96
COIN | 21=y 9 17 0 | line 21: Limit
COIN | 21=y 9 16 | line 21: Syntax
COIN | 21=y 9 14 0 | node 0 state 0 choice 0 corner 0: 90 > 84
COIN | 21=y 9 15 0 | node 0 goal state 1 value 15
COIN | 21=y 9 16 1 | node 0 unranked state 2 value 1
COIN | 21=x 9 16 0 | line 21: Syntax
COIN | 22=choice 1 - - | line 22: Limit
COIN | 22=choice -1 - - | line 22: Limit
COIN | 22=choice 0 - | line 22: Syntax
COIN | 22=choice 0 - x | line 22: Syntax
COIN | 22=choice - - - | line 20: Syntax
COIN | 22=choice 0 0 - | line 20: Syntax
COIN | 22=choice 0 - 0 | line 20: Syntax
COIN | 22=choice 4294967295 - - | line 22: Limit
COIN | 22=choice 4294967296 - - | line 22: Limit
COIN | 23=rank 2 0 - | line 23: Limit
COIN | 23=rank 1 1 - | line 20: Syntax
COIN | 23=rank 1 - - | line 20: Syntax
COIN | 23=rank 1 0 0 | line 20: Syntax
COIN | 23=rank 0 0 - | line 20: Syntax
COIN | 23=rank - 0 - | line 20: Syntax
COIN | 23=rank 1 0 4294967296 | line 23: Limit
COIN | 22=choice - - - / 23=rank - 0 - | node 0 unranked state 0 value 9
COIN | 22=choice 0 - 0 / 23=rank 1 0 1 | node 0 state 2 choice 0 corner 0: weight 0 times 2^1 < 1
COIN | 15=bound 3/4 | node 0 bound: 36 <= 48
COIN | 23=rank 1 0 -;unknown | rest
BACK | | node 0 state 0 choice 0 corner 0: weight 0 times 2^1 < 2
BACK | 17=box 1 2 | sound accept 0 reject 1 unknown 0

NINE | | sound accept 1 reject 0 unknown 0
NINE | 44=accept 2 16 0 | node 0 state 0 choice 6 corner 1: 448 > 400
NINE | 44=accept 0 16 0 | node 0 state 0 choice 0 corner 0: 16 > 0
NINE | 44=accept 3 16 16 | node 0 state 0 choice 0 corner 0: 3200 > 600
NINE | 44=accept 3 15 0 | node 0 goal state 1 value 15
NINE | 35=row 0 9 1;to 1 0:20;row 1 0 1 | node 0 state 0 choice 9 corner 0: 320 > 60
NINE | 35=row 0 9 1;to 0 0:20;row 1 0 1 | sound accept 1 reject 0 unknown 0
NINE | 15=to 1 1:20 / 16=to 2 0:20 1:-20 | node 0 state 0 choice 2 corner 1: 1280 > 600

RETRY-TREE | 39=accept 8 41 205 0 1024 | node 4 state 0 choice 0 corner 1: 1312 > 1280
RETRY-TREE | 39=accept 9 41 204 0 1024 | node 4 state 2 choice 0 corner 1: 32768 > 32640
RETRY-TREE | 39=accept 26 41 205 0 1024 | node 4 bound: 1040 > 1024
RETRY-TREE | 40=split 0 | node 5 depth
RETRY-TREE | 41=unknown | node 6 depth
RETRY-TREE | 36=split 0 | node 1 axis
RETRY-TREE | 38=split 0 | node 3 axis
RETRY-TREE | 36=split 2 | line 36: Limit
RETRY-TREE | 47=rank 3 2 3 - 0 | node 9 state 1 choice 1 corner 0: weight 0 times 2^2 < 160
RETRY-TREE | 45=y 27 93 307 0 1024 | node 9 state 1 choice 1 corner 0: 14880 > 14736
RETRY-TREE | 46=choice 0 1 1 - - | node 9 state 0 choice 0 corner 0: 4320 > 1472
RETRY-TREE | 30=bound 1/30 | node 9 bound: 810 <= 1024
RETRY-TREE | 34=box 16 80 16 79 | line 34: Syntax
RETRY-TREE | 34=box 16 80 16 64 | node 9 state 0 choice 1 corner 0: 4320 > 3680
RETRY-TREE | 48=- | line 48: Syntax
RETRY-TREE | 51=rank 3 2 1 - 0;unknown | rest
'''


# The same of texts for a number of steps, which recheck.py alone reads.
STEPS_TABLE = '''
WITHIN | | sound accept 1 reject 0 unknown 0
WITHIN | 1=plift-bounded 2 | line 1: Version
WITHIN | 1=plift-bounded 1 1 | line 1: Syntax
WITHIN | 1=plift-Bounded 1 | line 1: Syntax
WITHIN | 17=steps 0 | line 17: Limit
WITHIN | 17=steps 65 | line 17: Limit
WITHIN | 17=steps 02 | line 17: Syntax
WITHIN | 17=- | line 17: Syntax
WITHIN | 17=steps 1 / 24=- | sound accept 1 reject 0 unknown 0
WITHIN | 17=steps 1 | rest
WITHIN | 17=steps 3 | line 25: Truncated
WITHIN | 22=accept 4 16 0 | line 22: Syntax
WITHIN | 22=unknown / 23=- / 24=- | sound accept 0 reject 0 unknown 1
WITHIN | 23=x 1 6 16 0 | node 0 step 2 state 0 choice 0 corner 1: 62 > 60
WITHIN | 23=x 2 4 16 0 | line 23: Syntax
WITHIN | 23=- | line 23: Syntax
WITHIN | 23=x 1 4 16 | line 23: Syntax
WITHIN | 23=y 1 4 16 0 | line 23: Syntax
WITHIN | 23=x 1 4 17 0 | line 23: Limit
WITHIN | 23=x 1 3 16 0 | node 0 step 1 state 0 choice 0 corner 1: 32 > 30
WITHIN | 23=x 1 4 15 0 | node 0 step 1 goal state 1 value 15
WITHIN | 24=x 2 5 16 0 | node 0 step 2 state 0 choice 0 corner 1: 52 > 50
WITHIN | 24=x 2 7 16 0 | node 0 bound: 56 > 48
WITHIN | 11=to 2 0:1 1:-2 | state 0 choice 0: set 1 sums to -1
NINE-STEPS | | sound accept 1 reject 0 unknown 0
NINE-STEPS | 46=x 1 2 16 0 | node 0 step 1 state 0 choice 6 corner 1: 448 > 400
ABOVE | | sound accept 0 reject 1 unknown 0
ABOVE | 22=reject b 1/16 | line 22: Syntax
ABOVE | 22=reject b 2/8 | line 22: Syntax
ABOVE | 22=reject e 1 k 1 m 1 b 2/16 | line 22: Syntax
ABOVE | 23=y 1 2 16 0 | node 0 step 1 state 0 choice 0 corner 0: 20 > 16
ABOVE | 23=y 1 0 16 0 / 25=y 2 1 16 0 / 22=reject b 1/16 | node 0 bound: 10 <= 16
ABOVE | 25=y 2 3 16 0 / 22=reject b 3/16 | node 0 step 2 state 0 choice 0 corner 0: 30 > 21
ABOVE | 25=y 2 2 16 1 | node 0 step 2 state 2 choice 0 corner 0: 2 > 0
ABOVE | 24=choice 1 - - 0 | line 22: Syntax
ABOVE | 26=choice 2 0 0 0 | line 22: Syntax
ABOVE | 26=choice 2 1 - 0 | line 26: Limit
ABOVE | 24=choice 2 0 - 0 | line 24: Syntax
ABOVE | 24=- / 26=- | line 24: Syntax
ABOVE | 16=bound 1/8 | node 0 bound: 16 <= 16
ABOVE | 26=choice 2 0 - 0;unknown | rest
'''


# The same of texts of properties.
PROPERTY_TABLE = '''
MOST | | sound holds 1 fails 0 unknown 0
MOST | 24=x 13 16 1 | sound holds 1 fails 0 unknown 0
MOST | 23=unknown / 24=- | sound holds 0 fails 0 unknown 1
MOST | 1=plift-property 2 | line 20: Syntax
MOST | 1=plift-property 3 | line 1: Version
MOST | 1=plift-property 2 / 19=precision 4;from 1 / 23=at 4;holds | sound holds 1 fails 0 unknown 0
MOST | 1=plift-property 2 / 19=precision 4;from 1 | line 24: Syntax
MOST | 1=plift-property 2 / 19=precision 4;from 1 / 23=at 5;holds | line 24: Limit
MOST | 1=plift-property 2 / 19=precision 4;from 1 / 23=at 3;holds | line 26: Limit
MOST | 1=plift-property 2 / 19=precision 4;from 4 / 23=at 3;holds | line 24: Limit
MOST | 1=plift-property 2 / 19=precision 4;from 5 / 23=at 4;holds | line 20: Limit
MOST | 1=plift-property 2 / 19=precision 4;from 1 / 23=at 4;unknown / 24=- | line 25: Syntax
MOST | 1=plift-property 2 / 19=precision 4;from 1 / 23=at 4;at 4;holds | line 25: Syntax
MOST | 1=plift-property 2 / 19=precision 4;from 1 / 23=unknown / 24=- | sound holds 0 fails 0 unknown 1
MOST | 1=plift-property 2 / 19=precision 4;from 1 / 22=box 12 15 / 23=at 2;holds / 24=x 3 4 0 | sound holds 1 fails 0 unknown 0
MOST-RANGED | | sound holds 1 fails 0 unknown 0
BELOW-RANGED | | sound holds 1 fails 0 unknown 0
SOME-RANGED | | sound holds 0 fails 1 unknown 0
LEAST-RANGED | | sound holds 1 fails 0 unknown 0
ONE-RANGED | | sound holds 0 fails 1 unknown 0
HALVES-RANGED | | sound holds 0 fails 1 unknown 1
SOME-RANGED | 26=lower e 1 k 1 m 1 b 9/32 | line 26: Syntax
MOST | 1=plift-property 1 1 | line 1: Syntax
MOST | 1=plift-properties 1 | line 1: Syntax
MOST | 1=plift 1 | line 18: Syntax
MOST | 1=plift-bounded 1 | line 18: Syntax
MOST | 18=bound 13/16 | line 18: Syntax
MOST | 18=property | line 18: Syntax
MOST | 18=property <= | line 18: Syntax
MOST | 18=property 13/16 | line 18: Syntax
MOST | 18=property =< 13/16 | line 18: Syntax
MOST | 18=property <=13/16 | line 18: Syntax
MOST | 18=property <= 13 /16 | line 18: Syntax
MOST | 18=property <= 26/32 | line 18: Syntax
MOST | 18=property <= 3/2 | line 18: Limit
MOST | 18=property <= 1/0 | line 18: Limit
MOST | 18=property <= 13/16;steps 2 | line 19: Syntax
MOST | 19=precision 4;from 1 | line 20: Syntax
MOST | 13=to 2 1:2 | state 0 choice 1: set 1 sums to 1
MOST | 22=box 12 21 | state 0 choice 0: target 2 at corner 1 has weight -1
MOST | 23=holds 1 | line 23: Syntax
MOST | 23=accept | line 23: Syntax
MOST | 23=at 4;holds | line 23: Syntax
MOST | 23=fails | line 24: Syntax
MOST | 18=property >= 13/16 | line 24: Syntax
MOST | 24=accept 13 16 0 | line 24: Syntax
MOST | 24=x 1 13 16 0 | line 24: Syntax
MOST | 24=x 13 16 | line 24: Syntax
MOST | 24=x 13 17 0 | line 24: Limit
MOST | 24=x 13 16 -1 | line 24: Limit
MOST | 24=x 12 16 0 | node 0 state 0 choice 0 corner 1: 256 > 240
MOST | 22=box 2 16 / 18=property <= 15/16 | node 0 state 0 choice 1 corner 0: 288 > 260
MOST | 24=x 13 15 0 | node 0 goal state 1 value 15
MOST | 24=x 14 16 0 | node 0 bound: 224 > 208
MOST | 18=property < 13/16 | node 0 bound: 208 >= 208
MOST | 24=x 13 16 0;choice 0 - 0 | rest
MOST | 24=x 13 16 0;unknown | rest
BELOW | | sound holds 1 fails 0 unknown 0
BELOW | 24=x 14 16 0 | node 0 bound: 112 >= 112

SOME | | sound holds 0 fails 1 unknown 0
SOME | 24=reject e 1 k 1 m 1 b 9/16 | line 24: Syntax
SOME | 24=lower b 9/16 | line 24: Syntax
SOME | 24=lower e 1 k 1 m 2 b 9/16 | line 24: Syntax
SOME | 24=lower e 1 k 1 m 1 b 8/16 | line 24: Syntax
SOME | 24=lower e 1 k 1 m 1 b 9/8 | line 24: Syntax
SOME | 24=lower e 127 k 1 m 127 b 9/16 | line 24: Limit
SOME | 24=lower e 1 k 0 m 0 b 9/16 | line 24: Limit
SOME | 24=lower e 1 k 65537 m 65537 b 9/16 | line 24: Limit
SOME | 25=y 17 16 0 | line 25: Limit
SOME | 26=- | line 26: Syntax
SOME | 26=choice 2 - - | line 26: Limit
SOME | 26=choice - - - | line 24: Syntax
SOME | 26=choice 0 0 - | line 24: Syntax
SOME | 27=rank 2 0 - | line 27: Limit
SOME | 27=rank 0 0 - | line 24: Syntax
SOME | 27=rank 1 1 - | line 24: Syntax
SOME | 27=- | line 27: Truncated
SOME | 18=property >= 1/2 | line 24: Syntax
SOME | 25=y 9 15 0 | node 0 goal state 1 value 15
SOME | 25=y 9 16 1 | node 0 unranked state 2 value 1
SOME | 24=lower e 1 k 1 m 1 b 10/16 / 25=y 10 16 0 | node 0 state 0 choice 0 corner 0: 200 > 192
SOME | 26=choice 1 - - | node 0 state 0 choice 1 corner 0: 180 > 128
SOME | 24=lower e 0 k 1 m 0 b 9/16 | node 0 state 0 choice 0 corner 0: weight 12 times 2^0 < 20
SOME | 18=property <= 9/16 | node 0 bound: 144 <= 144
SOME-BELOW | | sound holds 0 fails 1 unknown 0
SOME-BELOW | 18=property < 5/8 | node 0 bound: 72 < 80

LEAST | | sound holds 1 fails 0 unknown 0
LEAST | 26=lower e 3 k 2 m 6 b 7/16 / 27=y 7 16 0 / 28=rank 2 0 - / 20=property >= 7/16 | sound holds 1 fails 0 unknown 0
LEAST | 26=lower e 2 k 1 m 3 b 8/16 | line 26: Syntax
LEAST | 26=lower e 2 k 1 m 2 b 7/16 | line 26: Syntax
LEAST | 26=lower e 2 k 1 m 2 b 8/32 | line 26: Syntax
LEAST | 26=lower e 127 k 1 m 127 b 8/16 | line 26: Limit
LEAST | 26=lower e 2 k 0 m 0 b 8/16 | line 26: Limit
LEAST | 26=x 8 16 0 | line 26: Syntax
LEAST | 27=y 8 17 0 | line 27: Limit
LEAST | 28=choice 0 - -;rank 1 0 - | line 28: Syntax
LEAST | 28=rank 2 0 - | line 28: Limit
LEAST | 28=rank 1 - - | line 26: Syntax
LEAST | 28=rank 0 0 - | line 26: Syntax
LEAST | 28=rank 1 0 0 | line 26: Syntax
LEAST | 20=property <= 1/2 | line 26: Syntax
LEAST | 26=lower e 2 k 1 m 2 b 7/16 / 27=y 7 15 0 / 20=property >= 7/16 | node 0 goal state 1 value 15
LEAST | 27=y 8 16 1 | node 0 unranked state 2 value 1
LEAST | 28=rank - 0 - | node 0 unranked state 0 value 8
LEAST | 26=lower e 2 k 1 m 2 b 9/16 / 27=y 9 16 0 | node 0 state 0 choice 1 corner 0: 36 > 34
LEAST | 24=box 4 16 | node 0 state 0 choice 0 corner 0: 640 > 448
LEAST | 26=lower e 1 k 1 m 1 b 8/16 | node 0 state 0 choice 0 corner 0: weight 24 times 2^1 < 80
LEAST | 12=row 0 1 1 / 13=to 0 0:4 / 14=- / 15=- | node 0 state 0 choice 1 corner 0: weight 0 times 2^2 < 4
LEAST | 28=rank 1 0 1 | node 0 state 2 choice 0 corner 0: weight 0 times 2^2 < 4
LEAST | 20=property >= 5/8 | node 0 bound: 64 < 80
LEAST | 20=property > 1/2 | node 0 bound: 16 <= 16
LEAST | 28=rank 1 0 -;unknown | rest
ABOVE-ALL | | sound holds 1 fails 0 unknown 0

ONE | | sound holds 0 fails 1 unknown 0
ONE | 24=x 8 16 0 / 18=property >= 5/8 | sound holds 0 fails 1 unknown 0
ONE | 24=x 7 17 0 | line 24: Limit
ONE | 24=lower e 1 k 1 m 1 b 7/16 | line 24: Syntax
ONE | 25=- | line 25: Truncated
ONE | 25=rank 1 0 - | line 25: Syntax
ONE | 25=choice 1 - | line 25: Syntax
ONE | 25=choice 1 - - | line 25: Syntax
ONE | 25=choice - - 0 | line 25: Syntax
ONE | 25=choice 1 0 0 | line 25: Syntax
ONE | 25=choice 2 - 0 | line 25: Limit
ONE | 25=choice 1 - 1 | line 25: Limit
ONE | 18=property <= 1/2 | line 24: Syntax
ONE | 24=x 7 15 0 | node 0 goal state 1 value 15
ONE | 24=x 6 16 0 | node 0 state 0 choice 1 corner 0: 128 > 120
ONE | 25=choice 0 - 0 | node 0 state 0 choice 0 corner 0: 192 > 140
ONE | 24=x 8 16 0 | node 0 bound: 16 >= 16
ONE | 18=property >= 7/16 | node 0 bound: 112 >= 112
ONE | 25=choice 1 - 0;unknown | rest
ONE-ABOVE | | sound holds 0 fails 1 unknown 0
ONE-ABOVE | 18=property > 3/8 | node 0 bound: 56 > 48

NINE-LEAST | | sound holds 1 fails 0 unknown 0
NINE-LEAST | 48=lower e 6 k 1 m 6 b 2/64 / 49=y 2 64 0 | node 0 state 0 choice 0 corner 0: 800 > 768
NINE-LEAST | 48=lower e 5 k 1 m 5 b 1/64 | node 0 state 0 choice 0 corner 0: weight 12 times 2^5 < 400
NINE-LEAST | 23=row 0 5 1 / 24=to 2 0:20 / 25=- | node 0 state 0 choice 5 corner 0: 20 > 0
NINE-LEAST | 17=row 0 3 1 / 18=to 0 0:20 / 19=- | node 0 state 0 choice 3 corner 0: weight 0 times 2^6 < 20
NINE-LEAST | 46=box 12 16 0 20 | node 0 state 0 choice 9 corner 0: 400 > 0
NINE-LEAST | 36=to 1 2:1 / 37=to 2 0:20 2:-1 | sound holds 1 fails 0 unknown 0

HALVES | | sound holds 0 fails 1 unknown 1
HALVES | 23=unknown | node 0 depth
HALVES | 24=split 0 | node 1 depth
HALVES | 23=split 1 | line 23: Limit
HALVES | 18=property <= 1/2 | node 2 bound: 16 <= 16
'''


# The same of costs.
COST_TABLE = '''
TOSSES | | sound accept 1 unknown 0
TOSSES | 1=plift-cost 2 | line 1: Version
TOSSES | 1=plift-cost 1 1 | line 1: Syntax
TOSSES | 1=plift-costs 1 | line 1: Syntax
TOSSES | 1=plift 1 | line 16: Syntax
TOSSES | 16=- | line 16: Syntax
TOSSES | 16=bound 1/2 | line 16: Syntax
TOSSES | 16=cost 1/1 0/1 | line 16: Syntax
TOSSES | 16=cost 1/1 0/1 0/1 0/1 | line 16: Syntax
TOSSES | 16=cost 1 0/1 0/1 | line 16: Syntax
TOSSES | 16=cost 01/1 0/1 0/1 | line 16: Syntax
TOSSES | 16=cost 1/1/1 0/1 0/1 | line 16: Syntax
TOSSES | 16=cost 2/2 0/1 0/1 | line 16: Syntax
TOSSES | 16=cost 1/1 0/2 0/1 | line 16: Syntax
TOSSES | 16=cost 1/1 0/1 0 | line 16: Syntax
TOSSES | 16=cost -1/1 0/1 0 | line 16: Syntax
TOSSES | 16=cost -1/1 0/1 0/1 | line 16: Limit
TOSSES | 16=cost 1/0 0/1 0/1 | line 16: Limit
TOSSES | 16=cost 1/-1 0/1 0/1 | line 16: Limit
TOSSES | 16=cost 4611686018427387904/1 0/1 0/1 | line 16: Limit
TOSSES | 16=cost 1/4611686018427387904 0/1 0/1 | line 16: Limit
TOSSES | 16=cost 1/4611686018427387903 0/1 0/1 / 23=accept 2 0 0 | sound accept 1 unknown 0
TOSSES | 16=cost 4611686018427387903/1 0/1 0/1 / 23=unknown | sound accept 0 unknown 1
TOSSES | 17=- | line 17: Syntax
TOSSES | 17=cap 0 | line 17: Limit
TOSSES | 17=cap -4 | line 17: Limit
TOSSES | 17=cap 4294967296 | line 17: Limit
TOSSES | 17=cap 04 | line 17: Syntax
TOSSES | 17=cap 4 4 | line 17: Syntax
TOSSES | 17=cap 4/1 | line 17: Syntax
TOSSES | 17=cap 4294967295 / 23=accept 2 0 0 | node 0 budget: 8589934590 > 32
TOSSES | 17=cap 4294967295 / 18=budget 4294967295/1 / 23=accept 2 0 0 | sound accept 1 unknown 0
TOSSES | 17=cap 1 / 18=budget 1/1 | node 0 state 0 choice 0 corner 0: 40 > -80
TOSSES | 18=bound 1/2 | line 18: Syntax
TOSSES | 18=budget 2 | line 18: Syntax
TOSSES | 18=budget <= 2/1 | line 18: Syntax
TOSSES | 18=budget 4/2 | line 18: Syntax
TOSSES | 18=budget 4/1 | sound accept 1 unknown 0
TOSSES | 18=budget 5/1 | line 18: Limit
TOSSES | 18=budget 9/2 | line 18: Limit
TOSSES | 18=budget -1/2 | line 18: Limit
TOSSES | 18=budget 1/0 | line 18: Limit
TOSSES | 18=budget 1/4294967296 | line 18: Limit
TOSSES | 18=budget 17179869179/4294967295 / 23=unknown | sound accept 0 unknown 1
TOSSES | 18=budget 17179869181/4294967295 | line 18: Limit
TOSSES | 18=budget 0/1 | node 0 budget: 32 > 0
TOSSES | 18=budget 1/1 | node 0 budget: 32 > 16
TOSSES | 18=budget 1/1 / 23=unknown | sound accept 0 unknown 1
TOSSES | 23=reject e 1 k 1 m 1 b 8/16 | line 23: Syntax
TOSSES | 23=holds | line 23: Syntax
TOSSES | 23=at 4;accept 8 0 0 | line 23: Syntax
TOSSES | 23=accept 8 0 | line 23: Syntax
TOSSES | 23=accept 17 0 0 | line 23: Limit
TOSSES | 23=accept 8 0 -1 | line 23: Limit
TOSSES | 23=accept 8 16 0 | node 0 state 0 choice 0 corner 0: 56 > 40
TOSSES | 23=accept 10 1 0 | node 0 goal state 1 value 1
TOSSES | 23=accept 7 0 0 | node 0 state 0 choice 0 corner 0: 35 > 30
TOSSES | 23=accept 3 0 0 | node 0 state 0 choice 0 corner 0: 15 > -10
TOSSES | 23=accept 0 0 0 | node 0 state 0 choice 0 corner 0: 0 > -40
TOSSES | 23=accept 8 0 1 | node 0 state 0 choice 0 corner 0: 44 > 40
TOSSES | 23=accept 9 0 0 | node 0 budget: 36 > 32
TOSSES | 23=accept 9 0 1 / 18=budget 9/4 | sound accept 1 unknown 0
TOSSES | 23=accept 16 0 16 / 18=budget 4/1 / 16=cost 1/1 0/1 1/1 | node 0 state 0 choice 0 corner 0: 144 > 120
TOSSES | 23=accept 0 0 16 / 16=cost 0/1 0/1 1/1 | node 0 state 0 choice 0 corner 0: 64 > 0
TOSSES | 23=accept 16 0 16 / 16=cost 0/1 0/1 1/1 / 18=budget 4/1 | node 0 state 2 choice 0 corner 0: 32 > 24
TOSSES | 23=accept 0 0 0 / 16=cost 0/1 5/1 0/1 / 18=budget 0/1 | sound accept 1 unknown 0
TOSSES | 11=to 2 0:1 1:-2 | state 0 choice 0: set 1 sums to -1
TOSSES | 23=accept 8 0 0;unknown | rest
ROUNDED | | sound accept 1 unknown 0
ROUNDED | 23=accept 12 0 0 | node 0 state 0 choice 0 corner 0: 60 > 50
ROUNDED | 23=accept 13 0 0 | node 0 state 0 choice 0 corner 0: 65 > 60
ROUNDED | 23=accept 13 0 0 / 16=cost 3/2 1/1 0/1 | sound accept 1 unknown 0
ROUNDED | 18=budget 10/3 | node 0 budget: 168 > 160
NINE-COSTS | | sound accept 1 unknown 0
NINE-COSTS | 46=accept 3 0 0 | node 0 state 0 choice 0 corner 0: 0 > -200
NINE-COSTS | 46=accept 4 0 1 | node 0 state 0 choice 0 corner 0: 199 > 0
NINE-COSTS | 46=accept 5 0 1 | sound accept 1 unknown 0
WAYS | | sound accept 2 unknown 0
WAYS | 17=cost 1/3 7/2 1/2 | sound accept 2 unknown 0
WAYS | 26=unknown | sound accept 1 unknown 1
WAYS | 24=unknown | node 0 depth
WAYS | 26=split 0 | node 2 depth
WAYS | 25=accept 35 0 23 | node 1 state 2 choice 0 corner 0: 0 > -1
WAYS | 25=accept 35 0 25 | node 1 state 0 choice 0 corner 0: 100 > 96
WAYS | 26=accept 36 0 24 | node 2 budget: 2304 > 2240
WAYS | 26=accept 34 0 24 | node 2 state 0 choice 1 corner 0: 24 > 23
'''


class Answer(NamedTuple):
    """How a check ends: its status, and what it writes to standard output and standard error."""

    status: int
    out: bytes
    notes: bytes


def changed(report: str, changes: str) -> bytes:
    """A report's text with changes, as a row tells them."""
    texts: Dict[str, bytes] = {**REPORTS, **STEPS, **PROPERTIES, **COSTS}
    lines: List[Optional[str]] = [*texts[report].decode().splitlines()]
    for change in filter(None, changes.split(' / ')):
        number, line = change.split('=', 1)
        lines[int(number) - 1] = None if line == '-' else line.replace(';', '\n')
    text = ''.join(line + '\n' for line in lines if line is not None)
    while '{' in text:  # a word of so many letters
        size = text[text.index('{') + 1 : text.index('}')]
        text = text.replace('{' + size + '}', 'a' * int(size))
    return text.encode()


def answer(said: str) -> Answer:
    """How a check ends that says this."""
    if said.startswith('sound '):
        return Answer(0, said.encode() + b'\n', b'')
    return Answer(1, b'', b'not sound: ' + said.encode() + b'\n')


def asked(command: list[str], text: bytes) -> Answer:
    """How a program ends on a text."""
    done = subprocess.run(command, input=text, capture_output=True)
    return Answer(done.returncode, done.stdout, done.stderr)


def rechecked(text: bytes) -> Answer:
    """How recheck.py ends on a text, without starting it."""
    read = recheck.Text(io.BytesIO(text))
    try:
        return answer(recheck.check(read))
    except recheck.Fault as fault:
        return answer(f'{read.place}{fault}')


def with_byte(text: bytes, dice: random.Random) -> bytes:
    """A text in which a byte is changed, added or taken away."""
    at = dice.randrange(len(text)) if text else 0
    new = bytes([dice.choice(b'0123456789 -/:\nax\xff\0')])
    return text[:at] + dice.choice([new, new + text[at : at + 1], b'']) + text[at + 1 :]


def with_line(text: bytes, dice: random.Random) -> bytes:
    """A text in which a line is taken away, written twice, or another one."""
    lines = text.split(b'\n')
    at = dice.randrange(len(lines))
    lines[at : at + 1] = dice.choice([[], [lines[at]] * 2, [dice.choice(lines)], [b'unknown'], [b'split 0']])
    return b'\n'.join(lines)


def with_number(text: bytes, dice: random.Random) -> bytes:
    """A text in which a number is another one."""
    found = list(re.finditer(rb'-?[0-9]+', text))
    start, end = dice.choice(found).span() if found else (0, 0)
    number = int(text[start:end] or 0) + dice.choice([-100, -2, -1, 1, 1, 2, 16])
    return text[:start] + b'%d' % number + text[end:]


def with_leaf(text: bytes, dice: random.Random) -> bytes:
    """A text in which a rejecting leaf has other first numbers, which still fit one another."""
    found = list(re.finditer(rb'reject e ([0-9]+) k ([0-9]+) m [0-9]+ b ([0-9]+)/([0-9]+)\ny ([0-9]+)', text))
    if not found:
        return text
    leaf = dice.choice(found)
    e, k, y = [max(0, int(leaf[i]) + dice.choice([-1, 0, 0, 1])) for i in (1, 2, 3)]
    new = b'reject e %d k %d m %d b %d/%s\ny %d' % (e, k, e * k, y, leaf[4], y)
    return text[: leaf.start()] + new + text[leaf.end() :]


def mutant(text: bytes, dice: random.Random) -> bytes:
    """A text with a few changes."""
    for _ in range(dice.choice([1, 1, 1, 2, 3])):
        change = dice.choice([with_byte, with_line, with_number, with_number, with_number, with_leaf, with_leaf])
        text = change(text, dice)
    return text


class Comparison:
    """Asks recheck.py and a plift, if there is one, and counts the texts and the differences."""

    def __init__(self, plift: Path | None) -> None:
        self.plift = plift
        self.count = self.wrong = 0

    def answers(self, text: bytes, is_started: bool) -> list[Answer]:
        """What is said of a text; recheck.py is started, or called."""
        said = [asked([sys.executable, str(HERE / 'recheck.py')], text) if is_started else rechecked(text)]
        return said + [asked([str(self.plift), 'check'], text)] if self.plift else said

    def compare(self, name: str, text: bytes, want: Answer | None = None, is_started: bool = False) -> bool:
        """Whether all say what is wanted, or the same where nothing is; tells where not."""
        said = self.answers(text, is_started)
        self.count += 1
        is_right = all(got == (want or said[0]) for got in said)
        if not is_right:
            self.wrong += 1
            print(f'{name}: {said}' + (f', and not {want}' if want else ''))
        return is_right


def compare_table(tests: Comparison, table: str) -> None:
    """The rows of a table."""
    for row in filter(None, table.split('\n')):
        report, changes, said = [cell.strip(' ') if i != 1 else cell[1:-1] for i, cell in enumerate(row.split('|'))]
        tests.compare(row[:100], changed(report, changes), answer(said), is_started=not changes)


def compare_alone(table: str, texts: dict[str, bytes]) -> Comparison:
    """The rows of a table of texts that recheck.py alone reads, and the prefixes of these texts."""
    alone = Comparison(None)
    compare_table(alone, table)
    for name, text in texts.items():
        for size in range(len(text)):
            line = text[:size].count(b'\n') + 1
            alone.compare(f'{size} bytes of {name}', text[:size], answer(f'line {line}: Truncated'))
    return alone


def compare_prefixes(tests: Comparison) -> None:
    """Every proper prefix of a report of each version, and a file that is longer than a model may be."""
    for name in ('COIN', 'RANGE'):
        for size in range(len(REPORTS[name])):
            text = REPORTS[name][:size]
            line = text.count(b'\n') + 1
            tests.compare(f'{size} bytes of {name}', text, answer(f'line {line}: Truncated'))
    tests.compare('line feeds', b'\n' * (2**26 + 1), answer('line 1: Syntax'), is_started=True)


def compare_mutants(tests: Comparison, paths: list[str], count: int) -> None:
    """Reports with random changes. A text that isn't judged alike is kept."""
    dice = random.Random(1)
    texts = list(REPORTS.values()) + [Path(path).read_bytes() for path in paths]
    for path in paths:
        tests.compare(path, Path(path).read_bytes())
    for number in range(count):
        text = mutant(dice.choice(texts), dice)
        if not tests.compare(f'change {number}', text):
            with tempfile.NamedTemporaryFile(prefix='recheck-', suffix='.report', delete=False) as kept:
                kept.write(text)
            print(f'kept as {kept.name}')


def quotient_told(path: Path, text: bytes, *label: str) -> Answer:
    """How lumped.py ends on a model and a report."""
    return asked([sys.executable, str(HERE / 'lumped.py'), str(path), *label], text)


def compare_quotients(tests: Comparison) -> None:
    """A report of a quotient with changes: lumped.py sees each."""
    die = HERE.parent / 'examples/die.drn'
    told = b'the quotient of 13 states has 5, for the goal one\n'
    wanted = [(DIE, (), Answer(0, told, b'')), (DIE, ('one',), Answer(0, told, b''))]
    wanted.append((DIE, ('two',), Answer(1, b'', b'not the quotient\ntwo: line 12: to 2 0:1 1:-1, not to 0 1:1\n')))
    for row in filter(None, DIE_CHANGES.split('\n')):
        old, new, said = row.split(' | ')
        text = DIE.replace(old.replace(';', '\n').encode(), new.replace(';', '\n').encode(), 1)
        wanted.append((text, ('one',), Answer(1, b'', b'not the quotient\none: ' + said.encode() + b'\n')))
    for text, label, want in wanted:
        got = quotient_told(die, text, *label)
        tests.count += 1
        if got != want:
            tests.wrong += 1
            print(f'lumped.py: {got}, and not {want}')


def random_chain(dice: random.Random) -> bytes:
    """A chain of a few states, of which many behave alike. Rows are 1-p and p, or halves of these, or sure."""
    count = dice.randrange(3, 12)
    rows = []
    for s in range(count):
        values = dice.choice(
            [
                ['1'],
                ['p', '1-p'],
                ['q', '1-q'],
                ['1/2*p', '1/2*p', '1-p'],
                ['p', '1/2-1/2*p', '1/2-1/2*p'],
                ['1/2', '0', '1/2'],
            ]
        )
        targets = dice.sample(range(count), len(values))
        rows += [f'state {s}' + ' init' * (s == 0) + ' goal' * (s == count - 1 or dice.random() < 0.2)]
        rows += [f'{target} : {text}' for target, text in zip(targets, values)]
    return '\n'.join(['@type: DTMC', '@parameters', 'p q', '@model', *rows, '']).encode()


def compare_chains(tests: Comparison, count: int) -> None:
    """What plift writes of chains is the quotient that lumped.py computes, and a sound report."""
    dice = random.Random(1)
    with tempfile.NamedTemporaryFile(suffix='.drn') as file:
        for number in range(count):
            Path(file.name).write_bytes(random_chain(dice))
            words = [
                'lumped',
                '--goal',
                'goal',
                '--bound',
                '1/2',
                '--precision',
                '6',
                '--depth',
                '1',
                '--region',
                '1/10<=p<=2/5,1/5<=q<=1/2',
            ]
            report = asked([str(tests.plift), *words], Path(file.name).read_bytes())
            got = quotient_told(Path(file.name), report.out, 'goal')
            tests.count += 1
            if report.status or got.status or not rechecked(report.out).out.startswith(b'sound '):
                tests.wrong += 1
                print(f'chain {number}: {report.notes!r}, {got}')


def main() -> int:
    words = argparse.ArgumentParser(description='Tests of recheck.py.')
    words.add_argument('--program', '--bin', metavar='PATH', help='a built plift')
    words.add_argument('--changes', metavar='N', type=int, default=1000, help='how many random changes')
    words.add_argument('reports', metavar='REPORT', nargs='*', help='a report that is changed too')
    given = words.parse_args()
    missing = [path for path in given.reports if not Path(path).is_file()]
    if missing:
        words.error(f'{missing[0]} is no file')
    plift = needed('plift', given.program) if given.program else program('plift', None)
    print(f'asked: recheck.py and {plift}' if plift else 'no plift is built; asked: recheck.py alone')
    tests = Comparison(plift)
    compare_table(tests, TABLE)
    print(f'{tests.count} reports of the table')
    compare_prefixes(tests)
    print(f'{tests.count} with prefixes of a report')
    rows: List[Tuple[str, str, Dict[str, bytes]]] = [
        ('for a number of steps', STEPS_TABLE, STEPS),
        ('of properties', PROPERTY_TABLE, PROPERTIES),
        ('of costs', COST_TABLE, COSTS),
    ]
    for what, table, texts in rows:
        alone = compare_alone(table, texts)
        print(f'{alone.count} {what}, and their prefixes')
        tests.wrong += alone.wrong
    compare_quotients(tests)
    if plift:
        compare_chains(tests, 40)
        print(f'{tests.count} with quotients of chains')
        compare_mutants(tests, given.reports, given.changes)
        print(f'{tests.count} with random changes')
    print(f'{tests.wrong} wrong')
    return int(tests.wrong > 0)


if __name__ == '__main__':
    try:
        sys.exit(main())
    except KeyboardInterrupt:
        sys.exit(130)
