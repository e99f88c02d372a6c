#!/usr/bin/env python3
"""python3 tools/proof/seconds.py CRATE [MOST]: how long each function and each law of a crate takes to check, the longest first.

The crates below have to be proved (rt ci, or rt lib in each). Seconds are by the clock: nothing else should run. Of a function that is all
that the check makes of it, as its code, what is known at each place and the answers (Code, Reads, Proof and others), which grow with the
function's statements and locals. The prover says when it begins and ends a module where ANTT_CACHE_DEBUG is set, which is an aid of the
kit's and no part of its interface.
"""
import collections
import os
import re
import subprocess
import sys
import time

import prover


def modules(crate):
    """The seconds of each module, by its name, and how long the check took before the first."""
    began, since, took, first = time.time(), {}, {}, None
    run = subprocess.Popen([*prover.called('check', crate, f'crates/{crate}'), '--jobs', '1'], cwd=f'crates/{crate}', stdout=subprocess.PIPE,
                           stderr=subprocess.STDOUT, text=True, errors='replace', env=dict(os.environ, ANTT_CACHE_DEBUG='1'))
    for line in run.stdout:
        told = re.match(r'antt: cache: (\S+): (elaborating|artifact encoded)', line)
        if told and told[2] == 'elaborating':
            first = first or time.time() - began
            since[told[1]] = time.time()
        elif told and told[1] in since:
            took[told[1]] = time.time() - since[told[1]]
    if run.wait() != 0:
        sys.exit(f'{crate} is not proved')
    return took, first, time.time() - began


def main(crate, most='20'):
    took, first, whole = modules(crate)
    parts = collections.defaultdict(collections.Counter)
    for module, seconds in took.items():
        path = module.split('.')[1:]
        kind = path[-1] if path and '.'.join([module.rpartition('.')[0], 'Statement']) in took else 'other'
        parts['/'.join(path[:-1] if kind != 'other' else path)][kind] += seconds
    print(f'{whole:.1f} s, of which {first:.1f} before the first module')
    for name, of in sorted(parts.items(), key=lambda part: -sum(part[1].values()))[:int(most)]:
        print(f'{sum(of.values()):6.2f} {name} ({", ".join(f"{kind} {seconds:.2f}" for kind, seconds in of.most_common())})')


if __name__ == '__main__':
    if not 2 <= len(sys.argv) <= 3:
        sys.exit(__doc__)
    main(*sys.argv[1:])
