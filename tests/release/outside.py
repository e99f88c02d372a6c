#!/usr/bin/env python3
"""A release, as a buyer gets it: made into a folder elsewhere, moved, and used from there alone.

tests/release/outside.py LOG     LOG is what rt ci wrote; needs what it and tools/staticlib left, gcc, g++, rustc and pkg-config

- made twice it has the same bytes, and none of them names this repository's place;
- every file has its checksum, and every checksum its file; every link of its documents leads to one of them;
- the version is the same in the header, in the module for Rust, in what pkg-config says, in the changelog and in what was proved;
- a program in C99 and in C++17 builds without a warning by what pkg-config says and links with libc alone, and one in Rust builds, too;
  the example in C, which calls every operation, prints what it prints in the repository;
- its programs do the belt, and each says `no file` where there is none;
- nothing is made where something is not proved, has changed since, is missing, or is of another version.
"""
import glob
import os
import re
import shutil
import subprocess
import sys
import tempfile

TESTS = os.path.dirname(os.path.dirname(os.path.abspath(__file__)))
ROOT = os.path.dirname(TESTS)
sys.path.insert(0, TESTS)
from shared.expected import expect

LIBC = {'memcpy', 'memset', 'memmove', 'memcmp', 'bcmp', 'abort'}
STRICT = ['-Wall', '-Wextra', '-pedantic', '-Werror', '-O2']
LANGUAGES = {'C99': ['gcc', '-std=c99'], 'C++17': ['g++', '-std=c++17', '-x', 'c++']}
LIBRARY, SAID = 'crates/route_rules/out/libroute_rules.a', 'crates/route_rules/out/libroute_rules.said'
PROGRAMS = ['confirm', 'judge', 'pddl', 'search', 'single', 'spell', 'translate', 'week']
ON_BELT = '2 facts, 2 actions, 2 preferences, 18 rows\n'


def said(*words, **more):
    done = subprocess.run(words, capture_output=True, text=True, **more)
    expect(' '.join(words[:3]), (done.returncode, done.stderr), (0, ''))
    return done.stdout


def text(folder, name):
    with open(os.path.join(folder, name)) as file:
        return file.read()


def names_in(folder):
    return sorted(os.path.relpath(os.path.join(place, name), folder) for place, _, names in os.walk(folder) for name in names)


# ---- what is in it

def check_sums(folder):
    listed = [line.split('  ', 1)[1] for line in text(folder, 'SHA256SUMS').splitlines()]
    expect('the files with a checksum', listed, [name for name in names_in(folder) if name != 'SHA256SUMS'])
    said('sha256sum', '--check', '--quiet', '--strict', 'SHA256SUMS', cwd=folder)


def check_places(folder):
    for name in names_in(folder):
        with open(os.path.join(folder, name), 'rb') as file:
            expect(f'{name} names the repository', ROOT.encode() in file.read(), False)


def check_links(folder):
    count = 0
    for name in names_in(folder):
        if name.endswith('.md'):
            for link in re.findall(r'\]\(([^)#]+)[^)]*\)', text(folder, name)):
                path = os.path.join(folder, os.path.dirname(name), link)
                expect(f'{name} leads to {link}', os.path.exists(path), True)
                count += 1
    expect('there are links', count > 0, True)


def check_version(folder, env):
    version = said('pkg-config', '--modversion', 'route_rules', env=env).strip()
    for name, pattern in [('include/route_rules.h', r'ROUTE_RULES_VERSION "(.*)"'), ('include/route_rules.rs', r'VERSION: &str = "(.*)"'),
                          ('doc/CHANGELOG.md', r'^## (\S+)'), ('doc/PROVED.md', r'^Version ([0-9.]+),')]:
        expect(f'the version in {name}', re.findall(pattern, text(folder, name), re.MULTILINE)[:1], [version])
    return version


def check_proved(folder):
    """Every function that the header declares was proved, and every program is listed."""
    proved = text(folder, 'doc/PROVED.md')
    declared = re.findall(r'^uint32_t route_rules_\w+\(', text(folder, 'include/route_rules.h'), re.MULTILINE)
    expect('the functions proved', re.findall(r'has the (\d+) functions', proved), [str(len(declared))])
    rows = dict(re.findall(r'^\| (\w+) \| (\d+) \|', proved, re.MULTILINE))
    expect('programs and crates of their own', {'route_rules', 'plan', 'translation', *PROGRAMS} <= set(rows), True)
    expect('axioms of the library', 'and rests on no axiom.' in proved, True)
    expect('the kit', f'`{said("rt", "version").strip()}`' in proved, True)


# ---- used from outside

def build(folder, place, version, env):
    # Without the compiler's own libraries, and libc asked for: whatever else is needed is missing then.
    flags = said('pkg-config', '--cflags', '--libs', 'route_rules', env=env).split() + ['-nodefaultlibs', '-lc']
    for name, words in LANGUAGES.items():
        program = os.path.join(place, name)
        said(*words, *STRICT, '-o', program, 'outside.c', *(['-x', 'none'] if '-x' in words else []), *flags, cwd=place)
        expect(name, said(program, cwd=place), f'{version}: {ON_BELT}')
    said(*LANGUAGES['C99'], *STRICT, '-o', 'example', 'belt.c', *flags, cwd=place)
    expect('the example', said(os.path.join(place, 'example'), 'task', 'plan', cwd=place), text(ROOT, 'examples/belt/answers'))
    said('rustc', '--edition', '2021', '-D', 'warnings', '-O', '-o', 'in_rust', 'outside.rs', '-L', os.path.join(folder, 'lib'),
         '-l', 'static=route_rules', cwd=place)
    expect('Rust', said(os.path.join(place, 'in_rust'), cwd=place), f'{version}: {ON_BELT}')
    asked = {line.split()[-1] for line in said('nm', '-u', os.path.join(folder, 'lib/libroute_rules.a')).splitlines() if ' U ' in line}
    expect('functions that the library asks for beyond libc', asked - LIBC, set())


def run_programs(folder, place):
    expect('the programs', sorted(os.listdir(os.path.join(folder, 'bin'))), PROGRAMS)
    empty = os.path.join(place, 'empty')
    os.mkdir(empty)
    for name in PROGRAMS:
        expect(name, said(os.path.join(folder, 'bin', name), cwd=empty), 'no file\n')
    for name in ('translate', 'search'):
        expect(name, said(os.path.join(folder, 'bin', name), cwd=place), '')
    expect('the belt', said(os.path.join(folder, 'bin/confirm'), cwd=place).splitlines()[-2:], ['metric 8 utility 4', 'paid 8'])


# ---- what is not released

STAND_IN = '''#!/bin/sh
[ "$1" = version ] && exec echo '{kit}'
[ "$1" = ci ] && [ ! -e refused ] && exec cat log
'''


def tree(place, kit, log):
    """What tools/release reads, in a folder of its own, with a stand-in for rt that says yes until it finds a file `refused`."""
    root = os.path.join(place, 'tree')
    out = [f'crates/{name}/out/{name}' for name in PROGRAMS] + [LIBRARY]
    for name in ('crates.txt', 'tools/release', 'tools/passed', 'include', 'docs', *out, *(f'{os.path.splitext(name)[0]}.said' for name in out),
                 *(os.path.relpath(path, ROOT) for path in glob.glob(f'{ROOT}/crates/*/src'))):
        to = os.path.join(root, name)
        os.makedirs(os.path.dirname(to), exist_ok=True)
        (shutil.copytree if os.path.isdir(os.path.join(ROOT, name)) else shutil.copy2)(os.path.join(ROOT, name), to)
    shutil.copy2(log, os.path.join(root, 'log'))
    os.mkdir(os.path.join(place, 'stand_in'))
    for path, text in [(os.path.join(place, 'stand_in/rt'), STAND_IN.format(kit=kit)), (os.path.join(root, 'tools/staticlib'), '#!/bin/sh\n')]:
        with open(path, 'w') as file:
            file.write(text)
        os.chmod(path, 0o755)
    return root, dict(os.environ, PATH=os.path.join(place, 'stand_in') + ':' + os.environ['PATH'])


def replaced(old, new):
    def change(path):
        with open(path) as file:
            before = file.read()
        expect(f'{old} stands in {path}', before.count(old) >= 1, True)
        with open(path, 'w') as file:
            file.write(before.replace(old, new, 1))
    return change


def refuse(path):
    with open(path, 'w'):
        pass


# What is changed in the tree, and what is said then.
FAILURES = [
    ('log', replaced(' passed, 0 failed', ' passed, 1 failed'), 'tools/passed'),
    ('log', replaced('; must-fail edits: ', '; must-fail edits: 1 refused, 1 bad; '), 'bad: 1'),
    ('crates/plan/src/lib.rt', os.utime, 'crates/plan/src/lib.rt: changed since'),
    ('crates/week/out/week', os.remove, 'crates/week/out/week: No such file'),
    (LIBRARY, os.remove, 'tools/staticlib makes it'),
    (LIBRARY, lambda path: os.utime(path, (0, 0)), 'tools/staticlib makes it'),
    (SAID, os.remove, f'{SAID}: No such file'),
    (SAID, replaced('logic=proved', 'logic=refused'), f'{SAID}: not proved'),
    (SAID, replaced(' native=', 'f native='), 'proved by another kit'),
    ('crates/week/out/week.said', replaced('logic=proved', 'logic=refused'), 'crates/week/out/week.said: not proved'),
    ('include/route_rules.rs', replaced('VERSION: &str = "', 'VERSION: &str = "9'), 'include/route_rules.rs: version'),
    ('include/route_rules.h', replaced('VERSION "', 'VERSION "9'), 'and the header has'),
    ('docs/CHANGELOG.md', replaced('\n## ', '\n## 9'), 'docs/CHANGELOG.md: version'),
    ('docs/SPECIFICATION.md', os.remove, 'docs/SPECIFICATION.md: No such file'),
]


def check_failures(place, sums, log):
    root, env = tree(place, said('rt', 'version').strip(), log)
    release, folder, log = os.path.join(root, 'tools/release'), os.path.join(place, 'never'), os.path.join(root, 'log')
    for words in ([release, folder], [release, folder, log]):
        said(*words, env=env)
        expect('a release by the stand-in', text(folder, 'SHA256SUMS'), sums)
        again = subprocess.run(words, env=env, capture_output=True, text=True)
        expect('a release over another', (again.returncode, 'is there already' in again.stderr), (1, True))
        shutil.rmtree(folder)

    def fail(what, words, message):
        done = subprocess.run(words, env=env, capture_output=True, text=True)
        expect(f'{what}: the release', (done.returncode, os.path.exists(folder), message in done.stderr), (1, False, True))

    refused = os.path.join(root, 'refused')
    refuse(refused)
    fail('refused', [release, folder], 'rt ci: not proved')
    os.remove(refused)
    for name, change, message in FAILURES:
        path = os.path.join(root, name)
        kept = os.path.join(place, 'kept')
        shutil.copy2(path, kept)
        change(path)
        fail(name, [release, folder, log], message)
        shutil.move(kept, path)
    said(release, folder, log, env=env)
    return len(FAILURES) + 2


def main(log):
    with tempfile.TemporaryDirectory() as place:
        first, folder = os.path.join(place, 'first'), os.path.join(place, 'route_rules')
        for made in (first, folder + '_unmoved'):
            said(os.path.join(ROOT, 'tools/release'), made, log)
        sums = text(first, 'SHA256SUMS')
        expect('the checksums of a second release', text(folder + '_unmoved', 'SHA256SUMS'), sums)
        os.rename(folder + '_unmoved', folder)
        shutil.rmtree(first)
        for name in ('tests/release/outside.c', 'tests/release/outside.rs', 'examples/c/belt.c', 'examples/belt/task', 'examples/belt/plan'):
            shutil.copy(os.path.join(ROOT, name), place)
        env = dict(os.environ, PKG_CONFIG_PATH=os.path.join(folder, 'lib/pkgconfig'))
        check_sums(folder)
        check_places(folder)
        check_links(folder)
        check_proved(folder)
        version = check_version(folder, env)
        build(folder, place, version, env)
        run_programs(folder, place)
        failures = check_failures(place, sums, log)
        count = len(names_in(folder))
    print(f'a release of version {version}, {count} files, used from outside: as it should be; {failures} that are not made')


if __name__ == '__main__':
    if len(sys.argv) != 2:
        sys.exit(__doc__)
    main(sys.argv[1])
