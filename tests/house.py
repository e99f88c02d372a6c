#!/usr/bin/env python3
"""tools/house.py on small trees: it is silent on one that keeps every rule, and names each rule that another breaks."""
import os
import subprocess
import tempfile

HOUSE = os.path.join(os.path.dirname(os.path.abspath(__file__)), '..', 'tools', 'house.py')

KEPT = {
    'README.md': 'The law `doubled`.\n',
    'docs/THEORY.md': '',
    'crates/small/src/lib.rt': '''// A number with its limit.
#![tactic(auto)]

ghost use Rattle.std.specs.Prelude.{◌≤◌};
ghost use Rattle.small.specs.Limits.{MAX_NODES};

pub const MAX_NODES: usize = 1024;

fn zero() -> usize {
    0
}

#[tactic(auto, using(crate::proofs::Handed::handed_over))]
pub fn least(a: usize, b: usize) -> usize
    ensures small { result ≤ MAX_NODES }
{
    while a < b {
        return a;
    }
    refuse(refused::LIMIT)
}
''',
    'crates/small/specs/Limits.antt': '''use Rattle.std.specs.Prelude.{ℕ}

abbrev pub MAX_NODES : ℕ
MAX_NODES = 1024

pub record Near (a b c d e f : ℕ) : Type 0 where
  pub near : ℕ
''',
    'crates/small/proofs/Laws.antt': '''use Rattle.small.specs.Limits.{Near}

helped : Near
helped = refl

pub doubled : Near
doubled = helped
''',
    'crates/small/proofs/Handed.antt': '''use Rattle.small.specs.Limits.{Near}

pub handed_over : Near
handed_over = refl
''',
    'crates/small/proofs/least/Invariants.antt': '''-- The lesser of two, by its tests.
use Rattle.small.proofs.least.Given as goal

abbrev pub invariant-loop : goal.invariant-loop
invariant-loop l = l.a ≤ l.b
''',
    'crates/small/proofs/least/Answers.antt': '''use Rattle.small.proofs.least.Goals as goal

pub returns : goal.returns
returns c = let s = c.before.before.before.before.before.before in s
''',
    'crates/small/proofs/most/Answers.antt': '''-- The greater of two.
use Rattle.small.proofs.most.Goals as goal

pub returns : goal.returns
returns c = c.if1.true
''',
    'crates/small/proofs/walked/Proof.antt': '''-- A walk by hand.
returns c = let s = c.before.before.before.before.before.before in s
fitted : tie.Need-fitted
fitted c = search rules
walked_spec = tie.close (tie.spec returns fitted)
''',
    # What rt makes is none of the house's.
    'crates/small/out/rlib/small.rlib/lang/antt/proofs/Laws.antt': '''use Rattle.std.specs.Prelude.{◌+◌}

left_over : Near
left_over = refl
''',
    'crates/small/must-fail/shorter.edit': 'old: fitted\n',
}

# What is put in the place of a text, and what is then said.
BROKEN = [
    ('src/lib.rt', 'a: usize, b: usize', ', '.join(f'{name}: usize' for name in 'abcdefghi'), 'least has 9 parameters'),
    ('src/lib.rt', '        return a;\n', '        return a;\n' * 40, 'least has 43 lines'),
    ('src/lib.rt', '    refuse(', '    while b < a {\n    }\n    refuse(', 'least has two loops'),
    ('src/lib.rt', 'result ≤ MAX_NODES', 'result ≤ MAX_NODES' + ' × (result ≤ MAX_NODES)' * 7, 'least has a contract line of'),
    ('src/lib.rt', 'result ≤ MAX_NODES', 'result ≤ 1024', 'lib.rt:15: the limit 1024'),
    ('src/lib.rt', 'refuse(refused::LIMIT)', 'refuse(16)', 'the number of a refusal'),
    ('src/lib.rt', '    refuse(refused::LIMIT)\n}\n', '    refuse(refused::LIMIT)\n}\n' + ''.join(
        f'\nfn {name}(a: usize)\n    requires {{ (1 ≤ a) × (a ≤ MAX_NODES) }}\n{{\n}}\n' for name in ('one', 'other')),
     'other asks (1 ≤ a) × (a ≤ MAX_NODES), as one does'),
    ('src/lib.rt', '    refuse(refused::LIMIT)\n}\n', '    refuse(refused::LIMIT)\n}\n' + ''.join(
        f'\nfn {name}(a: usize) -> usize\n    requires low {{ 1 ≤ a }}\n    requires high {{ a ≤ MAX_NODES }}\n{{\n    a\n}}\n' for name in ('one', 'other')),
     'other asks 1 ≤ a × a ≤ MAX_NODES, as one does'),
    ('specs/Limits.antt', '(a b c d e f : ℕ)', '(a b c d e f g : ℕ)', 'Near has 7 arguments'),
    ('proofs/least/Invariants.antt', '-- The lesser of two, by its tests.\n', '', 'Invariants.antt:1: no line that says what is proved'),
    ('proofs/most/Answers.antt', '-- The greater of two.\n', '', 'Answers.antt:1: no line that says what is proved'),
    ('proofs/walked/Proof.antt', '-- A walk by hand.\n', '', 'Proof.antt:1: no line that says what is proved'),
    *(('proofs/' + path, 'let s = c.before.before.before.before.before.before in', 'law (c.before.before.before.before.before.before)',
       'a place far back without a name') for path in ('least/Answers.antt', 'walked/Proof.antt')),
    ('proofs/most/Answers.antt', 'returns c = c.if1.true', 'returns c = search rules', 'returns only searches, as the check does by itself'),
    ('must-fail/shorter.edit', 'old: fitted\n', '', 'fitted only searches'),
    ('proofs/Laws.antt', 'doubled = helped', 'doubled = refl', 'helped is reached by nothing'),
    ('src/lib.rt', '(auto, using(crate::proofs::Handed::handed_over))', '(auto)', 'handed_over is reached by nothing'),
    ('specs/Limits.antt', 'Prelude.{ℕ}', 'Prelude.{ℕ, ◌+◌}', '◌+◌ is not used'),
    ('src/lib.rt', 'Prelude.{◌≤◌}', 'Prelude.{◌≤◌, length}', 'length is not used'),
]


def said(tree):
    with tempfile.TemporaryDirectory() as folder:
        for path, text in tree.items():
            os.makedirs(os.path.dirname(os.path.join(folder, path)), exist_ok=True)
            with open(os.path.join(folder, path), 'w') as file:
                file.write(text)
        run = subprocess.run([HOUSE, folder], capture_output=True, text=True)
        assert run.stderr == '', run.stderr
        return run.returncode, run.stdout.strip().splitlines()


def main():
    assert said(KEPT) == (0, []), said(KEPT)
    for path, old, new, wanted in BROKEN:
        path = f'crates/small/{path}'
        assert old in KEPT[path], old
        status, lines = said({**KEPT, path: KEPT[path].replace(old, new)})
        assert status == 1 and any(wanted in line for line in lines), (wanted, lines)
    print(f'house: {len(BROKEN)} rules broken, each named')


main()
