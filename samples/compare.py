"""Compares what the programs print with the sample folders and the example lines of docs/DECISIONS.md. See compare.sh."""
import os
import re
import subprocess
import sys
import tempfile

root, programs = sys.argv[1:3]
SHORT = {
    'PS': '01 00 00 00 01 00 00 00 01 00 00 00 00 00 00 00 07 00 00 00',
    'KS': '01 00 00 00 00 00 00 00 01 00 00 00 09 00 00 00 00 00 00 00 02',
    '-': '',
}
FILES = ('policy.bin', 'routine.bin', 'start.bin')
NAMES = {'pcc_check': ('verdict', 'place', 'goals'), 'pcc_run': ('run', 'place', 'steps')}


def built(program):
    return os.path.join(programs or os.path.join(root, 'crates', program, 'out'), program)


def printed(program, folder):
    done = subprocess.run([built(program)], cwd=folder, capture_output=True, text=True, check=False)
    return done.stdout.strip()


def line(program, numbers):
    return ' '.join(f'{name}={number}' for name, number in zip(NAMES[program], numbers))


def cases():
    """(label, program, folder's contents or path, the line expected)"""
    samples = os.path.join(root, 'samples')
    for name in sorted(os.listdir(samples)):
        expected = os.path.join(samples, name, 'expected')
        if os.path.exists(expected):
            with open(expected) as lines:
                check, run = lines.read().splitlines()
            yield name, 'pcc_check', os.path.join(samples, name), check
            yield name, 'pcc_run', os.path.join(samples, name), run
    with open(os.path.join(root, 'docs', 'DECISIONS.md'), encoding='utf-8') as text:
        for number, entry in enumerate(text, 1):
            found = re.match(r'^ +(check|run) (.*?) -> (\d+) (\d+) (\d+)', entry)
            if found:
                parts = [bytes.fromhex(SHORT.get(part.strip(), part)) for part in found[2].split('|')]
                program = 'pcc_' + found[1]
                yield f'DECISIONS.md:{number}', program, parts, line(program, found.groups()[2:])


for program in NAMES:
    if not os.path.exists(built(program)):
        sys.exit(f'{built(program)} is not there: `rt run` in crates/{program} builds it')
compared = different = 0
for label, program, contents, expected in cases():
    if isinstance(contents, str):
        got = printed(program, contents)
    else:
        with tempfile.TemporaryDirectory() as folder:
            for name, data in zip(FILES, contents):
                with open(os.path.join(folder, name), 'wb') as out:
                    out.write(data)
            got = printed(program, folder)
    compared += 1
    if got != expected:
        different += 1
        print(f'{label}: {program} printed {got!r}, not {expected!r}')
print(f'{compared} compared, {different} different')
sys.exit(1 if different else 0)
