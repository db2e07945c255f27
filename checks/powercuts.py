"""Has the program recover the folders that a power cut may leave of traced runs.

powercuts.py PROGRAM whole|killed|unsynced|unsettled SEED, in an empty folder. Of each folder
`replay` must tell whole lines only, the first ones of each writer, with all that had been synced or
told as applied. Behind an `apply` that takes nothing it must tell the same.

whole     runs that end by themselves
killed    runs that are killed at a call, each with the run behind it
unsynced  a control: each sync in turn is taken out of a trace, and some folder must then be wrong
unsettled a control: the run behind a killed one loses its syncs before its first change
"""
import itertools
import json
import os
import random
import shutil
import subprocess
import sys
from concurrent.futures import ThreadPoolExecutor
from cut_folders import Folder, apply_call, copy_of, events_of, images_of, same_as_real

CALLS = 'openat,write,fsync,rename,unlink,mkdir'
TABLES = 2


def line_of(key):
    """The line of a key: a cell in each table, and of some length."""
    cells = [{'table': t, 'column': 'c', 'ts': 1, 'value': key * 60} for t in range(TABLES)]
    return json.dumps({'key': key, 'updates': cells}).encode() + b'\n'


def keys_of(letter, count):
    return [f'{letter}{number:03}' for number in range(count)]


class Judge:
    """Recovers folders, each once, and says what is wrong with what comes of them."""

    def __init__(self, program):
        self.program, self.told = program, {}

    def run(self, folder, *words):
        done = subprocess.run([self.program, *words], cwd=folder, stdin=subprocess.DEVNULL,
                              stdout=subprocess.PIPE, stderr=subprocess.STDOUT, close_fds=False)
        return done.returncode, done.stdout

    def recover(self, image):
        """What `replay` tells of the folder; and whether it does so behind a recovery."""
        folder = f'cut-{abs(hash(image))}'
        os.makedirs(folder + ('/commitlog' if image is not None else ''))
        for name, data in image or ():
            with open(f'{folder}/commitlog/{name}', 'wb') as file:
                file.write(data)
        status, first = self.run(folder, 'replay')
        applied = self.run(folder, 'apply')
        again = self.run(folder, 'replay')
        shutil.rmtree(folder)
        cells = [line for line in first.splitlines() if line.startswith(b'{')]
        said = [line for line in again[1].splitlines() if line.startswith(b'{')]
        wrong = []
        if status != 0:
            wrong.append(f'replay ends with {status}: {first[:60]}')
        if applied != (0, b'applied 0\n'):
            wrong.append(f'apply ends with {applied}')
        if again[0] != 0 or said != cells:
            wrong.append('recovered, another report')
        return cells, wrong

    def judge(self, image, firsts, lasting):
        """What is wrong, by the keys of each writer, and by what lasts."""
        cells, wrong = self.told[image]
        wrong = list(wrong)
        keys = {}
        for cell in map(json.loads, cells):
            if cell['value'] != cell['key'] * 60 or cell['column'] != 'c':
                wrong.append(f'cell {cell}')
            keys.setdefault(cell['key'], set()).add(cell['table'])
        half = [key for key, tables in keys.items() if len(tables) < TABLES]
        lost = lasting.lost_of(image, set(keys))
        wrong += [f'half {half}'] * bool(half) + [f'lost {lost}'] * bool(lost)
        known = set()
        for first in firsts:
            known.update(first)
            there = [key for key in first if key in keys]
            if there != first[:len(there)]:
                wrong.append(f'not the first ones {there}')
        if set(keys) - known:
            wrong.append(f'no line {sorted(set(keys) - known)}')
        return wrong


class Check:
    """Runs that are traced, the folders of their moments, and what was wrong."""

    def __init__(self, program, seed):
        self.program, self.seed = program, seed
        self.judge = Judge(program)
        self.moments, self.wrong = 0, []

    def traced(self, words, keys, *inject):
        """A run with these lines, traced, over the folder that is there."""
        strace = ['strace', '-f', '-y', '-xx', '-s', '200000', '-o', 'trace', '-e',
                  f'trace={CALLS}', *inject]
        subprocess.run([*strace, self.program, *words.split()], stdout=open('said', 'wb'),
                       input=b''.join(map(line_of, keys)), stderr=subprocess.DEVNULL)
        return list(events_of('trace'))

    def play(self, folder, events, told, left_out=(), from_end=False, archive=False):
        """Goes through a trace. Yields each moment's folders, with what lasts then. `told` are the
        keys of the run. The syncs of some numbers may be left out of what the folders come from.
        """
        chance = random.Random(self.seed)
        without = copy_of(folder) if left_out else folder
        old, synced = set(folder.names), -1
        for number, (call, strings, line) in enumerate([(None, (b'',), ''), *events]):
            done = apply_call(folder, call, strings, line)
            if done == 'told':
                folder.lines.update(told)
            synced += done == 'fsync'
            if left_out and not (done == 'fsync' and synced in left_out):
                apply_call(without, call, strings, line)
            folder.note_lasting(set(folder.names) - old if archive else ())
            if (done or not number) and (not from_end or number == len(events)):
                images = [image for _ in range(3) for image in images_of(chance, without)]
                yield images, folder.lasts()

    def look(self, moments, firsts, most, what):
        """Has the folders of these moments recovered, at most so many of them, and judged by all
        that must be there at one of their moments. Answers how many are wrong."""
        asked = {}
        for images, lasting in moments:
            self.moments += 1
            # What lasts only grows, so a folder's last moment asks most of it.
            asked.update(dict.fromkeys(images, lasting))
        images = list(asked)
        images = random.Random(self.seed).sample(images, min(most, len(images)))
        new = [image for image in images if image not in self.judge.told]
        with ThreadPoolExecutor(4) as pool:
            self.judge.told.update(zip(new, pool.map(self.judge.recover, new)))
        found = 0
        for image in images:
            wrong = self.judge.judge(image, firsts, asked[image])
            found += bool(wrong)
            if wrong:
                names = [f'{name}:{len(data)}' for name, data in image or ()]
                self.wrong.append(f'{what}: {"; ".join(wrong)[:300]} in {names}')
        return found

    def start(self, is_empty=False):
        """A folder of before, which lasts: a segment with lines, and table files of others; and
        the keys of each of its runs."""
        shutil.rmtree('commitlog', ignore_errors=True)
        folder, firsts = Folder(), []
        for letter, words in () if is_empty else (('a', 'apply --drain'), ('b', 'apply')):
            firsts.append(keys_of(letter, 5))
            for event in self.traced(words, firsts[-1]):
                apply_call(folder, *event)
            folder.lines.update(firsts[-1])
            same_as_real(folder)
        return folder, firsts


FULL = 'apply --segment-kib 4 --flush-at 6 --archive --drain'
BATCH = 'apply --sync batch --flush-at 6'
WHOLE = (FULL, BATCH, 'apply --segment-kib 4', 'apply --sync batch --segment-kib 4 --drain',
         'apply --segment-kib 4 --writers 3 --flush-at 4', 'apply --sync batch --writers 3')


def whole(check):
    for words, is_empty in itertools.product(WHOLE, (False, True)):
        folder, firsts = check.start(is_empty)
        keys = keys_of('c', 12)
        writers = 3 if 'writers' in words else 1
        firsts += [keys[writer::writers] for writer in range(writers)]
        events = check.traced(words, keys)
        moments = check.play(folder, events, keys, archive='archive' in words)
        check.look(moments, firsts, 400, words)
        same_as_real(folder)


def killed_run(check, words, call, number):
    """A run that is killed at a call by its number, over a folder of before; none if it was not."""
    folder, firsts = check.start()
    firsts.append(keys_of('c', 8))
    events = check.traced(words, firsts[-1], '-e', f'inject={call}:signal=KILL:when={number}')
    if 'killed by SIGKILL' not in open('trace').read():
        return None
    return folder, firsts, events


def killed(check, runs, is_unsettled=False):
    """Runs that are killed at each call of these kinds, and the run behind each."""
    kills = 0
    for words, call in runs:
        number = 0
        while left := killed_run(check, words, call, number := number + 1):
            folder, firsts, events = left
            what = f'{words}, killed at {call} {number}'
            if not any(b'commitlog' in b''.join(strings) for _, strings, _ in events):
                continue
            check.look(check.play(folder, events, firsts[-1], from_end=True), firsts, 8, what)
            same_as_real(folder)
            firsts.append(keys_of('d', 2))
            events = check.traced('apply', firsts[-1])
            left_out = settling(events) if is_unsettled else ()
            check.look(check.play(folder, events, firsts[-1], left_out), firsts, 32, what)
            same_as_real(folder)
            kills += 1
    return kills


def settling(events):
    """The numbers of a run's syncs before its first change of the folder."""
    count = 0
    for call, strings, line in events:
        if call == 'rename' or call == 'openat' and 'O_CREAT' in line:
            break
        count += call == 'fsync'
    return range(count)


def needed(folder, events):
    """The numbers of the syncs that a power cut would show the want of: those of a file's bytes, of
    a new segment's name or the folder's, and those of names before a segment goes."""
    number, numbers, last = -1, set(), None
    for call, strings, line in events:
        before = copy_of(folder)
        done = apply_call(folder, call, strings, line)
        number += done == 'fsync'
        if done == 'unlink' and b'CommitLog-' in strings[0]:
            numbers.add(last)
        if done == 'fsync' and (before.synced != folder.synced or
                                before.made_lasts != folder.made_lasts or
                                any('CommitLog-' in change[-1][0] and change[-1][1] is not None
                                    for change in before.changes if not folder.changes)):
            numbers.add(number)
        last = number if done == 'fsync' and before.changes else last
    return numbers


def unsynced(check):
    """Each sync of two runs is taken out in turn: how many are needed, and which of these are not
    missed."""
    count, unseen = 0, []
    for is_empty in (False, True):
        folder, firsts = check.start(is_empty)
        firsts.append(keys_of('c', 12))
        events = check.traced(FULL, firsts[-1])
        for number in sorted(needed(copy_of(folder), events)):
            count += 1
            for most in (40, 400):
                moments = check.play(copy_of(folder), events, firsts[-1], (number,), archive=True)
                if check.look(moments, firsts, most, f'without sync {number}'):
                    break
            else:
                unseen.append(number)
    return count, unseen


def main():
    program, mode, seed = os.path.abspath(sys.argv[1]), sys.argv[2], int(sys.argv[3])
    check = Check(program, seed)
    more, calls = '', ('openat', 'write', 'fsync', 'rename', 'unlink')
    if mode == 'whole':
        whole(check)
    elif mode == 'unsynced':
        count, unseen = unsynced(check)
        more = f', {count} syncs taken out, unseen {unseen}'
    elif mode == 'killed':
        more = f', {killed(check, itertools.product((FULL, BATCH), calls))} runs killed'
    else:
        more = f', {killed(check, ((FULL, "fsync"), (BATCH, "rename")), True)} runs killed'
    for text in check.wrong[:3]:
        print(text)
    print(f'seed {seed}: {len(check.judge.told)} folders of {check.moments} moments{more}, '
          f'{len(check.wrong)} wrong')
    sys.exit(1 if check.wrong else 0)


main()
