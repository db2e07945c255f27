"""What a traced run did to its folder, and what a power cut may leave of it at each moment.

A trace tells what was written, named and synced, in order. Of what was not synced a cut may leave
- of a file's bytes a first part, zeros in their place, or zeros in the middle;
- each change of a name (made, renamed, removed), or not, whatever becomes of the others.
"""
import itertools
import os
import re

KEY = re.compile(rb'[a-z][0-9]{3}')


class Folder:
    """What is in the folder, and what of it lasts: files by number, and names of them."""

    def __init__(self):
        self.made = self.made_lasts = False
        self.bytes, self.synced = {}, {}
        self.names, self.lasting, self.changes = {}, {}, []
        self.lines, self.archived = set(), {}

    def change(self, name, file):
        """A name comes to stand for a file, or for none. `changes` has those that do not last."""
        if file is None:
            self.names.pop(name, None)
        else:
            self.names[name] = file
        return (name, file)

    def make(self, name):
        file = len(self.bytes)
        self.bytes[file] = self.synced[file] = b''
        self.changes.append([self.change(name, file)])

    def rename(self, old, new):
        file = self.names[old]
        self.changes.append([self.change(old, None), self.change(new, file)])

    def sync_names(self):
        self.changes = []
        self.lasting = dict(self.names)

    def note_lasting(self, made):
        """What lasts from here on: lines whose entries are synced, in segments whose names are.
        Of the segments `made` by a run with an archive the bytes last too, here or archived."""
        for name, file in self.lasting.items():
            if self.made_lasts and name.startswith('CommitLog-'):
                self.lines.update(ended_keys(self.synced[file]))
                if name in made:
                    self.archived[name] = self.synced[file]

    def lasts(self):
        return Lasting(frozenset(self.lines), tuple(self.archived.items()))


def ended_keys(data):
    """The keys whose entries are there to their ends. An entry's size stands 10 bytes before."""
    for found in KEY.finditer(data):
        at = found.start() - 10
        if data[at + 8:at + 10] == b'\0\4':
            if at + int.from_bytes(data[at:at + 4], 'big') + 12 <= len(data):
                yield found.group().decode()


class Lasting:
    """What must be there: keys, and bytes of segments, at their names or their archive names."""

    def __init__(self, keys=frozenset(), archived=()):
        self.keys, self.archived = keys, archived

    def lost_of(self, image, keys):
        files = dict(image or ())
        return sorted(self.keys - keys) + [
            name for name, data in self.archived
            if not any(files.get(prefix + name, b'').startswith(data)
                       for prefix in ('', 'Archive-'))]


def text_of(quoted):
    return bytes.fromhex(quoted.replace('\\x', ''))


def events_of(trace):
    """The calls that were done, in the order in which they ended: name, strings, line."""
    begun = {}
    for line in open(trace):
        thread, _, line = line.partition(' ')
        line = line.strip()
        if line.endswith('<unfinished ...>'):
            begun[thread] = line[:-len('<unfinished ...>')]
        elif line.startswith('<... '):
            line = begun.pop(thread) + line.partition('resumed>')[2]
        if re.search(r'\) += \d+(<.*>)?( \(INJECTED\))?$', line):
            strings = [text_of(part) for part in re.findall(r'[<"]((?:\\x..)*)[>"]', line)]
            yield line.partition('(')[0], strings, line


def apply_call(folder, call, strings, line):
    """What a call does to the folder. Answers what it changed: names, bytes, syncs, or a report."""
    path = [os.path.basename(text.decode(errors='replace')) for text in strings[:2]]
    in_folder = b'commitlog/' in strings[0] or b'commitlog/' in b''.join(strings[1:2])
    if call == 'mkdir':
        folder.made = True
    elif call == 'openat' and 'O_CREAT' in line and in_folder and path[1] not in folder.names:
        folder.make(path[1])
    elif call == 'write' and path[0] in folder.names and in_folder:
        folder.bytes[folder.names[path[0]]] += strings[1]
    elif call == 'write' and strings[1].startswith(b'applied'):
        return 'told'
    elif call == 'fsync' and path[0] in folder.names:
        file = folder.names[path[0]]
        folder.synced[file] = folder.bytes[file]
    elif call == 'fsync' and path[0] == 'commitlog':
        folder.sync_names()
    elif call == 'fsync':
        folder.made_lasts = folder.made
    elif call == 'rename':
        folder.rename(*path)
    elif call == 'unlink':
        folder.changes.append([folder.change(path[0], None)])
    else:
        return None
    return call


def parts_of(chance, synced, all_bytes):
    """What a cut may leave of a file's bytes."""
    rest = all_bytes[len(synced):]
    if not rest:
        return [synced]
    cut, zeroed = (chance.randrange(len(rest)) for _ in range(2))
    until = chance.randrange(zeroed, len(rest)) + 1
    return [synced, all_bytes, synced + rest[:cut], synced + bytes(len(rest)),
            synced + rest[:cut] + bytes(len(rest) - cut),
            synced + rest[:zeroed] + bytes(until - zeroed) + rest[until:]]


def images_of(chance, folder):
    """What a cut may leave of the folder: None where it is absent, or names with bytes."""
    if not folder.made_lasts:
        yield None
    if not folder.made:
        return
    subsets = list(itertools.product((False, True), repeat=len(folder.changes)))
    for subset in chance.sample(subsets, min(len(subsets), 16)):
        names = dict(folder.lasting)
        for change in itertools.chain(*itertools.compress(folder.changes, subset)):
            names[change[0]] = change[1]
        files = sorted({file for file in names.values() if file is not None})
        parts = [parts_of(chance, folder.synced[file], folder.bytes[file]) for file in files]
        for number in range(max(map(len, parts), default=1)):
            of_file = {file: part[number] if number < 2 and number < len(part)
                       else chance.choice(part) for file, part in zip(files, parts)}
            yield tuple(sorted((name, of_file[file]) for name, file in names.items()
                               if file is not None))


def copy_of(folder):
    twin = Folder()
    twin.__dict__.update({name: value.copy() if hasattr(value, 'copy') else value
                          for name, value in folder.__dict__.items()})
    return twin


def same_as_real(folder):
    """The trace tells the folder that is there, to the byte: nothing that counts was overlooked."""
    real = {name: open(f'commitlog/{name}', 'rb').read() for name in os.listdir('commitlog')}
    told = {name: folder.bytes[file] for name, file in folder.names.items()}
    if real != told:
        sys.exit(f'the trace does not tell the folder: {sorted(real)} and {sorted(told)}')
