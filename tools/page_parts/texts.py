"""Writes the texts of a page that come from the repository. examples.json has examples, races and C programs.
build.json has the commit, the toolchain, the faults of a trace, and the reasons why jobk rejects a text.

    texts.py FOLDER TOOLCHAIN CRATE      the crate `page` is proved, any other is not
"""
import datetime
import glob
import json
import os
import re
import subprocess
import sys

TOP = os.path.dirname(os.path.dirname(os.path.dirname(os.path.abspath(__file__))))


def read(*path):
    with open(os.path.join(TOP, *path)) as file:
        return file.read()


def without_links(text):
    return re.sub(r'\[([^]]*)\]\([^)]*\)', r'\1', text).replace('`', '').strip()


def lesson(text):
    """Returns a lesson without a last sentence that ends with a colon."""
    return re.sub(r'(?<=\.) [^.]*:$', '', without_links(text))


def examples():
    """Returns the examples with a world and events, in the order of examples/README.md, and those with only a trace."""
    told = re.findall(r'^\*\*\[([a-z_]+)\]\(\1/\w+\)\*\*\. (.*)$', read('examples', 'README.md'), re.MULTILINE)
    worlds, traces = [], []
    for name, says in told:
        of = {'name': name, 'says': lesson(says)}
        if os.path.exists(os.path.join(TOP, 'examples', name, 'world')):
            worlds.append({**of, 'world': read('examples', name, 'world'), 'events': read('examples', name, 'events')})
        else:
            traces.append({**of, 'trace': read('examples', name, 'trace')})
    return worlds, traces


def first_comment(world):
    lines = re.match(r'(?:#.*\n)*', world).group(0).splitlines()
    return ' '.join(line.lstrip('# ') for line in lines)


def races():
    for name in sorted(os.listdir(os.path.join(TOP, 'races'))):
        world = read('races', name, 'world')
        yield {'name': name, 'says': first_comment(world), 'world': world, 'events': read('races', name, 'events')}


def first_paragraph(source):
    """Returns the first paragraph of the comment that begins a C file."""
    comment = re.match(r'/\*(.*?)(?:\n \*\n|\*/)', source, re.DOTALL)
    return ' '.join(re.sub(r'^ \*', '', comment.group(1), flags=re.MULTILINE).split()) if comment else ''


def in_c():
    """Yields the worlds that tools/cworld makes of single C files; none if pycparser is missing."""
    sys.dont_write_bytecode = True
    sys.path.insert(0, os.path.join(TOP, 'tools', 'c'))
    try:
        from compiler import world
        from refusal import Refused
        from source import read_sources
    except ImportError:
        print('tools/page: the page has no examples in C; install pycparser to add them', file=sys.stderr)
        return
    for path in sorted(glob.glob(os.path.join(TOP, 'examples', 'c', '*.c'))):
        name, events = os.path.basename(path), path[:-2] + '.events'
        try:
            text = world(read_sources([path]))
        except Refused:
            continue
        yield {'name': name, 'says': first_paragraph(read(path)), 'world': text,
               'events': read(events) if os.path.exists(events) else 'step 200\n'}


def faults():
    """Returns the faults of a trace, by number, as docs/jobk.1 describes them."""
    section = read('docs', 'jobk.1').split('.Sh FAULTS')[1].split('.Sh ')[0]
    told = {}
    for head, text in re.findall(r'^\.It (\d(?: to \d)?)\n(.*?)(?=^\.It |^\.El)', section, re.MULTILINE | re.DOTALL):
        first, last = int(head[0]), int(head[-1])
        text = re.sub(r"^\.(?:Ql|Xr) (\S+)(?: \d)? ?", r'\1', text, flags=re.MULTILINE)
        told.update({number: ' '.join(text.split()) for number in range(first, last + 1)})
    return told


def remedies():
    """Returns the meanings of the reasons in docs/ERRORS.md, each with its remedy unless the remedy has a link."""
    section = read('docs', 'ERRORS.md').split('## By message')[1].split('\n## ')[0]
    told = {}
    for reason, means, remedy in re.findall(r'^\| `([a-z ]+)` \| (.*?) \| (.*) \|$', section, re.MULTILINE):
        told[reason] = without_links(means) if '](' in remedy else f'{without_links(means)}. Instead: {remedy}'
    return told


def build(toolchain, crate):
    commit = subprocess.run(['git', '-C', TOP, 'describe', '--always', '--dirty'], capture_output=True, text=True)
    return {'commit': commit.stdout.strip() or 'of no commit', 'toolchain': toolchain, 'isProved': crate == 'page',
            'date': datetime.date.today().isoformat(), 'faults': faults(), 'remedies': remedies()}


def main():
    folder, toolchain, crate = sys.argv[1:]
    worlds, traces = examples()
    groups = [('Examples', worlds), ('Races', list(races())), ('In C', list(in_c())), ('Traces to audit', traces)]
    texts = {'examples.json': [{'label': label, 'examples': all} for label, all in groups if all],
             'build.json': build(toolchain, crate)}
    for name, text in texts.items():
        with open(os.path.join(folder, name), 'w') as file:
            json.dump(text, file)


main()
