"""Makes one HTML file of a page's folder, with its style, its modules, and all other files, compressed, in base64.

    one_file.py FOLDER FILE.html

The modules become one module, in which each has its own scope. In a module, each import must be on one line, and each
export must precede a declaration.
"""
import base64
import gzip
import hashlib
import os
import re
import sys

WITHIN = 'jobk.wasm', 'jobk32.wasm', 'examples.json', 'build.json'


def read(*path):
    with open(os.path.join(*path), 'rb') as file:
        return file.read()


IMPORT = re.compile(r"^import (\{.*\}) from '\./(.*)';\n", re.MULTILINE)
EXPORT = re.compile(r'^export (?=(?:async )?(?:function|const|class) ([\w$]+))', re.MULTILINE)


def in_order(folder, name, before=()):
    """Returns the names of a module and of all modules that it imports, imported modules first."""
    if name in before:
        return before
    for _, other in IMPORT.findall(read(folder, name).decode()):
        before = in_order(folder, other, before)
    return (*before, name)


def joined(folder, name):
    """Returns the text of a module and of all modules that it imports, as one module."""
    scopes = ["'use strict';", 'const modules = {};']
    for one in in_order(folder, name):
        text = read(folder, one).decode()
        exports = ', '.join(EXPORT.findall(text))
        text = EXPORT.sub('', IMPORT.sub(r"const \1 = modules['\2'];\n", text))
        scopes.append(f"{{\n{text}modules['{one}'] = {{ {exports} }};\n}}")
    return '\n'.join(scopes) + '\n'


def within(name, data):
    letters = base64.b64encode(gzip.compress(data, mtime=0)).decode()
    return f'<script type="text/plain" id="{name}">{letters}</script>\n'


def hash_of(text):
    return f"'sha256-{base64.b64encode(hashlib.sha256(text.encode()).digest()).decode()}'"


def main():
    folder, to = sys.argv[1:]
    page = joined(folder, 'main.js')
    style = read(folder, 'style.css').decode()
    policy = (f"default-src 'none'; script-src {hash_of(page)} 'wasm-unsafe-eval'; style-src {hash_of(style)}; "
              "worker-src blob:; img-src data:; base-uri 'none'; form-action 'none'")
    files = ''.join(within(name, read(folder, name)) for name in WITHIN if os.path.exists(f'{folder}/{name}'))
    files += within('worker.js', joined(folder, 'worker.js').encode())
    html = read(folder, 'index.html').decode()
    html = re.sub(r'(Content-Security-Policy" content=")[^"]*', lambda it: it.group(1) + policy, html)
    html = html.replace('<link rel="stylesheet" href="style.css">\n', f'<style>{style}</style>\n')
    html = html.replace('<script type="module" src="main.js"></script>\n', '')
    html = html.replace('</html>', f'{files}<script type="module">{page}</script>\n</html>')
    with open(to, 'w') as file:
        file.write(html)


main()
