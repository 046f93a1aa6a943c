"""Tests a page in a browser: first the runs of its program, then the acts of a person.

    main.py BROWSER FOLDER NATIVE SCRATCH [ACT..]

FOLDER has the page, and SCRATCH has page.html, the page as a single file. NATIVE is the native program. If an ACT is
named, only the named acts are tested, and that the single file opens.
"""
import functools
import http.server
import json
import os
import sys
import threading
import time

import acts
import cases
from browser import Browser, Failed, Page


class Quiet(http.server.SimpleHTTPRequestHandler):
    extensions_map = {**http.server.SimpleHTTPRequestHandler.extensions_map, '.js': 'text/javascript', '.wasm': 'application/wasm'}

    def log_message(self, *words):
        pass


def serve(folder):
    server = http.server.ThreadingHTTPServer(('127.0.0.1', 0), functools.partial(Quiet, directory=folder))
    threading.Thread(target=server.serve_forever, daemon=True).start()
    return f'http://127.0.0.1:{server.server_port}/index.html'


def compare(page, all):
    """Runs the cases in the page, 100 at a time, and returns what differs."""
    differences = []
    for at in range(0, len(all), 100):
        piece = all[at:at + 100]
        told = page.ask(f'{cases.RUN}({json.dumps([it.asked() for it in piece])})', seconds=120)
        for case, ran in zip(piece, told):
            differences += case.differences(ran)
    return differences


class Judge:
    def __init__(self):
        self.passed, self.failed = 0, 0

    def judge(self, name, differences):
        if differences:
            self.failed += 1
            print(f'failed: {name}', *differences[:8], sep='\n  ')
        else:
            self.passed += 1

    def act(self, browser, act, *given):
        before = len(browser.errors)
        try:
            act(*given)
            self.judge(act.__doc__, browser.errors[before:])
        except (Failed, OSError) as failed:
            self.judge(act.__doc__, [str(failed), *browser.errors[before:]])


def judge_runs(judge, page, module, all):
    is_library, *taken = page.ask(cases.LOAD)
    all = [it for it in all if it.is_of_a_library() or not is_library]
    judge.judge(f'the page loads {module}', [] if taken == [module] else taken)
    judge.judge(f'{len(all)} runs of {module} have the bytes of the native program', compare(page, all))
    print(f'{len(all)} runs of {"the library" if is_library else "the unproved program"}, {module}')
    page.close()


def judge_modules(judge, browser, folder, address, native):
    """Runs the cases with both modules of the page. Fails if the page has no jobk32.wasm."""
    all = [*cases.kept(), *cases.beside_native(native)]
    judge_runs(judge, Page(browser, address), 'jobk.wasm', all)
    if os.path.exists(f'{folder}/jobk32.wasm'):
        judge_runs(judge, Page(browser, address, before=acts.NO_64), 'jobk32.wasm', all)
    else:
        judge.judge('the page has jobk32.wasm', ['tools/page found no wasm-opt; install the package binaryen'])


def main():
    program, folder, native, scratch, *names = sys.argv[1:]
    native = os.environ['JOBK'] = os.path.abspath(native)
    since = time.monotonic()
    judge = Judge()
    browser = Browser(program, f'{scratch}/profile')
    try:
        address = serve(folder)
        if not names:
            judge_modules(judge, browser, folder, address, native)
        for act in acts.ALL:
            if not names or act.__name__ in names:
                page = Page(browser, address)
                judge.act(browser, act, acts.Person(page, native))
                page.close()
        judge.act(browser, acts.opens_as_one_file, browser, f'file://{scratch}/page.html')
        if os.path.exists(f'{folder}/jobk32.wasm'):
            judge.act(browser, acts.opens_as_one_file, browser, f'file://{scratch}/page.html', acts.NO_64)
    finally:
        browser.close()
    print(f'{judge.passed} passed, {judge.failed} failed in {time.monotonic() - since:.0f} s')
    return judge.failed > 0


if __name__ == '__main__':
    sys.exit(main())
