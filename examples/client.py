#!/usr/bin/env python3
"""A program that talks to hom: it sends a command, reads its reply, and only then sends the next one.

    examples/client.py

Each command is one line, sent at once, and each reply is one line. The program ends with 1 where a reply is another than
is expected here.
"""
import json
import os
import signal
import subprocess
import sys

HOM = os.path.join(os.path.dirname(os.path.dirname(os.path.abspath(__file__))), 'hom')


class Session:
    """A session of `hom replay`, line by line."""

    def __init__(self):
        self.hom = subprocess.Popen([HOM, 'replay'], stdin=subprocess.PIPE, stdout=subprocess.PIPE, encoding='utf-8')

    def ask(self, command):
        print(json.dumps(command), file=self.hom.stdin, flush=True)
        return json.loads(self.hom.stdout.readline())

    def end(self):
        """The exit status, once hom has seen the end of its input."""
        self.hom.stdin.close()
        return self.hom.wait()


def expect(wanted, found):
    if found != wanted:
        sys.exit(f'{wanted} was expected, and hom replied {found}')


def main():
    # Without words hom does nothing, once it is built.
    subprocess.run([HOM], check=False)
    session = Session()
    # A hom that waits for more than one line would wait for ever.
    signal.alarm(60)
    expect({'dim': 0, 'name': 'x', 'number': 0, 'ok': 'generator'}, session.ask({'do': 'generator', 'name': 'x'}))

    # Each command is made from the reply before it: the identity of what was stored last, up to the refusal.
    reply = session.ask({'do': 'identity', 'name': 'i1', 'of': 'x'})
    while reply.get('ok') == 'identity':
        dim = reply['dim']
        expect({'dim': dim, 'length': 0, 'name': f'i{dim}', 'ok': 'identity'}, reply)
        reply = session.ask({'do': 'identity', 'name': f'i{dim + 1}', 'of': reply['name']})
    expect({'refused': 'DimLimit'}, reply)

    # A refused command changed nothing, so as many changes can be undone as were accepted.
    for _ in range(1 + dim):
        expect({'ok': 'undo'}, session.ask({'do': 'undo'}))
    expect({'refused': 'NothingToUndo'}, session.ask({'do': 'undo'}))

    # Two commands were refused, so hom ends with 1.
    expect(1, session.end())


if __name__ == '__main__':
    main()
