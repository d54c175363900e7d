#!/usr/bin/env python3
"""Times texts that nest as deep as they are long, and prints a table: nesting.py PROGRAM

Each text is a method's head, four, eight or sixteen million bytes of an opening piece, and the start of a declaration with the hole at
the end. PROGRAM `serve` opens it and completes there. Each time is processor time, in seconds, of the whole session; growth is the
time by that of half the text, about 2 where the time is linear. The last column says whether a list or null is answered.
"""
import resource
import subprocess
import sys

PIECES = ["{", "(", "[", "<", "{(", "([", "f(", "new A(){", "class B{", "for(;;)", "if(a)", "x->{"]
SIZES = [4_000_000, 8_000_000, 16_000_000]
HEAD = b'{"jsonrpc":"2.0","method":"textDocument/didOpen","params":{"textDocument":{"uri":"file:///A.java","text":"class A{int m(){'
COMPLETION = b'{"jsonrpc":"2.0","id":2,"method":"textDocument/completion","params":{"textDocument":{"uri":"file:///A.java"},"position":{"line":0,"character":%d}}}'


def frame(body):
    return b"Content-Length: %d\r\n\r\n" % len(body) + body


def timed(program, piece, size):
    """Returns the processor time of a session over such a text, and what its completion is answered."""
    nested = piece.encode() * (size // len(piece))
    bodies = [b'{"jsonrpc":"2.0","id":1,"method":"initialize"}', HEAD + nested + b'int r = "}}}', COMPLETION % (len(nested) + 24)]
    before = resource.getrusage(resource.RUSAGE_CHILDREN)
    it = subprocess.run([program, "serve"], input=b"".join(map(frame, bodies)), capture_output=True)
    after = resource.getrusage(resource.RUSAGE_CHILDREN)
    seconds = after.ru_utime - before.ru_utime + after.ru_stime - before.ru_stime
    answer = "list" if b'"items"' in it.stdout else "null" if it.stdout.endswith(b'"result":null}') else f"status {it.returncode}"
    return seconds, answer


def main():
    if len(sys.argv) != 2:
        sys.exit(__doc__)
    print("| piece | MB | seconds | growth | answer |\n|---|---|---|---|---|")
    for piece in PIECES:
        half = None
        for size in SIZES:
            seconds, answer = timed(sys.argv[1], piece, size)
            growth = f"{seconds / half:.1f}" if half else ""
            print(f"| `{piece}` | {size // 1_000_000} | {seconds:.2f} | {growth} | {answer} |", flush=True)
            half = seconds


if __name__ == "__main__":
    main()
