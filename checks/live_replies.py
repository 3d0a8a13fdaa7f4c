"""Replies leave when a user would want them.

A user at the other end of a pipe sends one line, waits for its reply and then sends the next. A program that held a
reply back while it reads on would leave both waiting."""

import select
import subprocess

import runs

SECONDS = 10
TALK = [
    (b"zone 0 1\n", b"ok\n"),
    (b"map 0 0 0\n", b"ok\n"),
    (b"# a skipped line\n\nstore 0 0 0 3 7\n", b"ok\n"),
    (b"load 0 0 0 3\n", b"value=7\n"),
    (b"load 0 7 0 0\n", b"refused 3\n"),
]


def reply_from(pipe, size):
    """What comes out of a pipe until there are so many bytes, a line has ended, or none came for some seconds."""
    reply = b""
    while len(reply) < size and not reply.endswith(b"\n"):
        ready, _, _ = select.select([pipe], [], [], SECONDS)
        piece = pipe.read(1) if ready else b""
        if not piece:
            break
        reply += piece
    return reply


def talk(user):
    """Sends each line once the reply to the one before it is there."""
    for line, wanted in TALK:
        user.stdin.write(line)
        reply = reply_from(user.stdout, len(wanted))
        if reply != wanted:
            user.kill()
            raise runs.Failed(f"{line} is answered {reply} before the next line is sent, and not {wanted}")


def main():
    pipes = {"stdin": subprocess.PIPE, "stdout": subprocess.PIPE, "bufsize": 0}
    with subprocess.Popen([runs.program()], **pipes) as user:
        talk(user)
        user.stdin.close()
        rest, status = user.stdout.read(), user.wait(SECONDS)
    if (status, rest) != (0, b""):
        raise runs.Failed(f"at the end of its input the program writes {rest} and ends with status {status}")
    return f"a user at a pipe sees each of {len(TALK)} replies before the next line"


if __name__ == "__main__":
    runs.start(main)
