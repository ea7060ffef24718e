#!/usr/bin/env python3
"""Plays transcripts again and again: the first run is refused its first allocation, the second its second, and so on, until a run
ends without reaching the allocation that was to be refused.

usage: tests/refused_memory.py PROGRAM SHIM

SHIM is tests/refuse_allocation.c. In a run one reply may be `no 22 Memory`, and nothing else may change. There are two ways to
see that:

- The refused command leaves no trace: all other replies are those of the session without it. Only the numbers of `status` may
  differ then, since a refused question keeps the tilings that it had found.
- A refused line is sent again until it is answered. Then all replies are those of the transcript. This is played by one thread
  and by two workers.

If there is no memory to read the arguments, they are refused, and nothing is answered; if the puzzle line is refused, the session
ends. Standard output ends with a line `N passed, M failed`, which counts sessions.
"""
import os
import re
import subprocess
import sys
import tempfile
import threading

HERE = os.path.dirname(os.path.abspath(__file__))
MEMORY = "no 22 Memory"
LEFT_OUT = ("two_dominoes", "forbid_and_undo", "drop_and_undo", "browse", "mirror_with_a_pin", "copies", "refused_commands")
SENT_AGAIN = ("two_dominoes", "forbid_and_undo", "drop_and_undo", "browse")


def transcript(name):
    """Returns the lines that are typed, each with its reply, which is a list of lines."""
    session = []
    with open(os.path.join(HERE, "transcripts", f"{name}.txt"), encoding="utf-8") as file:
        for line in file.read().split("\n"):
            if line.startswith("> "):
                session.append((line[2:], []))
            elif line and not line.startswith("#"):
                session[-1][1].append(line)
    return session


def has_ended_rightly(status, reply, errors):
    """Says whether a program may end so that has answered at most the puzzle line with this reply."""
    return (status, errors) == (1, "") if reply == MEMORY else (status, reply) == (2, "") and errors != ""


# The refused command is left out.


class Batch:
    """A session that is sent as a whole, and what the program answers without one of its lines."""

    def __init__(self, program, name):
        self.program, self.lines, self.known = program, [line for line, _ in transcript(name)], {}

    def run(self, lines, environment):
        """Returns the status, the replies, each with its lines in one and of `status` only the edition, and standard error."""
        done = subprocess.run(
            [self.program], input="".join(f"{line}\n" for line in lines).encode(), capture_output=True,
            env={**os.environ, **environment}, timeout=120, check=False,
        )
        text = re.sub(r"(?m)^(status edition \d+) .*", r"\1", done.stdout.decode("latin-1"))
        return done.returncode, re.findall(r"(?m)(?:^(?:tiling|forced|item) .*\n)*^.*\n", text), done.stderr.decode("latin-1")

    def without(self, at):
        """Returns what `run` does if no allocation is refused and the line of this number isn't sent."""
        if at not in self.known:
            self.known[at] = self.run([line for i, line in enumerate(self.lines) if i != at], {})
        return self.known[at]

    def fault(self, environment):
        """Plays the session. Returns what is wrong, or None."""
        status, replies, errors = self.run(self.lines, environment)
        refused = replies.index(f"{MEMORY}\n") if f"{MEMORY}\n" in replies else None
        if refused == 0 or not replies:
            is_right = len(replies) < 2 and has_ended_rightly(status, "".join(replies).rstrip("\n"), errors)
        else:
            others = [reply for i, reply in enumerate(replies) if i != refused]
            is_right = (status, others, errors) == self.without(refused)
        return None if is_right else f"status {status}, {replies} and {errors!r}"


# The refused line is sent again.


class Dialogue:
    """A session that is sent line by line."""

    def __init__(self, program, name, workers):
        self.command, self.session = [program, *workers], transcript(name)

    def fault(self, environment):
        """Plays the session. Returns what is wrong, or None."""
        pipes = {"stdin": subprocess.PIPE, "stdout": subprocess.PIPE, "stderr": subprocess.PIPE}
        running = subprocess.Popen(self.command, **pipes, env={**os.environ, **environment})
        # A program that doesn't answer is ended, so that the test ends too.
        watch = threading.Timer(120, running.kill)
        watch.start()
        try:
            return self.fault_of(running)
        except BrokenPipeError:
            return "the program has ended too early"
        finally:
            watch.cancel()
            running.kill()
            running.communicate()

    def fault_of(self, running):
        for number, (line, wanted) in enumerate(self.session):
            told = [MEMORY]
            for _ in range(3):
                if told == [MEMORY]:
                    told = ask(running, line, wanted)
                if number == 0 and told in ([MEMORY], [""]):
                    _, errors = running.communicate()
                    is_right = has_ended_rightly(running.returncode, told[0], errors.decode("latin-1"))
                    return None if is_right else f"the puzzle line was answered {told} with status {running.returncode}"
            if told != wanted:
                return f"'{line}' was answered {told}"
        output, errors = running.communicate()
        is_right = (running.returncode, output, errors) == (0, b"", b"")
        return None if is_right else f"ended with status {running.returncode}, {output} and {errors}"


def ask(running, line, wanted):
    """Sends the line. Returns the lines of its reply, which are as many as are wanted unless it is refused for memory."""
    try:
        running.stdin.write(f"{line}\n".encode())
        running.stdin.flush()
    except BrokenPipeError:
        pass  # if the program has ended, the reply shows it
    reply = []
    for _ in wanted:
        reply.append(running.stdout.readline().decode("latin-1").rstrip("\n"))
        if reply[0] in (MEMORY, ""):
            break
    return reply


def fault_of_all(session, shim):
    """Plays the session with no allocation refused, and then with each in turn. Returns what is wrong, or None, and how many
    allocations were refused."""
    fault, refused = session.fault({}), 0
    with tempfile.TemporaryDirectory() as room:
        sign = os.path.join(room, "refused")
        while not fault:
            fault = session.fault({"LD_PRELOAD": shim, "REFUSE_AT": str(refused + 1), "REFUSED": sign})
            if not os.path.exists(sign):
                break
            os.remove(sign)
            refused += 1
            fault = fault and f"with allocation {refused} refused: {fault}"
    return fault or (None if refused else "met no allocation"), refused


def main():
    program, shim = (os.path.abspath(path) for path in sys.argv[1:3])
    sessions = {f"{name}, the refused command left out": Batch(program, name) for name in LEFT_OUT}
    for name in SENT_AGAIN:
        sessions[f"{name}, the refused line sent again"] = Dialogue(program, name, [])
        sessions[f"{name} by two workers, the refused line sent again"] = Dialogue(program, name, ["--workers", "2"])
    failed = 0
    for name, session in sessions.items():
        fault, refused = fault_of_all(session, shim)
        print(f"refused memory: {name}: {refused} allocations", file=sys.stderr)
        if fault:
            failed += 1
            print(f"failed: {name}: {fault[:1000]}")
    print(f"{len(sessions) - failed} passed, {failed} failed")
    return 1 if failed else 0


if __name__ == "__main__":
    sys.exit(main())
