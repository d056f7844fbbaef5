#!/usr/bin/env python3
"""Jobs from readable descriptions, and readable answers."""

import argparse
import os
import subprocess
import sys

from answer import NoAnswer, in_words, read_answer
from description import Unreadable, encode, load

ACCEPTED, REFUSED, FAILED = 0, 1, 2
PROGRAM = os.path.join(os.path.dirname(os.path.abspath(__file__)), "..", "target", "bin", "job")
EXAMPLES = """\
examples:
  python3 jobs/job.py run samples/machine_room.json
  python3 jobs/job.py encode samples/machine_room.json > machine_room.job
  target/bin/job < machine_room.job | python3 jobs/job.py decode samples/machine_room.json

exit status: 0 where the job is accepted (encode: written), 1 where the program refuses it, 2 where the description can't be
encoded, the answer can't be read or the program can't be run. jobs/README.md describes descriptions and answers."""


def arguments():
    parser = argparse.ArgumentParser(
        prog="job.py", description=__doc__, epilog=EXAMPLES, formatter_class=argparse.RawDescriptionHelpFormatter
    )
    commands = parser.add_subparsers(dest="command", metavar="encode | decode | run", required=True)
    helps = {
        "encode": "writes the job of a description to standard output",
        "decode": "reads the program's answer from standard input and prints it with the description's names",
        "run": "encodes, runs the program and decodes",
    }
    for name, text in helps.items():
        command = commands.add_parser(name, help=text, description=text)
        command.add_argument("description", help="a JSON file")
        if name == "run":
            command.add_argument("--program", default=PROGRAM, help="the job program (default: target/bin/job of this repository)")
    return parser.parse_args()


def print_answer(text, job):
    answer = read_answer(text)
    print("\n".join(in_words(answer, job)))
    return ACCEPTED if answer[0] == "done" else REFUSED


def answer_of(program, job_bytes):
    """What the program prints for the job."""
    if not os.path.exists(program):
        raise NoAnswer(f"there is no program {os.path.normpath(program)}; `tools/build job` builds it")
    run = subprocess.run([program], input=job_bytes, stdout=subprocess.PIPE)
    if run.returncode:
        raise NoAnswer(f"the program ended with status {run.returncode}")
    return run.stdout.decode("ascii", "backslashreplace")


def main():
    chosen = arguments()
    sys.stdout.reconfigure(errors="backslashreplace")
    try:
        job = load(chosen.description)
        if chosen.command == "encode":
            sys.stdout.buffer.write(encode(job))
            return ACCEPTED
        if chosen.command == "decode":
            return print_answer(sys.stdin.buffer.read().decode("ascii", "backslashreplace"), job)
        return print_answer(answer_of(chosen.program, encode(job)), job)
    except Unreadable as error:
        print(f"job.py: {chosen.description}: {error}", file=sys.stderr)
    except (NoAnswer, OSError) as error:
        print(f"job.py: no answer to {chosen.description}: {error}", file=sys.stderr)
    return FAILED


if __name__ == "__main__":
    sys.exit(main())
