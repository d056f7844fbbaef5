"""Random and mutated jobs through the built program, held against jobs.py. Run by lists/fuzz_jobs, in the repository's folder."""

import argparse
import os
import random
import re
import struct
import subprocess
import sys
import tempfile
from collections import Counter

import job_inputs
import jobs
from ieee import NAN, is_nan
from list_format import decode
from random_reals import FINITE_SORTS, Random, finite_list, signal_list, special
from step_samples import equal_samples, one_pattern, step_inputs

LIST = "crates/replay_jobs/stdin"
FOLDER = "target/fuzz_jobs"
JOBS_OF_A_CHUNK = 2000
MOST_BYTES = 40000
LEGAL_MAPS = [bits for bits in range(512) if bits & 0x97 == 0x97 and not (bits & 8 and bits & 0x140)]
DIGITS = re.compile(rb"\b[0-9a-f]{16}\b")


def with_one_nan(text):
    """The text with the digits of every NaN as those of one."""
    def digits(found):
        return b"%016x" % NAN if is_nan(int(found.group(), 16)) else found.group()

    return DIGITS.sub(digits, text)


class Chunk:
    """Draws the jobs of one chunk. `draw` has numbers for bytes and choices, `reals` those of the stored lists' generator."""

    def __init__(self, seed, number, pool):
        self.draw, self.reals, self.pool = random.Random(f"{seed}/{number}"), Random(seed << 32 | number), pool

    def bytes(self, length):
        return self.draw.getrandbits(8 * length).to_bytes(length, "little") if length else b""

    def noise(self):
        """Random bytes, mostly few."""
        return self.bytes(self.draw.randrange(self.draw.choice((8, 40, 40, 300, 300, 2000, 20000))))

    def noise_behind_a_head(self):
        """A legal map, small n and m, then bytes of about the right count."""
        bits, n, m = self.draw.choice(LEGAL_MAPS), self.draw.randrange(5), self.draw.randrange(7)
        lengths = (2 * (n + 1 + m), 8 * m, 8 * m, 8 * m, 8, 8, 8 * (1 + n + n), 8 * n)
        length = sum(size for bit, size in enumerate(lengths) if bits >> bit & 1) + self.draw.choice((0, 0, 0, -1, 1, 8))
        return struct.pack("<3H", bits, n, m) + self.bytes(max(length, 0))

    def legal(self):
        """A job of the right length whose pattern is mostly right and whose reals are of all sorts."""
        draw, reals = self.draw, self.reals
        n = draw.choice((0, 1, 1, 2, 2, 2, 3, 3, 4, 5, 6)) if draw.random() < 0.995 else draw.randrange(65)
        m = draw.randrange(3 * n + 2)
        starts = sorted(draw.randrange(m + 1) for _ in range(n)) + [m]
        columns = [draw.randrange(n) if n and draw.random() < 0.99 else draw.randrange(70) for _ in range(m)]
        values = [signal_list(reals, m, draw.choice(FINITE_SORTS), draw.choice((0, 0, 0, 2))) for _ in range(3)]
        positive = [[x & ~(1 << 63) for x in finite_list(reals, count, draw.choice(FINITE_SORTS))] for count in (2, 1 + n + n)]
        signal = signal_list(reals, n, draw.choice(FINITE_SORTS), draw.choice((0, 0, 10, 50)))
        parts = [struct.pack(f"<{2 + n + 1 + m}H", n, m, *starts, *columns), *map(job_inputs.reals, values)]
        parts += [job_inputs.reals(positive[0][:1]), job_inputs.reals(positive[0][1:]), job_inputs.reals(positive[1])]
        parts += [job_inputs.reals(signal), b""]
        bits = draw.choice(LEGAL_MAPS)
        return job_inputs.of_parts(dict(enumerate(parts)), [bit for bit in range(9) if bits >> bit & 1])

    def accepted(self):
        """A job that passes all checks."""
        reals, kind = self.reals, self.draw.choice(job_inputs.KINDS_OF_JOBS)
        n = self.draw.randrange(1, 6)
        samples = self.draw.choice((one_pattern, equal_samples))(reals, kind, n, self.draw.choice(FINITE_SORTS))
        tau = self.draw.choice(FINITE_SORTS)(reals) & ~(1 << 63)
        signal = signal_list(reals, n, self.draw.choice(FINITE_SORTS), self.draw.choice((0, 0, 10)))
        return job_inputs.job_of(kind, step_inputs(reals, kind, samples, tau, signal))

    def mutated(self):
        """A job of the pool, changed in one place or some."""
        job = bytearray(self.draw.choice(self.pool))
        for _ in range(self.draw.choice((1, 1, 1, 2, 3, 5))):
            self.draw.choice(MUTATIONS)(self, job)
        return bytes(job[:MOST_BYTES])

    def place(self, job, width=1):
        return self.draw.randrange(max(len(job) - width, 0) + 1)

    def flip_bit(self, job):
        if job:
            job[self.draw.randrange(len(job))] ^= 1 << self.draw.randrange(8)

    def flip_bit_of_head(self, job):
        if job:
            job[self.draw.randrange(min(len(job), 12))] ^= 1 << self.draw.randrange(8)

    def set_byte(self, job):
        if job:
            job[self.draw.randrange(len(job))] = self.draw.choice((0, 1, 64, 65, 127, 128, 255, self.draw.randrange(256)))

    def set_word(self, job):
        at = self.place(job, 2) & ~1
        job[at : at + 2] = struct.pack("<H", self.draw.choice((0, 1, 2, 63, 64, 65, 255, 256, 511, 512, 513, 65535)))

    def set_real(self, job):
        """One of the last reals, which stand at multiples of 8 from the end."""
        at = len(job) - 8 * self.draw.randrange(1, 1 + max(len(job) // 8, 1))
        if at >= 0:
            job[at : at + 8] = struct.pack("<Q", special(self.reals) if self.draw.random() < 0.6 else self.draw.getrandbits(64))

    def cut(self, job):
        del job[self.place(job) :]

    def remove(self, job):
        at = self.place(job)
        del job[at : at + self.draw.choice((1, 2, 8, 16))]

    def insert(self, job):
        at = self.place(job)
        job[at:at] = self.bytes(self.draw.choice((1, 2, 8, 16)))

    def repeat(self, job):
        at = self.place(job)
        job[at:at] = job[at : at + self.draw.choice((1, 2, 8, 16, 400))]

    def join(self, job):
        """The end of another job behind the beginning of this one."""
        other = self.draw.choice(self.pool)
        at = self.place(job)
        job[at:] = other[min(at, len(other)) :] if self.draw.random() < 0.5 else other[self.place(other) :]

    def lengthen(self, job):
        job.extend(bytes(self.draw.choice((1, 2, 8, 300, max(16384 - len(job), 0), max(16385 - len(job), 0), 20000))))

    def jobs(self):
        """The jobs of the chunk: three fifths mutated, the rest of the other sorts alike."""
        sorts = (self.noise, self.noise_behind_a_head, self.legal, self.accepted, *(self.mutated,) * 6)
        return [self.draw.choice(sorts)() for _ in range(JOBS_OF_A_CHUNK)]


MUTATIONS = (Chunk.flip_bit, Chunk.flip_bit, Chunk.flip_bit_of_head, Chunk.set_byte, Chunk.set_word, Chunk.set_real, Chunk.set_real)
MUTATIONS += (Chunk.cut, Chunk.remove, Chunk.insert, Chunk.repeat, Chunk.join, Chunk.lengthen)


def started(program, all_jobs, draw):
    """run_jobs at work on the jobs; a few are written in pieces of some bytes."""
    asked = tempfile.TemporaryFile()
    for job in all_jobs:
        asked.write(struct.pack("=II", len(job), draw.choice((1, 7, 100)) if draw.random() < 0.01 and len(job) < 500 else 0) + job)
    asked.seek(0)
    answers = tempfile.TemporaryFile()
    return subprocess.Popen([os.path.join(FOLDER, "run_jobs"), program], stdin=asked, stdout=answers), answers


def replies(answers):
    """Pairs of an exit status and a text."""
    answers.seek(0)
    while True:
        head = answers.read(8)
        if len(head) < 8:
            return
        status, length = struct.unpack("=II", head)
        yield status, answers.read(length)


def compared(seed, number, pool, program):
    """The counts of the answers of one chunk, and how many were wrong. The jobs that were answered wrongly are kept."""
    chunk = Chunk(seed, number, pool)
    all_jobs = chunk.jobs()
    running, answers = started(program, all_jobs, chunk.draw)
    expected = [jobs.text(job) for job in all_jobs]
    if running.wait():
        sys.exit("fuzz_jobs: run_jobs failed")
    got = list(replies(answers))
    if len(got) != len(all_jobs):
        sys.exit(f"fuzz_jobs: {len(got)} answers to {len(all_jobs)} jobs")
    counts, wrong = Counter(), 0
    for i, (job, text, (status, printed)) in enumerate(zip(all_jobs, expected, got)):
        counts["accepted" if text.startswith(b"done") else int(text.split()[1])] += 1
        if status or with_one_nan(printed) != text:
            wrong += 1
            path = f"{FOLDER}/{seed}-{number}-{i}.job"
            with open(path, "wb") as file:
                file.write(job)
            print(f"wrong: {path}: status {status}, {printed[:200]!r} where the reference has {text[:200]!r}")
    return counts, wrong


def main():
    parser = argparse.ArgumentParser(prog="lists/fuzz_jobs")
    parser.add_argument("--seed", type=int, default=1)
    parser.add_argument("--from", type=int, default=0, dest="first", metavar="CHUNK", help="the first chunk (default: 0)")
    parser.add_argument("--chunks", type=int, default=500, help="how many chunks of 2,000 jobs (default: 500)")
    parser.add_argument("--program", default="target/bin/job")
    chosen = parser.parse_args()
    if not os.access(chosen.program, os.X_OK):
        sys.exit(f"fuzz_jobs: there is no program {chosen.program}; `tools/build job` builds it")
    with open(LIST, "rb") as file:
        pool = [bytes(case.inputs["job"]) for case in decode(file.read())]
    # Long jobs take long to draw and to answer: most of them stay out of the pool.
    pool = [job for i, job in enumerate(pool) if len(job) < 1000 or i % 4 == 0]
    counts, wrong = Counter(), 0
    for number in range(chosen.first, chosen.first + chosen.chunks):
        of_chunk, wrong_of_chunk = compared(chosen.seed, number, pool, chosen.program)
        counts, wrong = counts + of_chunk, wrong + wrong_of_chunk
        print(f"chunk {number}: {sum(counts.values()):,} jobs, {wrong} wrong", flush=True)
    print("answers: " + ", ".join(f"{many:,} {row if row == 'accepted' else f'by row {row}'}" for row, many in counts.most_common()))
    print(f"seed {chosen.seed}: {sum(counts.values()):,} jobs, {wrong} wrong")
    return 1 if wrong else 0


if __name__ == "__main__":
    sys.exit(main())
