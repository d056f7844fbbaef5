"""Writes the stored lists: make_lists.py ORACLE SEED. Run by lists/make, in the repository's folder."""

import sys

import job_inputs
import networks
import roots
import runs
import steps
import steps6
from count import describe
from list_format import ROOT, encode_case
from oracle import settle
from random_reals import Random

# The parts of each list, each drawn from the seed anew.
LISTS = {
    "crates/replay_roots/stdin": (lambda random: [(ROOT, fields) for fields in roots.inputs(random)],),
    "crates/replay_networks/stdin": (networks.inputs,),
    "crates/replay_steps/stdin": (steps.inputs, steps6.inputs),
    "crates/replay_runs/stdin": (runs.inputs,),
    "crates/replay_jobs/stdin": (job_inputs.inputs,),
}


def main(oracle, seed):
    """Settles every case first, so that a difference leaves the stored lists as they were."""
    settled = {}
    for path, parts in LISTS.items():
        settled[path] = settle(oracle, [pair for inputs in parts for pair in inputs(Random(seed))])
    for path, cases in settled.items():
        with open(path, "wb") as file:
            file.write(b"".join(encode_case(case) for case in cases))
    for path in LISTS:
        describe(path)


main(sys.argv[1], int(sys.argv[2]))
