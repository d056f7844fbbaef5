"""The bytes of a list: its cases, their fields and answers, little-endian. lists/README.md describes them.

A case is a kind, the inputs by name, and the result by name. Counts are whole numbers and reals are bit patterns, both as int.
"""

import struct
from collections import namedtuple

LARGEST_CASE = 65536

ROOT, FROM_CSR_PARTS, GERSHGORIN_BOUND_CSR, APPLY_INTO_SLICE, COPY_FROM, AXPY_INTO_SLICE = range(1, 7)
OMEGA4, OMEGA4_ADJOINT, WEIGHTED_OMEGA4, WEIGHTED_OMEGA4_ADJOINT, OMEGA6 = range(7, 12)

SEGMENT_INDEX, EVOLVE, EVOLVE_ADJOINT, WEIGHTED_EVOLVE_ADJOINT = range(12, 16)
RULED_SEGMENT_INDEX, RULED_EVOLVE, RULED_EVOLVE_ADJOINT, RULED_WEIGHTED_EVOLVE_ADJOINT = range(16, 20)

JOB = 20

# What an answer says: its number in document 01's table (0: accepted) and its values.
Answer = namedtuple("Answer", "number values")
Case = namedtuple("Case", "kind inputs result")

# The fields of a kind, each a name and a type. `bound` and `index` stand only behind an answer that accepts.
Kind = namedtuple("Kind", "name inputs result")

NETWORK = (("n", "count"), ("row starts", "counts"), ("columns", "columns"), ("values", "reals"))

# Of a step: its samples, its numbers, the weights of a weighted one, and what is lent to it. The work slice is given by its length
# and the one bit pattern of all its elements.
SAMPLES = (("sample 1", "network"), ("sample 2", "network"), ("sample 3", "network"))
STEP_NUMBERS = (("tau", "real"), ("spectral bound", "real"), ("check", "flag"))
STEP = SAMPLES[:2] + STEP_NUMBERS
WEIGHTS = (("root bound", "real"), ("weights 1", "reals"), ("weights 2", "reals"))
LENT = (("signal", "reals"), ("output", "reals"), ("work length", "count"), ("work", "real"))
STEP_RESULT = (("answer", "answer"), ("output", "reals"))

# Of a run: the pattern of all its segments, the segments with a start list, an end list and a law each, and its numbers.
LOOKUP = (("segments", "count"), ("breakpoints", "reals"))
LISTS_OF_SEGMENTS = (("start pool", "reals"), ("end pool", "reals"), ("laws", "counts"))
TRAJECTORY = NETWORK[:3] + LOOKUP + LISTS_OF_SEGMENTS
FORWARD_NUMBERS = (("steps", "count"), ("spectral bound", "real"), ("check", "flag"))
ADJOINT_NUMBERS = (("tau", "real"),) + FORWARD_NUMBERS
RUN_WEIGHTS = (("root bound", "real"), ("start weights", "reals"), ("end weights", "reals"))

# The same by rules (rules.py), for runs whose slices are too long for a case.
RULED_PATTERN = (
    ("n", "count"),
    ("first row start", "count"),
    ("row width", "count"),
    ("entries", "count"),
    ("column stride", "count"),
)
RULED_LOOKUP = (("segments", "count"), ("increments", "reals"))
RULED_TRAJECTORY = RULED_PATTERN + RULED_LOOKUP + LISTS_OF_SEGMENTS
RULED_LENT = (("signal", "reals"), ("output", "real"), ("work length", "count"), ("work", "real"))

KINDS = {
    ROOT: Kind("sqrt", (("x", "real"),), (("root", "real"),)),
    FROM_CSR_PARTS: Kind("from_csr_parts", NETWORK, (("answer", "answer"),)),
    GERSHGORIN_BOUND_CSR: Kind("gershgorin_bound_csr", NETWORK, (("answer", "answer"), ("bound", "real"))),
    APPLY_INTO_SLICE: Kind(
        "apply_into_slice",
        NETWORK + (("signal", "reals"), ("output", "reals")),
        (("answer", "answer"), ("output", "reals")),
    ),
    COPY_FROM: Kind("copy_from", (("target", "reals"), ("source", "reals")), (("answer", "answer"), ("target", "reals"))),
    AXPY_INTO_SLICE: Kind(
        "axpy_into_slice",
        (("target", "reals"), ("alpha", "real"), ("source", "reals")),
        (("answer", "answer"), ("target", "reals")),
    ),
    OMEGA4: Kind("apply_exp_omega4_kernel", STEP + LENT, STEP_RESULT),
    OMEGA4_ADJOINT: Kind("apply_exp_omega4_adj_kernel", STEP + LENT, STEP_RESULT),
    WEIGHTED_OMEGA4: Kind("apply_exp_omega4_la_kernel", STEP + WEIGHTS + LENT, STEP_RESULT),
    WEIGHTED_OMEGA4_ADJOINT: Kind("apply_exp_omega4_la_adj_kernel", STEP + WEIGHTS + LENT, STEP_RESULT),
    OMEGA6: Kind("apply_exp_omega6_kernel", SAMPLES + STEP_NUMBERS + LENT, STEP_RESULT),
    SEGMENT_INDEX: Kind("segment_index", LOOKUP + (("t", "real"),), (("answer", "answer"), ("index", "count"))),
    EVOLVE: Kind("evolve_with_traj_into", TRAJECTORY + FORWARD_NUMBERS + LENT, STEP_RESULT),
    EVOLVE_ADJOINT: Kind("evolve_state_adjoint_into", TRAJECTORY + ADJOINT_NUMBERS + LENT, STEP_RESULT),
    WEIGHTED_EVOLVE_ADJOINT: Kind(
        "evolve_state_adjoint_into, weighted", TRAJECTORY + ADJOINT_NUMBERS + RUN_WEIGHTS + LENT, STEP_RESULT
    ),
    RULED_SEGMENT_INDEX: Kind(
        "segment_index, by rules", RULED_LOOKUP + (("t", "real"),), (("answer", "answer"), ("index", "count"))
    ),
    RULED_EVOLVE: Kind("evolve_with_traj_into, by rules", RULED_TRAJECTORY + FORWARD_NUMBERS + RULED_LENT, STEP_RESULT),
    RULED_EVOLVE_ADJOINT: Kind(
        "evolve_state_adjoint_into, by rules", RULED_TRAJECTORY + ADJOINT_NUMBERS + RULED_LENT, STEP_RESULT
    ),
    RULED_WEIGHTED_EVOLVE_ADJOINT: Kind(
        "evolve_state_adjoint_into, weighted, by rules",
        RULED_TRAJECTORY + ADJOINT_NUMBERS + RUN_WEIGHTS + RULED_LENT,
        STEP_RESULT,
    ),
    JOB: Kind("job", (("job", "bytes"),), (("text", "bytes"),)),
}


def names_of_samples(kind):
    """The samples of a step."""
    return tuple(name for name, type_ in KINDS[kind].inputs if type_ == "network")


# struct's letter for a number of each type, and for the elements of a slice of each type.
NUMBERS = {"count": "Q", "real": "Q", "flag": "B"}
ELEMENTS = {"counts": "Q", "columns": "I", "reals": "Q", "bytes": "B"}


def encode_field(type_, value):
    if type_ in NUMBERS:
        return struct.pack("<" + NUMBERS[type_], value)
    if type_ == "answer":
        return struct.pack(f"<HH{len(value.values)}Q", value.number, len(value.values), *value.values)
    if type_ == "network":
        return encode_fields(NETWORK, value)
    return struct.pack(f"<I{len(value)}{ELEMENTS[type_]}", len(value), *value)


def encode_fields(fields, values):
    return b"".join(encode_field(type_, values[name]) for name, type_ in fields if name in values)


def encode(kind, fields):
    return struct.pack("<HI", kind, len(fields)) + fields


def encode_inputs(kind, inputs):
    """The case without its result, as the oracle reads it."""
    return encode(kind, encode_fields(KINDS[kind].inputs, inputs))


def encode_case(case):
    shape = KINDS[case.kind]
    bytes_ = encode(case.kind, encode_fields(shape.inputs, case.inputs) + encode_fields(shape.result, case.result))
    if len(bytes_) > LARGEST_CASE:
        raise ValueError(f"a case of {shape.name} has {len(bytes_)} bytes")
    return bytes_


class Reader:
    """Bytes, read from the front."""

    def __init__(self, bytes_):
        self.bytes, self.at = bytes_, 0

    def numbers(self, form):
        values = struct.unpack_from("<" + form, self.bytes, self.at)
        self.at += struct.calcsize("<" + form)
        return list(values)

    def field(self, type_):
        if type_ in NUMBERS:
            return self.numbers(NUMBERS[type_])[0]
        if type_ == "answer":
            number, length = self.numbers("HH")
            return Answer(number, self.numbers(f"{length}Q"))
        if type_ == "network":
            return self.fields(NETWORK)
        return self.numbers(f"{self.numbers('I')[0]}{ELEMENTS[type_]}")

    def fields(self, fields):
        values = {}
        for name, type_ in fields:
            if name in ("bound", "index") and values["answer"].number != 0:
                continue
            values[name] = self.field(type_)
        return values


def decode_result(kind, bytes_):
    reader = Reader(bytes_)
    result = reader.fields(KINDS[kind].result)
    if reader.at != len(bytes_):
        raise ValueError(f"a result of {KINDS[kind].name} has {len(bytes_) - reader.at} bytes too many")
    return result


def decode(bytes_):
    """The cases of a list, one after the other."""
    at = 0
    while at < len(bytes_):
        kind, length = struct.unpack_from("<HI", bytes_, at)
        fields = bytes_[at + 6 : at + 6 + length]
        if len(fields) != length or length + 6 > LARGEST_CASE:
            raise ValueError(f"the case at byte {at} has a wrong length, {length}")
        reader = Reader(fields)
        inputs = reader.fields(KINDS[kind].inputs)
        yield Case(kind, inputs, decode_result(kind, fields[reader.at :]))
        at += 6 + length
