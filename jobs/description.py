"""Descriptions of jobs: JSON read, checked and written as the bytes of a job. README.md in this folder describes both."""

import json
import math
import struct
from collections import namedtuple

MOST_NODES, MOST_ENTRIES, LARGEST_WORD = 64, 512, 65535
NEEDED = ("nodes", "tau", "signal")
OPTIONAL = ("about", "links", "capacities", "rows", "order", "bound", "root_bound", "weights", "adjoint")

# What a job holds. `samples` and `weights` are lists of lists of floats; `bound`, `root_bound` and `weights` may be None.
Job = namedtuple("Job", "nodes row_starts columns samples tau bound root_bound weights signal adjoint")


class Unreadable(Exception):
    """What can't be encoded: where it stands in the description, and why."""

    def __init__(self, place, why):
        super().__init__(f"{place}: {why}" if place else why)


def kind_of(value):
    """A JSON value's kind in words."""
    kinds = {dict: "an object", list: "a list", str: "a text", bool: "true or false", type(None): "null"}
    return kinds.get(type(value), f"the number {value!r}")


def read_object(value, place, needed, optional=()):
    """An object with all the needed names and no others than these and the optional ones."""
    if not isinstance(value, dict):
        raise Unreadable(place, f"{kind_of(value)} where an object is wanted")
    for name in value:
        if name not in needed and name not in optional:
            raise Unreadable(place, f"unknown name '{name}'; known are {', '.join((*needed, *optional))}")
    for name in needed:
        if name not in value:
            raise Unreadable(place, f"'{name}' is missing")
    return value


def read_list(value, place, length=None):
    if not isinstance(value, list):
        raise Unreadable(place, f"{kind_of(value)} where a list is wanted")
    if length is not None and len(value) != length:
        raise Unreadable(place, f"{len(value)} elements where {length} are wanted")
    return value


def read_real(value, place):
    """A JSON number as the nearest double. NaN, Infinity and -Infinity are numbers here: the program answers them."""
    if isinstance(value, bool) or not isinstance(value, (int, float)):
        raise Unreadable(place, f"{kind_of(value)} where a number is wanted")
    try:
        return float(value)
    except OverflowError:
        raise Unreadable(place, "the number is too large for a double") from None


def read_reals(value, place, length):
    return [read_real(x, f"{place}[{i}]") for i, x in enumerate(read_list(value, place, length))]


def read_words(value, place, length=None):
    """Whole numbers that fit 16 bits."""
    for i, x in enumerate(read_list(value, place, length)):
        if isinstance(x, bool) or not isinstance(x, int) or not 0 <= x <= LARGEST_WORD:
            raise Unreadable(f"{place}[{i}]", f"{x!r} is not a whole number from 0 to {LARGEST_WORD}")
    return value


def read_nodes(value):
    nodes = read_list(value, "nodes")
    for i, name in enumerate(nodes):
        if not isinstance(name, str) or not name.strip() or not name.isprintable():
            raise Unreadable(f"nodes[{i}]", f"{name!r} is not a name")
        if name in nodes[:i]:
            raise Unreadable(f"nodes[{i}]", f"a second node is called '{name}'")
    if len(nodes) > MOST_NODES:
        raise Unreadable("nodes", f"{len(nodes)} nodes; a job has at most {MOST_NODES}")
    return nodes


def read_by_node(value, place, nodes):
    """A real for each node: an object by name, or a list in the order of the nodes."""
    if isinstance(value, dict):
        read_object(value, place, nodes)
        return [read_real(value[name], f"{place}.{name}") for name in nodes]
    return read_reals(value, place, len(nodes))


def node_index(name, place, nodes):
    if name not in nodes:
        raise Unreadable(place, f"no node is called {name!r}")
    return nodes.index(name)


def read_link(value, place, nodes, count):
    """The two ends of a link, and its conductance in each sample: one number for all, or a list."""
    link = read_object(value, place, ("between", "conductance"))
    first, second = (
        node_index(name, f"{place}.between[{i}]", nodes) for i, name in enumerate(read_list(link["between"], f"{place}.between", 2))
    )
    if first == second:
        raise Unreadable(f"{place}.between", f"a link from '{nodes[first]}' to itself")
    if isinstance(link["conductance"], list):
        return first, second, read_reals(link["conductance"], f"{place}.conductance", count)
    return first, second, [read_real(link["conductance"], f"{place}.conductance")] * count


def laplacian_row(node, links, capacity, sample):
    """The row of a node in one sample, from column to value. A link adds its conductance over the node's capacity to the diagonal
    and to the column of its other end, there with a minus. Links are added in their order, from the left."""
    row = {}
    for first, second, conductances in links:
        if node in (first, second):
            amount = conductances[sample] if capacity is None else conductances[sample] / capacity
            other = second if node == first else first
            row[node] = row[node] + amount if node in row else amount
            row[other] = row[other] - amount if other in row else -amount
    return row


def network_of_links(description, nodes, count):
    """Row starts, columns and the values of each sample. Columns rise in each row; a node without links has an empty row."""
    listed = read_list(description["links"], "links")
    links = [read_link(link, f"links[{i}]", nodes, count) for i, link in enumerate(listed)]
    capacities = [None] * len(nodes)
    if "capacities" in description:
        capacities = read_by_node(description["capacities"], "capacities", nodes)
        for name, capacity in zip(nodes, capacities):
            if capacity == 0:
                raise Unreadable(f"capacities.{name}", "a capacity of 0")
    row_starts, columns, samples = [0], [], [[] for _ in range(count)]
    for node, capacity in enumerate(capacities):
        rows = [laplacian_row(node, links, capacity, sample) for sample in range(count)]
        for values, row in zip(samples, rows):
            values.extend(row[column] for column in sorted(row))
        columns.extend(sorted(rows[0]))
        row_starts.append(len(columns))
    return row_starts, columns, samples


def network_of_rows(description, nodes, count):
    """The same, as the description has it. Its lengths must be those that a job has; the program checks the rest."""
    if "capacities" in description:
        raise Unreadable("capacities", "they go with links; rows are taken as they are")
    rows = read_object(description["rows"], "rows", ("row_starts", "columns", "values"))
    row_starts = read_words(rows["row_starts"], "rows.row_starts", len(nodes) + 1)
    named = enumerate(read_list(rows["columns"], "rows.columns"))
    columns = [node_index(x, f"rows.columns[{i}]", nodes) if isinstance(x, str) else x for i, x in named]
    read_words(columns, "rows.columns")
    samples = read_list(rows["values"], "rows.values", count)
    return row_starts, columns, [read_reals(x, f"rows.values[{i}]", len(columns)) for i, x in enumerate(samples)]


def read_network(description, nodes, count):
    if ("links" in description) == ("rows" in description):
        raise Unreadable("", "a description has either 'links' or 'rows'")
    network = (network_of_links if "links" in description else network_of_rows)(description, nodes, count)
    entries = len(network[1])
    if entries > MOST_ENTRIES:
        raise Unreadable("links" if "links" in description else "rows.columns", f"{entries} entries; a job has at most {MOST_ENTRIES}")
    return network


def read_weights(description, nodes):
    """The root bound and the two lists of weights; or None for both."""
    if "weights" not in description and "root_bound" not in description:
        return None, None
    for name in ("weights", "root_bound"):
        if name not in description:
            raise Unreadable("", f"'{name}' is missing; weights and root_bound go together")
    lists = read_list(description["weights"], "weights", 2)
    root_bound = read_real(description["root_bound"], "root_bound")
    return root_bound, [read_by_node(x, f"weights[{i}]", nodes) for i, x in enumerate(lists)]


def read_form(description):
    """The order, 4 or 6, and whether the step is adjoint. Order 6 is neither weighted nor adjoint."""
    order, adjoint = description.get("order", 4), description.get("adjoint", False)
    if isinstance(order, bool) or order not in (4, 6):
        raise Unreadable("order", f"{order!r} is neither 4 nor 6")
    if not isinstance(adjoint, bool):
        raise Unreadable("adjoint", f"{kind_of(adjoint)} where true or false is wanted")
    for name in ("weights", "root_bound", "adjoint"):
        if order == 6 and (adjoint if name == "adjoint" else name in description):
            raise Unreadable(name, "no job of order 6 has it")
    return order, adjoint


def job_of(description):
    """The job of a description that was read from JSON."""
    read_object(description, "", NEEDED, OPTIONAL)
    nodes = read_nodes(description["nodes"])
    order, adjoint = read_form(description)
    row_starts, columns, samples = read_network(description, nodes, 3 if order == 6 else 2)
    root_bound, weights = read_weights(description, nodes)
    tau = read_real(description["tau"], "tau")
    bound = read_real(description["bound"], "bound") if "bound" in description else None
    signal = read_by_node(description["signal"], "signal", nodes)
    return Job(nodes, row_starts, columns, samples, tau, bound, root_bound, weights, signal, adjoint)


def without_doubles(pairs):
    """An object whose names differ."""
    names = [name for name, _ in pairs]
    for name in names:
        if names.count(name) > 1:
            raise Unreadable("", f"the name '{name}' stands twice in one object")
    return dict(pairs)


def finite_decimal(digits):
    """A decimal as the nearest double, which must not be infinite."""
    value = float(digits)
    if math.isinf(value):
        raise Unreadable("", f"the number {digits} is too large for a double")
    return value


def load(path):
    """The job that the file describes."""
    try:
        with open(path, encoding="utf-8") as file:
            description = json.load(file, object_pairs_hook=without_doubles, parse_float=finite_decimal)
    except OSError as error:
        raise Unreadable("", error.strerror) from None
    except json.JSONDecodeError as error:
        raise Unreadable(f"line {error.lineno}, column {error.colno}", f"no JSON: {error.msg}") from None
    except (UnicodeDecodeError, RecursionError, ValueError) as error:
        raise Unreadable("", f"no JSON: {error}") from None
    return job_of(description)


def encode(job):
    """The bytes of the job: the map, then the fields whose bits stand, in bit order."""
    def words(*numbers):
        return struct.pack(f"<{len(numbers)}H", *numbers)

    def reals(numbers):
        return struct.pack(f"<{len(numbers)}d", *numbers)

    fields = {0: words(len(job.nodes), len(job.columns), *job.row_starts, *job.columns)}
    fields.update({1 + i: reals(values) for i, values in enumerate(job.samples)})
    fields[4] = reals([job.tau])
    if job.bound is not None:
        fields[5] = reals([job.bound])
    if job.weights is not None:
        fields[6] = reals([job.root_bound, *job.weights[0], *job.weights[1]])
    fields[7] = reals(job.signal)
    if job.adjoint:
        fields[8] = b""
    return words(sum(1 << bit for bit in fields)) + b"".join(fields[bit] for bit in sorted(fields))
