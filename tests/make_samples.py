#!/usr/bin/env python3
"""Writes samples/NAME.kgs, and beside each samples/NAME.out what the program solve must print for it.

    tests/make_samples.py            writes the files
    tests/make_samples.py --check    writes nothing; fails where a file is not what would be written

Three parts. `Sheet` turns a description (nodes, edges, payoffs) into bytes. `opened`, `Game` and `printed` follow the rules
of docs/ and nothing else: they share no text with the crates, and Python's floats are IEEE 754 doubles, each product and
each sum rounded once. `SOLUTIONS` and `REFUSALS` have the descriptions; a sheet that is to be refused is most often another
one with a field changed.
"""
import struct
import sys
from math import inf, isfinite, nan
from pathlib import Path

SAMPLES = Path(__file__).resolve().parent.parent / "samples"
NODES, CHILDREN, ACTIONS, CHANCES, TRANSITIONS, TERMINALS, PAYOFFS, SETS, LABELS, TEXT = range(10)
WIDTH = [12, 8, 12, 20, 8, 8, 8, 16, 8, 1]
MOST = [1024, 1024, 1024, 1024, 1024, 1024, 4096, 1024, 256, 4096]
NO_PLAYER = 4294967295
GREATEST = sys.float_info.max
LEAST = 5e-324


# ---- from a description to bytes

class Sheet:
    """Rows stand in the order in which they are described. A label text is entered where it is first used."""

    def __init__(self, root):
        self.root, self.rows, self.texts = root, [[] for _ in range(10)], []

    def row(self, section, layout, *fields):
        self.rows[section].append(struct.pack("<" + layout, *fields))
        return self

    def label(self, text):
        """The number of a label text."""
        if text not in self.texts:
            self.add_label(text)
        return self.texts.index(text)

    def add_label(self, text):
        offset = sum(map(len, self.texts))
        self.texts.append(text)
        self.rows[TEXT].append(text.encode("latin-1"))
        return self.row(LABELS, "II", offset, len(text))

    def decision(self, entity, player):
        return self.row(NODES, "III", entity, 0, player)

    def chance(self, entity):
        return self.row(NODES, "III", entity, 1, 0)

    def terminal(self, entity, *payoffs):
        return self.row(NODES, "III", entity, 2, 0).utility(entity, *payoffs)

    def utility(self, entity, *payoffs):
        self.row(TERMINALS, "II", entity, len(payoffs))
        for x in payoffs:
            self.row(PAYOFFS, "d", x)
        return self

    def child(self, edge, parent):
        return self.row(CHILDREN, "II", edge, parent)

    def transition(self, edge, target):
        return self.row(TRANSITIONS, "II", edge, target)

    def action(self, edge, parent, text, target):
        self.child(edge, parent).transition(edge, target)
        return self.row(ACTIONS, "III", edge, self.label(text), target)

    def outcome(self, edge, parent, text, probability, target):
        self.child(edge, parent).transition(edge, target)
        return self.row(CHANCES, "IIId", edge, self.label(text), target, probability)

    def member(self, entity, player, identity):
        return self.row(SETS, "IIQ", entity, player, identity)

    def bytes(self):
        sections = [b"".join(rows) for rows in self.rows]
        header, offset = b"KGS1" + struct.pack("<HHI", 1, 0, self.root), 92
        for section in sections:
            header += struct.pack("<II", offset, len(section))
            offset += len(section)
        return header + b"".join(sections)


def changed(data, layout, *places):
    """The bytes with other numbers at some places: pairs of a place and a number."""
    data = bytearray(data)
    for place, value in zip(places[::2], places[1::2]):
        struct.pack_into("<" + layout, data, place, value)
    return bytes(data)


def place(data, section, row, field):
    """Where a field of a row stands: the field is named by its first byte in the row."""
    return struct.unpack_from("<I", data, 12 + 8 * section)[0] + WIDTH[section] * row + field


# ---- opening, by docs/SHEET.md and docs/REFUSALS.md

class Refused(Exception):
    """A refusal: its number, then its fields."""


def opened(data):
    """The rows of the sections, each a tuple of numbers, and the root; or the first fault."""
    if not 92 <= len(data) <= 65536:
        raise Refused(1, len(data))
    if data[:4] != bytes([0x4B, 0x47, 0x53, 0x31]):
        raise Refused(2)
    edition, zero, root = struct.unpack_from("<HHI", data, 4)
    if edition != 1:
        raise Refused(3, edition)
    if zero != 0:
        raise Refused(4, 10)
    pairs = [struct.unpack_from("<II", data, 12 + 8 * k) for k in range(10)]
    end = 92
    for k, (offset, length) in enumerate(pairs):
        if offset != end or length % WIDTH[k] != 0 or length // WIDTH[k] > MOST[k]:
            raise Refused(4, k)
        end = offset + length
    if end != len(data):
        raise Refused(4, 9)
    layouts = ["<III", "<II", "<III", "<IIIQ", "<II", "<II", "<Q", "<IIQ", "<II", "<B"]
    rows = [list(struct.iter_unpack(f, data[o:o + n])) for f, (o, n) in zip(layouts, pairs)]
    for k in [LABELS, TEXT, NODES, CHILDREN, ACTIONS, CHANCES, TRANSITIONS, TERMINALS, PAYOFFS, SETS]:
        seen = set()
        for i, row in enumerate(rows[k]):
            if k <= TERMINALS or k == SETS:
                if row[0] in seen:
                    raise Refused(5, k, i)
                seen.add(row[0])
            fault(rows, k, i, row)
        if k == TERMINALS and sum(count for _, count in rows[k]) != len(rows[PAYOFFS]):
            raise Refused(5, k, len(rows[k]))
    return root, rows


def fault(rows, k, i, row):
    """The faults of a row other than a repeated entity: those of 5, then 6 to 10."""
    if k == LABELS:
        offset, length = row
        if i > 0 and offset < sum(rows[LABELS][i - 1]) or offset + length > len(rows[TEXT]):
            raise Refused(5, k, i)
    elif k == TEXT:
        if not 0x20 <= row[0] <= 0x7E:
            raise Refused(5, k, i)
    elif k == NODES:
        if row[1] > 2 or row[1] != 0 and row[2] != 0:
            raise Refused(5, k, i)
        if row[2] == NO_PLAYER:
            raise Refused(6, NO_PLAYER)
    elif k in (ACTIONS, CHANCES):
        if row[1] >= len(rows[LABELS]):
            raise Refused(5, k, i)
        if rows[LABELS][row[1]][1] == 0:
            raise Refused(7)
        if k == CHANCES and not 0 < number(row[3]) <= 1:
            raise Refused(8, row[3])
    elif k == TERMINALS:
        if row[1] > 8:
            raise Refused(5, k, i)
        if row[1] == 0:
            raise Refused(9)
    elif k == PAYOFFS:
        if not isfinite(number(row[0])):
            raise Refused(10)
    elif k == SETS:
        if row[1] == NO_PLAYER:
            raise Refused(6, NO_PLAYER)


def number(bits):
    return struct.unpack("<d", struct.pack("<Q", bits))[0]


# ---- the chance-weighted solve with limit 0, by docs/CALLS.md and docs/REFUSALS.md

class Game:
    """The game that a sheet's rows mean, and its solve: `visit` gives the terminal or None, the label numbers and the
    payoffs; or the first refusal. A node's answer with so much depth is worked out once and kept: that is the same answer
    at each visit."""

    def __init__(self, rows):
        self.kinds = {entity: (kind, player) for entity, kind, player in rows[NODES]}
        self.children = rows[CHILDREN]
        self.targets = dict(rows[TRANSITIONS])
        self.edge_rows = {section: {row[0]: row for row in rows[section]} for section in (ACTIONS, CHANCES)}
        self.payoffs, first = {}, 0
        for entity, count in rows[TERMINALS]:
            self.payoffs[entity] = [number(bits) for bits, in rows[PAYOFFS][first:first + count]]
            first += count
        self.known = {}

    def edges(self, section, source):
        found = []
        for edge, parent in self.children:
            if parent != source or edge not in self.edge_rows[section]:
                continue
            row = self.edge_rows[section][edge]
            if edge not in self.targets:
                raise Refused(14, edge)
            if row[2] != self.targets[edge]:
                raise Refused(15, edge, row[2], self.targets[edge])
            found.append(row)
        return found

    def visit(self, entity, depth):
        if depth > 32:
            raise Refused(24, entity)
        if entity not in self.kinds:
            raise Refused(11, entity)
        if (entity, depth) not in self.known:
            kind, player = self.kinds[entity]
            answer = [self.decision, self.chance, self.terminal][kind]
            self.known[entity, depth] = answer(entity, depth, player)
        return self.known[entity, depth]

    def terminal(self, entity, depth, player):
        if entity not in self.payoffs:
            raise Refused(13, entity)
        return entity, [], self.payoffs[entity]

    def decision(self, entity, depth, player):
        best = None
        for _, label, target in self.edges(ACTIONS, entity):
            end, labels, values = self.visit(target, depth + 1)
            if player >= len(values):
                raise Refused(18, target if end is None else end, player)
            if best is None or values[player] > best[2][player]:
                best = end, [label] + labels, values
        if best is None:
            raise Refused(16, entity)
        return best

    def chance(self, entity, depth, player):
        sums = None
        for _, _, target, bits in self.edges(CHANCES, entity):
            values = self.visit(target, depth + 1)[2]
            products = [number(bits) * x for x in values]
            if sums is None:
                sums = products
            elif len(products) != len(sums):
                raise Refused(19, entity, len(sums), len(products))
            else:
                sums = [a + b for a, b in zip(sums, products)]
        if sums is None:
            raise Refused(17, entity)
        if not all(map(isfinite, sums)):
            raise Refused(25, entity)
        return None, [], sums


def printed(data):
    """What the program prints. It reads no further than 65,537 bytes."""
    try:
        root, rows = opened(data[:65537])
        end, labels, values = Game(rows).visit(root, 1)
    except Refused as r:
        return ("refused" + "".join(f" {x}" for x in r.args + (0,) * (5 - len(r.args))) + "\n").encode()
    text = bytes(b for b, in rows[TEXT])
    out = b"terminal %s\n" % (b"none" if end is None else str(end).encode())
    for offset, length in (rows[LABELS][n] for n in labels):
        out += b"action " + text[offset:offset + length] + b"\n"
    for x in values:
        out += b"payoff " + struct.pack(">d", x).hex().encode() + b"\n"
    return out


# ---- the descriptions

def worked():
    """The worked sheet of docs/SHEET.md."""
    return (Sheet(1).decision(1, 0).chance(2).terminal(3, 2, 2).terminal(4, 8, 0).terminal(5, 0, 4)
            .action(10, 1, "open", 2).action(11, 1, "wait", 3)
            .outcome(12, 2, "high", 0.25, 4).outcome(13, 2, "low", 0.75, 5))


def choice(player, *terminals):
    """A decision at node 1 among terminals 2, 3, .. with these payoffs."""
    s = Sheet(1).decision(1, player)
    for i, payoffs in enumerate(terminals):
        s.terminal(2 + i, *payoffs).action(10 + i, 1, chr(97 + i), 2 + i)
    return s


def lottery(*outcomes):
    """A chance node 1 over terminals 2, 3, ..: each outcome is a probability and the payoffs."""
    s = Sheet(1).chance(1)
    for i, (p, *payoffs) in enumerate(outcomes):
        s.terminal(2 + i, *payoffs).outcome(10 + i, 1, chr(97 + i), p, 2 + i)
    return s


def ladder(levels, texts=("left", "right")):
    """So many decisions in a row, nodes 1, 2, .., each with an edge for each text to the next node, then a terminal."""
    s = Sheet(1)
    for n in range(1, levels + 1):
        s.decision(n, 0)
        for i, text in enumerate(texts):
            s.action(100 * (i + 1) + n, n, text, n + 1)
    return s.terminal(levels + 1, 1)


def nested():
    """Player 0 moves, then player 1, then chance under one of the replies."""
    return (Sheet(1).decision(1, 0).decision(2, 1).decision(3, 1).chance(6)
            .terminal(4, 3, 1).terminal(5, 0, 2).terminal(7, 6, 0).terminal(8, -2, 9)
            .action(10, 1, "bid", 2).action(11, 1, "pass", 3)
            .action(12, 2, "accept", 4).action(13, 2, "counter", 6)
            .action(14, 3, "close", 5)
            .outcome(15, 6, "rival stays", 0.5, 7).outcome(16, 6, "rival leaves", 0.5, 8))


def solutions():
    yield "worked", worked()

    swapped = worked()
    swapped.rows[CHILDREN][:2] = swapped.rows[CHILDREN][1::-1]
    yield "child_rows_swapped", swapped

    yield "single_terminal", Sheet(7).terminal(7, 1.5, -2.5)
    yield "tie", choice(0, [1, 5], [1, 6], [1, 7])
    yield "strictly_greater", choice(1, [1, 5], [1, 6], [9, 6])
    yield "nested", nested()
    yield "eight_payoffs", choice(7, range(8), [0, 0, 0, 0, 0, 0, 0, 7.25])
    yield "greatest_entity", (Sheet(4294967295).decision(4294967295, 0).terminal(4294967294, 1)
                              .action(4294967293, 4294967295, "only", 4294967294))


def solutions_by_floats():
    yield "minus_zero", choice(0, [-0.0], [0.0])
    yield "minus_zero_sum", lottery([0.5, -0.0, -0.0, 1], [0.5, -0.0, 0.0, -1])
    # in chance-row order, with one rounding for each outcome or with one in all, the last bit is another
    rounded = lottery([0.3, 7.7], [0.2, 2.3], [0.1, 0.1])
    rounded.rows[CHILDREN].reverse()
    yield "rounded_in_child_row_order", rounded
    yield "probabilities_not_summing_to_one", lottery([1.0, 3], [1.0, 4], [LEAST, 5])
    yield "subnormal", lottery([0.5, LEAST, 3 * LEAST], [0.75, LEAST, -LEAST])
    yield "greatest_payoff", lottery([0.5, GREATEST], [0.5, GREATEST])


def solutions_by_labels():
    unused = worked()
    for text in ("", "never", "open", ""):
        unused.add_label(text)
    yield "unused_labels", unused
    characters = "".join(map(chr, range(0x20, 0x7F)))
    yield "label_characters", ladder(1, [characters])
    yield "longest_label", ladder(3, [(characters * 44)[:4096]])


def solutions_by_walk():
    # what the solve does not visit does not matter
    unvisited = worked().decision(50, 0).row(NODES, "III", 51, 2, 0).action(60, 51, "open", 99).member(1, 0, 7).member(50, 3, 7)
    yield "unvisited_faults", unvisited
    yield "rows_of_the_other_kind_skipped", choice(0, [1], [2]).outcome(20, 1, "chance", 1.0, 99).child(21, 1)

    # depth: limit 0 is 32
    yield "ladder_of_31_levels", ladder(31)


BASE = worked().bytes()


def at(section, row, field):
    return place(BASE, section, row, field)


def refused_layouts():
    """1 to 4: size, mark, edition, layout."""
    yield "refused_01_empty", b""
    yield "refused_01_header_cut_short", BASE[:91]
    yield "refused_02_zeros", bytes(92)
    yield "refused_02_mark", changed(BASE, "B", 3, 0x32)
    yield "refused_03_edition_0", changed(BASE, "H", 4, 0)
    yield "refused_03_edition_2", changed(BASE, "H", 4, 2)
    yield "refused_04_zero_u16", changed(BASE, "H", 6, 256)
    yield "refused_04_first_offset", changed(BASE, "I", 12, 93)
    yield "refused_04_gap_between_sections", changed(BASE, "I", 12 + 8 * 5, place(BASE, 5, 0, 1))
    yield "refused_04_part_row", changed(BASE, "I", 16 + 8 * 3, 39)
    yield "refused_04_too_many_rows", changed(BASE, "I", 16 + 8 * 8, 8 * 257)
    yield "refused_04_cut_short", BASE[:-1]
    yield "refused_04_byte_after_the_text", BASE + b" "
    many = worked()
    for n in range(1020):
        many.terminal(1000 + n, 0)
    yield "refused_04_1025_nodes", many


def refused_rows():
    """5, and which of several faults is named."""
    yield "refused_05_repeated_node", changed(BASE, "I", at(NODES, 4, 0), 2)
    yield "refused_05_kind", changed(BASE, "I", at(NODES, 1, 4), 3)
    yield "refused_05_player_at_a_chance_node", changed(BASE, "I", at(NODES, 1, 8), 1)
    yield "refused_05_player_at_a_terminal", changed(BASE, "I", at(NODES, 2, 8), NO_PLAYER)
    yield "refused_05_repeated_child", changed(BASE, "I", at(CHILDREN, 3, 0), 10)
    yield "refused_05_repeated_action", changed(BASE, "I", at(ACTIONS, 1, 0), 10)
    yield "refused_05_action_label_number", changed(BASE, "I", at(ACTIONS, 1, 4), 4)
    yield "refused_05_chance_label_number", changed(BASE, "I", at(CHANCES, 0, 4), 4)
    yield "refused_05_repeated_transition", changed(BASE, "I", at(TRANSITIONS, 1, 0), 10)
    yield "refused_05_repeated_terminal", changed(BASE, "I", at(TERMINALS, 2, 0), 3)
    yield "refused_05_nine_payoffs", Sheet(1).terminal(1, *range(9))
    yield "refused_05_too_few_payoff_rows", changed(BASE, "I", at(TERMINALS, 2, 4), 3)
    yield "refused_05_too_many_payoff_rows", changed(BASE, "I", at(TERMINALS, 2, 4), 1)
    yield "refused_05_repeated_set_member", worked().member(1, 0, 7).member(2, 0, 7).member(1, 0, 8)
    yield "refused_05_label_before_the_last_one_ends", changed(BASE, "I", at(LABELS, 1, 0), 3)
    yield "refused_05_label_past_the_text", changed(BASE, "I", at(LABELS, 3, 4), 4)
    yield "refused_05_text_byte_1f", changed(BASE, "B", at(TEXT, 4, 0), 0x1F)
    yield "refused_05_text_byte_7f", changed(BASE, "B", at(TEXT, 14, 0), 0x7F)
    yield "refused_05_labels_before_nodes", changed(BASE, "I", at(NODES, 0, 4), 3, at(LABELS, 2, 4), 99)
    yield "refused_05_text_before_nodes", changed(BASE, "I", at(NODES, 0, 8), NO_PLAYER, at(TEXT, 0, 0), 0x0A0A0A0A)
    yield "refused_05_repeated_before_kind", changed(BASE, "I", at(NODES, 3, 0), 1, at(NODES, 3, 4), 7)
    yield "refused_05_total_before_payoffs", changed(BASE, "I", at(TERMINALS, 0, 4), 1, at(PAYOFFS, 0, 4), 0x7FF00000)


def refused_values():
    """6 to 10."""
    yield "refused_06_node", changed(BASE, "I", at(NODES, 0, 8), NO_PLAYER)
    yield "refused_06_row_0_before_row_1", changed(BASE, "I", at(NODES, 0, 8), NO_PLAYER, at(NODES, 1, 4), 3)
    yield "refused_06_set", worked().member(1, NO_PLAYER, 7)
    empty = worked().add_label("").bytes()
    yield "refused_07_action", changed(empty, "I", place(empty, ACTIONS, 1, 4), 4)
    yield "refused_07_before_8", changed(empty, "I", place(empty, CHANCES, 1, 4), 4, place(empty, CHANCES, 1, 16), 0x40000000)
    yield "refused_08_zero", changed(BASE, "d", at(CHANCES, 0, 12), 0.0)
    yield "refused_08_minus_zero", changed(BASE, "d", at(CHANCES, 0, 12), -0.0)
    yield "refused_08_negative", changed(BASE, "d", at(CHANCES, 1, 12), -0.25)
    yield "refused_08_above_one", changed(BASE, "Q", at(CHANCES, 1, 12), 0x3FF0000000000001)
    yield "refused_08_nan", changed(BASE, "Q", at(CHANCES, 1, 12), 0x7FF8000000000001)
    yield "refused_09_no_payoffs", Sheet(1).terminal(1)
    yield "refused_10_infinite", changed(BASE, "d", at(PAYOFFS, 3, 0), -inf)
    yield "refused_10_nan", changed(BASE, "d", at(PAYOFFS, 5, 0), nan)


def refused_solves():
    yield "refused_11_no_rows", Sheet(1)
    yield "refused_11_root", changed(BASE, "I", 8, 9)
    yield "refused_11_target", choice(0, [1]).action(20, 1, "out", 77)
    yield "refused_13_no_terminal_row", Sheet(1).row(NODES, "III", 1, 2, 0)
    yield "refused_14_no_transition", changed(BASE, "I", at(TRANSITIONS, 1, 0), 99)
    yield "refused_14_before_15", changed(BASE, "I", at(TRANSITIONS, 0, 0), 99, at(TRANSITIONS, 1, 4), 4)
    yield "refused_14_before_a_target_is_visited", choice(0, [1]).action(20, 1, "out", 77).child(21, 1).row(ACTIONS, "III", 21, 0, 2)
    yield "refused_15_transition_elsewhere", changed(BASE, "I", at(TRANSITIONS, 1, 4), 5)
    yield "refused_15_chance", changed(BASE, "I", at(TRANSITIONS, 2, 4), 3)
    yield "refused_16_no_action", Sheet(1).decision(1, 0).child(10, 1)
    yield "refused_17_no_outcome", Sheet(1).chance(1)
    yield "refused_18_terminal", choice(2, [1, 2, 3], [1, 2])
    yield "refused_18_no_terminal", (Sheet(1).decision(1, 1).chance(2).terminal(3, 5)
                                     .action(10, 1, "go", 2).outcome(11, 2, "on", 1.0, 3))
    yield "refused_19_payoff_counts", lottery([0.5, 1, 2], [0.25, 1], [0.25, 1, 2])
    yield "refused_19_after_an_overflow", lottery([1.0, GREATEST], [1.0, GREATEST], [1.0, 1, 2])
    loop = Sheet(1).decision(1, 0).chance(2).action(10, 1, "on", 2).outcome(11, 2, "back", 1.0, 1)
    yield "refused_24_loop_of_transitions", loop
    yield "refused_24_own_target", Sheet(5).decision(5, 0).action(10, 5, "again", 5)
    yield "refused_24_ladder_of_32_levels", ladder(32)
    yield "refused_25_overflow", lottery([1.0, 1, GREATEST], [1.0, 1, GREATEST])
    yield "refused_25_infinities_of_both_signs", lottery([1.0, GREATEST], [1.0, GREATEST], [1.0, -GREATEST], [1.0, -GREATEST])
    yield "refused_25_below_a_decision", (Sheet(1).decision(1, 0).chance(2).terminal(3, GREATEST)
                                          .action(10, 1, "go", 2).outcome(11, 2, "x", 1.0, 3).outcome(12, 2, "y", 1.0, 3)
                                          .action(13, 1, "out", 77))


SOLUTIONS = [solutions, solutions_by_floats, solutions_by_labels, solutions_by_walk]
REFUSALS = [refused_layouts, refused_rows, refused_values, refused_solves]


def main():
    files = {}
    for name, sheet in (described for part in SOLUTIONS + REFUSALS for described in part()):
        data = sheet if isinstance(sheet, bytes) else sheet.bytes()
        text = printed(data)
        assert name not in [n.split(".")[0] for n in files], name
        assert text.startswith(b"refused %d " % int(name[8:10]) if name.startswith("refused") else b"terminal "), (name, text)
        files[name + ".kgs"], files[name + ".out"] = data, text
    there = {p.name for p in SAMPLES.iterdir()}
    if sys.argv[1:] == ["--check"]:
        wrong = sorted(there ^ set(files)) + [n for n in files if n in there and (SAMPLES / n).read_bytes() != files[n]]
        sys.exit(f"not as tests/make_samples.py has it: {', '.join(wrong)}" if wrong else 0)
    for name, content in files.items():
        (SAMPLES / name).write_bytes(content)
    print(f"{len(files) // 2} sheets")


if __name__ == "__main__":
    main()
