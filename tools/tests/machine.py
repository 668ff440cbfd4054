"""The machine by labels: 01, 'One reaction' and 'States and resuming', with 02's items 1, 3, 4, 5 and 12.

It holds a set of labels and reacts with the expansion of its sequence, and so shares neither the state nor the residuals of
the paper. Without setpause the expansion is the term that remains on paper, command by command.
"""
from collections import Counter, namedtuple

from tests.generate import litres_of

HELD = "held"
Node = namedtuple("Node", "kind operand place parts made own", defaults=[False, b""])
Answer = namedtuple("Answer", "emitted code labels errors litres", defaults=[Counter()])  # the litres of each farm


def tree_of(lines, read_back=0):
    """The sequence, in the declarations of its read-back signals."""
    lines = iter(lines)

    def build():
        place, _, own = next(lines)
        count = {4: 2, 5: 2, 6: 1, 7: 2, 8: 1, 9: 1, 11: 1}.get(own[0], 0)
        return Node(own[0], own[1] if len(own) > 1 else None, place, [build() for _ in range(count)], own=own)

    tree = build()
    for signal in reversed([signal for signal in range(32) if read_back >> signal & 1]):
        tree = Node(8, signal, 65535, [tree])
    return tree


def labels_in(node):
    labels = 1 << node.operand if node.kind == 1 else 0
    for part in node.parts:
        labels |= labels_in(part)
    return labels


def made_nothing(node):
    return Node(0, None, node.place, [], True)


def expand(node, labels):
    """What a waiting machine reacts with; of the labels one is inside."""
    active = [part for part in node.parts if labels_in(part) & labels]
    if node.kind == 1:
        return made_nothing(node)
    if node.kind == 4 and labels_in(node.parts[0]) & labels:
        return node._replace(parts=[expand(node.parts[0], labels), node.parts[1]])
    if node.kind in (4, 7):
        return expand(active[0], labels)
    if node.kind == 5:
        return node._replace(parts=[expand(part, labels) if part in active else made_nothing(part) for part in node.parts])
    inside = expand(node.parts[0], labels)
    if node.kind == 6:
        return Node(4, None, node.place, [inside, node], True)
    if node.kind == 11:
        return Node(HELD, (node.operand, labels & labels_in(node)), node.place, [inside])
    return node._replace(parts=[inside])


def react(node, present):
    kind, parts = node.kind, node.parts
    if kind in (1, 10):
        return Answer(0, 1, 1 << node.operand, [])
    if kind == 12:
        return Answer(1 << node.operand, 0, 0, [], Counter({node.operand: litres_of(node.own)}))
    if kind in (0, 2, 3):
        return Answer(1 << node.operand if kind == 2 else 0, node.operand + 1 if kind == 3 else 0, 0, [])
    if kind == 8:
        return declare(node, present)
    if kind == 7:
        return react(parts[0] if present >> node.operand & 1 else parts[1], present)
    if kind == HELD and present >> node.operand[0] & 1:
        return Answer(0, 1, node.operand[1], [])
    first = react(parts[0], present)
    if kind == 6 and first.code == 0:
        return Answer(0, 255, 0, first.errors + [(1, node.place)])
    if kind == 9:
        return first._replace(code={2: 0, 0: 0, 1: 1, 255: 255}.get(first.code, first.code - 1))
    if kind in (6, 11, HELD) or kind == 4 and first.code != 0:
        return first
    second = react(parts[1], present)
    code = second.code if kind == 4 else max(first.code, second.code)
    labels = (first.labels | second.labels) if code == 1 else 0
    litres = Counter(first.litres)
    litres.update(second.litres)
    return Answer(first.emitted | second.emitted, code, labels, first.errors + second.errors, litres)


def declare(node, present):
    """Inheritance of a wrong run first (02, item 4)."""
    bit = 1 << node.operand
    absent, there = react(node.parts[0], present & ~bit), react(node.parts[0], present | bit)
    errors = absent.errors + there.errors
    if 255 in (absent.code, there.code):
        return Answer(0, 255, 0, errors)
    if (absent.emitted ^ there.emitted) & bit:
        return Answer(0, 255, 0, errors + [(2 if absent.emitted & bit else 3, node.place)])
    chosen = there if there.emitted & bit else absent
    if node.place == 65535:
        return chosen._replace(errors=errors)
    litres = Counter({farm: chosen.litres[farm] for farm in chosen.litres if farm != node.operand})
    return chosen._replace(emitted=chosen.emitted & ~bit, errors=errors, litres=litres)


def answers(lines, read_back, inputs):
    """The answers of a run."""
    tree, labels = tree_of(lines, read_back), 0
    for given in inputs:
        answer = react(expand(tree, labels) if labels else tree, given)
        yield answer
        labels = answer.labels
        if answer.code != 1:
            break


def run(lines, read_back, inputs):
    """The instants of a listing."""
    instants = []
    for answer in answers(lines, read_back, inputs):
        wrong = answer.code == 255
        kind, place = answer.errors[0] if wrong else (0, 0)
        instants.append((answer.code, kind, place, 0 if wrong else answer.emitted, answer.labels))
    return instants


def deliveries(lines, read_back, inputs):
    """The litres of each farm in the instants of a run; a wrong one has none."""
    return [{} if answer.code == 255 else dict(answer.litres) for answer in answers(lines, read_back, inputs)]


def table_of(node, depth=1):
    """Depth, place and bytes of each command of a term, the read-back declarations aside; none for what expansion made."""
    if node.place == 65535:
        return table_of(node.parts[0], depth)
    kind, operand = (11, node.operand[0]) if node.kind == HELD else (node.kind, node.operand)
    own = b"" if node.made else node.own or bytes([kind] if operand is None else [kind, operand])
    table = [(depth, node.place, own)]
    for part in node.parts:
        table += table_of(part, depth + 1)
    return table
