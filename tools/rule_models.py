"""The rules of the dictionary, written twice: as the arrival book, which knows rows only, and as the tree, which knows
nodes, edges and labels only. A call is a name with its arguments; tags and buffers are tuples of bytes.
"""
STEP_SYMBOL = 8160


def refusal_of_tag(tag):
    """The number that refuses these bytes as a tag, or None."""
    if len(tag) == 0:
        return 1
    if len(tag) > 200:
        return 2
    return 3 if 0 in tag or 255 in tag else None


def common(a, b):
    """How many leading bytes agree."""
    return next((i for i, (x, y) in enumerate(zip(a, b)) if x != y), min(len(a), len(b)))


def perform(machine, call):
    """The answer of a book or a tree to one call, and what the buffer holds afterwards."""
    name, args = call
    if name == "spell":
        buffer = list(args[1])
        return machine.spell(args[0], buffer), tuple(buffer)
    if name != "double" and refusal_of_tag(args[0]):
        return ("refused", refusal_of_tag(args[0])), ()
    return getattr(machine, name)(*args), ()


# ---------------------------------------------------------------- the book

class Row:
    def __init__(self, tag, value, start, owner, offset, ticket, needed, moves):
        self.tag, self.value, self.struck = tag, value, False
        self.start, self.owner, self.offset = start, owner, offset
        self.ticket, self.needed, self.moves = ticket, needed, moves
        self.spelled = tag + (0,)
        self.label_bytes = len(self.spelled) - start


class Book:
    def __init__(self, room, to_come, byte_room):
        self.rows, self.room, self.to_come, self.byte_room = [], room, list(to_come), byte_room

    def nodes(self):
        return 1 + sum(row.needed for row in self.rows)

    def label_bytes(self):
        return sum(row.label_bytes for row in self.rows)

    def steps(self, r):
        return max([row.offset // 32 for row in self.rows if row.owner == r], default=0)

    def row_of(self, tag):
        return next((row for row in self.rows if row.tag == tag), None)

    def owner_and_offset(self, tag):
        """Of a tag in no row, when rows exist."""
        shared = [common(row.spelled, tag + (0,)) for row in self.rows]
        owner = shared.index(max(shared))
        return owner, max(shared) - self.rows[owner].start

    def new_row(self, tag, value):
        if not self.rows:
            return Row(tag, value, 0, None, 0, 0, 0, 0)
        owner, offset = self.owner_and_offset(tag)
        needed = 1 + max(0, offset // 32 - self.steps(owner))
        start = self.rows[owner].start + offset + 1
        return Row(tag, value, start, owner, offset, self.nodes() + needed - 1, needed,
                   self.rows[owner].moves + 1 + offset // 32)

    def enter(self, tag, value):
        row = self.row_of(tag)
        if row and not row.struck:
            return ("refused", 4)
        if row:
            row.value, row.struck = value, False
            return ("ticket", row.ticket)
        row = self.new_row(tag, value)
        if self.nodes() + row.needed > self.room:
            return ("refused", 6)
        if self.label_bytes() + row.label_bytes > self.byte_room:
            return ("refused", 7)
        self.rows.append(row)
        return ("ticket", row.ticket)

    def change(self, tag, value, struck=False):
        row = self.row_of(tag)
        if row is None or row.struck:
            return ("refused", 5)
        row.value, row.struck = value, struck
        return ("ticket", row.ticket)

    def strike(self, tag):
        return self.change(tag, None, True)

    def find(self, tag):
        row = self.row_of(tag)
        if row:
            return ("absent", row.moves) if row.struck else ("found", row.ticket, row.value, row.moves)
        if not self.rows:
            return ("absent", 0)
        owner, offset = self.owner_and_offset(tag)
        return ("absent", self.rows[owner].moves + min(offset // 32, self.steps(owner)))

    def spell(self, ticket, buffer):
        row = next((row for row in self.rows if row.ticket == ticket), None)
        if row is None:
            return ("refused", 8)
        if len(buffer) < len(row.tag):
            return ("refused", 9)
        buffer[:len(row.tag)] = row.tag
        return ("length", len(row.tag))

    def double(self):
        if not self.to_come:
            return ("refused", 10)
        self.room = self.to_come.pop(0)
        return ("room", self.room)


# ---------------------------------------------------------------- the tree

class Tree:
    """Nodes are (parent, symbol, label); the values lie apart on a shelf."""

    def __init__(self, room, to_come, byte_room):
        self.nodes, self.children, self.shelf = [], {}, {}
        self.rooms, self.current, self.byte_room = [room, *to_come], 0, byte_room

    def look(self, tag):
        """The node or None, the moves, where the walk stopped, the symbols still to pass, and what remains."""
        node, moves, rest = 0, 0, tag + (0,)
        if not self.nodes:
            return None, 0, None, [], rest
        while self.nodes[node][2] != rest:
            i = common(self.nodes[node][2], rest)
            path = [STEP_SYMBOL] * (i // 32) + [32 * rest[i] + i % 32]
            rest = rest[i + 1:]
            while path:
                if (node, path[0]) not in self.children:
                    return None, moves, node, path, rest
                node, moves = self.children[node, path.pop(0)], moves + 1
        return node, moves, None, [], rest

    def label_bytes(self):
        return sum(len(label) for _, _, label in self.nodes)

    def enter(self, tag, value):
        node, _, at, path, rest = self.look(tag)
        if node in self.shelf:
            return ("refused", 4)
        if node is None:
            if len(self.nodes) + len(path) > self.rooms[self.current]:
                return ("refused", 6)
            if self.label_bytes() + len(rest) > self.byte_room:
                return ("refused", 7)
            for symbol in path or [None]:
                node = self.children[at, symbol] = len(self.nodes)
                self.nodes.append((at, symbol, () if symbol == STEP_SYMBOL else rest))
                at = node
        self.shelf[node] = value
        return ("ticket", node)

    def change(self, tag, value):
        node = self.look(tag)[0]
        if node not in self.shelf:
            return ("refused", 5)
        self.shelf[node] = value
        return ("ticket", node)

    def strike(self, tag):
        node = self.look(tag)[0]
        if node not in self.shelf:
            return ("refused", 5)
        del self.shelf[node]
        return ("ticket", node)

    def find(self, tag):
        node, moves = self.look(tag)[:2]
        return ("found", node, self.shelf[node], moves) if node in self.shelf else ("absent", moves)

    def climb(self, node):
        """The spelled form read on the way from a node up to node 0; None at a step node."""
        if node >= len(self.nodes) or self.nodes[node][1] == STEP_SYMBOL:
            return None
        parent, symbol, rest = self.nodes[node]
        while parent is not None:
            byte, place = symbol // 32, symbol % 32
            parent, symbol, label = self.nodes[parent]
            while symbol == STEP_SYMBOL:
                place += 32
                parent, symbol, label = self.nodes[parent]
            rest = label[:place] + (byte,) + rest
        return rest

    def spell(self, ticket, buffer):
        spelled = self.climb(ticket)
        if spelled is None:
            return ("refused", 8)
        if len(buffer) < len(spelled) - 1:
            return ("refused", 9)
        for i, byte in enumerate(spelled[:-1]):
            buffer[i] = byte
        return ("length", len(spelled) - 1)

    def double(self):
        if self.current + 1 == len(self.rooms):
            return ("refused", 10)
        self.current += 1
        return ("room", self.rooms[self.current])
