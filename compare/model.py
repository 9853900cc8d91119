"""The sequence engine again, in Python: a model to compare the console with.

It is written from the documents in docs/ and shares nothing with the proved code. A term is a pair of its first word and the list of its
parts; a binding is a pair of its row and its body, or None where it is empty.
"""

(UNIT, VARIABLE, ABSTRACTION, COROUTINE, APPLICATION, YIELD, START, RESUME, SNAPSHOT, FIX, ATOM, OPERATION,
 INSTANCE, RESUMPTION, SUSPENSION, BINDING, UNIT_TYPE, BOTTOM_TYPE, BASE_TYPE, FUNCTION_TYPE, COROUTINE_TYPE,
 INSTANCE_TYPE, PROGRAM_HEAD, IMAGE_HEAD) = range(24)

PARTS = [0, 0, 1, 1, 2, 1, 2, 4, 1, 1, 0, 2, 0, 4, 2]
EVALUATED = [0, 0, 0, 0, 2, 1, 2, 4, 1, 1, 0, 2, 0, 1, 0]
VALUES = (UNIT, ABSTRACTION, COROUTINE, INSTANCE, ATOM)

NAME, ROW = 0xFFF, 0x1FF << 12
# the bits that have a use below the kind
USED_BITS = [0, NAME, NAME | ROW, NAME | ROW, 0, 0, ROW, 0, 0, 0, (1 << 27) - 1, 0xFF, NAME | ROW, NAME, 0, 1 | ROW,
             0, 0, 7, (1 << 18) - 1, (1 << 27) - 1, (1 << 18) - 1, (1 << 23) - 1, (1 << 27) - 1]

MOST_BINDINGS, FEWEST_WORDS, MOST_WORDS = 4095, 2, 16384


def word(kind, bits=0):
    return kind << 27 | bits


def kind(w):
    return w >> 27


def name(w):
    return w & 0xFFF


def row(w):
    return w >> 12 & 0x1FF


def lawful(w):
    return kind(w) < 24 and w & ((1 << 27) - 1) & ~USED_BITS[kind(w)] == 0


class Fault(Exception):
    def __init__(self, number, place):
        super().__init__(number, place)
        self.number = number
        self.place = place

    def __str__(self):
        layer = 'form' if 4 <= self.number <= 9 else 'check' if 10 <= self.number <= 13 else 'engine'
        return f'fault {layer} {self.number} {self.place}'


class Counts:
    bases = 2
    signatures = {0: (0, 0, 0), 1: (0, 0, 0), 2: (0, 0, 1), 3: (1, 1, 1)}

    def holds(self, base, payload):
        return base == 0 and payload < 65536 or base == 1 and payload < 2

    def apply(self, operation, p, q):
        return [(p + q) % 65536, max(p - q, 0), int(p >= q), p & q][operation]


class Interlocks:
    bases = 1
    signatures = {0: (0, 0, 0), 1: (0, 0, 0)}
    table = [[0, 1, 2, 3], [0, 1, 2, 3], [1, 1, 2, 3], [3, 3, 2, 3]]

    def holds(self, base, payload):
        return base == 0 and payload < 4

    def apply(self, operation, p, q):
        return max(p, q) if operation == 0 else self.table[p][q]


# --- programs

def read_program(quantities, words):
    """The rows and the term words, or faults 4 to 9."""
    if not words or kind(words[0]) != PROGRAM_HEAD or not lawful(words[0]):
        raise Fault(4, 0)
    rows, count = words[0] & 0x3FF, words[0] >> 10 & 0x1FFF
    if not quantities.bases + 2 <= rows <= 512 or not 1 <= count <= 4096 or len(words) != 1 + rows + count:
        raise Fault(4, 0)
    table, term = words[1:1 + rows], words[1 + rows:]
    for i, w in enumerate(table):
        if not row_in_order(quantities, i, w):
            raise Fault(5, 1 + i)
        if w in table[:i]:
            raise Fault(6, 1 + i)
    check_form(table, term)
    return table, term


def row_in_order(quantities, i, w):
    if not lawful(w):
        return False
    if i < 2:
        return kind(w) == (UNIT_TYPE, BOTTOM_TYPE)[i]
    if i < quantities.bases + 2:
        return w == word(BASE_TYPE, i - 2)
    fields = {FUNCTION_TYPE: 2, COROUTINE_TYPE: 3, INSTANCE_TYPE: 2}.get(kind(w), 0)
    return fields > 0 and all(w >> 9 * j & 0x1FF < i for j in range(fields))


def check_form(table, term):
    to_come = [1]  # for each unfinished term, how many parts are still to come
    for place, w in enumerate(term, 1 + len(table)):
        while to_come and to_come[-1] == 0:
            to_come.pop()
        if not to_come:
            raise Fault(8, place)
        wanted = {ABSTRACTION: FUNCTION_TYPE, COROUTINE: COROUTINE_TYPE, START: INSTANCE_TYPE}.get(kind(w))
        if not lawful(w) or kind(w) > OPERATION or \
                wanted is not None and (row(w) >= len(table) or kind(table[row(w)]) != wanted):
            raise Fault(7, place)
        to_come[-1] -= 1
        if len(to_come) > 256:
            raise Fault(9, place)
        to_come.append(PARTS[kind(w)])
    if any(to_come):
        raise Fault(8, 1 + len(table) + len(term))


class Check:
    """The types of a term, or faults 10 to 13."""

    def __init__(self, quantities, table, term):
        self.quantities, self.table, self.term, self.at = quantities, table, term, 0

    def type_at(self, r):
        w = self.table[r]
        count = {FUNCTION_TYPE: 2, COROUTINE_TYPE: 3, INSTANCE_TYPE: 2}.get(kind(w), 0)
        return kind(w), [w >> 9 * j & 0x1FF for j in range(count)]

    def join(self, v, w, place):
        if v == w or v == 1:
            return w
        if w == 1:
            return v
        raise Fault(13, place)

    def judge(self, scope):
        """The row of the type and of the least yield type of the next term."""
        place, w = 1 + len(self.table) + self.at, self.term[self.at]
        self.at += 1
        if kind(w) == UNIT:
            return 0, 1
        if kind(w) == VARIABLE:
            for bound, r in reversed(scope):
                if bound == name(w):
                    return r, 1
            raise Fault(10, place)
        if kind(w) == ATOM:
            base = w >> 24 & 7
            if base >= self.quantities.bases or not self.quantities.holds(base, w & 0xFFFFFF):
                raise Fault(11, place)
            return 2 + base, 1
        if kind(w) in (ABSTRACTION, COROUTINE):
            fields = self.type_at(row(w))[1]
            body = self.judge(scope + [(name(w), fields[0])])
            self.want(body[0] == fields[-1], place)
            self.want_yields([body], 1 if kind(w) == ABSTRACTION else fields[1], place)
            return row(w), 1
        parts = [self.judge(scope) for _ in range(PARTS[kind(w)])]
        return self.rule(w, parts, place)

    def want(self, condition, place):
        if not condition:
            raise Fault(12, place)

    def want_yields(self, parts, wanted, place):
        if any(y not in (1, wanted) for _, y in parts):
            raise Fault(13, place)

    def rule(self, w, parts, place):
        first, fields = self.type_at(parts[0][0])
        if kind(w) == APPLICATION:
            self.want(first in (FUNCTION_TYPE, COROUTINE_TYPE) and parts[1][0] == fields[0], place)
            if first == FUNCTION_TYPE:
                return fields[1], self.join(parts[0][1], parts[1][1], place)
            self.want_yields(parts, fields[1], place)
            return fields[2], fields[1]
        if kind(w) == YIELD:
            self.want_yields(parts, parts[0][0], place)
            return 0, parts[0][0]
        if kind(w) == START:
            self.want(first == COROUTINE_TYPE and parts[1][0] == fields[0] and self.type_at(row(w))[1] == fields[1:], place)
            return row(w), self.join(parts[0][1], parts[1][1], place)
        if kind(w) == RESUME:
            return self.resume(first, fields, parts, place)
        if kind(w) == SNAPSHOT:
            self.want(first == INSTANCE_TYPE, place)
            return parts[0]
        if kind(w) == FIX:
            self.want(first == FUNCTION_TYPE and fields[0] == fields[1], place)
            self.want_yields(parts, 1, place)
            return fields[0], 1
        signature = self.quantities.signatures.get(w & 0xFF)
        if signature is None:
            raise Fault(11, place)
        self.want(parts[0][0] == 2 + signature[0] and parts[1][0] == 2 + signature[1], place)
        return 2 + signature[2], self.join(parts[0][1], parts[1][1], place)

    def resume(self, first, fields, parts, place):
        handlers = [self.type_at(r) for r, _ in parts[1:]]
        self.want(first == INSTANCE_TYPE and all(k == COROUTINE_TYPE for k, _ in handlers), place)
        self.want([f[0] for _, f in handlers] == [fields[1], fields[0], 0], place)
        self.want(all(f[1:] == handlers[0][1][1:] for _, f in handlers), place)
        self.want_yields(parts, handlers[0][1][1], place)
        return handlers[0][1][2], handlers[0][1][1]


def admit(quantities, program, scopes, judgements):
    """The rows of type and yield type, and the term."""
    if scopes < 256 or judgements < 256:
        raise Fault(1, 0)
    table, term = read_program(quantities, program)
    types = Check(quantities, table, term).judge([])
    return types, decode(iter(term))


# --- terms and images

def decode(words):
    w = next(words)
    return w, [decode(words) for _ in range(PARTS[kind(w)])]


def encode(term):
    words, todo = [], [term]
    while todo:
        w, parts = todo.pop()
        words.append(w)
        todo.extend(reversed(parts))
    return words


def is_value(term):
    return kind(term[0]) in VALUES


def state_of(term):
    return 'ended' if is_value(term) else 'offering' if kind(term[0]) == SUSPENSION else 'going'


def image_of(length, term, bindings):
    """The used words and the words of the image; fewer words than are used where it does not fit."""
    words = encode(term)
    for r, body in bindings:
        words.append(word(BINDING, r << 12 | (body is not None)))
        words += encode(body) if body else []
    used = 1 + len(words)
    return used, [word(IMAGE_HEAD, len(bindings) << 15 | used)] + words + [0] * (length - used)


def read_image(words):
    """The term and the bindings, or None."""
    if not FEWEST_WORDS <= len(words) <= MOST_WORDS or kind(words[0]) != IMAGE_HEAD:
        return None
    used, count = words[0] & 0x7FFF, words[0] >> 15 & 0xFFF
    rest = iter(words[1:])
    try:
        term = decode_checked(rest, count)
        bindings = []
        for _ in range(count):
            w = next(rest)
            if kind(w) != BINDING or not lawful(w):
                return None
            bindings.append((row(w), decode_checked(rest, count) if w & 1 else None))
    except (StopIteration, ValueError):
        return None
    if image_of(len(words), term, bindings) != (used, words):
        return None
    return term, bindings


def decode_checked(words, count):
    w = next(words)
    if not lawful(w) or kind(w) > SUSPENSION or kind(w) in (INSTANCE, RESUMPTION) and name(w) >= count:
        raise ValueError
    parts = [decode_checked(words, count) for _ in range(PARTS[kind(w)])]
    values = parts[1:] if kind(w) in (RESUMPTION, SUSPENSION) else []
    if not all(map(is_value, values)):
        raise ValueError
    return w, parts


# --- steps

def replace(x, value, term):
    w, parts = term
    if kind(w) == VARIABLE:
        return value if name(w) == x else term
    if kind(w) in (ABSTRACTION, COROUTINE) and name(w) == x:
        return term
    return w, [replace(x, value, part) for part in parts]


def first_unevaluated(term):
    """The number of the first evaluated part that is not a value."""
    for j in range(EVALUATED[kind(term[0])]):
        if not is_value(term[1][j]):
            return j
    return None


def step(quantities, term, bindings):
    """The successor, or None, and the step's place."""
    path, place = [], 1
    while True:
        j = first_unevaluated(term)
        if j is None or kind(term[1][j][0]) == SUSPENSION:
            break
        path.append((term, j))
        place += 1 + sum(len(encode(part)) for part in term[1][:j])
        term = term[1][j]
    made = line(quantities, term, bindings)
    if made is None:
        return None, place
    term, bindings = made
    for (w, parts), j in reversed(path):
        term = w, parts[:j] + [term] + parts[j + 1:]
    return (term, bindings), place


def put(bindings, label, body):
    return bindings[:label] + [(bindings[label][0], body)] + bindings[label + 1:]


def line(quantities, term, bindings):
    """What the term where the path ends becomes, and the bindings; None where no line applies."""
    w, parts = term
    j = first_unevaluated(term)
    if kind(w) == RESUMPTION:
        return resumption(name(w), parts, bindings)
    if j is not None:
        under, pending = parts[j][1]
        return (word(SUSPENSION), [(w, parts[:j] + [under] + parts[j + 1:]), pending]), bindings
    first = parts[0] if parts else None
    if kind(w) == APPLICATION and kind(first[0]) in (ABSTRACTION, COROUTINE):
        return replace(name(first[0]), parts[1], first[1][0]), bindings
    if kind(w) == YIELD:
        return (word(SUSPENSION), [(UNIT, []), first]), bindings
    if kind(w) == START and kind(first[0]) == COROUTINE:
        body = replace(name(first[0]), parts[1], first[1][0])
        return (word(INSTANCE, row(w) << 12 | len(bindings)), []), bindings + [(row(w), body)]
    if kind(w) == RESUME and kind(first[0]) == INSTANCE:
        label = name(first[0])
        body = bindings[label][1]
        if body is None:
            return (word(APPLICATION), [parts[3], (UNIT, [])]), bindings
        return (word(RESUMPTION, label), [body] + parts[1:]), put(bindings, label, None)
    if kind(w) == SNAPSHOT and kind(first[0]) == INSTANCE:
        copied = bindings[name(first[0])]
        return (word(INSTANCE, copied[0] << 12 | len(bindings)), []), bindings + [copied]
    if kind(w) == FIX and kind(first[0]) == ABSTRACTION:
        return replace(name(first[0]), term, first[1][0]), bindings
    if kind(w) == OPERATION:
        return operation(quantities, w & 0xFF, parts[0][0], parts[1][0], bindings)
    return None


def resumption(label, parts, bindings):
    body = parts[0]
    if bindings[label][1] is not None:
        return None
    if is_value(body):
        return (word(APPLICATION), [parts[1], body]), bindings
    if kind(body[0]) == SUSPENSION:
        return (word(APPLICATION), [parts[2], body[1][1]]), put(bindings, label, body[1][0])
    return None


def operation(quantities, number, a, b, bindings):
    signature = quantities.signatures.get(number)
    if signature is None or kind(a) != ATOM or kind(b) != ATOM:
        return None
    p, q = a & 0xFFFFFF, b & 0xFFFFFF
    if (a >> 24 & 7, b >> 24 & 7) != signature[:2] or \
            not quantities.holds(signature[0], p) or not quantities.holds(signature[1], q):
        return None
    return (word(ATOM, signature[2] << 24 | quantities.apply(number, p, q)), []), bindings


# --- the console

def hexed(words):
    return ''.join(f' {w:08X}' for w in words)


class Session:
    """The console: the answer to each command line that can be read."""

    def __init__(self):
        self.quantities, self.program, self.state, self.image = Counts(), [], None, None

    def answer(self, text):
        command, *given = text.split(' ')
        try:
            if command == 'set':
                return self.choose(given[0])
            if command in ('program', 'load'):
                return {'program': self.store, 'load': self.load}[command]([int(w, 16) for w in given])
            calls = {'admit': self.admit, 'open': self.open, 'run': self.run, 'show': self.show, 'take': self.take,
                     'image': self.show_image}
            return calls[command](*map(int, given))
        except Fault as fault:
            return str(fault)

    def choose(self, chosen):
        self.quantities = Counts() if chosen == 'counts' else Interlocks()
        self.state = self.image = None
        return 'set ' + chosen

    def store(self, words):
        self.program = words
        return f'program {len(words)}'

    def load(self, words):
        if self.state is None:
            return 'state'
        self.image = words
        return f'load {len(words)}'

    def show_image(self):
        return 'state' if self.state is None else 'image' + hexed(self.image)

    def admit(self, scopes, judgements):
        types, _ = admit(self.quantities, self.program, scopes, judgements)
        return 'admit type {} yield {}'.format(*types)

    def open(self, scopes, judgements, length, spare):
        if scopes < 256 or judgements < 256:
            raise Fault(1, 0)
        check_lengths(length, spare)
        _, term = admit(self.quantities, self.program, scopes, judgements)
        used, image = image_of(length, term, [])
        if used > length:
            raise Fault(15, 0)
        self.image, self.state = image, state_of(term)
        return 'open ' + self.state

    def enter(self, spare):
        check_lengths(len(self.image), spare)
        read = read_image(self.image)
        if read is None:
            raise Fault(16, 0)
        if state_of(read[0]) != self.state:
            raise Fault(17, 0)
        return read

    def run(self, most, spare):
        if self.state != 'going':
            return 'state'
        made = 0
        try:
            term, bindings = self.enter(spare)
            while made < most and state_of(term) == 'going':
                term, bindings = self.step(term, bindings)
                made += 1
        except Fault as fault:
            return f'{fault} made {made}'
        self.state = state_of(term)
        return f'run {made} {self.state}'

    def step(self, term, bindings):
        successor, place = step(self.quantities, term, bindings)
        if successor is None:
            raise Fault(18, place)
        if len(successor[1]) > MOST_BINDINGS:
            raise Fault(14, place)
        used, image = image_of(len(self.image), *successor)
        if used > len(self.image):
            raise Fault(15, place)
        self.image = image
        return successor

    def show(self):
        if self.state not in ('offering', 'ended'):
            return 'state'
        term, _ = self.enter(len(self.image))
        if self.state == 'ended':
            return 'show 1' + hexed(encode(term))
        under, pending = term[1]
        return f'show {2 + len(encode(under))}' + hexed(encode(pending))

    def take(self, spare):
        if self.state != 'offering':
            return 'state'
        term, bindings = self.enter(spare)
        term = term[1][0]
        self.image, self.state = image_of(len(self.image), term, bindings)[1], state_of(term)
        return 'take ' + self.state


def check_lengths(length, spare):
    if not FEWEST_WORDS <= length <= MOST_WORDS:
        raise Fault(2, 0)
    if spare != length:
        raise Fault(3, 0)
