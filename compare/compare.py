#!/usr/bin/env python3
"""Compares the console with the model on random transcripts.

    compare/compare.py [SEED [ROUNDS]]

A transcript has programs that are well typed by construction, the same with words changed, and foreign images, each with random calls.
Prints the lines that differ, if there are any, and how often each kind of answer came; ends with 1 where a line differs.
The console must have been built: (cd crates/console && rt run)
"""

import collections
import os
import random
import subprocess
import sys

import model
from model import word

CONSOLE = os.path.join(os.path.dirname(os.path.abspath(__file__)), '..', 'crates', 'console', 'out', 'console')
YIELD_FIVE = [0xB0000804, 0x80000000, 0x88000000, 0x90000000, 0x90000001, 0x28000000, 0x50000005]


class Programs:
    """Random programs that are well typed."""

    def __init__(self, rnd, quantities):
        self.rnd, self.quantities, self.rows = rnd, quantities, []

    def program(self):
        while True:
            self.make_rows()
            rows = len(self.rows)
            type_row = self.rnd.choice([0, 0, 2, self.rnd.randrange(rows)])
            yields = self.rnd.choice([0, 0, 1, 2, 2, self.rnd.randrange(rows)])
            term = self.term([], type_row, yields, self.rnd.randrange(1, 8))
            if term and (len(term) >= 4 or self.rnd.random() < 0.2):
                return [word(model.PROGRAM_HEAD, rows | len(term) << 10)] + [self.row_word(r) for r in self.rows] + term

    def make_rows(self):
        self.rows = [('unit',), ('bottom',)] + [('base', k) for k in range(self.quantities.bases)]
        for _ in range(self.rnd.randrange(1, 9)):
            kind = self.rnd.choice(['function', 'coroutine', 'coroutine', 'instance'])
            refs = [self.rnd.choice([0, 0, 1, 2, 2, self.rnd.randrange(len(self.rows))]) for _ in range(3)]
            self.add((kind, *refs[:3 if kind == 'coroutine' else 2]))
            if kind == 'coroutine' and self.rnd.random() < 0.8:
                self.add(('instance', refs[1], refs[2]))
        for row in list(self.rows):
            if row[0] == 'instance' and self.rnd.random() < 0.9:
                yields, result = self.rnd.choice([0, 1, 1, 2]), self.rnd.choice([0, 0, 2, row[2]])
                for argument in (row[2], row[1], 0):
                    self.add(('coroutine', argument, yields, result))

    def add(self, row):
        if row not in self.rows:
            self.rows.append(row)

    def row_word(self, row):
        kinds = {'unit': model.UNIT_TYPE, 'bottom': model.BOTTOM_TYPE, 'base': model.BASE_TYPE,
                 'function': model.FUNCTION_TYPE, 'coroutine': model.COROUTINE_TYPE, 'instance': model.INSTANCE_TYPE}
        return word(kinds[row[0]], sum(ref << 9 * j for j, ref in enumerate(row[1:])))

    def numbers(self, test):
        return [i for i, row in enumerate(self.rows) if test(row)]

    def term(self, scope, wanted, yields, depth):
        """The words of a term of a type whose yield type may be read as the one given, or None."""
        names = [x for x, r in scope if r == wanted and self.looked_up(scope, x) == wanted]
        makers = [lambda: [word(model.VARIABLE, self.rnd.choice(names))]] if names else []
        plain = wanted == 0 or 2 <= wanted < 2 + self.quantities.bases
        if depth > 0:
            makers += [lambda m=m: m(scope, wanted, yields, depth - 1) for m in (
                self.introduce, self.apply, self.apply, self.offer, self.offer, self.operate, self.copy, self.fix,
                self.resume, self.resume, self.resume)]
            self.rnd.shuffle(makers)
        elif depth > -5 or plain:
            makers.append(lambda: self.introduce(scope, wanted, yields, depth - 1))
        for make in makers[:4]:
            made = make()
            if made is not None and len(made) < 600:
                return made
        return None

    def looked_up(self, scope, x):
        return next(r for n, r in reversed(scope) if n == x)

    def joined(self, first, scope, parts, yields, depth):
        """A word, and parts of the types given."""
        words = [first]
        for wanted in parts:
            part = self.term(scope, wanted, yields, depth)
            if part is None:
                return None
            words += part
        return words

    def introduce(self, scope, wanted, yields, depth):
        row = self.rows[wanted]
        if row[0] == 'unit':
            return [0]
        if row[0] == 'base':
            payloads = [p for p in (0, 1, 2, 3, 7, 65534, 65535) if self.quantities.holds(row[1], p)]
            return [word(model.ATOM, row[1] << 24 | self.rnd.choice(payloads))]
        if row[0] in ('function', 'coroutine'):
            x, kind = self.rnd.randrange(4), model.ABSTRACTION if row[0] == 'function' else model.COROUTINE
            body_yields = 1 if row[0] == 'function' else row[2]
            return self.joined(word(kind, wanted << 12 | x), scope + [(x, row[1])], [row[-1]], body_yields, depth)
        started = self.numbers(lambda r: r[0] == 'coroutine' and r[2:] == row[1:])
        if row[0] != 'instance' or not started:
            return None
        coroutine = self.rnd.choice(started)
        return self.joined(word(model.START, wanted << 12), scope, [coroutine, self.rows[coroutine][1]], yields, depth)

    def apply(self, scope, wanted, yields, depth):
        applied = self.numbers(lambda r: r[0] == 'function' and r[2] == wanted or r[0] == 'coroutine' and r[2:] == (yields, wanted))
        if not applied:
            return None
        chosen = self.rnd.choice(applied)
        return self.joined(word(model.APPLICATION), scope, [chosen, self.rows[chosen][1]], yields, depth)

    def offer(self, scope, wanted, yields, depth):
        return self.joined(word(model.YIELD), scope, [yields], yields, depth) if wanted == 0 and yields != 1 else None

    def operate(self, scope, wanted, yields, depth):
        fitting = [(o, s) for o, s in self.quantities.signatures.items() if 2 + s[2] == wanted]
        if not fitting:
            return None
        number, signature = self.rnd.choice(fitting)
        return self.joined(word(model.OPERATION, number), scope, [2 + signature[0], 2 + signature[1]], yields, depth)

    def copy(self, scope, wanted, yields, depth):
        return self.joined(word(model.SNAPSHOT), scope, [wanted], yields, depth) if self.rows[wanted][0] == 'instance' else None

    def fix(self, scope, wanted, yields, depth):
        functions = self.numbers(lambda r: r == ('function', wanted, wanted))
        return self.joined(word(model.FIX), scope, functions[:1], 1, depth) if functions else None

    def resume(self, scope, wanted, yields, depth):
        instances = self.numbers(lambda r: r[0] == 'instance')
        self.rnd.shuffle(instances)
        for i in instances:
            handlers = [('coroutine', argument, yields, wanted) for argument in (self.rows[i][2], self.rows[i][1], 0)]
            if all(h in self.rows for h in handlers):
                return self.joined(word(model.RESUME), scope, [i] + [self.rows.index(h) for h in handlers], yields, depth)
        return None


class Foreign:
    """Random words: images that no program led to, and words that are changed a little."""

    def __init__(self, rnd):
        self.rnd = rnd

    def term(self, bindings, depth, value=False):
        kinds = list(model.VALUES) if value or depth <= 0 else list(range(15)) + [4, 4, 5, 7, 13, 13, 14, 14]
        kind = self.rnd.choice(kinds)
        if kind in (model.INSTANCE, model.RESUMPTION) and bindings == 0:
            kind = model.UNIT
        bits = self.rnd.randrange(3) | self.rnd.choice([0, 1, 4, 5]) << 12
        if kind in (model.INSTANCE, model.RESUMPTION):
            bits = bits & ~0xFFF | self.rnd.randrange(bindings)
        if kind == model.ATOM:
            bits = self.rnd.choice([0, 0, 1]) << 24 | self.rnd.choice([0, 1, 2, 3, 65535, 65536])
        if kind == model.OPERATION:
            bits = self.rnd.randrange(5)
        words = [word(kind, bits & model.USED_BITS[kind])]
        for j in range(model.PARTS[kind]):
            must = j > 0 and kind in (model.RESUMPTION, model.SUSPENSION)
            likely = model.EVALUATED[kind] > 0 and kind != model.RESUMPTION and self.rnd.random() < 0.5
            words += self.term(bindings, depth - 1, must or likely)
        return words

    def image(self):
        bindings = self.rnd.choice([0, 1, 1, 2, 2, 3])
        words = self.term(bindings, self.rnd.randrange(1, 6))
        for _ in range(bindings):
            ready = self.rnd.random() < 0.5
            words.append(word(model.BINDING, self.rnd.choice([0, 4, 5]) << 12 | ready))
            words += self.term(bindings, self.rnd.randrange(3)) if ready else []
        head = word(model.IMAGE_HEAD, bindings << 15 | 1 + len(words))
        return [head] + words + [0] * self.rnd.choice([0, 0, 1, 2, 5, 40])

    def changed(self, words):
        words = list(words)
        for _ in range(self.rnd.choice([1, 1, 1, 2])):
            i = self.rnd.randrange(len(words))
            way = self.rnd.randrange(5)
            if way == 0:
                words[i] ^= 1 << self.rnd.randrange(32)
            elif way == 1:
                words[i] = word(self.rnd.randrange(32), self.rnd.choice([0, 0, 1, 0x1000, 0x5000, self.rnd.randrange(1 << 27)]))
            elif way == 2 and len(words) > 1:
                del words[i]
            elif way == 3:
                words.insert(i, self.rnd.choice(words))
            else:
                words[i] = self.rnd.choice(words)
        return words


class Transcript:
    """Command lines, with the answers that the model gives."""

    def __init__(self, seed):
        self.rnd, self.session, self.lines = random.Random(seed), model.Session(), []
        self.foreign = Foreign(self.rnd)

    def say(self, text):
        self.lines.append((text, self.session.answer(text)))

    def run_program(self):
        if self.rnd.random() < 0.15:
            self.say('set ' + self.rnd.choice(['counts', 'interlocks']))
        program = Programs(self.rnd, self.session.quantities).program()
        if self.rnd.random() < 0.25:
            program = self.foreign.changed(program)
        self.say('program' + model.hexed(program))
        self.say('admit 256 256')
        term = program[0] >> 10 & 0x1FFF if program else 0
        length = min(self.rnd.choice([1, 2, 3, term, 1 + term, 2 + term, 9 + term, 40 + term, 300, 1000]), 16384)
        spare = length + (self.rnd.random() < 0.05)
        self.say(f'open {self.rnd.choice([256] * 12 + [255])} {self.rnd.choice([256] * 12 + [255])} {length} {spare}')
        for _ in range(self.rnd.randrange(1, 25)):
            if self.session.state is None:
                break
            if self.rnd.random() < 0.05:
                self.say('load' + model.hexed(self.foreign.changed(self.session.image)))
            self.call()

    def run_image(self):
        self.say('set counts')
        self.say('program' + model.hexed(YIELD_FIVE))
        self.say('open 256 256 8 8')
        for text in ('run 1 8', 'take 8')[:self.rnd.choice([0, 0, 0, 1, 2])]:
            self.say(text)
        image = self.foreign.image()
        self.say('load' + model.hexed(self.foreign.changed(image) if self.rnd.random() < 0.2 else image))
        for _ in range(self.rnd.randrange(1, 8)):
            self.call()

    def call(self):
        """A call that the present state allows."""
        length = len(self.session.image)
        spare = max(length + self.rnd.choice([0] * 40 + [-1, 1]), 0)
        steps = self.rnd.choice([0, 1, 1, 1, 2, 3, 10, 50])
        self.say({'going': f'run {steps} {spare}', 'ended': 'show',
                  'offering': self.rnd.choice(['show', f'take {spare}', f'take {spare}'])}[self.session.state])
        if length < 200:
            self.say('image')


def main():
    seed = int(sys.argv[1]) if len(sys.argv) > 1 else 1
    rounds = int(sys.argv[2]) if len(sys.argv) > 2 else 200
    sys.setrecursionlimit(100000)
    transcript = Transcript(seed)
    for _ in range(rounds):
        transcript.run_program()
    for _ in range(rounds):
        transcript.run_image()
    text = ''.join(line + '\n' for line, _ in transcript.lines)
    answers = subprocess.run([CONSOLE], input=text, capture_output=True, text=True, check=True).stdout.splitlines()
    answers += ['(nothing)'] * (len(transcript.lines) - len(answers))
    kinds, differing = collections.Counter(), 0
    for (line, expected), answer in zip(transcript.lines, answers):
        fault = ' '.join(expected.split(' ')[:3]) if expected.startswith('fault') else 'answered'
        kinds[f'{line.split(" ")[0]}: {fault}'] += 1
        if answer != expected:
            differing += 1
            print(f'{line}\n  model   {expected}\n  console {answer}')
    for kind, count in sorted(kinds.items()):
        print(f'{count:6} {kind}')
    print(f'seed {seed}: {len(transcript.lines)} lines, {differing} differ')
    sys.exit(differing > 0)


main()
