"""Random programs of the whole language, by its grammar: filters with parameters, fields, arrays,
truth values, windows, preworks, prints and helper functions; pipelines, split-joins and feedback
loops in one another, whose bodies have loops, branches and recursion; several tapes; faults of each
cause.

Rates agree, so that most programs come to a run. The same dice give the same program.
"""
from dataclasses import dataclass, field, replace
from fractions import Fraction
from math import lcm

# What a stream's items per item that it takes may have above and below, so that rounds stay small.
LARGEST = 12
ARITHMETIC = ["+", "-", "*", "&", "|", "^", "<<", ">>"]
COMPARISONS = ["==", "!=", "<", "<=", ">", ">="]
ASSIGNMENTS = ["=", "+=", "-=", "*="]
NUMBERS = ["0", "1", "2", "3", "7", "100", "65536", "2147483647", "2147483648", "(-1)", "(-5)"]


@dataclass
class Helper:
    """A helper function: what it gives, `int`, `boolean` or `void`, and its parameters."""

    name: str
    kind: str
    parameters: list


@dataclass
class Scope:
    """What can be named at a place: numbers, which of them can be written, truth values, arrays
    with their lengths, helper functions, and how many items of the window are left."""

    numbers: list = field(default_factory=list)
    variables: list = field(default_factory=list)
    truths: list = field(default_factory=list)
    arrays: list = field(default_factory=list)
    helpers: list = field(default_factory=list)
    window: int = 0

    def that_give(self, kind):
        return [it for it in self.helpers if it.kind == kind]

    def inner(self, **changes):
        lists = {it: [*getattr(self, it)] for it in ["numbers", "variables", "truths", "arrays"]}
        return replace(self, **{**lists, **changes})


@dataclass
class Stream:
    """A child: its text behind `add`, and how many items it gives for each that it takes; of one
    that takes none, or gives none, 1."""

    text: str
    gain: Fraction = Fraction(1)

    def added(self, word="add"):
        return f"{word} {self.text}" + ("" if self.text.endswith("}") else ";")


def mask(length):
    """The greatest power of two that is no more than this, less 1."""
    return (1 << (length.bit_length() - 1)) - 1


class Bodies:
    """Expressions and statements."""

    def __init__(self, dice):
        self.dice = dice
        self.declared = []
        self.count = 0
        # How likely an operation is that may fault.
        self.risk = dice.choice([0, 0, 0.01, 0.05])
        # What a filter without a name sees of its surroundings.
        self.around = []

    def chance(self, likely):
        return self.dice.random() < likely

    def name(self, kind):
        self.count += 1
        return f"{kind}{self.count}"

    def index(self, scope, length, depth):
        """An index below this length; at a risk any number."""
        index = self.number(scope, depth)
        if self.chance(self.risk):
            return f"{index} + peek(0)" if scope.window else index
        return str(self.dice.randrange(length)) if depth == 0 else f"({index}) & {mask(length)}"

    def leaf(self, scope):
        kind = self.dice.random()
        if kind < 0.3 or not scope.numbers:
            return self.dice.choice([*NUMBERS, str(self.dice.randint(0, 99))])
        return self.dice.choice(scope.numbers)

    def call(self, scope, kind, depth):
        """A call of a helper function that gives this, of which there is one."""
        helper = self.dice.choice(scope.that_give(kind))
        given = [self.number(scope, max(0, depth)) for _ in helper.parameters]
        return f"{helper.name}({', '.join(given)})"

    def number(self, scope, depth):
        """An expression of type int."""
        dice = self.dice
        if depth > 0 and scope.that_give("int") and self.chance(0.2):
            return self.call(scope, "int", depth - 1)
        if scope.window and self.chance(0.3):
            return f"peek({self.index(scope, scope.window, 0)})"
        if depth == 0 or self.chance(0.2):
            return self.leaf(scope)
        kind = dice.random()
        left = self.number(scope, depth - 1)
        if kind < 0.5:
            return f"({left} {dice.choice(ARITHMETIC)} {self.number(scope, depth - 1)})"
        if kind < 0.6:
            return f"{dice.choice('-~')}({left})"
        if kind < 0.7:
            right = self.number(scope, depth - 1)
            right = right if self.chance(10 * self.risk) else f"{right} | 1"
            return f"({left} {dice.choice('/%')} ({right}))"
        if kind < 0.8:
            other = self.number(scope, depth - 1)
            return f"({self.truth(scope, depth - 1)} ? {left} : {other})"
        if kind < 0.85 and scope.variables:
            step, variable = dice.choice(["++", "--"]), dice.choice(scope.variables)
            return dice.choice([f"{variable}{step}", f"({step}{variable})"])
        if kind < 0.95 and scope.arrays:
            name, length = dice.choice(scope.arrays)
            return f"{name}[{self.index(scope, length, depth - 1)}]"
        if scope.window:
            return f"peek({self.index(scope, scope.window, depth - 1)})"
        return left

    def truth(self, scope, depth):
        """An expression of type boolean."""
        dice = self.dice
        if depth > 0 and scope.that_give("boolean") and self.chance(0.3):
            return self.call(scope, "boolean", depth - 1)
        if scope.truths and self.chance(0.3):
            return dice.choice(scope.truths)
        if depth == 0 or self.chance(0.5):
            left, right = self.number(scope, depth), self.number(scope, 0)
            return f"({left} {dice.choice(COMPARISONS)} {right})"
        left, right = self.truth(scope, depth - 1), self.truth(scope, depth - 1)
        if self.chance(0.2):
            return f"!{left}" if left.startswith(("(", "h")) else dice.choice(["true", "false"])
        return f"({left} {dice.choice(['&&', '||', '==', '!='])} {right})"

    def assignment(self, scope):
        """A statement that writes a variable, an element or a truth value, if there is one."""
        dice = self.dice
        kind, value = dice.random(), self.number(scope, 2)
        if kind < 0.2 and scope.truths:
            return f"{dice.choice(scope.truths)} = {self.truth(scope, 2)};"
        if kind < 0.5 and scope.arrays:
            name, length = dice.choice(scope.arrays)
            index = self.index(scope, length, 1)
            return f"{name}[{index}] {dice.choice(ASSIGNMENTS)} {value};"
        if scope.variables:
            variable = dice.choice(scope.variables)
            if self.chance(0.2):
                return dice.choice([f"{variable}++;", f"--{variable};"])
            return f"{variable} {dice.choice(ASSIGNMENTS)} {value};"
        return ";"

    def declaration(self, scope):
        """A local variable, which can be named from then on."""
        kind = self.dice.random()
        if kind < 0.2:
            name = self.name("b")
            text = f"boolean {name} = {self.truth(scope, 2)};"
            scope.truths.append(name)
        elif kind < 0.4:
            name, length = self.name("a"), self.dice.randint(1, 9)
            text = f"int[{length}] {name};"
            scope.arrays.append((name, length))
        else:
            name = self.name("v")
            text = f"int {name}" + (f" = {self.number(scope, 2)};" if self.chance(0.8) else ";")
            scope.numbers.append(name)
            scope.variables.append(name)
        return text

    def loop(self, scope, depth):
        """A loop of a few turns, by a variable that its body doesn't write; at a risk endless."""
        dice = self.dice
        counter, turns, step = self.name("i"), dice.randint(0, 5), dice.randint(1, 3)
        inner = scope.inner()
        inner.numbers.append(counter)
        body = self.block(inner, depth - 1)
        if self.chance(0.2):
            guard = self.truth(scope, 1)
            return (f"{{ int {counter} = {turns}; "
                    f"while ({counter} > 0 && {guard}) {{ {counter}--; {body} }} }}")
        if self.chance(self.risk / 2):
            return f"while ({self.truth(scope, 1)}) ;"
        head = dice.choice([f"int {counter} = 0; {counter} < {turns}; {counter} += {step}",
                            f"int {counter} = {turns}; {counter} > 0; {counter}--",
                            f"int {counter} = -2; {counter} <= {turns}; ++{counter}"])
        return f"for ({head}) {body}"

    def statement(self, scope, depth):
        """A statement that moves no item."""
        kind = self.dice.random()
        if scope.helpers and self.chance(0.1):
            return f"{self.call(scope, self.dice.choice(scope.helpers).kind, 1)};"
        if depth == 0 or kind < 0.5:
            return self.assignment(scope)
        if kind < 0.65:
            return self.declaration(scope)
        if kind < 0.8:
            return self.loop(scope, depth)
        text = f"if ({self.truth(scope, 2)}) {self.block(scope.inner(), depth - 1)}"
        return text + (f" else {self.block(scope.inner(), depth - 1)}" if kind > 0.9 else "")

    def block(self, scope, depth):
        return f"{{ {self.statements(scope, depth, 3)} }}"

    def statements(self, scope, depth, most):
        return " ".join(self.statement(scope, depth) for _ in range(self.dice.randint(0, most)))


class Filters(Bodies):
    """Filters of given rates."""

    def pops(self, scope, left):
        """Statements that pop some of the items that are left. Gives how many, and the text."""
        dice = self.dice
        count = dice.randint(1, left)
        closed = scope.inner(window=0)
        if count > 1 and self.chance(0.7):
            into = f"{dice.choice(scope.variables)} += pop();" if scope.variables else "pop();"
            return count, f"for (int k = 0; k < {count}; k++) {into}"
        calls = [it for it in scope.that_give("int") if 0 < len(it.parameters) <= left]
        if calls and self.chance(0.3):
            helper = dice.choice(calls)
            given = ", ".join("pop()" for _ in helper.parameters)
            return len(helper.parameters), f"int {self.name('p')} = {helper.name}({given});"
        if self.chance(0.3):
            return 1, "pop();"
        if self.chance(0.3):
            pop = f"int {self.name('p')} = {self.truth(closed, 1)} ? pop() : -pop();"
            return 1, pop
        name = self.name("p")
        scope.numbers.append(name)
        scope.variables.append(name)
        return 1, f"int {name} = pop() {dice.choice(ARITHMETIC)} {self.number(closed, 1)};"

    def pushes(self, scope, left):
        """Statements that push some of the items that are left. Gives how many, and the text."""
        dice = self.dice
        count = dice.randint(1, left)
        if count > 1 and self.chance(0.7):
            inner = scope.inner()
            inner.numbers.append("k")
            push = f"push({self.number(inner, 2)});"
            return count, f"for (int k = {count}; k >= 1; k--) {push}"
        value, other = self.number(scope, 2), self.number(scope, 2)
        if self.chance(0.3):
            condition = self.truth(scope, 2)
            return 1, f"if ({condition}) push({value}); else {{ push({other}); }}"
        return 1, f"push({value});"

    def prints(self, scope):
        word = self.dice.choice(["print", "println"])
        text = f"{word}({self.number(scope, 2)});"
        return f"if ({self.truth(scope, 1)}) {text}" if self.chance(0.3) else text

    def body(self, scope, pop, push, window, prints):
        """A block that pops and pushes so many items, in any order."""
        scope = scope.inner(window=window)
        lines = []
        while pop or push or not lines:
            lines.append(self.statements(scope, 2, 2))
            if prints and self.chance(0.5):
                lines.append(self.prints(scope))
            if pop and (not push or self.chance(0.5)):
                count, text = self.pops(scope, pop)
                pop -= count
                scope.window -= count
            elif push:
                count, text = self.pushes(scope, push)
                push -= count
            else:
                continue
            lines.append(text)
        return f"{{ {' '.join(filter(None, lines))} }}"

    def rates(self, push, pop, window, constants):
        """The rates of a body, each as an expression over the constants whose values are known, in
        any order."""
        words = []
        for word, rate in [("push", push), ("pop", pop), ("peek", window)]:
            if rate is None or (word == "peek" and rate == pop and self.chance(0.5)):
                continue
            text = str(rate)
            known = [it for it in constants.items() if it[1] is not None]
            if known and self.chance(0.5):
                constant, value = self.dice.choice(known)
                text = f"({constant} + {rate - value})" if rate >= value else f"{rate} + 0"
            words.append(f"{word} {text}")
        self.dice.shuffle(words)
        return " ".join(words)

    def fields(self, scope):
        """Declarations of fields, and `init`."""
        dice, lines = self.dice, []
        if self.chance(0.4):
            name = self.name("x")
            value = f" = {self.number(scope, 2)}" if self.chance(0.6) else ""
            lines.append(f"int {name}{value};")
            scope.numbers.append(name)
            # Where nothing writes it the filter may have no state.
            if self.chance(0.7):
                scope.variables.append(name)
        if self.chance(0.2):
            name, length = self.name("t"), dice.randint(1, 9)
            lines.append(f"int[{length}] {name};")
            scope.arrays.append((name, length))
        if self.chance(0.2):
            name = self.name("f")
            lines.append(f"boolean {name} = {self.truth(scope, 1)};")
            scope.truths.append(name)
        if self.chance(0.2):
            lines.append(f"init {self.block(scope.inner(), 2)}")
        return " ".join(lines)

    def signatures(self):
        """A few helper functions without their bodies; mostly none."""
        found = []
        for _ in range(self.dice.choice([0, 0, 0, 1, 2, 3])):
            name, kind = self.name("h"), self.dice.choice(["int", "int", "boolean", "void"])
            parameters = [self.name("m") for _ in range(self.dice.randint(0, 3))]
            found.append(Helper(name, kind, parameters))
        return found

    def returned(self, scope, kind):
        if kind == "void":
            return "return;"
        value = self.number(scope, 2) if kind == "int" else self.truth(scope, 2)
        return f"return {value};"

    def again(self, scope, helper):
        """A statement that calls the helper function itself a few times; at a risk without end."""
        given = [self.number(scope, 1) for _ in helper.parameters[1:]]
        if not helper.parameters:
            return f"if ({self.truth(scope, 1)}) {helper.name}();" if self.chance(self.risk) else ";"
        left = helper.parameters[0]
        limit = "" if self.chance(self.risk) else f" && {left} < {self.dice.randint(1, 9)}"
        call = f"{helper.name}({', '.join([f'{left} - 1', *given])})"
        if helper.kind == "void" or self.chance(0.3):
            return f"if ({left} > 0{limit}) {call};"
        if helper.kind == "boolean":
            return f"if ({left} > 0{limit}) return !{call};"
        return f"if ({left} > 0{limit}) return {call} {self.dice.choice(ARITHMETIC)} {left};"

    def helper(self, scope, helper, before):
        """A helper function, which may call those before it, and itself."""
        inner = scope.inner(helpers=before)
        inner.numbers.extend(helper.parameters)
        inner.variables.extend(helper.parameters)
        lines = [self.again(inner, helper)] if self.chance(0.4) else []
        lines.append(self.statements(inner, 2, 2))
        if self.chance(0.4):
            lines.append(f"if ({self.truth(inner, 1)}) {{ {self.returned(inner, helper.kind)} }}")
            lines.append(self.statements(inner, 1, 2))
        if self.chance(0.7):
            lines.append(self.returned(inner, helper.kind))
        parameters = ", ".join(f"int {it}" for it in helper.parameters)
        body = " ".join(filter(None, lines))
        return f"{helper.kind} {helper.name}({parameters}) {{ {body} }}"

    def members(self, pop, push, constants, plain=False, prints=False):
        """The members of a filter; None is a side without items. A plain one starts by itself."""
        scope = Scope(numbers=[*constants], helpers=self.signatures())
        text = self.fields(scope)
        for place, it in enumerate(scope.helpers):
            text += " " + self.helper(scope, it, scope.helpers[:place])
        rates = push or 0, pop or 0
        more = 0 if plain or not pop or self.chance(0.6) else self.dice.randint(1, 5)
        window = rates[1] + more
        if not plain and self.chance(0.15):
            first_pop = self.dice.randint(0, 3) if pop else 0
            first_push = self.dice.randint(0, 4) if push else 0
            first_window = first_pop + (self.dice.randint(0, 2) if pop else 0)
            words = self.rates(first_push if push else None, first_pop if pop else None,
                               first_window if pop else None, constants)
            body = self.body(scope, first_pop, first_push, first_window, prints)
            text += f" prework {words} {body}"
        words = self.rates(push, pop, window if pop else None, constants)
        body = self.body(scope, rates[1], rates[0], window, prints)
        return f"{{ {text} work {words} {body} }}"

    def filter(self, pop, push, plain=False, prints=False):
        """A filter of these rates, declared or without a name."""
        kind = f"{'int' if pop else 'void'}->{'int' if push else 'void'} filter"
        gain = Fraction(push or 1, pop or 1) if pop and push else Fraction(1)
        if self.chance(0.3):
            seen = dict.fromkeys(self.around)
            return Stream(f"{kind} {self.members(pop, push, seen, plain, prints)}", gain)
        name, constants = self.name("F"), {}
        for _ in range(self.dice.choice([0, 0, 1, 2])):
            constants[self.name("n")] = self.dice.randint(-2, 5)
        params = f"({', '.join(f'int {it}' for it in constants)})" if constants else ""
        members = self.members(pop, push, constants, plain, prints)
        self.declared.append(f"{kind} {name}{params} {members}")
        given = f"({', '.join(map(str, constants.values()))})" if constants else ""
        return Stream(f"{name}{given}", gain)


class Programs(Filters):
    """Composite streams, and a main stream."""

    def step(self):
        """A filter, mostly of even rates, with others that give more or less."""
        dice = self.dice
        if self.chance(0.1):
            return Stream(dice.choice(["Identity<int>", "Identity<int>()"]))
        rate = dice.randint(1, 4)
        push = rate if self.chance(0.6) else dice.randint(1, 4)
        return self.filter(rate, push, prints=self.chance(0.1))

    def composite(self, kind, types, body):
        """A stream of this kind, declared or without a name."""
        if self.chance(0.4):
            return f"{types} {kind} {{ {body} }}"
        if self.chance(0.3) and kind != "feedbackloop":
            return f"{kind} {{ {body} }}"
        name, constant = self.name(kind[0].upper()), self.name("n")
        if self.chance(0.7):
            self.declared.append(f"{types} {kind} {name} {{ {body} }}")
            return name
        self.declared.append(f"{types} {kind} {name}(int {constant}) {{ "
                             f"if ({constant} > 0) ; {body} }}")
        return f"{name}({self.dice.randint(-3, 3)})"

    def repeated(self):
        """Statements that add a filter of even rates a few times. It may see their variables."""
        dice = self.dice
        count, variable, rate = dice.randint(0, 3), self.name("i"), dice.randint(1, 3)
        risk, self.risk = self.risk, 0 if self.chance(0.9) else self.risk
        scope = Scope()
        before = self.statements(scope, 2, 3)
        self.risk, self.around = risk, [*scope.numbers, variable]
        child = self.filter(rate, rate).added()
        self.around = []
        if self.chance(0.3):
            return (f"{before} int {variable} = {count}; "
                    f"while ({variable} > 0) {{ {variable}--; {child} }}")
        head = dice.choice([f"int {variable} = 0; {variable} < {count}; {variable}++",
                            f"int {variable} = {count}; {variable} > 0; {variable} -= 1"])
        return f"{before} for ({head}) {{ {child} }}"

    def recursion(self):
        """A pipeline that adds itself."""
        name, times = self.name("R"), self.dice.randint(1, 4)
        rate = self.dice.randint(1, 3)
        child = self.filter(rate, rate)
        self.declared.append(f"int->int pipeline {name}(int n) {{ {child.added()} "
                             f"if (n > 1) add {name}(n - 1); }}")
        return Stream(f"{name}({times})")

    def child(self, depth):
        """Any stream that takes and gives items."""
        kind = self.dice.random()
        if depth > 0 and kind < 0.2:
            return self.split_join(depth - 1)
        if depth > 0 and kind < 0.35:
            text, gain = self.row(depth - 1, 3)
            return Stream(self.composite("pipeline", "int->int", text), gain)
        if depth > 0 and kind < 0.5:
            return self.feedback(depth - 1)
        if depth > 0 and kind < 0.55:
            return self.recursion()
        return self.step()

    def row(self, depth, most):
        """The body of a pipeline, and its gain."""
        lines, gain = [], Fraction(1)
        for _ in range(self.dice.randint(1, most)):
            child = self.child(depth)
            next_gain = gain * child.gain
            if max(next_gain.numerator, next_gain.denominator) > LARGEST:
                child, next_gain = self.filter(gain.numerator, gain.denominator), Fraction(1)
            gain = next_gain
            lines.append(child.added())
            if self.chance(0.2):
                lines.append(self.repeated())
            if self.chance(0.1):
                lines.append(f"if ({self.truth(Scope(), 1)}) add Identity<int>; else {{ "
                             f"{self.filter(1, 1).added()} }}")
        return " ".join(lines), gain

    def weights(self, weights):
        """How a splitter or a joiner deals."""
        if len({*weights}) == 1 and self.chance(0.5):
            return "roundrobin" if weights[0] == 1 else f"roundrobin({weights[0]})"
        words = [str(it) if self.chance(0.8) else f"{it - 1} + 1" for it in weights]
        return f"roundrobin({', '.join(words)})"

    def split_join(self, depth):
        """Children side by side; the joiner takes from each what it gives."""
        dice = self.dice
        rows = [self.row(depth, 2) for _ in range(dice.randint(1, 4))]
        shares = [1] * len(rows)
        split = dice.choice(["duplicate", "duplicate()"])
        if self.chance(0.5):
            shares = [dice.randint(1, 3)] * len(rows)
            if self.chance(0.6):
                shares = [dice.randint(1, 3) for _ in rows]
            split = self.weights(shares)
        gains = [share * gain for share, (_, gain) in zip(shares, rows)]
        whole = lcm(*(it.denominator for it in gains))
        taken = [int(it * whole) for it in gains]
        if max(*taken, whole) > LARGEST:
            return self.step()
        children = [f"add pipeline {{ {text} }}" for text, _ in rows]
        body = f"split {split}; {' '.join(children)} join {self.weights(taken)};"
        given = sum(gains) / (1 if split.startswith("d") else sum(shares))
        return Stream(self.composite("splitjoin", "int->int", body), given)

    def feedback(self, depth):
        """A loop whose joiner, body, splitter and way back fire in turn."""
        dice = self.dice
        outer, back = dice.randint(1, 3), dice.randint(1, 3)
        leaves, returns = dice.randint(1, 3), dice.randint(1, 3)
        split = f"roundrobin({leaves}, {returns})"
        given = leaves + returns
        if self.chance(0.4):
            leaves = returns = given = dice.randint(1, 3)
            split = "duplicate"
        body = self.filter(outer + back, given, plain=True).added("body")
        if depth > 0 and self.chance(0.3):
            inner = self.filter(1, 1, plain=True)
            first = self.filter(outer + back, given, plain=True)
            body = f"body pipeline {{ {first.added()} {inner.added()} }}"
        way = self.filter(returns, back, plain=True).added("loop")
        if returns == back and self.chance(0.4):
            way = "loop Identity<int>;"
        enough = back + dice.randint(0, 6) - (1 if self.chance(0.03) else 0)
        items = f"for (int i = 0; i < {enough}; i++) enqueue i * 3 - 2;"
        if self.chance(0.5):
            items = " ".join(f"enqueue {dice.randint(-9, 9)};" for _ in range(enough))
        text = f"join roundrobin({outer}, {back}); {body} {way} split {split}; {items}"
        return Stream(self.composite("feedbackloop", "int->int", text), Fraction(leaves, outer))

    def source(self):
        """What gives the first items. Most programs read the input."""
        kind = self.dice.random()
        if kind < 0.6:
            return 'add FileReader<int>("in");'
        if kind < 0.8:
            return self.filter(None, self.dice.randint(1, 3), prints=self.chance(0.1)).added()
        if kind < 0.9:
            sources = [self.filter(None, 1).added() for _ in range(2)]
            return f"add splitjoin {{ split roundrobin; {' '.join(sources)} join roundrobin; }}"
        body = self.filter(1, 2, plain=True)
        return ("add void->int feedbackloop { join roundrobin(0, 1); "
                f"{body.added('body')} loop Identity<int>; split roundrobin(1, 1); enqueue 1; }}")

    def sink(self, depth):
        """What takes the last items."""
        if depth > 0 and self.chance(0.15):
            sinks = " ".join(self.sink(depth - 1) for _ in range(self.dice.randint(1, 3)))
            split = self.dice.choice(["duplicate", "roundrobin"])
            return f"add splitjoin {{ split {split}; {sinks} join roundrobin; }}"
        if self.chance(0.6):
            return f'add FileWriter<int>("{self.name("out")}");'
        rate = self.dice.randint(1, 3)
        return self.filter(rate, None, prints=True).added()

    def text(self):
        first, last = self.source(), self.sink(2)
        children, _ = self.row(2, 5)
        main = f"void->void pipeline Main {{ {first} {children} {last} }}"
        declared = [*self.declared, main]
        self.dice.shuffle(declared)
        return "\n".join(declared) + "\n"


def program(dice):
    """The text of a random program."""
    return Programs(dice).text()
