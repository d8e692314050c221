#!/usr/bin/env python3
"""Writes the WebAssembly module with a 32-bit memory as classes of Java, in the folder OUT.

Usage: core.py MODULE OUT

MODULE is `dist/chinese-number.32.wasm`; `wasm.py` reads it. State has the memory and the globals,
Core the calls that the module exports, and the classes with a number its other functions. Each
instruction becomes an expression that Java evaluates when the module's stack machine would: both
evaluate from left to right, wrap integers, and mask the number of bits of a shift. What cannot stay
in an expression is kept in a variable first.

The virtual machine compiles no method of more than 8,000 bytes. So blocks of a large function
become methods of their own, parts, which are given the variables that they read. A part returns
which label it goes to, and leaves the variables that it writes in the list `kept` of the state.
"""
import base64
import re
import sys
from pathlib import Path
from typing import NamedTuple, Optional

from wasm import Module, refuse, stack_of

TEMPLATE = Path(__file__).with_name("State.java.in")
HEAD = """\
// The proved module for WebAssembly as Java; made by bindings/java/core.py.
package chinesenumber;

"""
# About how many bytes of Java's code a method may have, and a block that becomes a part; a third and
# two thirds more were seen. How many bytes of the module go into a class.
MOST_OF_METHOD, MOST_OF_PART, LEAST_OF_PART, MOST_OF_CLASS = 5000, 4000, 300, 56000
# About how many bytes of Java's code an instruction becomes, where that is not 3.
COSTS = {
    "local.get": 2, "local.set": 2, "local.tee": 4, "i32.wrap_i64": 1, "block": 0, "loop": 0,
    "br_if": 5, "select": 8, "call": 4, "i64.store": 7, "i32.and": 1, "i32.or": 1, "i64.add": 1, "i32.add": 1,
    "i32.shl": 1, "i32.load8_u": 8, "i32.gt_u": 9, "i32.lt_u": 9, "i64.eqz": 4,
}  # fmt: skip
SIGNS = {
    "add": "+", "sub": "-", "mul": "*", "and": "&", "or": "|", "xor": "^", "shl": "<<",
    "shr_s": ">>", "shr_u": ">>>", "div_u": "/", "rem_u": "%",
}  # fmt: skip
COMPARED = {"eq": "==", "ne": "!=", "lt": "<", "gt": ">", "le": "<=", "ge": ">="}
ONE = {
    "i64.clz": ("(long) Long.numberOfLeadingZeros({})", "long"),
    "i64.ctz": ("(long) Long.numberOfTrailingZeros({})", "long"),
    "i32.wrap_i64": ("(int) {}", "int"),
    "i64.extend_i32_s": ("(long) {}", "long"),
    "i64.extend_i32_u": ("{} & 0xffffffffL", "long"),
    "i32.extend8_s": ("(int) (byte) {}", "int"),
    "i32.extend16_s": ("(int) (short) {}", "int"),
}
KINDS, BITS = {"i32": "int", "i64": "long"}, {"int": 32, "long": 64}
NO_SIGN = {8: " & 0xff", 16: " & 0xffff", 32: " & 0xffffffff"}
OF_BITS = {8: "byte", 16: "short", 32: "int", 64: "long"}
FAMILY, IS_KEPT = re.compile(r"i\d\d\.([a-z]+)"), re.compile(r"t\d+")
WRITTEN, NAMED = re.compile(r"\bl(\d+) = "), re.compile(r"\bl(\d+)\b")


class Value(NamedTuple):
    """An expression on the stack: its type, which is boolean for a comparison; whether it needs no
    brackets; and the constant or the variable that it is."""

    text: str
    kind: str
    is_atom: bool = False
    constant: Optional[int] = None
    variable: Optional[int] = None

    def __str__(self):
        return self.text if self.is_atom else f"({self.text})"

    def number(self):
        return Value(f"{self} ? 1 : 0", "int") if self.kind == "boolean" else self

    def stays(self):
        """Whether its value is the same at any later time."""
        return self.constant is not None or IS_KEPT.fullmatch(self.text)


def constant(value, kind):
    bits = BITS[kind]
    value = (value + (1 << bits - 1)) % (1 << bits) - (1 << bits - 1)
    return Value(f"{value}L" if kind == "long" else str(value), kind, True, constant=value)


def raised(value):
    """A value for a comparison without a sign: both are moved by half of all values."""
    half = 1 << BITS[value.kind] - 1
    if value.constant is not None:
        return constant(value.constant + half, value.kind).text
    return f"{value} + {'Integer' if value.kind == 'int' else 'Long'}.MIN_VALUE"


def cost(node):
    return COSTS.get(node.name, 3) + sum(map(cost, node.body or ()))


class Label:
    def __init__(self, name, is_loop):
        self.name, self.is_loop, self.is_used = name, is_loop, False


class Method:
    """A function of the module, or a part of one, while it is written."""

    def __init__(self, core, name, function, home, whole=None):
        self.core, self.name, self.function, self.home = core, name, function, home
        self.whole = whole or self
        self.kinds = function.parameters + function.locals
        self.lines, self.stack, self.depth, self.made, self.parts = [], [], 1, 0, 0
        # A part has the labels around it too; exits are those of them that it goes to.
        self.labels, self.outside, self.exits = [], 0, []
        self.parted = {}

    def line(self, text):
        self.lines.append(" " * self.depth + text)

    def new(self, prefix):
        self.whole.made += 1
        return f"{prefix}{self.whole.made}"

    # The stack: what is on it is evaluated when a statement needs that, or as a part of one.

    def push(self, text, kind, is_atom=False, **more):
        self.stack.append(Value(text, kind, is_atom, **more))

    def pop(self):
        return self.stack.pop().number()

    def keep(self):
        """Evaluates what is on the stack, and keeps it in variables."""
        for at, value in enumerate(self.stack):
            if not value.stays():
                value, name = value.number(), self.new("t")
                self.line(f"final {value.kind} {name} = {value.text};")
                self.stack[at] = Value(name, value.kind, True)

    def statement(self, *texts):
        self.keep()
        for text in texts:
            self.line(text)

    # Blocks and jumps. A method that writes an instruction returns whether what follows is reached,
    # unless it always is.

    def sequence(self, nodes):
        for node in nodes:
            if self.instruction(node) is False:
                return False
        return True

    def instruction(self, node):
        write = self.WRITERS.get(node.name) or self.FAMILIES[FAMILY.match(node.name)[1]]
        return write(self, node)

    def block(self, node):
        if id(node) in self.whole.parted:
            return self.part(node)
        self.keep()
        below, self.stack = self.stack, []
        is_ended, label = self.braces(node)
        self.stack = below
        return is_ended or label.is_used and not label.is_loop

    def braces(self, node):
        """A block; whether its end is reached, and its label."""
        label = Label(self.new("L"), node.name == "loop")
        self.labels.append(label)
        self.line(f"{label.name}:" + (" while (true) {" if label.is_loop else " {"))
        self.depth += 1
        is_ended = self.sequence(node.body)
        if is_ended and self.stack:
            refuse("a block leaves something on the stack")
        if is_ended and label.is_loop:
            self.line(f"break {label.name};")
        self.depth -= 1
        self.line("}")
        self.labels.pop()
        return is_ended, label

    def jump(self, depth):
        """The statements that go to a label, or end the function with what is uppermost on the
        stack, which stays there."""
        if depth == len(self.labels):
            return self.returned()
        at = len(self.labels) - 1 - depth
        label = self.labels[at]
        label.is_used = True
        if at < self.outside:
            return self.exit(label)
        return f"{'continue' if label.is_loop else 'break'} {label.name};"

    def exit(self, label):
        if label not in self.exits:
            self.exits.append(label)
        return f"exit = {self.exits.index(label) + 1}; break PART;"

    def returned(self):
        result = self.function.result
        if self.whole is self:
            return f"return {self.stack[-1].text};" if result else "return;"
        kept = f"m.{result}Result = {self.stack[-1].text}; " if result else ""
        return kept + self.exit(None)

    def leave(self, node):
        self.keep()
        self.line(self.jump(node.given if node.name == "br" else len(self.labels)))
        return False

    def leave_if(self, node):
        value = self.stack.pop()
        condition = value.text if value.kind == "boolean" else f"{value} != 0"
        self.keep()
        self.line(f"if ({condition}) {{ {self.jump(node.given)} }}")

    def switch(self, node):
        depths, other = node.given
        value = self.pop()
        self.keep()
        self.line(f"switch ({value.text}) {{")
        for depth in dict.fromkeys(depths):
            if depth != other:
                cases = " ".join(f"case {at}:" for at, it in enumerate(depths) if it == depth)
                self.line(f"{cases} {self.jump(depth)}")
        self.line(f"default: {self.jump(other)}")
        self.line("}")
        return False

    def trap(self, _):
        self.statement("throw State.trap();")
        return False

    # Values.

    def constant(self, node):
        self.stack.append(constant(node.given, KINDS[node.name[:3]]))

    def variable(self, node):
        text, kind = f"l{node.given}", self.kinds[node.given]
        if node.name == "local.get":
            return self.push(text, kind, True, variable=node.given)
        value = self.pop()
        if node.name == "local.tee":
            return self.push(f"{text} = {value.text}", kind)
        return self.statement(f"{text} = {value.text};")

    def global_(self, node):
        if node.name == "global.get":
            return self.push(f"m.g{node.given}", self.core.module.globals[node.given].kind, True)
        return self.statement(f"m.g{node.given} = {self.pop().text};")

    def drop(self, _):
        if not self.stack[-1].stays() and self.stack[-1].variable is None:
            self.keep()
        self.stack.pop()

    def select(self, _):
        """The condition is the last on the stack, and the first in Java. What it could change, or
        what could change it, is kept before."""
        condition = self.stack.pop()
        written = set(map(int, WRITTEN.findall(condition.text)))
        is_same = lambda it: it.stays() or it.variable is not None and it.variable not in written
        if not all(map(is_same, self.stack[-2:])):
            self.stack.append(condition)
            self.keep()
            condition = self.stack.pop()
        other, value = self.pop(), self.pop()
        text = condition.text if condition.kind == "boolean" else f"{condition} != 0"
        self.push(f"{text if condition.is_atom else f'({text})'} ? {value} : {other}", value.kind)

    def is_zero(self, node):
        value = self.stack.pop()
        if value.kind == "boolean":
            return self.push(f"!{value}", "boolean")
        return self.push(f"{value} == 0" + ("L" if value.kind == "long" else ""), "boolean")

    def compare(self, node):
        name, _, sign = node.name[4:].partition("_")
        other, value = self.pop(), self.pop()
        if sign == "u":
            return self.push(f"{raised(value)} {COMPARED[name]} {raised(other)}", "boolean")
        return self.push(f"{value} {COMPARED[name]} {other}", "boolean")

    def binary(self, node):
        kind, sign = KINDS[node.name[:3]], SIGNS[node.name[4:]]
        if sign in "&|^" and self.stack[-1].kind == self.stack[-2].kind == "boolean":
            other, value = self.stack.pop(), self.stack.pop()
            return self.push(f"{value} {sign} {other}", "boolean")
        other, value = self.pop(), self.pop()
        if sign not in "/%":
            return self.push(f"{value} {sign} {other}", kind)
        if kind == "int" and (other.constant or 0) > 0:
            return self.push(f"(int) (({value} & 0xffffffffL) {sign} {other}L)", kind)
        call = "divideUnsigned" if sign == "/" else "remainderUnsigned"
        name = "Integer" if kind == "int" else "Long"
        return self.push(f"{name}.{call}({value.text}, {other.text})", kind, True)

    def one(self, node):
        text, kind = ONE[node.name]
        value = self.stack.pop()
        if node.name == "i64.extend_i32_u" and value.kind == "boolean":
            return self.push(f"{value} ? 1L : 0L", "long")
        value = value.number()
        return self.push(text.format(value.text if "({})" in text else value), kind)

    def rotate(self, _):
        by, value = self.pop(), self.pop()
        self.push(f"Integer.rotateLeft({value.text}, {by.text})", "int", True)

    # The memory. Its first byte has the address BASE.

    def place(self, offset):
        """Where an address plus an offset is in the array, by an expression that is outside of it
        if their exact sum is."""
        value, shift = self.pop(), offset - self.core.base
        if value.constant is not None:
            return str((value.constant & 0xFFFFFFFF) + shift)
        if shift > 0:
            return f"State.far({value.text}, {offset})"
        return f"{value} - {-shift}" if shift else value.text

    def load(self, node):
        kind, (bits, is_signed) = KINDS[node.name[:3]], self.size_of(node)
        at = self.place(node.given)
        text = f"b[{at}]" if bits == 8 else f"Words.get{bits}(b, {at})"
        if bits == BITS[kind] or bits == 32 and not is_signed:
            mask = "" if bits == BITS[kind] else " & 0xffffffffL"
            return self.push(text + mask, kind, not mask)
        if is_signed:
            return self.push(f"({kind}) {text}", kind)
        return self.push(text + NO_SIGN[bits] + ("L" if kind == "long" else ""), kind)

    def store(self, node):
        value, (bits, _) = self.pop(), self.size_of(node)
        cast = value.text if bits == BITS[value.kind] else f"({OF_BITS[bits]}) {value}"
        at = self.place(node.given)
        self.statement(f"b[{at}] = {cast};" if bits == 8 else f"Words.put{bits}(b, {at}, {cast});")

    def size_of(self, node):
        """How many bits a load or a store has, and whether with a sign."""
        size = re.search(r"(?:load|store)(\d*)", node.name)[1]
        return int(size or node.name[1:3]), not node.name.endswith("_u")

    def move(self, node):
        """memory.copy and memory.fill."""
        count, other, to = self.pop(), self.pop(), self.pop()
        self.statement(f"m.{node.name[7:]}({to.text}, {other.text}, {count.text});")

    def call(self, node):
        function = self.core.module.functions[node.given]
        given = [self.pop().text for _ in function.parameters][::-1]
        text = f"{self.core.name_from(self.home, node.given)}({', '.join(['m', *given])})"
        if function.result:
            return self.push(text, function.result, True)
        return self.statement(f"{text};")

    # Parts.

    def part(self, node):
        """A block as a method of its own, and its call."""
        self.keep()
        whole = self.whole
        whole.parts += 1
        name = f"{whole.name}_{whole.parts}"
        part = Method(self.core, name, self.function, self.home, whole)
        part.labels, part.outside, part.depth = list(self.labels), len(self.labels), 2
        is_ended, label = part.braces(node)
        is_ended = is_ended or label.is_used and not label.is_loop
        text = "\n".join(part.lines)
        writes, reads = (sorted({*map(int, it.findall(text))}) for it in (WRITTEN, NAMED))
        self.core.write_part(part, text, reads, writes)
        answer = self.call_part(part, reads)
        for at, index in enumerate(writes):
            cast = "(int) " if self.kinds[index] == "int" else ""
            self.line(f"l{index} = {cast}m.kept[{at}];")
        return self.go_on(part, answer, is_ended)

    def call_part(self, part, reads):
        """Calls a part; the variable with its answer, which says which label it goes to."""
        call = f"{part.name}({', '.join(['m', *(f'l{it}' for it in reads)])});"
        answer = self.new("x")
        self.line(f"final int {answer} = {call}" if part.exits else call)
        return answer

    def go_on(self, part, answer, is_ended):
        if not part.exits:
            if not is_ended:
                self.line("throw State.trap();")
            return is_ended
        self.line(f"switch ({answer}) {{")
        for at, label in enumerate(part.exits, 1):
            # The last of them is the default where nothing else is left.
            is_last = not is_ended and at == len(part.exits)
            self.line(f"{'default' if is_last else f'case {at}'}: {self.go_to(label)}")
        self.line("}")
        return is_ended

    def go_to(self, label):
        if label is not None:
            return self.jump(len(self.labels) - 1 - self.labels.index(label))
        if self.whole is not self:
            return self.exit(None)
        return f"return m.{self.function.result}Result;" if self.function.result else "return;"

    WRITERS = {
        "block": block, "loop": block, "br": leave, "br_if": leave_if, "br_table": switch,
        "return": leave, "unreachable": trap, "call": call, "drop": drop, "select": select,
        "local.get": variable, "local.set": variable, "local.tee": variable, "global.get": global_,
        "global.set": global_, "i32.rotl": rotate, "memory.copy": move, "memory.fill": move,
        **dict.fromkeys(ONE, one),
    }  # fmt: skip
    FAMILIES = {
        "const": constant, "eqz": is_zero, "load": load, "store": store,
        **dict.fromkeys(COMPARED, compare),
        **dict.fromkeys((it.split("_")[0] for it in SIGNS), binary),
    }  # fmt: skip


class Core:
    """The classes, while they are written."""

    def __init__(self, module):
        self.module, self.calls = module, module.calls()
        self.base = module.first - stack_of(module)
        self.classes, self.place_of, self.most_kept = {"Core": []}, {}, 1
        self.share_out()

    def share_out(self):
        """Chooses a class for each function: Core for calls that are exported, others in order."""
        number = filled = 0
        for index, function in enumerate(self.module.functions):
            if index in self.calls:
                self.place_of[index] = "Core"
                continue
            if filled == 0 or filled + function.size > MOST_OF_CLASS:
                number, filled = number + 1, 0
            filled += function.size
            self.place_of[index] = f"Core{number}"
            self.classes.setdefault(f"Core{number}", [])

    def name(self, index):
        return self.calls.get(index, f"f{index}")

    def name_from(self, home, index):
        """The name of a function in a class, with its own class if that is another one."""
        own = self.place_of[index]
        return self.name(index) if own == home else f"{own}.{self.name(index)}"

    def choose_parts(self, method):
        """Chooses blocks that become parts, the largest first, until what is left is small."""

        def blocks(nodes):
            for node in nodes:
                if node.body is None:
                    continue
                if LEAST_OF_PART <= cost(node) <= MOST_OF_PART:
                    yield node
                else:
                    yield from blocks(node.body)

        left = sum(map(cost, method.function.nodes))
        for node in sorted(blocks(method.function.nodes), key=cost, reverse=True):
            if left > MOST_OF_METHOD:
                method.parted[id(node)] = node
                left -= cost(node)

    def write(self, index, function):
        method = Method(self, self.name(index), function, self.place_of[index])
        self.choose_parts(method)
        for it, kind in enumerate(function.locals, len(function.parameters)):
            method.line(f"{kind} l{it} = 0;")
        if method.sequence(function.nodes) and function.result:
            method.line(f"return {method.pop().text};")
        given = [f"{kind} l{it}" for it, kind in enumerate(function.parameters)]
        head = f"{function.result or 'void'} {method.name}"
        self.add(method.home, head, given, "\n".join(method.lines))

    def write_part(self, part, text, reads, writes):
        self.most_kept = max(self.most_kept, len(writes))
        kept = "".join(f" m.kept[{at}] = l{index};\n" for at, index in enumerate(writes))
        body = f" int exit = 0;\n PART: {{\n{text}\n }}\n{kept} return exit;"
        given = [f"{part.kinds[it]} l{it}" for it in reads]
        self.add(part.home, f"int {part.name}", given, body)

    def add(self, place, head, given, body):
        own = " final byte[] b = m.bytes;\n" if re.search(r"\bb\[|\(b,", body) else ""
        parameters = ", ".join(["State m", *given])
        self.classes[place].append(f"static {head}({parameters}) {{\n{own}{body}\n}}\n")

    def filled(self):
        """The text of each class, by its name."""
        for both in enumerate(self.module.functions):
            self.write(*both)
        for name, methods in self.classes.items():
            yield name, f"{HEAD}final class {name} {{\n" + "\n".join(methods) + "}\n"
        changing = [
            f"    {it.kind} g{at} = {constant(it.value, it.kind).text};"
            for at, it in enumerate(self.module.globals)
            if it.changes
        ]
        fields = {
            "FIRST": self.module.first,
            "BASE": self.base,
            "HEAP": self.module.value_of("__heap_base"),
            "KEPT": self.most_kept,
            "GLOBALS": "\n".join(changing),
            "CONSTANTS": constants(self.module.constants),
        }
        text = TEMPLATE.read_text(encoding="utf-8")
        yield "State", HEAD + re.sub("@([A-Z]+)@", lambda it: str(fields[it[1]]), text)


def constants(data):
    """Bytes in base 64, in lines."""
    text = base64.b64encode(data).decode()
    if len(text) > 65535:
        refuse("the constants are too long for one text of Java")
    lines = [text[at : at + 92] for at in range(0, len(text), 92)]
    return '"\n            + "'.join(lines)


def classes(data):
    """The text of each class for a module, by its name."""
    sys.setrecursionlimit(10000)
    return dict(Core(Module(data)).filled())


def main():
    if len(sys.argv) != 3 or sys.argv[1].startswith("-"):
        sys.exit(__doc__)
    out = Path(sys.argv[2])
    out.mkdir(parents=True, exist_ok=True)
    for name, text in classes(Path(sys.argv[1]).read_bytes()).items():
        (out / f"{name}.java").write_text(text, encoding="utf-8")


if __name__ == "__main__":
    main()
