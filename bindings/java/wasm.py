"""Reads a module for WebAssembly, for core.py.

It must be of the form that `bindings/web/build.sh` makes: one memory of 32 bits, one piece of
constants, no imports and no table. Anything else is refused, and so is an unknown instruction.
"""
import sys
from collections import namedtuple

TYPES = {0x7F: "int", 0x7E: "long"}
# The codes of the instructions, in hexadecimal, and their names.
NAMES = """
00 unreachable 02 block 03 loop 0b end 0c br 0d br_if 0e br_table 0f return 10 call 1a drop
1b select 20 local.get 21 local.set 22 local.tee 23 global.get 24 global.set 41 i32.const
42 i64.const 28 i32.load 29 i64.load 2c i32.load8_s 2d i32.load8_u 2e i32.load16_s 2f i32.load16_u
30 i64.load8_s 31 i64.load8_u 32 i64.load16_s 33 i64.load16_u 34 i64.load32_s 35 i64.load32_u
36 i32.store 37 i64.store 3a i32.store8 3b i32.store16 3c i64.store8 3d i64.store16 3e i64.store32
45 i32.eqz 46 i32.eq 47 i32.ne 48 i32.lt_s 49 i32.lt_u 4a i32.gt_s 4b i32.gt_u 4c i32.le_s
4d i32.le_u 4e i32.ge_s 4f i32.ge_u 50 i64.eqz 51 i64.eq 52 i64.ne 53 i64.lt_s 54 i64.lt_u
55 i64.gt_s 56 i64.gt_u 57 i64.le_s 58 i64.le_u 59 i64.ge_s 5a i64.ge_u 6a i32.add 6b i32.sub
6c i32.mul 6e i32.div_u 70 i32.rem_u 71 i32.and 72 i32.or 73 i32.xor 74 i32.shl 75 i32.shr_s
76 i32.shr_u 77 i32.rotl 79 i64.clz 7a i64.ctz 7c i64.add 7d i64.sub 7e i64.mul 80 i64.div_u
82 i64.rem_u 83 i64.and 84 i64.or 85 i64.xor 86 i64.shl 87 i64.shr_s 88 i64.shr_u a7 i32.wrap_i64
ac i64.extend_i32_s ad i64.extend_i32_u c0 i32.extend8_s c1 i32.extend16_s fc0a memory.copy
fc0b memory.fill
""".split()
NAMES = {int(code, 16): name for code, name in zip(NAMES[::2], NAMES[1::2])}
WITH_INDEX = {"br", "br_if", "call", *(it for it in NAMES.values() if it[:5] in ("local", "globa"))}
NO_RESULT = 0x40

# An instruction: its name, its operands, of a block its instructions, and how many bytes of the
# module it has with these.
Node = namedtuple("Node", "name given body size", defaults=(None, None, 0))
Function = namedtuple("Function", "parameters result locals nodes size")
Global = namedtuple("Global", "kind changes value")


def refuse(what):
    sys.exit(f"core: {what}")


class Bytes:
    """The bytes of the module or of a part of it, read from the first to the last."""

    def __init__(self, data):
        self.data, self.at = data, 0

    def is_left(self):
        return self.at < len(self.data)

    def take(self, count):
        self.at += count
        if self.at > len(self.data):
            refuse("the module ends too early")
        return self.data[self.at - count : self.at]

    def byte(self):
        return self.take(1)[0]

    def number(self, is_signed=False):
        value = shift = 0
        byte = 0x80
        while byte >= 0x80:
            byte = self.byte()
            value |= (byte & 0x7F) << shift
            shift += 7
        return value - (1 << shift) if is_signed and byte & 0x40 else value

    def list(self, item):
        return [item() for _ in range(self.number())]

    def sized(self):
        return Bytes(self.take(self.number()))

    def type(self):
        code = self.byte()
        if code not in TYPES:
            refuse(f"there is a value of the type {code:#x}")
        return TYPES[code]


def expect(found, wanted, what):
    if found != wanted:
        refuse(what)


def name_at(code):
    """The name of the next instruction."""
    byte = code.byte()
    if byte == 0xFC:
        byte = 0xFC00 + code.number()
    if byte not in NAMES:
        refuse(f"the instruction {byte:#x} is not known")
    return NAMES[byte]


def given(code, name):
    """The operands of an instruction that is no block."""
    if name in WITH_INDEX:
        return code.number()
    if name.endswith(".const"):
        return code.number(is_signed=True)
    if ".load" in name or ".store" in name:
        code.number()  # how it is aligned, which is a hint
        return code.number()
    if name == "br_table":
        return code.list(code.number), code.number()
    if name.startswith("memory."):
        count = 2 if name == "memory.copy" else 1
        expect(code.take(count), bytes(count), "there is a second memory")
    return None


def nodes_of(code):
    """The instructions up to the end of a block or of a function."""
    nodes = []
    while True:
        start = code.at
        name = name_at(code)
        if name == "end":
            return nodes
        body = None
        if name in ("block", "loop"):
            expect(code.byte(), NO_RESULT, "a block has a result")
            body = nodes_of(code)
        nodes.append(Node(name, given(code, name), body, code.at - start))


class Module:
    """What the module has: its functions, globals, exports and constants."""

    def __init__(self, data):
        file = Bytes(data)
        expect(file.take(8), b"\0asm\1\0\0\0", "this is no module for WebAssembly")
        self.globals, self.exports, self.functions = [], {}, []
        while file.is_left():
            kind, part = file.byte(), file.sized()
            read = self.SECTIONS.get(kind)
            if not read:
                refuse(f"a section of the kind {kind} is not known")
            read(self, part)

    def skip(self, part):
        """Names of tools, and the count of pieces of constants."""

    def read_types(self, part):
        self.types = part.list(lambda: self.type_of(part))

    def type_of(self, part):
        expect(part.byte(), 0x60, "a type is none of a function")
        parameters, results = part.list(part.type), part.list(part.type)
        if len(results) > 1:
            refuse("a function has several results")
        return parameters, results[0] if results else None

    def read_kinds(self, part):
        self.kinds = part.list(lambda: self.types[part.number()])

    def read_memory(self, part):
        if part.byte() != 1 or part.byte() & 6:
            refuse("there is no one memory of 32 bits")

    def read_globals(self, part):
        self.globals = part.list(lambda: self.global_of(part))

    def global_of(self, part):
        kind, changes, op = part.type(), part.byte(), part.byte()
        value, end = part.number(is_signed=True), part.byte()
        if NAMES.get(op) not in ("i32.const", "i64.const") or NAMES.get(end) != "end":
            refuse("a global begins with no constant")
        return Global(kind, changes == 1, value)

    def read_exports(self, part):
        for _ in range(part.number()):
            name = part.take(part.number()).decode("ascii")
            self.exports[name] = part.byte(), part.number()

    def read_code(self, part):
        bodies = part.list(part.sized)
        expect(len(bodies), len(self.kinds), "a function has no body")
        self.functions = [self.function(*both) for both in zip(self.kinds, bodies)]

    def function(self, kind, code):
        own = []
        for _ in range(code.number()):
            count = code.number()
            own += [code.type()] * count
        nodes = nodes_of(code)
        if code.is_left():
            refuse("a function ends within itself")
        return Function(*kind, own, nodes, len(code.data))

    def read_constants(self, part):
        if part.take(2) != b"\1\0" or NAMES.get(part.byte()) != "i32.const":
            refuse("the constants are not in one piece")
        self.first, end = part.number(is_signed=True), part.byte()
        self.constants = part.take(part.number())
        if NAMES.get(end) != "end" or part.is_left():
            refuse("the constants are not in one piece")

    SECTIONS = {
        0: skip, 1: read_types, 3: read_kinds, 5: read_memory, 6: read_globals, 7: read_exports,
        10: read_code, 11: read_constants, 12: skip,
    }  # fmt: skip

    def calls(self):
        """The functions that are exported: the name of each, by its index."""
        return {index: name for name, (kind, index) in self.exports.items() if kind == 0}

    def value_of(self, name):
        """The value of a global that is exported."""
        kind, index = self.exports.get(name, (0, 0))
        if kind != 3 or self.globals[index].changes:
            refuse(f"the module exports no constant {name}")
        return self.globals[index].value


# The stack in the module's memory, whose pointer is the first global.


def flat(nodes):
    for node in nodes:
        yield node
        yield from flat(node.body or [])


def frame_of(index, function):
    """How many bytes of the stack a function takes. It may also compare the pointer."""
    nodes, taken = [it for it in flat(function.nodes) if it.name != "local.tee"], {0}
    for at, node in enumerate(nodes):
        if (node.name, node.given) == ("global.get", 0):
            number, use = nodes[at + 1 : at + 3]
            if number.name != "i64.const" or use.name not in ("i64.sub", "i64.lt_s", "i64.gt_s"):
                refuse(f"the function {index} uses the stack in an unknown way")
            taken |= {number.given} if use.name == "i64.sub" else {0}
    if len(taken) > 2:
        refuse(f"the function {index} takes several parts of the stack")
    return max(taken)


def stack_of(module):
    """How many bytes of the stack the module can take."""
    functions, found = module.functions, {}
    frames = [frame_of(*both) for both in enumerate(functions)]
    called = [{it.given for it in flat(one.nodes) if it.name == "call"} for one in functions]

    def below(index, above):
        if index in above:
            refuse(f"the function {index} is called by a function that it calls")
        if index in called[index] and frames[index]:
            refuse(f"the function {index} calls itself, and takes some of the stack")
        if index not in found:
            deepest = [below(other, {*above, index}) for other in called[index] - {index}]
            found[index] = frames[index] + max(deepest, default=0)
        return found[index]

    return max(below(index, set()) for index in range(len(functions)))
