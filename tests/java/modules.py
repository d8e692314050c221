"""Random modules for WebAssembly in wabt's text format, with the instructions that the translator to
Java knows, for a comparison with node. Their functions, chinese_0 and so on, take an i32 and an
i64, and return an i64. They use the module's stack as LLVM does."""
import random

FUNCTIONS, MEMORY, FIRST, FRAME = 6, 131072, 65536, 32
BINARY = "add sub mul and or xor shl shr_s shr_u".split()
COMPARED = "eq ne lt_s lt_u gt_s gt_u le_s le_u ge_s ge_u".split()
EDGES = [0, 1, -1, 2, 7, 31, 63, 255, 256, 65535, 2**31 - 1, -(2**31)]
LONG_EDGES = [2**63 - 1, -(2**63), 0xFFFFFFFF, 2**32]
SIZES = {"i32": ["", "8_u", "8_s", "16_u", "16_s"]}
SIZES["i64"] = [*SIZES["i32"], "32_u", "32_s"]
FOR_INT = ["(i32.wrap_i64 {long})", "(i32.extend8_s {int})", "(i32.extend16_s {int})"]
FOR_INT += ["(i32.rotl {int} {int})", "(global.get 1)"]
FOR_LONG = [
    "(i64.extend_i32_s {int})",
    "(i64.extend_i32_u {int})",
    "(i64.clz {long})",
    "(i64.ctz {long})",
]


class Function:
    """A function while it is written; it may call those before it."""

    def __init__(self, chance, index):
        self.chance, self.index, self.labels, self.made, self.loops = chance, index, [], 0, 0

    def one(self, *choices):
        return self.chance.choice(choices)

    def label(self):
        self.made += 1
        return f"$L{self.made}"

    # Expressions of a type, of at most so many levels.

    def constant(self, kind):
        edges = EDGES + LONG_EDGES * (kind == "i64")
        value = self.chance.choice([*edges, self.chance.getrandbits(31)])
        return f"({kind}.const {value})"

    def local(self, kind):
        return f"${kind}_{self.chance.randrange(3)}"

    def value(self, kind, depth):
        if depth <= 0:
            return self.one(self.constant(kind), f"(local.get {self.local(kind)})")
        write = self.one(
            *[self.binary] * 4, *[self.comparison] * 2, *[self.tee] * 2, *[self.select] * 2,
            self.divided, *[self.converted] * 3, self.load, self.called,
        )  # fmt: skip
        return write(kind, depth - 1 - self.chance.randrange(2))

    def binary(self, kind, depth):
        both = f"{self.value(kind, depth)} {self.value(kind, depth)}"
        return f"({kind}.{self.one(*BINARY)} {both})"

    def comparison(self, kind, depth):
        own = self.one("i32", "i64")
        sign = self.one("eqz", *COMPARED)
        other = "" if sign == "eqz" else self.value(own, depth)
        text = f"({own}.{sign} {self.value(own, depth)} {other})"
        return text if kind == "i32" else f"(i64.extend_i32_u {text})"

    def tee(self, kind, depth):
        return f"(local.tee {self.local(kind)} {self.value(kind, depth)})"

    def select(self, kind, depth):
        both = f"{self.value(kind, depth)} {self.value(kind, depth)}"
        return f"(select {both} {self.value('i32', depth)})"

    def divided(self, kind, depth):
        by = self.one(1, 3, 10, 1000, -1, -7)
        other = self.one(
            f"({kind}.const {by})", f"({kind}.or {self.value(kind, depth)} ({kind}.const 1))"
        )
        return f"({kind}.{self.one('div_u', 'rem_u')} {self.value(kind, depth)} {other})"

    def converted(self, kind, depth):
        text = self.one(*(FOR_INT if kind == "i32" else FOR_LONG))
        return text.format(int=self.value("i32", depth), long=self.value("i64", depth))

    def place(self, depth):
        """An address in the constants, after them or in the function's frame: an offset, a value."""
        near = f"(i32.and {self.value('i32', depth)} (i32.const 255))"
        frame = "(i32.wrap_i64 (local.get $frame))"
        return self.one(
            (FIRST + self.chance.randrange(40), near),
            (self.one(0, 3, 8, 40), f"(i32.add {near} (i32.const {FIRST}))"),
            (self.chance.randrange(FRAME - 7), frame),
        )

    def load(self, kind, depth):
        offset, address = self.place(depth)
        return f"({kind}.load{self.one(*SIZES[kind])} offset={offset} {address})"

    def called(self, kind, depth):
        if self.index == 0:
            return self.constant(kind)
        given = f"{self.value('i32', depth - 1)} {self.value('i64', depth - 1)}"
        text = f"(call $f{self.chance.randrange(self.index)} {given})"
        return text if kind == "i64" else f"(i32.wrap_i64 {text})"

    # Statements.

    def statements(self, depth):
        return " ".join(self.statement(depth) for _ in range(self.chance.randrange(1, 4)))

    def statement(self, depth):
        if depth <= 0:
            return self.assign(0)
        write = self.one(
            *[self.assign] * 3, *[self.store] * 3, *[self.block] * 5, *[self.jump_if] * 5,
            *[self.between] * 2, self.loop, self.switch, self.move, self.drop, self.leave,
        )  # fmt: skip
        return write(depth - 1)

    def assign(self, depth):
        if self.chance.random() < 0.1:
            return f"(global.set 1 {self.value('i32', depth)})"
        kind = self.one("i32", "i64")
        return f"(local.set {self.local(kind)} {self.value(kind, depth)})"

    def store(self, depth):
        kind = self.one("i32", "i64")
        offset, address = self.place(depth)
        size = self.one(*SIZES[kind]).partition("_")[0]
        return f"({kind}.store{size} offset={offset} {address} {self.value(kind, depth)})"

    def between(self, depth):
        """A statement while a value is on the stack, which may change what the value is made of."""
        kind = self.one("i32", "i64")
        name, end = self.local(kind), f"{kind}.{self.one(*BINARY)} local.set {self.local(kind)}"
        first = self.one(f"(local.get {name})", self.value(kind, depth))
        change = f"(local.set {name} {self.value(kind, depth)})"
        return (
            f"{first} {self.one(change, self.statement(depth - 1))} {self.value(kind, depth)} {end}"
        )

    def drop(self, depth):
        return f"(drop {self.value(self.one('i32', 'i64'), depth)})"

    def block(self, depth):
        name = self.label()
        self.labels.append(name)
        body = self.statements(depth)
        self.labels.pop()
        return f"(block {name} {body})"

    def loop(self, depth):
        """A loop of a few rounds; only this statement goes back."""
        if self.loops == 4:
            return self.block(depth)
        name, count = self.label(), f"$count{self.loops}"
        self.loops += 1
        body = self.statements(depth)
        less = f"(local.tee {count} (i32.sub (local.get {count}) (i32.const 1)))"
        rounds = self.chance.randrange(1, 4)
        return (
            f"(local.set {count} (i32.const {rounds})) (loop {name} {body} (br_if {name} {less}))"
        )

    def jump_if(self, depth):
        if not self.labels:
            return self.assign(depth)
        value = self.value("i32", depth)
        seldom = f"(i32.eqz (i32.and {value} (i32.const 7)))"
        return f"(br_if {self.one(*self.labels)} {self.one(value, seldom, seldom)})"

    def guarded(self, statement, depth):
        name = self.label()
        return f"(block {name} (br_if {name} {self.value('i32', depth)}) {statement})"

    def switch(self, depth):
        if not self.labels:
            return self.assign(depth)
        names = " ".join(self.one(*self.labels) for _ in range(self.chance.randrange(2, 6)))
        return self.guarded(f"(br_table {names} {self.value('i32', depth)})", depth)

    def move(self, depth):
        first, other = (f"(i32.const {FIRST + self.chance.randrange(300)})" for _ in range(2))
        count = f"(i32.and {self.value('i32', depth)} (i32.const 15))"
        fill = f"(memory.fill {first} {self.value('i32', depth)} {count})"
        return self.one(fill, f"(memory.copy {first} {other} {count})")

    def leave(self, depth):
        if self.chance.random() < 0.2:
            name = self.label()
            return f"(block {name} (br_if {name} (i32.const 1)) unreachable)"
        end = f"(return (i64.add {self.value('i64', depth)} {MIXED}))"
        kept = f"(local.set $i64_0 {self.value('i64', depth)})"
        return self.guarded(f"{kept} {RESTORED} {end}", depth)

    def text(self):
        # All is in two blocks, so that parts can go to several labels.
        self.labels = ["$outer", "$inner"]
        first = " ".join(self.statement(5) for _ in range(4))
        self.labels = ["$outer"]
        body = f"(block $outer (block $inner {first}) {self.statement(5)} {self.statement(5)})"
        kinds = [f"(local ${kind}_{at} {kind})" for kind in ("i32", "i64") for at in (1, 2)]
        counts = [f"(local $count{at} i32)" for at in range(4)]
        return (
            f'(func $f{self.index} (export "chinese_{self.index}") (param $i32_0 i32)'
            f" (param $i64_0 i64) (result i64) {' '.join(kinds + counts)} (local $frame i64)"
            f"\n{TAKEN} {SPREAD}\n{body}\n"
            f"{RESTORED} (i64.add {self.value('i64', 4)} {MIXED}))"
        )


TAKEN = f"(global.set 0 (local.tee $frame (i64.sub (global.get 0) (i64.const {FRAME}))))"
RESTORED = f"(global.set 0 (i64.add (local.get $frame) (i64.const {FRAME})))"


# All variables begin with a part of the arguments, and are a part of the answer.
SPREAD = """(local.set $i32_1 (i32.mul (local.get $i32_0) (i32.const -1640531527)))
(local.set $i32_2 (i32.add (i32.wrap_i64 (local.get $i64_0)) (local.get $i32_1)))
(local.set $i64_1 (i64.mul (local.get $i64_0) (i64.const -7046029254386353131)))
(local.set $i64_2 (i64.add (i64.extend_i32_s (local.get $i32_1)) (local.get $i64_1)))"""
MIXED = "(local.get $i64_0)"
for other in ("(i64.extend_i32_s (local.get $i32_{}))", "(local.get $i64_{})"):
    for at in range(3):
        MIXED = f"(i64.add (i64.mul {MIXED} (i64.const 31)) {other.format(at)})"


def module(seed):
    chance = random.Random(seed)
    functions = "\n".join(Function(chance, index).text() for index in range(FUNCTIONS))
    data = "".join(f"\\{chance.randrange(256):02x}" for _ in range(400))
    return (
        '(module (memory (export "memory") 2) (global (mut i64) (i64.const 65536))'
        ' (global (mut i32) (i32.const 5)) (global (export "__heap_base") i64 (i64.const 66000))\n'
        f'{functions}\n(data (i32.const {FIRST}) "{data}"))'
    )
