#!/usr/bin/env python3
"""Writes the WebAssembly module with a 32-bit memory as one C file, OUT/chinese_number.c.

Usage: source.py MODULE OUT

MODULE is `chinese-number.32.wasm`, as `bindings/web/build.sh` makes it. `wasm2c` of wabt 1.0.32 must
be on the path. The script knows what that version writes, line by line. It refuses any other line,
another prelude, and a module of another form. The functions of the module are unchanged, except for
their memory, which `chinese_number.c.in` defines, for a test of the stack that each function uses,
and without wabt's count of calls.

The module's stack is an array in the C file. The script computes how deep it can become, from what
each function uses and what the functions that it calls use. So it refuses a module that calls through
a table, or whose functions call each other in a circle. A function may call itself if it uses none of
that stack.
"""
import hashlib
import re
import subprocess
import sys
import tempfile
from pathlib import Path

VERSION = "1.0.32"
# The checksum of the prelude before each module, which defines its macros; the template redefines
# them.
PRELUDE = "b00ae1a3d2f037728dbc273d22e4e26f9fcce55ca1703c34526a03bc09aee686"
TEMPLATE = Path(__file__).with_name("chinese_number.c.in")

VALUE, NUMBER, LABEL = r"w2c_[ijlp]\d+", r"\d+u(?:ll)?", r"w2c_(?:[BL]\d+|Bfunc)"
MEMORY, ADDRESS = "&instance->w2c_memory", rf"\(u64\)\({VALUE}\)(?: \+ \d+u?)?"
# The statements, each of one line. Those that access memory are built from the template's names.
STATEMENTS = (
    rf"{VALUE} = (?:{VALUE}|{NUMBER}|instance->w2c_g[01]|{VALUE} \? {VALUE} : {VALUE});",
    rf"instance->w2c_g[01] = {VALUE};",
    rf"{VALUE} [-+*&|^]= {VALUE};",
    rf"{VALUE} (?:<<|>>)= \({VALUE} & (?:31|63)\);",
    rf"{VALUE} = {VALUE} (?:[=!<>]=|[<>]) {VALUE};",
    rf"{VALUE} = \(u(?:32|64)\)\(\((s32|s64)\){VALUE} [<>]=? \(\1\){VALUE}\);",
    rf"{VALUE} = \(u(32|64)\)\(\(s\1\){VALUE} >> \({VALUE} & (?:31|63)\)\);",
    rf"{VALUE} = (?:!|\(u32\)|\(u64\)|\(u64\)\(s64\)\(s32\))\({VALUE}\);",
    rf"{VALUE} = \(u(?:32|64)\)\(s(?:32|64)\)\(s(8|16)\)\(u\1\)\({VALUE}\);",
    rf"{VALUE} = (?:DIV_U|REM_U)\({VALUE}, {VALUE}\);",
    rf"{VALUE} = I64_C[LT]Z\({VALUE}\);",
    rf"{VALUE} = I32_ROTL\({VALUE}, {VALUE}\);",
    rf"memory_(?:copy\({MEMORY}, |fill\(){MEMORY}, {VALUE}, {VALUE}, {VALUE}\);",
    rf"(?:{VALUE} = )?w2c_\w+\(instance(?:, {VALUE})*\);",
    rf"(?:if \({VALUE}\) \{{)?goto {LABEL};\}}?",
    rf"switch \({VALUE}\) \{{",
    rf"(?:case \d+|default): goto {LABEL};",
    rf"if \({VALUE}\) \{{|\}} else \{{|\}}",
    rf"{LABEL}:;?",
    rf"return {VALUE};",
    r"(?:FUNC_PROLOGUE|FUNC_EPILOGUE|UNREACHABLE);",
    rf"u(?:32|64) {VALUE}(?: = 0)?(?:, {VALUE}(?: = 0)?)*;",
)

PARTS = re.compile(
    r"static bool s_module_initialized = false;\n\nstatic u32 func_types\[\d+\];\n\n"
    r"static void init_func_types\(void\) \{\n"
    r"(?:  func_types\[\d+\] = wasm_rt_register_func_type\([\w, ]+\);\n)+\}\n\n"
    r"(?P<declarations>"
    r"(?:static (?:u32|u64|void) w2c_\w+\(Z_cn_instance_t\*(?:, u(?:32|64))*\);\n)+)\n"
    r"static void init_globals\(Z_cn_instance_t\* instance\) \{\n"
    r"  instance->w2c_g0 = (?P<top>\d+)ull;\n"
    r"  instance->w2c_g1 = 0u;\n"
    r"  instance->w2c___heap_base = \d+ull;\n\}\n\n\n"
    r"static const u8 data_segment_data_w2c_d0\[\] = \{\n"
    r"(?P<constants>(?:  (?:0x\w\w, ?)*\n)+)\};\n\n"
    r"static void init_memories\(Z_cn_instance_t\* instance\) \{\n"
    r"  wasm_rt_allocate_memory\(&instance->w2c_memory, \d+, 65536\);\n"
    r"  LOAD_DATA\(instance->w2c_memory, (?P=top)u, data_segment_data_w2c_d0, \d+\);\n\}\n\n"
    r"static void init_data_instances\(Z_cn_instance_t \*instance\) \{\n\}\n\n"
    r"(?P<functions>.*?)"
    r"/\* export: 'memory' \*/\nwasm_rt_memory_t\* Z_cnZ_memory\(Z_cn_instance_t\* instance\) \{\n"
    r"  return &instance->w2c_memory;\n\}\n\n"
    r"(?P<exports>(?:/\* export: '\w+' \*/\n.*?\n\}\n\n)+)"
    + re.escape(
        """void Z_cn_init_module(void) {
  assert(wasm_rt_is_initialized());
  s_module_initialized = true;
  init_func_types();
}

void Z_cn_instantiate(Z_cn_instance_t* instance) {
  assert(wasm_rt_is_initialized());
  assert(s_module_initialized);
  init_globals(instance);
  init_memories(instance);
  init_data_instances(instance);
}

void Z_cn_free(Z_cn_instance_t* instance) {
  wasm_rt_free_memory(&instance->w2c_memory);
}
"""
    ),
    re.DOTALL,
)
PARAMETERS = r"\(Z_cn_instance_t\* instance(?:, u(?:32|64) w2c_p\d+)*\) \{\n"
FUNCTION = re.compile(
    rf"static (?:u32|u64|void) (?P<name>w2c_\w+){PARAMETERS}(?P<body>.*?\n)\}}\n\n",
    re.DOTALL,
)
EXPORT = re.compile(
    rf"u32 Z_cnZ_(\w+){PARAMETERS}  return w2c_\1\(instance(?:, w2c_p\d+)*\);\n\}}\n"
)
CALLED = re.compile(r"\b(w2c_\w+)\(instance")
# The beginning of a function that uses some of the stack, and of one that uses none.
TAKES = re.compile(
    r" *(\w+) = instance->w2c_g0;\n *(\w+) = (\d+)ull;\n *\1 -= \2;\n"
    r" *(w2c_l\d+) = \1;\n(?P<moved> *instance->w2c_g0 = \1;\n)?"
)
ASKS = re.compile(
    r"(\w+) = instance->w2c_g0;\n(?:(w2c_l\d+) = \1;\n)?(\w+) = (?:"
    r"16ull;\nw2c_i0 = \(u64\)\(\(s64\)\1 <|15ull;\nw2c_i0 = \(u64\)\(\(s64\)\1 >"
    r") \(s64\)\3\);\n(?P<moved>)"
)
# How either of them releases its stack.
GIVES = re.compile(
    r"(\w+) = w2c_l\d+;\n(?:(\w+) = (\d+)ull;\n\1 \+= \2;\n)?instance->w2c_g0 = \1;\n"
)


def refuse(what):
    sys.exit(f"source: {what}")


def written(module, folder):
    """What wasm2c writes for the module after the prelude, with broken lines joined."""
    asked = subprocess.run(["wasm2c", "--version"], capture_output=True, text=True, check=True)
    version = asked.stdout.strip()
    if version != VERSION:
        refuse(f"wasm2c has version {version}, not {VERSION}")
    file = Path(folder) / "module.c"
    subprocess.run(["wasm2c", "-n", "cn", str(module), "-o", str(file)], check=True)
    text = file.read_text(encoding="ascii")
    prelude, begins, rest = text.partition("static bool s_module_initialized")
    found = hashlib.sha256(prelude.encode()).hexdigest()
    if found != PRELUDE:
        refuse(f"wasm2c wrote another prelude, with the checksum {found}")
    return begins + re.sub(r", \n +(?=[uw])", ", ", rest)


def statement_of(template):
    """The patterns of a line, with the memory accesses that the template defines."""
    loads = "|".join(re.findall(r"^LOAD\((\w+),", template, re.MULTILINE))
    stores = "|".join(re.findall(r"^STORE\((\w+),", template, re.MULTILINE))
    of_memory = (
        rf"{VALUE} = (?:{loads})\({MEMORY}, {ADDRESS}\);",
        rf"(?:{stores})\({MEMORY}, {ADDRESS}, {VALUE}\);",
    )
    # Each statement is a separate pattern, since some have numbered groups.
    return [re.compile(statement) for statement in (*STATEMENTS, *of_memory)]


def functions_of(text, statements):
    """The functions, each with its lines of one statement."""
    found = {}
    for function in FUNCTION.finditer(text):
        found[function["name"]] = [line.strip() for line in function["body"].splitlines()]
        for line in found[function["name"]]:
            if not any(statement.fullmatch(line) for statement in statements):
                refuse(f"{function['name']} has an unknown line: {line}")
    if FUNCTION.sub("", text):
        refuse(f"there is other text between the functions: {FUNCTION.sub('', text)[:200]!r}")
    return found


def taken(name, lines):
    """How many bytes of the module's stack a function uses."""
    body = "".join(f"{line}\n" for line in lines)
    uses = body.count("instance->w2c_g0")
    if uses == 0:
        return 0
    takes = TAKES.search(body)
    begins = takes or ASKS.search(body)
    frame = int(takes[3]) if takes else 0
    given = [int(gives[3] or 0) for gives in GIVES.finditer(body)]
    known = begins and uses == begins[0].count("instance->w2c_g0") + len(given)
    if not known or set(given) - {frame} or begins["moved"] and not given:
        refuse(f"{name} uses the stack in an unknown way")
    return frame


def depth(functions, calls):
    """How many bytes of its stack the module can use."""
    frames = {name: taken(name, lines) for name, lines in functions.items()}
    found = {}

    def below(name, above):
        if name in above:
            refuse(f"{name} is called by a function that it calls")
        if name in calls[name] and frames[name]:
            refuse(f"{name} calls itself, and uses {frames[name]} bytes of the stack")
        if name not in found:
            deepest = [below(other, (*above, name)) for other in calls[name] - {name}]
            found[name] = frames[name] + max(deepest, default=0)
        return found[name]

    return max(below(name, ()) for name in functions)


def calls_of(exports, template):
    """The number of calls that the module exports. The template must make exactly these calls."""
    shown = EXPORT.findall(exports)
    made = set(re.findall(r"= w2c_(\w+)\(", template))
    # It exports one more thing, which is not a call: where its constants end.
    others = exports.count("/* export: ") - len(shown)
    if set(shown) != made or others != 1 or "Z_cnZ___heap_base(" not in exports:
        refuse(f"the module exports the calls {sorted(shown)}, the template makes {sorted(made)}")
    return len(shown)


def of_texts(calls, template):
    """The functions that only calls with a text reach."""
    reached, ahead = set(), set(re.findall(r"= (w2c_\w+)\((?!&?m, FIRST_OF_TEXT)", template))
    while ahead:
        reached |= ahead
        ahead = set().union(*(calls[name] for name in ahead)) - reached
    return calls.keys() - reached


def ours(text, of_text):
    """The module's source adapted to the template's machine, which tests a function's stack once. In a
    function that only calls with a text reach, most words of four bytes are loaded from the text.
    """
    text = FUNCTION.sub(
        lambda it: (
            it[0].replace("i32_load(", "i32_load_of_text(") if it["name"] in of_text else it[0]
        ),
        text,
    )
    text = TAKES.sub(r"\g<0>  (void)its_own(instance, \4, \3);\n", text)
    text = text.replace(f"{MEMORY}, {MEMORY}", "m").replace(MEMORY, "m")
    text = re.sub(r"^ *FUNC_(?:PROLOGUE|EPILOGUE);\n", "", text, flags=re.MULTILINE)
    text = text.replace("Z_cn_instance_t* ", "module *").replace("Z_cn_instance_t*", "module *")
    text = re.sub(r"\binstance\b", "m", text)
    return re.sub(r" +$", "", text, flags=re.MULTILINE)


def main():
    if len(sys.argv) != 3 or sys.argv[1].startswith("-"):
        sys.exit(__doc__)
    template = TEMPLATE.read_text(encoding="utf-8")
    with tempfile.TemporaryDirectory() as scratch:
        parts = PARTS.fullmatch(written(Path(sys.argv[1]).resolve(), scratch))
    if not parts:
        refuse("wasm2c wrote a module with unknown parts")
    functions = functions_of(parts["functions"], statement_of(template))
    calls = {name: set(CALLED.findall("\n".join(lines))) for name, lines in functions.items()}
    shown, bytes_of_stack = calls_of(parts["exports"], template), depth(functions, calls)
    module = parts["declarations"] + "\n" + parts["functions"]
    filled = {
        "STACK_BYTES": f"UINT64_C({bytes_of_stack})",
        "FIRST_CONSTANT": f"UINT64_C({parts['top']})",
        "CONSTANTS": re.sub(r"\s*\n", "\n", parts["constants"]).rstrip("\n"),
        "MODULE": ours(module, of_texts(calls, template)).rstrip("\n"),
    }
    for name, text in filled.items():
        if template.count(f"@{name}@") != 1:
            refuse(f"the template contains @{name}@ {template.count(f'@{name}@')} times")
        template = template.replace(f"@{name}@", text)
    out = Path(sys.argv[2])
    out.mkdir(parents=True, exist_ok=True)
    (out / "chinese_number.c").write_text(template, encoding="utf-8")
    print(
        f"source: chinese_number.c with {shown} calls, from {len(functions)} functions of the module, "
        f"which use at most {bytes_of_stack} bytes of its stack"
    )


main()
