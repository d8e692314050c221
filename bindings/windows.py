#!/usr/bin/env python3
"""Makes an object for Windows instead of clang, which the toolchain calls only for Linux.

Usage: windows.py CLANG TARGET WORDS..

`rattle build` passes an LLVM module for Linux on x86-64 to clang, with WORDS. With the same words this
script lets CLANG make an object for TARGET from it, with the tables with which Windows unwinds the
stack. The script checks that the module means the same on Windows: the library's calls take and return
only integers and addresses of one register, and only the mangling of names is specific to Linux. It
refuses other words, and each unknown line of a module.
"""
import re
import subprocess
import sys

TARGETS = ("x86_64-pc-windows-gnu", "x86_64-pc-windows-msvc")
LINUX = "x86_64-unknown-linux-gnu"
# The toolchain's words, without --sysroot; those in the middle are valid for each target.
FIRST = [f"--target={LINUX}"]
SHARED = (
    "-march=x86-64 -mllvm -no-trap-after-noreturn -ffunction-sections -fdata-sections "
    "-mllvm -trap-unreachable -mllvm -no-x86-call-frame-opt -mllvm -disable-machine-licm "
    "-mllvm -disable-postra-machine-licm -mllvm -sink-common-insts=false --no-default-config "
    "-no-canonical-prefixes -fintegrated-cc1 -fno-crash-diagnostics -Werror -c -x ir"
).split()
LAST = ["module.bc", "-o", "module.o", "-fPIC", "-O3"]

NAME, VALUE = r'@(?:[\w.]+|"[^"]+")', r"(?:%[\w.]+|@static\.\d+|-?\d+|true|false)"
TYPE = r"(?:void|ptr|i\d+|\[\d+ x i8\]|\{ [\w, ]+ \})"
TEXT = r'"(?:[^"\\]|\\[0-9A-F]{2}|\\\\)*"'


def listed(item):
    """The pattern of zero or more items, separated by commas."""
    return rf"(?:{item}(?:, {item})*)?"


# A table that has addresses, of texts in itself or in other constants.
PART_TYPE = r"(?:ptr|\[\d+ x i8\])"
PART = (
    r"(?:ptr (?:@static\.\d+|getelementptr \(i8, ptr @static\.\d+, i64 \d+\))|"
    rf"\[\d+ x i8\] (?:c{TEXT}|zeroinitializer))"
)
ARGUMENTS = listed(f"{TYPE} {VALUE}")
OF_FUNCTION = listed(rf"{TYPE} (?:noundef )?(?:zeroext )?{VALUE}")
OF_CALL = listed(rf"(?:i32|i64|ptr) noundef {VALUE}")
INTRINSIC = r"@llvm\.(?:trap|mem(?:cpy|move|set)|cttz|ctlz|ctpop|bswap)[\w.]*"
STATEMENTS = (
    "alloca|load|store|getelementptr|extractvalue|insertvalue|icmp|select|phi|zext|sext|trunc|"
    "ptrtoaddr|bitcast|shufflevector|add|sub|mul|udiv|urem|sdiv|srem|and|or|xor|shl|lshr|ashr|br|"
    "switch|ret|unreachable"
)
ATTRIBUTES = (
    r"alwaysinline |cold |nocallback |nofree |noinline |noreturn |nosync |nounwind |speculatable |"
    r'willreturn |memory\([\w: ]+\) |"probe-stack"="inline-asm" |"stack-probe-size"="3072" |'
    r'"target-cpu"="x86-64" '
)
LINES = [
    re.compile(pattern)
    for pattern in (
        r"(?:;.*)?",
        rf"source_filename = {TEXT}",
        rf"@static\.\d+ = private unnamed_addr constant {TYPE} (?:c{TEXT}|zeroinitializer), "
        r"align \d+",
        rf"@static\.\d+ = private constant <{{ {listed(PART_TYPE)} }}> <{{ {listed(PART)} }}>, "
        r"align \d+",
        rf"define internal (?:noundef )?(?:zeroext )?{TYPE} {NAME}\({OF_FUNCTION}\) #\d+ {{",
        rf"define noundef i32 @chinese_\w+\({OF_CALL}\) #\d+ {{",
        r"[\w.]+:(?: +;.*)?",
        rf"  (?:{VALUE} = )?(?:{STATEMENTS})(?: [^()]*)?",
        rf"  (?:{VALUE} = )?call {TYPE} {NAME}\({ARGUMENTS}\)",
        rf"    i\d+ {VALUE}, label {VALUE}",
        r"  \]",
        r"}",
        rf"declare {TYPE} {INTRINSIC}\(.*\) #\d+",
        rf"attributes #\d+ = {{ (?:{ATTRIBUTES})+}}",
        r"!(?:llvm\.ident|\d+) = !{.*}",
    )
]


def refuse(why):
    sys.exit(f"windows: {why}")


def said(*words, stdin=""):
    """The output of a command. Exits if the command fails."""
    ended = subprocess.run(words, input=stdin, stdout=subprocess.PIPE, encoding="utf-8")
    return sys.exit(ended.returncode) if ended.returncode else ended.stdout


def header(text):
    """The data layout and the target that the text of a module names."""
    return [re.search(rf'^target {it} = "(.*)"$', text, re.M)[1] for it in ("datalayout", "triple")]


def for_windows(text, empty):
    """The text of a module with the target of an empty module, and with tables to unwind the stack."""
    (layout, target), (own_layout, own_target) = header(text), header(empty)
    if target != LINUX or layout.replace("-m:e-", "-m:w-") != own_layout:
        refuse(f"the module is for {target}, with the data layout {layout}, and not {own_layout}")
    lines = [it for it in text.split("\n") if not it.startswith("target ")]
    for line in lines:
        if not any(known.fullmatch(line) for known in LINES):
            refuse(f"the module has a line that is not known: {line[:400]}")
    marked = re.sub(
        r'^(attributes .* {)(?=.* "target-cpu")', r"\1 uwtable", "\n".join(lines), flags=re.M
    )
    return f'target datalayout = "{own_layout}"\ntarget triple = "{own_target}"\n{marked}'


def main():
    clang, target, *words = sys.argv[1:]
    if target not in TARGETS:
        refuse(f"{target} is none of {', '.join(TARGETS)}")
    if [it for it in words if not it.startswith("--sysroot=")] != [*FIRST, *SHARED, *LAST]:
        refuse(f"clang is called in a way that is not known: {' '.join(words)}")
    plain = ("-S", "-emit-llvm", "-O0", "-Xclang", "-disable-llvm-passes", "-o", "-")
    text = said(clang, f"--target={LINUX}", "-x", "ir", "module.bc", *plain)
    empty = said(clang, f"--target={target}", "-x", "c", "-", *plain)
    text = for_windows(text, empty)
    of_target = (f"--target={header(text)[1]}", *SHARED, "-", "-o", "module.o", "-O3")
    said(clang, *of_target, stdin=text)


if __name__ == "__main__":
    main()
