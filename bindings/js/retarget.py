#!/usr/bin/env python3
"""Makes the LLVM module that the kit writes for x86-64 one for wasm64.

    retarget.py FROM.ll TO.ll

The kit's own lowering for wasm64 does three things more, and so does this: it leaves out what only x86-64 has; each function with a variable
on the stack traps where the stack has run out; and an export traps where an earlier call of the instance has trapped. Each function begins
with a block `start`, as the kit writes it; where that is not so, this fails.
"""
import re
import sys

X86_64 = r'"probe-stack"="inline-asm" "stack-probe-size"="3072" "target-cpu"="[^"]*"'
WASM = '"no-builtin-bcmp" "no-builtin-memcmp" "no-builtin-strlen" "target-cpu"="lime1"'
# Below this there is no stack.
LOWEST = 16
STACK_CHECK = f"""  %stack.frame = call ptr @llvm.frameaddress.p0(i32 0)
  %stack.at = ptrtoint ptr %stack.frame to i64
  %stack.out = icmp slt i64 %stack.at, {LOWEST}
  br i1 %stack.out, label %stack.trap, label %stack.ok

stack.trap:
  call void @llvm.trap()
  unreachable

stack.ok:"""
EXPORT = """
define noundef zeroext i8 @{name}({parameters}) nounwind "target-cpu"="lime1" "wasm-export-name"="{name}" {{
start:
  %was = call i1 @__rattle_enter()
  br i1 %was, label %spent, label %run
spent:
  call void @__rattle_trap()
  unreachable
run:
  %status = call i8 @"rattle::export {name}"({arguments})
  call void @__rattle_leave()
  ret i8 %status
}}
"""
DECLARED = """
declare noundef zeroext i1 @__rattle_enter() nounwind
declare void @__rattle_leave() nounwind
declare void @__rattle_trap() nounwind
declare ptr @llvm.frameaddress.p0(i32 immarg)
"""


# The one instruction of x86-64 that the module asks for by name: each byte of the result is the one at an index, or 0 where that is negative.
SHUFFLE, SHUFFLED = "llvm.x86.ssse3.pshuf.b.128", "shuffle_bytes"
LANES = 16


def shuffle():
    """That instruction as a function, lane by lane."""
    lines = [f"define internal <16 x i8> @{SHUFFLED}(<16 x i8> %bytes, <16 x i8> %indices) {{", "start:"]
    made = "zeroinitializer"
    for lane in range(LANES):
        lines += [
            f"  %index.{lane} = extractelement <16 x i8> %indices, i32 {lane}",
            f"  %low.{lane} = and i8 %index.{lane}, {LANES - 1}",
            f"  %found.{lane} = extractelement <16 x i8> %bytes, i8 %low.{lane}",
            f"  %is_none.{lane} = icmp slt i8 %index.{lane}, 0",
            f"  %byte.{lane} = select i1 %is_none.{lane}, i8 0, i8 %found.{lane}",
            f"  %made.{lane} = insertelement <16 x i8> {made}, i8 %byte.{lane}, i32 {lane}",
        ]
        made = f"%made.{lane}"
    return "\n".join([*lines, f"  ret <16 x i8> {made}", "}", ""])


def checked(function):
    """A function with a check of the stack after the variables of its first block; as it was, where it has none."""
    head, body = function[1], function[2]
    lines = body.split("\n")
    block = next((at for at, line in enumerate(lines) if re.match(r"[\w.]+:", line)), len(lines))
    # Behind the last variable: one behind the check would be made anew at each turn of a loop.
    variables = [at + 1 for at in range(block) if " = alloca " in lines[at]]
    if not variables:
        return function[0]
    at = variables[-1]
    body = "\n".join([*lines[:at], STACK_CHECK, *lines[at:]])
    # What comes from the first block comes from the block behind the check now.
    return head + re.sub(r"\[ ([^\],]+), %start \]", r"[ \1, %stack.ok ]", body)


def exported(text):
    """The text with the guard of each export."""
    guards = ""
    for found in list(re.finditer(r"^define noundef i8 @(scale_info_ffi_\w+)\(([^)]*)\) #\d+ \{$", text, re.M)):
        name, parameters = found[1], found[2]
        own = f'define internal noundef i8 @"rattle::export {name}"({parameters}) noinline nounwind "target-cpu"="lime1" {{'
        text = text.replace(found[0], own)
        guards += EXPORT.format(name=name, parameters=parameters, arguments=parameters.replace(" noundef", ""))
    if not guards:
        raise SystemExit("retarget: there is no export")
    return text + guards + DECLARED


def main():
    with open(sys.argv[1], encoding="utf-8") as file:
        text = file.read()
    functions = len(re.findall(r"^define ", text, re.M))
    if functions != len(re.findall(r"^define [^\n]*\{\nstart:", text, re.M)):
        raise SystemExit("retarget: a function does not begin with the block start")
    text = re.sub(r"^target (datalayout|triple) = .*\n", "", text, flags=re.M)
    if SHUFFLE in text:
        text = re.sub(rf"^declare [^\n]*@{re.escape(SHUFFLE)}\([^\n]*\n", "", text, flags=re.M).replace(f"@{SHUFFLE}", f"@{SHUFFLED}")
    others = sorted(set(re.findall(r"@(llvm\.x86\.[\w.]+)", text)))
    if others:
        raise SystemExit(f"retarget: the module asks for instructions of x86-64: {', '.join(others)}")
    text = re.sub(X86_64, WASM, text)
    text = re.sub(r"(^define [^\n]*\{\nstart:[^\n]*\n)(.*?\n\})", checked, text, flags=re.M | re.S)
    with open(sys.argv[2], "w", encoding="utf-8") as file:
        file.write(exported(text) + (shuffle() if SHUFFLED in text else ""))


main()
