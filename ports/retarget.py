#!/usr/bin/env python3
"""The engine's LLVM module, made fit for any machine.

    retarget.py HEADER MODULE.ll OUT.ll SHIM.c

OUT.ll is the module without its machine, its inner functions visible under C names; SHIM.c defines each call of the header over them,
by the C rules of whatever compiler compiles it. What both rely on is checked first; where it does not hold, nothing is written.

Inside the module a call is `summerbugle::sb_X`. It takes integers as they are and a pointer to each slice (a pointer in the first 8
bytes, a 64-bit count of elements in the next 8), and before them a place for its answer, unless that is one number.
"""

import re
import sys

# What the module may call beside its own functions; a compiler may make memcpy, memmove and memset of it.
OUTSIDE = {"llvm.memmove.p0.p0.i64", "llvm.memset.p0.i64", "llvm.cttz.i64", "llvm.ctpop.i64", "llvm.trap"}
# Words between quotes that an attribute may have; the first two are x86-64's, and go.
MACHINE = {"target-cpu": "x86-64", "probe-stack": "inline-asm"}
INTEGERS = {"uint32_t": "i32", "int8_t": "i8", "size_t": "i64"}


def stop(why):
    sys.exit("ports: the module is not as expected: " + why)


class Call:
    """A call of the header: the type of its answer, its name, its parameters (type, name), a slice being one."""

    def __init__(self, answer, name, text):
        self.answer, self.name, self.text = answer, name, " ".join(text.split())
        self.parameters, self.lengths = [], set()
        for word in self.text.split(", ") if self.text != "void" else []:
            kind, called = re.fullmatch(r"(.*?[ *])(\w+)", word).groups()
            if called in self.lengths:
                continue
            if "*" in kind:
                self.lengths.add(called + "_len")
            self.parameters.append((kind.strip(), called))
        self.by_value = answer == "uint32_t"

    def signature(self):
        """What the module must say of the inner function: its answer and its parameters' types."""
        types = [] if self.by_value else ["ptr"]
        types += ["ptr" if "*" in kind else INTEGERS[kind] for kind, _ in self.parameters]
        return ("i32" if self.by_value else "void", types)

    def shim(self):
        """The C function over the inner one. A number is taken at a register's width and cut: the module extends no answer."""
        inner = ["const slice *" if "*" in kind else {"size_t": "uint64_t"}.get(kind, kind) for kind, _ in self.parameters]
        given = ["&%s_slice" % called if "*" in kind else called for kind, called in self.parameters]
        body = ["    slice %s_slice = {{%s}, %s_len};" % (called, called, called) for kind, called in self.parameters if "*" in kind]
        if self.by_value:
            outer = "unsigned long"
            body += ["    return (uint32_t)inner_%s(%s);" % (self.name, ", ".join(given))]
        else:
            outer, inner, given = "void", ["void *"] + inner, ["&out"] + given
            body += ["    answer_%s out;" % self.answer, "    inner_%s(%s);" % (self.name, ", ".join(given)), "    " + ANSWERS[self.answer]]
        lines = ["extern %s inner_%s(%s);" % (outer, self.name, ", ".join(inner) or "void"), "%s %s(%s) {" % (self.answer, self.name, self.text)]
        return "\n".join(lines + body + ["}"]) + "\n"


SHIM = """/* Written by ports/retarget.py from the header: each call by this compiler's rules, over the functions inside the module. */
#include "summerbugle.h"

typedef struct {
    union { const void *first; uint64_t room; };
    uint64_t count;
} slice;
typedef struct { uint32_t number, end; uint64_t offset, length, next; } answer_sb_block;
typedef sb_value answer_sb_value;
typedef sb_reply answer_sb_reply;
typedef sb_later answer_sb_later;
typedef sb_pair answer_sb_pair;
_Static_assert(sizeof(slice) == 16 && offsetof(slice, count) == 8, "a slice");
_Static_assert(sizeof(sb_value) == 8 && sizeof(sb_later) == 12 && sizeof(sb_pair) == 12, "answers of numbers");
_Static_assert(sizeof(sb_reply) == 12 && offsetof(sb_reply, step) == 4 && offsetof(sb_reply, count) == 8, "the answer of a link call");
_Static_assert(sizeof(answer_sb_block) == 32 && offsetof(answer_sb_block, offset) == 8, "a step of the block reader");
_Static_assert(sizeof(sb_node) == 6 && offsetof(sb_node, parent) == 4, "a node");

"""
ANSWERS = dict.fromkeys(["sb_value", "sb_reply", "sb_later", "sb_pair"], "return out;")
ANSWERS["sb_block"] = "return (sb_block){out.number, out.end, (size_t)out.offset, (size_t)out.length, (size_t)out.next};"


def calls_of(header):
    plain = re.sub(r"/\*.*?\*/", "", header, flags=re.S)
    return [Call(*found) for found in re.findall(r"^(uint32_t|sb_\w+) (sb_\w+)\(([^;{]*)\);", plain, flags=re.M)]


def parameter_types(text):
    """The types of a definition's parameters: what stands first in each, attributes and names left out."""
    plain = re.sub(r"\([^()]*\)", "", text)
    return [word.split()[0] for word in plain.split(",")] if plain.strip() else []


def check_whole(module):
    """Nothing in the module hangs on the width of a pointer, on data of its own or on one machine's instructions."""
    for line in module.splitlines():
        code = line.split(" ;")[0]
        if re.search(r"\b(ptrtoint|inttoptr|ptrtoaddr|addrspacecast|va_arg)\b", code):
            stop("a cast between a pointer and an integer: " + line.strip())
        if re.match(r"@", code):
            stop("data of its own: " + line.strip())
        if re.search(r"\basm (sideeffect|inteldialect|\")|^module asm", code):
            stop("assembly: " + line.strip())
        if re.search(r"<\d+ x |\b(float|double|i128)\b", code) and not code.startswith("target"):
            stop("a vector, a floating number or 128 bits: " + line.strip())
    for name in re.findall(r'^declare .*?@"?([^"(]+)"?\(', module, flags=re.M):
        if name not in OUTSIDE:
            stop("it calls " + name)
    for group in re.findall(r"^attributes #\d+ = \{(.*)\}", module, flags=re.M):
        for word, value in re.findall(r'"([^"]+)"(?:="([^"]*)")?', group):
            if MACHINE.get(word) != value:
                stop("an attribute %s=%s" % (word, value))


def check_calls(module, calls):
    """The inner functions are the header's calls, with the parameters that the shim hands over."""
    found = {}
    for answer, name, text in re.findall(r'^define internal (.*?) ?@"summerbugle::(sb_\w+)"\((.*?)\) (?:[^()]*)\{', module, flags=re.M):
        found[name] = (answer.split()[-1], parameter_types(text))
    if set(found) != {call.name for call in calls}:
        stop("its calls are not the header's: " + " ".join(sorted(set(found) ^ {call.name for call in calls})))
    for call in calls:
        if found[call.name] != call.signature():
            stop("%s is %s, not %s" % (call.name, found[call.name], call.signature()))


def retargeted(module):
    """The module without its machine; inner functions under C names, the exported ones, which follow x86-64's rules, hidden."""
    module = re.sub(r"^target (datalayout|triple) = .*\n", "", module, flags=re.M)
    for word, value in MACHINE.items():
        module = module.replace(' "%s"="%s"' % (word, value), "")
    module = re.sub(r"^define (.*@sb_)", r"define internal \1", module, flags=re.M)
    module = re.sub(r'^define internal (.*@"summerbugle::sb_)', r"define \1", module, flags=re.M)
    return re.sub(r'@"summerbugle::(sb_\w+)"', r"@inner_\1", module)


def main():
    header, module = (open(name).read() for name in sys.argv[1:3])
    calls = calls_of(header)
    check_whole(module)
    check_calls(module, calls)
    with open(sys.argv[3], "w") as out:
        out.write(retargeted(module))
    with open(sys.argv[4], "w") as out:
        out.write(SHIM + "\n".join(call.shim() for call in calls))


if __name__ == "__main__":
    main()
