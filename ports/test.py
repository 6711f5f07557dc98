#!/usr/bin/env python3
"""Tests ports/retarget.py: a module as expected passes, and each thing that it relies on is missed where it does not hold."""

import os
import unittest

import retarget

with open(os.path.join(os.path.dirname(os.path.abspath(__file__)), "..", "include", "summerbugle.h")) as header:
    CALLS = retarget.calls_of(header.read())
HEAD = 'target triple = "x86_64-unknown-linux-gnu"\n'
TAIL = 'declare void @llvm.trap() #1\nattributes #0 = { nounwind "probe-stack"="inline-asm" "target-cpu"="x86-64" }\nattributes #1 = { cold }\n'
LINE = "  %r1 = add i64 %r0, 1\n"


def module(line=LINE, calls=CALLS, tail=TAIL):
    """A module with the inner functions of the calls, each with one line of code, and the exported ones."""
    text = HEAD
    for call in calls:
        answer, types = call.signature()
        given = ", ".join("%s noundef %%a%d" % (kind, i) for i, kind in enumerate(types))
        text += 'define internal %s @"summerbugle::%s"(%s) #0 {\n%s}\ndefine i64 @%s(i32 noundef %%a0) #0 {\n}\n' % (answer, call.name, given, line, call.name)
    return text + tail


class Retarget(unittest.TestCase):
    def stops(self, text, words):
        with self.assertRaises(SystemExit) as stopped:
            retarget.check_whole(text)
            retarget.check_calls(text, CALLS)
        self.assertIn(words, str(stopped.exception))

    def test_as_expected(self):
        self.assertEqual(len(CALLS), 30)
        retarget.check_whole(module())
        retarget.check_calls(module(), CALLS)
        text = retarget.retargeted(module())
        self.assertNotIn("x86", text)
        self.assertIn("define void @inner_sb_check(ptr noundef", text)
        self.assertIn("define internal i64 @sb_check(", text)

    def test_casts(self):
        self.stops(module("  %r1 = ptrtoint ptr %a1 to i64\n"), "a cast")
        self.stops(module("  %r1 = inttoptr i64 %r0 to ptr\n"), "a cast")

    def test_data_and_assembly(self):
        self.stops(module() + "@table = internal constant [2 x i8] zeroinitializer\n", "data of its own")
        self.stops(module('  call void asm sideeffect "nop", ""()\n'), "assembly")
        self.stops('module asm "nop"\n' + module(), "assembly")

    def test_one_machine(self):
        self.stops(module("  %r1 = load <4 x i32>, ptr %r0\n"), "a vector")
        self.stops(module("  %r1 = zext i64 %r0 to i128\n"), "128 bits")
        self.stops(module(tail=TAIL.replace("x86-64", "znver4")), "target-cpu")
        self.stops(module(tail=TAIL.replace("cold", '"target-features"="+avx2"')), "target-features")

    def test_outside(self):
        self.stops(module() + "declare ptr @malloc(i64)\n", "it calls malloc")
        self.stops(module() + "declare i64 @llvm.x86.rdtsc()\n", "it calls llvm.x86.rdtsc")

    def test_signatures(self):
        self.stops(module(calls=CALLS[1:]), "its calls are not the header's: " + CALLS[0].name)
        self.stops(module().replace('sb_clear"(i32', 'sb_clear"(i64'), "sb_clear is")
        self.stops(module().replace('i32 @"summerbugle::sb_clear"', 'void @"summerbugle::sb_clear"'), "sb_clear is")


if __name__ == "__main__":
    unittest.main()
