"""How the counts of callgrind become a profile."""

import unittest
from collections import Counter
from pathlib import Path

from tools.benchmarks import profiling, tables
from tools.benchmarks.cases import Case
from tools.benchmarks.measuring import Player, Point, Setting
from tools.benchmarks.profiling import Profile

POINT = Point(Case("sleeps", "a sleep", target=0.5), 10, Setting(True))
CALLGRIND = """# callgrind format
positions: instr line
events: Ir

ob=(1) /lib/libpalqytun.so.1
fl=(1) ???
fn=(1) vm_parts::handles::Handles::push
0x10 0 20
+4 0 20
cob=(2) /lib/libc.so.6
cfn=(2) malloc
calls=10 0x90
* 0 500
-4 0 1

ob=(2)
fn=(2)
0x90 0 500

ob=(3) /made/typed
fn=(3) nap
0x10 0 30
cob=(1)
cfn=(4) palqytun_sleep
calls=10 0x50
+4 0 700
"""
DISASSEMBLED = """
0000000000000010 <push>:
      10:	xorps  xmm0,xmm0
      14:	movaps XMMWORD PTR [rsp+0x30],xmm0
      1a:	mov    QWORD PTR [rsp],0x0
      20:	movaps xmm0,XMMWORD PTR [rsp]
      24:	movaps XMMWORD PTR [rsp+0x50],xmm0
      2a:	mov    eax,0x0

0000000000000030 <find>:
      30:	movaps XMMWORD PTR [rsp+0x30],xmm0
"""


class Reading(unittest.TestCase):
    def test_counts(self) -> None:
        counts = profiling.read_counts(CALLGRIND.splitlines())
        push = ("/lib/libpalqytun.so.1", "vm_parts::handles::Handles::push")
        self.assertEqual(counts.own[push], Counter({0x10: 21, 0x14: 20}))
        self.assertEqual(counts.own[("/lib/libc.so.6", "malloc")], Counter({0x90: 500}))
        self.assertEqual(counts.own[("/made/typed", "nap")], Counter({0x10: 30}))
        self.assertEqual(counts.called, {push: Counter({"malloc": 500}), ("/made/typed", "nap"): Counter({"palqytun_sleep": 700})})

    def test_zero_stores(self) -> None:
        self.assertEqual(profiling.zero_stores(DISASSEMBLED.splitlines()), {0x14, 0x1A})

    def test_names(self) -> None:
        self.assertEqual(profiling.short("std_alloc::vec::Vec::extend_from_slice::<#b74be>"), "Vec::extend_from_slice")
        self.assertEqual(profiling.short("__memcpy_avx_unaligned_erms"), "memcpy")
        self.assertEqual(profiling.short("_int_free"), "_int_free")
        self.assertEqual(profiling.short("Rattle.vm_parts.handles.Handles.push"), "Handles::push")
        self.assertEqual(profiling.plain("f::g'2"), "f::g")


class Layers(unittest.TestCase):
    def layer(self, function: str, side: str = "here", file: str = "/lib/x.so") -> str:
        return profiling.layer_of(side, "/made/typed", (file, function))

    def test_here(self) -> None:
        self.assertEqual(self.layer("lowered_proved_sleep"), "shell")
        self.assertEqual(self.layer("c_sessions::kept::keep"), "shell")
        self.assertEqual(self.layer("vm_parts::handles::Handles::push"), "VM")
        self.assertEqual(self.layer("journal_messages::message::RawMessage::read_typed"), "messages")
        self.assertEqual(self.layer("Rattle.vm_parts.handles.Handles.push"), "VM")
        self.assertEqual(self.layer("std_alloc::vec::Vec::push"), "library")
        self.assertEqual(self.layer("rattle_alloc"), "allocator")
        self.assertEqual(self.layer("malloc"), "allocator")
        self.assertEqual(self.layer("_int_free"), "allocator")
        self.assertEqual(self.layer("__memcpy_avx_unaligned_erms"), "copying")
        self.assertEqual(self.layer("__memset_avx2_unaligned_erms"), "zeros")
        self.assertEqual(self.layer("nap", file="/made/typed"), "player")

    def test_the_original(self) -> None:
        core = "restate_sdk_shared_core"
        self.assertEqual(self.layer(f"<{core}::vm::CoreVM as {core}::VM>::sys_sleep", "original"), "VM")
        self.assertEqual(self.layer(f"{core}::service_protocol::framing::Encoder::encode", "original"), "messages")
        self.assertEqual(self.layer("prost::encoding::decode_varint", "original"), "messages")
        self.assertEqual(self.layer("hashbrown::map::HashMap<K,V,S,A>::insert", "original"), "hash maps")
        self.assertEqual(self.layer("core::hash::BuildHasher::hash_one", "original"), "hash maps")
        self.assertEqual(self.layer("original::player::Player::take", "original"), "player")
        self.assertEqual(self.layer(f"{core}::x'2", "original"), "VM")


class Sums(unittest.TestCase):
    def summed(self) -> Profile:
        zeros = {"/lib/libpalqytun.so.1": {0x14}, "/made/typed": {0x10}}
        counts = profiling.read_counts(CALLGRIND.splitlines())
        return profiling.summed(Player("here", Path("/made/typed")), POINT, counts, zeros)

    def test_a_profile(self) -> None:
        found = self.summed()
        self.assertEqual(found.layers, Counter({"allocator": 50, "player": 3, "VM": 2, "zeros": 2}))
        self.assertEqual(found.functions, Counter({"malloc": 50, "Handles::push": 4}))
        self.assertEqual(found.calls, Counter({"sleep": 70}))

    def test_its_tables(self) -> None:
        said = tables.profile([self.summed()], "Measured today.")
        self.assertIn("| `sleeps` | 57 | 0 | 2 | 0 | 0 | 50 | 0 | 2 | 3 |", said)
        self.assertIn("| `sleeps` | `malloc` 50, `Handles::push` 4 |", said)
        self.assertIn("| Case | here |", said)
        self.assertIn("| `sleeps` | `sleep` 70 |", said)
        self.assertNotIn("The original:", said)


if __name__ == "__main__":
    unittest.main()
