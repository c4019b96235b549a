"""What of the modules and the page needs neither a toolchain nor a browser."""
from __future__ import annotations

import base64
import gzip
import pathlib
import tempfile
import unittest

from yotarimu.common.outcome import Refusal
from yotarimu.common.places import EXAMPLES_FOLDER, HOME
from yotarimu.common.sentences import SENTENCES, fill
from yotarimu.web.bundle import TABLES, constant, fill_page, pack, recorded_page, table_at
from yotarimu.web.toolchain import Crates
from yotarimu.web.modules import told_version
from yotarimu.web.wasm_tables import narrow, number, number_at
from yotarimu.web.llvm_text import KNOWN_LAYOUT, KNOWN_TRIPLE, LAYOUT, TARGET, retarget
from yotarimu.web.examples import examples_in

MODULE = f"""; ModuleID = 'module'
target datalayout = "{KNOWN_LAYOUT}"
target triple = "{KNOWN_TRIPLE}"
define i32 @main() #0 {{
  call void @llvm.x86.sse2.pause()
  call void asm sideeffect "", ""()
  ret i32 0
}}
declare i64 @read(i32, ptr, i64) #0
declare void @llvm.x86.sse2.pause() #0
attributes #0 = {{ nounwind "probe-stack"="inline-asm" "target-cpu"="x86-64" "frame-pointer"="all" }}
"""


def with_body(line: str) -> str:
    """A module whose function has one more line."""
    return MODULE.replace("  ret i32 0", f"  {line}\n  ret i32 0")


class LlvmTextTest(unittest.TestCase):
    """The text of a module."""
    def test_names_the_other_machine(self) -> None:
        text = retarget(MODULE, "m")
        self.assertIn(f'target datalayout = "{LAYOUT}"', text)
        self.assertIn(f'target triple = "{TARGET}"', text)
        self.assertNotIn("x86", text)
        self.assertIn('attributes #0 = { nounwind "frame-pointer"="all" }', text)

    def refuse(self, text: str, part: str) -> None:
        """Expects that a text is refused, for a reason."""
        with self.assertRaisesRegex(Refusal, part):
            retarget(text, "m")

    def test_refuses_another_layout(self) -> None:
        self.refuse(MODULE.replace("e-m:e", "e-m:o"), "datalayout")

    def test_refuses_another_triple(self) -> None:
        self.refuse(MODULE.replace(KNOWN_TRIPLE, "aarch64-unknown-linux-gnu"), "triple")

    def test_refuses_an_unknown_function(self) -> None:
        self.refuse(f"{MODULE}declare i32 @fork()\n", "fork")

    def test_refuses_an_intrinsic_of_the_processor(self) -> None:
        self.refuse(f"{MODULE}declare i64 @llvm.x86.rdtsc()\n", "llvm.x86.rdtsc")

    def test_refuses_inline_assembly(self) -> None:
        self.refuse(with_body('call void asm sideeffect "cpuid", ""()'), "cpuid")

    def test_refuses_assembly_of_the_module(self) -> None:
        self.refuse(MODULE.replace("define", '\nmodule asm "nop"\ndefine', 1), "assembly")

    def test_refuses_a_float_of_80_bits(self) -> None:
        self.refuse(with_body("%x = fpext double 0.0 to x86_fp80"), "x86_fp80")


class WasmTablesTest(unittest.TestCase):
    """Tables of 32 bits."""
    def test_numbers_come_back(self) -> None:
        for value in (0, 127, 128, 300, 2 ** 32 - 1):
            self.assertEqual(number_at(number(value), 0), (value, len(number(value))))

    def test_a_table_of_64_bits_becomes_one_of_32(self) -> None:
        # magic, version; the section of tables: one of functions, from 3 to 3 places, with places of 64 bits
        module = b"\0asm\1\0\0\0" + bytes([4, 5, 1, 0x70, 5, 3, 3])
        self.assertEqual(narrow(module), b"\0asm\1\0\0\0" + bytes([4, 5, 1, 0x70, 1, 3, 3]))

    def test_an_indirect_call_wraps_its_place(self) -> None:
        # one function without locals: i64.const 1; call_indirect type 0, table 0; end
        module = b"\0asm\1\0\0\0" + bytes([10, 9, 1, 7, 0, 0x42, 1, 0x11, 0, 0, 0x0B])
        self.assertEqual(narrow(module), b"\0asm\1\0\0\0" + bytes([10, 10, 1, 8, 0, 0x42, 1, 0xA7, 0x11, 0, 0, 0x0B]))

    def test_an_unknown_instruction_is_refused(self) -> None:
        with self.assertRaisesRegex(Refusal, "0xfd"):
            narrow(b"\0asm\1\0\0\0" + bytes([10, 6, 1, 4, 0, 0xFD, 0, 0x0B]))


class BundleTest(unittest.TestCase):
    """Files that are put together."""
    def test_a_module_is_packed_the_same_each_time(self) -> None:
        self.assertEqual(gzip.decompress(base64.b64decode(pack(b"module"))), b"module")
        self.assertEqual(pack(b"module"), pack(b"module"))

    def test_nothing_in_a_constant_ends_its_script(self) -> None:
        self.assertNotIn("</script>", constant("text", "</script>"))

    def test_a_template_is_filled_once(self) -> None:
        self.assertEqual(fill_page("%one% 100% %two%", {"one": "%two%", "two": "2"}), "%two% 100% 2")

    def test_a_recorded_page_has_all_its_parts(self) -> None:
        page = recorded_page("title", {"lines": "[]"})
        self.assertNotRegex(page, "%(title|style|run|data|scripts)%")

    def test_the_version_is_read_from_a_page(self) -> None:
        self.assertEqual(told_version(constant("table", [["version", "1.1"]])), "1.1")
        self.assertEqual(told_version("no page"), "")


class ExamplesTest(unittest.TestCase):
    """What the page has to show."""
    def test_each_example_has_an_image(self) -> None:
        examples = examples_in(EXAMPLES_FOLDER)
        self.assertEqual(examples[0]["name"], "schedules/conflict")
        self.assertTrue(all(base64.b64decode(it["image"]).startswith(b"FRAC") for it in examples))

    def test_each_example_has_a_source(self) -> None:
        examples = examples_in(EXAMPLES_FOLDER)
        self.assertEqual([it["name"] for it in examples if not it["sources"] and not it["c"]], [])
        several, = (it for it in examples if it["name"] == "schedules/stall")
        self.assertEqual([it["name"] for it in several["sources"]], ["parent.s", "tasks.s"])
        self.assertEqual(examples[-1]["group"], "Schedules")


class ExerciseTexts(unittest.TestCase):
    """What an exercise says of itself."""
    def test_no_exercise_shows_a_line_of_its_answer(self) -> None:
        page = (HOME / "docs/guide/EXERCISES.md").read_text(encoding="utf-8")
        for name in ("journal", "why"):
            text = table_at(TABLES["exercises"])["exercises"][name]["text"]
            for line in (EXAMPLES_FOLDER / "exercises/answers" / name).read_text(encoding="utf-8").splitlines():
                self.assertNotIn(f"`{line}`", page + text)


class CratesTest(unittest.TestCase):
    """The order of crates."""
    def test_crates_come_behind_those_below(self) -> None:
        with tempfile.TemporaryDirectory() as folder:
            home = pathlib.Path(folder)
            (home / "crates.txt").write_text("low: byteorder\nhigh may_wait=1: middle low\nmiddle: low # a comment\n")
            crates = Crates(home)
            self.assertEqual(crates.all_below("high"), ["low", "middle"])
            with self.assertRaisesRegex(Refusal, "prove"):
                crates.library("low")


class Sentences(unittest.TestCase):
    """Sentences for the page."""
    def test_the_requests_of_tasks_have_sentences(self) -> None:
        asked = {"go", "load", "store", "enqueue", "ordered", "unordered", "emit", "end", "trap"}
        self.assertEqual(set(SENTENCES["requests"]), asked)

    def test_a_text_is_filled(self) -> None:
        self.assertEqual(fill("{in} and {text}", **{"in": 1, "text": 2}), "1 and 2")


if __name__ == "__main__":
    unittest.main()
