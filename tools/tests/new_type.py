"""Tests `crates/rlp/new-type`."""

import shutil
import subprocess
import unittest

from scratch import ROOT, Scratch, contents, text_of

SCRIPT = ROOT / "crates" / "rlp" / "new-type"
PARCEL = ("Parcel", "number:u64", "address:Vec<u8>", "note:Vec<u8>?")
LIBRARY = "//! A crate.\n#![tactic(auto)]\n\npub fn one() -> u8 {\n    1\n}\n"
PROGRAM = "//! A program.\n#![tactic(auto)]\n\nuse std::io;\n\nfn main(rt: HostRuntime) -> io::Result<()> {\n    println!(rt; \"\")\n}\n"


class NewType(Scratch):
    """A repository with a library and a program."""

    def setUp(self):
        super().setUp()
        self.write("crates.txt", "shop:\napp: hex # the program\n")
        self.write("crates/shop/src/lib.rt", LIBRARY)
        self.write("crates/app/src/main.rt", PROGRAM)

    def adds(self, crate, *words):
        """Adds a type to a crate."""
        return self.passes(SCRIPT, "--into", f"crates/{crate}", *words)

    def refuses(self, *words):
        """Calls the script in a way that it must refuse, with nothing changed."""
        before = contents(self.folder)
        said = self.fails(SCRIPT, *words)
        self.assertEqual(contents(self.folder), before)
        return said

    def test_library(self):
        said = self.adds("shop", *PARCEL)
        crate = self.folder / "crates" / "shop"
        self.assertIn("pub struct Parcel {", text_of(crate / "src/parcel.rt"))
        self.assertIn("ghost use Rattle.shop.specs.Parcel.{parcel};", text_of(crate / "src/parcel.rt"))
        self.assertIn("abbrev pub parcel : Codec Parcel", text_of(crate / "specs/Parcel.antt"))
        self.assertEqual(text_of(crate / "specs/Lib.antt"), "pub mod Parcel\n")
        begin = "//! A crate.\n#![tactic(auto)]\n\nmod parcel;\n\npub use parcel::Parcel;\n\npub fn one()"
        self.assertTrue(text_of(crate / "src/lib.rt").startswith(begin))
        for file in ("src/parcel.rt", "specs/Parcel.antt", "src/lib.rt", "specs/Lib.antt"):
            self.assertIn(f"crates/shop/{file}\n", said)
        self.assertIn("crates.txt: shop: rlp\n", said)
        self.assertIn("`rt check` in crates/shop", said)

    def test_program(self):
        said = self.adds("app", *PARCEL)
        crate = self.folder / "crates" / "app"
        self.assertIn("ghost use Rattle.app.specs.Parcel.{parcel};", text_of(crate / "src/parcel.rt"))
        self.assertEqual(text_of(crate / "specs/Lib.antt"), "pub mod Parcel\n")
        begin = "//! A program.\n#![tactic(auto)]\n\nmod parcel;\n\npub use parcel::Parcel;\nuse std::io;\n\nfn main("
        self.assertTrue(text_of(crate / "src/main.rt").startswith(begin))
        self.assertIn("crates.txt: app: hex rlp\n", said)

    def test_lines_in_order(self):
        lines = "#![tactic(auto)]\n\nmod area;\npub mod zone;\n\npub use area::{\n    Area, Place,\n};\npub use zone::Zone;\n"
        self.write("crates/shop/src/lib.rt", lines)
        self.write("crates/shop/specs/Lib.antt", "pub mod Area\npub mod Zone\n")
        self.adds("shop", *PARCEL)
        wanted = lines.replace("pub mod zone", "mod parcel;\npub mod zone").replace("pub use zone", "pub use parcel::Parcel;\npub use zone")
        self.assertEqual(text_of(self.folder / "crates/shop/src/lib.rt"), wanted)
        self.assertEqual(text_of(self.folder / "crates/shop/specs/Lib.antt"), "pub mod Area\npub mod Parcel\npub mod Zone\n")

    def test_lines_that_are_there(self):
        lines = "#![tactic(auto)]\n\npub mod parcel;\n\npub use parcel::{\n    Parcel, other,\n};\n"
        self.write("crates/shop/src/lib.rt", lines)
        self.adds("shop", *PARCEL)
        self.assertEqual(text_of(self.folder / "crates/shop/src/lib.rt"), lines)

    def test_twice(self):
        self.adds("shop", *PARCEL)
        before = contents(self.folder)
        self.assertIn("has all of it already", self.adds("shop", *PARCEL))
        self.assertEqual(contents(self.folder), before)

    def test_lines_that_went(self):
        self.adds("shop", *PARCEL)
        self.write("crates/shop/src/lib.rt", LIBRARY)
        self.write("crates/shop/specs/Lib.antt", "")
        self.adds("shop", *PARCEL)
        self.assertIn("mod parcel;", text_of(self.folder / "crates/shop/src/lib.rt"))
        self.assertEqual(text_of(self.folder / "crates/shop/specs/Lib.antt"), "pub mod Parcel\n")

    def test_overwriting(self):
        for file in ("src/parcel.rt", "specs/Parcel.antt"):
            self.adds("shop", "--force", *PARCEL)
            path = self.folder / "crates" / "shop" / file
            made = text_of(path)
            self.write(f"crates/shop/{file}", f"{made}-- mine\n")
            said = self.refuses("--into", "crates/shop", *PARCEL)
            self.assertIn(f"crates/shop/{file} would be overwritten; --force", said)
            self.adds("shop", "--force", *PARCEL)
            self.assertEqual(text_of(path), made)

    def test_another_type_of_the_name(self):
        self.adds("shop", *PARCEL)
        self.refuses("--into", "crates/shop", "Parcel", "number:u32")

    def test_no_crate(self):
        self.assertIn("rt new crates/none start_lib", self.refuses("--into", "crates/none", *PARCEL))

    def test_names(self):
        for words in (["Lib", "a:u8"], ["Main", "a:u8"], ["parcel", "a:u8"], ["Type", "a:u8"], ["Rlp", "a:u8"], ["A-B", "a:u8"]):
            self.assertIn("can't be the name of a type", self.refuses("--into", "crates/shop", *words))
        for words in (["A", "type:u8"], ["A", "a-b:u8"], ["A", "B:u8"], ["A", "a:u8", "a:u8"], ["A", ":u8"]):
            self.assertIn("can't be the name of a field", self.refuses("--into", "crates/shop", *words))

    def test_types(self):
        self.assertIn("no type u7", self.refuses("--into", "crates/shop", "A", "a:u7"))
        self.assertIn("needs a custom type", self.refuses("--into", "crates/shop", "A", "a:Vec<Vec<Vec<u8>>>"))
        self.assertIn("isn't the last field", self.refuses("--into", "crates/shop", "A", "a:u8?", "b:u8"))

    def test_usage(self):
        for words in ([], ["A"], ["A", "a"], ["--into", "crates/shop"]):
            self.assertIn("usage: crates/rlp/new-type", self.refuses(*words))
        self.assertIn("usage: crates/rlp/new-type", self.passes(SCRIPT, "--help"))

    def test_types_of_other_crates(self):
        said = self.adds("shop", "Order", "buyer:Hash=rlp_records:Hash.hash", "what:Parcel")
        self.assertIn("crates.txt: shop: rlp rlp_records\n", said)
        self.assertIn("crates/shop/specs/Parcel.antt and its type", said)
        self.assertIn("use rlp_records::Hash;", text_of(self.folder / "crates/shop/src/order.rt"))
        self.adds("shop", *PARCEL)
        self.assertNotIn("and its type", self.adds("shop", "Order", "buyer:Hash=rlp_records:Hash.hash", "what:Parcel"))

    def test_line_that_lists_rlp(self):
        self.write("crates.txt", "shop: bytes rlp\n")
        self.assertNotIn("crates.txt", self.adds("shop", *PARCEL))

    def test_printed_as_written(self):
        printed = self.passes(SCRIPT, *PARCEL).replace("my_crate", "shop")
        self.adds("shop", *PARCEL)
        for file in ("src/parcel.rt", "specs/Parcel.antt"):
            self.assertIn(f"==> {file} <==\n{text_of(self.folder / 'crates/shop' / file)}", printed)

    def test_in_another_repository(self):
        self.passes(ROOT / "tools" / "add-to", ".")
        self.passes("crates/rlp/new-type", "--into", "crates/app", *PARCEL)
        self.assertTrue((self.folder / "crates/app/src/parcel.rt").exists())

    @unittest.skipUnless(shutil.which("rt"), "there is no rt")
    def test_layout(self):
        for crate in ("shop", "app"):
            self.adds(crate, *PARCEL)
            self.adds(crate, "Order", "what:Parcel", "tags:Vec<String>", "paid:bool", "sums:Vec<u64>?")
            before = contents(self.folder / "crates" / crate)
            subprocess.run(["rt", "fmt"], cwd=self.folder / "crates" / crate, check=True, capture_output=True)
            self.assertEqual(contents(self.folder / "crates" / crate), before)
