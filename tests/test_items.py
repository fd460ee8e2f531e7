"""The items of the code, which `tools/items.py` cuts out of the sources: nothing is shown that the
kit hasn't read."""

from unittest import mock

from claims import code, shown
from compiled import library
from harness import Case
from items import Source
from rattle import File
from sources import text_of


def named(path):
    """Returns the item of this path."""
    (item,) = [one for one in code().items if one.path == path and one.kind != "impl"]
    return item


class Items(Case):
    of_the_repository = True

    def expect_refused(self, item, place, text):
        """Expects that an item isn't taken if this token of it were another one in the source."""
        token = item.shown[place]
        at = item.source.tokens.index(token)
        item.source.tokens[at] = token._replace(text=text)
        with self.assertRaisesRegex(ValueError, "another .* than the kit has read"):
            item.check({})
        item.source.tokens[at] = token

    def test_texts(self):
        """Each is of the source: comments and layout, too, but no attribute, import or body."""
        self.assertEqual(
            named("give_all").text,
            "pub(crate) fn give_all<S: Sink>(sink: &mut S, bytes: &[u8]) -> Result<(), SinkFault>\n"
            "    requires { length bytes.now ≤ CAPACITY }\n"
            "    ensures gives { GivesAll (S.state sink.old).output (S.state sink.new).output "
            "bytes.now result }\n"
            "    ensures flushed { OnErr result (IsTrue (S.state sink.new).flushed) }",
        )
        (stop,) = [item for item in code().items if item.block == "StopFromSinkFault"]
        self.assertEqual(
            stop.text,
            "impl From<SinkFault> for Stop {\n"
            "    ghost from_gives = { λ _ stop. stop ≡ Write };\n"
            "    fn from(_fault: SinkFault) -> Stop\n}",
        )
        self.assertIn("\n    // The place where each word ends.\n", named("Words").text)
        self.assertEqual(named("Words").parts, ["bytes: Vec<u8, A>", "ends: Vec<usize, A>"])

    def test_an_attribute_in_a_body(self):
        """What follows it in the body isn't shown, either."""
        text = "pub fn a() {\n    #[b]\n    c();\n}\n\npub fn d() {}\n"
        self.write("some.rt", text)
        source = Source(self.path("some.rt").decode())
        source.gaps.append((text.index(" {"), text.index("}") + 1))
        self.assertEqual(source.text_in(0, text.index("\n\n")), ["pub fn a()"])

    def test_a_function_that_a_trait_gets(self):
        """It is shown with its contract, also if it has a body in the trait, so that an `impl` may
        leave it out."""
        path, place = "crates/sum_sources/src/inputs/input.rt", "    ghost has_content: "
        contract = "\n        ensures { state self.new ≡ state self.old }"
        read = text_of(library("sum_sources"), "lang/src/inputs/input.rt")
        for name, text, function in (
            (path, text_of(path), f"    fn start(&mut self){contract}\n    {{}}\n"),
            ("read.rt", read, f"fn start ( & mut self ){contract} {{ }}\n"),
        ):
            self.write(name, text.replace(place, f"{function}{place}"))
        with mock.patch("rattle.TOP", self.folder):
            file = File("sum_sources", "inputs/input.rt", self.path("read.rt").decode())
        (trait,) = [item for item in file.items if item.kind == "trait"]
        self.assertIn(f"    fn start(&mut self){contract}", shown(trait))

    def test_another_token(self):
        """One that the kit hasn't read is refused: in a clause, a head, a type and a constant."""
        function, type_of_words, constant = named("give_all"), named("Words"), named("CAPACITY")
        words = [token.text for token in function.shown]
        for item, place, text in (
            (function, words.index("≤"), "<"),
            (function, words.index("bytes"), "octets"),
            (function, words.index("mut"), "const"),
            (type_of_words, [one.text for one in type_of_words.shown].index("u8"), "u16"),
            (constant, len(constant.shown) - 2, "8193"),
        ):
            with self.subTest(text=text):
                self.expect_refused(item, place, text)
        function.check({})
