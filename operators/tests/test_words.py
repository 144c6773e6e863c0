"""Text to words and back."""
import random
import unittest

import support
from restart_text import decode, encode, inputs, printing, state, texts, words
from restart_text.lines import sections
from restart_text.model import Refused
from worlds import damaged, world


def lines(parts):
    return "\n".join(parts) + "\n"


class CaseA(unittest.TestCase):
    def test_text_to_words(self):
        self.assertEqual(support.given(support.example("a")).blocks, support.CASE_A)
        self.assertEqual(support.given(support.example("a")).data, support.bytes_a())

    def test_words_to_text(self):
        text = inputs.to_text(inputs.load(support.bytes_a()))
        self.assertEqual(text.splitlines()[:4], ["settings", "failure sets 3", "least group size 4", "node 0 set 0"])
        self.assertIn("report node 4 view 7\nmembers 0 1 2 3 4 5 6\nshard 0 members 0 2\nshard 1 members 1 4 6\nshard 2 members 5\n"
                      "run shard 1 view 7 count 4\n", text)

    def test_the_other_cases_differ_from_case_a_where_they_should(self):
        self.assertEqual(support.given(support.example("b")).blocks, support.CASE_A[:4])
        self.assertEqual(support.given(support.example("f")).blocks, support.CASE_A[:6])
        needy = [7, 3, 4, 3, 0, 0, 1, 1, 1, 2, 2, 3, 3, 1]
        self.assertEqual(support.given(support.example("i")).blocks, [needy] + support.CASE_A[1:])

    def test_text_and_words_are_told_apart(self):
        self.assertTrue(inputs.is_text(support.example("a").encode()))
        self.assertFalse(inputs.is_text(support.bytes_a()))
        self.assertFalse(inputs.is_text(b""))


class RoundTrips(unittest.TestCase):
    def there_and_back(self, text):
        first = inputs.from_text(text)
        again = inputs.to_text(inputs.load(first.data))
        self.assertEqual(inputs.from_text(again).blocks, first.blocks)
        self.assertEqual(inputs.to_text(inputs.load(inputs.from_text(again).data)), again)

    def test_examples(self):
        for name in "abfi":
            self.there_and_back(support.example(name))

    def test_a_termination_and_many_runs(self):
        text = support.example("a") + "termination shard 2 view 7 update 3\ntermination shard 0 view 0 update 0\n"
        text += "termination shard 1 view 6 update 2\nrun shard 2 view 7 count 4294967295\n"
        text += "run shard 0 view 5 count 1\nrun shard 0 view 3 count 9\n"
        block = support.given(text).blocks[-1]
        self.assertEqual(block[12:], [258, 32, 0, 4, 512, 0, 0, 5, 513, 6, 2, 6, 514, 7, 3, 7, 768, 3, 9, 8, 768, 5, 1, 9,
                                      770, 7, 4294967295, 0])
        self.there_and_back(text)

    def test_random_inputs(self):
        for seed in range(150):
            blocks = world(random.Random(seed))
            text = inputs.to_text(inputs.Input(blocks, []))
            self.assertEqual(inputs.from_text(text).blocks, blocks, "seed %d" % seed)

    def test_damaged_inputs_keep_their_meaning(self):
        """A block that is refused comes back word by word; one that is read, with the same contents."""
        for seed in range(300):
            blocks = damaged(random.Random(seed), world(random.Random(seed)))
            back = inputs.from_text(inputs.to_text(inputs.Input(blocks, []))).blocks
            self.assertEqual(len(back), len(blocks))
            for number, (block, again) in enumerate(zip(blocks, back)):
                if block != again:
                    settings = decode.settings_from(blocks[0])
                    self.assertGreater(number, 0)
                    self.assertEqual(decode.report_from(block, settings), decode.report_from(again, settings))

    def test_words_off_the_chain_are_left_out(self):
        report = [0, 7, 127, 2, 9, 9, 9, 9, 256, 5, 0, 3, 257, 82, 0, 4, 258, 32, 0, 0, 0, 0, 0, 0]
        text = inputs.to_text(support.with_block(1, report))
        self.assertIn("# 8 words off the chain, which carry nothing, are left out\nreport node 0 view 7\n", text)
        self.assertEqual(inputs.from_text(text).blocks, support.CASE_A)

    def test_cut_inputs(self):
        data = support.bytes_a()
        self.assertEqual(words.split(data[:-5])[-1], support.CASE_A[-1][:14])
        self.assertEqual(words.split(data[: 4 * 15 + 3]), support.CASE_A[:1])
        self.assertEqual(words.split(b"\x00\x00\x00"), [])
        self.assertEqual(inputs.to_text(inputs.load(b"")).splitlines()[-1], "settings of 0 words")


class Orders(unittest.TestCase):
    def test_words_to_text(self):
        for settings in (None, decode.settings_from(support.CASE_A[0])):
            for zeros in (0, 512 - len(support.ORDER_A)):
                order = decode.order_from(support.ORDER_A + [0] * zeros, settings)
                self.assertEqual(lines(printing.order_text(order)), support.ORDER_TEXT)

    def test_text_to_words(self):
        self.assertEqual(encode.order_words(texts.order_of(sections(support.ORDER_TEXT)[0])), support.ORDER_A)

    def test_an_order_that_is_none(self):
        for place, word, number, index, why in (
            (0, 6, 7, None, "node 6 is not among the members"),
            (1, 1, 7, None, "the view number is 1"),
            (3, 9, 8, 0, "record 0 (words 4 8 63 9) names 9 as the next record, and the message ends after record 8"),
            (4, 2304, 9, 1, "record 1 (words 2304 5 0 2) has kind 9, an order has kinds 1 2 4 5"),
            (16, 768, 9, 4, "record 4 (words 768 0 0 5) has kind 3 (run), an order has kinds 1 2 4 5"),
            (30, 1, 9, 7, "record 7 (words 1025 1 1 8): word 2 is 1, and 0 was expected there"),
            (28, 1027, 16, 7, "record 7 (words 1027 1 0 8) names shard 3, there are 3 shards"),
            (28, 1024, 17, 7, "record 7 (words 1024 1 0 8): the holder of shard 0, but no record before it gives machine 4 that shard"),
            (32, 1282, 17, 8, "record 8 (words 1282 7 4 0): the cut of shard 2, but no record before it gives machine 4 that shard"),
            (31, 0, 17, 7, "the cut (kind 5) of shard 1 is missing; record 7 (words 1025 1 0 0) is the last on the chain"),
            (19, 6, 17, 8, "the termination (kind 2) of shard 1 is missing; record 8 (words 1281 7 4 0) is the last on the chain"),
            (5, 64, 10, None, "node 6 of shard 0 is not among the view's members"),
            (21, 8, 11, None, "number 11: record 5 (words 513 8 5 6), the termination of shard 1, is of view 8"),
            (29, 6, 11, None, "number 11: record 7 (words 1025 6 0 8), the holder of shard 1, names node 6"),
        ):
            order = list(support.ORDER_A)
            order[place] = word
            with self.assertRaises(Refused) as caught:
                decode.order_from(order, decode.settings_from(support.CASE_A[0]))
            self.assertEqual((caught.exception.number, caught.exception.index), (number, index), "word %d" % place)
            self.assertIn(why, str(caught.exception))


class States(unittest.TestCase):
    FRESH = "state gathering\nheld none\nfetched none\nprepared none\n"

    def test_words_to_text(self):
        self.assertEqual(lines(printing.state_text(state.from_words(support.state_a()))), support.STATE_TEXT)
        self.assertEqual(lines(printing.state_text(state.from_words([0] * 160))), self.FRESH)

    def test_text_to_words(self):
        self.assertEqual(state.to_words(state.from_section(sections(support.STATE_TEXT)[0])), support.state_a())
        self.assertEqual(state.to_words(state.from_section(sections(self.FRESH)[0])), [0] * 160)

    def test_a_kept_termination(self):
        kept = support.state_a()
        kept[3], kept[20:26] = 1, [0, 0, 7, 5, 7, 1]
        text = lines(printing.state_text(state.from_words(kept)))
        self.assertIn("kept termination shard 0 view 0 update 0\nkept termination shard 1 view 7 update 5\n", text)
        self.assertEqual(state.to_words(state.from_section(sections(text)[0])), kept)

    def test_remembered_views(self):
        """Of held nodes, of one that was dropped and of one that reported the greatest view there is."""
        kept = support.state_a()
        kept[122:154] = [0] * 32
        kept[122 + 6], kept[122 + 31] = 5, 4294967295
        text = lines(printing.state_text(state.from_words(kept)))
        self.assertIn("prepared none\nremembered node 6 view 5\nremembered node 31 view 4294967295\nplan view 8 moves 2\n", text)
        self.assertEqual(state.to_words(state.from_section(sections(text)[0])), kept)

    def test_words_that_are_no_state(self):
        for place, word in ((0, 4), (3, 2), (8, 5), (26, 1), (61, 1), (77, 2), (96, 1), (154, 1), (159, 1)):
            words_there = support.state_a()
            words_there[place] = word
            with self.assertRaises(Refused, msg="word %d" % place) as caught:
                state.from_words(words_there)
            self.assertEqual(caught.exception.number, 3)
        self.assertRaises(Refused, state.from_words, [0] * 159)
