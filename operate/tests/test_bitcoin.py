"""Hashes, paths and coinbases, by Bitcoin's public record."""
import unittest

from lib import bitcoin
from lib.bitcoin import displayed, from_display

# Blocks with their published transactions' ids and roots.
ROOTS = {
    "7dac2c5666815c17a3b36427de37bb9d2e2c5ccec3f8633eb91a4205cb4c10ff": [  # block 170
        "b1fea52486ce0c62bb442b530a3f0132b826c74e473d1f2c220bfa78111c5082",
        "f4184fc596403b9d638783cf57adfe4c75c605f6356fbc91338530e9831e9e16",
    ],
    "197b3d968ce463aa5da7d8eeba8af35eba80ded4e4fe6808e6cc0dd1c069594d": [  # block 586
        "d45724bacd1480b0c94d363ebf59f844fb54e60cdfda0cd38ef67154e9d0bc43",
        "4d6edbeb62735d45ff1565385a8b0045f066055c9425e21540ea7a8060f08bf2",
        "6bf363548b08aa8761e278be802a2d84b8e40daefe8150f9af7dd7b65a0de49f",
    ],
    "f3e94742aca4b5ef85488dc37c06c3282295ffec960994b2c0d5ac2a25a95766": [  # block 100,000
        "8c14f0db3df150123e6f3dbbf30f8b955a8249b62ac1d1ff16284aefa3d06d87",
        "fff2525b8931402dd09222c50775608f75787bd2b87e56995a7bdd30f79702c4",
        "6359f0868171b1d194cbee1af2f16ea598ae8fad666d9b012c8ed2b79a236ec4",
        "e9a66845e05d5abc0ad04ec80f774a7e585c6e8db975962d069a522137b80c1d",
    ],
}


class Blocks(unittest.TestCase):
    def test_headers_have_their_published_hashes(self) -> None:
        for fields, hash_, zeros in (
            ((1, "00" * 32, "4a5e1e4baab89f3a32518a88c31bc87f618f76673e2cc77ab2127b7afdeda33b",
              1231006505, 0x1D00FFFF, 2083236893),
             "000000000019d6689c085ae165831e934ff763ae46a2a6c172b3f1b60a8ce26f", 43),
            ((1, "000000000002d01c1fccc21636b607dfd930d31d01c3a62104612a1719011250",
              "f3e94742aca4b5ef85488dc37c06c3282295ffec960994b2c0d5ac2a25a95766",
              1293623863, 0x1B04864C, 274148111),
             "000000000003ba27aa200b1cecaad478d2b00432346c3f1f3986da1afd33e506", 46),
        ):
            version, previous, root, *numbers = fields
            head = bitcoin.header(version, from_display(previous), from_display(root), *numbers)
            found = bitcoin.double_hash(head)
            self.assertEqual((len(head), displayed(found)), (80, hash_))
            self.assertEqual(bitcoin.zero_bits(found), zeros)

    def test_paths_lead_to_the_published_roots(self) -> None:
        for root, ids in ROOTS.items():
            first, *others = map(from_display, ids)
            path = bitcoin.path_beside_first(others)
            self.assertEqual(displayed(bitcoin.root_from(first, path)), root)
        self.assertEqual(bitcoin.path_beside_first([]), [])

    def test_a_hash_meets_a_target_that_is_no_less(self) -> None:
        two = (2).to_bytes(32, "little")
        for target, meets in ((1, False), (2, True), (3, True), (1 << 248, True)):
            self.assertEqual(bitcoin.meets(two, target.to_bytes(32, "little")), meets)


class Coinbases(unittest.TestCase):
    def test_heights_are_pushed_as_scripts_push_numbers(self) -> None:
        # Of block 227,836, the first of version 2 that had to say it, and of block 840,000.
        for height, script in (
            (0, "00"), (1, "51"), (16, "60"), (17, "0111"), (127, "017f"), (128, "028000"),
            (32_768, "03008000"), (227_836, "03fc7903"), (840_000, "0340d10c"), (8_388_608, "0400008000"),
        ):
            self.assertEqual(bitcoin.height_push(height).hex(), script)
            if height:
                self.assertEqual(bitcoin.height_in(bytes.fromhex(script) + b"\x01ab"), height)

    def test_what_says_no_height_has_none(self) -> None:
        for script in ("", "00", "03fc79", "027f00ff", "ff000000", "04fc790300"):
            self.assertIsNone(bitcoin.height_in(bytes.fromhex(script)), script)

    def test_sizes_are_in_their_shortest_spelling(self) -> None:
        for number, spelled in (
            (0, "00"), (252, "fc"), (253, "fdfd00"), (65_535, "fdffff"), (65_536, "fe00000100"),
            (1 << 32, "ff0000000001000000"),
        ):
            content = bytes.fromhex(spelled)
            self.assertEqual(bitcoin.compact_size(number), content)
            self.assertEqual(bitcoin.read_compact_size(b"\0" + content, 1), (number, 1 + len(content)))

    def test_outputs(self) -> None:
        script = bytes(300)
        content = bytes.fromhex("00f2052a01000000 01 51") + bytes(8) + b"\xfd\x2c\x01" + script
        self.assertEqual(bitcoin.outputs_in(content), [(5_000_000_000, b"\x51"), (0, script)])


if __name__ == "__main__":
    unittest.main()
