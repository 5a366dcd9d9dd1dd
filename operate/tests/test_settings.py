"""Settings, by the cases that the program's own reading is tried with."""
import os
import unittest

from lib.settings import NoSettings, Settings, settings_in
from tests.support import OPERATE

CASES = os.path.join(os.path.dirname(OPERATE), "crates", "formats_trials", "data", "pool_settings.txt")
WELL = '{"pool_script":"51","least_class":0,"fee":100,"rule":"proportional"%s}'


def verdict(content: bytes) -> str:
    try:
        return f"fee {settings_in(content).fee}"
    except NoSettings:
        return "these are no settings"


def defects(content: str) -> list[str]:
    try:
        settings_in(content.encode())
    except NoSettings as none:
        return none.defects
    return []


class Cases(unittest.TestCase):
    def test_what_the_program_takes_and_refuses(self) -> None:
        tried = 0
        with open(CASES, encoding="utf-8") as file:
            lines = [line.rstrip("\n").split(" | ") for line in file if " | " in line and line[0] != "#"]
        for kind, text, *rest in lines:
            content = bytes.fromhex(text) if kind == "bytes" else text.encode()
            if kind == "padded":
                content = content.ljust(int(rest[0]))
            if kind in ("fee", "padded", "bytes"):
                with self.subTest(text):
                    tried += 1
                    self.assertEqual(verdict(content), rest[-1] if rest else "these are no settings")
        self.assertGreater(tried, 40)

    def test_each_key_and_what_stands_without_it(self) -> None:
        self.assertEqual(settings_in((WELL % "").encode()), Settings("51", 0, 100, "proportional"))
        settings = settings_in(
            b'{"pool_script":"00fF","least_class":60,"fee":10000,"rule":"pplns",'
            b'"window":18446744073709551615,"ntime_window":86400,"credit_limit":16777215,'
            b'"users":["a","b"],"version_rolling":false,"v1_base":60,"idle_turns":9223372036854775807,'
            b'"door_turns":1,"workers":64,"address":"[::1]:1","feed":"f"}'
        )
        self.assertEqual(settings, Settings(
            "00fF", 60, 10_000, "pplns", 2**64 - 1, 86_400, 16_777_215, ("a", "b"), False, 60,
            2**63 - 1, 1, 64, "[::1]:1", "f",
        ))


class Words(unittest.TestCase):
    def test_each_defect_is_said(self) -> None:
        for more, words in (
            (',"Fee":1', '"Fee" is no key of a settings file; fee is spelled so'),
            (',"least_class":61', "least_class is 61, and not from 0 to 60"),
            (',"fee":1.0', "fee is 1.0, and no whole number without point, exponent or quotes"),
            (',"fee":"1"', 'fee is "1", and no whole number without point, exponent or quotes'),
            (',"fee":-0', "fee is -0.0, and no whole number without point, exponent or quotes"),
            (',"fee":null', "fee is null, which is no value"),
            (',"pool_script":"515"',
             "pool_script has 3 hex digits, and not an even number of them from 2 to 200"),
            (',"window":1', 'window is there, which the rule "proportional" has none of'),
            (',"rule":"pplns"', 'window is missing, which the rule "pplns" needs'),
            (',"users":["a.b"]', "users has a.b, and no account has a point"),
            (',"users":["a","a"]', "users has a twice"),
            (',"version_rolling":1', "version_rolling is neither true nor false"),
            (',"workers":65', "workers is 65, and not from 1 to 64"),
        ):
            self.assertEqual(defects(WELL % more), [words])
        self.assertEqual(defects("{}"), [f"{key} is missing" for key in
                                         ("pool_script", "least_class", "fee", "rule")])

    def test_what_is_no_json_to_the_program(self) -> None:
        for content in (WELL % "" + "x", WELL % ',"fee":1e999', WELL % ',"fee":NaN', "{'a':1}",
                        WELL % r',"feed":"\ud800"', WELL % ',"feed":"\t"', "\ufeff" + WELL % "",
                        WELL % (',"fee":' + "[" * 200 + "]" * 200 + ',"fee":1')):
            self.assertEqual(len(defects(content)), 1, content)


if __name__ == "__main__":
    unittest.main()
