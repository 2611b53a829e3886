"""No password is shown: by `--why` or `--trace`, whatever the server says."""

import base64
import random
import unittest

from getmail.account import Account
from getmail.server import Server
from getmail.test_why import PASSWORD as HINT
from harness import programs
from harness.kernel import LOOPBACK

PASSWORD = b"s3cret wOrds"
CODES = (b"[AUTH]", b"[IN-USE]", b"[LOGIN-DELAY]", b"[SYS/PERM]", b"[SYS/TEMP]", b"[UTF8]")
PRINTABLE = bytes(range(33, 127))


def in_base64(octets):
    return base64.b64encode(octets)


def ways_to_say(password):
    """What a server may say of a password, by name."""
    quoted = password.replace(b"\\", b"\\\\").replace(b'"', b'\\"')
    ways = {"as it is": password, "in upper case": password.upper(), "in lower case": password.lower(),
            "swapped": password.swapcase(), "in a command": b"unknown command: PASS " + password, "twice": password * 2,
            "in apostrophes": b"'" + password + b"'"}
    if len(password) > 1:
        ways |= {"in base64": in_base64(password), "in base64 without its end": in_base64(password).rstrip(b"="),
                 "in base64 in a sentence": b"no <" + in_base64(password) + b"> here",
                 "with a line's end in base64": in_base64(password + b"\r\n")}
        ways |= {f"as AUTH PLAIN has it, for {user}": in_base64(b"\0".join((first, user, password)))
                 for user in (b"u", b"fr", b"fred") for first in (b"", user)}
    if len(password) > 4:
        ways |= {"without its last octet": password[:-1], "without its first octet": password[1:], "its front": password[:4],
                 "its end, in upper case": password[-4:].upper(), "quoted": b'"' + quoted + b'"',
                 "a part in base64": in_base64(b"u:" + password[:-1])}
    return ways


def whole_ways(password):
    """How all of a password may be written, in words that have nothing else, by name."""
    hexadecimal = password.hex()
    octets = [bytes([octet]) for octet in password]
    encoded = [b"%%%02x" % octet for octet in password]
    return {"as it is": password, "in upper case": password.upper(), "swapped": password.swapcase(),
            "in hexadecimal": hexadecimal.encode(), "in upper case hexadecimal": hexadecimal.upper().encode(),
            "percent-encoded": b"".join(encoded), "percent-encoded in upper case": b"".join(encoded).upper(),
            "by turns": b"".join(pair[number % 2] for number, pair in enumerate(zip(octets, encoded))),
            "by turns, in upper case": b"".join(pair[number % 2] for number, pair in enumerate(zip(encoded, octets))).upper(),
            "as in an address": password.replace(b" ", b"%20")}


def base64_around(before, password, after):
    """The base64 of a password among other octets, and those of its characters that it alone determines."""
    texts = [in_base64(bytes([fill]) * len(before) + password + bytes([fill]) * 3).rstrip(b"=") for fill in (0, 255)]
    places = [place for place, pair in enumerate(zip(*texts)) if pair[0] == pair[1]]
    return in_base64(before + password + after), texts[0][places[0]:places[-1] + 1]


class Passwords(unittest.TestCase):
    def setUp(self):
        self.server = Server([(b"a", b"one\n")])
        self.addCleanup(self.server.close)
        self.account = Account(self.server.port)
        self.addCleanup(self.account.holder.cleanup)
        self.plain = self.account.rcfile.read_bytes()
        self.usual = self.server._answer
        self.give(PASSWORD)

    def give(self, password):
        """Puts the password into the rc file."""
        self.account.rcfile.write_bytes(self.plain.replace(b"password = sesame", b"password = " + password))

    def session(self, word, answer, *words):
        """A session in which a command is answered so."""
        self.server._answer = lambda command: answer + b"\r\n" if command.startswith(word) else self.usual(command)
        thread = self.server.begin_session()
        run = self.account.run("-q", *words)
        thread.join(programs.SECONDS)
        return run

    def check_reason(self, word, answer, shown):
        """What `--why` writes about a command that is answered so."""
        run = self.session(word, answer, "--why")
        account = b"u@%s:%d" % (LOOPBACK.encode(), self.server.port)
        told = b"getmail: server refused %s\ngetmail: %s: the server said: %s\n" % (word, account, shown)
        if word == b"PASS" and (shown.startswith(b"-ERR [AUTH]") or not shown.startswith(b"-ERR [")):
            told += b"getmail: %s: %s\n" % (account, HINT.encode())
        self.assertEqual((run.status, run.out, run.err), (1, b"", told))

    def test_what_repeats_it_is_not_the_reason(self):
        for word in (b"USER", b"PASS"):
            for name, said in ways_to_say(PASSWORD).items():
                with self.subTest(name, word=word):
                    self.check_reason(word, b"-ERR " + said, b"-ERR")

    def test_a_response_code_is_told(self):
        for code in CODES:
            with self.subTest(code):
                self.check_reason(b"PASS", b"-ERR " + code + b" no " + PASSWORD, b"-ERR " + code)
        for said in (b"[x] " + PASSWORD, b"[" + PASSWORD + b"]", b" [AUTH] " + PASSWORD, b"[auth] " + PASSWORD):
            self.check_reason(b"PASS", b"-ERR " + said, b"-ERR")

    def test_a_trace_shows_the_same(self):
        for name, said in ways_to_say(PASSWORD).items():
            for status in (b"-ERR", b"+OK"):
                with self.subTest(name, status=status):
                    run = self.session(b"PASS", status + b" " + said, "--trace", "--why")
                    lines = run.err.split(b"\n")
                    place = lines.index(b"C: PASS *")
                    self.assertEqual(lines[place + 1], b"S: " + status)
                    self.assertNotIn(said, run.err)
        self.assertIn(b"\nS: *\n", self.session(b"PASS", b"HTTP/1.1 400 " + PASSWORD, "--trace").err)

    def test_other_answers_are_told(self):
        for said in (b"s3c ret", b"no such user", b"ords", in_base64(b"s3c"), in_base64(b"another")):
            with self.subTest(said):
                shown = b"-ERR" if said == b"ords" else b"-ERR " + said
                self.check_reason(b"PASS", b"-ERR " + said, shown)

    def check_masked(self, said, shown):
        """What is shown of words that answer STAT, and of a row of a listing."""
        self.check_reason(b"STAT", b"-ERR " + said, b"-ERR " + shown)
        run = self.session(b"UIDL", b"+OK\r\nx " + said + b"\r\n.", "--why", "--trace")
        row = b"getmail: u@%s:%d: the reply to UIDL has the row: x %s\n" % (LOOPBACK.encode(), self.server.port, shown)
        self.assertTrue(run.err.endswith(b"getmail: listing not understood\n" + row), run.err)

    def test_in_other_answers_it_is_masked(self):
        for name, written in whole_ways(PASSWORD).items():
            for said, shown in ((b"%s", b"*"), (b"no <%s>, no", b"no <*>, no"), (b"%s and %s", b"* and *"), (b"%s%s", b"*")):
                with self.subTest(name, said=said):
                    self.check_masked(said.replace(b"%s", written), shown)

    def test_base64_at_each_place(self):
        """The characters that other octets make too are shown."""
        for before in (b"", b"x", b"xy", b"\0u\0", b"user\0user\0"):
            for after in (b"", b"z", b"zz", b"\r\n"):
                text, alone = base64_around(before, PASSWORD, after)
                for change in (bytes, bytes.lower, bytes.upper):
                    with self.subTest(before=before, after=after, change=change):
                        self.check_masked(b"no " + change(text), b"no " + change(text).replace(change(alone), b"*"))

    def check_all_masked(self, password, rows):
        self.give(password)
        for said, shown in rows:
            with self.subTest(said):
                self.check_masked(said, shown)

    def test_ways_that_overlap(self):
        self.check_all_masked(b"abab", (
            (b"ababab", b"*"), (b"abababa", b"*a"), (b"xABaB%61b", b"x*"), (b"aab ab", b"aab ab"), (b"A%62%61b%", b"*%"),
            (b"%6%61bab", b"%6*")))

    def test_a_password_with_percent_signs(self):
        self.check_all_masked(b"%41%25b", (
            (b"%41%25b", b"*"), (b"%2541%25b", b"*"), (b"%2541%2525b", b"*"), (b"%25%34%31%25%32%35%62", b"*"),
            (b"A%25b", b"A%25b"), (b"%25%41%25b", b"%25*")))

    def test_parts_of_it_are_shown_in_other_answers(self):
        for said in (b"words", PASSWORD[1:], PASSWORD[:-1], PASSWORD.hex().encode()[1:], b"s3cret  wOrds"):
            with self.subTest(said):
                self.check_masked(said, said)

    def test_hexadecimal_in_an_answer_to_pass(self):
        """It has no four octets of the password in a row."""
        self.check_reason(b"PASS", b"-ERR no " + PASSWORD.hex().encode(), b"-ERR no *")

    def test_a_row_of_a_listing(self):
        """All of it is searched, though only its front is shown."""
        for count in (0, 300, 505, 600):
            with self.subTest(count):
                run = self.session(b"UIDL", b"+OK\r\n1 " + b"x" * count + PASSWORD + b" y\r\n.", "--why")
                told = b"getmail: listing not understood\ngetmail: u@%s:%d: the reply to UIDL has the row: %s\n"
                row = (b"1 " + b"x" * count + b"* y")[:512]
                self.assertEqual(run.err, told % (LOOPBACK.encode(), self.server.port, row.rstrip()))

    def test_short_passwords(self):
        """Each octet that is shown or hidden would tell of one, so no words of a server that has got it are shown."""
        for password in (b"x", b"ab", b"Q-z"):
            self.give(password)
            for said in (*ways_to_say(password).values(), b"no", b"[X] no"):
                for word in (b"PASS", b"STAT", b"LIST"):
                    with self.subTest(said, password=password, word=word):
                        self.check_reason(word, b"-ERR " + said, b"-ERR")
            self.check_reason(b"STAT", b"-ERR [SYS/TEMP] no", b"-ERR [SYS/TEMP]")
            self.check_reason(b"USER", b"-ERR no", b"-ERR no")
            run = self.session(b"UIDL", b"+OK\r\nx y\r\n.", "--why", "--trace")
            self.assertIn(b"has the row: *\n", run.err)
            self.assertNotIn(b"2 ", run.err)
        self.give(b"four")
        self.check_reason(b"PASS", b"-ERR no", b"-ERR no")

    def test_any_password(self):
        chance = random.Random(120)
        for _ in range(60):
            password = bytes(chance.choices(PRINTABLE, k=chance.randint(2, 20)))
            self.give(password)
            name, said = chance.choice(list(ways_to_say(password).items()))
            with self.subTest(name, password=password):
                self.check_reason(chance.choice((b"USER", b"PASS")), b"-ERR " + said, b"-ERR")


if __name__ == "__main__":
    unittest.main()
