"""Drives python/qewaris.py on the examples, on document 01's worked move, on strings and their escapes, on IPv6 addresses, and on the
largest file and the largest name.

    QEWARIS_LIB_DIR=folder of libqewaris.so.2 python3 tests/python/test_qewaris.py
"""
import doctest
import pathlib
import sys
import unittest
import unittest.mock
from ipaddress import IPv4Address, IPv6Address

ROOT = pathlib.Path(__file__).resolve().parent.parent.parent
sys.path.insert(0, str(ROOT / "python"))
import qewaris  # noqa: E402

SHOP = (ROOT / "examples/good/shop.config").read_bytes()
DESK = (
    b"[Settings]\nHidden=true\n[Security]\nPassphrase=low\tide 88\n[IPv4]\nAddress=10.20.0.14\nNetmask=255.255.255.0\n"
    b"Gateway=10.20.0.1\nDNS=10.20.0.2 10.20.0.3\n[IPv6]\nEnabled=false\n"
)
RECORD = qewaris.JoinRecord(
    name=b"Desk 4",
    passphrase=b"low\tide 88",
    hidden=True,
    ipv4=qewaris.StaticIpv4(IPv4Address("10.20.0.14"), 24, IPv4Address("10.20.0.1")),
    name_servers=(IPv4Address("10.20.0.2"), IPv4Address("10.20.0.3")),
    ipv6="off",
)

# A service with an IPv6 address and a gateway, the file that it becomes, and the address.
SIX = b"[service_six]\nType = wifi\nName = six\nIPv6 = 2001:DB8:0:0:0::14/64/2001:db8::192.0.2.1\n"
SIX_OPEN = b"[IPv6]\nAddress=2001:db8::14/64\nGateway=2001:db8::c000:201\n"
SIX_ADDRESS = qewaris.StaticIpv6(IPv6Address("2001:db8::14"), 64, IPv6Address("2001:db8::c000:201"))

# The record with the largest name, and the one with the largest file, which has everything that has a line: IPv4 addresses of 15
# characters and IPv6 addresses of 39, four name servers, a passphrase of backslashes and a domain of bytes 10, each of which is
# escaped and so written as two.
ALL_255 = IPv4Address("255.255.255.255")
ALL_FFFF = IPv6Address("ffff:ffff:ffff:ffff:ffff:ffff:ffff:ffff")
LARGEST_NAME = qewaris.JoinRecord(name=b"\xff" * 32)
LARGEST_FILE = qewaris.JoinRecord(
    name=b"\xff" * 32,
    passphrase=b"\\" * 63,
    hidden=True,
    ipv4=qewaris.StaticIpv4(ALL_255, 32, ALL_255),
    name_servers=(ALL_255,) * 4,
    domain=b"\n" * 253,
    ipv6=qewaris.StaticIpv6(ALL_FFFF, 128, ALL_FFFF),
)
# Services that have these records.
SERVICE_OF_NAME = b"[service_till]\nType = wifi\nSSID = " + b"ff" * 32 + b"\n"
SERVICE_OF_FILE = (
    SERVICE_OF_NAME + f"IPv4 = {ALL_255}/32/{ALL_255}\nNameservers = {','.join([str(ALL_255)] * 4)}\n".encode()
    + f"IPv6 = {ALL_FFFF}/128/{ALL_FFFF}\n".encode()
    + b"Passphrase = " + b"\\\\" * 63 + b"\nDomain = " + b"\\n" * 253 + b"\nHidden = true\n"
)


def refusal(function, *arguments):
    try:
        function(*arguments)
    except qewaris.Refused as refused:
        return refused.number, refused.line
    return None


class Examples(unittest.TestCase):
    def test_each_is_answered_as_its_table_says(self):
        """rust/command/tests/command/examples.txt has the number, the line and the file of each, and of some moves."""
        table = (ROOT / "rust/command/tests/command/examples.txt").read_text(encoding="utf-8").splitlines()
        rows = [row for row in table if row and not row.startswith("#")]
        checks = [row for row in rows if not row.startswith("move ")]
        files = [path for folder in ("good", "broken", "unmovable") for path in (ROOT / "examples" / folder).iterdir()]
        self.assertEqual(len(checks), len(files))
        for row in rows:
            asked = qewaris.move_service if row.startswith("move ") else qewaris.check
            number, line, name = row.removeprefix("move ").split(" ", 2)
            path = ROOT / "examples" / name
            expected = (int(number), int(line) or None) if number != "0" else None
            self.assertEqual(refusal(asked, path.name, path.read_bytes()), expected, name)


class WorkedMove(unittest.TestCase):
    def test_it_is_as_it_is_printed(self):
        self.assertEqual(qewaris.check("shop.config", SHOP), qewaris.Counts(settings=7, services=1))
        self.assertEqual(qewaris.move_service("shop.config", SHOP, 1), qewaris.IwdFile(b"Desk 4.psk", DESK))

    def test_both_records_are_equal_and_read_back(self):
        self.assertEqual(qewaris.record("shop.config", SHOP, 1), RECORD)
        self.assertEqual(qewaris.record(b"Desk 4.psk", DESK), RECORD)
        self.assertEqual(qewaris.write_iwd(RECORD), qewaris.IwdFile(b"Desk 4.psk", DESK))

    def test_a_key_is_kept(self):
        record = qewaris.JoinRecord(name=b"Caf\xc3\xa9", key=bytes(range(32)), domain=b"shop.example")
        written = qewaris.write_iwd(record)
        self.assertEqual(written.name, b"=436166c3a9.psk")
        self.assertEqual(qewaris.record(written.name, written.file), record)


class Room(unittest.TestCase):
    LARGEST = (
        (LARGEST_FILE, SERVICE_OF_FILE, (len("=.psk") + 64, qewaris.FILE_MAX)),
        (LARGEST_NAME, SERVICE_OF_NAME, (qewaris.NAME_MAX, 0)),
    )

    def test_each_greatest_length_is_reached_and_reads_back(self):
        for record, service, lengths in self.LARGEST:
            written = qewaris.write_iwd(record)
            self.assertEqual((len(written.name), len(written.file)), lengths)
            self.assertEqual(qewaris.record(written.name, written.file), record)
            self.assertEqual(qewaris.record("till.config", service), record)
            self.assertEqual(qewaris.move_service("till.config", service), written)

    def test_a_byte_less_is_refused(self):
        for shorter, record, service in (("FILE_MAX", LARGEST_FILE, SERVICE_OF_FILE), ("NAME_MAX", LARGEST_NAME, SERVICE_OF_NAME)):
            with unittest.mock.patch.object(qewaris, shorter, getattr(qewaris, shorter) - 1):
                self.assertEqual(refusal(qewaris.write_iwd, record), (17, None), shorter)
                self.assertEqual(refusal(qewaris.move_service, "till.config", service), (17, None), shorter)


class Settings(unittest.TestCase):
    def test_of_an_iwd_file(self):
        settings = qewaris.iwd_settings("Desk 4.psk", DESK)
        self.assertEqual((settings.hidden, settings.auto_connect, settings.ipv6_enabled), (True, None, False))
        self.assertEqual((settings.ipv6_address, settings.ipv6_prefix_length, settings.ipv6_gateway), (None, None, None))
        self.assertEqual((settings.netmask_length, settings.passphrase_line, settings.pre_shared_key), (24, 4, None))
        self.assertEqual(settings.dns, (IPv4Address("10.20.0.2"), IPv4Address("10.20.0.3")))

    def test_of_a_service(self):
        file = b"[service_a]\nType = wifi\nSSID = 4465\nTimeservers = one,two\nIPv6.Privacy = prefered\nMAC = 02:00:5e:10:00:01\n"
        settings = qewaris.service_settings("a.config", file, 1)
        self.assertEqual((settings.service_type, settings.ssid, settings.security), ("wifi", b"De", None))
        self.assertEqual((settings.timeservers, settings.search_domains), ((b"one", b"two"), ()))
        self.assertEqual((settings.privacy, settings.mac, settings.ipv4), ("preferred", b"\x02\x00\x5e\x10\x00\x01", None))
        settings = qewaris.service_settings("shop.config", SHOP, 1)
        self.assertEqual((settings.ipv4, settings.ipv6), (RECORD.ipv4, RECORD.ipv6))

    def test_strings_are_parts_of_the_file(self):
        text = qewaris.string("shop.config", SHOP, "service_passphrase", 1)
        self.assertEqual((text.line, text.value, SHOP[text.start :][:3]), (4, b"low\\tide 88", b"low"))
        self.assertIsNone(qewaris.string("shop.config", SHOP, "service_domain", 1))
        self.assertEqual(qewaris.string("Desk 4.psk", DESK, "iwd_passphrase").value, b"low\tide 88")
        self.assertEqual(qewaris.string("a.config", b"[global]\nName = a\n", "global_name").value, b"a")


class Ipv6(unittest.TestCase):
    def test_an_address_is_read_moved_and_read_back(self):
        record = qewaris.JoinRecord(name=b"six", ipv6=SIX_ADDRESS)
        self.assertEqual(qewaris.service_settings("six.config", SIX, 1).ipv6, SIX_ADDRESS)
        self.assertEqual(qewaris.record("six.config", SIX, 1), record)
        self.assertEqual(qewaris.move_service("six.config", SIX, 1), qewaris.IwdFile(b"six.open", SIX_OPEN))
        self.assertEqual(qewaris.write_iwd(record), qewaris.IwdFile(b"six.open", SIX_OPEN))
        self.assertEqual(qewaris.record("six.open", SIX_OPEN), record)

    def test_iwd_may_leave_the_length_off(self):
        settings = qewaris.iwd_settings("six.open", b"[IPv6]\nEnabled=true\nAddress=::1\nGateway=::\n")
        self.assertEqual((settings.ipv6_enabled, settings.ipv6_address), (True, IPv6Address("::1")))
        self.assertEqual((settings.ipv6_prefix_length, settings.ipv6_gateway), (128, IPv6Address(0)))
        self.assertEqual((settings.address, settings.gateway), (None, None))
        self.assertEqual(refusal(qewaris.check, "six.config", b"[service_six]\nType = wifi\nIPv6 = ::1\n"), (12, 3))

    def test_without_a_gateway_it_has_no_place(self):
        file = SIX.replace(b"/2001:db8::192.0.2.1", b"")
        record = qewaris.record("six.config", file)
        self.assertIsNone(record.ipv6.gateway)
        self.assertEqual(refusal(qewaris.move_service, "six.config", file), (16, 4))
        self.assertEqual(refusal(qewaris.write_iwd, record), (16, None))

    def test_words_and_codes_agree(self):
        for word in ("auto", "off"):
            file = f"[service_six]\nType = wifi\nName = six\nIPv6 = {word}\n".encode()
            self.assertEqual(qewaris.service_settings("six.config", file, 1).ipv6, word)
            self.assertEqual(qewaris.record("six.config", file).ipv6, word)
            moved = qewaris.move_service("six.config", file)
            self.assertEqual(qewaris.record(moved.name, moved.file).ipv6, word)

    def test_what_is_written_is_what_python_reads(self):
        for zeros in range(256):
            groups = [0 if zeros >> place & 1 else 0xA0B for place in range(8)]
            address = IPv6Address(b"".join(group.to_bytes(2, "big") for group in groups))
            record = qewaris.JoinRecord(name=b"six", ipv6=qewaris.StaticIpv6(address, 1, address))
            written = qewaris.write_iwd(record)
            lines = [line.partition("=")[2] for line in written.file.decode().splitlines()[1:]]
            self.assertEqual((lines[0].removesuffix("/1"), IPv6Address(lines[1])), (lines[1], address))
            self.assertEqual(qewaris.record(written.name, written.file), record)


class Strings(unittest.TestCase):
    # A string as it stands, and what it means.
    STRINGS = (
        (b"low tide 88", b"low tide 88"), (b"low\\tide 88", b"low\tide 88"), (b"low\\\\tide 88", b"low\\tide 88"),
        (b"\\s\\t\\r\\n\\\\low tide", b" \t\r\n\\low tide"), (b"low tide\\s", b"low tide "), (b"low tide\\\\", b"low tide\\"),
    )

    def expect(self, name, file, which, stretch, meant, *service):
        text = qewaris.string(name, file, which, *service)
        self.assertEqual((text.value, text.unescaped), (stretch, meant), which)

    def test_those_of_a_connman_file_are_unescaped(self):
        for stretch, meant in self.STRINGS:
            file = b"[global]\nName = %s\nDescription = %s \n[service_a]\nType = wifi\nName = %s\nPassphrase = %s\t\nDomain = %s\n"
            file = file % ((stretch,) * 5)
            for which in ("global_name", "global_description"):
                self.expect("a.config", file, which, stretch, meant)
            for which in ("service_name", "service_passphrase", "service_domain"):
                self.expect("a.config", file, which, stretch, meant, 1)
            record = qewaris.record("a.config", file, 1)
            self.assertEqual((record.name, record.passphrase, record.domain), (meant,) * 3)

    def test_those_of_an_iwd_file_are_unescaped(self):
        for stretch, meant in self.STRINGS:
            file = b"[Security]\nPassphrase=%s\n[IPv4]\nDomainName=%s\n" % (stretch, stretch)
            for which in ("iwd_passphrase", "iwd_domain_name"):
                self.expect("a.psk", file, which, stretch, meant)
            record = qewaris.record("a.psk", file)
            self.assertEqual((record.passphrase, record.domain), (meant, meant))

    def test_a_bad_escape_is_refused(self):
        for value in (b"low\\dtide 88", b"low tide 88\\ \t", b"\\S"):
            for key in (b"Name", b"Passphrase", b"Domain"):
                file = b"[service_a]\nType = wifi\n%s = %s\n" % (key, value)
                self.assertEqual(refusal(qewaris.check, "a.config", file), (11, 3), file)


class Refusals(unittest.TestCase):
    def test_a_refusal_has_its_number_line_and_sentence(self):
        with self.assertRaises(qewaris.Refused) as caught:
            qewaris.record("shop.config", b"[service_a]\nType = wifi\nPassphrase = lowtide\n", 1)
        self.assertEqual((caught.exception.number, caught.exception.line), (12, 3))
        self.assertEqual(str(caught.exception), "line 3: the value is not of its key's kind [12]")
        self.assertEqual(refusal(qewaris.check, "Desk.psk", b""), (14, None))

    def test_numbers_of_services_are_whole(self):
        for service in (0, 2, -1, 1 << 64, (1 << 64) + 1):
            self.assertEqual(refusal(qewaris.record, "shop.config", SHOP, service), (18, None), service)

    def test_records_that_do_not_fit_are_malformed(self):
        good = {"name": b"a"}
        for wrong in (
            {"name": b""}, {"name": b"a" * 33}, {"passphrase": b"a" * 64}, {"passphrase": b"a" * 7}, {"key": b"a" * 31},
            {"passphrase": b"a" * 8, "key": b"a" * 32}, {"domain": b"a" * 254}, {"name_servers": (IPv4Address(0),) * 5},
            {"ipv4": qewaris.StaticIpv4(IPv4Address(1), 33)}, {"ipv4": qewaris.StaticIpv4(IPv4Address(1), 256)},
            {"ipv6": qewaris.StaticIpv6(IPv6Address(1), 0)}, {"ipv6": qewaris.StaticIpv6(IPv6Address(1), 129)},
            {"ipv6": qewaris.StaticIpv6(IPv6Address(1), 256)}, {"ipv6": qewaris.StaticIpv6(IPv4Address(1), 32)},
            {"ipv6": qewaris.StaticIpv6(IPv6Address(1), 64, IPv4Address(1))}, {"ipv4": qewaris.StaticIpv4(IPv6Address(1), 32)},
        ):
            self.assertEqual(refusal(qewaris.write_iwd, qewaris.JoinRecord(**{**good, **wrong})), (19, None), wrong)

    def test_no_secret_is_shown(self):
        shown = [RECORD, qewaris.move_service("shop.config", SHOP, 1), qewaris.string("shop.config", SHOP, "service_passphrase", 1)]
        self.assertNotIn("tide", repr(shown))


class Module(unittest.TestCase):
    def test_its_examples_and_its_version(self):
        self.assertEqual(doctest.testmod(qewaris).failed, 0)
        self.assertEqual(qewaris.library_version(), qewaris.VERSION)


if __name__ == "__main__":
    unittest.main()
