"""Reads iwd's and ConnMan's network files, writes iwd files, and moves ConnMan services to iwd.

Over the shared library libqewaris.so.2, with nothing but Python's own ctypes. A file is given whole, as bytes, under its name
without a folder. Every function answers, or raises `Refused` with a number, the line to blame and a sentence.

    >>> shop = b"[service_till]\\nType = wifi\\nName = Desk 4\\nPassphrase = low tide 88\\n"
    >>> moved = move_service("shop.config", shop, 1)
    >>> moved.name
    b'Desk 4.psk'
    >>> check("shop.config", b"[service_till]\\nType = wlan\\n")
    Traceback (most recent call last):
    qewaris.Refused: line 2: the value is not of its key's kind [12]

The library is taken from the folder that QEWARIS_LIB_DIR names, from the folder lib beside this file's, or from the system.
"""
from __future__ import annotations

import ctypes
import os
import pathlib
import re
from dataclasses import dataclass, field
from ipaddress import IPv4Address, IPv6Address
from typing import Optional, Tuple, Union

VERSION = "0.2.0"
LAYOUT = 2

# What each refusal says, by its number from 1.
SENTENCES = (
    "the file has more than 16,384 bytes",
    "the file name breaks its rule",
    "the line is not blank, a comment, a header or a setting",
    "extension blocks are not taken",
    "the line starts with [ but is no header",
    "there is no such group",
    "the group is named a second time",
    "the setting stands before any group",
    "the key is not one of its group's",
    "the key is given a second time in its group",
    "the value is not UTF-8, holds byte 0 or 13, or has a bad escape",
    "the value is not of its key's kind",
    "there are more than eight services",
    "something that is needed is missing",
    "two settings contradict each other",
    "iwd has no place for it",
    "a buffer is too short",
    "there is no service with this number",
    "the record is malformed",
)
MALFORMED = 19
NAME_MAX = 70  # no file name that is written is longer, and some record reaches it
FILE_MAX = 944  # no file that is written is longer, and some record reaches it
_ESCAPES = {b"\\s": b" ", b"\\t": b"\t", b"\\r": b"\r", b"\\n": b"\n", b"\\\\": b"\\"}  # of strings, with the byte that each means

Name = Union[str, bytes]


class Refused(Exception):
    """A refusal: its number from 1, the line that is to blame or None, and a sentence."""

    def __init__(self, number: int, line: int = 0):
        self.number = number
        self.line: Optional[int] = line or None
        self.sentence = SENTENCES[number - 1] if number <= len(SENTENCES) else "it is refused"
        super().__init__((f"line {line}: " if line else "") + f"{self.sentence} [{number}]")


# ---- What is answered

@dataclass(frozen=True)
class Counts:
    """How many settings an accepted file has, and how many services; iwd's have none."""
    settings: int
    services: int


@dataclass(frozen=True)
class Text:
    """A string setting: its line, where its value starts in the file, and the value as it stands, in both formats still escaped."""
    line: int
    start: int
    value: bytes = field(repr=False)

    @property
    def unescaped(self) -> bytes:
        """The bytes that the value means: those of the join record, where it has this string."""
        return re.sub(rb"\\.", lambda escape: _ESCAPES.get(escape[0], escape[0]), self.value)


@dataclass(frozen=True)
class StaticIpv4:
    address: IPv4Address
    prefix_length: int  # 1 to 32
    gateway: Optional[IPv4Address] = None


@dataclass(frozen=True)
class StaticIpv6:
    address: IPv6Address
    prefix_length: int  # 1 to 128
    gateway: Optional[IPv6Address] = None


Ipv4 = Union[str, StaticIpv4]  # "dhcp", "off", or a static address
Ipv6 = Union[str, StaticIpv6]  # "auto", "off", or a static address


@dataclass(frozen=True)
class JoinRecord:
    """What a till needs to join a network. At most one of passphrase and key is there; an empty domain is none."""
    name: bytes
    passphrase: Optional[bytes] = field(default=None, repr=False)
    key: Optional[bytes] = field(default=None, repr=False)
    hidden: bool = False
    ipv4: Ipv4 = "dhcp"
    name_servers: Tuple[IPv4Address, ...] = ()
    domain: bytes = b""
    ipv6: Ipv6 = "auto"


@dataclass(frozen=True)
class IwdSettings:
    """The settings of an iwd file; None is absent. Of a string there is the line, and its bytes are looked up."""
    auto_connect: Optional[bool]
    hidden: Optional[bool]
    always_randomize_address: Optional[bool]
    address_override: Optional[bytes]
    passphrase_line: Optional[int]
    pre_shared_key: Optional[bytes] = field(repr=False)
    address: Optional[IPv4Address]
    gateway: Optional[IPv4Address]
    broadcast: Optional[IPv4Address]
    netmask_length: Optional[int]
    dns: Tuple[IPv4Address, ...]
    domain_name_line: Optional[int]
    send_hostname: Optional[bool]
    ipv6_enabled: Optional[bool]
    ipv6_address: Optional[IPv6Address]
    ipv6_prefix_length: Optional[int]  # 128 where it is left off
    ipv6_gateway: Optional[IPv6Address]


@dataclass(frozen=True)
class ServiceSettings:
    """The settings of a ConnMan service; None is absent, and an entry of a list is its bytes."""
    service_type: Optional[str]
    name_line: Optional[int]
    ssid: Optional[bytes]
    passphrase_line: Optional[int]
    security: Optional[str]
    hidden: Optional[bool]
    ipv4: Optional[Ipv4]
    ipv6: Optional[Ipv6]
    privacy: Optional[str]
    mac: Optional[bytes]
    nameservers: Tuple[IPv4Address, ...]
    search_domains: Tuple[bytes, ...]
    timeservers: Tuple[bytes, ...]
    domain_line: Optional[int]


@dataclass(frozen=True)
class IwdFile:
    name: bytes
    file: bytes = field(repr=False)


# ---- The structs of include/qewaris.h: bytes (u8), sizes (usize), arrays of either, and structs above

_LAYOUT_OF = """
reading = line:usize settings:usize services:usize number:u8 reserved:u8*7
text = line:usize start:usize length:usize number:u8 reserved:u8*7
written = line:usize name_len:usize file_len:usize number:u8 reserved:u8*7
record = name_len:u8 name:u8*32 credential:u8 passphrase_len:u8 passphrase:u8*63 key:u8*32 hidden:u8 ipv4:u8 address:u8*4
    prefix_length:u8 has_gateway:u8 gateway:u8*4 server_count:u8 servers:u8*16 domain_len:u8 domain:u8*253 ipv6:u8
    ipv6_address:u8*16 ipv6_prefix_length:u8 has_ipv6_gateway:u8 ipv6_gateway:u8*16
record_answer = line:usize number:u8 record:record reserved:u8*7
iwd_general = auto_connect:u8 hidden:u8 always_randomize_address:u8 has_address_override:u8 address_override:u8*6
iwd_security = passphrase_line:usize has_pre_shared_key:u8 pre_shared_key:u8*32 reserved:u8*7
iwd_ipv4 = domain_name_line:usize dns_count:usize dns:u8*16 has_address:u8 address:u8*4 has_gateway:u8 gateway:u8*4
    has_broadcast:u8 broadcast:u8*4 netmask_length:u8 send_hostname:u8 reserved:u8*7
iwd_ipv6 = enabled:u8 has_address:u8 address:u8*16 prefix_length:u8 has_gateway:u8 gateway:u8*16
iwd_settings = line:usize number:u8 general:iwd_general ipv6:iwd_ipv6 reserved:u8*1 security:iwd_security ipv4:iwd_ipv4
entries = count:usize start:usize*4 length:usize*4
service_network = name_line:usize passphrase_line:usize ssid_len:usize ssid:u8*32 service_type:u8 security:u8 hidden:u8
    reserved:u8*5
service_addresses = domain_line:usize search_domains:entries timeservers:entries nameserver_count:usize nameservers:u8*16
    ipv4:u8 address:u8*4 prefix_length:u8 has_gateway:u8 gateway:u8*4 ipv6:u8 ipv6_address:u8*16 ipv6_prefix_length:u8
    has_ipv6_gateway:u8 ipv6_gateway:u8*16 privacy:u8 has_mac:u8 mac:u8*6 reserved:u8*2
service_settings = line:usize number:u8 reserved:u8*7 network:service_network addresses:service_addresses
"""
_TYPES: dict = {"u8": ctypes.c_uint8, "u32": ctypes.c_uint32, "usize": ctypes.c_size_t}
for _struct in re.split(r"\n(?=\w)", _LAYOUT_OF.strip()):
    _name, _, _members = _struct.partition(" = ")
    _parts = re.findall(r"(\w+):(\w+)(?:\*(\d+))?", _members)
    _fields = [(part, _TYPES[of] * int(count) if count else _TYPES[of]) for part, of, count in _parts]
    _TYPES[_name] = type(_name, (ctypes.Structure,), {"_fields_": _fields})


# ---- The library

def _load():
    folders = [os.environ.get("QEWARIS_LIB_DIR"), pathlib.Path(__file__).resolve().parent.parent / "lib"]
    file = f"libqewaris.so.{LAYOUT}"
    there = [str(pathlib.Path(folder) / file) for folder in folders if folder and (pathlib.Path(folder) / file).is_file()]
    library = ctypes.CDLL(there[0] if there else file)
    if not hasattr(library, f"qewaris_layout_{LAYOUT}"):
        raise ImportError(f"{file} has another layout than version {VERSION} of this module")
    return library


_LIBRARY = _load()
_FILE = [ctypes.c_char_p, ctypes.c_size_t, ctypes.c_char_p, ctypes.c_size_t]
_BUFFERS = [ctypes.POINTER(ctypes.c_char), ctypes.c_size_t] * 2


def _function(name: str, parameters: list, result: str):
    function = getattr(_LIBRARY, f"qewaris_{name}")
    function.argtypes, function.restype = parameters, _TYPES[result]
    return function


for _result, _names in {
    "reading": "check_iwd check_connman",
    "text": "iwd_passphrase iwd_domain_name global_name global_description service_name service_passphrase service_domain",
    "iwd_settings": "iwd_settings_of",
    "service_settings": "service_settings_of",
    "record_answer": "iwd_record service_record",
}.items():
    for _name in _names.split():
        _function(_name, _FILE + [ctypes.c_size_t] * _name.startswith("service_"), _result)
_WRITE = _function("write_iwd", [_TYPES["record"]] + _BUFFERS, "written")
_MOVE = _function("move_service", _FILE + [ctypes.c_size_t] + _BUFFERS, "written")


def _answer(function, *arguments):
    """What a function answers, or its refusal."""
    answer = function(*arguments)
    if answer.number:
        raise Refused(answer.number, answer.line)
    return answer


def _lent(name: Name, file: bytes, *service: int):
    """A file under its name, and a service's number; one that no size holds is none, as 0 is."""
    name = os.fsencode(name)
    numbers = [number if 0 < number < 1 << 64 else 0 for number in service]
    return name, len(name), bytes(file), len(file), *numbers


def _ask(function: str, *lent):
    return _answer(getattr(_LIBRARY, f"qewaris_{function}"), *_lent(*lent))


def library_version() -> str:
    """The version of the shared library."""
    number = _function("version", [], "u32")()
    return f"{number // 10000}.{number // 100 % 100}.{number % 100}"


def is_connman(name: Name) -> bool:
    """Whether a file is asked as ConnMan's: those end in .config, and all others are asked as iwd's."""
    return os.fsencode(name).endswith(b".config")


def check(name: Name, file: bytes) -> Counts:
    """Reads a file of either kind."""
    reading = _ask("check_connman" if is_connman(name) else "check_iwd", name, file)
    return Counts(reading.settings, reading.services)


# ---- Settings and strings

_CHOICES = (None, False, True)  # a yes/no that may be absent, by its code


def _given(has: int, value):
    return value if has else None


def _address(array) -> Union[IPv4Address, IPv6Address]:
    """The address of four bytes, or of sixteen."""
    return (IPv6Address if len(array) == 16 else IPv4Address)(bytes(array))


def _static_ipv4(found) -> StaticIpv4:
    return StaticIpv4(_address(found.address), found.prefix_length, _given(found.has_gateway, _address(found.gateway)))


def _static_ipv6(found) -> StaticIpv6:
    gateway = _given(found.has_ipv6_gateway, _address(found.ipv6_gateway))
    return StaticIpv6(_address(found.ipv6_address), found.ipv6_prefix_length, gateway)


def _addresses(array, count: int) -> Tuple[IPv4Address, ...]:
    return tuple(IPv4Address(bytes(array)[4 * place : 4 * place + 4]) for place in range(count))


def iwd_settings(name: Name, file: bytes) -> IwdSettings:
    """The settings of an iwd file."""
    found = _ask("iwd_settings_of", name, file)
    general, security, ipv4, ipv6 = found.general, found.security, found.ipv4, found.ipv6
    return IwdSettings(
        auto_connect=_CHOICES[general.auto_connect],
        hidden=_CHOICES[general.hidden],
        always_randomize_address=_CHOICES[general.always_randomize_address],
        address_override=_given(general.has_address_override, bytes(general.address_override)),
        passphrase_line=security.passphrase_line or None,
        pre_shared_key=_given(security.has_pre_shared_key, bytes(security.pre_shared_key)),
        address=_given(ipv4.has_address, _address(ipv4.address)),
        gateway=_given(ipv4.has_gateway, _address(ipv4.gateway)),
        broadcast=_given(ipv4.has_broadcast, _address(ipv4.broadcast)),
        netmask_length=ipv4.netmask_length or None,
        dns=_addresses(ipv4.dns, ipv4.dns_count),
        domain_name_line=ipv4.domain_name_line or None,
        send_hostname=_CHOICES[ipv4.send_hostname],
        ipv6_enabled=_CHOICES[ipv6.enabled],
        ipv6_address=_given(ipv6.has_address, _address(ipv6.address)),
        ipv6_prefix_length=ipv6.prefix_length or None,
        ipv6_gateway=_given(ipv6.has_gateway, _address(ipv6.gateway)),
    )


def service_settings(name: Name, file: bytes, service: int) -> ServiceSettings:
    """The settings of a ConnMan service, by its number from 1."""
    found = _ask("service_settings_of", name, file, service)
    network, addresses = found.network, found.addresses

    def entries(places) -> Tuple[bytes, ...]:
        return tuple(bytes(file[places.start[i] : places.start[i] + places.length[i]]) for i in range(places.count))

    return ServiceSettings(
        service_type=(None, "wifi", "ethernet")[network.service_type],
        name_line=network.name_line or None,
        ssid=_given(network.ssid_len, bytes(network.ssid)[: network.ssid_len]),
        passphrase_line=network.passphrase_line or None,
        security=(None, "psk", "ieee8021x", "none", "wep")[network.security],
        hidden=_CHOICES[network.hidden],
        ipv4=(None, "dhcp", "off", _static_ipv4(addresses))[addresses.ipv4],
        ipv6=(None, "auto", "off", _static_ipv6(addresses))[addresses.ipv6],
        privacy=(None, "disabled", "enabled", "preferred")[addresses.privacy],
        mac=_given(addresses.has_mac, bytes(addresses.mac)),
        nameservers=_addresses(addresses.nameservers, addresses.nameserver_count),
        search_domains=entries(addresses.search_domains),
        timeservers=entries(addresses.timeservers),
        domain_line=addresses.domain_line or None,
    )


def string(name: Name, file: bytes, which: str, service: Optional[int] = None) -> Optional[Text]:
    """A string setting, or None where it is absent: iwd_passphrase, iwd_domain_name, global_name or global_description; with the
    number of a service, service_name, service_passphrase or service_domain."""
    found = _ask(which, name, file, *([] if service is None else [service]))
    return Text(found.line, found.start, bytes(file[found.start : found.start + found.length])) if found.line else None


# ---- Records, written files and moves

def record(name: Name, file: bytes, service: int = 1) -> JoinRecord:
    """The join record of an iwd file, or of a service of a ConnMan file by its number from 1."""
    answer = _ask("service_record", name, file, service) if is_connman(name) else _ask("iwd_record", name, file)
    found = answer.record
    return JoinRecord(
        name=bytes(found.name)[: found.name_len],
        passphrase=_given(found.credential == 1, bytes(found.passphrase)[: found.passphrase_len]),
        key=_given(found.credential == 2, bytes(found.key)),
        hidden=bool(found.hidden),
        ipv4=("dhcp", "off", _static_ipv4(found))[found.ipv4],
        name_servers=_addresses(found.servers, found.server_count),
        domain=bytes(found.domain)[: found.domain_len],
        ipv6=("auto", "off", _static_ipv6(found))[found.ipv6],
    )


def write_iwd(given: JoinRecord) -> IwdFile:
    """The iwd file of a record, and its name."""
    return _written(_WRITE, _laid(given))


def move_service(name: Name, file: bytes, service: int = 1) -> IwdFile:
    """The iwd file of a ConnMan service, by its number from 1, and its name."""
    return _written(_MOVE, *_lent(name, file, service))


def _written(function, *arguments) -> IwdFile:
    name, file = ctypes.create_string_buffer(NAME_MAX), ctypes.create_string_buffer(FILE_MAX)
    answer = _answer(function, *arguments, name, NAME_MAX, file, FILE_MAX)
    return IwdFile(name.raw[: answer.name_len], file.raw[: answer.file_len])


def _laid(given: JoinRecord):
    """A record in the library's struct. What does not fit there is malformed."""
    laid = _TYPES["record"](hidden=given.hidden)
    laid.name_len = _put(laid.name, given.name)
    if given.key is not None and (given.passphrase is not None or len(given.key) != 32):
        raise Refused(MALFORMED)
    if given.passphrase is not None:
        laid.credential, laid.passphrase_len = 1, _put(laid.passphrase, given.passphrase)
    if given.key is not None:
        laid.credential, _ = 2, _put(laid.key, given.key)
    if isinstance(given.ipv4, StaticIpv4):
        laid.ipv4 = 2
        laid.prefix_length, laid.has_gateway = _put_static(laid.address, laid.gateway, given.ipv4)
    else:
        laid.ipv4 = ("dhcp", "off").index(given.ipv4)
    laid.server_count = _put(laid.servers, b"".join(server.packed for server in given.name_servers)) // 4
    laid.domain_len = _put(laid.domain, given.domain)
    if isinstance(given.ipv6, StaticIpv6):
        laid.ipv6 = 2
        laid.ipv6_prefix_length, laid.has_ipv6_gateway = _put_static(laid.ipv6_address, laid.ipv6_gateway, given.ipv6)
    else:
        laid.ipv6 = ("auto", "off").index(given.ipv6)
    return laid


def _put_static(address, gateway, fixed: Union[StaticIpv4, StaticIpv6]) -> Tuple[int, bool]:
    """Lays a static address and its gateway down in two arrays, and gives its length, and whether there is a gateway."""
    if not 0 <= fixed.prefix_length < 256:
        raise Refused(MALFORMED)
    for array, given in ((address, fixed.address), (gateway, fixed.gateway)):
        if given is not None and _put(array, given.packed) < len(array):
            raise Refused(MALFORMED)
    return fixed.prefix_length, fixed.gateway is not None


def _put(array, value: bytes) -> int:
    """Lays bytes down at the front of an array, and gives their length."""
    if len(value) > len(array):
        raise Refused(MALFORMED)
    array[: len(value)] = value
    return len(value)
