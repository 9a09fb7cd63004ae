"""Makes the files that are measured. The same bytes every time: document 01's two worked files, with and without a static IPv6,
larger ones of which each has a stated size and number of settings, one for each address that is read and written beside glibc, and
pairs that differ only in how long a run of bytes is. `python3 inputs.py FOLDER` writes them into a folder."""

import os
import sys

LIMIT = 16384  # the most bytes that a file may have

WORDS = ("the till at this counter joins network of shop floor after it was moved from one hall to next and keeps "
         "same key until somebody in back office writes a new one here").split()

SHOP = """[service_till]
Type = wifi
Name = Desk 4
Passphrase = low\\tide 88
IPv4 = 10.20.0.14/24/10.20.0.1
Nameservers = 10.20.0.2,10.20.0.3
Hidden = true
IPv6 = off
"""

DESK = """[Settings]
Hidden=true
[Security]
Passphrase=low\tide 88
[IPv4]
Address=10.20.0.14
Netmask=255.255.255.0
Gateway=10.20.0.1
DNS=10.20.0.2 10.20.0.3
[IPv6]
Enabled=false
"""

# The same with an address in place of `off`.
SHOP_SIX = SHOP.replace("IPv6 = off", "IPv6 = 2001:db8:0:14::20/64/2001:db8:0:14::1")
DESK_SIX = DESK.replace("Enabled=false", "Address=2001:db8:0:14::20/64\nGateway=2001:db8:0:14::1")

# Addresses that are read and written beside glibc: short, in full, of one group, and with a dotted tail.
ADDRESSES = ("2001:db8::1", "2001:db8:85a3:8d3:1319:8a2e:370:7348", "::1", "::ffff:129.144.52.38")

# The bytes of a ConnMan key, but for the capitals.
KEY_BYTES = "abcdefghijklmnopqrstuvwxyz0123456789_-."


class Input:
    """A file: its name, what it is, its text, and how many settings and services a reading of it must count."""

    def __init__(self, name, what, text):
        self.name, self.what, self.text = name, what, text
        self.bytes = len(text.encode())
        lines = [line for line in text.splitlines() if line.strip() and line[0] != "#"]
        self.services = sum(line.startswith("[service_") for line in lines)
        self.settings = sum(line[0] != "[" for line in lines)
        self.is_iwd = not name.endswith(".config")


def prose(count, at=0):
    """As many bytes of words with single spaces between them, from word `at` on."""
    text = ""
    while len(text) < count:
        text += WORDS[at % len(WORDS)] + " "
        at += 1
    text = text[:count]
    return text[:-1] + "." if text.endswith(" ") else text


def comments(count, width=72):
    """Comment lines of this width that take up exactly `count` bytes, which is 0 or at least 4."""
    lines = []
    while count:
        take = width if count >= width + 4 else count
        if take > width:
            take = count // 2
        lines.append("# " + prose(take - 3, len(lines) * 12) + "\n")
        count -= take
    return "".join(lines)


def filled(blocks, size, width=72):
    """The blocks with comments in front of each, `size` bytes in all."""
    spare = size - sum(len(block) for block in blocks)
    each = spare // len(blocks)
    parts = []
    for i, block in enumerate(blocks):
        last = i == len(blocks) - 1
        parts += [comments(spare - each * i if last else each, width), block]
    text = "".join(parts)
    assert len(text.encode()) == size, (len(text), size)
    return text


def host(kind, n, i):
    """A host name. A list of four stays below the 200 bytes that inih reads of a line."""
    return f"{kind}{i}.counter{n}.north-hall.example.org"


def service_keys(n):
    """Every key that a wireless service can have, with the values of service `n`."""
    return {
        "Type": "wifi",
        "Name": f"Counter {n} of the northern hall",
        "SSID": f"Counter {n} of the northern hall 1".encode().hex(),
        "Passphrase": prose(63),
        "Security": "psk",
        "Hidden": "true",
        "IPv4": f"192.168.{100 + n}.114/255.255.255.0/192.168.{100 + n}.101",
        "IPv6": "auto",
        "IPv6.Privacy": "preferred",
        "MAC": f"02:00:5e:10:a{n}:f{n}",
        "Nameservers": ",".join(f"192.168.{100 + n}.{102 + i}" for i in range(4)),
        "SearchDomains": ",".join(host("search", n, i) for i in range(4)),
        "Timeservers": ",".join(host("time", n, i) for i in range(4)),
        "Domain": ".".join(host("domain", n, i) for i in range(3)),
    }


HALF = ("Type", "Name", "Passphrase", "Security", "IPv4", "Nameservers", "SearchDomains")
MOVABLE = ("Type", "Name", "SSID", "Passphrase", "Security", "Hidden", "IPv4", "IPv6", "Nameservers", "Domain")


def service(n, only=None):
    """The group of service `n`, with all its keys or some."""
    keys = service_keys(n)
    return f"[service_counter_{n}]\n" + "".join(f"{key} = {keys[key]}\n" for key in only or keys)


def services(count, size, only=None):
    return filled([service(n + 1, only) for n in range(count)], size)


def full_connman():
    """Eight services with every key, `global`, and comments."""
    group = f"[global]\nName = {prose(60)}\nDescription = {prose(150)}\n"
    return filled([group] + [service(n + 1) for n in range(8)], LIMIT)


def iwd_blocks(passphrase, domain_name):
    """The four groups of an iwd file with every key."""
    return [
        "[Settings]\nAutoConnect=true\nHidden=true\nAlwaysRandomizeAddress=false\nAddressOverride=02:00:5e:10:a4:f4\n",
        f"[Security]\nPassphrase={passphrase}\nPreSharedKey={'0123456789abcdef' * 4}\n",
        "[IPv4]\nAddress=192.168.104.114\nGateway=192.168.104.101\nBroadcast=192.168.104.255\nNetmask=255.255.255.0\n"
        "DNS=192.168.104.102 192.168.104.103 192.168.104.104 192.168.104.105\n"
        f"DomainName={domain_name}\nSendHostname=true\n",
        "[IPv6]\nEnabled=true\nAddress=2001:db8:0:104::114/64\nGateway=2001:db8:0:104::101\n",
    ]


def iwd(size):
    """Every key, and comments up to the size."""
    return filled(iwd_blocks("low\\\\tide 88", "north-hall.example.org"), size)


def iwd_strings():
    """The two strings as long as they may be, with all five escapes; comment lines of 1,000 bytes fill the file."""
    escapes = "\\s\\t\\r\\n\\\\"
    passphrase = escapes * 3 + prose(63 - 15)
    domain_name = escapes * 10 + prose(253 - 50)
    return filled(iwd_blocks(passphrase, domain_name), LIMIT, 1000)


def inputs():
    """Every file that is measured, by its name."""
    made = [
        Input("shop.config", "document 01's ConnMan file", SHOP),
        Input("full.config", "ConnMan, 8 services, every key, `global`", full_connman()),
        Input("Desk 4.psk", "document 01's iwd file", DESK),
        Input("six.config", "document 01's ConnMan file, with a static IPv6", SHOP_SIX),
        Input("Desk 6.psk", "document 01's iwd file, with a static IPv6", DESK_SIX),
        Input("comments.psk", "iwd, every key, mostly comments", iwd(LIMIT)),
        Input("strings.psk", "iwd, every key, long strings with escapes", iwd_strings()),
        Input("size1.psk", "iwd, 1 KiB", iwd(1024)),
        Input("size4.psk", "iwd, 4 KiB", iwd(4096)),
        Input("size1.config", "ConnMan, 1 KiB", services(1, 1024, HALF)),
        Input("size4.config", "ConnMan, 4 KiB", services(2, 4096)),
        Input("move.config", "ConnMan, 8 services that can be moved", services(8, LIMIT, MOVABLE)),
    ]
    for n, address in enumerate(ADDRESSES):
        made.append(Input(f"address{n}.open", f"iwd, `{address}` twice", f"[IPv6]\nAddress={address}\nGateway={address}\n"))
    for n in range(1, 9):
        made.append(Input(f"grow{n}.config", f"ConnMan, {n} times 2 KiB", services(n, 2048 * n)))
    for n in range(1, 9):
        made.append(Input(f"even{n}.config", f"ConnMan, 16 KiB, services: {n}", services(n, LIMIT)))
    return {each.name: each for each in made}


def cycle(text, count):
    """So many bytes of a text, again and again."""
    return (text * count)[:count]


def runs():
    """Two files for each run of bytes, by what the run is; the second has a longer one and is otherwise the same. A key that is
    such a run is unknown, so its files are refused."""
    return {
        "a key": [Input(f"key{n}.config", f"ConnMan, a key of {n} bytes", f"[service_a]\n{cycle(KEY_BYTES, n)} = x\n")
                  for n in (1024, 2048)],
        "a line of blanks": [Input(f"blank{n}.config", f"ConnMan, a line of {n} blanks", "[global]\n" + cycle(" \t", n) + "\n")
                             for n in (1024, 2048)],
        "a ConnMan name's stem": [Input(cycle("stem", n) + ".config", f"ConnMan, a name of {n} bytes", "[global]\n")
                                  for n in (64, 128)],
    }


def write(folder):
    os.makedirs(folder, exist_ok=True)
    for each in list(inputs().values()) + [each for pair in runs().values() for each in pair]:
        with open(os.path.join(folder, each.name), "wb") as out:
            out.write(each.text.encode())


if __name__ == "__main__":
    write(sys.argv[1])
