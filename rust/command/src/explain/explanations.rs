//! The explanations, in the order of the refusals' numbers from 1.

use super::{Example, Explanation};

pub const EXPLANATIONS: [Explanation; 19] = [
    Explanation {
        title: "the file is too long",
        meaning: "A network file has at most 16,384 bytes. Nothing else is asked of a longer one.",
        example: Example::Long("shop.config", b"# a line of 20 bytes\n", 781),
        remedy: "See whether it is a network file at all. If it is, take out what is not needed, comments first.",
    },
    Explanation {
        title: "the file name breaks its rule",
        meaning: "iwd's names are the network name and .open or .psk. A name of letters, digits, space, _ and - stands as it is; \
                  any other name is = and its bytes in lower-case hex. ConnMan's names are letters or digits and .config.",
        example: Example::File("=4465736b.psk", b"[Security]\nPassphrase=low tide 88\n"),
        remedy: "Rename the file. For an iwd file, `qewaris move` writes the right name.",
    },
    Explanation {
        title: "a line is nothing that a file may have",
        meaning: "A line is blank, a comment that starts with #, a header in [ and ], or a setting: a key, = and a value.",
        example: Example::File("shop.config", b"[service_till]\nType wifi\n"),
        remedy: "Put the = between key and value, or a # before a line that is only a note. A long value stands on one line.",
    },
    Explanation {
        title: "an extension block is not taken",
        meaning: "iwd knows blocks that start with [@, for certificates. Such files are not taken.",
        example: Example::File("Desk.open", b"[@pem@office]\n"),
        remedy: "Take the block out. A network that needs a certificate cannot be handled yet.",
    },
    Explanation {
        title: "a line starts with [ and is no header",
        meaning: "A header is [, a group's name in printable ASCII, and ]. Only spaces and tabs may follow it.",
        example: Example::File("shop.config", b"[service_till\nType = wifi\n"),
        remedy: "Close the header with ] and put nothing behind it. If the line looks right, the file may have been saved on \
                  Windows, which ends each line with byte 13 as well: save it with Unix line ends.",
    },
    Explanation {
        title: "there is no such group",
        meaning: "iwd's groups are Settings, Security, IPv4 and IPv6. ConnMan's are global, and service_ with 1 to 32 letters, \
                  digits or _. Capitals count, and so does a blank inside the brackets.",
        example: Example::File("Desk.psk", b"[security]\nPassphrase=low tide 88\n"),
        remedy: "Spell the group as it is spelled here. A file of the other program has another suffix.",
    },
    Explanation {
        title: "a group is named twice",
        meaning: "Each group stands once in a file.",
        example: Example::File("Desk.open", b"[IPv6]\nEnabled=false\n[IPv6]\n"),
        remedy: "Put the settings of both under the first header. Give two services two names.",
    },
    Explanation {
        title: "a setting stands before any group",
        meaning: "A setting belongs to the group whose header stands above it.",
        example: Example::File("Desk.psk", b"Passphrase=low tide 88\n"),
        remedy: "Put the header above the setting, such as [Security].",
    },
    Explanation {
        title: "a key is not one of its group's",
        meaning: "Each group takes keys of its own. Capitals count.",
        example: Example::File(
            "shop.config",
            b"[service_till]\nType = wifi\nName = Desk 4\nPasphrase = low tide 88\n",
        ),
        remedy: "Spell the key as the message does, or move it to its group. Lines SAE-PT-Group19 and SAE-PT-Group20, which iwd \
                  writes into a .psk file by itself, are to be taken out.",
    },
    Explanation {
        title: "a key is given twice in its group",
        meaning: "Each key stands once in its group. The later line is to blame.",
        example: Example::File("Desk.open", b"[Settings]\nHidden=true\nHidden=true\n"),
        remedy: "Keep the one that is meant.",
    },
    Explanation {
        title: "a value is no proper text",
        meaning: "A value is UTF-8, without byte 0 and byte 13. In a name, passphrase, domain or description a backslash begins one \
                  of \\s, \\t, \\r, \\n and \\\\, in ConnMan's files as in iwd's.",
        example: Example::File(
            "shop.config",
            b"[service_till]\nType = wifi\nName = Desk 4\nPassphrase = low\\88 tide\n",
        ),
        remedy: "Write \\\\ for a backslash: iwd and ConnMan read it as one. Save the file as UTF-8 and with Unix line ends.",
    },
    Explanation {
        title: "a value is not of its key's kind",
        meaning: "Each key takes one kind of value: yes or no, an address, a mask, a word of a list, hex digits, or a text of a \
                  certain length. The message says which. An IPv4 address is four numbers from 0 to 255 with dots between. An IPv6 \
                  address has 8 parts of 1 to 4 hex digits with colons between; once, :: may stand for one part or more that is \
                  zero, and in place of the last two parts an IPv4 address may stand. Its length is 1 to 128.",
        example: Example::File("shop.config", b"[service_till]\nType = wifi\nName = Desk 4\nPassphrase = lowtide\n"),
        remedy: "Write the value as the message says. In an iwd file a blank behind the value counts as a part of it. ConnMan's IPv6 \
                  needs the length behind the address, as in 2001:db8::14/64/2001:db8::1; in an iwd file it may be left off, which \
                  means 128.",
    },
    Explanation {
        title: "there is a ninth service",
        meaning: "A ConnMan file has at most 8 services; global is none of them.",
        example: Example::File(
            "shop.config",
            b"[service_a]\n[service_b]\n[service_c]\n[service_d]\n[service_e]\n[service_f]\n[service_g]\n[service_h]\n[service_i]\n",
        ),
        remedy: "Put the services from the ninth on into a second file.",
    },
    Explanation {
        title: "something that is needed is missing",
        meaning: "A ConnMan service needs Type; wifi needs Name or SSID; Security = psk needs Passphrase. An iwd file .psk needs \
                  Passphrase or PreSharedKey. In the groups IPv4 and IPv6 of an iwd file, each by itself, Address needs Gateway and \
                  Gateway needs Address; in IPv4 Netmask and Broadcast need Address too.",
        example: Example::File("Desk.psk", b""),
        remedy: "Put in what the message names. A network without a key has an .open file.",
    },
    Explanation {
        title: "two settings contradict each other",
        meaning: "A ConnMan service of ethernet takes no Name, SSID, Passphrase, Security or Hidden; Security = none takes no \
                  Passphrase. An iwd file .open takes no key, and the group IPv6 of any iwd file no Address beside Enabled=false.",
        example: Example::File("Desk.open", b"[Security]\nPassphrase=low tide 88\n"),
        remedy: "Find out which of the two is meant. If the network has a key, the key stays and the other one changes.",
    },
    Explanation {
        title: "iwd has no place for the service",
        meaning: "A service cannot move with Type = ethernet, Security = wep or ieee8021x, IPv4 = off, an IPv4 or IPv6 address \
                  without a gateway, MAC, IPv6.Privacy, SearchDomains or Timeservers. The earliest such line is named.",
        example: Example::Move(
            "shop.config",
            b"[service_till]\nType = wifi\nName = Desk 4\nIPv4 = 10.0.0.2/24\n",
            1,
        ),
        remedy: "Take the line out if the till can do without it, or add the gateway. An ethernet, wep or ieee8021x service stays \
                  with ConnMan.",
    },
    Explanation {
        title: "a buffer is too short",
        meaning: "A program lent the library a buffer that is shorter than what must be written. This command never does.",
        example: Example::Buffer("shop.config", b"[service_till]\nType = wifi\nName = Desk 4\nHidden = true\n", 10),
        remedy: "Lend 70 bytes for the name and 944 for the file: this is proved to be enough for every network, and some need as \
                  much. An image that sets a fixed place aside for each file may count on the same figures.",
    },
    Explanation {
        title: "there is no service with this number",
        meaning: "Services count from 1, in the order of the file.",
        example: Example::Move("shop.config", b"[service_till]\nType = wifi\nName = Desk 4\n", 2),
        remedy: "`qewaris show` lists the services of a file with their numbers.",
    },
    Explanation {
        title: "a record is malformed",
        meaning: "A program handed the writer a record outside its rules: a name of 1 to 32 bytes, a passphrase of 8 to 63, at most 4 \
                  name servers, a domain of at most 253 bytes, a length of 1 to 32 for a fixed IPv4 and of 1 to 128 for a fixed IPv6 \
                  address, and zeros in places not in use. This command never does.",
        example: Example::Record(b""),
        remedy: "Fill the record as the header qewaris.h says.",
    },
];
