//! Every warning, in one table: its word, its sentence, where the fact comes from, and what to do.
//!
//! What the daemons do was seen with iwd 2.3 (ell 0.56) and ConnMan 1.41 (GLib 2.74) on Debian 12: the readers by programs over
//! libell and GLib, the rest by the daemons' sources.

/// A warning explained. A word in braces of the sentence is filled in.
pub struct Row {
    pub word: Word,
    pub name: &'static str,
    pub title: &'static str,
    pub sentence: &'static str,
    pub meaning: &'static str,
    /// Where the fact comes from.
    pub source: &'static str,
    /// What to do, in one sentence.
    pub remedy: &'static str,
    /// A file that earns it, under its name; none where it takes several files or a folder.
    pub example: Option<(&'static str, &'static [u8])>,
}

macro_rules! table {
    ($($word:ident $name:literal $title:literal
        sentence $sentence:literal meaning $meaning:literal source $source:literal remedy $remedy:literal
        example $example:expr;)*) => {
        /// The name of a warning.
        #[derive(Clone, Copy, Debug, PartialEq, Eq, PartialOrd, Ord)]
        pub enum Word { $($word),* }

        /// The warnings, the worst first.
        pub const TABLE: &[Row] = &[$(Row {
            word: Word::$word,
            name: $name,
            title: $title,
            sentence: $sentence,
            meaning: $meaning,
            source: $source,
            remedy: $remedy,
            example: $example,
        }),*];
    };
}

table! {
    OpenBySilence "open-by-silence" "a service is open because it says nothing"
        sentence "[{group}] has neither Passphrase nor Security, so it is a network without a key; Security = none says that this is meant"
        meaning "A wifi service with neither Passphrase nor Security joins a network without a key. Often its Passphrase line was lost."
        source "connman-service.config: Security is psk if a passphrase is present and none otherwise."
        remedy "Put the Passphrase line in, or Security = none if the network has no key."
        example Some(("shop.config", b"[service_till]\nType = wifi\nName = Desk 4\n"));
    SwallowedLine "swallowed-line" "a text seems to have swallowed the next line"
        sentence "{key} has {found} and an equal sign in it, and seems to have swallowed the next line; each setting stands on a line of its own"
        meaning "A text may hold anything, so a lost line end makes one setting of two. What it holds may be a passphrase, and is \
                 hidden everywhere."
        source "libell and GLib both read all of the line as the value."
        remedy "Put the second setting on a line of its own."
        example Some(("shop.config", b"[service_till]\nType = wifi\nName = Desk 4 Passphrase = low tide 88\nSecurity = none\n"));
    CommentedOutPassphrase "commented-out-passphrase" "a passphrase is commented out"
        sentence "The line is a Passphrase that is commented out, and the network is without a key; take the # away if it has one"
        meaning "A line that starts with # is passed over, and without its passphrase the network is one without a key."
        source "libell and GLib both pass over a line that starts with #."
        remedy "Take the # away, or the whole line if the network has no key."
        example Some(("Desk.open", b"[Security]\n#Passphrase=low tide 88\n"));
    NoService "no-service" "a ConnMan file has no service"
        sentence "The file has no service, and a till gets no network from it; see whether it was cut short"
        meaning "A ConnMan file without a service is good and says nothing. A copy that was broken off leaves such a file, often of no bytes."
        source "connman-service.config: a network is a group service_*, and a file may have none."
        remedy "See whether it is the right file, and copy it again."
        example Some(("shop.config", b""));
    BothKeys "both-keys" "an iwd file has a passphrase and a key"
        sentence "Passphrase and PreSharedKey are both given; the passphrase counts by the papers, and on a WPA2 network iwd takes the key"
        meaning "If the two do not belong together, the till joins with one where the other is meant."
        source "iwd 2.3, network_load_psk in src/network.c: a PreSharedKey is kept where there is one, and WPA2 takes it."
        remedy "Keep only one of Passphrase and PreSharedKey."
        example Some((
            "Desk.psk",
            b"[Security]\nPassphrase=low tide 88\nPreSharedKey=00112233445566778899aabbccddeeff00112233445566778899aabbccddeeff\n",
        ));
    QuotedValue "quoted-value" "a value stands in quotation marks"
        sentence "{key} stands in quotation marks, which count as a part of it; a value needs none"
        meaning "The marks are two characters of the value, as all others are."
        source "libell and GLib both keep the marks."
        remedy "Take the quotation marks away."
        example Some(("Desk.psk", b"[Security]\nPassphrase=\"low tide 88\"\n"));
    CommentBehindValue "comment-behind-value" "a comment seems to stand behind a value"
        sentence "{key} has a blank and {found} in it; there are no comments behind a value, and all of it counts"
        meaning "A comment stands on a line of its own. Behind a value it is a part of the value."
        source "libell and GLib both keep all of the line."
        remedy "Put the comment on a line of its own."
        example Some(("Desk.psk", b"[Security]\nPassphrase=low tide 88 # the old one\n"));
    TrailingBlanks "trailing-blanks" "a ConnMan passphrase ends in blanks"
        sentence "Passphrase has blanks at its end; ConnMan counts them, and the papers and the move do not"
        meaning "If a till joined with this line, the network's passphrase ends in a blank, and the moved file lacks it."
        source "GLib 2.74 drops blanks before a value only; connman-service.config says that values have none at either end."
        remedy "Take the blanks away, or write the last one as \\s if the passphrase does end in it: ConnMan and the move both count that."
        example Some(("shop.config", b"[service_till]\nType = wifi\nName = Desk 4\nPassphrase = low tide 88 \n"));
    EscapedEnd "escaped-end" "a ConnMan name or domain ends in an escaped blank"
        sentence "{key} ends in a blank or line end that is written as an escape; ConnMan cuts it off, and the papers and the move do not"
        meaning "If a till joined with this line, the network's name has no blank there, and the moved file is of another network."
        source "ConnMan 1.41: __connman_config_get_string in src/config.c cuts what GLib has unescaped, but not a passphrase."
        remedy "Take the escape away if a till joined with this line. If the network's name does end so, give it as SSID, in hex digits."
        example Some(("shop.config", b"[service_till]\nType = wifi\nName = Desk 4\\s\nPassphrase = low tide 88\n"));
    LongMask "long-mask" "a mask has length 31 or 32"
        sentence "The mask has length {found}; iwd does not connect with one of 31 or 32"
        meaning "Such a mask leaves no room for a gateway, and iwd gives up on the network."
        source "iwd 2.3 with ell 0.56: l_netconfig_check_config in ell/netconfig.c refuses a static address with such a mask."
        remedy "Write the mask of the whole network, such as 255.255.255.0."
        example Some(("Desk.open", b"[IPv4]\nAddress=10.0.0.2\nNetmask=255.255.255.255\nGateway=10.0.0.1\n"));
    DnsBlanks "dns-blanks" "DNS has a space too many"
        sentence "DNS has two spaces in a row or one at its end; iwd does not connect with such a list"
        meaning "Between two spaces iwd sees an address of no bytes, and gives up on the network."
        source "ell 0.56: l_settings_get_string_list gives an empty entry there, which iwd 2.3 takes for a broken address."
        remedy "Leave one space between two addresses, and none at the end."
        example Some(("Desk.open", b"[IPv4]\nDNS=10.0.0.2  10.0.0.3\n"));
    NameNotUtf8 "name-not-utf8" "a network name is not UTF-8"
        sentence "The network name is not UTF-8; iwd passes over such a file without a word"
        meaning "A network name may have any bytes, and its file is named by their hex, but iwd joins only names that are UTF-8."
        source "iwd 2.3, storage_network_ssid_from_path in src/storage.c: a name that is not UTF-8 is none."
        remedy "Rename the network, at its access point."
        example Some(("=436166e9.open", b""));
    Noncharacter "noncharacter" "a Unicode noncharacter"
        sentence "{key} has a Unicode noncharacter in it; iwd refuses the whole file"
        meaning "Unicode sets some code points aside that are no characters, such as U+FFFE. They are good UTF-8 by its standard."
        source "ell 0.56, ell/utf8.c: U+FDD0 to U+FDEF and U+FFFE and U+FFFF of each plane are not taken; in comments they are."
        remedy "Write the value again; such a character comes from a broken copy."
        example Some(("Desk.psk", b"[Security]\nPassphrase=low tide \xef\xbf\xbe\n"));
    DomainUnread "domain-unread" "iwd does not read DomainName"
        sentence "{key}; nothing comes of it"
        meaning "DomainName is in iwd's paper, but iwd 2.3 does not look at it."
        source "iwd 2.3: no file of its sources asks for the key DomainName."
        remedy "Set the domain of the till elsewhere, or by DHCP."
        example Some(("Desk.open", b"[IPv4]\nDomainName=shop.example\n"));
    BothSuffixes "both-suffixes" "one network is open in one file and has a key in another"
        sentence "{found}; keep the one that is meant"
        meaning "A till with A.open joins every network called A that has no key, also one that somebody else has set up."
        source "iwd.network: a file name is the network and its security, and iwd knows each such pair as a network of its own."
        remedy "Take away the file that is not meant."
        example None;
    TwoKeys "two-keys" "one network has two different keys"
        sentence "The network {network} has {count} different {kind}: {found}"
        meaning "One of them is wrong, or two networks have one name. Which files have which is not told: look at them one by one."
        source "a network of one name has one passphrase."
        remedy "Find out which passphrase the network has."
        example None;
    OneAddress "one-address" "two tills have one address"
        sentence "{found} is the address of {count} tills in the network {network}: {files}"
        meaning "Two tills with one address take the network from each other."
        source "two files of one kind that give one address in one network."
        remedy "Give each till an address of its own."
        example None;
    ReadableByOthers "readable-by-others" "a folder does not keep what is written to its owner"
        sentence "Others can read what is written here, since the file system keeps no permissions; take the files off it soon"
        meaning "What is written is meant for its owner only (mode 600). File systems of sticks do not keep that."
        source "the mode of a file that was just made there."
        remedy "Move into a folder of a Linux file system, or take the files off the stick as soon as the till has them."
        example None;
    EmptyFolder "empty-folder" "a folder has no network file"
        sentence "There is no iwd or ConnMan file in it; is a stick not mounted?"
        meaning "A folder that was given by name has nothing to check. That is an error, so that a stick that is not mounted does not pass."
        source "the folder."
        remedy "See that the stick is mounted, and that the folder is the right one."
        example None;
}

impl Word {
    pub fn row(self) -> &'static Row {
        &TABLE[self as usize]
    }
}

/// A warning by its word.
pub fn by_name(name: &str) -> Option<Word> {
    TABLE.iter().find(|row| row.name == name).map(|row| row.word)
}
