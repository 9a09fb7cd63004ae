//! Every sentence that a finding can say, in one table: its name, the number of its refusal, and its text.
//!
//! A text is one sentence without its full stop: what was found, and what is allowed. A word in braces is filled in.

macro_rules! table {
    ($($name:ident, $number:literal, $text:literal;)*) => {
        /// The name of a sentence.
        #[derive(Clone, Copy, Debug, PartialEq, Eq)]
        pub enum Message { $($name),* }

        /// The sentences in the order of their refusals' numbers.
        pub const TABLE: &[(Message, u8, &str)] = &[$((Message::$name, $number, $text)),*];
    };
}

table! {
    AnySize, 1, "The file has more than 16,384 bytes; at most 16,384 are allowed";
    Size, 1, "The file has {found} bytes; at most 16,384 are allowed";

    AnyName, 2, "The file name breaks its rule; iwd's are a network name and .open or .psk, ConnMan's letters or digits and .config";
    NameSuffix, 2, "The file name ends in {found}; iwd's end in .open or .psk and ConnMan's in .config";
    NameWithoutSuffix, 2, "The file name has no suffix; iwd's end in .open or .psk and ConnMan's in .config";
    NameSuffixCase, 2, "The file name ends in {found}; it must end in {allowed}, in lower case";
    NameOfLogin, 2, "The file name ends in .8021x, which is not taken; iwd's must end in .open or .psk";
    NameEmpty, 2, "There is no network name before {found}; it needs 1 to 32 bytes";
    NameLength, 2, "The network name has {found} bytes; it needs 1 to 32";
    NameByte, 2, "The network name has {found} in it; only letters, digits, space, _ and - stand plainly, other names are = and hex";
    NameHexCase, 2, "The hex in the file name has upper-case letters; only 0 to 9 and a to f are allowed";
    NameHexDigit, 2, "The file name has {found} in the hex after =; only 0 to 9 and a to f are allowed";
    NameHexCount, 2, "The file name has {found} hex digits after =; each byte of the network name needs two";
    NameHexPlain, 2, "The hex in the file name spells {found}; such a name must stand plainly, as {allowed}";
    ConnmanNameEmpty, 2, "There is no name before .config; it needs one or more letters or digits";
    ConnmanNameByte, 2, "The file name has {found} before .config; only letters and digits are allowed";
    NotConnman, 2, "The file name is not ConnMan's; only a file of letters or digits and .config can be moved";

    AnyLine, 3, "The line is not blank, a comment, a header or a setting; it must be one of these";
    LineWithoutEqual, 3, "The line has no =; a setting is a key, = and a value";
    LineWithoutKey, 3, "There is no key before the =; a setting is a key, = and a value";
    LineKeyByte, 3, "The key has {found} in it; a key has only {allowed}";
    LineSemicolon, 3, "The line starts with a semicolon; a comment starts with #";
    LineMark, 3, "The line starts with a byte order mark; a file starts with plain text";
    LineReturn, 3, "The line has only byte 13, as Windows ends lines; a line ends with byte 10 alone";

    AnyExtension, 4, "The line starts an extension block; only plain groups are taken";

    AnyHeader, 5, "The line starts with [ but is no header; a header is [, a group's name and ]";
    HeaderOpen, 5, "The header has no ]; a header is [, a group's name and ]";
    HeaderEmpty, 5, "There is no name between [ and ]; a header is [, a group's name and ]";
    HeaderBehind, 5, "There is something behind the ]; only spaces and tabs may stand there";
    HeaderReturn, 5, "The line ends with byte 13, as Windows ends lines; a line ends with byte 10 alone";
    HeaderByte, 5, "The group's name has {found} in it; only printable ASCII without [ and ] is allowed";

    AnyGroup, 6, "There is no such group; iwd and ConnMan have groups of their own";
    GroupOfIwd, 6, "There is no group {found}; iwd's are Settings, Security, IPv4 and IPv6";
    GroupOfConnman, 6, "There is no group {found}; ConnMan's are global, and service_ with 1 to 32 letters, digits or _";
    ServiceLength, 6, "The service has {found} behind service_; it needs 1 to 32 letters, digits or _";
    ServiceByte, 6, "The service has {found} behind service_; only letters, digits and _ are allowed";

    AnyRepeatedGroup, 7, "The group is named a second time; a group stands once";
    RepeatedGroup, 7, "[{group}] stands on line {first} too; a group stands once";

    AnyEarlySetting, 8, "The setting stands before any group; a header must come first";
    EarlySetting, 8, "The setting stands before any group; a header such as {allowed} must come first";

    AnyKey, 9, "The key is not one of its group's; each group has keys of its own";
    UnknownKey, 9, "{key} is no key of [{group}]; its keys are {allowed}";
    KeyElsewhere, 9, "{key} is no key of [{group}]; it belongs to {allowed}";
    KeyOfPaper, 9, "{key} is {found} and not taken in [{group}]; the keys of [{group}] are {allowed}";
    KeyOfDaemon, 9, "{key} is a line that iwd writes itself and is not taken; the keys of [{group}] are {allowed}";

    AnyRepeatedKey, 10, "The key is given a second time; a key stands once in its group";
    RepeatedKey, 10, "{key} stands on line {first} too; a key stands once in its group";

    AnyText, 11, "The value is not plain text; it must be UTF-8 without byte 0 and byte 13, with good escapes";
    TextEncoding, 11, "{key} has bytes that are not UTF-8; only UTF-8 is allowed";
    TextZero, 11, "{key} has byte 0 in it; a value has no such byte";
    TextReturn, 11, "{key} has byte 13 in it, as Windows ends lines; a line ends with byte 10 alone";
    TextEscape, 11, "{key} has a \\ that begins no escape; write \\\\ for a backslash, or one of \\s, \\t, \\r and \\n";

    AnyKind, 12, "The value is not of its key's kind; each key takes one kind of value";
    TrailingBlank, 12, "{key} has a blank behind its value; the line must end with the value";
    YesNoOfIwd, 12, "{key} is {found}; it must be true, false, 1 or 0";
    YesNoOfConnman, 12, "{key} is {found}; it must be true or false";
    Address, 12, "{key} is {found}; it must be an IPv4 address, four numbers from 0 to 255 such as 10.20.0.14";
    Ipv6ForIpv4, 12, "{key} is an IPv6 address, which belongs to {allowed}; it must be an IPv4 address such as 10.20.0.14";
    Ipv6AmongIpv4, 12, "{key} has an IPv6 address in it; only IPv4 addresses such as 10.20.0.14 are taken";
    Mask, 12, "{key} is {found}; it must be a mask, ones and then zeros, such as 255.255.255.0";
    Ipv4, 12, "{key} is {found}; it must be off, dhcp, or an address with its mask and perhaps a gateway, such as 10.20.0.14/24/10.20.0.1";
    SpacedAddresses, 12, "{key} is {found}; it must be 1 to 4 addresses with spaces between";
    CommaAddresses, 12, "{key} is {found}; it must be 1 to 4 addresses with one comma between and no blanks";
    Entries, 12, "{key} is {found}; it must be 1 to 4 names of 1 to 253 bytes with one comma between and no blanks";
    Mac, 12, "{key} is {found}; it must be six pairs of hex digits with colons, such as 02:00:5e:10:00:01";
    KeyLength, 12, "{key} has {found}; it needs 64 hex digits";
    KeyDigit, 12, "{key} has a character that is no hex digit; it needs 64 hex digits";
    Ssid, 12, "{key} is {found}; it must be 2 to 64 hex digits, two for each byte of the network name";
    Passphrase, 12, "{key} has {found}; it needs 8 to 63";
    NetworkName, 12, "{key} has {found}; it needs 1 to 32";
    Text, 12, "{key} has {found}; it needs 1 to 253";
    Type, 12, "{key} is {found}; it must be wifi or ethernet";
    Ipv6, 12, "{key} is {found}; it must be off, auto, or an IPv6 address with its length and perhaps a gateway, such as 2001:db8::14/64/2001:db8::1";
    Ipv6Address, 12, "{key} is {found}; it must be an IPv6 address, perhaps with its length, such as 2001:db8::14/64";
    Ipv6Gateway, 12, "{key} is {found}; it must be an IPv6 address such as 2001:db8::1";
    Ipv4ForIpv6, 12, "{key} is an IPv4 address, which belongs to {allowed}; it must be an IPv6 address such as 2001:db8::14";
    Ipv6FewParts, 12, "{key} has {found}; it needs 8 with colons between, or fewer and one :: for those that are zero";
    Ipv6ManyParts, 12, "{key} has more than 8 parts; it needs 8 with colons between";
    Ipv6LongPart, 12, "{key} has a part of {found}; a part has 1 to 4";
    Ipv6Byte, 12, "{key} has {found} in it; its parts have only 0 to 9 and a to f";
    Ipv6Blank, 12, "{key} has {found} in it; no blanks may stand there";
    Ipv6Zone, 12, "{key} has a % and an interface behind it; it must stand without them";
    Ipv6Bracket, 12, "{key} has a bracket in it; it must stand without brackets";
    Ipv6ColonFirst, 12, "{key} begins with one colon; it must begin with a part or with ::";
    Ipv6ColonLast, 12, "{key} ends with one colon; it must end with a part or with ::";
    Ipv6Colons, 12, "{key} has {found} in a row; between parts stands one colon, or once :: for those that are zero";
    Ipv6GapTwice, 12, "{key} has :: twice; it may stand once, for the parts that are zero";
    Ipv6GapOfNone, 12, "{key} has :: beside all 8 parts; it must stand for one part or more that is zero";
    Ipv6DottedEarly, 12, "{key} has a dot before its last part; only the end may be an IPv4 address, as in 64:ff9b::10.20.0.14";
    Ipv6DottedCount, 12, "{key} ends in {found} with dots; the IPv4 address at its end needs four";
    Ipv6DottedNumber, 12, "{key} ends in an IPv4 address whose {which} number is {found}; it must be 0 to 255 without a leading zero";
    Ipv6Length, 12, "The length in {key} is {found}; it must be a number from 1 to 128 without a leading zero";
    Ipv6WithoutLength, 12, "{key} has no length; ConnMan needs one behind the address, such as 2001:db8::14/64";
    Ipv6AddressForLength, 12, "{key} has an address where its length should stand; ConnMan needs the length, as in 2001:db8::14/64/2001:db8::1";
    Ipv6BehindLength, 12, "{key} has something else than a length behind it; a gateway stands on a line of its own, such as Gateway=2001:db8::1";
    Ipv6BehindGateway, 12, "{key} has a / behind it; a gateway stands alone, without a length";
    Privacy, 12, "{key} is {found}; it must be disabled, enabled or preferred";
    Security, 12, "{key} is {found}; it must be psk, ieee8021x, none or wep";

    AnyManyServices, 13, "There is a ninth service; a file has at most 8";
    ManyServices, 13, "[{group}] is the ninth service; a file has at most 8";

    AnyMissing, 14, "Something that is needed is missing; see the rules of the file's kind";
    ServiceWithoutType, 14, "[{group}] has no Type; it needs Type = wifi or Type = ethernet";
    WifiWithoutName, 14, "[{group}] has neither Name nor SSID; wifi needs one of them";
    PskWithoutPassphrase, 14, "[{group}] has Security = psk and no Passphrase; psk needs one";
    PskFileWithoutKey, 14, "The file has neither Passphrase nor PreSharedKey; a .psk file needs one of them";
    AddressWithoutGateway, 14, "[{group}] has Address on line {first} and no Gateway; an Address needs one";
    GatewayWithoutAddress, 14, "[{group}] has Gateway on line {first} and no Address; a Gateway needs one";
    NetmaskWithoutAddress, 14, "[{group}] has Netmask on line {first} and no Address; a Netmask needs one";
    BroadcastWithoutAddress, 14, "[{group}] has Broadcast on line {first} and no Address; a Broadcast needs one";

    AnyContradiction, 15, "Two settings contradict each other; only one of them can stand";
    EthernetWithName, 15, "[{group}] is ethernet and has Name on line {first}; only wifi takes a Name";
    EthernetWithSsid, 15, "[{group}] is ethernet and has SSID on line {first}; only wifi takes an SSID";
    EthernetWithPassphrase, 15, "[{group}] is ethernet and has Passphrase on line {first}; only wifi takes a Passphrase";
    EthernetWithSecurity, 15, "[{group}] is ethernet and has Security on line {first}; only wifi takes Security";
    EthernetWithHidden, 15, "[{group}] is ethernet and has Hidden on line {first}; only wifi takes Hidden";
    NoneWithPassphrase, 15, "[{group}] has Security = none and a Passphrase on line {first}; only one of them can stand";
    OpenFileWithPassphrase, 15, "Passphrase stands on line {first}; an .open file has no key, and a network with one needs a .psk file";
    OpenFileWithKey, 15, "PreSharedKey stands on line {first}; an .open file has no key, and a network with one needs a .psk file";
    DisabledWithAddress, 15, "[{group}] has Enabled={found} on line {first} and Address on line {second}; only one of them can stand";

    AnyNoPlace, 16, "iwd has no place for the service; a line of it cannot be moved";
    NoPlaceForEthernet, 16, "[{group}] is ethernet, which has no place in iwd; only wifi moves";
    NoPlaceForWep, 16, "[{group}] has Security = wep, which has no place in iwd; only psk and none move";
    NoPlaceForLogin, 16, "[{group}] has Security = ieee8021x, which has no place in iwd; only psk and none move";
    NoPlaceForIpv4Off, 16, "[{group}] has IPv4 = off, which has no place in iwd; dhcp and an address with a gateway move";
    NoPlaceWithoutGateway, 16, "[{group}] has an IPv4 address without a gateway, which has no place in iwd; an address with a gateway moves";
    NoPlaceWithoutIpv6Gateway, 16, "[{group}] has an IPv6 address without a gateway, which has no place in iwd; an address with a gateway moves";
    NoPlaceForMac, 16, "[{group}] has MAC, which picks an interface and has no place in iwd; a service without it moves";
    NoPlaceForPrivacy, 16, "[{group}] has IPv6.Privacy, which has no place in iwd; a service without it moves";
    NoPlaceForSearchDomains, 16, "[{group}] has SearchDomains, which has no place in iwd; a service without it moves";
    NoPlaceForTimeservers, 16, "[{group}] has Timeservers, which has no place in iwd; a service without it moves";

    AnyShortBuffer, 17, "A buffer is too short for what must be written; 70 bytes for the name and 944 for the file are always enough";

    AnyNoService, 18, "There is no service with this number; services count from 1";
    NoService, 18, "There is no service {found}; the file has {allowed}";

    AnyMalformed, 19, "The record is malformed; a name has 1 to 32 bytes and a passphrase 8 to 63";
}

/// The sentence for a refusal's number where nothing more is known.
pub fn general(number: u8) -> Message {
    let row = TABLE.iter().find(|(_, of, text)| *of == number && !text.contains('{'));
    row.map_or(Message::AnyLine, |(message, _, _)| *message)
}

impl Message {
    /// The number of the refusal that the sentence is for.
    pub fn number(self) -> u8 {
        self.row().1
    }

    fn row(self) -> (Message, u8, &'static str) {
        let row = TABLE.iter().find(|(message, _, _)| *message == self);
        row.copied().unwrap_or((self, 0, ""))
    }

    /// The sentence with its words filled in, or none where one is missing.
    pub fn text(self, parts: &[(&str, String)]) -> Option<String> {
        filled(self.row().2, parts)
    }
}

/// A text with its words in braces filled in, or none where one is missing.
pub fn filled(text: &str, parts: &[(&str, String)]) -> Option<String> {
    let (mut rest, mut found) = (text, String::new());
    while let Some((front, behind)) = rest.split_once('{') {
        let (name, next) = behind.split_once('}')?;
        let (_, part) = parts.iter().find(|(of, _)| *of == name)?;
        found.push_str(front);
        found.push_str(part);
        rest = next;
    }
    found.push_str(rest);
    Some(found)
}
