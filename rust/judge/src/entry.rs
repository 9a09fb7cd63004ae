//! The fifteen entry points of the C boundary, and which numbers each can answer.

/// An entry point.
#[derive(Clone, Copy, Debug, PartialEq, Eq)]
pub enum Entry {
    CheckIwd,
    CheckConnman,
    IwdSettings,
    ServiceSettings,
    IwdPassphrase,
    IwdDomainName,
    GlobalName,
    GlobalDescription,
    ServiceName,
    ServicePassphrase,
    ServiceDomain,
    IwdRecord,
    ServiceRecord,
    WriteIwd,
    MoveService,
}

/// All of them, in the header's order.
pub const ENTRIES: [Entry; 15] = [
    Entry::CheckIwd,
    Entry::CheckConnman,
    Entry::IwdSettings,
    Entry::ServiceSettings,
    Entry::IwdPassphrase,
    Entry::IwdDomainName,
    Entry::GlobalName,
    Entry::GlobalDescription,
    Entry::ServiceName,
    Entry::ServicePassphrase,
    Entry::ServiceDomain,
    Entry::IwdRecord,
    Entry::ServiceRecord,
    Entry::WriteIwd,
    Entry::MoveService,
];

impl Entry {
    /// The function's name in the header.
    pub fn name(self) -> &'static str {
        match self {
            Entry::CheckIwd => "qewaris_check_iwd",
            Entry::CheckConnman => "qewaris_check_connman",
            Entry::IwdSettings => "qewaris_iwd_settings_of",
            Entry::ServiceSettings => "qewaris_service_settings_of",
            Entry::IwdPassphrase => "qewaris_iwd_passphrase",
            Entry::IwdDomainName => "qewaris_iwd_domain_name",
            Entry::GlobalName => "qewaris_global_name",
            Entry::GlobalDescription => "qewaris_global_description",
            Entry::ServiceName => "qewaris_service_name",
            Entry::ServicePassphrase => "qewaris_service_passphrase",
            Entry::ServiceDomain => "qewaris_service_domain",
            Entry::IwdRecord => "qewaris_iwd_record",
            Entry::ServiceRecord => "qewaris_service_record",
            Entry::WriteIwd => "qewaris_write_iwd",
            Entry::MoveService => "qewaris_move_service",
        }
    }

    /// Whether some input is answered with this number, by document 01. iwd has no ninth service and ConnMan no extension; the
    /// two settings of `global` are asked for without a service number; 16 is the record's and the move's, 17 the writer's and
    /// the move's, 19 the writer's.
    pub fn can_answer(self, number: usize) -> bool {
        match self {
            Entry::CheckIwd | Entry::IwdSettings | Entry::IwdPassphrase | Entry::IwdDomainName | Entry::IwdRecord => {
                matches!(number, 0..=12 | 14 | 15)
            }
            Entry::CheckConnman | Entry::GlobalName | Entry::GlobalDescription => matches!(number, 0..=3 | 5..=15),
            Entry::ServiceSettings | Entry::ServiceName | Entry::ServicePassphrase | Entry::ServiceDomain => {
                matches!(number, 0..=3 | 5..=15 | 18)
            }
            Entry::ServiceRecord => matches!(number, 0..=3 | 5..=16 | 18),
            Entry::MoveService => matches!(number, 0..=3 | 5..=18),
            Entry::WriteIwd => matches!(number, 0 | 16 | 17 | 19),
        }
    }
}

#[cfg(test)]
mod tests {
    use super::ENTRIES;

    #[test]
    fn entries_stand_in_their_own_order() {
        assert!(ENTRIES.iter().enumerate().all(|(place, &entry)| entry as usize == place));
    }
}
