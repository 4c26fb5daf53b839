//! A case: sheets, or frequency lists, that both sides are given.

#[derive(Clone, Copy, PartialEq, Eq)]
pub enum Section {
    Host,
    Import,
    Desk,
    HostGrowth,
    DeskGrowth,
}

impl Section {
    pub const ALL: [Section; 5] =
        [Section::Host, Section::Import, Section::Desk, Section::HostGrowth, Section::DeskGrowth];

    pub fn title(self) -> &'static str {
        match self {
            Section::Host => "the host's call",
            Section::Import => "the import of a frequency list",
            Section::Desk => "the desk program",
            Section::HostGrowth => "growth: the host's call",
            Section::DeskGrowth => "growth: the desk program",
        }
    }

    pub fn word(self) -> &'static str {
        match self {
            Section::Host => "host",
            Section::Import => "import",
            Section::Desk => "desk",
            Section::HostGrowth => "host-growth",
            Section::DeskGrowth => "desk-growth",
        }
    }

    /// Whether a call in process is timed, and not a program.
    pub fn is_call(self) -> bool {
        matches!(self, Section::Host | Section::Import | Section::HostGrowth)
    }
}

pub struct Case {
    pub section: Section,
    pub name: String,
    /// What grows, where the case is a point of a series.
    pub x: Option<usize>,
    /// One sheet for the desk program; for a call some sheets or lists of a kind, lest a branch be learned by heart.
    pub sheets: Vec<Vec<u8>>,
}

impl Case {
    pub fn desk(name: impl Into<String>, sheet: Vec<u8>) -> Self {
        Case { section: Section::Desk, name: name.into(), x: None, sheets: vec![sheet] }
    }

    pub fn host(name: impl Into<String>, sheets: Vec<Vec<u8>>) -> Self {
        Case { section: Section::Host, name: name.into(), x: None, sheets }
    }

    pub fn import(name: impl Into<String>, lists: Vec<Vec<u8>>) -> Self {
        Case { section: Section::Import, name: name.into(), x: None, sheets: lists }
    }
}
