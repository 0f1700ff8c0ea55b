//! What the threads do, over and over.

#[derive(Clone, Copy, Debug, PartialEq, Eq)]
pub enum Workload {
    /// A key is held and released.
    Get,
    /// As `Get`, and the hold is a guard, which releases it as it goes out of scope.
    GetGuard,
    /// A key is held, its value read, and released: `tool_bench` reads a value by what the call answers.
    Read,
    /// As `Read`, and `tool_bench` reads into one value of the caller's, which is the same in all reads.
    ReadInto,
    /// As `Read`, and `tool_bench` holds and reads by a guard.
    ReadGuard,
    /// As `ReadInto`, and `tool_bench` and the model read without a hold.
    Look,
    /// As `Look`, and ours is the library's call from C.
    LoadFromC,
    /// As `Look`, and ours is the library's call from Rust.
    LoadFromRust,
    Insert,
    /// Values are inserted, and none is removed.
    Fill,
    Remove,
    Churn,
    Hand,
    Adopt,
    Leave,
    /// A pass gives a receipt and heeds it, which the library alone has.
    Heed,
}

const WORKLOADS: [Workload; 16] = [
    Workload::Get,
    Workload::GetGuard,
    Workload::Read,
    Workload::ReadInto,
    Workload::ReadGuard,
    Workload::Look,
    Workload::LoadFromC,
    Workload::LoadFromRust,
    Workload::Insert,
    Workload::Fill,
    Workload::Remove,
    Workload::Churn,
    Workload::Hand,
    Workload::Adopt,
    Workload::Leave,
    Workload::Heed,
];

impl Workload {
    /// The one with this name.
    pub fn of_name(name: &str) -> Option<Self> {
        WORKLOADS.into_iter().find(|workload| workload.name() == name)
    }

    /// Its name, the first argument of `tool_bench` or of a turn. A workload that is added there is added here by the same
    /// name. Its other arguments are the options of `Row::arguments`.
    pub fn name(self) -> &'static str {
        match self {
            Workload::Get => "get",
            Workload::GetGuard => "get-guard",
            Workload::Read => "read",
            Workload::ReadInto => "read-into",
            Workload::ReadGuard => "read-guard",
            Workload::Look => "look",
            Workload::LoadFromC => "load-from-c",
            Workload::LoadFromRust => "load-from-rust",
            Workload::Insert => "insert",
            Workload::Fill => "fill",
            Workload::Remove => "remove",
            Workload::Churn => "churn",
            Workload::Hand => "hand",
            Workload::Adopt => "adopt",
            Workload::Leave => "leave",
            Workload::Heed => "heed",
        }
    }

    /// The first words of `through`, if ours is a call of the library.
    pub fn through(self) -> Option<[&'static str; 2]> {
        match self {
            Workload::LoadFromC => Some(["c", "load"]),
            Workload::LoadFromRust => Some(["rust", "load"]),
            _ => None,
        }
    }

    /// Whether the library reads without a hold.
    pub fn looks(self) -> bool {
        self == Workload::Look || self.through().is_some()
    }

    /// Whether values are inserted while the time is taken.
    pub fn inserts(self) -> bool {
        matches!(self, Workload::Insert | Workload::Fill | Workload::Churn | Workload::Hand)
    }

    /// Whether a shard changes hands, which of the rivals the model alone has.
    pub fn changes_hands(self) -> bool {
        matches!(self, Workload::Adopt | Workload::Leave)
    }
}
