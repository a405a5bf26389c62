//! The steps of a writer by their numbers, as `include/hazomeny.h` has them.

/// A step of a writer; its number is what the library takes.
#[derive(Clone, Copy, PartialEq, Eq)]
#[repr(u8)]
pub enum Step {
    Text = 0,
    BreakingOnlySpace = 1,
    ForceLineSeparation = 2,
    IfBlockLayout = 3,
    OpenAnchorDefinition = 4,
    OpenAnchorUse = 5,
    CloseAnchor = 6,
    OpenIndentedBlock = 7,
    OpenInlineOrIndentedBlock = 8,
    CloseBlock = 9,
    OpenFragment = 10,
    CloseFragment = 11,
    BeginJoinSpace = 12,
    BeginJoinSpaceBehind = 13,
    BeginJoinCommaSep = 14,
    BeginJoinCommaSepBehind = 15,
    NextEntry = 16,
    EndJoinSpace = 17,
    EndJoinCommaSep = 18,
    Finish = 19,
}

impl Step {
    /// Whether it leaves the field that the writer stands in.
    pub fn leaves(self) -> bool {
        matches!(
            self,
            Self::CloseAnchor
                | Self::CloseBlock
                | Self::CloseFragment
                | Self::NextEntry
                | Self::EndJoinSpace
                | Self::EndJoinCommaSep
        )
    }
}
