//! What each function of the surface answers: the structs of the crate
//! `surface`, field for field.
//!
//! `number` is 0 where nothing is refused; a field that does not apply is 0.

/// What Judge says.
#[repr(C)]
#[derive(Clone, Copy, Debug, Default, PartialEq, Eq)]
#[must_use]
pub struct Verdict {
    /// The refusal's number.
    pub number: u32,
    /// Segments of the interchange.
    pub segments: u32,
    /// Messages of the interchange.
    pub messages: u32,
    /// Groups of the interchange.
    pub groups: u32,
    /// The refusal's place.
    pub place: usize,
    /// The length of the normal form.
    pub length: usize,
    /// The component separator.
    pub component: u8,
    /// The element separator.
    pub element: u8,
    /// The decimal mark.
    pub mark: u8,
    /// The release character, a space where there is none.
    pub release: u8,
    /// The repetition separator, a space where there is none.
    pub repetition: u8,
    /// The segment terminator.
    pub terminator: u8,
}

/// What Normalise, Write, Acknowledge, Export and Import say.
#[repr(C)]
#[derive(Clone, Copy, Debug, Default, PartialEq, Eq)]
#[must_use]
pub struct Written {
    /// The refusal's number.
    pub number: u32,
    /// The refusal's place.
    pub place: usize,
    /// How many bytes were stored.
    pub length: usize,
}

/// What Compare says.
#[repr(C)]
#[derive(Clone, Copy, Debug, Default, PartialEq, Eq)]
#[must_use]
pub struct Comparison {
    /// The refusal's number.
    pub number: u32,
    /// Which input is refused, 1 or 2.
    pub input: u32,
    /// 1 where the two are the same.
    pub same: u32,
    /// The refusal's place.
    pub place: usize,
}

/// What Keep hands back: a part of one of its two inputs.
#[repr(C)]
#[derive(Clone, Copy, Debug, Default, PartialEq, Eq)]
#[must_use]
pub struct Kept {
    /// Of which input, 1 or 2.
    pub input: u32,
    /// Where it begins.
    pub offset: usize,
    /// How long it is.
    pub length: usize,
}

/// What Locate says.
#[repr(C)]
#[derive(Clone, Copy, Debug, Default, PartialEq, Eq)]
#[must_use]
pub struct Location {
    /// The refusal's number.
    pub number: u32,
    /// 1 where there is such a component.
    pub present: u32,
    /// The refusal's place.
    pub place: usize,
    /// Where the component is spelled.
    pub offset: usize,
    /// Its length as it is spelled.
    pub length: usize,
}

/// What Locate's companion hands back: a part of its input.
#[repr(C)]
#[derive(Clone, Copy, Debug, Default, PartialEq, Eq)]
#[must_use]
pub struct Part {
    /// Where it begins.
    pub offset: usize,
    /// How long it is.
    pub length: usize,
}

/// What Parties says: three parts of its input.
#[repr(C)]
#[derive(Clone, Copy, Debug, Default, PartialEq, Eq)]
#[must_use]
pub struct Parties {
    /// The refusal's number.
    pub number: u32,
    /// The refusal's place.
    pub place: usize,
    /// What spells the sender.
    pub sender: Part,
    /// What spells the recipient.
    pub recipient: Part,
    /// What spells the control reference.
    pub reference: Part,
}

/// What Read says.
#[repr(C)]
#[derive(Clone, Copy, Debug, Default, PartialEq, Eq)]
#[must_use]
pub struct Listing {
    /// The refusal's number.
    pub number: u32,
    /// The refusal's place.
    pub place: usize,
    /// How many bytes of values were stored.
    pub bytes: usize,
    /// How many numbers of the table were stored.
    pub numbers: usize,
}

/// What a shelf's Start says.
#[repr(C)]
#[derive(Clone, Copy, Debug, Default, PartialEq, Eq)]
#[must_use]
pub struct Started {
    /// The refusal's number.
    pub number: u32,
    /// The refusal's place.
    pub place: usize,
}

/// What a shelf's Put says.
#[repr(C)]
#[derive(Clone, Copy, Debug, Default, PartialEq, Eq)]
#[must_use]
pub struct Shelving {
    /// The refusal's number.
    pub number: u32,
    /// 1 where the text is new, 0 where it is the copy of one that is there.
    pub added: u32,
    /// The refusal's place.
    pub place: usize,
    /// The slot in which the text is.
    pub slot: usize,
}

/// What a shelf's Get says, and the part of the shelf that it hands back.
#[repr(C)]
#[derive(Clone, Copy, Debug, Default, PartialEq, Eq)]
#[must_use]
pub struct Got {
    /// The refusal's number.
    pub number: u32,
    /// The refusal's place.
    pub place: usize,
    /// Where the part begins.
    pub offset: usize,
    /// How long it is.
    pub length: usize,
}

/// What is read off a shelf's map.
#[repr(C)]
#[derive(Clone, Copy, Debug, Default, PartialEq, Eq)]
#[must_use]
pub struct SlotNumbers {
    /// The refusal's number.
    pub number: u32,
    /// The refusal's place.
    pub place: usize,
    /// How many slots are occupied.
    pub occupied: usize,
    /// The lowest free slot, 64 where none is free.
    pub lowest: usize,
}

/// What a shelf's two sums are.
#[repr(C)]
#[derive(Clone, Copy, Debug, Default, PartialEq, Eq)]
#[must_use]
pub struct SumNumbers {
    /// The refusal's number.
    pub number: u32,
    /// How many bytes the kept texts have together.
    pub held: u32,
    /// How many puts found their copy.
    pub duplicates: u32,
    /// The refusal's place.
    pub place: usize,
}

/// The morning figures of a mailbox file.
#[repr(C)]
#[derive(Clone, Copy, Debug, Default, PartialEq, Eq)]
#[must_use]
pub struct Morning {
    /// The refusal's number.
    pub number: u32,
    /// How many interchanges are accepted.
    pub accepted: u32,
    /// How many are refused under each number, which is the index; the one at 0 is 0.
    pub refused: [u32; 14],
    /// Segments of the accepted ones.
    pub segments: u32,
    /// Messages of the accepted ones.
    pub messages: u32,
    /// The refusal's place.
    pub place: usize,
    /// The total length of their normal forms.
    pub total: usize,
    /// The length of the longest.
    pub longest: usize,
}

/// How the first piece of a mailbox file ends.
#[repr(C)]
#[derive(Clone, Copy, Debug, Default, PartialEq, Eq)]
#[must_use]
pub struct PieceEnd {
    /// The number of the fault that stopped the cutting, 2 to 6.
    pub number: u32,
    /// 1 where a UNZ ends the piece.
    pub ended: u32,
    /// The place of that fault.
    pub place: usize,
    /// Where the piece ends.
    pub end: usize,
}
