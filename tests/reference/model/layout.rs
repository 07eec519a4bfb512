//! Sizes and places of a sheet's words (01 "Sheet", with the head of 02, change 7), and
//! those of an old sheet, which is without that change (02, change 8). No other file has
//! these numbers.

/// Words of a sheet.
pub const LEAST_WORDS: usize = 64;
pub const MOST_WORDS: usize = 65_536;

/// Words of the sheet of the program lots (01 "Program lots").
pub const PROGRAM_WORDS: usize = 16_384;

/// Words of a record.
pub const RECORD_WORDS: usize = 4;

/// The first record after the head, and the words of the head.
pub const FIRST_RECORD: u32 = 15;
pub const HEAD: usize = FIRST_RECORD as usize * RECORD_WORDS;

// Places of words in the head.
pub const NEXT_UNUSED: usize = 0;
pub const FIRST_LOT: usize = 1;
pub const FIRST_FREE: usize = 2;
pub const K: usize = 3;
pub const STAGES: usize = 4;
/// Accepted and rejected lots, behind the last stage.
pub const CLOSED_LOTS: usize = 39;
/// Good, marginal and bad units of closed lots.
pub const CLOSED_UNITS: usize = 41;
pub const TOTALS_END: usize = 44;
/// Each office's share of records, behind the totals, up to the end of the head.
pub const SHARES: usize = TOTALS_END;
pub const OFFICES: usize = 16;
const _: () = assert!(SHARES + OFFICES == HEAD);

/// The most closed lots.
pub const MOST_CLOSED: u32 = 4_000_000;

/// The next record on a chain: the word of all records.
pub const NEXT: usize = 1;

// Words of a lot, of an inspection and of a free record.
pub const NUMBER: usize = 0;
pub const NEWEST: usize = 2;
pub const ZERO_OF_LOT: usize = 3;
pub const CLASS: usize = 0;
pub const LOT: usize = 2;
pub const SERIAL: usize = 3;
pub const DEPTH: usize = 0;
pub const ZERO_OF_FREE: usize = 2;
pub const TAG: usize = 3;

/// The tag of a free record.
pub const FREE: u32 = 4_294_967_295;

/// The place of a record's word.
pub const fn place(record: u32, word: usize) -> usize {
    record as usize * RECORD_WORDS + word
}

/// The whole records of a sheet, those of the head too.
pub const fn records(words: usize) -> usize {
    words / RECORD_WORDS
}

/// The whole records of a sheet after the head.
pub const fn records_after_head(words: usize) -> usize {
    NEW.records_after_head(words)
}

/// The words of a sheet with so many records after the head.
pub const fn room(records: usize) -> usize {
    NEW.room(records)
}

/// What the old sheets of change 8 of 02 have otherwise. All places above are the same in
/// both but those of the shares, which an old sheet doesn't have.
#[derive(Clone, Copy, Debug, PartialEq, Eq)]
pub struct Layout {
    pub least_words: usize,
    /// The first record after the head.
    pub first_record: u32,
    /// Whether the head has shares.
    pub shares: bool,
}

pub const OLD: Layout = Layout {
    least_words: 48,
    first_record: 11,
    shares: false,
};

pub const NEW: Layout = Layout {
    least_words: LEAST_WORDS,
    first_record: FIRST_RECORD,
    shares: true,
};

/// What a carry adds to the index of a record.
pub const RAISE: u32 = NEW.first_record - OLD.first_record;
const _: () = assert!(OLD.head() == TOTALS_END);

impl Default for Layout {
    fn default() -> Layout {
        NEW
    }
}

impl Layout {
    /// Whether a sheet may have so many words.
    pub fn admits(self, words: usize) -> bool {
        (self.least_words..=MOST_WORDS).contains(&words)
    }

    /// The words of the head.
    pub const fn head(self) -> usize {
        place(self.first_record, 0)
    }

    pub const fn records_after_head(self, words: usize) -> usize {
        records(words) - self.first_record as usize
    }

    pub const fn room(self, records: usize) -> usize {
        self.head() + records * RECORD_WORDS
    }
}
