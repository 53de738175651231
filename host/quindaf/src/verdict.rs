//! Verdicts on lines, and the words that the library writes them as.

/// Why a line is refused: L1 to L9.
#[derive(Clone, Copy, Debug, PartialEq, Eq, Hash)]
pub enum Refusal {
    /// L1: the type is not listed or belongs to the other side.
    Type = 1,
    /// L2: the exit moment is not real, or a number is not digits.
    Form = 2,
    /// L3: the exit actor is not the sender.
    Actor = 3,
    /// L4: tariff class, emission or fuel is not listed.
    Vehicle = 4,
    /// L5: a plate or its nation is out of form.
    Plate = 5,
    /// L6: an earlier line of the DEB file has the same columns.
    Repeated = 6,
    /// L7: no period covers the debit.
    Uncovered = 7,
    /// L8: no separate open debit agrees with the credit.
    NoDebit = 8,
    /// L9: a station table is lent, and has not the line's actor, station and lane.
    Station = 9,
}

impl Refusal {
    const ALL: [Refusal; 9] = [
        Refusal::Type,
        Refusal::Form,
        Refusal::Actor,
        Refusal::Vehicle,
        Refusal::Plate,
        Refusal::Repeated,
        Refusal::Uncovered,
        Refusal::NoDebit,
        Refusal::Station,
    ];

    /// The number in the house rules, 1 to 9.
    pub fn number(self) -> usize {
        self as usize
    }
}

/// The verdict on a line; what an acceptance carries counts from 1.
#[derive(Clone, Copy, Debug, PartialEq, Eq, Hash)]
pub enum Verdict {
    /// A debit, accepted by the first period in book order that covers it.
    Covered {
        /// The agreement, 1 to 1,000.
        agreement: usize,
        /// Its period, 1 to 64.
        period: usize,
    },
    /// A credit, accepted by the open debit that it took.
    Credited {
        /// The debit, 1 to 9,999.
        debit: usize,
    },
    /// Refused.
    Refused(Refusal),
}

impl Verdict {
    /// The verdict that a word of the library stands for:
    /// number + 256·a + 16777216·b.
    ///
    /// ```
    /// use quindaf::{Refusal, Verdict};
    ///
    /// let covered = Verdict::Covered { agreement: 3, period: 2 };
    /// assert_eq!(Verdict::of_word(3 * 256 + 2 * 16777216), Some(covered));
    /// assert_eq!(Verdict::of_word(9 * 256), Some(Verdict::Credited { debit: 9 }));
    /// assert_eq!(Verdict::of_word(7), Some(Verdict::Refused(Refusal::Uncovered)));
    /// assert_eq!(Verdict::of_word(9), Some(Verdict::Refused(Refusal::Station)));
    /// assert_eq!(Verdict::of_word(10), None);
    /// ```
    pub fn of_word(word: u64) -> Option<Verdict> {
        let number = (word % 256) as usize;
        let a = (word / 256 % 65_536) as usize;
        let b = (word / 16_777_216) as usize;
        match (number, a, b) {
            (0, 0, _) => None,
            (0, debit, 0) => Some(Verdict::Credited { debit }),
            (0, agreement, period) => Some(Verdict::Covered { agreement, period }),
            (1..=9, 0, 0) => Some(Verdict::Refused(Refusal::ALL[number - 1])),
            _ => None,
        }
    }

    /// Why the line is refused, if it is.
    pub fn refusal(self) -> Option<Refusal> {
        match self {
            Verdict::Refused(refusal) => Some(refusal),
            Verdict::Covered { .. } | Verdict::Credited { .. } => None,
        }
    }

    /// Whether the line is accepted.
    pub fn is_acceptance(self) -> bool {
        self.refusal().is_none()
    }
}
