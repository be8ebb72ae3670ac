//! The classes of differences, by the names that docs/DIFFERENCES.md lists them under.

/// One way in which the given Rust differs from document 01.
#[derive(Clone, Copy, PartialEq, Eq, PartialOrd, Ord, Hash, Debug)]
pub enum Class {
    ZeroForms,
    LiteralMoved,
    MovedBelowZero,
    MinusLiteral,
    AbovePositive,
    BelowNegative,
    TrueFalse,
    NotNaturalNotZero,
    OtherValue,
    OtherOrigin,
    JoinUnlike,
    Limits,
}

impl Class {
    pub const ALL: [Class; 12] = [
        Class::ZeroForms,
        Class::LiteralMoved,
        Class::MovedBelowZero,
        Class::MinusLiteral,
        Class::AbovePositive,
        Class::BelowNegative,
        Class::TrueFalse,
        Class::NotNaturalNotZero,
        Class::OtherValue,
        Class::OtherOrigin,
        Class::JoinUnlike,
        Class::Limits,
    ];

    /// The first eight are a change of the lists of keys; the others are effects or other rules.
    pub const OF_KEYS: &'static [Class] = Class::ALL.split_at(8).0;

    pub fn name(self) -> &'static str {
        match self {
            Class::ZeroForms => "D-ZERO-FORMS",
            Class::LiteralMoved => "D-LITERAL-MOVED",
            Class::MovedBelowZero => "D-MOVED-BELOW-ZERO",
            Class::MinusLiteral => "D-MINUS-LITERAL",
            Class::AbovePositive => "D-ABOVE-POSITIVE",
            Class::BelowNegative => "D-BELOW-NEGATIVE",
            Class::TrueFalse => "D-TRUE-FALSE",
            Class::NotNaturalNotZero => "D-NOT-NATURAL-NOT-ZERO",
            Class::OtherValue => "D-OTHER-VALUE",
            Class::OtherOrigin => "D-OTHER-ORIGIN",
            Class::JoinUnlike => "D-JOIN-UNLIKE",
            Class::Limits => "D-LIMITS",
        }
    }
}

/// The classes of keys that are in force: none is document 01, all are the given Rust.
#[derive(Clone, Copy, PartialEq, Eq, Debug)]
pub struct Switches(u8);

impl Switches {
    pub const NONE: Switches = Switches(0);
    pub const ALL: Switches = Switches(255);

    fn bit(class: Class) -> u8 {
        let index = Class::OF_KEYS.iter().position(|of_keys| *of_keys == class);
        1 << index.expect("a class of keys")
    }

    pub fn has(self, class: Class) -> bool {
        self.0 & Switches::bit(class) != 0
    }

    pub fn without(self, class: Class) -> Switches {
        Switches(self.0 & !Switches::bit(class))
    }

    pub fn classes(self) -> Vec<Class> {
        Class::OF_KEYS.iter().copied().filter(|class| self.has(*class)).collect()
    }
}
