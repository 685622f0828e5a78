//! What stands in the fields of records, with words for it.
use std::fmt;

/// An enum whose numbers are the sheet's, with a word for each.
macro_rules! values {
    ($(#[$about:meta])* $name:ident { $($(#[$item_about:meta])* $item:ident = $number:literal, $word:literal;)* }) => {
        $(#[$about])*
        #[derive(Clone, Copy, Debug, PartialEq, Eq, PartialOrd, Ord, Hash)]
        pub enum $name {
            $(#[doc = concat!("In words `", $word, "`.")] $(#[$item_about])* $item = $number,)*
        }

        impl $name {
            /// All of them, by rising number.
            pub const ALL: &[$name] = &[$($name::$item),*];

            /// The one of a number; none where the sheet has no such number.
            pub const fn from_number(number: u8) -> Option<$name> {
                match number {
                    $($number => Some($name::$item),)*
                    _ => None,
                }
            }

            /// Its number in the sheet.
            pub const fn number(self) -> u8 {
                self as u8
            }

            /// What musicians call it.
            pub const fn words(self) -> &'static str {
                match self {
                    $($name::$item => $word,)*
                }
            }
        }

        impl fmt::Display for $name {
            fn fmt(&self, f: &mut fmt::Formatter) -> fmt::Result {
                f.pad(self.words())
            }
        }
    };
}

values! {
    /// The written value of a note or a rest.
    ///
    /// ```
    /// use ruevault::Value;
    /// assert_eq!(Value::from_number(4), Some(Value::Quarter));
    /// assert_eq!(Value::Sixteenth.to_string(), "sixteenth");
    /// ```
    Value {
        Longa = 0, "longa";
        Breve = 1, "breve";
        Whole = 2, "whole";
        Half = 3, "half";
        Quarter = 4, "quarter";
        Eighth = 5, "eighth";
        Sixteenth = 6, "sixteenth";
        ThirtySecond = 7, "32nd";
        SixtyFourth = 8, "64th";
        HundredTwentyEighth = 9, "128th";
    }
}

values! {
    /// Where a note stands under a beam.
    Beam {
        Begin = 1, "beam begin";
        Continue = 2, "beam";
        End = 3, "beam end";
    }
}

values! {
    /// A mark of articulation.
    Articulation {
        Staccato = 0, "staccato";
        Accent = 1, "accent";
        Tenuto = 2, "tenuto";
        Fermata = 3, "fermata";
        Trill = 4, "trill";
    }
}

values! {
    /// A barline, on one side of a bar.
    Barline {
        Normal = 0, "normal";
        Double = 1, "double";
        Final = 2, "final";
        RepeatStart = 3, "repeat start";
        RepeatEnd = 4, "repeat end";
        Invisible = 8, "invisible";
    }
}

values! {
    /// A clef.
    Clef {
        Treble = 1, "treble clef (G2)";
        TrebleDown = 2, "treble clef, octave down (Gv2)";
        TrebleUp = 3, "treble clef, octave up (G^2)";
        Bass = 4, "bass clef (F4)";
        BassDown = 5, "bass clef, octave down (Fv4)";
        Soprano = 6, "soprano clef (C1)";
        MezzoSoprano = 7, "mezzo-soprano clef (C2)";
        Alto = 8, "alto clef (C3)";
        Tenor = 9, "tenor clef (C4)";
        Baritone = 10, "baritone clef (C5)";
        Percussion = 11, "percussion clef (X)";
    }
}

values! {
    /// The sign that stands for a meter.
    Sign {
        Common = 1, "common sign";
        Cut = 2, "cut sign";
    }
}

values! {
    /// The mode of a key.
    Mode {
        Major = 0, "major";
        Minor = 1, "minor";
    }
}

/// The major keys by rising fifths from C flat; the minor key of as many fifths stands three later.
const KEYS: [&str; 18] = [
    "C-flat", "G-flat", "D-flat", "A-flat", "E-flat", "B-flat", "F", "C", "G", "D", "A", "E", "B", "F-sharp", "C-sharp", "G-sharp", "D-sharp", "A-sharp",
];

/// A key, by its signature and its mode.
///
/// ```
/// use ruevault::{Key, Mode};
/// assert_eq!(Key { fifths: -2, mode: Mode::Minor }.to_string(), "G minor (2 flats)");
/// assert_eq!(Key { fifths: 0, mode: Mode::Major }.to_string(), "C major");
/// ```
#[derive(Clone, Copy, Debug, PartialEq, Eq)]
pub struct Key {
    /// Sharps above 0, flats below.
    pub fifths: i8,
    /// Major or minor.
    pub mode: Mode,
}

impl fmt::Display for Key {
    fn fmt(&self, f: &mut fmt::Formatter) -> fmt::Result {
        let at = i16::from(self.fifths) + if self.mode == Mode::Minor { 10 } else { 7 };
        let tonic = usize::try_from(at).ok().and_then(|at| KEYS.get(at)).unwrap_or(&"unknown");
        let sign = if self.fifths < 0 { "flat" } else { "sharp" };
        write!(f, "{tonic} {}", self.mode)?;
        match self.fifths.unsigned_abs() {
            0 => Ok(()),
            1 => write!(f, " (1 {sign})"),
            n => write!(f, " ({n} {sign}s)"),
        }
    }
}

/// A meter, as `6/8`.
#[derive(Clone, Copy, Debug, PartialEq, Eq)]
pub struct Meter {
    /// Above the line, never 0.
    pub numerator: u8,
    /// Below the line.
    pub denominator: u8,
}

impl fmt::Display for Meter {
    fn fmt(&self, f: &mut fmt::Formatter) -> fmt::Result {
        write!(f, "{}/{}", self.numerator, self.denominator)
    }
}

/// A pitch as it is written.
///
/// ```
/// use ruevault::Pitch;
/// assert_eq!(Pitch { step: 6, octave: 3, alter: -1 }.to_string(), "B-flat 3");
/// assert_eq!(Pitch { step: 0, octave: 4, alter: 0 }.to_string(), "C4");
/// ```
#[derive(Clone, Copy, Debug, PartialEq, Eq)]
pub struct Pitch {
    /// C 0 to B 6.
    pub step: u8,
    /// Middle C begins octave 4.
    pub octave: u8,
    /// 1 sharp, -1 flat.
    pub alter: i8,
}

impl Pitch {
    /// The step's letter, `C` to `B`.
    pub fn letter(&self) -> char {
        char::from(*b"CDEFGAB".get(self.step as usize).unwrap_or(&b'?'))
    }
}

impl fmt::Display for Pitch {
    fn fmt(&self, f: &mut fmt::Formatter) -> fmt::Result {
        let (step, octave) = (self.letter(), self.octave);
        let sign = if self.alter > 0 { "sharp" } else { "flat" };
        match self.alter.unsigned_abs() {
            0 => write!(f, "{step}{octave}"),
            1 => write!(f, "{step}-{sign} {octave}"),
            2 => write!(f, "{step}-double-{sign} {octave}"),
            times => write!(f, "{step}-{times}-{sign}s {octave}"),
        }
    }
}
