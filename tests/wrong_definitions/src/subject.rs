//! Whose definitions are tried: those of document 01, in the crates `octets` and `model`, or those of the 26-bit readers, in the crate `wiegand`
//! above them.

#[derive(Clone, Copy, Debug, PartialEq, Eq, PartialOrd, Ord)]
pub enum Subject {
    Model,
    Wiegand,
}

/// The constants that the definitions of every subject use.
pub const NUMBERS: &str = "model/specs/Numbers.antt";

impl Subject {
    pub const ALL: [Subject; 2] = [Subject::Model, Subject::Wiegand];

    /// The subject of a file, as `model/specs/Site.antt`.
    pub fn of(file: &str) -> Subject {
        if file.starts_with("wiegand/") {
            Subject::Wiegand
        } else {
            Subject::Model
        }
    }

    /// The crate that is checked.
    pub fn name(self) -> &'static str {
        match self {
            Subject::Model => "model",
            Subject::Wiegand => "wiegand",
        }
    }

    /// The directories of its definitions.
    pub fn specs(self) -> &'static [&'static str] {
        match self {
            Subject::Model => &["octets/specs", "model/specs"],
            Subject::Wiegand => &["wiegand/specs"],
        }
    }

    /// The files of what the theorems state.
    pub fn statements(self) -> &'static [&'static str] {
        match self {
            Subject::Model => &[
                "model/specs/Part.antt",
                "model/specs/Earned.antt",
                "model/specs/Shifts.antt",
                "model/specs/InPlace.antt",
                "model/specs/Demands.antt",
            ],
            Subject::Wiegand => &["wiegand/specs/Theorems.antt"],
        }
    }

    /// The code with its structs and enums.
    pub fn code(self) -> String {
        format!("{}/src/lib.rt", self.name())
    }

    /// A module of the specs of a crate.
    pub fn module(self, of: &str, module: &str) -> String {
        format!("Rattle.{of}.specs.{module}")
    }
}

#[cfg(test)]
mod tests {
    use super::*;

    #[test]
    fn a_file_is_of_the_subject_that_has_its_directory() {
        for subject in Subject::ALL {
            for dir in subject.specs() {
                assert_eq!(Subject::of(&format!("{dir}/Any.antt")), subject);
            }
            for file in subject.statements() {
                assert_eq!(Subject::of(file), subject);
            }
        }
    }

    #[test]
    fn modules_have_one_name_within_the_crate_and_above() {
        for subject in Subject::ALL {
            let name = subject.module("model", "Numbers");
            assert_eq!(name, "Rattle.model.specs.Numbers");
        }
    }
}
