//! The three settings of the box.

#[derive(Clone, Copy, Debug, PartialEq, Eq)]
pub struct Settings {
    pub header: usize,
    pub restricted: bool,
    pub variable: bool,
}

impl Settings {
    /// The paper: "header length 0 to 16 (usual 4)".
    pub const HEADER_LIMIT: usize = 16;
    pub const USUAL_HEADER: usize = 4;

    /// The paper: "restricted formats, usual No", which request §5 has changed: "the setting's
    /// default turns from No to Yes".
    pub const USUAL_RESTRICTED: bool = true;

    /// The paper: "variable length offset, usual No".
    pub const USUAL_VARIABLE: bool = false;

    pub fn usual() -> Settings {
        Settings {
            header: Settings::USUAL_HEADER,
            restricted: Settings::USUAL_RESTRICTED,
            variable: Settings::USUAL_VARIABLE,
        }
    }

    /// A flag of the C face is a byte: 0 is No, every other value Yes.
    pub fn of_face(header: usize, restricted: u8, variable: u8) -> Settings {
        Settings { header, restricted: restricted != 0, variable: variable != 0 }
    }
}
