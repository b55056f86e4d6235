//! Stand-in for the crate smptera-format-identifiers-rust: what descriptor/registration.rs calls.

#[derive(PartialEq, Eq, Clone, Copy, Hash)]
pub struct FormatIdentifier(pub [u8; 4]);

impl FormatIdentifier {
    pub const CUEI: FormatIdentifier = FormatIdentifier(*b"CUEI");
}

impl From<&[u8]> for FormatIdentifier {
    fn from(b: &[u8]) -> Self {
        FormatIdentifier([b[0], b[1], b[2], b[3]])
    }
}

impl std::fmt::Debug for FormatIdentifier {
    fn fmt(&self, f: &mut std::fmt::Formatter<'_>) -> std::fmt::Result {
        write!(f, "FormatIdentifier({:?})", self.0)
    }
}
