//! `backoff dump`: the list of an array file as an ARPA text.

use crate::arpa_file::print;
use crate::array_file::decode;
use crate::failure::Failure;
use crate::files;
use crate::refusal;
use std::io::Write;
use std::path::Path;

pub fn dump(path: &Path, out: &mut impl Write) -> Result<(), Failure> {
    let bytes = files::read(path)?;
    let (list, _) = decode(&bytes).map_err(|wrong| Failure::file(path, refusal::of_array_file(&wrong)))?;
    out.write_all(&print(&list)).map_err(Failure::output)
}
