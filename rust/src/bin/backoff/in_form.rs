//! `backoff in-form`: an ARPA text in the form that the reader takes.

use crate::failure::Failure;
use crate::files;
use crate::put_in_form::put_in_form;
use crate::standard;
use std::io::Write;
use std::path::Path;

/// Without a path it is the text of standard input.
pub fn in_form(path: Option<&Path>, out: &mut impl Write) -> Result<(), Failure> {
    let path = path.unwrap_or(Path::new(standard::NAME));
    let in_form = put_in_form(&files::read(path)?);
    out.write_all(&in_form.text).and_then(|()| out.flush()).map_err(Failure::output)?;
    in_form.changes.tell(path);
    Ok(())
}
