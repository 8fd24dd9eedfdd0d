//! A model's file: its bytes, and the ARPA text that is read from them.

use crate::array_file::is_array_file;
use crate::failure::Failure;
use crate::files;
use crate::put_in_form::put_in_form;
use crate::subcommands::Source;

pub struct ModelFile {
    pub bytes: Vec<u8>,
    /// Where that is asked for, the text put in form.
    in_form: Option<Vec<u8>>,
}

impl ModelFile {
    /// Reads the file, and tells standard error what was changed to put it in form.
    pub fn read(source: &Source) -> Result<ModelFile, Failure> {
        let bytes = files::read(&source.path)?;
        let in_form = (source.in_form && !is_array_file(&bytes)).then(|| put_in_form(&bytes));
        if let Some(in_form) = &in_form {
            in_form.changes.tell(&source.path);
        }
        Ok(ModelFile { bytes, in_form: in_form.map(|in_form| in_form.text) })
    }

    pub fn is_array_file(&self) -> bool {
        is_array_file(&self.bytes)
    }

    /// The text, if it is no array file; its lines have the numbers that they have in the file.
    pub fn text(&self) -> &[u8] {
        self.in_form.as_ref().unwrap_or(&self.bytes)
    }
}
