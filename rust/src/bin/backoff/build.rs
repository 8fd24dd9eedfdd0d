//! `backoff build`: an array file of a list.

use crate::array_file::encode;
use crate::failure::Failure;
use crate::files;
use crate::model::Model;
use crate::progress::Progress;
use crate::subcommands::Source;
use std::io::Write;
use std::path::Path;

pub fn build(source: &Source, path: &Path, out: &mut impl Write) -> Result<(), Failure> {
    files::require_another(path, &source.path)?;
    let progress = Progress::start(false);
    let model = Model::load(source, &progress)?;
    progress.say("writing the array");
    files::write_named(path, &encode(&model.list, &model.array), out)
}
