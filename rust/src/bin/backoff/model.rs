//! A model: a list and its array.

use crate::arpa_file;
use crate::array::Array;
use crate::array_file;
use crate::failure::Failure;
use crate::list::List;
use crate::model_file::ModelFile;
use crate::progress::Progress;
use crate::refusal;
use crate::subcommands::Source;

pub struct Model {
    pub list: List,
    pub array: Array,
    /// The rows that filling added.
    pub added: usize,
}

/// The list of a model's file, and its array if that is what the file has.
pub struct ModelList {
    pub list: List,
    pub added: usize,
    array: Option<Array>,
}

impl ModelList {
    /// Reads an array file or an ARPA text.
    pub fn read(file: &ModelFile, source: &Source) -> Result<ModelList, Failure> {
        let told = |text: String| Failure::file(&source.path, text);
        if file.is_array_file() {
            let (list, array) = array_file::decode(&file.bytes).map_err(|wrong| told(refusal::of_array_file(&wrong)))?;
            return Ok(ModelList { list, added: 0, array: Some(array) });
        }
        let (list, added) = arpa_file::read(file.text(), source.fill).map_err(told)?;
        Ok(ModelList { list, added, array: None })
    }

    /// The model, whose array is built if the file has none.
    pub fn build(self, source: &Source) -> Result<Model, Failure> {
        let built = || Array::build(&self.list.table).map_err(|status| Failure::file(&source.path, refusal::of_build(status.number)));
        let array = self.array.map_or_else(built, Ok)?;
        Ok(Model { list: self.list, array, added: self.added })
    }
}

impl Model {
    pub fn load(source: &Source, progress: &Progress) -> Result<Model, Failure> {
        progress.say("reading the model");
        Model::of(&ModelFile::read(source)?, source, progress)
    }

    /// The model of a file that was read.
    pub fn of(file: &ModelFile, source: &Source, progress: &Progress) -> Result<Model, Failure> {
        let read = ModelList::read(file, source)?;
        progress.say("building the array");
        read.build(source)
    }
}
