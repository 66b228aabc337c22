//! What a trace leaves in files: the saved state, and the memory.

use super::machine::Machine;
use crate::args::Words;
use crate::trouble::Trouble;
use std::fs;
use std::path::PathBuf;

pub struct Files {
    pub state: Option<PathBuf>,
    pub memory: Option<PathBuf>,
}

impl Files {
    /// `--save` and `--memory-out`. A saved state whose memory is lost is of no use, so it is not written without it.
    pub fn read(words: &Words) -> Result<Files, Trouble> {
        let path = |name| Ok::<_, Trouble>(words.one(name)?.map(PathBuf::from));
        let files = Files { state: path("--save")?, memory: path("--memory-out")? };
        match (&files.state, &files.memory) {
            (Some(_), None) => {
                Err(Trouble::Usage("--save wants --memory-out too: to go on, the memory is needed as well".into()))
            }
            (Some(state), Some(memory)) if state == memory => {
                Err(Trouble::Usage(format!("--save and --memory-out are two files, and not both {}", state.display())))
            }
            _ => Ok(files),
        }
    }

    /// The memory goes first: if it cannot be written, no saved state is left that wants it.
    pub fn write(&self, machine: &Machine) -> Result<(), Trouble> {
        let write = |path: &PathBuf, bytes: &[u8]| fs::write(path, bytes).map_err(|error| Trouble::File(path.clone(), error));
        if let Some(path) = &self.memory {
            write(path, machine.memory())?;
        }
        if let Some(path) = &self.state {
            // PC is at a start or 0, so it is never refused.
            let saved = machine.saved().map_err(|refusal| Trouble::Content(path.clone(), refusal.to_string()))?;
            write(path, saved.as_ref())?;
        }
        Ok(())
    }
}
