//! Greetings that real programs sent: their hello, and the plaintext frames of their Initial packets, also with
//! retransmissions where there were any (the folder's own README.md).

use std::fs;
use std::io::Result;
use std::path::Path;

pub(crate) struct Capture {
    /// The file of the frames.
    pub(crate) name: String,
    pub(crate) frames: Vec<u8>,
    pub(crate) hello: Vec<u8>,
    /// Whether frames were sent again, so that some overlap.
    pub(crate) resent: bool,
}

pub(crate) struct Greeting {
    /// The file of the hello without what follows its first dot.
    pub(crate) name: String,
    pub(crate) hello: Vec<u8>,
    /// The hello's fields as tshark sees them, in JSON.
    pub(crate) fields: String,
}

/// Each hello in the folder with its fields, by name.
pub(crate) fn read_hellos(folder: &Path) -> Result<Vec<Greeting>> {
    let mut greetings = Vec::new();
    for entry in fs::read_dir(folder)? {
        let file = entry?.file_name().to_string_lossy().into_owned();
        let Some(name) = file.strip_suffix(".hello.bin") else {
            continue;
        };
        greetings.push(Greeting {
            name: name.to_string(),
            hello: fs::read(folder.join(&file))?,
            fields: fs::read_to_string(folder.join(format!("{name}.json")))?,
        });
    }
    greetings.sort_by(|a, b| a.name.cmp(&b.name));
    Ok(greetings)
}

/// Each list of frames in the folder with its hello, by name.
pub(crate) fn read(folder: &Path) -> Result<Vec<Capture>> {
    let mut captures = Vec::new();
    for entry in fs::read_dir(folder)? {
        let name = entry?.file_name().to_string_lossy().into_owned();
        let Some(stem) = name.strip_suffix(".frames.bin") else {
            continue;
        };
        // with ACK frames among them, which both sides refuse, and with no hello beside them
        if stem.ends_with(".withack") {
            continue;
        }
        let again = stem.strip_suffix(".retrans");
        let hello = format!("{}.hello.bin", again.unwrap_or(stem));
        captures.push(Capture {
            frames: fs::read(folder.join(&name))?,
            hello: fs::read(folder.join(hello))?,
            resent: again.is_some(),
            name,
        });
    }
    captures.sort_by(|a, b| a.name.cmp(&b.name));
    Ok(captures)
}
