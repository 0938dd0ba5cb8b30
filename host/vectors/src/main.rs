//! Writes crates/deliveries/stdin and stdout, crates/writes/stdout, and the
//! folders of samples/. A sample that was stated by hand has a folder there if
//! one of its name is there already: make an empty one to add it.

use std::path::Path;
use std::{fs, io};

fn main() -> io::Result<()> {
    let root = Path::new(env!("CARGO_MANIFEST_DIR")).join("../..");
    let stated = vectors::stated();
    let shown = stated
        .iter()
        .filter(|sample| root.join("samples").join(sample.name).is_dir());
    for sample in shown {
        let folder = root.join("samples").join(sample.name);
        fs::remove_dir_all(&folder)?;
        fs::create_dir(&folder)?;
        write(&root, vectors::folder(sample))?;
    }
    write(&root, vectors::vectors())
}

fn write(root: &Path, files: impl IntoIterator<Item = vectors::Stored>) -> io::Result<()> {
    for (path, bytes) in files {
        fs::write(root.join(path), bytes)?;
    }
    Ok(())
}
