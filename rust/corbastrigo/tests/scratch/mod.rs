use std::path::PathBuf;

/// A file that is gone when the test is done with it.
pub struct Scratch(pub PathBuf);

impl Scratch {
    pub fn new(name: &str, bytes: &[u8]) -> Scratch {
        let path = std::env::temp_dir().join(format!("corbastrigo-{name}-{}", std::process::id()));
        std::fs::write(&path, bytes).expect("a file can be written");
        Scratch(path)
    }
}

impl Drop for Scratch {
    fn drop(&mut self) {
        // Where the test removed it itself there is nothing to do.
        let _ = std::fs::remove_file(&self.0);
    }
}
