//! What happens when a file cannot be put after others were.

use super::*;
use std::env;

struct Folder(PathBuf);

impl Folder {
    fn new(name: &str) -> Folder {
        let path = env::temp_dir().join(format!("qewaris-placing-{name}-{}", std::process::id()));
        let _ = fs::remove_dir_all(&path);
        fs::create_dir(&path).unwrap();
        Folder(path)
    }

    fn staged(&self, names: &[&str]) -> Vec<Staged> {
        let one = |name: &&str| Staged {
            temporary: Temporary::holding(&self.0, format!("new {name}").as_bytes()).unwrap(),
            target: self.0.join(name),
            backup: None,
            placed: None,
        };
        names.iter().map(one).collect()
    }

    /// The names in the folder with what they hold.
    fn files(&self) -> Vec<(String, String)> {
        let entries = fs::read_dir(&self.0).unwrap().map(|entry| entry.unwrap());
        let mut files: Vec<(String, String)> = entries
            .map(|entry| {
                let name = entry.file_name().to_string_lossy().into_owned();
                (name, fs::read_to_string(entry.path()).unwrap_or_default())
            })
            .collect();
        files.sort();
        files
    }
}

impl Drop for Folder {
    fn drop(&mut self) {
        let _ = fs::remove_dir_all(&self.0);
    }
}

fn owned(files: &[(&str, &str)]) -> Vec<(String, String)> {
    files.iter().map(|(name, text)| (name.to_string(), text.to_string())).collect()
}

#[test]
fn a_file_that_appears_meanwhile_stays_and_nothing_else_does() {
    let folder = Folder::new("meanwhile");
    let mut staged = folder.staged(&["a.psk", "b.psk", "c.psk"]);
    fs::write(folder.0.join("b.psk"), "old").unwrap();
    let failure = put_all(&folder.0, &mut staged, false).unwrap_err();
    assert!(matches!(failure, Failure::InTheWay(there) if there == [folder.0.join("b.psk")]));
    drop(staged);
    assert_eq!(folder.files(), owned(&[("b.psk", "old")]));
}

#[test]
fn what_was_replaced_comes_back() {
    let folder = Folder::new("back");
    fs::write(folder.0.join("a.psk"), "old a").unwrap();
    fs::create_dir(folder.0.join("c.psk")).unwrap();
    let mut staged = folder.staged(&["a.psk", "b.psk", "c.psk"]);
    let failure = put_all(&folder.0, &mut staged, true).unwrap_err();
    assert!(matches!(failure, Failure::NotWritten(_)));
    drop(staged);
    assert_eq!(folder.files(), owned(&[("a.psk", "old a"), ("c.psk", "")]));
}

#[test]
fn two_names_of_one_file_are_noticed() {
    let folder = Folder::new("case");
    let mut staged = folder.staged(&["a.psk", "A.psk"]);
    // A file system that does not tell them apart: the second name leads to the first file.
    staged[0].put(&folder.0, true).unwrap();
    fs::hard_link(folder.0.join("a.psk"), folder.0.join("A.psk")).unwrap();
    assert!(meets(&staged[..1], &staged[1].target));
    assert!(!meets(&staged[..1], &folder.0.join("b.psk")));
}

#[test]
fn all_are_placed_and_nothing_is_left_beside() {
    let folder = Folder::new("all");
    fs::write(folder.0.join("a.psk"), "old a").unwrap();
    let mut staged = folder.staged(&["a.psk", "b.psk"]);
    assert!(put_all(&folder.0, &mut staged, true).is_ok());
    drop(staged);
    assert_eq!(folder.files(), owned(&[("a.psk", "new a.psk"), ("b.psk", "new b.psk")]));
}

#[test]
fn what_cannot_be_taken_back_is_named() {
    let folder = Folder::new("left");
    let mut staged = folder.staged(&["a.psk", "b.psk"]);
    fs::create_dir(folder.0.join("b.psk")).unwrap();
    staged[0].put(&folder.0, true).unwrap();
    fs::remove_file(folder.0.join("a.psk")).unwrap();
    assert_eq!(staged[0].take_back(), Some(shown_path(&folder.0.join("a.psk"))));
    let error = io::Error::from(io::ErrorKind::PermissionDenied);
    let failure = failure(Path::new("b.psk"), &error, true, &["a.psk".to_string()]);
    let told = "b.psk cannot be written: you have no permission for it; these were written and could not be taken back: a.psk";
    assert!(matches!(failure, Failure::LeftBehind(sentence) if sentence == told));
}
