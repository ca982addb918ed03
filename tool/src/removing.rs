//! `rm`.
use crate::args::{card_path, Call};
use crate::changing::Change;
use crate::failure::Failure;
use crate::library::Kind;
use crate::listing::join;
use crate::progress::Progress;

pub fn rm(call: &Call) -> Result<(), Failure> {
    let paths: Vec<Vec<u8>> = call.words[1..].iter().map(|word| card_path(word)).collect();
    if paths.iter().any(|path| path == b"/") {
        return Err(call.usage("the root cannot be removed: 'mfs format --force' empties a card"));
    }
    let mut change = Change::begin(call)?;
    let mut progress = Progress::new("rm", &call.options);
    for (place, path) in paths.iter().enumerate() {
        progress.at(place as u64, paths.len() as u64);
        if call.flags.recursive {
            remove_all(&mut change, path, &mut progress);
        } else {
            let answer = remove(&mut change, path);
            change.count(answer);
        }
    }
    drop(progress);
    change.end()
}

fn remove(change: &mut Change, path: &[u8]) -> Result<(), Failure> {
    let deleted = change.image.volume().delete(path);
    deleted.map_err(|refusal| change.image.refused(refusal, path))?;
    change.did("rm", path, None)
}

/// A directory's entries go before it. The check has passed, so the walk has an end.
fn remove_all(change: &mut Change, path: &[u8], progress: &mut Progress) {
    let view = change.image.view();
    let is_dir = view.info(path).is_ok_and(|entry| entry.kind == Kind::Dir);
    let inner = if is_dir { view.list(path).unwrap_or_default() } else { Vec::new() };
    for (place, entry) in inner.iter().enumerate() {
        progress.at(place as u64, inner.len() as u64);
        remove_all(change, &join(path, &entry.name), progress);
    }
    let answer = remove(change, path);
    change.count(answer);
}
