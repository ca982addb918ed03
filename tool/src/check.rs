//! `check`: the proved verdict first; with `--explain`, what the walk through a damaged volume found.
use crate::args::Call;
use crate::failure::{Failure, Tally, DAMAGED};
use crate::human;
use crate::image::Reading;
use crate::json::Object;
use crate::output::Output;
use crate::walker::{self, Finding};
use std::path::Path;

pub fn check(call: &Call) -> Result<(), Failure> {
    let mut out = Output::new(&call.options);
    let mut codes = Vec::new();
    for word in &call.words {
        let answer = check_one(Path::new(word), call, &mut out);
        // The results of one image stand before what is said of the next.
        out.flush()?;
        let mut tally = Tally::default();
        tally.take(answer, call.options.json);
        if let Err(failure) = tally.answer() {
            codes.push(failure.code());
        }
    }
    out.end()?;
    // The worst of them: a fault of the tool above damage above all else.
    codes.into_iter().max_by_key(|&code| if code == 70 { 7 } else { code }).map_or(Ok(()), |code| Err(Failure::Told(code)))
}

/// One image: a line with the verdict, and lines with findings.
fn check_one(path: &Path, call: &Call, out: &mut Output) -> Result<(), Failure> {
    let image = Reading::open_at(path, call, out)?;
    let verdict = image.view().check();
    let number = verdict.as_ref().err().map_or(0, |refusal| refusal.number);
    if number != 0 && number != DAMAGED {
        return Err(image.refused(verdict.expect_err("it has a number"), b""));
    }
    let word = if number == 0 { "well formed" } else { "damaged" };
    let object = || Object::new().text("image", &image.name).text("verdict", word).number("number", number);
    out.either(object, || format!("{}: {word}", image.name))?;
    if call.flags.explain {
        explain(&image, number, out)?;
    }
    match verdict {
        Ok(()) => Ok(()),
        Err(_) if call.flags.explain => Err(Failure::Told(4)),
        Err(refusal) => Err(image.refused(refusal, b"")),
    }
}

/// Walks the volume, and reports what was found. The walk and the verdict must agree.
fn explain(image: &Reading, number: u32, out: &mut Output) -> Result<(), Failure> {
    let walk = walker::walk(image.bytes(), image.geometry()?);
    for finding in &walk.findings {
        out.either(|| object(&image.name, finding), || line(finding))?;
    }
    agree(&image.name, number, walk.findings.len())?;
    if number == 0 {
        let [dirs, files, devices] = walk.counts();
        let object = || Object::new().text("image", &image.name).number("directories", dirs);
        return out.either(
            || object().number("files", files).number("devices", devices),
            || {
                let [dirs, files] = [(dirs, "directory"), (files, "file")].map(|(n, one)| human::count(u64::from(n), one));
                format!("  {dirs}, {files}, {}", human::count(u64::from(devices), "device"))
            },
        );
    }
    let found = walk.findings.len() as u64;
    let object = || Object::new().text("image", &image.name).number("findings", found);
    out.either(object, || format!("  {}", human::count(found, "finding")))
}

/// A verdict of damage without a finding is a fault of the walk, and so is a finding without the verdict.
pub fn agree(name: &str, number: u32, findings: usize) -> Result<(), Failure> {
    let bug = |what: &str| Err(Failure::Bug { reason: format!("{name}: {what}") });
    match (number == DAMAGED, findings > 0) {
        (false, true) => bug("the proved check finds no damage, and the walk does"),
        (true, false) => bug("the proved check finds damage, and the walk finds none"),
        _ => Ok(()),
    }
}

fn object(image: &str, finding: &Finding) -> Object {
    let object = Object::new().text("image", image).text("rule", &format!("W{}", finding.rule)).bytes("path", &finding.path);
    object.number("block", finding.block).text("what", &finding.what)
}

fn line(finding: &Finding) -> String {
    let Finding { rule, path, block, what } = finding;
    let path = if path.is_empty() { String::new() } else { format!("{}: ", human::name(path)) };
    format!("  W{rule} block {block}: {path}{what}")
}
