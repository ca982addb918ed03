//! Files with the traits of std::io, and refusals as its errors.
#![cfg(feature = "std")]
mod common;

use common::*;
use mfs::{Refusal, Volume, VolumeRef};
use std::io::{self, BufRead, BufReader, BufWriter, ErrorKind, Read, Seek, SeekFrom, Write};

/// The refusal that an error came from.
fn refusal_of(error: &io::Error) -> Option<Refusal> {
    error.get_ref()?.downcast_ref().copied()
}

#[test]
fn a_file_is_read_and_sought() {
    let mut image = formatted(ROOMY);
    let text: String = (0..1000).map(|line| format!("line {line}\n")).collect();
    Volume::new(&mut image, K, CODE).write_file("/log", text.as_bytes(), 1).unwrap();
    let mut file = VolumeRef::new(&image, K, CODE).file("/log").unwrap();
    assert_eq!(file.handle().size() as usize, text.len());
    let lines: Vec<String> = BufReader::new(&mut file).lines().map(Result::unwrap).collect();
    assert_eq!((lines.len(), lines[999].as_str()), (1000, "line 999"));
    assert_eq!(file.stream_position().unwrap(), text.len() as u64);
    assert_eq!(file.seek(SeekFrom::Start(5)).unwrap(), 5);
    assert_eq!(file.seek(SeekFrom::Current(-2)).unwrap(), 3);
    assert_eq!(file.seek(SeekFrom::End(-9)).unwrap(), text.len() as u64 - 9);
    let mut rest = String::new();
    assert_eq!(file.read_to_string(&mut rest).unwrap(), 9);
    assert_eq!(rest, "line 999\n");
    assert_eq!(file.into_handle().position() as usize, text.len());
}

#[test]
fn seeks_outside_the_file_are_errors() {
    let image = with_file();
    let mut file = VolumeRef::new(&image, K, CODE).file("/d/f").unwrap();
    file.seek(SeekFrom::Start(2)).unwrap();
    for from in [
        SeekFrom::Start(4),
        SeekFrom::Start(u64::from(u32::MAX) + 1),
        SeekFrom::Start(u64::MAX),
        SeekFrom::Current(-3),
        SeekFrom::Current(i64::MIN),
        SeekFrom::Current((1 << 32) - 1),
        SeekFrom::End(1),
        SeekFrom::End(i64::MAX),
        SeekFrom::End(-(1 << 32)),
    ] {
        let error = file.seek(from).unwrap_err();
        assert_eq!(error.kind(), ErrorKind::InvalidInput, "{from:?}");
        assert_eq!(refusal_of(&error), Some(Refusal::BadSeek), "{from:?}");
        assert_eq!(file.stream_position().unwrap(), 2, "{from:?}");
    }
}

#[test]
fn a_file_is_written_and_ends_behind_the_write() {
    let mut image = with_file();
    let mut volume = Volume::new(&mut image, K, CODE);
    let mut file = volume.file_mut("/d/f", 7).unwrap();
    assert_eq!(file.write(b"").unwrap(), 0);
    assert_eq!(file.write(b"0123456789").unwrap(), 10);
    file.flush().unwrap();
    file.seek(SeekFrom::Start(4)).unwrap();
    file.set_time(8);
    file.write_all(b"xy").unwrap();
    file.rewind().unwrap();
    let mut text = String::new();
    file.read_to_string(&mut text).unwrap();
    assert_eq!(text, "0123xy");
    assert_eq!(volume.info("/d/f").unwrap().time, 8);
    assert_eq!(volume.read_file("/d/f").unwrap(), b"0123xy");
    assert_eq!(volume.check(), Ok(()));
}

#[test]
fn a_buffered_writer_and_a_copy_go_through() {
    let mut image = formatted(ROOMY);
    let mut volume = Volume::new(&mut image, K, CODE);
    volume.create_file("/a", 1).unwrap();
    volume.create_file("/b", 1).unwrap();
    let bytes: Vec<u8> = (0..100_000u32).map(|at| (at % 253) as u8).collect();
    let mut writer = BufWriter::with_capacity(1 << 16, volume.file_mut("/a", 2).unwrap());
    for part in bytes.chunks(777) {
        writer.write_all(part).unwrap();
    }
    writer.flush().unwrap();
    drop(writer);
    assert!(volume.read_file("/a").unwrap() == bytes);
    assert_eq!(io::copy(&mut &bytes[..], &mut volume.file_mut("/b", 3).unwrap()).unwrap(), 100_000);
    assert!(volume.read_file("/b").unwrap() == bytes);
}

#[test]
fn a_refused_write_is_an_error_with_its_refusal() {
    let mut image = with_file();
    let mut volume = Volume::new(&mut image, K, CODE);
    let mut file = volume.file_mut("/d/f", 7).unwrap();
    let error = file.write(&vec![0; 4200 * 512]).unwrap_err();
    assert_eq!((error.kind(), refusal_of(&error)), (ErrorKind::StorageFull, Some(Refusal::NoRoom)));
    assert_eq!(error.to_string(), Refusal::NoRoom.to_string());
    let mut handle = file.into_handle();
    volume.write(&mut handle.clone(), b"abcd", 8).unwrap();
    let error = io::Error::from(volume.read(&mut handle, &mut [0; 4]).unwrap_err());
    assert_eq!((error.kind(), refusal_of(&error)), (ErrorKind::StaleNetworkFileHandle, Some(Refusal::Stale)));
}

#[test]
fn every_refusal_has_a_kind_and_stays_in_the_error() {
    let others = [Refusal::Unknown(77), Refusal::OtherVersion(2)];
    for refusal in Refusal::ALL.into_iter().chain(others) {
        let error = io::Error::from(refusal);
        assert_eq!(refusal_of(&error), Some(refusal));
        assert_eq!(error.kind() == ErrorKind::Other, matches!(refusal, Refusal::Unknown(_)), "{refusal:?}");
    }
    let kind = |refusal| io::Error::from(refusal).kind();
    assert_eq!(kind(Refusal::NotFound), ErrorKind::NotFound);
    assert_eq!(kind(Refusal::Exists), ErrorKind::AlreadyExists);
    assert_eq!(kind(Refusal::NotEmpty), ErrorKind::DirectoryNotEmpty);
    assert_eq!(kind(Refusal::TooLarge), ErrorKind::FileTooLarge);
    assert_eq!(kind(Refusal::Damaged), ErrorKind::InvalidData);
    assert_eq!(kind(Refusal::OtherVersion(2)), ErrorKind::Unsupported);
}
