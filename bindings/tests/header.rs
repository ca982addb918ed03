//! The headers in include/ and this crate say the same: refusals with their numbers and words, limits, the version of
//! the exports, and the exports with their parameters.
use mfs::Refusal;
use std::collections::BTreeMap;

/// The exports, their limits and refusals.
const EXPORTS: &str = include_str!("../../include/mfs_c.h");
/// The layer over them.
const LAYER: &str = include_str!("../../include/mfs.h");
const RAW: &str = include_str!("../src/raw.rs");

/// `BadImage` is MFS_BAD_IMAGE in the header.
fn c_name(refusal: Refusal) -> String {
    let mut name = String::from("MFS");
    for letter in format!("{refusal:?}").chars() {
        if letter.is_uppercase() {
            name.push('_');
        }
        name.extend(letter.to_uppercase());
    }
    name
}

/// What stands between two words of the header, the first time.
#[track_caller]
fn between<'a>(text: &'a str, from: &str, to: &str) -> &'a str {
    let start = text.find(from).unwrap_or_else(|| panic!("{from} is not there")) + from.len();
    let len = text[start..].find(to).unwrap_or_else(|| panic!("{to} is not there"));
    &text[start..start + len]
}

#[test]
fn refusals_have_the_same_numbers() {
    let in_header: Vec<(String, u32)> = between(EXPORTS, "typedef enum mfs_refusal {", "}")
        .lines()
        .filter_map(|line| line.trim().split_once(" = "))
        .map(|(name, rest)| {
            let digits: String = rest.chars().take_while(char::is_ascii_digit).collect();
            (name.to_owned(), digits.parse().unwrap())
        })
        .collect();
    let mut expected = vec![(String::from("MFS_OK"), 0)];
    expected.extend(Refusal::ALL.map(|refusal| (c_name(refusal), refusal.number())));
    assert_eq!(in_header, expected);
}

#[test]
fn refusals_have_the_same_words() {
    let texts = between(LAYER, "switch (number) {", "default:");
    for refusal in Refusal::ALL {
        let case = between(texts, &format!("case {}:", c_name(refusal)), ";");
        assert_eq!(case.trim(), format!("return \"{refusal}\""));
    }
}

#[test]
fn numbers_lead_back_to_their_refusals() {
    // No refusal has the number 18 any more.
    for (refusal, number) in Refusal::ALL.into_iter().zip((1..).filter(|&number| number != 18)) {
        assert_eq!(refusal.number(), number);
        assert_eq!(Refusal::from_number(number), Some(refusal));
    }
    assert_eq!(Refusal::from_number(0), None);
}

#[test]
fn a_number_without_a_name_is_a_value() {
    for number in [18, 20, 256 + 1, u32::MAX] {
        let unknown = Refusal::from_number(number).unwrap();
        assert_eq!(unknown, Refusal::Unknown(number));
        assert_eq!(unknown.number(), number);
        assert_eq!(unknown.to_string(), format!("refused by number {number}, which these bindings do not know"));
        assert!(!Refusal::ALL.contains(&unknown));
    }
}

#[test]
fn the_exports_have_one_version() {
    let in_header = between(EXPORTS, "#define MFS_C_VERSION ", "\n").parse::<u32>().unwrap();
    assert_eq!(in_header, mfs::EXPORTS_VERSION);
    assert_eq!(unsafe { mfs::raw::mfs_c_version() }, in_header);
}

#[test]
fn limits_are_the_same() {
    let limit = |name: &str| between(EXPORTS, &format!("#define {name} "), " ").trim().parse::<usize>().unwrap();
    assert_eq!(limit("MFS_CODE_512"), mfs::CODE_512 as usize);
    assert_eq!(limit("MFS_CODE_1024"), mfs::CODE_1024 as usize);
    assert_eq!(limit("MFS_BLOCK_SIZE"), mfs::BLOCK_SIZE);
    assert_eq!(between(EXPORTS, "#define MFS_BLOCK_BYTES(code) ", "\n"), "(MFS_BLOCK_SIZE << (code))");
    assert_eq!(limit("MFS_IMAGE_MAX_BLOCKS"), mfs::IMAGE_BLOCKS);
    assert_eq!(limit("MFS_NAME_MAX"), mfs::NAME_LEN);
    assert_eq!(limit("MFS_PATH_MAX"), mfs::PATH_LEN);
    assert_eq!(limit("MFS_FILE_MAX"), mfs::FILE_LEN as usize);
    assert_eq!(limit("MFS_DEPTH_MAX"), mfs::DEPTH);
    assert_eq!(between(EXPORTS, "#define MFS_RECORD_HEADER ", "\n"), "14");
    assert_eq!(between(EXPORTS, "#define MFS_LIST_BYTES_MIN ", "\n"), "(MFS_RECORD_HEADER + MFS_NAME_MAX + 1)");
    assert_eq!(mfs::LIST_LEN_MIN, 14 + mfs::NAME_LEN + 1);
    assert_eq!(between(EXPORTS, "#define MFS_WORK_BYTES(image_len) ", "\n"), "(((image_len) / MFS_BLOCK_SIZE + 7) / 8)");
    for (image_len, bytes) in [(0, 0), (511, 0), (512, 1), (8 * 512, 1), (9 * 512, 2), (4200 * 512, 525), (1 << 32, 1 << 20)] {
        assert_eq!(mfs::work_len(image_len), bytes);
    }
}

/// A declaration's parameters as C writes them, one space between words.
fn c_parameters(list: &str) -> Vec<String> {
    let list = if list == "void" { "" } else { list };
    list.split_terminator(',').map(|parameter| parameter.split_whitespace().collect::<Vec<_>>().join(" ")).collect()
}

/// A parameter of raw.rs, as C writes it.
fn as_c(parameter: &str) -> String {
    let (name, kind) = parameter.split_once(": ").unwrap();
    match kind {
        "*const u8" => format!("const uint8_t *{name}"),
        "*mut u8" => format!("uint8_t *{name}"),
        "*mut u32" => format!("uint32_t *{name}"),
        "*mut u64" => format!("uint64_t *{name}"),
        "*mut usize" => format!("size_t *{name}"),
        "*mut [u32; 4]" => format!("uint32_t {name}[4]"),
        "*mut [u8; NAME_LEN]" => format!("uint8_t {name}[255]"),
        "*const [u8; NAME_LEN]" => format!("const uint8_t {name}[255]"),
        "usize" => format!("size_t {name}"),
        "u32" => format!("uint32_t {name}"),
        "u64" => format!("uint64_t {name}"),
        "i32" => format!("int32_t {name}"),
        other => panic!("{other} has no type in C here"),
    }
}

/// The exports as the library's own text has them.
#[test]
fn the_library_has_these_exports() {
    let library = include_str!("../../crates/mfs_c/src/lib.rt");
    let in_library: Vec<&str> =
        library.split("pub extern \"C\" fn ").skip(1).map(|rest| rest.split('(').next().unwrap()).collect();
    let in_raw: Vec<&str> = RAW.split("pub fn ").skip(1).map(|rest| rest.split('(').next().unwrap()).collect();
    assert_eq!(in_library, in_raw);
}

#[test]
fn exports_have_the_same_parameters() {
    let in_header: BTreeMap<&str, Vec<String>> = EXPORTS
        .split("\nuint32_t ")
        .skip(1)
        .map(|rest| (rest.split('(').next().unwrap(), c_parameters(between(rest, "(", ");"))))
        .collect();
    let in_raw: BTreeMap<&str, Vec<String>> = RAW
        .split("pub fn ")
        .skip(1)
        .map(|rest| {
            let list = between(rest, "(", ") -> u32;").trim().trim_end_matches(',');
            (rest.split('(').next().unwrap(), c_parameters(list).iter().map(|parameter| as_c(parameter)).collect())
        })
        .collect();
    assert_eq!(in_header.len(), 17);
    assert_eq!(in_header, in_raw);
}
