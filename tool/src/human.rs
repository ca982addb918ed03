//! Sizes, times and names for people.

const UNITS: [&str; 4] = ["K", "M", "G", "T"];

/// A size as `ls -h` gives it: 507, 1.5K, 40M.
pub fn size(bytes: u64) -> String {
    if bytes < 1024 {
        return bytes.to_string();
    }
    let mut tenths = bytes * 10 / 1024;
    let mut unit = 0;
    while tenths >= 10_240 && unit + 1 < UNITS.len() {
        tenths /= 1024;
        unit += 1;
    }
    if tenths < 100 {
        format!("{}.{}{}", tenths / 10, tenths % 10, UNITS[unit])
    } else {
        format!("{}{}", tenths / 10, UNITS[unit])
    }
}

/// The last second of the year 9999: above, a card's time is a number that is no date.
const LAST_DATE: u64 = 253_402_300_799;

/// Seconds since 1970 as a date and time of day in UTC; a number that is no date in four digits as itself.
pub fn time(seconds: u64) -> String {
    if seconds > LAST_DATE {
        return seconds.to_string();
    }
    let (days, second) = (seconds / 86_400, seconds % 86_400);
    let (year, month, day) = date(days);
    format!("{year:04}-{month:02}-{day:02} {:02}:{:02}:{:02}", second / 3600, second / 60 % 60, second % 60)
}

/// Year, month and day of a day counted from 1970-01-01. Years are taken from March on, so that the odd day comes last.
fn date(days: u64) -> (u64, u64, u64) {
    let since_march_0 = days + 719_468;
    let (era, day_of_era) = (since_march_0 / 146_097, since_march_0 % 146_097);
    let year_of_era = (day_of_era - day_of_era / 1460 + day_of_era / 36_524 - day_of_era / 146_096) / 365;
    let day_of_year = day_of_era - (365 * year_of_era + year_of_era / 4 - year_of_era / 100);
    let month_from_march = (5 * day_of_year + 2) / 153;
    let day = day_of_year - (153 * month_from_march + 2) / 5 + 1;
    let month = if month_from_march < 10 { month_from_march + 3 } else { month_from_march - 9 };
    let year = era * 400 + year_of_era + u64::from(month <= 2);
    (year, month, day)
}

/// A name or path of a card: what could move a terminal's cursor, or is no text, is shown as `\x1b`.
pub fn name(bytes: &[u8]) -> String {
    let mut shown = String::new();
    for part in bytes.utf8_chunks() {
        for c in part.valid().chars() {
            if c.is_control() {
                let mut buffer = [0; 4];
                push_escaped(&mut shown, c.encode_utf8(&mut buffer).as_bytes());
            } else {
                shown.push(c);
            }
        }
        push_escaped(&mut shown, part.invalid());
    }
    shown
}

fn push_escaped(shown: &mut String, bytes: &[u8]) {
    for byte in bytes {
        shown.push_str(&format!("\\x{byte:02x}"));
    }
}

/// "1 block", "2 blocks", "2 directories".
pub fn count(number: u64, one: &str) -> String {
    match (number, one.strip_suffix('y')) {
        (1, _) => format!("1 {one}"),
        (_, Some(stem)) => format!("{number} {stem}ies"),
        (_, None) => format!("{number} {one}s"),
    }
}

#[cfg(test)]
mod tests {
    use super::*;

    #[test]
    fn sizes_have_two_or_three_figures() {
        let shown = [0, 507, 1023, 1024, 1536, 10_240, 1 << 20, (1 << 32) - 1, 1 << 32].map(size);
        assert_eq!(shown, ["0", "507", "1023", "1.0K", "1.5K", "10K", "1.0M", "3.9G", "4.0G"]);
    }

    #[test]
    fn dates_are_those_of_the_calendar() {
        let shown = [0, 951_782_400, 951_868_800, 1_700_000_000, LAST_DATE, u64::MAX].map(time);
        let meant = ["1970-01-01 00:00:00", "2000-02-29 00:00:00", "2000-03-01 00:00:00", "2023-11-14 22:13:20"];
        assert_eq!(shown[..4], meant);
        assert_eq!(shown[4..], ["9999-12-31 23:59:59", "18446744073709551615"]);
    }

    #[test]
    fn one_is_not_many() {
        let shown = [count(1, "block"), count(0, "block"), count(1, "directory"), count(2, "directory")];
        assert_eq!(shown, ["1 block", "0 blocks", "1 directory", "2 directories"]);
    }

    #[test]
    fn names_cannot_move_the_cursor() {
        assert_eq!(name(b"a\x1b[2Jb\xff"), "a\\x1b[2Jb\\xff");
        assert_eq!(name("h\u{e9}".as_bytes()), "h\u{e9}");
    }
}
