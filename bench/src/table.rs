//! Tables as the documents have them, with each line shown as soon as it is known.

/// Begins a table.
pub fn head(columns: &[&str]) {
    println!();
    line(columns);
    let rules: Vec<&str> = columns.iter().enumerate().map(|(i, _)| if i == 0 { "---" } else { "---:" }).collect();
    line(&rules);
}

pub fn line<T: AsRef<str>>(cells: &[T]) {
    let cells: Vec<&str> = cells.iter().map(AsRef::as_ref).collect();
    println!("| {} |", cells.join(" | "));
}

/// A time given in nanoseconds. A difference of two may be below zero.
pub fn time(nanos: f64) -> String {
    match nanos.abs() {
        n if n < 1e3 => format!("{} ns", three_digits(nanos)),
        n if n < 1e6 => format!("{} µs", three_digits(nanos / 1e3)),
        n if n < 1e9 => format!("{} ms", three_digits(nanos / 1e6)),
        _ => format!("{} s", three_digits(nanos / 1e9)),
    }
}

pub fn ratio(of: f64, to: f64) -> String {
    three_digits(of / to)
}

fn three_digits(number: f64) -> String {
    let decimals = match number.abs() {
        n if n >= 100.0 => 0,
        n if n >= 10.0 => 1,
        n if n >= 1.0 => 2,
        _ => 3,
    };
    format!("{number:.decimals$}")
}

#[cfg(test)]
mod tests {
    use super::{ratio, time};

    #[test]
    fn times_have_their_unit() {
        assert_eq!(time(12.34), "12.3 ns");
        assert_eq!(time(123_456.0), "123 µs");
        assert_eq!(time(1_234_567.0), "1.23 ms");
        assert_eq!(time(123_298_000_000.0), "123 s");
        assert_eq!(time(-49_487.0), "-49.5 µs");
    }

    #[test]
    fn ratios_have_three_digits() {
        assert_eq!(ratio(1.0, 8.0), "0.125");
        assert_eq!(ratio(30.0, 8.0), "3.75");
    }
}
