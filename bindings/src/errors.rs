//! The refusals of each call, as `# Errors` lists them: each list stands here, once, for the function and the methods
//! of its name.

/// Links to refusals, with commas between them.
macro_rules! refusals {
    ($first:ident $(, $next:ident)*) => {
        concat!(
            "[`", stringify!($first), "`](crate::Refusal::", stringify!($first), ")"
            $(, ", [`", stringify!($next), "`](crate::Refusal::", stringify!($next), ")")*
        )
    };
}

/// The head of a list, the refusals that every call on a volume gives first, and what follows them.
macro_rules! in_order {
    ($($rest:expr),* $(,)?) => {
        concat!("# Errors\n\nThe first that applies, in this order: ", $($rest),*, ".")
    };
}

/// `#[doc = errors!(open)]` is the section of [`open`](crate::open).
macro_rules! errors {
    (format) => {
        in_order!(refusals!(NotMfs), " (the size code alone), ", refusals!(BadImage, BadCount))
    };
    (usage) => {
        in_order!(refusals!(BadImage, NotMfs, BadCount, Damaged), " (a used count above the block count)")
    };
    (room) => {
        in_order!(refusals!(BadImage, NotMfs, BadCount))
    };
    (check) => {
        in_order!(refusals!(BadImage, NotMfs, BadCount, ShortWork, Damaged))
    };
    (open) => {
        in_order!(errors!(@lookup), "; then ", refusals!(TooLarge))
    };
    (info) => {
        in_order!(errors!(@lookup))
    };
    (list) => {
        in_order!(errors!(@lookup), " and through the entries, as far as the record that does not fit")
    };
    (read) => {
        in_order!(
            refusals!(BadImage, NotMfs, BadCount, Stale),
            " (the handle's own fields); the first of ",
            refusals!(Stale, Damaged),
            " that is met in its directory; then ",
            refusals!(Damaged),
            " on the way through the file"
        )
    };
    (seek) => {
        in_order!(refusals!(Stale), " (the handle's own fields), ", refusals!(BadSeek))
    };
    (create_file) => {
        in_order!(errors!(@create), "; then ", refusals!(Exists, NoRoom))
    };
    (create_dir) => {
        in_order!(errors!(@create), "; then ", refusals!(TooDeep, Exists, NoRoom))
    };
    (delete) => {
        in_order!(errors!(@checked), ", ", refusals!(BadPath), errors!(@way), "; then ", refusals!(NotEmpty))
    };
    (write) => {
        in_order!(
            errors!(@checked),
            ", ",
            refusals!(EmptyWrite, Stale),
            " (also for a directory that is not reached from the root), ",
            refusals!(TooLarge, NoRoom)
        )
    };
    (patch) => {
        in_order!(
            errors!(@checked),
            ", ",
            refusals!(EmptyWrite, Stale),
            " (also for a directory that is not reached from the root), ",
            refusals!(PastEnd)
        )
    };
    (read_file) => {
        "# Errors\n\nThose of [`open`](crate::open), then those of [`read`](crate::read)."
    };
    (@lookup) => {
        concat!(
            refusals!(BadImage, NotMfs, BadCount, BadPath),
            "; the first of ",
            refusals!(NotFound, WrongKind, Damaged),
            " that is met on the way along the path"
        )
    };
    (@checked) => {
        refusals!(BadImage, NotMfs, BadCount, ShortWork, Damaged)
    };
    (@create) => {
        concat!(errors!(@checked), ", ", refusals!(BadPath, BadName), errors!(@way))
    };
    (@way) => {
        concat!("; the first of ", refusals!(NotFound, WrongKind), " that is met on the way along the path")
    };
}
