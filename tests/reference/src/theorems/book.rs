//! The book's own text: its modules, and the definitions that a theorem must open.

/// Modules of examples and statements. No answer is computed from what they define.
const NOT_OPENED: [&str; 5] = ["Samples", "Marked", "Edges", "Full", "Session"];

/// The modules that the book's list of modules names and a theorem may have to open.
pub fn modules(list: &str) -> Vec<&str> {
    list.lines()
        .filter_map(|line| line.strip_prefix("pub mod "))
        .map(str::trim)
        .filter(|module| !NOT_OPENED.contains(module))
        .collect()
}

/// The definitions of a module that stay closed until they are named, as `Module.name`.
pub fn definitions(module: &str, text: &str) -> Vec<String> {
    text.lines()
        .filter_map(|line| line.strip_prefix("unfoldable pub "))
        .filter_map(|rest| rest.split_whitespace().next())
        .map(|name| format!("{module}.{name}"))
        .collect()
}
