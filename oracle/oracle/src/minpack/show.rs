//! Inputs and answers as text, for the examples.

use crate::text::{push_doubles, push_numbers};

/// Titles, each with its numbers.
pub fn row(parts: &[(&str, &[f64])]) -> String {
    let mut text = String::new();
    for (title, v) in parts {
        text.push_str(if text.is_empty() { "" } else { " " });
        text.push_str(title);
        push_doubles(&mut text, v);
    }
    text
}

pub fn numbers(title: &str, v: &[usize]) -> String {
    let mut text = format!(" {title}");
    push_numbers(&mut text, v);
    text
}

pub fn refused_or<T>(answer: &Result<T, u8>, text: impl FnOnce(&T) -> String) -> String {
    match answer {
        Ok(given) => text(given),
        Err(k) => format!("refused {k}"),
    }
}
