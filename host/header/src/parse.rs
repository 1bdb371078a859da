//! Functions as the library's source, the header and a Rust `extern` block
//! write them, brought to one form: a slice is a pointer and a length.

use std::fmt;

#[derive(Clone, Copy, Debug, PartialEq)]
pub enum Type {
    Float,
    Number16,
    Number32,
    Read,
    Written,
    Length,
}

#[derive(Clone, Debug, PartialEq)]
pub struct Function {
    pub name: String,
    pub parameters: Vec<(String, Type)>,
    pub answer: Type,
}

impl fmt::Display for Function {
    fn fmt(&self, f: &mut fmt::Formatter) -> fmt::Result {
        write!(f, "{:?} {}(", self.answer, self.name)?;
        for (at, (name, kind)) in self.parameters.iter().enumerate() {
            let comma = if at == 0 { "" } else { ", " };
            write!(f, "{comma}{kind:?} {name}")?;
        }
        write!(f, ")")
    }
}

/// Without comments of either kind. Line ends are kept.
fn bare(text: &str) -> String {
    let mut out = String::new();
    let mut rest = text;
    while !rest.is_empty() {
        if rest.starts_with("//") {
            rest = &rest[rest.find('\n').unwrap_or(rest.len())..];
        } else if rest.starts_with("/*") {
            rest = &rest[rest.find("*/").map_or(rest.len(), |at| at + 2)..];
        } else {
            let first = rest.chars().next().expect("not empty");
            out.push(first);
            rest = &rest[first.len_utf8()..];
        }
    }
    out
}

/// What is after `name(` up to the `)`, cut at commas, and what follows.
fn signature(text: &str) -> Result<(String, Vec<String>, &str), String> {
    let open = text.find('(').ok_or("a function without (")?;
    let close = text.find(')').ok_or("a ( without )")?;
    if close < open {
        return Err("a ) before its (".to_string());
    }
    let parts = text[open + 1..close].split(',');
    let parts = parts.map(|part| part.split_whitespace().collect::<Vec<_>>().join(" "));
    let parts = parts.filter(|part| !part.is_empty()).collect();
    Ok((text[..open].trim().to_string(), parts, &text[close + 1..]))
}

fn named(part: &str) -> Result<(String, &str), String> {
    let (name, kind) = part
        .split_once(':')
        .ok_or_else(|| format!("a parameter without a type: {part}"))?;
    Ok((name.trim().to_string(), kind.trim()))
}

fn plain(kind: &str) -> Result<Type, String> {
    match kind {
        "f64" | "double" => Ok(Type::Float),
        "u16" | "uint16_t" => Ok(Type::Number16),
        "u32" | "uint32_t" => Ok(Type::Number32),
        "usize" | "size_t" => Ok(Type::Length),
        "*const u8" => Ok(Type::Read),
        "*mut u8" => Ok(Type::Written),
        other => Err(format!("a type that no call has: {other}")),
    }
}

fn arrow(rest: &str) -> Result<Type, String> {
    let rest = rest.trim_start().strip_prefix("->");
    let rest = rest.ok_or("a function that answers nothing")?;
    let end = |c: char| c.is_whitespace() || c == ';' || c == '{';
    plain(rest.trim_start().split(end).next().unwrap_or(""))
}

/// The exported functions of the library's source.
pub fn rattle(text: &str) -> Result<Vec<Function>, String> {
    let text = bare(text);
    let mut functions = Vec::new();
    for part in text.split("#[unsafe(no_mangle)]").skip(1) {
        let part = part.trim_start();
        let part = part.strip_prefix("pub extern \"C\" fn ");
        let part = part.ok_or("no_mangle on something else than pub extern \"C\" fn")?;
        let (name, parts, rest) = signature(part)?;
        let mut parameters = Vec::new();
        for part in parts {
            let (name, kind) = named(&part)?;
            let slice = match kind {
                "&[u8]" => Type::Read,
                "&mut [u8]" => Type::Written,
                other => {
                    parameters.push((name, plain(other)?));
                    continue;
                }
            };
            let length = format!("{name}_length");
            parameters.extend([(name, slice), (length, Type::Length)]);
        }
        functions.push(Function {
            name,
            parameters,
            answer: arrow(rest)?,
        });
    }
    Ok(functions)
}

/// The functions of the `extern` blocks of a Rust file.
pub fn rust(text: &str) -> Result<Vec<Function>, String> {
    let text = bare(text);
    let mut functions = Vec::new();
    for block in text.split("extern \"C\" {").skip(1) {
        let block = &block[..block.find('}').ok_or("an extern block without }")?];
        for part in block.split("fn ").skip(1) {
            let (name, parts, rest) = signature(part)?;
            let mut parameters = Vec::new();
            for part in parts {
                let (name, kind) = named(&part)?;
                parameters.push((name, plain(kind)?));
            }
            functions.push(Function {
                name,
                parameters,
                answer: arrow(rest)?,
            });
        }
    }
    Ok(functions)
}

/// A C parameter or, without its parameters, a C function: type, then name.
fn c_named(part: &str) -> Result<(String, Type), String> {
    let at = part.rfind([' ', '*']);
    let at = at.ok_or_else(|| format!("a name or a type is missing: {part}"))? + 1;
    let kind = part[..at].replace(' ', "");
    let kind = match kind.as_str() {
        "constuint8_t*" => Type::Read,
        "uint8_t*" => Type::Written,
        other => plain(other)?,
    };
    Ok((part[at..].to_string(), kind))
}

/// The functions of the header.
pub fn c(text: &str) -> Result<Vec<Function>, String> {
    let text = bare(text);
    let lines = text.lines().filter(|l| !l.trim_start().starts_with('#'));
    let text = lines.collect::<Vec<_>>().join("\n");
    let text = text.replacen("extern \"C\" {", "", 1);
    let mut functions = Vec::new();
    for part in text.split(';') {
        let part = part.trim_matches(|c: char| c.is_whitespace() || c == '}');
        if part.is_empty() {
            continue;
        }
        let (front, parts, _) = signature(part)?;
        let (name, answer) = c_named(&front.split_whitespace().collect::<Vec<_>>().join(" "))?;
        let parts = match &parts[..] {
            [void] if void == "void" => &[],
            parts => parts,
        };
        let parameters = parts.iter().map(|part| c_named(part));
        functions.push(Function {
            name,
            parameters: parameters.collect::<Result<_, _>>()?,
            answer,
        });
    }
    Ok(functions)
}
