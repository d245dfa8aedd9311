//! `tirvouez order`: the structs in order, with tiers, and what each holds.

use crate::command::arguments::Form;
use crate::command::run::{Context, Said, Status};
use crate::sheet::reader;
use crate::sheet::{NAMES, Sheet, item};
use crate::text::json;
use crate::text::names::Names;
use crate::text::number::{self, Count};
use crate::text::refusal;
use crate::words::check::push_verdict;
use std::collections::HashSet;
use std::fmt::Write;
use tirvouez::{Answer, Letter};

/// The tier of a struct from which an endless chain starts.
const ENDLESS: u8 = 255;
/// The message at a field that closes a cycle, or leads into one.
const CYCLIC: u8 = 2;

/// A struct item with its fields that lead to another.
struct Struct {
    item: u16,
    name: u16,
    tier: u8,
    holds: Vec<Field>,
}

struct Field {
    field: u16,
    item: u16,
    cyclic: bool,
}

pub fn order(context: &Context, file: &str, sheet: &[u8], answer: Answer) -> Said {
    let (mut out, mut err) = (String::new(), String::new());
    let (read, fault) = reader::read(sheet);
    if context.form == Form::Json {
        json::begin(&mut out, file, answer.verdict());
    }
    if let Err(verdict) = answer.verdict() {
        match context.form {
            Form::Json => out.push_str("}\n"),
            Form::Dot => err = format!("{file}: refused {} at {}\n", verdict.0, verdict.1),
            _ => {
                push_verdict(&mut out, file, answer, &context.style);
                refusal::push(&mut out, verdict, fault.as_ref(), sheet, &context.style);
                out.push('\n');
            }
        }
        return Said { out, err, status: Status::Refused };
    }
    let structs = structs(&read, answer);
    match context.form {
        Form::Json => push_json(&mut out, &structs),
        Form::Dot => push_dot(&mut out, file, &structs, context.names),
        _ => {
            push_text(&mut out, context, file, &structs);
            out.push('\n');
        }
    }
    Said { out, err, status: Status::Clean }
}

/// A field that is a plain name leads to the last struct of that name.
fn structs(sheet: &Sheet, answer: Answer) -> Vec<Struct> {
    let mut last = [None; NAMES];
    for (number, body) in (0..).zip(&sheet.items).filter(|(_, body)| body.kind == item::STRUCT) {
        last[usize::from(body.name)] = Some(number);
    }
    let is_cyclic = |record: &tirvouez::Record| record.message == CYCLIC && record.letter == Letter::Field as u8;
    let cyclic: HashSet<_> = answer.records().filter(is_cyclic).map(|record| (record.first, record.second)).collect();
    let one = |&number: &u8| {
        let item = u16::from(number);
        let body = sheet.item(item)?;
        let leads = (0..).zip(body.rows.iter()).filter_map(|(field, row)| {
            let to = last[usize::from(sheet.plain_name(row)?)]?;
            Some(Field { field, item: to, cyclic: cyclic.contains(&(item, field)) })
        });
        Some(Struct { item, name: body.name, tier: answer.tiers()[usize::from(number)], holds: leads.collect() })
    };
    answer.order().iter().filter_map(one).collect()
}

fn push_text(out: &mut String, context: &Context, file: &str, structs: &[Struct]) {
    let style = &context.style;
    let _ = writeln!(out, "{}{file}{}: {}", style.bold, style.end, Count(structs.len(), "struct"));
    for (number, strukt) in structs.iter().enumerate() {
        let _ = write!(out, "{}. item {} {}, tier {}", number + 1, strukt.item, context.names.of(strukt.name), strukt.tier);
        out.push_str(if strukt.tier == ENDLESS { " (a chain from it never ends)" } else { "" });
        out.push_str(if strukt.holds.is_empty() { ", holds none" } else { ", holds" });
        for (number, fields) in strukt.holds.chunk_by(|a, b| a.item == b.item).enumerate() {
            let name = structs.iter().find(|other| other.item == fields[0].item).map_or("", |other| context.names.of(other.name));
            let _ = write!(out, "{} item {} {name} (", if number > 0 { "," } else { "" }, fields[0].item);
            for (number, field) in fields.iter().enumerate() {
                let _ = write!(out, "{}f{}", if number > 0 { ", " } else { "" }, field.field);
                if field.cyclic {
                    let _ = write!(out, " {}cyclic{}", style.error, style.end);
                }
            }
            out.push(')');
        }
        out.push('\n');
    }
}

/// A graph for Graphviz: struct items, and a line for each field that leads to one.
fn push_dot(out: &mut String, file: &str, structs: &[Struct], names: &Names) {
    let quoted = |text: &str| text.replace('\\', "\\\\").replace('"', "\\\"");
    let _ = writeln!(out, "digraph \"{}\" {{", quoted(file));
    for Struct { item, name, tier, .. } in structs {
        let _ = writeln!(out, "  i{item} [label=\"{}\\nitem {item}, tier {tier}\"];", quoted(names.of(*name)));
    }
    for Struct { item, holds, .. } in structs {
        for Field { field, item: to, cyclic } in holds {
            let marked = if *cyclic { " cyclic\", color=red, fontcolor=red, style=bold" } else { "\"" };
            let _ = writeln!(out, "  i{item} -> i{to} [label=\"f{field}{marked}];");
        }
    }
    out.push_str("}\n");
}

fn push_json(out: &mut String, structs: &[Struct]) {
    json::key(out, "structs");
    json::list(out, structs, |out, strukt| {
        out.push('{');
        for (key, value) in [("item", strukt.item), ("name", strukt.name), ("tier", u16::from(strukt.tier))] {
            json::key(out, key);
            number::push(out, usize::from(value));
        }
        json::key(out, "holds");
        json::list(out, &strukt.holds, |out, field| {
            let _ = write!(out, "{{\"field\":{},\"item\":{},\"cyclic\":{}}}", field.field, field.item, field.cyclic);
        });
        out.push('}');
    });
    out.push_str("}\n");
}
