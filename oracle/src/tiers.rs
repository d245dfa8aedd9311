//! Tiers (docs/RULES.md, "Order and tiers"): not in the Rust, so worked out
//! here from the graph of struct items alone.

use crate::sheet::{Item, Row, Sheet};

/// One tier for each item; 0 for items that are no structs.
pub fn tiers(sheet: &Sheet) -> Vec<u8> {
    let edges = edges(sheet);
    let mut tiers: Vec<Option<u8>> = vec![None; edges.len()];
    // Settle every struct whose targets are settled until none is left over
    // but those that an endless chain starts from.
    let mut settled = true;
    while settled {
        settled = false;
        for item in 0..edges.len() {
            if tiers[item].is_some() {
                continue;
            }
            let below: Option<Vec<u8>> = edges[item].iter().map(|&target| tiers[target]).collect();
            if let Some(below) = below {
                tiers[item] = Some(below.iter().max().map_or(0, |most| (most + 1).min(254)));
                settled = true;
            }
        }
    }
    tiers.into_iter().map(|tier| tier.unwrap_or(255)).collect()
}

/// For each item, the struct items that its plain-named fields lead to.
pub fn edges(sheet: &Sheet) -> Vec<Vec<usize>> {
    let mut last = [None; 256];
    for (number, item) in sheet.items.iter().enumerate() {
        if let Item::Struct { head, .. } = item {
            last[head.name as usize] = Some(number);
        }
    }
    let target = |&row: &u16| match sheet.rows[row as usize] {
        Row::Ident(name) => last[name as usize],
        _ => None,
    };
    let held = |item: &Item| match item {
        Item::Struct { fields, .. } => fields.iter().filter_map(target).collect(),
        _ => Vec::new(),
    };
    sheet.items.iter().map(held).collect()
}
