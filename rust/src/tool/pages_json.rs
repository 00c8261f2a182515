//! The memory of a state as JSON (`rcm pages --json`).

use super::explain;
use super::heap::{Field, Object, Region};
use super::json::Json;
use super::pages::{Page, View};
use crate::state::{ENDED, RUNNING};
use crate::text::Scope;
use crate::types::Live;

/// A count or a number of the state as JSON.
fn count(value: usize) -> Json {
    Json::Number(value as u64)
}

impl View<'_> {
    /// Frames, regions and pages stand in the order of their numbers.
    pub fn json(&self) -> Json {
        let state = self.heap.state;
        let mut members = match state.status {
            RUNNING => vec![("status", Json::text("running"))],
            ENDED => vec![
                ("status", Json::text("ended")),
                ("value", Json::Number(u64::from(state.result))),
            ],
            stop => vec![
                ("status", Json::text("stopped")),
                ("number", Json::Number(u64::from(stop))),
                ("meaning", Json::text(explain::stop_title(u64::from(stop)))),
            ],
        };
        members.extend([
            ("output", Json::Number(u64::from(state.output_count))),
            ("frames", Json::list(0..state.frames.len(), |index| self.frame_json(index))),
            ("regions", Json::list(&self.heap.regions, region_json)),
            ("pages", Json::list(&self.pages, page_json)),
            ("left", count(self.left())),
            ("objects", Json::list(&self.objects, |one| self.object_json(one.0, one.1.as_ref()))),
        ]);
        Json::Object(members)
    }

    fn frame_json(&self, index: usize) -> Json {
        let at = self.standing(index);
        let (number, function) = self.function(index);
        let scope = Scope::Function(number);
        let listing = self.heap.listing;
        let region = |(variable, live): (u8, &Live)| {
            let own = usize::from(variable) >= function.region_parameters;
            Json::Object(vec![
                ("name", Json::text(listing.names.region(scope, variable))),
                ("region", Json::Number(u64::from(live.0))),
                ("own", Json::Bool(own)),
            ])
        };
        let register = |(register, term): (u8, &u8)| {
            let mut members = vec![
                ("name", Json::text(at.name(register))),
                ("type", Json::text(listing.type_text(*term, scope))),
                ("value", Json::Number(u64::from(at.value(register)))),
            ];
            if let Some((object, path)) = self.heap.leads(index, usize::from(register)) {
                members.push(("object", count(object.start)));
                members.extend(path.map(|path| ("part", Json::text(path))));
            }
            Json::Object(members)
        };
        let map = (0..).zip(&at.frame.map[..function.region_types.len()]);
        let registers = (0..).zip(&function.register_types);
        let mut members = vec![
            ("frame", count(index)),
            ("function", Json::text(at.function_name())),
            ("instruction", Json::Number(u64::from(at.frame.instruction))),
            ("text", Json::text(at.text())),
        ];
        members.extend(at.source().map(|source| ("source", explain::source_json(&source))));
        members.push(("regions", Json::list(map, region)));
        members.push(("registers", Json::list(registers, register)));
        Json::Object(members)
    }

    fn object_json(&self, address: u32, object: Option<&Object>) -> Json {
        let mut members = vec![("address", Json::Number(u64::from(address)))];
        if let Some(object) = object {
            members.extend([
                ("start", count(object.start)),
                ("size", count(object.size)),
                ("used", Json::Bool(object.used)),
                ("region", Json::Number(u64::from(object.region.0))),
                ("fields", Json::list(self.heap.fields(object), field_json)),
            ]);
        }
        Json::Object(members)
    }
}

fn region_json(region: &Region) -> Json {
    Json::Object(vec![
        ("region", Json::Number(u64::from(region.live.0))),
        ("frame", count(region.frame)),
        ("name", Json::text(&region.name)),
        ("type", Json::text(&region.written)),
        ("size", count(region.size)),
    ])
}

fn page_json(page: &Page) -> Json {
    Json::Object(vec![
        ("page", count(page.number)),
        ("region", Json::Number(u64::from(page.region.0))),
        ("objects", count(page.used.len())),
        ("used", count(page.used_count())),
    ])
}

fn field_json(field: Field) -> Json {
    Json::Object(vec![
        ("address", count(field.at)),
        ("name", Json::text(field.path)),
        ("type", Json::text(field.written)),
        ("values", Json::list(field.values, |value| Json::Number(u64::from(value)))),
    ])
}
