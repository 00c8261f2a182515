//! `rcm pages`: the memory of a state that passes the state test, as a table, as JSON
//! (`pages_json.rs`) and as a picture (`picture.rs`). An object's place and size are the reader's; owners and marks are read
//! from the state's bytes (docs/STATE.md).

use super::explain::Refused;
use super::files::{beside, distinct, output_name, read, write, Output, MODULE_MAX, STATE_MAX};
use super::heap::{Field, Heap, Object, Region};
use super::maps::{self, usable_map};
use super::picture::picture;
use super::saved::{no_save, INFO_ENDING};
use super::standing::Standing;
use super::words::{number, Choice};
use super::{counted, explain, print, Command, Outcome, Session, Words, DONE, REFUSED};
use crate::compare::Interface;
use crate::host;
use crate::module::{decode, Function};
use crate::state::{State, ENDED, MEMORY_AT, PAGES, PAGE_BYTES, RUNNING};
use crate::text::{Listing, Names, Scope};
use crate::types::Live;

/// The widest bar of the table, in characters.
const BAR: usize = 32;

/// How many numbers of an array are shown.
const SHOWN: usize = 12;

/// The least width of the columns for regions and types.
const LOCAL_TO: usize = 11;
const TYPE: usize = 20;

/// A page that a region owns: its objects in order, used or free.
pub struct Page {
    pub number: usize,
    pub region: Live,
    pub size: usize,
    pub used: Vec<bool>,
}

impl Page {
    pub fn used_count(&self) -> usize {
        self.used.iter().filter(|used| **used).count()
    }
}

/// What is shown of a state.
pub struct View<'v> {
    pub heap: Heap<'v>,
    pub pages: Vec<Page>,
    /// The addresses asked for, with the objects around them.
    pub objects: Vec<(u32, Option<Object>)>,
}

pub const PAGES_COMMAND: Command = Command {
    name: "pages",
    takes: "MODULE STATE",
    options: &[
        Choice {
            name: "--address",
            value: Some("A"),
            does: "shows the object around an address; may be given again",
            many: true,
        },
        Choice::valued("--svg", "FILE", "draws the memory"),
        Choice::flag("--json", "prints the memory as JSON"),
    ],
    does: "the memory of a state: frames and pages, the objects at addresses, a picture",
    run: pages,
};

fn pages(words: &Words, session: &mut Session) -> Outcome {
    let [module_name, state_name] = words.exactly(["MODULE", "STATE"])?;
    let picture_name = words.option("--svg").map(output_name);
    let outputs: Vec<_> = picture_name.iter().map(|name| ("picture", *name)).collect();
    let (map, info) = (beside(module_name, maps::ENDING), beside(state_name, INFO_ENDING));
    let inputs = [
        ("module", module_name),
        ("state", state_name),
        ("module's map", &map),
        ("state's info", &info),
    ];
    distinct(&inputs, &outputs)?;
    picture_name.map_or(Ok(()), |name| no_save("picture", name))?;
    let (file, bytes) = (read(module_name, MODULE_MAX)?, read(state_name, STATE_MAX)?);
    let addresses = words.all("--address").map(|word| number("--address", word));
    let addresses = addresses.collect::<Result<Vec<u32>, String>>()?;
    let answer = session.machine()?.test(&file, &bytes);
    if answer[0] == host::REFUSED {
        let map = usable_map(module_name, &file, session);
        let refusal = Refused::new(&file, map.as_ref(), answer);
        let message = match answer[1] {
            20 => format!("{state_name}: {}", explain::state_length(&bytes)),
            21 => format!("{state_name}: refused 21 0: this is no sound state of {module_name}"),
            _ => format!("{module_name}: {}", refusal.text()),
        };
        session.say(&message);
        if words.flag("--json") {
            print(session.out, &format!("{}\n", refusal.json()))?;
        }
        return Ok(REFUSED);
    }
    let module = decode(&file).map_err(|_| "the module does not decode".to_string())?;
    let state = State::from_bytes(&bytes).map_err(|_| "the state does not decode".to_string())?;
    let map = usable_map(module_name, &file, session);
    let listing = Listing::new(&module, Names::of(map.as_ref()));
    let heap = Heap::new(&listing, &state);
    let mut find = |address: u32| object_at(session.machine.as_deref_mut(), &file, &bytes, address);
    let objects = addresses.iter().map(|&address| (address, object(&heap, find(address))));
    let objects = objects.collect();
    let pages = owned_pages(&state, &mut find);
    let view = View { heap, pages, objects };
    let text = if words.flag("--json") { format!("{}\n", view.json()) } else { view.text() };
    print(session.out, &text)?;
    if let Some(name) = picture_name {
        write(&[Output::new(name, picture(&view).as_bytes())], session)?;
    }
    Ok(DONE)
}

/// Where the object around an address begins, and its size.
fn object_at(
    machine: Option<&mut (dyn Interface + '_)>,
    file: &[u8],
    state: &[u8],
    address: u32,
) -> Option<(usize, usize)> {
    let answer = machine?.object(file, state, address);
    let found = answer[0] == host::GOOD;
    found.then(|| (answer[1] as usize - MEMORY_AT, answer[2] as usize))
}

fn object(heap: &Heap, found: Option<(usize, usize)>) -> Option<Object> {
    let (start, size) = found?;
    let region = heap.state.owners[start / PAGE_BYTES]?;
    Some(heap.object_at(start, size, region))
}

fn owned_pages(state: &State, find: &mut impl FnMut(u32) -> Option<(usize, usize)>) -> Vec<Page> {
    let mut pages = Vec::new();
    for number in 1..PAGES {
        let Some(region) = state.owners[number] else { continue };
        let Some((_, size)) = find((number * PAGE_BYTES) as u32) else { continue };
        let marked = |place: usize| state.marks[number][place / 64] >> (place % 64) & 1 == 1;
        let used = (0..PAGE_BYTES / size).map(marked).collect();
        pages.push(Page { number, region, size, used });
    }
    pages
}

impl View<'_> {
    pub fn status(&self) -> String {
        let state = self.heap.state;
        let status = match state.status {
            RUNNING => "running".to_string(),
            ENDED => format!("ended {}", state.result),
            stop => format!("stopped {stop}, {}", explain::stop_title(u64::from(stop))),
        };
        let frames = counted(state.frames.len() as u64, "frame");
        let output = counted(u64::from(state.output_count), "byte");
        format!("{status}; {frames}; {output} of output")
    }

    pub fn function(&self, frame: usize) -> (usize, &Function) {
        let number = usize::from(self.heap.state.frames[frame].function);
        (number, &self.heap.listing.module.functions[number])
    }

    /// The instruction that a frame stands at. A sound state has one.
    pub fn standing(&self, frame: usize) -> Standing<'_> {
        let frame = &self.heap.state.frames[frame];
        Standing::of(self.heap.listing, frame).expect("a sound state stands at an instruction")
    }

    /// Where a frame stands.
    pub fn frame_text(&self, index: usize) -> String {
        let at = self.standing(index);
        let place = match at.source() {
            Some(source) => format!("{} at {}:", at.function_name(), source.short()),
            None => format!("{}:{}", at.function_name(), at.frame.instruction),
        };
        format!("frame {index}: {place} {}", at.text())
    }

    /// Where the region variables of a frame lead.
    pub fn region_texts(&self, index: usize) -> Vec<(Live, String)> {
        let (number, function) = self.function(index);
        let frame = &self.heap.state.frames[index];
        let variables = (0..).zip(&frame.map[..function.region_types.len()]);
        let texts = variables.map(|(variable, &live)| {
            let given = usize::from(variable) < function.region_parameters;
            let name = self.heap.listing.names.region(Scope::Function(number), variable);
            let whose = if given { "given" } else { "own" };
            (live, format!("{name} -> region {} ({whose})", live.0))
        });
        texts.collect()
    }

    /// The registers of a frame with their values, and where pointers lead.
    fn register_texts(&self, index: usize) -> Vec<String> {
        let at = self.standing(index);
        let registers = 0..self.function(index).1.register_types.len() as u8;
        let text = |register: u8| match self.heap.leads(index, usize::from(register)) {
            Some((object, path)) => {
                format!("{} -> {}", at.register(register), lead_text(&object, path))
            }
            None => at.register(register),
        };
        registers.map(text).collect()
    }

    /// Frames from the top one on, pages, and the objects that are asked for.
    fn text(&self) -> String {
        let mut text = self.status() + "\n";
        for index in (0..self.heap.state.frames.len()).rev() {
            text += &format!("{}\n", self.frame_text(index));
            for (_, region) in self.region_texts(index) {
                text += &format!("    {region}\n");
            }
            for register in self.register_texts(index) {
                text += &format!("    {register}\n");
            }
        }
        text += &self.table();
        for (address, object) in &self.objects {
            text += &self.object_text(*address, object.as_ref());
        }
        text
    }

    fn table(&self) -> String {
        let whose = |region: &Region| format!("frame {} {}", region.frame, region.name);
        let regions = || self.heap.regions.iter();
        let local = regions().map(|one| whose(one).len()).max().unwrap_or(0).max(LOCAL_TO);
        let types = regions().map(|one| one.written.len()).max().unwrap_or(0).max(TYPE);
        let mut text = String::new();
        if !self.pages.is_empty() {
            text +=
                &format!("\npage  region  {:local$}  {:types$}  size  used\n", "local to", "type");
        }
        for page in &self.pages {
            let count = format!("{} of {}", page.used_count(), page.used.len());
            let region = self.heap.region(page.region);
            let (whose, written) =
                region.map_or_else(Default::default, |one| (whose(one), one.written.clone()));
            let (number, region, size) = (page.number, page.region.0, page.size);
            let bar = bar(&page.used);
            text += &format!(
                "{number:4}  {region:6}  {whose:local$}  {written:types$}  {size:4}  {count:10} {bar}\n"
            );
        }
        let owned = counted(self.pages.len() as u64, "page");
        text + &format!("\n{owned} owned, {} left to grant\n", self.left())
    }

    /// Pages that no region owns, without page 0.
    pub fn left(&self) -> usize {
        PAGES - 1 - self.pages.len()
    }

    /// The object under an address with its parts.
    fn object_text(&self, address: u32, object: Option<&Object>) -> String {
        let Some(object) = object else {
            return format!("\naddress {address}: no object lies there\n");
        };
        let (start, size, mark) = (object.start, object.size, object.mark());
        let mut text = format!("\naddress {address}: object at {start}, {size} bytes, {mark}");
        if let Some(region) = self.heap.region(object.region) {
            let name = match self.heap.listing.names.are_numbers() {
                true => String::new(),
                false => format!(" ({})", region.name),
            };
            text += &format!(", of region {}{name}: {}", region.live.0, region.written);
        }
        text += "\n";
        for field in self.heap.fields(object) {
            text += &field_text(&field);
        }
        text
    }
}

/// Where a pointer leads.
fn lead_text(object: &Object, path: Option<String>) -> String {
    let free = if object.used { "" } else { "free " };
    match path {
        Some(path) => format!("{path} of the {free}object at {}", object.start),
        None => format!("{free}object at {}", object.start),
    }
}

/// A part of an object on a line, an array shortened.
fn field_text(field: &Field) -> String {
    let name = if field.path.is_empty() { String::new() } else { format!("{}: ", field.path) };
    let shown: Vec<String> = field.values.iter().take(SHOWN).map(u32::to_string).collect();
    let more = if field.values.len() > SHOWN { " .." } else { "" };
    format!("{:6}  {name}{} = {}{more}\n", field.at, field.written, shown.join(" "))
}

/// A bar with a mark for each object, used `#` or free `.`, fewer where there are many.
fn bar(used: &[bool]) -> String {
    let group = used.len().div_ceil(BAR);
    let mark = |group: &[bool]| match group.iter().filter(|used| **used).count() {
        0 => '.',
        count if count == group.len() => '#',
        _ => '+',
    };
    used.chunks(group).map(mark).collect()
}
