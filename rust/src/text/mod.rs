//! The text form of modules (docs/ASSEMBLY.md): `assemble` turns a text into a module file,
//! `disassemble` a file into a text that gives the same file again. Neither decides whether a
//! module is accepted; a text can say what the checker refuses.

mod assembler;
mod code;
mod diagnosis;
mod disassembler;
mod error;
mod hints;
mod lexer;
mod map;
mod names;
mod parser;
mod syntax;

pub use assembler::{assemble, assemble_all, assemble_unchecked, Assembled};
pub use disassembler::{disassemble, file_records, Listing};
pub use error::{report, Error};
pub use lexer::Place;
pub use map::{printable, FunctionNames, Map, StructNames, MAP_HEAD};
pub use names::{Names, Scope, Source};
