//! The reference planner: documents 01 and 02 written out by definition.
//!
//! It shares no code, table or test vector with the proved planner, and it is
//! slow and plain where the proved planner is quick: two hops meet if one of the
//! slots that the one takes is a slot of the other, and a book is a struct with
//! a list of rows.
//!
//! One subject a file, in document 01's order:
//! `plan`, `slots` (tiles, slots, periods); `node_set`, `topology`, `route`,
//! `hop`, `placing` (routes and clashes); `row`, `account`, `book`, `law`,
//! `version`, `image` (the image); `refusal`, `change`, `record`, `index`,
//! `calls` (what each call says back); `table`, `listing` (a node's table and
//! balance); document 02's `statement` (many sites) and `salvage` (damaged
//! books) and `tables` (tables made elsewhere). `frame` and `request` carry calls
//! between programs.

pub mod account;
pub mod book;
pub mod calls;
pub mod change;
pub mod frame;
pub mod hop;
pub mod image;
pub mod index;
pub mod law;
pub mod listing;
pub mod node_set;
pub mod placing;
pub mod plan;
pub mod record;
pub mod refusal;
pub mod request;
pub mod route;
pub mod row;
pub mod salvage;
pub mod slots;
pub mod statement;
pub mod table;
pub mod tables;
pub mod topology;
pub mod version;
