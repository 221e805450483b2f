//! The tests of the tools. They form one program, so that they are linked only once.

#[macro_use]
mod common;
mod activity;
mod alone;
mod backups;
mod broken;
mod crowded;
mod follow;
mod guide;
mod import;
mod import_again;
mod import_contents;
mod import_extended;
mod import_room;
mod page;
mod paths;
mod queries;
mod reaching;
mod tools;
