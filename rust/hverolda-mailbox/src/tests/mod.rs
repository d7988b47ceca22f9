//! Tests of the crate. Each that needs a store stands twice, as `..::sqlite::NAME` and as
//! `..::postgresql::NAME`; the latter start a private PostgreSQL (`tests/postgresql/cluster`).

mod collisions;
mod files;
mod full_disk;
mod generator;
mod keeping;
mod killing;
mod other_rules;
mod searching;
mod stores;
mod watching;
