//! What `include/sqlkeep.h` declares.
use std::ffi::c_void;

pub const OK: u32 = 0;
pub const LIMITS: u32 = 3;
pub const TOO_LONG: u32 = 5;
pub const NO_MEMORY: u32 = 6;
pub const NOTHING: u32 = 7;
pub const WRONG_COUNT: u32 = 9;
pub const NO_TEMPLATE: u32 = 10;
pub const IN_TRANSACTION: u32 = 11;
pub const NOT_RESTORED: u32 = 12;

pub const CHANGED: u32 = 1;
pub const ROWS: u32 = 2;
pub const REFUSED: u32 = 3;

pub const TRANSACTION: u32 = 3;

pub const INTEGER: u64 = 1;
pub const TEXT: u64 = 2;

#[repr(C)]
pub struct Handle {
    pub is_open: bool,
    pub inside: *mut c_void,
}

#[repr(C)]
#[derive(Default)]
pub struct Summary {
    pub accepted: u64,
    pub refused: u64,
    pub memory_refused: u64,
    pub has_fault: u64,
    pub fault_at: u64,
    pub untold: u64,
}

#[repr(C)]
#[derive(Default)]
pub struct Script {
    pub statements: u64,
    pub has_fault: u64,
    pub fault_at: u64,
}

#[repr(C)]
#[derive(Default)]
pub struct FaultPlace {
    pub at: u64,
    pub word: u64,
    pub end: u64,
    pub is_cut: u64,
}

#[repr(C)]
#[derive(Default)]
pub struct Span {
    pub begin: u64,
    pub end: u64,
}

#[repr(C)]
#[derive(Default)]
pub struct ViolationShown {
    pub constraint: u32,
    pub table: u32,
    pub columns: u64,
    pub row: u64,
    pub other: u64,
}

#[repr(C)]
#[derive(Default)]
pub struct Outcome {
    pub kind: u32,
    pub cause: u32,
    pub count: u64,
    pub row: u64,
}

#[repr(C)]
#[derive(Clone, Default)]
pub struct Cell {
    pub kind: u64,
    pub integer: i64,
    pub length: u64,
}

#[repr(C)]
#[derive(Default)]
pub struct Taken {
    pub rows: u64,
    pub bytes: u64,
}

#[repr(C)]
#[derive(Default)]
pub struct Done {
    pub changes: u64,
    pub undone: u64,
    pub lookups: u64,
}

#[repr(C)]
#[derive(Clone, Copy, Default)]
pub struct StoredRow {
    pub table: u64,
    pub columns: u64,
}

#[repr(C)]
#[derive(Default)]
pub struct Sizes {
    pub tables: u64,
    pub constraints: u64,
    pub triggers: u64,
}

#[repr(C)]
#[derive(Default)]
pub struct ColumnType {
    pub kind: u64,
    pub longest: u64,
}

#[repr(C)]
#[derive(Default)]
pub struct ConstraintDefinition {
    pub kind: u32,
    pub table: u32,
    pub columns: u64,
    pub deferrable: u32,
    pub initially_deferred: u32,
    pub nulls_not_distinct: u32,
    pub referenced: u32,
    pub match_full: u32,
    pub on_delete: u32,
    pub on_update: u32,
}

#[repr(C)]
#[derive(Default)]
pub struct TriggerDefinition {
    pub table: u32,
    pub time: u32,
    pub event: u32,
    pub granularity: u32,
    pub columns: u64,
    pub statements: u64,
}

#[link(name = "sqlkeep")]
extern "C" {
    pub fn sqlkeep_open(handle: *mut Handle, depth: u8, changes: u32) -> u32;
    pub fn sqlkeep_close(handle: *mut Handle) -> u32;
    pub fn sqlkeep_explain(handle: *mut Handle, asked: u32) -> u32;
    pub fn sqlkeep_run(handle: *mut Handle, text: *const u8, length: usize, summary: *mut Summary) -> u32;
    pub fn sqlkeep_transcript(handle: *mut Handle, from: usize, buffer: *mut u8, size: usize, copied: *mut usize) -> u32;
    pub fn sqlkeep_fault(handle: *mut Handle, place: *mut FaultPlace) -> u32;
    pub fn sqlkeep_read(handle: *mut Handle, text: *const u8, length: usize, script: *mut Script) -> u32;
    pub fn sqlkeep_unbind(handle: *mut Handle) -> u32;
    pub fn sqlkeep_bind_null(handle: *mut Handle) -> u32;
    pub fn sqlkeep_bind_integer(handle: *mut Handle, integer: i64) -> u32;
    pub fn sqlkeep_bind_text(handle: *mut Handle, text: *const u8, length: usize) -> u32;
    pub fn sqlkeep_read_bound(handle: *mut Handle, text: *const u8, length: usize, script: *mut Script) -> u32;
    pub fn sqlkeep_execute(handle: *mut Handle, at: usize, outcome: *mut Outcome) -> u32;
    pub fn sqlkeep_statement_kind(handle: *mut Handle, at: usize, kind: *mut u32) -> u32;
    pub fn sqlkeep_lines(handle: *mut Handle, number: u64) -> u32;
    pub fn sqlkeep_rows(handle: *mut Handle, from: usize, cells: *mut Cell, count: usize, texts: *mut u8, size: usize, taken: *mut Taken) -> u32;
    pub fn sqlkeep_query(handle: *mut Handle, columns: *mut usize) -> u32;
    pub fn sqlkeep_query_column(handle: *mut Handle, column: usize, from: usize, buffer: *mut u8, size: usize, copied: *mut usize) -> u32;
    pub fn sqlkeep_constraint(handle: *mut Handle, from: usize, buffer: *mut u8, size: usize, copied: *mut usize) -> u32;
    pub fn sqlkeep_trigger(handle: *mut Handle, from: usize, buffer: *mut u8, size: usize, copied: *mut usize) -> u32;
    pub fn sqlkeep_signal(handle: *mut Handle, from: usize, buffer: *mut u8, size: usize, copied: *mut usize) -> u32;
    pub fn sqlkeep_commit(handle: *mut Handle, outcome: *mut Outcome) -> u32;
    pub fn sqlkeep_rollback(handle: *mut Handle) -> u32;
    pub fn sqlkeep_rollback_to(handle: *mut Handle, name: *const u8, length: usize, outcome: *mut Outcome) -> u32;
    pub fn sqlkeep_in_transaction(handle: *mut Handle, is_open: *mut bool) -> u32;
    pub fn sqlkeep_work(handle: *mut Handle, work: *mut Done) -> u32;
    pub fn sqlkeep_pending(handle: *mut Handle, count: *mut usize) -> u32;
    pub fn sqlkeep_statement_place(handle: *mut Handle, at: usize, place: *mut Span) -> u32;
    pub fn sqlkeep_message(handle: *mut Handle, from: usize, buffer: *mut u8, size: usize, copied: *mut usize) -> u32;
    pub fn sqlkeep_violation_about(handle: *mut Handle, at: usize, violation: *mut ViolationShown) -> u32;
    pub fn sqlkeep_violation_value(handle: *mut Handle, at: usize, place: usize, value: *mut Cell) -> u32;
    pub fn sqlkeep_violation_text(handle: *mut Handle, at: usize, place: usize, from: usize, buffer: *mut u8, size: usize, copied: *mut usize) -> u32;
    pub fn sqlkeep_catalogue(handle: *mut Handle, sizes: *mut Sizes) -> u32;
    pub fn sqlkeep_table(handle: *mut Handle, table: usize, columns: *mut usize) -> u32;
    pub fn sqlkeep_table_name(handle: *mut Handle, table: usize, from: usize, buffer: *mut u8, size: usize, copied: *mut usize) -> u32;
    pub fn sqlkeep_column(handle: *mut Handle, table: usize, column: usize, kind: *mut ColumnType) -> u32;
    pub fn sqlkeep_column_name(handle: *mut Handle, table: usize, column: usize, from: usize, buffer: *mut u8, size: usize, copied: *mut usize) -> u32;
    pub fn sqlkeep_default(handle: *mut Handle, table: usize, column: usize, value: *mut Cell) -> u32;
    pub fn sqlkeep_default_text(handle: *mut Handle, table: usize, column: usize, from: usize, buffer: *mut u8, size: usize, copied: *mut usize) -> u32;
    pub fn sqlkeep_constraint_at(handle: *mut Handle, at: usize, constraint: *mut ConstraintDefinition) -> u32;
    pub fn sqlkeep_constraint_name(handle: *mut Handle, at: usize, from: usize, buffer: *mut u8, size: usize, copied: *mut usize) -> u32;
    pub fn sqlkeep_constraint_column(handle: *mut Handle, at: usize, place: usize, column: *mut u32) -> u32;
    pub fn sqlkeep_referenced_column(handle: *mut Handle, at: usize, place: usize, column: *mut u32) -> u32;
    pub fn sqlkeep_constraint_mode(handle: *mut Handle, at: usize, mode: *mut u32) -> u32;
    pub fn sqlkeep_constraint_condition(handle: *mut Handle, at: usize, from: usize, buffer: *mut u8, size: usize, copied: *mut usize) -> u32;
    pub fn sqlkeep_dump(handle: *mut Handle, scripts: *mut usize) -> u32;
    pub fn sqlkeep_dump_script(handle: *mut Handle, at: usize, from: usize, buffer: *mut u8, size: usize, copied: *mut usize) -> u32;
    pub fn sqlkeep_row(handle: *mut Handle, number: u64, row: *mut StoredRow) -> u32;
    pub fn sqlkeep_row_value(handle: *mut Handle, number: u64, column: usize, value: *mut Cell) -> u32;
    pub fn sqlkeep_row_text(handle: *mut Handle, number: u64, column: usize, from: usize, buffer: *mut u8, size: usize, copied: *mut usize) -> u32;
    pub fn sqlkeep_trigger_at(handle: *mut Handle, at: usize, trigger: *mut TriggerDefinition) -> u32;
    pub fn sqlkeep_trigger_name(handle: *mut Handle, at: usize, from: usize, buffer: *mut u8, size: usize, copied: *mut usize) -> u32;
    pub fn sqlkeep_trigger_column(handle: *mut Handle, at: usize, place: usize, column: *mut u32) -> u32;
}
