//! What tables, constraints and triggers a database has.
use crate::copying::copied;
use crate::ffi;
use crate::session::Session;
use crate::value::Value;

/// The tables, constraints and triggers of a database, each in the order of creation.
#[derive(Clone, Debug, Default, PartialEq, Eq)]
pub struct Catalogue {
    /// The tables.
    pub tables: Vec<Table>,
    /// The constraints.
    pub constraints: Vec<Constraint>,
    /// The triggers.
    pub triggers: Vec<Trigger>,
}

/// A table.
#[derive(Clone, Debug, PartialEq, Eq)]
pub struct Table {
    /// The name, in upper case.
    pub name: String,
    /// The columns, in the order of their text.
    pub columns: Vec<Column>,
}

/// A column.
#[derive(Clone, Debug, PartialEq, Eq)]
pub struct Column {
    /// The name, in upper case.
    pub name: String,
    /// The most characters of a VARCHAR; none for an INTEGER.
    pub longest: Option<u64>,
    /// The value of DEFAULT; NULL where there is none.
    pub default: Value,
}

/// What a constraint asks of the rows of its table.
#[derive(Clone, Copy, Debug, PartialEq, Eq)]
pub enum Kind {
    /// NOT NULL.
    NotNull,
    /// CHECK.
    Check,
    /// UNIQUE.
    Unique,
    /// UNIQUE NULLS NOT DISTINCT.
    UniqueNullsNotDistinct,
    /// PRIMARY KEY.
    PrimaryKey,
    /// FOREIGN KEY.
    ForeignKey,
}

/// What a foreign key does where the row that it refers to is deleted, or its key is updated.
#[derive(Clone, Copy, Debug, PartialEq, Eq)]
pub enum Action {
    /// NO ACTION.
    NoAction,
    /// RESTRICT.
    Restrict,
    /// CASCADE.
    Cascade,
    /// SET NULL.
    SetNull,
    /// SET DEFAULT.
    SetDefault,
}

/// What a foreign key refers to.
#[derive(Clone, Debug, PartialEq, Eq)]
pub struct Reference {
    /// The name of the table.
    pub table: String,
    /// The columns, each for the one at its place in the foreign key.
    pub columns: Vec<String>,
    /// Whether it is MATCH FULL.
    pub match_full: bool,
    /// ON DELETE.
    pub on_delete: Action,
    /// ON UPDATE.
    pub on_update: Action,
}

/// A constraint.
#[derive(Clone, Debug, PartialEq, Eq)]
pub struct Constraint {
    /// The name, which is made for one that is given none.
    pub name: String,
    /// What it asks.
    pub kind: Kind,
    /// The name of its table.
    pub table: String,
    /// The names of the columns that it is of; none for a CHECK.
    pub columns: Vec<String>,
    /// The condition of a CHECK as SQL text, with names in upper case; none of another constraint, or if memory was refused for it.
    pub condition: Option<String>,
    /// What it refers to, where it is a foreign key.
    pub references: Option<Reference>,
    /// Whether SET CONSTRAINTS may set its mode.
    pub deferrable: bool,
    /// Whether it is deferred at the start of a transaction.
    pub initially_deferred: bool,
    /// Whether it is deferred now.
    pub deferred: bool,
}

/// When a trigger runs.
#[derive(Clone, Copy, Debug, PartialEq, Eq)]
pub enum Time {
    /// BEFORE.
    Before,
    /// AFTER.
    After,
}

/// What a trigger runs for.
#[derive(Clone, Copy, Debug, PartialEq, Eq)]
pub enum Event {
    /// INSERT.
    Insert,
    /// UPDATE.
    Update,
    /// DELETE.
    Delete,
}

/// A trigger.
#[derive(Clone, Debug, PartialEq, Eq)]
pub struct Trigger {
    /// The name, in upper case.
    pub name: String,
    /// The name of its table.
    pub table: String,
    /// BEFORE or AFTER.
    pub time: Time,
    /// The event.
    pub event: Event,
    /// The columns of UPDATE OF.
    pub columns: Vec<String>,
    /// Whether it runs for each row, and not for each statement.
    pub for_each_row: bool,
    /// How many statements its body has.
    pub statements: u64,
}

fn action(number: u32) -> Action {
    match number {
        1 => Action::Restrict,
        2 => Action::Cascade,
        3 => Action::SetNull,
        4 => Action::SetDefault,
        _ => Action::NoAction,
    }
}

fn kind(definition: &ffi::ConstraintDefinition) -> Kind {
    match (definition.kind, definition.nulls_not_distinct) {
        (0, _) => Kind::NotNull,
        (1, _) => Kind::Check,
        (2, 0) => Kind::Unique,
        (2, _) => Kind::UniqueNullsNotDistinct,
        (3, _) => Kind::PrimaryKey,
        _ => Kind::ForeignKey,
    }
}

impl Catalogue {
    fn column_name(&self, table: u32, column: u32) -> String {
        self.tables[table as usize].columns[column as usize].name.clone()
    }

    /// The table of this name, in upper case.
    pub fn table(&self, name: &str) -> Option<&Table> {
        self.tables.iter().find(|table| table.name == name)
    }

    /// The constraints of the table of this name.
    pub fn constraints_of<'a>(&'a self, table: &'a str) -> impl Iterator<Item = &'a Constraint> {
        self.constraints.iter().filter(move |constraint| constraint.table == table)
    }
}

impl Session {
    /// The tables, constraints and triggers of the database, copied.
    pub fn catalogue(&mut self) -> Catalogue {
        let mut sizes = ffi::Sizes::default();
        unsafe { ffi::sqlkeep_catalogue(self.handle(), &mut sizes) };
        let mut catalogue = Catalogue { tables: (0..sizes.tables as usize).map(|at| self.table_at(at)).collect(), ..Catalogue::default() };
        catalogue.constraints = (0..sizes.constraints as usize).map(|at| self.constraint_at(&catalogue, at)).collect();
        catalogue.triggers = (0..sizes.triggers as usize).map(|at| self.trigger_at(&catalogue, at)).collect();
        catalogue
    }

    fn table_at(&mut self, table: usize) -> Table {
        let mut columns = 0;
        unsafe { ffi::sqlkeep_table(self.handle(), table, &mut columns) };
        Table {
            name: copied(|from, buffer, size, count| unsafe { ffi::sqlkeep_table_name(self.handle(), table, from, buffer, size, count) }).unwrap_or_default(),
            columns: (0..columns).map(|column| self.column_at(table, column)).collect(),
        }
    }

    fn column_at(&mut self, table: usize, column: usize) -> Column {
        let mut kind = ffi::ColumnType::default();
        unsafe { ffi::sqlkeep_column(self.handle(), table, column, &mut kind) };
        Column {
            name: copied(|from, buffer, size, count| unsafe { ffi::sqlkeep_column_name(self.handle(), table, column, from, buffer, size, count) }).unwrap_or_default(),
            longest: (kind.kind == 2).then_some(kind.longest),
            default: self.default_of(table, column),
        }
    }

    fn default_of(&mut self, table: usize, column: usize) -> Value {
        let mut cell = ffi::Cell::default();
        unsafe { ffi::sqlkeep_default(self.handle(), table, column, &mut cell) };
        match cell.kind {
            ffi::INTEGER => Value::Integer(cell.integer),
            ffi::TEXT => Value::Text(
                copied(|from, buffer, size, count| unsafe { ffi::sqlkeep_default_text(self.handle(), table, column, from, buffer, size, count) }).unwrap_or_default(),
            ),
            _ => Value::Null,
        }
    }

    // The places that a call gives, up to the first that isn't there.
    fn places(&mut self, at: usize, call: unsafe extern "C" fn(*mut ffi::Handle, usize, usize, *mut u32) -> u32) -> Vec<u32> {
        (0..)
            .map_while(|place| {
                let mut column = 0;
                (unsafe { call(self.handle(), at, place, &mut column) } == ffi::OK).then_some(column)
            })
            .collect()
    }

    fn constraint_at(&mut self, catalogue: &Catalogue, at: usize) -> Constraint {
        let (mut it, mut mode) = (ffi::ConstraintDefinition::default(), 0);
        unsafe { ffi::sqlkeep_constraint_at(self.handle(), at, &mut it) };
        unsafe { ffi::sqlkeep_constraint_mode(self.handle(), at, &mut mode) };
        let columns = self.places(at, ffi::sqlkeep_constraint_column);
        let referenced = self.places(at, ffi::sqlkeep_referenced_column);
        Constraint {
            name: copied(|from, buffer, size, count| unsafe { ffi::sqlkeep_constraint_name(self.handle(), at, from, buffer, size, count) }).unwrap_or_default(),
            kind: kind(&it),
            table: catalogue.tables[it.table as usize].name.clone(),
            columns: columns.iter().map(|&column| catalogue.column_name(it.table, column)).collect(),
            condition: copied(|from, buffer, size, count| unsafe { ffi::sqlkeep_constraint_condition(self.handle(), at, from, buffer, size, count) }),
            references: (it.kind == 4).then(|| Reference {
                table: catalogue.tables[it.referenced as usize].name.clone(),
                columns: referenced.iter().map(|&column| catalogue.column_name(it.referenced, column)).collect(),
                match_full: it.match_full == 1,
                on_delete: action(it.on_delete),
                on_update: action(it.on_update),
            }),
            deferrable: it.deferrable == 1,
            initially_deferred: it.initially_deferred == 1,
            deferred: mode == 1,
        }
    }

    fn trigger_at(&mut self, catalogue: &Catalogue, at: usize) -> Trigger {
        let mut it = ffi::TriggerDefinition::default();
        unsafe { ffi::sqlkeep_trigger_at(self.handle(), at, &mut it) };
        let columns = self.places(at, ffi::sqlkeep_trigger_column);
        Trigger {
            name: copied(|from, buffer, size, count| unsafe { ffi::sqlkeep_trigger_name(self.handle(), at, from, buffer, size, count) }).unwrap_or_default(),
            table: catalogue.tables[it.table as usize].name.clone(),
            time: if it.time == 0 { Time::Before } else { Time::After },
            event: match it.event {
                0 => Event::Insert,
                1 => Event::Update,
                _ => Event::Delete,
            },
            columns: columns.iter().map(|&column| catalogue.column_name(it.table, column)).collect(),
            for_each_row: it.granularity == 0,
            statements: it.statements,
        }
    }
}
