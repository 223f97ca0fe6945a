// The catalogue of a session as the panes need it: by name.

export class Schema {
  /** @param {import("../catalogue.mjs").Catalogue} catalogue */
  constructor({ tables, constraints, triggers }) {
    const own = (name) => constraints.filter((constraint) => constraint.table === name);
    this.tables = new Map(tables.map((table) => [table.name, { ...table, constraints: own(table.name) }]));
    this.constraints = new Map(constraints.map((constraint) => [constraint.name, constraint]));
    this.triggers = new Map(triggers.map((trigger) => [trigger.name, trigger]));
  }

  /** The places of columns in their table. */
  places(table, columns) {
    const all = this.tables.get(table)?.columns.map((column) => column.name) ?? [];
    return columns.map((column) => all.indexOf(column));
  }
}
