"""Scripts for psql: what each construct becomes, by hand."""
import ast
import contextlib
import io
import subprocess
import sys
import tempfile
import unittest
from pathlib import Path

import sqlkeep.__main__
from sqlkeep.errors import ProgrammingError
from sqlkeep.postgresql import psql_script, translated
from sqlkeep.postgresql.quoting import identifier, keywords, literal, number, sql


def last(script):
    """The statements of the last statement of a script."""
    return written(translated(script)[-1])


def written(translation):
    return [str(statement) for statement in translation.statements]


def reasons(script):
    return " ".join(translated(script)[-1].differs)


def constants_of(call):
    """What the first argument of a call may be."""
    return (call.args[0].body, call.args[0].orelse) if isinstance(call.args[0], ast.IfExp) else call.args[:1]


PARENT = "CREATE TABLE p (k INT PRIMARY KEY);"


class ToPostgresql(unittest.TestCase):
    def test_types_and_names_become_those_of_postgresql(self):
        assert last("CREATE TABLE t (a INT DEFAULT -1 NOT NULL, user VARCHAR(5));") == [
            'CREATE TABLE "t" (\n    "a" bigint DEFAULT -1 NOT NULL,\n    "user" varchar(5) COLLATE "C"\n)'
        ]

    def test_a_key_is_tested_at_the_end_unless_a_foreign_key_refers_to_it(self):
        keys = translated(PARENT + "CREATE TABLE c (x INT UNIQUE REFERENCES p MATCH FULL ON DELETE SET NULL);")
        assert written(keys[0]) == ['CREATE TABLE "p" (\n    "k" bigint,\n    CONSTRAINT "p_c1" PRIMARY KEY ("k")\n)']
        assert written(keys[1]) == [
            'CREATE TABLE "c" (\n    "x" bigint,\n    CONSTRAINT "c_c1" UNIQUE ("x") DEFERRABLE INITIALLY IMMEDIATE,\n'
            '    CONSTRAINT "c_c2" FOREIGN KEY ("x") REFERENCES "p" MATCH FULL ON DELETE SET NULL\n)'
        ]

    def test_nulls_that_are_equal_stay_so(self):
        assert 'CONSTRAINT "k" UNIQUE NULLS NOT DISTINCT ("a") DEFERRABLE INITIALLY DEFERRED' in last("CREATE TABLE t (a INT CONSTRAINT k UNIQUE NULLS NOT DISTINCT INITIALLY DEFERRED);")[0]

    def test_a_deferrable_check_is_a_constraint_trigger(self):
        table, function, trigger = last("CREATE TABLE t (a INT CONSTRAINT pos CHECK (a > 0) INITIALLY DEFERRED);")
        assert table == 'CREATE TABLE "t" (\n    "a" bigint\n)'
        assert 'WHERE ("a" > 0) IS FALSE' in function and "CONSTRAINT = 'pos'" in function
        assert trigger == 'CREATE CONSTRAINT TRIGGER "pos" AFTER INSERT OR UPDATE ON "t" DEFERRABLE INITIALLY DEFERRED\n    FOR EACH ROW EXECUTE FUNCTION "pos_holds"()'

    def test_an_added_deferrable_check_looks_at_the_rows_first(self):
        statements = last("CREATE TABLE t (a INT); ALTER TABLE t ADD CHECK (a > 0) DEFERRABLE;")
        assert statements[0].startswith('DO $body$\n#variable_conflict use_column\nBEGIN\n    IF EXISTS (SELECT FROM "t" WHERE ("a" > 0) IS FALSE) THEN')

    def test_a_named_not_null_is_a_check(self):
        assert 'CONSTRAINT "nn" CHECK ("a" IS NOT NULL)' in last("CREATE TABLE t (a INT CONSTRAINT nn NOT NULL);")[0]

    def test_a_row_trigger_is_a_function_with_its_condition_inside(self):
        function, trigger = last(
            "CREATE TABLE t (a INT); CREATE TRIGGER r BEFORE UPDATE OF a ON t REFERENCING OLD AS o NEW AS n FOR EACH ROW WHEN (n.a < o.a) SET n.a = o.a;"
        )
        assert function == (
            'CREATE FUNCTION "zz0001_r"() RETURNS trigger LANGUAGE plpgsql AS $body$\n#variable_conflict use_column\nBEGIN\n    IF NEW."a" < OLD."a" THEN\n'
            '        NEW."a" := OLD."a";\n    END IF;\n    RETURN NEW;\nEND\n$body$'
        )
        assert trigger == 'CREATE TRIGGER "zz0001_r" BEFORE UPDATE OF "a" ON "t"\n    FOR EACH ROW EXECUTE FUNCTION "zz0001_r"()'

    def test_a_signal_has_its_text_and_the_name_of_its_trigger(self):
        function, _ = last("CREATE TABLE t (a INT); CREATE TRIGGER r AFTER DELETE ON t SIGNAL 'it''s';")
        assert "RAISE EXCEPTION USING ERRCODE = '45000', MESSAGE = 'it''s', DETAIL = 'trigger R';" in function

    def test_transition_tables_keep_their_names(self):
        _, trigger = last("CREATE TABLE t (a INT); CREATE TRIGGER r AFTER INSERT ON t REFERENCING NEW TABLE AS news INSERT INTO t SELECT a FROM news;")
        assert 'REFERENCING NEW TABLE AS "news"\n    FOR EACH STATEMENT' in trigger

    def test_a_range_of_the_same_name_hides_a_row_variable(self):
        function, _ = last(
            "CREATE TABLE t (a INT); CREATE TRIGGER r AFTER INSERT ON t REFERENCING NEW AS n FOR EACH ROW WHEN (EXISTS (SELECT * FROM t AS n WHERE n.a = 1)) DELETE FROM t;"
        )
        assert 'IF EXISTS (SELECT * FROM "t" AS "n" WHERE "n"."a" = 1) THEN' in function

    def test_a_data_statement_begins_its_transaction(self):
        statements = [written(each) for each in translated("CREATE TABLE t (a INT); INSERT INTO t VALUES (1); DELETE FROM t; COMMIT;")]
        assert statements[1:] == [["BEGIN", 'INSERT INTO "t" VALUES (1)'], ['DELETE FROM "t"'], ["COMMIT"]]

    def test_a_refused_statement_outside_a_transaction_leaves_none_open(self):
        assert last("CREATE TABLE t (a INT NOT NULL); INSERT INTO t VALUES (NULL);") == ["BEGIN", 'INSERT INTO "t" VALUES (NULL)', "ROLLBACK"]

    def test_numbers_that_meet_no_column_are_wide(self):
        assert last("CREATE TABLE t (a INT); SELECT 2147483647 + 1, a + 1 FROM t;") == ['SELECT 2147483647::bigint + 1::bigint, "a" + 1 FROM "t"']

    def test_all_constraints_are_those_that_are_deferrable_here(self):
        assert last(PARENT + "CREATE TABLE c (x INT CONSTRAINT fk REFERENCES p DEFERRABLE); START TRANSACTION; SET CONSTRAINTS ALL DEFERRED;") == ['SET CONSTRAINTS "fk" DEFERRED']

    def test_a_difference_is_told_above_its_statement(self):
        script = psql_script(translated(PARENT + "CREATE TABLE c (x INT REFERENCES p ON UPDATE CASCADE); INSERT INTO p VALUES (1), (2); UPDATE p SET k = k + 1;"))
        assert '-- differs: PostgreSQL tests a key that foreign keys refer to row by row; here when the statement ends\nUPDATE "p" SET "k" = "k" + 1;\n' in script

    def test_nothing_is_told_where_nothing_differs(self):
        assert reasons(PARENT + "INSERT INTO p VALUES (1);") == ""
        assert reasons(PARENT + "CREATE TABLE c (x INT REFERENCES p ON UPDATE CASCADE); INSERT INTO p VALUES (1), (2); UPDATE p SET k = k + 2;") == ""
        assert reasons("CREATE TABLE t (a INT UNIQUE, b INT NOT NULL); INSERT INTO t VALUES (1, NULL);") == ""

    def test_a_fault_of_the_script_is_an_error(self):
        with self.assertRaises(ProgrammingError):
            translated("SELEC 1;")

    def test_two_texts_are_compared_by_code_point(self):
        assert last("CREATE TABLE t (a INT, CHECK ('a' < ('B') OR a = 1));")[0].count("CHECK ('a' COLLATE \"C\" < ('B') OR \"a\" = 1)") == 1

    def test_a_text_cannot_end_its_body(self):
        function, _ = last("CREATE TABLE t (a INT); CREATE TRIGGER r AFTER DELETE ON t SIGNAL '$body$ $$ \\';")
        assert function.startswith('CREATE FUNCTION "zz0001_r"() RETURNS trigger LANGUAGE plpgsql AS $body1$\n')
        assert "MESSAGE = E'$body$ $$ \\\\', DETAIL" in function

    def test_names_that_are_of_postgresql_are_in_capitals(self):
        table = translated("CREATE TABLE pg_class (xmin INT);")[-1]
        assert written(table) == ['CREATE TABLE "PG_CLASS" (\n    "XMIN" bigint\n)']
        assert len(table.renamed) == 2 and not table.differs

    def test_a_key_never_has_the_name_of_a_table(self):
        keys = translated("CREATE TABLE t_c1 (a INT); CREATE TABLE t (a INT PRIMARY KEY);")[-1]
        assert 'CONSTRAINT "t_c1_key" PRIMARY KEY' in written(keys)[0] and keys.renamed

    def test_a_savepoint_that_is_gone_here_is_never_met_there(self):
        script = "CREATE TABLE t (a INT); START TRANSACTION; SAVEPOINT s; SAVEPOINT s; RELEASE SAVEPOINT s; ROLLBACK TO SAVEPOINT s;"
        assert [written(each)[0] for each in translated(script)][2:] == ['SAVEPOINT "s"', 'SAVEPOINT "s_2"', 'RELEASE SAVEPOINT "s_2"', 'ROLLBACK TO SAVEPOINT "s_3"']

    def test_modes_come_back_with_a_savepoint(self):
        script = "CREATE TABLE t (a INT CONSTRAINT k UNIQUE DEFERRABLE); START TRANSACTION; SAVEPOINT s; SET CONSTRAINTS k DEFERRED; ROLLBACK TO SAVEPOINT s;"
        assert last(script) == ['ROLLBACK TO SAVEPOINT "s"', 'SET CONSTRAINTS "k" IMMEDIATE']

    def test_a_nul_is_refused_with_its_place(self):
        with self.assertRaises(ProgrammingError) as raised:
            translated("CREATE TABLE t (a VARCHAR(3));\nINSERT INTO t VALUES ('a\0');")
        assert (raised.exception.statement, raised.exception.line, raised.exception.column) == (2, 2, 25)

    def test_sql_is_made_of_pieces_alone(self):
        with self.assertRaises(TypeError):
            sql("SELECT {}", "'x'")
        with self.assertRaises(TypeError):
            sql("SELECT {}")
        for call in (lambda: literal("\0"), lambda: identifier("\0"), lambda: number("1; DROP"), lambda: keywords("SET x")):
            with self.assertRaises(ValueError):
                call()

    def test_each_template_is_a_constant_and_one_module_makes_sql(self):
        for path in Path(sqlkeep.postgresql.__file__).parent.glob("*.py"):
            for call in (node for node in ast.walk(ast.parse(path.read_text())) if isinstance(node, ast.Call) and isinstance(node.func, ast.Name)):
                assert call.func.id != "Sql" or path.name == "quoting.py", path
                assert call.func.id not in ("sql", "joined") or all(isinstance(each, ast.Constant) for each in constants_of(call)), (path, call.lineno)

    def test_the_command_writes_the_script(self):
        with tempfile.TemporaryDirectory() as folder:
            file = Path(folder, "s.sql")
            file.write_bytes(b"CREATE TABLE p (k VARCHAR(9) DEFAULT '\r\n\xc3\xa9');")
            done = subprocess.run([sys.executable, "-m", "sqlkeep", "to-postgresql", str(file)], stdout=subprocess.PIPE, check=True)
        first = next(line for line in done.stdout.splitlines() if not line.startswith((b"--", b"\\set ")))
        assert first == b"SET standard_conforming_strings = on;"
        assert done.stdout.endswith(b'CREATE TABLE "p" (\n    "k" varchar(9) COLLATE "C" DEFAULT \'\r\n\xc3\xa9\'\n);\n')

    def test_a_file_that_is_not_there_is_told(self):
        with contextlib.redirect_stderr(io.StringIO()) as told:
            assert sqlkeep.__main__.main(["to-postgresql", "/nowhere/none.sql"]) == 2
        assert "cannot read the script" in told.getvalue()


if __name__ == "__main__":
    unittest.main()
