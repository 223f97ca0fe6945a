-- Comments are taken out, names are folded, and each statement begins a line.
create table t (a int, b varchar (5) default 'x' check (b<>'''')); insert into t(a) values(1),(2);
Select a from t where a>1 and not b is null; commit work -- the last one
;
