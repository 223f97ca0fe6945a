create Table Accounts (balance_1 int, cHeCk (Balance_1 >= 0));
insert INTO accounts values (-1);
insert INTO aCCounts values (null);
SeLeCt * FROM ACCOUNTS;
commit Work;
rollback WORK;
