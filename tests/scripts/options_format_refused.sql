-- Nothing is run, so nothing is refused.
SELECT * FROM absent;
