SELECT * FROM standard_input;
