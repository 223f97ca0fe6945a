COMMIT; 
 'open; COMMIT;