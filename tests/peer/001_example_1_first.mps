* Problem:    001_example_1_first
* Class:      LP
* Rows:       3
* Columns:    2
* Non-zeros:  6
* Format:     Free MPS
*
NAME 001_example_1_first
ROWS
 N z
 L constr1
 L constr2
COLUMNS
 x1 z 6 constr1 4
 x1 constr2 10
 x2 z 4 constr1 5
 x2 constr2 4
RHS
 RHS1 constr1 3600 constr2 3600
ENDATA
