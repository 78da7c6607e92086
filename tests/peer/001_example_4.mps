* Problem:    001_example_4
* Class:      MIP
* Rows:       4
* Columns:    5 (5 integer, 5 binary)
* Non-zeros:  11
* Format:     Free MPS
*
NAME 001_example_4
ROWS
 N z
 L stable[1]
 L stable[2]
 L stable[3]
COLUMNS
 M0000001 'MARKER' 'INTORG'
 x[1] z 1 stable[1] 1
 x[1] stable[2] 1
 x[2] z 1 stable[1] 1
 x[3] z 1 stable[2] 1
 x[4] z 1 stable[3] 1
 x[5] z 1 stable[3] 1
 M0000002 'MARKER' 'INTEND'
RHS
 RHS1 stable[1] 1 stable[2] 1
 RHS1 stable[3] 1
BOUNDS
 UP BND1 x[1] 1
 UP BND1 x[2] 1
 UP BND1 x[3] 1
 UP BND1 x[4] 1
 UP BND1 x[5] 1
ENDATA
