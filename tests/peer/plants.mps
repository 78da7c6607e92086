* Problem:    plants
* Class:      MIP
* Rows:       61
* Columns:    51 (3 integer, 0 binary)
* Non-zeros:  345
* Format:     Free MPS
*
NAME plants
ROWS
 N cost
 E made[1,1]
 E made[1,2]
 E made[2,1]
 E made[2,2]
 E made[3,1]
 E made[3,2]
 L store[1]
 L store[2]
 L store[3]
 L store[4]
 L store[5]
 L store[6]
 L store[7]
 L store[8]
 G group_least[1,1,1]
 G group_least[1,1,2]
 G group_least[1,1,3]
 G group_least[1,2,1]
 G group_least[1,2,2]
 G group_least[1,2,3]
 G group_least[2,1,1]
 G group_least[2,1,2]
 G group_least[2,1,3]
 G group_least[2,2,1]
 G group_least[2,2,2]
 G group_least[2,2,3]
 G group_least[3,1,1]
 G group_least[3,1,2]
 G group_least[3,1,3]
 G group_least[3,2,1]
 G group_least[3,2,2]
 G group_least[3,2,3]
 L group_most[1,1,1]
 L group_most[1,1,2]
 L group_most[1,1,3]
 L group_most[1,2,1]
 L group_most[1,2,2]
 L group_most[1,2,3]
 L group_most[2,1,1]
 L group_most[2,1,2]
 L group_most[2,1,3]
 L group_most[2,2,1]
 L group_most[2,2,2]
 L group_most[2,2,3]
 L group_most[3,1,1]
 L group_most[3,1,2]
 L group_most[3,1,3]
 L group_most[3,2,1]
 L group_most[3,2,2]
 L group_most[3,2,3]
 G protein_row[1,1]
 G protein_row[1,2]
 G protein_row[2,1]
 G protein_row[2,2]
 G protein_row[3,1]
 G protein_row[3,2]
 L bring[1]
 L bring[2]
 L bring[3]
 L all_intake
COLUMNS
 M0000001 'MARKER' 'INTORG'
 trucks[1] cost 35 bring[1] -28
 trucks[1] all_intake 1
 trucks[2] cost 35 bring[2] -28
 trucks[2] all_intake 1
 trucks[3] cost 35 bring[3] -28
 trucks[3] all_intake 1
 M0000002 'MARKER' 'INTEND'
 x[1,1,1] cost 214.5 made[1,1] 1
 x[1,1,1] store[1] 1 group_least[1,1,1] 1
 x[1,1,1] group_most[1,1,1] 1 protein_row[1,1] 10.1
 x[1,1,1] bring[1] 1
 x[1,1,2] cost 214.5 made[1,2] 1
 x[1,1,2] store[1] 1 group_least[1,2,1] 1
 x[1,1,2] group_most[1,2,1] 1 protein_row[1,2] 10.1
 x[1,1,2] bring[1] 1
 x[1,2,1] cost 219.25 made[2,1] 1
 x[1,2,1] store[1] 1 group_least[2,1,1] 1
 x[1,2,1] group_most[2,1,1] 1 protein_row[2,1] 10.1
 x[1,2,1] bring[2] 1
 x[1,2,2] cost 219.25 made[2,2] 1
 x[1,2,2] store[1] 1 group_least[2,2,1] 1
 x[1,2,2] group_most[2,2,1] 1 protein_row[2,2] 10.1
 x[1,2,2] bring[2] 1
 x[1,3,1] cost 217 made[3,1] 1
 x[1,3,1] store[1] 1 group_least[3,1,1] 1
 x[1,3,1] group_most[3,1,1] 1 protein_row[3,1] 10.1
 x[1,3,1] bring[3] 1
 x[1,3,2] cost 217 made[3,2] 1
 x[1,3,2] store[1] 1 group_least[3,2,1] 1
 x[1,3,2] group_most[3,2,1] 1 protein_row[3,2] 10.1
 x[1,3,2] bring[3] 1
 x[2,1,1] cost 227.5 made[1,1] 1
 x[2,1,1] store[2] 1 group_least[1,1,1] 1
 x[2,1,1] group_most[1,1,1] 1 protein_row[1,1] 10.5
 x[2,1,1] bring[1] 1
 x[2,1,2] cost 227.5 made[1,2] 1
 x[2,1,2] store[2] 1 group_least[1,2,1] 1
 x[2,1,2] group_most[1,2,1] 1 protein_row[1,2] 10.5
 x[2,1,2] bring[1] 1
 x[2,2,1] cost 232.25 made[2,1] 1
 x[2,2,1] store[2] 1 group_least[2,1,1] 1
 x[2,2,1] group_most[2,1,1] 1 protein_row[2,1] 10.5
 x[2,2,1] bring[2] 1
 x[2,2,2] cost 232.25 made[2,2] 1
 x[2,2,2] store[2] 1 group_least[2,2,1] 1
 x[2,2,2] group_most[2,2,1] 1 protein_row[2,2] 10.5
 x[2,2,2] bring[2] 1
 x[2,3,1] cost 230 made[3,1] 1
 x[2,3,1] store[2] 1 group_least[3,1,1] 1
 x[2,3,1] group_most[3,1,1] 1 protein_row[3,1] 10.5
 x[2,3,1] bring[3] 1
 x[2,3,2] cost 230 made[3,2] 1
 x[2,3,2] store[2] 1 group_least[3,2,1] 1
 x[2,3,2] group_most[3,2,1] 1 protein_row[3,2] 10.5
 x[2,3,2] bring[3] 1
 x[3,1,1] cost 232.5 made[1,1] 1
 x[3,1,1] store[3] 1 group_least[1,1,1] 1
 x[3,1,1] group_most[1,1,1] 1 protein_row[1,1] 8.1
 x[3,1,1] bring[1] 1
 x[3,1,2] cost 232.5 made[1,2] 1
 x[3,1,2] store[3] 1 group_least[1,2,1] 1
 x[3,1,2] group_most[1,2,1] 1 protein_row[1,2] 8.1
 x[3,1,2] bring[1] 1
 x[3,2,1] cost 237.25 made[2,1] 1
 x[3,2,1] store[3] 1 group_least[2,1,1] 1
 x[3,2,1] group_most[2,1,1] 1 protein_row[2,1] 8.1
 x[3,2,1] bring[2] 1
 x[3,2,2] cost 237.25 made[2,2] 1
 x[3,2,2] store[3] 1 group_least[2,2,1] 1
 x[3,2,2] group_most[2,2,1] 1 protein_row[2,2] 8.1
 x[3,2,2] bring[2] 1
 x[3,3,1] cost 235 made[3,1] 1
 x[3,3,1] store[3] 1 group_least[3,1,1] 1
 x[3,3,1] group_most[3,1,1] 1 protein_row[3,1] 8.1
 x[3,3,1] bring[3] 1
 x[3,3,2] cost 235 made[3,2] 1
 x[3,3,2] store[3] 1 group_least[3,2,1] 1
 x[3,3,2] group_most[3,2,1] 1 protein_row[3,2] 8.1
 x[3,3,2] bring[3] 1
 x[4,1,1] cost 418.5 made[1,1] 1
 x[4,1,1] store[4] 1 group_least[1,1,2] 1
 x[4,1,1] group_most[1,1,2] 1 protein_row[1,1] 45.3
 x[4,1,1] bring[1] 1
 x[4,1,2] cost 418.5 made[1,2] 1
 x[4,1,2] store[4] 1 group_least[1,2,2] 1
 x[4,1,2] group_most[1,2,2] 1 protein_row[1,2] 45.3
 x[4,1,2] bring[1] 1
 x[4,2,1] cost 423.25 made[2,1] 1
 x[4,2,1] store[4] 1 group_least[2,1,2] 1
 x[4,2,1] group_most[2,1,2] 1 protein_row[2,1] 45.3
 x[4,2,1] bring[2] 1
 x[4,2,2] cost 423.25 made[2,2] 1
 x[4,2,2] store[4] 1 group_least[2,2,2] 1
 x[4,2,2] group_most[2,2,2] 1 protein_row[2,2] 45.3
 x[4,2,2] bring[2] 1
 x[4,3,1] cost 421 made[3,1] 1
 x[4,3,1] store[4] 1 group_least[3,1,2] 1
 x[4,3,1] group_most[3,1,2] 1 protein_row[3,1] 45.3
 x[4,3,1] bring[3] 1
 x[4,3,2] cost 421 made[3,2] 1
 x[4,3,2] store[4] 1 group_least[3,2,2] 1
 x[4,3,2] group_most[3,2,2] 1 protein_row[3,2] 45.3
 x[4,3,2] bring[3] 1
 x[5,1,1] cost 293.5 made[1,1] 1
 x[5,1,1] store[5] 1 group_least[1,1,2] 1
 x[5,1,1] group_most[1,1,2] 1 protein_row[1,1] 33.7
 x[5,1,1] bring[1] 1
 x[5,1,2] cost 293.5 made[1,2] 1
 x[5,1,2] store[5] 1 group_least[1,2,2] 1
 x[5,1,2] group_most[1,2,2] 1 protein_row[1,2] 33.7
 x[5,1,2] bring[1] 1
 x[5,2,1] cost 298.25 made[2,1] 1
 x[5,2,1] store[5] 1 group_least[2,1,2] 1
 x[5,2,1] group_most[2,1,2] 1 protein_row[2,1] 33.7
 x[5,2,1] bring[2] 1
 x[5,2,2] cost 298.25 made[2,2] 1
 x[5,2,2] store[5] 1 group_least[2,2,2] 1
 x[5,2,2] group_most[2,2,2] 1 protein_row[2,2] 33.7
 x[5,2,2] bring[2] 1
 x[5,3,1] cost 296 made[3,1] 1
 x[5,3,1] store[5] 1 group_least[3,1,2] 1
 x[5,3,1] group_most[3,1,2] 1 protein_row[3,1] 33.7
 x[5,3,1] bring[3] 1
 x[5,3,2] cost 296 made[3,2] 1
 x[5,3,2] store[5] 1 group_least[3,2,2] 1
 x[5,3,2] group_most[3,2,2] 1 protein_row[3,2] 33.7
 x[5,3,2] bring[3] 1
 x[6,1,1] cost 247.5 made[1,1] 1
 x[6,1,1] store[6] 1 group_least[1,1,2] 1
 x[6,1,1] group_most[1,1,2] 1 protein_row[1,1] 33.4
 x[6,1,1] bring[1] 1
 x[6,1,2] cost 247.5 made[1,2] 1
 x[6,1,2] store[6] 1 group_least[1,2,2] 1
 x[6,1,2] group_most[1,2,2] 1 protein_row[1,2] 33.4
 x[6,1,2] bring[1] 1
 x[6,2,1] cost 252.25 made[2,1] 1
 x[6,2,1] store[6] 1 group_least[2,1,2] 1
 x[6,2,1] group_most[2,1,2] 1 protein_row[2,1] 33.4
 x[6,2,1] bring[2] 1
 x[6,2,2] cost 252.25 made[2,2] 1
 x[6,2,2] store[6] 1 group_least[2,2,2] 1
 x[6,2,2] group_most[2,2,2] 1 protein_row[2,2] 33.4
 x[6,2,2] bring[2] 1
 x[6,3,1] cost 250 made[3,1] 1
 x[6,3,1] store[6] 1 group_least[3,1,2] 1
 x[6,3,1] group_most[3,1,2] 1 protein_row[3,1] 33.4
 x[6,3,1] bring[3] 1
 x[6,3,2] cost 250 made[3,2] 1
 x[6,3,2] store[6] 1 group_least[3,2,2] 1
 x[6,3,2] group_most[3,2,2] 1 protein_row[3,2] 33.4
 x[6,3,2] bring[3] 1
 x[7,1,1] cost 180.5 made[1,1] 1
 x[7,1,1] store[7] 1 group_least[1,1,3] 1
 x[7,1,1] group_most[1,1,3] 1 protein_row[1,1] 15.2
 x[7,1,1] bring[1] 1
 x[7,1,2] cost 180.5 made[1,2] 1
 x[7,1,2] store[7] 1 group_least[1,2,3] 1
 x[7,1,2] group_most[1,2,3] 1 protein_row[1,2] 15.2
 x[7,1,2] bring[1] 1
 x[7,2,1] cost 185.25 made[2,1] 1
 x[7,2,1] store[7] 1 group_least[2,1,3] 1
 x[7,2,1] group_most[2,1,3] 1 protein_row[2,1] 15.2
 x[7,2,1] bring[2] 1
 x[7,2,2] cost 185.25 made[2,2] 1
 x[7,2,2] store[7] 1 group_least[2,2,3] 1
 x[7,2,2] group_most[2,2,3] 1 protein_row[2,2] 15.2
 x[7,2,2] bring[2] 1
 x[7,3,1] cost 183 made[3,1] 1
 x[7,3,1] store[7] 1 group_least[3,1,3] 1
 x[7,3,1] group_most[3,1,3] 1 protein_row[3,1] 15.2
 x[7,3,1] bring[3] 1
 x[7,3,2] cost 183 made[3,2] 1
 x[7,3,2] store[7] 1 group_least[3,2,3] 1
 x[7,3,2] group_most[3,2,3] 1 protein_row[3,2] 15.2
 x[7,3,2] bring[3] 1
 x[8,1,1] cost 194.5 made[1,1] 1
 x[8,1,1] store[8] 1 group_least[1,1,3] 1
 x[8,1,1] group_most[1,1,3] 1 protein_row[1,1] 6.4
 x[8,1,1] bring[1] 1
 x[8,1,2] cost 194.5 made[1,2] 1
 x[8,1,2] store[8] 1 group_least[1,2,3] 1
 x[8,1,2] group_most[1,2,3] 1 protein_row[1,2] 6.4
 x[8,1,2] bring[1] 1
 x[8,2,1] cost 199.25 made[2,1] 1
 x[8,2,1] store[8] 1 group_least[2,1,3] 1
 x[8,2,1] group_most[2,1,3] 1 protein_row[2,1] 6.4
 x[8,2,1] bring[2] 1
 x[8,2,2] cost 199.25 made[2,2] 1
 x[8,2,2] store[8] 1 group_least[2,2,3] 1
 x[8,2,2] group_most[2,2,3] 1 protein_row[2,2] 6.4
 x[8,2,2] bring[2] 1
 x[8,3,1] cost 197 made[3,1] 1
 x[8,3,1] store[8] 1 group_least[3,1,3] 1
 x[8,3,1] group_most[3,1,3] 1 protein_row[3,1] 6.4
 x[8,3,1] bring[3] 1
 x[8,3,2] cost 197 made[3,2] 1
 x[8,3,2] store[8] 1 group_least[3,2,3] 1
 x[8,3,2] group_most[3,2,3] 1 protein_row[3,2] 6.4
 x[8,3,2] bring[3] 1
RHS
 RHS1 made[1,1] 420 made[1,2] 180
 RHS1 made[2,1] 260 made[2,2] 340
 RHS1 made[3,1] 150 made[3,2] 90
 RHS1 store[1] 500 store[2] 420
 RHS1 store[3] 380 store[4] 190
 RHS1 store[5] 260 store[6] 210
 RHS1 store[7] 160 store[8] 90
 RHS1 group_least[1,1,1] 189 group_least[1,1,2] 63
 RHS1 group_least[1,2,1] 90 group_least[1,2,2] 9
 RHS1 group_least[1,2,3] 9 group_least[2,1,1] 117
 RHS1 group_least[2,1,2] 39 group_least[2,2,1] 170
 RHS1 group_least[2,2,2] 17 group_least[2,2,3] 17
 RHS1 group_least[3,1,1] 67.5 group_least[3,1,2] 22.5
 RHS1 group_least[3,2,1] 45 group_least[3,2,2] 4.5
 RHS1 group_least[3,2,3] 4.5 group_most[1,1,1] 294
 RHS1 group_most[1,1,2] 168 group_most[1,1,3] 84
 RHS1 group_most[1,2,1] 144 group_most[1,2,2] 54
 RHS1 group_most[1,2,3] 54 group_most[2,1,1] 182
 RHS1 group_most[2,1,2] 104 group_most[2,1,3] 52
 RHS1 group_most[2,2,1] 272 group_most[2,2,2] 102
 RHS1 group_most[2,2,3] 102 group_most[3,1,1] 105
 RHS1 group_most[3,1,2] 60 group_most[3,1,3] 30
 RHS1 group_most[3,2,1] 72 group_most[3,2,2] 27
 RHS1 group_most[3,2,3] 27 protein_row[1,1] 6930
 RHS1 protein_row[1,2] 2520 protein_row[2,1] 4290
 RHS1 protein_row[2,2] 4760 protein_row[3,1] 2475
 RHS1 protein_row[3,2] 1260 all_intake 58
BOUNDS
 UP BND1 trucks[1] 24
 UP BND1 trucks[2] 26
 UP BND1 trucks[3] 12
ENDATA
