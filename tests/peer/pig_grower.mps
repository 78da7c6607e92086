* Problem:    pig_grower
* Class:      LP
* Rows:       15
* Columns:    16
* Non-zeros:  152
* Format:     Free MPS
*
NAME pig_grower
ROWS
 N cost
 E mass
 G floor[1]
 G floor[2]
 G floor[3]
 G floor[4]
 G floor[5]
 G floor[6]
 G floor[7]
 G floor[8]
 L ceiling[1]
 L ceiling[2]
 L ceiling[3]
 L ceiling[4]
 G cereals
COLUMNS
 x[1] cost 0.208 mass 1
 x[1] floor[1] 9.6 floor[2] 2.8
 x[1] floor[3] 3.2 floor[4] 2.5
 x[1] floor[5] 1 floor[6] 0.7
 x[1] floor[7] 1.1 floor[8] 0.1
 x[1] ceiling[1] 10.1 ceiling[2] 4.6
 x[1] ceiling[3] 0.7 ceiling[4] 0.1
 x[1] cereals 1
 x[2] cost 0.221 mass 1
 x[2] floor[1] 10.5 floor[2] 2.5
 x[2] floor[3] 3.7 floor[4] 2.6
 x[2] floor[5] 1.1 floor[6] 0.7
 x[2] floor[7] 1 floor[8] 0.1
 x[2] ceiling[1] 10.5 ceiling[2] 2.2
 x[2] ceiling[3] 0.7 ceiling[4] 0.1
 x[2] cereals 1
 x[3] cost 0.226 mass 1
 x[3] floor[1] 11.2 floor[2] 1.9
 x[3] floor[3] 3.1 floor[4] 2.4
 x[3] floor[5] 0.5 floor[6] 0.4
 x[3] floor[7] 0.7 floor[8] 0.04
 x[3] ceiling[1] 8.1 ceiling[2] 2.2
 x[3] ceiling[3] 0.4 ceiling[4] 0.04
 x[3] cereals 1
 x[4] cost 0.174 mass 1
 x[4] floor[1] 8 floor[2] 4.3
 x[4] floor[3] 4.1 floor[4] 3.6
 x[4] floor[5] 1.6 floor[6] 1.4
 x[4] floor[7] 2.5 floor[8] 0.1
 x[4] ceiling[1] 15.2 ceiling[2] 7.6
 x[4] ceiling[3] 1.4 ceiling[4] 0.1
 x[5] cost 0.412 mass 1
 x[5] floor[1] 8.1 floor[2] 25.6
 x[5] floor[3] 11.6 floor[4] 15.6
 x[5] floor[5] 5.4 floor[6] 3.4
 x[5] floor[7] 2.3 floor[8] 0.2
 x[5] ceiling[1] 45.3 ceiling[2] 3.9
 x[5] ceiling[3] 3.4 ceiling[4] 0.2
 x[6] cost 0.287 mass 1
 x[6] floor[1] 6.3 floor[2] 13.6
 x[6] floor[3] 12.7 floor[4] 10.8
 x[6] floor[5] 3.4 floor[6] 8.3
 x[6] floor[7] 3.1 floor[8] 0.4
 x[6] ceiling[1] 33.7 ceiling[2] 12.4
 x[6] ceiling[3] 8.3 ceiling[4] 0.4
 x[7] cost 0.241 mass 1
 x[7] floor[1] 5.4 floor[2] 9.4
 x[7] floor[3] 12.3 floor[4] 9.6
 x[7] floor[5] 3.6 floor[6] 3.9
 x[7] floor[7] 1.8 floor[8] 0.3
 x[7] ceiling[1] 33.4 ceiling[2] 21.2
 x[7] ceiling[3] 3.9 ceiling[4] 0.3
 x[8] cost 0.302 mass 1
 x[8] floor[1] 9.7 floor[2] 12.9
 x[8] floor[3] 3.6 floor[4] 6
 x[8] floor[5] 1.3 floor[6] 1.1
 x[8] floor[7] 1.7 floor[8] 0.1
 x[8] ceiling[1] 20.7 ceiling[2] 5.2
 x[8] ceiling[3] 1.1 ceiling[4] 0.1
 x[9] cost 0.935 mass 1
 x[9] floor[1] 29.8
 x[10] cost 0.055 mass 1
 x[10] floor[6] 390 floor[8] 0.5
 x[10] ceiling[3] 390 ceiling[4] 0.5
 x[11] cost 0.68 mass 1
 x[11] floor[6] 160 floor[7] 190
 x[11] floor[8] 0.6 ceiling[3] 160
 x[11] ceiling[4] 0.6
 x[12] cost 0.11 mass 1
 x[12] floor[8] 390 ceiling[4] 390
 x[13] cost 1.45 mass 1
 x[13] floor[1] 11.9 floor[2] 780
 x[13] ceiling[1] 95.4
 x[14] cost 2.6 mass 1
 x[14] floor[1] 14 floor[3] 990
 x[14] ceiling[1] 58.4
 x[15] cost 1.55 mass 1
 x[15] floor[1] 10.3 floor[4] 985
 x[15] ceiling[1] 73.5
 x[16] cost 0.9 mass 1
RHS
 RHS1 mass 1000 floor[1] 9800
 RHS1 floor[2] 10200 floor[3] 5900
 RHS1 floor[4] 6600 floor[5] 1700
 RHS1 floor[6] 6500 floor[7] 2700
 RHS1 floor[8] 1500 ceiling[1] 17500
 RHS1 ceiling[2] 5500 ceiling[3] 8000
 RHS1 ceiling[4] 2000 cereals 450
BOUNDS
 UP BND1 x[1] 400
 UP BND1 x[2] 450
 UP BND1 x[3] 400
 UP BND1 x[4] 150
 UP BND1 x[5] 300
 UP BND1 x[6] 100
 UP BND1 x[7] 60
 UP BND1 x[8] 150
 UP BND1 x[9] 40
 UP BND1 x[10] 20
 UP BND1 x[11] 20
 UP BND1 x[12] 6
 UP BND1 x[13] 5
 UP BND1 x[14] 3
 UP BND1 x[15] 3
 FX BND1 x[16] 5
ENDATA
