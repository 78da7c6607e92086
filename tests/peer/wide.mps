* Problem:    wide
* Class:      LP
* Rows:       38
* Columns:    64
* Non-zeros:  2120
* Format:     Free MPS
*
NAME wide
ROWS
 N cost
 E mass
 G floor[1]
 G floor[2]
 G floor[3]
 G floor[4]
 G floor[5]
 G floor[6]
 G floor[7]
 G floor[8]
 G floor[9]
 G floor[10]
 G floor[11]
 G floor[12]
 G floor[13]
 G floor[14]
 G floor[15]
 G floor[16]
 G floor[17]
 G floor[18]
 G floor[19]
 G floor[20]
 G floor[21]
 G floor[22]
 G floor[23]
 G floor[24]
 G floor[25]
 G floor[26]
 G floor[27]
 G floor[28]
 G floor[29]
 G floor[30]
 L ceiling[1]
 L ceiling[2]
 L ceiling[3]
 L ceiling[4]
 L ceiling[5]
 L ceiling[6]
COLUMNS
 x[1] cost 0.427 mass 1
 x[1] floor[3] 4.5 floor[4] 0.5
 x[1] floor[6] 6.8 floor[7] 0.5
 x[1] floor[9] 9.5 floor[11] 0.6
 x[1] floor[14] 3.8 floor[17] 10.2
 x[1] floor[18] 8.6 floor[19] 17.5
 x[1] floor[20] 8.2 floor[21] 15.7
 x[1] floor[22] 3 floor[23] 13.7
 x[1] floor[24] 15.1 floor[25] 17.2
 x[1] floor[26] 4.4 floor[27] 6.4
 x[1] floor[28] 3.3 floor[30] 14.2
 x[1] ceiling[3] 4.5 ceiling[4] 0.5
 x[1] ceiling[6] 6.8
 x[2] cost 0.407 mass 1
 x[2] floor[1] 2.5 floor[2] 0.3
 x[2] floor[3] 0.3 floor[4] 2
 x[2] floor[5] 0.7 floor[6] 4.6
 x[2] floor[7] 1.4 floor[9] 1.9
 x[2] floor[10] 2.8 floor[11] 10.7
 x[2] floor[12] 4.9 floor[13] 3.1
 x[2] floor[14] 7.8 floor[16] 12.4
 x[2] floor[17] 6.4 floor[18] 5.8
 x[2] floor[19] 11 floor[20] 1.4
 x[2] floor[21] 18.3 floor[23] 13.1
 x[2] floor[24] 7.8 floor[25] 14.2
 x[2] floor[26] 17.9 floor[27] 24
 x[2] floor[30] 3.2 ceiling[1] 2.5
 x[2] ceiling[2] 0.3 ceiling[3] 0.3
 x[2] ceiling[4] 2 ceiling[5] 0.7
 x[2] ceiling[6] 4.6
 x[3] cost 0.338 mass 1
 x[3] floor[1] 0.6 floor[2] 3.4
 x[3] floor[3] 2.2 floor[4] 3.3
 x[3] floor[5] 0.4 floor[6] 3.7
 x[3] floor[7] 7.2 floor[8] 4.6
 x[3] floor[9] 8 floor[10] 9.7
 x[3] floor[11] 0.7 floor[12] 9
 x[3] floor[13] 10.6 floor[14] 11.7
 x[3] floor[17] 9.4 floor[18] 6.3
 x[3] floor[19] 18.4 floor[20] 15.6
 x[3] floor[21] 14.3 floor[23] 9.3
 x[3] floor[24] 9.1 floor[25] 8.8
 x[3] floor[26] 23.9 floor[27] 24.4
 x[3] floor[28] 24.9 floor[29] 1.2
 x[3] floor[30] 0.3 ceiling[1] 0.6
 x[3] ceiling[2] 3.4 ceiling[3] 2.2
 x[3] ceiling[4] 3.3 ceiling[5] 0.4
 x[3] ceiling[6] 3.7
 x[4] cost 0.274 mass 1
 x[4] floor[1] 1.3 floor[2] 2
 x[4] floor[3] 1.7 floor[5] 0.2
 x[4] floor[6] 0.3 floor[7] 1.9
 x[4] floor[8] 0.7 floor[9] 6.7
 x[4] floor[10] 8.6 floor[11] 1.8
 x[4] floor[12] 2.1 floor[13] 4.7
 x[4] floor[14] 2.5 floor[15] 8.3
 x[4] floor[16] 5.7 floor[18] 3.9
 x[4] floor[19] 6.3 floor[20] 8.1
 x[4] floor[22] 13.2 floor[23] 19.7
 x[4] floor[24] 4.3 floor[26] 20.4
 x[4] floor[27] 24.1 floor[29] 21.4
 x[4] floor[30] 23.3 ceiling[1] 1.3
 x[4] ceiling[2] 2 ceiling[3] 1.7
 x[4] ceiling[5] 0.2 ceiling[6] 0.3
 x[5] cost 0.521 mass 1
 x[5] floor[1] 2 floor[2] 2.8
 x[5] floor[3] 4.1 floor[4] 1
 x[5] floor[5] 4.7 floor[7] 1.9
 x[5] floor[8] 6.4 floor[9] 4.2
 x[5] floor[10] 1.2 floor[11] 5
 x[5] floor[13] 9.6 floor[14] 2.8
 x[5] floor[15] 8.3 floor[16] 9.9
 x[5] floor[17] 1.2 floor[18] 5.2
 x[5] floor[19] 13 floor[20] 1.8
 x[5] floor[21] 7.7 floor[22] 17.7
 x[5] floor[23] 0.9 floor[24] 8.3
 x[5] floor[25] 20.9 floor[26] 10.4
 x[5] floor[27] 5.6 floor[28] 9.2
 x[5] floor[29] 9.9 ceiling[1] 2
 x[5] ceiling[2] 2.8 ceiling[3] 4.1
 x[5] ceiling[4] 1 ceiling[5] 4.7
 x[6] cost 0.725 mass 1
 x[6] floor[1] 1.9 floor[3] 0.9
 x[6] floor[4] 3.9 floor[5] 2.5
 x[6] floor[6] 4.3 floor[7] 6.1
 x[6] floor[8] 5.9 floor[9] 7.6
 x[6] floor[10] 4.5 floor[11] 4.8
 x[6] floor[12] 3.5 floor[13] 5.1
 x[6] floor[15] 10.4 floor[16] 15.3
 x[6] floor[17] 1.4 floor[18] 9.3
 x[6] floor[19] 3.7 floor[20] 19.4
 x[6] floor[21] 19.6 floor[22] 16.2
 x[6] floor[23] 6.9 floor[24] 5
 x[6] floor[25] 9.4 floor[26] 2.8
 x[6] floor[27] 3.3 floor[28] 25.7
 x[6] floor[29] 26.1 floor[30] 19.7
 x[6] ceiling[1] 1.9 ceiling[3] 0.9
 x[6] ceiling[4] 3.9 ceiling[5] 2.5
 x[6] ceiling[6] 4.3
 x[7] cost 0.426 mass 1
 x[7] floor[1] 1.7 floor[2] 3.5
 x[7] floor[3] 2.3 floor[4] 2.7
 x[7] floor[5] 1.9 floor[6] 6.2
 x[7] floor[7] 6.7 floor[9] 2.3
 x[7] floor[10] 9.1 floor[11] 8.2
 x[7] floor[12] 5.6 floor[13] 13.5
 x[7] floor[15] 1.1 floor[16] 8.3
 x[7] floor[17] 2.4 floor[19] 11.6
 x[7] floor[20] 9.1 floor[22] 5.2
 x[7] floor[23] 3.8 floor[25] 19.4
 x[7] floor[26] 7.6 floor[29] 15.7
 x[7] floor[30] 19.6 ceiling[1] 1.7
 x[7] ceiling[2] 3.5 ceiling[3] 2.3
 x[7] ceiling[4] 2.7 ceiling[5] 1.9
 x[7] ceiling[6] 6.2
 x[8] cost 0.34 mass 1
 x[8] floor[2] 2.3 floor[4] 0.4
 x[8] floor[5] 1.2 floor[6] 7.1
 x[8] floor[7] 2 floor[8] 6.3
 x[8] floor[9] 9.4 floor[10] 2.4
 x[8] floor[11] 6.5 floor[13] 7.6
 x[8] floor[14] 3.5 floor[15] 0.3
 x[8] floor[16] 8.1 floor[18] 4.8
 x[8] floor[19] 9.2 floor[20] 16.8
 x[8] floor[21] 14.7 floor[22] 7.5
 x[8] floor[24] 9 floor[25] 1.4
 x[8] floor[26] 4.9 floor[27] 16.4
 x[8] floor[28] 9.2 floor[29] 8.5
 x[8] floor[30] 13.7 ceiling[2] 2.3
 x[8] ceiling[4] 0.4 ceiling[5] 1.2
 x[8] ceiling[6] 7.1
 x[9] cost 0.47 mass 1
 x[9] floor[1] 0.8 floor[2] 2.4
 x[9] floor[3] 1.7 floor[4] 5.2
 x[9] floor[5] 2.6 floor[6] 3.7
 x[9] floor[7] 0.5 floor[8] 7.2
 x[9] floor[9] 0.3 floor[10] 6.7
 x[9] floor[11] 1.9 floor[12] 10.8
 x[9] floor[13] 7.7 floor[14] 1
 x[9] floor[15] 5.9 floor[16] 11.3
 x[9] floor[17] 10.4 floor[19] 0.6
 x[9] floor[20] 2.7 floor[21] 4.7
 x[9] floor[22] 8.5 floor[23] 1.4
 x[9] floor[24] 4.3 floor[25] 20.7
 x[9] floor[27] 20 floor[28] 19.1
 x[9] floor[29] 6.6 floor[30] 7.6
 x[9] ceiling[1] 0.8 ceiling[2] 2.4
 x[9] ceiling[3] 1.7 ceiling[4] 5.2
 x[9] ceiling[5] 2.6 ceiling[6] 3.7
 x[10] cost 0.311 mass 1
 x[10] floor[1] 2.2 floor[3] 1
 x[10] floor[5] 6.1 floor[6] 4.6
 x[10] floor[7] 4.5 floor[9] 0.4
 x[10] floor[11] 3 floor[12] 6.5
 x[10] floor[15] 6.2 floor[16] 11.9
 x[10] floor[17] 14.9 floor[18] 0.5
 x[10] floor[19] 1.7 floor[20] 13
 x[10] floor[21] 8.1 floor[22] 5.4
 x[10] floor[23] 5 floor[24] 4.1
 x[10] floor[25] 2.4 floor[26] 11.1
 x[10] floor[27] 15.9 floor[28] 16.1
 x[10] floor[29] 19.4 floor[30] 0.7
 x[10] ceiling[1] 2.2 ceiling[3] 1
 x[10] ceiling[5] 6.1 ceiling[6] 4.6
 x[11] cost 0.666 mass 1
 x[11] floor[1] 0.8 floor[2] 2.3
 x[11] floor[3] 3.9 floor[4] 3.9
 x[11] floor[5] 4.4 floor[8] 1.1
 x[11] floor[9] 1 floor[10] 9.7
 x[11] floor[12] 8.7 floor[13] 12.5
 x[11] floor[14] 12.4 floor[15] 14.8
 x[11] floor[16] 14.8 floor[17] 11.8
 x[11] floor[18] 8.3 floor[20] 18.5
 x[11] floor[21] 0.2 floor[22] 13.7
 x[11] floor[23] 3.8 floor[25] 23.6
 x[11] floor[26] 0.4 floor[27] 17.1
 x[11] floor[28] 21.5 floor[29] 15.4
 x[11] floor[30] 1.8 ceiling[1] 0.8
 x[11] ceiling[2] 2.3 ceiling[3] 3.9
 x[11] ceiling[4] 3.9 ceiling[5] 4.4
 x[12] cost 0.652 mass 1
 x[12] floor[1] 0.8 floor[2] 2.2
 x[12] floor[3] 0.8 floor[4] 3.2
 x[12] floor[5] 3.9 floor[6] 2
 x[12] floor[7] 7.9 floor[8] 4.1
 x[12] floor[9] 8.6 floor[10] 1.4
 x[12] floor[11] 2.7 floor[12] 5
 x[12] floor[13] 6.2 floor[14] 6.6
 x[12] floor[15] 11 floor[16] 7.4
 x[12] floor[18] 2.9 floor[19] 12.7
 x[12] floor[21] 9.3 floor[22] 16.1
 x[12] floor[24] 15.5 floor[26] 21.3
 x[12] floor[27] 10.4 floor[29] 27.9
 x[12] floor[30] 16.6 ceiling[1] 0.8
 x[12] ceiling[2] 2.2 ceiling[3] 0.8
 x[12] ceiling[4] 3.2 ceiling[5] 3.9
 x[12] ceiling[6] 2
 x[13] cost 0.309 mass 1
 x[13] floor[1] 1.4 floor[2] 3.6
 x[13] floor[3] 1.5 floor[5] 0.9
 x[13] floor[7] 5 floor[8] 7.5
 x[13] floor[9] 3.5 floor[10] 5.5
 x[13] floor[12] 7.2 floor[13] 0.9
 x[13] floor[14] 0.7 floor[16] 5.5
 x[13] floor[17] 12.4 floor[18] 9.7
 x[13] floor[19] 4.5 floor[21] 18.6
 x[13] floor[22] 17.8 floor[23] 13.2
 x[13] floor[24] 11.2 floor[25] 18.1
 x[13] floor[26] 14.9 floor[28] 8.4
 x[13] floor[29] 12.7 floor[30] 22.3
 x[13] ceiling[1] 1.4 ceiling[2] 3.6
 x[13] ceiling[3] 1.5 ceiling[5] 0.9
 x[14] cost 0.74 mass 1
 x[14] floor[1] 0.8 floor[2] 2.4
 x[14] floor[3] 1.9 floor[5] 3.9
 x[14] floor[6] 2.6 floor[7] 3
 x[14] floor[8] 7.7 floor[9] 0.7
 x[14] floor[10] 3.4 floor[11] 4.4
 x[14] floor[14] 12.5 floor[15] 12.7
 x[14] floor[16] 5.9 floor[17] 16.7
 x[14] floor[18] 16.2 floor[19] 15.5
 x[14] floor[20] 9.6 floor[21] 20.5
 x[14] floor[22] 16.2 floor[23] 20.7
 x[14] floor[24] 23.4 floor[26] 22.9
 x[14] floor[28] 11.7 floor[29] 4.9
 x[14] floor[30] 20.7 ceiling[1] 0.8
 x[14] ceiling[2] 2.4 ceiling[3] 1.9
 x[14] ceiling[5] 3.9 ceiling[6] 2.6
 x[15] cost 0.179 mass 1
 x[15] floor[1] 2.5 floor[2] 0.3
 x[15] floor[3] 3.2 floor[4] 1.2
 x[15] floor[5] 2 floor[6] 6.1
 x[15] floor[7] 2 floor[8] 4.9
 x[15] floor[9] 7.4 floor[10] 7.1
 x[15] floor[11] 10.7 floor[12] 9
 x[15] floor[13] 9.7 floor[14] 10.9
 x[15] floor[15] 8.4 floor[16] 8
 x[15] floor[17] 0.5 floor[18] 17.1
 x[15] floor[19] 6.4 floor[20] 13.3
 x[15] floor[21] 19.5 floor[22] 5.4
 x[15] floor[23] 6.1 floor[24] 14.6
 x[15] floor[25] 3.9 floor[27] 8.8
 x[15] floor[29] 7.3 floor[30] 21.2
 x[15] ceiling[1] 2.5 ceiling[2] 0.3
 x[15] ceiling[3] 3.2 ceiling[4] 1.2
 x[15] ceiling[5] 2 ceiling[6] 6.1
 x[16] cost 0.419 mass 1
 x[16] floor[1] 0.7 floor[2] 1.9
 x[16] floor[3] 1.4 floor[4] 3.7
 x[16] floor[5] 4.3 floor[6] 6
 x[16] floor[7] 3 floor[8] 4
 x[16] floor[9] 5.1 floor[10] 1.8
 x[16] floor[11] 1.1 floor[13] 9.5
 x[16] floor[14] 10 floor[15] 5.4
 x[16] floor[16] 4.1 floor[17] 2.4
 x[16] floor[18] 16.9 floor[19] 12
 x[16] floor[20] 2.2 floor[21] 17
 x[16] floor[22] 3.2 floor[23] 8.6
 x[16] floor[24] 9.1 floor[25] 1.4
 x[16] floor[27] 20.1 floor[29] 25.1
 x[16] floor[30] 5.3 ceiling[1] 0.7
 x[16] ceiling[2] 1.9 ceiling[3] 1.4
 x[16] ceiling[4] 3.7 ceiling[5] 4.3
 x[16] ceiling[6] 6
 x[17] cost 0.704 mass 1
 x[17] floor[1] 0.7 floor[2] 0.9
 x[17] floor[3] 2.9 floor[4] 0.5
 x[17] floor[5] 0.1 floor[6] 6.9
 x[17] floor[7] 6.4 floor[8] 0.2
 x[17] floor[9] 2.6 floor[10] 0.8
 x[17] floor[11] 6.4 floor[13] 4.8
 x[17] floor[14] 8.6 floor[15] 4.7
 x[17] floor[16] 1.6 floor[17] 15.9
 x[17] floor[18] 16.8 floor[20] 6
 x[17] floor[21] 1.8 floor[24] 22.5
 x[17] floor[25] 10.2 floor[27] 12.5
 x[17] floor[28] 16.7 floor[29] 2.3
 x[17] floor[30] 3.6 ceiling[1] 0.7
 x[17] ceiling[2] 0.9 ceiling[3] 2.9
 x[17] ceiling[4] 0.5 ceiling[5] 0.1
 x[17] ceiling[6] 6.9
 x[18] cost 0.772 mass 1
 x[18] floor[1] 1.4 floor[2] 0.4
 x[18] floor[3] 1.4 floor[4] 3.1
 x[18] floor[5] 1.3 floor[6] 2.8
 x[18] floor[7] 6.7 floor[8] 0.5
 x[18] floor[9] 8.7 floor[10] 10.3
 x[18] floor[11] 4.4 floor[12] 7.6
 x[18] floor[13] 1.1 floor[14] 9.6
 x[18] floor[15] 11.1 floor[16] 0.1
 x[18] floor[17] 1.6 floor[18] 16.7
 x[18] floor[19] 11.1 floor[21] 18.3
 x[18] floor[22] 5.5 floor[23] 7.8
 x[18] floor[25] 16.2 floor[26] 12.8
 x[18] floor[27] 13.3 floor[28] 8
 x[18] floor[29] 4.7 floor[30] 10.2
 x[18] ceiling[1] 1.4 ceiling[2] 0.4
 x[18] ceiling[3] 1.4 ceiling[4] 3.1
 x[18] ceiling[5] 1.3 ceiling[6] 2.8
 x[19] cost 0.321 mass 1
 x[19] floor[2] 0.4 floor[3] 0.4
 x[19] floor[4] 3.1 floor[6] 6.5
 x[19] floor[8] 3.2 floor[9] 7.4
 x[19] floor[10] 7.4 floor[11] 6.2
 x[19] floor[12] 3.6 floor[13] 10.7
 x[19] floor[14] 1.6 floor[15] 3.4
 x[19] floor[16] 6.5 floor[17] 9.3
 x[19] floor[19] 4.2 floor[20] 5.4
 x[19] floor[21] 1 floor[22] 11.8
 x[19] floor[23] 1.7 floor[24] 4.1
 x[19] floor[25] 13.8 floor[26] 17.6
 x[19] floor[27] 7.3 floor[28] 3.5
 x[19] floor[29] 9 floor[30] 4.9
 x[19] ceiling[2] 0.4 ceiling[3] 0.4
 x[19] ceiling[4] 3.1 ceiling[6] 6.5
 x[20] cost 0.251 mass 1
 x[20] floor[1] 0.8 floor[2] 1.9
 x[20] floor[3] 4.5 floor[4] 1.7
 x[20] floor[5] 4.9 floor[6] 2.7
 x[20] floor[7] 6.2 floor[8] 6.6
 x[20] floor[10] 2.3 floor[11] 9.5
 x[20] floor[12] 11.4 floor[13] 8.4
 x[20] floor[14] 10.1 floor[15] 7
 x[20] floor[16] 0.8 floor[17] 12.3
 x[20] floor[18] 9.8 floor[19] 4.7
 x[20] floor[20] 2.8 floor[21] 20.2
 x[20] floor[22] 1.3 floor[23] 22.1
 x[20] floor[24] 22 floor[25] 4.5
 x[20] floor[26] 13.1 floor[27] 18.9
 x[20] floor[28] 7.2 floor[29] 3.5
 x[20] ceiling[1] 0.8 ceiling[2] 1.9
 x[20] ceiling[3] 4.5 ceiling[4] 1.7
 x[20] ceiling[5] 4.9 ceiling[6] 2.7
 x[21] cost 0.65 mass 1
 x[21] floor[1] 1.8 floor[2] 0.1
 x[21] floor[3] 1.1 floor[4] 1.4
 x[21] floor[6] 5.7 floor[7] 7.9
 x[21] floor[8] 7.7 floor[9] 7.9
 x[21] floor[10] 2.2 floor[11] 9.2
 x[21] floor[12] 3.7 floor[13] 2.8
 x[21] floor[14] 5.3 floor[15] 6.5
 x[21] floor[17] 4.2 floor[18] 1.2
 x[21] floor[19] 1.3 floor[20] 9.2
 x[21] floor[21] 4.7 floor[22] 8.6
 x[21] floor[23] 3 floor[24] 7.4
 x[21] floor[25] 18.3 floor[26] 3.2
 x[21] floor[28] 21 floor[29] 5.5
 x[21] floor[30] 28.8 ceiling[1] 1.8
 x[21] ceiling[2] 0.1 ceiling[3] 1.1
 x[21] ceiling[4] 1.4 ceiling[6] 5.7
 x[22] cost 0.839 mass 1
 x[22] floor[1] 1 floor[3] 4.1
 x[22] floor[4] 4.7 floor[6] 3.8
 x[22] floor[7] 2.2 floor[8] 1.3
 x[22] floor[9] 5.4 floor[10] 10.5
 x[22] floor[11] 11.7 floor[13] 7
 x[22] floor[14] 12.7 floor[15] 15.3
 x[22] floor[16] 3.4 floor[17] 11.7
 x[22] floor[18] 16 floor[19] 17.8
 x[22] floor[20] 11.2 floor[22] 0.2
 x[22] floor[23] 1.7 floor[24] 17.5
 x[22] floor[25] 5.6 floor[26] 13.3
 x[22] floor[27] 13.1 floor[28] 10.5
 x[22] floor[29] 3.8 floor[30] 27.5
 x[22] ceiling[1] 1 ceiling[3] 4.1
 x[22] ceiling[4] 4.7 ceiling[6] 3.8
 x[23] cost 0.574 mass 1
 x[23] floor[2] 0.8 floor[3] 4.5
 x[23] floor[4] 2.9 floor[5] 3.2
 x[23] floor[6] 7.2 floor[7] 5.8
 x[23] floor[8] 0.2 floor[9] 0.7
 x[23] floor[10] 6.9 floor[11] 5.9
 x[23] floor[12] 8.9 floor[13] 4.3
 x[23] floor[14] 10.6 floor[15] 14.8
 x[23] floor[16] 4.9 floor[18] 11.3
 x[23] floor[19] 10.6 floor[20] 1.8
 x[23] floor[21] 17.9 floor[22] 10
 x[23] floor[23] 17.2 floor[24] 4.3
 x[23] floor[25] 6 floor[26] 5.9
 x[23] floor[27] 20.7 floor[28] 9.5
 x[23] floor[29] 11 floor[30] 27.4
 x[23] ceiling[2] 0.8 ceiling[3] 4.5
 x[23] ceiling[4] 2.9 ceiling[5] 3.2
 x[23] ceiling[6] 7.2
 x[24] cost 0.379 mass 1
 x[24] floor[1] 1.2 floor[2] 2
 x[24] floor[4] 1.4 floor[5] 2.1
 x[24] floor[7] 7.8 floor[8] 5.9
 x[24] floor[9] 8 floor[10] 8.7
 x[24] floor[12] 2.8 floor[13] 12.2
 x[24] floor[14] 12.8 floor[15] 12.7
 x[24] floor[16] 14.4 floor[17] 6.6
 x[24] floor[18] 7.5 floor[19] 0.9
 x[24] floor[20] 7.5 floor[21] 17.1
 x[24] floor[22] 21 floor[23] 18.5
 x[24] floor[24] 10.6 floor[25] 8.7
 x[24] floor[26] 8.7 floor[27] 8.6
 x[24] floor[28] 6.3 floor[29] 22.8
 x[24] floor[30] 2.5 ceiling[1] 1.2
 x[24] ceiling[2] 2 ceiling[4] 1.4
 x[24] ceiling[5] 2.1
 x[25] cost 0.669 mass 1
 x[25] floor[1] 1.4 floor[2] 3
 x[25] floor[3] 3.1 floor[7] 7.3
 x[25] floor[8] 1.3 floor[9] 1.5
 x[25] floor[11] 9.6 floor[12] 7.6
 x[25] floor[13] 11.3 floor[14] 13.2
 x[25] floor[15] 11.1 floor[16] 10.9
 x[25] floor[17] 0.6 floor[18] 3.9
 x[25] floor[20] 6.7 floor[21] 0.1
 x[25] floor[22] 15.7 floor[24] 6.1
 x[25] floor[25] 13.5 floor[26] 22
 x[25] floor[27] 19.1 floor[28] 17.3
 x[25] floor[29] 15 ceiling[1] 1.4
 x[25] ceiling[2] 3 ceiling[3] 3.1
 x[26] cost 0.553 mass 1
 x[26] floor[1] 1.7 floor[3] 1.2
 x[26] floor[5] 6.2 floor[6] 1.4
 x[26] floor[7] 4.2 floor[8] 8.1
 x[26] floor[9] 8.6 floor[10] 8.7
 x[26] floor[12] 10.6 floor[13] 8.2
 x[26] floor[14] 8 floor[15] 6
 x[26] floor[17] 14.5 floor[18] 11
 x[26] floor[19] 10.8 floor[20] 18.7
 x[26] floor[21] 6.6 floor[22] 8.6
 x[26] floor[23] 17.5 floor[24] 3.1
 x[26] floor[26] 8.3 floor[27] 13.8
 x[26] floor[28] 14.6 floor[29] 1.5
 x[26] floor[30] 28.4 ceiling[1] 1.7
 x[26] ceiling[3] 1.2 ceiling[5] 6.2
 x[26] ceiling[6] 1.4
 x[27] cost 0.822 mass 1
 x[27] floor[1] 1.3 floor[2] 0.4
 x[27] floor[3] 4 floor[4] 1.5
 x[27] floor[5] 1.6 floor[6] 4.5
 x[27] floor[7] 7.8 floor[8] 5.8
 x[27] floor[9] 9.2 floor[10] 3
 x[27] floor[11] 3.4 floor[12] 8
 x[27] floor[13] 11.1 floor[14] 9.4
 x[27] floor[15] 12.3 floor[16] 4.3
 x[27] floor[17] 6.5 floor[18] 11.6
 x[27] floor[19] 13.1 floor[20] 15.9
 x[27] floor[21] 9.9 floor[23] 10.1
 x[27] floor[24] 18.3 floor[25] 5.1
 x[27] floor[27] 25.3 floor[28] 13.8
 x[27] floor[29] 9.9 floor[30] 6.6
 x[27] ceiling[1] 1.3 ceiling[2] 0.4
 x[27] ceiling[3] 4 ceiling[4] 1.5
 x[27] ceiling[5] 1.6 ceiling[6] 4.5
 x[28] cost 0.545 mass 1
 x[28] floor[2] 2.5 floor[3] 3.7
 x[28] floor[4] 0.6 floor[5] 4.7
 x[28] floor[7] 6.4 floor[8] 0.8
 x[28] floor[9] 7.7 floor[10] 0.2
 x[28] floor[11] 8.4 floor[12] 6
 x[28] floor[13] 3.3 floor[14] 6.5
 x[28] floor[16] 7.7 floor[17] 3.6
 x[28] floor[19] 0.7 floor[20] 6.1
 x[28] floor[21] 6.5 floor[22] 9.4
 x[28] floor[23] 12.8 floor[24] 18.9
 x[28] floor[25] 13.7 floor[26] 23.4
 x[28] floor[27] 20.3 floor[28] 26.1
 x[28] floor[29] 13.1 floor[30] 8.3
 x[28] ceiling[2] 2.5 ceiling[3] 3.7
 x[28] ceiling[4] 0.6 ceiling[5] 4.7
 x[29] cost 0.733 mass 1
 x[29] floor[1] 0.8 floor[3] 0.4
 x[29] floor[4] 4.8 floor[5] 1.3
 x[29] floor[6] 3.5 floor[7] 0.8
 x[29] floor[8] 0.6 floor[9] 7.8
 x[29] floor[10] 1.3 floor[11] 9.7
 x[29] floor[12] 5.5 floor[13] 11
 x[29] floor[14] 7.8 floor[15] 1.9
 x[29] floor[16] 11.7 floor[17] 0.4
 x[29] floor[18] 7.8 floor[19] 11
 x[29] floor[21] 19 floor[23] 6.7
 x[29] floor[24] 22.3 floor[25] 19.4
 x[29] floor[26] 4.3 floor[27] 8.2
 x[29] floor[28] 21.8 floor[29] 17.1
 x[29] floor[30] 6.8 ceiling[1] 0.8
 x[29] ceiling[3] 0.4 ceiling[4] 4.8
 x[29] ceiling[5] 1.3 ceiling[6] 3.5
 x[30] cost 0.219 mass 1
 x[30] floor[1] 0.2 floor[2] 2
 x[30] floor[3] 4.4 floor[4] 1.6
 x[30] floor[5] 4.7 floor[6] 6.8
 x[30] floor[7] 5.8 floor[8] 2.2
 x[30] floor[9] 3.1 floor[10] 9.5
 x[30] floor[11] 2.9 floor[12] 2.3
 x[30] floor[13] 12.5 floor[14] 10.2
 x[30] floor[15] 10.9 floor[16] 15.8
 x[30] floor[17] 0.7 floor[18] 2.9
 x[30] floor[19] 18.5 floor[20] 5.9
 x[30] floor[21] 13.9 floor[22] 13.9
 x[30] floor[23] 18.8 floor[24] 15.2
 x[30] floor[26] 8.8 floor[27] 21.6
 x[30] floor[28] 16.4 floor[29] 2.1
 x[30] floor[30] 15.8 ceiling[1] 0.2
 x[30] ceiling[2] 2 ceiling[3] 4.4
 x[30] ceiling[4] 1.6 ceiling[5] 4.7
 x[30] ceiling[6] 6.8
 x[31] cost 0.28 mass 1
 x[31] floor[1] 0.2 floor[2] 3.6
 x[31] floor[3] 0.9 floor[4] 0.2
 x[31] floor[5] 3.6 floor[6] 0.4
 x[31] floor[7] 1.4 floor[8] 6.5
 x[31] floor[10] 10.7 floor[11] 11
 x[31] floor[13] 5.5 floor[14] 11.4
 x[31] floor[15] 15 floor[16] 14
 x[31] floor[18] 10.4 floor[19] 5.6
 x[31] floor[20] 5.7 floor[21] 4.8
 x[31] floor[22] 6 floor[23] 21.6
 x[31] floor[24] 10.2 floor[25] 10.8
 x[31] floor[26] 7.4 floor[27] 7.9
 x[31] floor[29] 12.1 floor[30] 0.6
 x[31] ceiling[1] 0.2 ceiling[2] 3.6
 x[31] ceiling[3] 0.9 ceiling[4] 0.2
 x[31] ceiling[5] 3.6 ceiling[6] 0.4
 x[32] cost 0.633 mass 1
 x[32] floor[1] 1.3 floor[2] 1.1
 x[32] floor[3] 2.1 floor[5] 0.3
 x[32] floor[6] 3.6 floor[7] 2.6
 x[32] floor[8] 5.5 floor[10] 7.9
 x[32] floor[12] 8.1 floor[13] 1
 x[32] floor[14] 0.9 floor[15] 9.7
 x[32] floor[16] 0.3 floor[17] 5.2
 x[32] floor[18] 10.2 floor[19] 10
 x[32] floor[20] 10 floor[22] 3.6
 x[32] floor[23] 2.4 floor[25] 6.6
 x[32] floor[26] 10.7 floor[27] 16.5
 x[32] floor[28] 11 floor[29] 14.2
 x[32] floor[30] 25.4 ceiling[1] 1.3
 x[32] ceiling[2] 1.1 ceiling[3] 2.1
 x[32] ceiling[5] 0.3 ceiling[6] 3.6
 x[33] cost 0.404 mass 1
 x[33] floor[1] 1.7 floor[2] 1.9
 x[33] floor[3] 4.5 floor[4] 3.2
 x[33] floor[5] 3.3 floor[6] 0.3
 x[33] floor[7] 6.1 floor[9] 0.2
 x[33] floor[10] 9.5 floor[11] 7.3
 x[33] floor[12] 0.3 floor[13] 13.1
 x[33] floor[15] 15.2 floor[16] 3.2
 x[33] floor[17] 13.5 floor[18] 4.1
 x[33] floor[19] 1 floor[20] 1.9
 x[33] floor[21] 19 floor[23] 22.2
 x[33] floor[24] 2 floor[25] 11.8
 x[33] floor[26] 8.5 floor[27] 19.5
 x[33] floor[29] 24 floor[30] 18.1
 x[33] ceiling[1] 1.7 ceiling[2] 1.9
 x[33] ceiling[3] 4.5 ceiling[4] 3.2
 x[33] ceiling[5] 3.3 ceiling[6] 0.3
 x[34] cost 0.807 mass 1
 x[34] floor[1] 2.6 floor[2] 2.7
 x[34] floor[3] 1.3 floor[4] 5
 x[34] floor[6] 5.6 floor[9] 0.8
 x[34] floor[10] 8.6 floor[11] 5.8
 x[34] floor[12] 9.3 floor[13] 0.1
 x[34] floor[15] 6.1 floor[16] 15.9
 x[34] floor[17] 6.1 floor[18] 10.7
 x[34] floor[19] 13.8 floor[20] 9.3
 x[34] floor[21] 8.9 floor[22] 8.4
 x[34] floor[23] 12.2 floor[25] 3.8
 x[34] floor[26] 2.2 floor[27] 24.4
 x[34] floor[28] 11.7 floor[29] 20.2
 x[34] floor[30] 6.2 ceiling[1] 2.6
 x[34] ceiling[2] 2.7 ceiling[3] 1.3
 x[34] ceiling[4] 5 ceiling[6] 5.6
 x[35] cost 0.444 mass 1
 x[35] floor[1] 1.9 floor[2] 0.2
 x[35] floor[3] 1.3 floor[4] 4
 x[35] floor[5] 2.1 floor[6] 5
 x[35] floor[7] 7.4 floor[8] 5.2
 x[35] floor[9] 2.7 floor[10] 3.8
 x[35] floor[11] 9.6 floor[13] 0.3
 x[35] floor[14] 14.3 floor[15] 12.9
 x[35] floor[16] 3.4 floor[17] 16.9
 x[35] floor[19] 10.7 floor[20] 0.5
 x[35] floor[21] 1.6 floor[22] 7.3
 x[35] floor[23] 16.9 floor[24] 2.3
 x[35] floor[25] 18.7 floor[26] 24.5
 x[35] floor[28] 24.7 floor[30] 3.9
 x[35] ceiling[1] 1.9 ceiling[2] 0.2
 x[35] ceiling[3] 1.3 ceiling[4] 4
 x[35] ceiling[5] 2.1 ceiling[6] 5
 x[36] cost 0.565 mass 1
 x[36] floor[1] 0.3 floor[2] 2
 x[36] floor[3] 1.9 floor[5] 4.8
 x[36] floor[6] 5.2 floor[7] 2.1
 x[36] floor[9] 3 floor[10] 9.2
 x[36] floor[11] 7.6 floor[12] 12.3
 x[36] floor[13] 1.4 floor[14] 4.8
 x[36] floor[15] 10.6 floor[16] 7.1
 x[36] floor[17] 11.3 floor[18] 17.7
 x[36] floor[19] 13.2 floor[20] 5.8
 x[36] floor[21] 11.4 floor[23] 2.6
 x[36] floor[24] 22.3 floor[25] 15.6
 x[36] floor[26] 3.9 floor[27] 19.2
 x[36] floor[28] 14 floor[29] 9.8
 x[36] floor[30] 11.4 ceiling[1] 0.3
 x[36] ceiling[2] 2 ceiling[3] 1.9
 x[36] ceiling[5] 4.8 ceiling[6] 5.2
 x[37] cost 0.393 mass 1
 x[37] floor[1] 1.1 floor[2] 0.5
 x[37] floor[3] 2.3 floor[4] 2.4
 x[37] floor[5] 0.1 floor[6] 2.9
 x[37] floor[8] 7.2 floor[9] 6.7
 x[37] floor[10] 10.4 floor[12] 5.3
 x[37] floor[13] 10.3 floor[14] 2.1
 x[37] floor[15] 3.4 floor[16] 15.3
 x[37] floor[18] 2.4 floor[19] 4.1
 x[37] floor[21] 2.7 floor[22] 6
 x[37] floor[24] 8.1 floor[25] 16.1
 x[37] floor[26] 2.7 floor[28] 16.3
 x[37] floor[29] 12 floor[30] 19.2
 x[37] ceiling[1] 1.1 ceiling[2] 0.5
 x[37] ceiling[3] 2.3 ceiling[4] 2.4
 x[37] ceiling[5] 0.1 ceiling[6] 2.9
 x[38] cost 0.792 mass 1
 x[38] floor[1] 2.5 floor[2] 1.5
 x[38] floor[3] 3.3 floor[6] 2.2
 x[38] floor[8] 7.3 floor[10] 6.8
 x[38] floor[11] 3.5 floor[12] 11.7
 x[38] floor[13] 6.2 floor[15] 9.3
 x[38] floor[16] 16 floor[17] 6.4
 x[38] floor[18] 7.1 floor[19] 1.7
 x[38] floor[20] 2.5 floor[21] 10.2
 x[38] floor[22] 2.8 floor[23] 11.5
 x[38] floor[24] 3.3 floor[25] 24.1
 x[38] floor[26] 24.9 floor[27] 22.9
 x[38] floor[28] 6.5 floor[29] 26.3
 x[38] floor[30] 5.8 ceiling[1] 2.5
 x[38] ceiling[2] 1.5 ceiling[3] 3.3
 x[38] ceiling[6] 2.2
 x[39] cost 0.577 mass 1
 x[39] floor[1] 1.7 floor[2] 2.5
 x[39] floor[3] 3.5 floor[4] 1.6
 x[39] floor[5] 3.2 floor[6] 1
 x[39] floor[7] 1.9 floor[8] 8.6
 x[39] floor[10] 2 floor[12] 12.4
 x[39] floor[13] 0.9 floor[14] 12.1
 x[39] floor[15] 13 floor[16] 3.2
 x[39] floor[17] 10.3 floor[18] 1.7
 x[39] floor[19] 18.5 floor[20] 8.8
 x[39] floor[21] 0.4 floor[22] 20.7
 x[39] floor[23] 6.8 floor[24] 10.8
 x[39] floor[25] 24.1 floor[26] 21.4
 x[39] floor[27] 0.1 floor[28] 4.8
 x[39] floor[29] 21.6 floor[30] 8.5
 x[39] ceiling[1] 1.7 ceiling[2] 2.5
 x[39] ceiling[3] 3.5 ceiling[4] 1.6
 x[39] ceiling[5] 3.2 ceiling[6] 1
 x[40] cost 0.606 mass 1
 x[40] floor[1] 2 floor[2] 0.5
 x[40] floor[3] 0.4 floor[4] 1.9
 x[40] floor[5] 5.5 floor[6] 5.7
 x[40] floor[7] 1.4 floor[8] 4
 x[40] floor[9] 4.7 floor[11] 3.7
 x[40] floor[12] 8.9 floor[13] 3.6
 x[40] floor[14] 6.9 floor[15] 5.5
 x[40] floor[17] 0.9 floor[18] 9.9
 x[40] floor[19] 15.1 floor[20] 8.4
 x[40] floor[22] 17.3 floor[23] 6.5
 x[40] floor[24] 17.6 floor[25] 15.4
 x[40] floor[26] 7.2 floor[27] 4.4
 x[40] floor[28] 3.4 floor[29] 26.8
 x[40] floor[30] 19.7 ceiling[1] 2
 x[40] ceiling[2] 0.5 ceiling[3] 0.4
 x[40] ceiling[4] 1.9 ceiling[5] 5.5
 x[40] ceiling[6] 5.7
 x[41] cost 0.378 mass 1
 x[41] floor[1] 2.5 floor[2] 3.3
 x[41] floor[4] 0.1 floor[5] 5.6
 x[41] floor[6] 5.4 floor[7] 0.3
 x[41] floor[8] 3 floor[9] 0.7
 x[41] floor[10] 10.5 floor[12] 10.2
 x[41] floor[13] 8 floor[14] 9.5
 x[41] floor[15] 8.9 floor[16] 2.4
 x[41] floor[18] 8.5 floor[19] 12.6
 x[41] floor[20] 13 floor[21] 6.2
 x[41] floor[22] 13.2 floor[23] 0.2
 x[41] floor[24] 6 floor[25] 6.6
 x[41] floor[27] 14.9 floor[28] 26.2
 x[41] floor[29] 8 floor[30] 23.1
 x[41] ceiling[1] 2.5 ceiling[2] 3.3
 x[41] ceiling[4] 0.1 ceiling[5] 5.6
 x[41] ceiling[6] 5.4
 x[42] cost 0.619 mass 1
 x[42] floor[1] 0.2 floor[2] 3.2
 x[42] floor[3] 3.4 floor[4] 5.2
 x[42] floor[5] 6.2 floor[6] 1.5
 x[42] floor[7] 0.6 floor[8] 5.2
 x[42] floor[9] 3.3 floor[10] 1.6
 x[42] floor[11] 3.1 floor[12] 4.8
 x[42] floor[14] 10.5 floor[15] 3.5
 x[42] floor[16] 11.9 floor[18] 2.1
 x[42] floor[19] 6.2 floor[20] 12.2
 x[42] floor[21] 18.7 floor[23] 10.9
 x[42] floor[24] 12.4 floor[25] 6.4
 x[42] floor[26] 13.2 floor[27] 17
 x[42] floor[29] 5.2 ceiling[1] 0.2
 x[42] ceiling[2] 3.2 ceiling[3] 3.4
 x[42] ceiling[4] 5.2 ceiling[5] 6.2
 x[42] ceiling[6] 1.5
 x[43] cost 0.689 mass 1
 x[43] floor[1] 1.2 floor[2] 2
 x[43] floor[3] 4.1 floor[4] 0.3
 x[43] floor[5] 1.4 floor[6] 3.4
 x[43] floor[7] 0.6 floor[8] 6.1
 x[43] floor[9] 7 floor[10] 1.9
 x[43] floor[11] 8.2 floor[13] 6
 x[43] floor[14] 2.1 floor[15] 12.9
 x[43] floor[16] 13.9 floor[17] 17
 x[43] floor[18] 6.6 floor[19] 14.5
 x[43] floor[20] 14.2 floor[21] 13.4
 x[43] floor[23] 14 floor[24] 22.6
 x[43] floor[25] 14.4 floor[26] 16
 x[43] floor[27] 10.4 floor[28] 19.2
 x[43] floor[29] 7.4 floor[30] 19.1
 x[43] ceiling[1] 1.2 ceiling[2] 2
 x[43] ceiling[3] 4.1 ceiling[4] 0.3
 x[43] ceiling[5] 1.4 ceiling[6] 3.4
 x[44] cost 0.701 mass 1
 x[44] floor[1] 1.2 floor[2] 3.5
 x[44] floor[4] 2.4 floor[5] 0.4
 x[44] floor[6] 3.4 floor[7] 3.3
 x[44] floor[8] 7.9 floor[9] 5.1
 x[44] floor[10] 10 floor[11] 11.7
 x[44] floor[12] 9.9 floor[13] 3.2
 x[44] floor[14] 8.8 floor[15] 5.7
 x[44] floor[17] 13.9 floor[18] 11.8
 x[44] floor[20] 12.5 floor[21] 11.3
 x[44] floor[22] 9.9 floor[23] 20.2
 x[44] floor[24] 3.8 floor[25] 15.7
 x[44] floor[26] 19.3 floor[27] 24.3
 x[44] floor[29] 23 floor[30] 21
 x[44] ceiling[1] 1.2 ceiling[2] 3.5
 x[44] ceiling[4] 2.4 ceiling[5] 0.4
 x[44] ceiling[6] 3.4
 x[45] cost 0.784 mass 1
 x[45] floor[1] 1.8 floor[2] 2.6
 x[45] floor[4] 3.5 floor[5] 3.9
 x[45] floor[6] 1.1 floor[7] 3.6
 x[45] floor[8] 2.3 floor[9] 6
 x[45] floor[10] 6.3 floor[11] 8.6
 x[45] floor[12] 1.5 floor[14] 4.9
 x[45] floor[15] 8.7 floor[17] 6
 x[45] floor[18] 9.6 floor[19] 2.4
 x[45] floor[20] 16.9 floor[21] 11.9
 x[45] floor[22] 4.6 floor[23] 2
 x[45] floor[24] 21.2 floor[25] 22.3
 x[45] floor[26] 11.1 floor[27] 7.9
 x[45] floor[29] 8.8 floor[30] 6.2
 x[45] ceiling[1] 1.8 ceiling[2] 2.6
 x[45] ceiling[4] 3.5 ceiling[5] 3.9
 x[45] ceiling[6] 1.1
 x[46] cost 0.717 mass 1
 x[46] floor[1] 2.2 floor[2] 2
 x[46] floor[3] 2.1 floor[5] 4.6
 x[46] floor[6] 6.6 floor[7] 3.6
 x[46] floor[8] 4.9 floor[9] 8.3
 x[46] floor[11] 8.9 floor[12] 2.8
 x[46] floor[13] 12.7 floor[14] 10.7
 x[46] floor[15] 13.3 floor[16] 0.5
 x[46] floor[17] 12.2 floor[18] 15.4
 x[46] floor[19] 10.3 floor[20] 1.2
 x[46] floor[21] 10.7 floor[22] 4.8
 x[46] floor[24] 22.3 floor[25] 5.3
 x[46] floor[27] 1.9 floor[29] 16.2
 x[46] floor[30] 14.7 ceiling[1] 2.2
 x[46] ceiling[2] 2 ceiling[3] 2.1
 x[46] ceiling[5] 4.6 ceiling[6] 6.6
 x[47] cost 0.342 mass 1
 x[47] floor[1] 2.4 floor[2] 1.4
 x[47] floor[3] 3 floor[4] 3.5
 x[47] floor[5] 1.5 floor[8] 1.4
 x[47] floor[9] 3.4 floor[10] 5.2
 x[47] floor[11] 10.2 floor[12] 0.3
 x[47] floor[15] 12.7 floor[16] 8.3
 x[47] floor[17] 0.8 floor[19] 4.4
 x[47] floor[20] 5.6 floor[21] 3.7
 x[47] floor[22] 6 floor[23] 6.2
 x[47] floor[24] 20.7 floor[25] 13.2
 x[47] floor[26] 3.2 floor[27] 12.6
 x[47] floor[28] 19.2 floor[29] 6.3
 x[47] ceiling[1] 2.4 ceiling[2] 1.4
 x[47] ceiling[3] 3 ceiling[4] 3.5
 x[47] ceiling[5] 1.5
 x[48] cost 0.43 mass 1
 x[48] floor[2] 0.1 floor[3] 4.1
 x[48] floor[4] 5.4 floor[5] 6.3
 x[48] floor[6] 1.7 floor[7] 6.2
 x[48] floor[8] 6.5 floor[9] 7.2
 x[48] floor[10] 0.1 floor[11] 2.4
 x[48] floor[12] 9 floor[13] 0.9
 x[48] floor[14] 12.3 floor[16] 6
 x[48] floor[17] 13.4 floor[19] 7.6
 x[48] floor[20] 15 floor[22] 20.2
 x[48] floor[23] 14 floor[24] 16.4
 x[48] floor[25] 19.6 floor[26] 4.5
 x[48] floor[27] 18 floor[28] 22.8
 x[48] floor[30] 10.9 ceiling[2] 0.1
 x[48] ceiling[3] 4.1 ceiling[4] 5.4
 x[48] ceiling[5] 6.3 ceiling[6] 1.7
 x[49] cost 0.548 mass 1
 x[49] floor[1] 2.6 floor[2] 2.9
 x[49] floor[3] 2.7 floor[4] 5.3
 x[49] floor[5] 6.1 floor[6] 6.8
 x[49] floor[7] 3.7 floor[8] 1.2
 x[49] floor[9] 6.5 floor[10] 7.5
 x[49] floor[11] 3 floor[12] 7.6
 x[49] floor[15] 4.8 floor[16] 4.4
 x[49] floor[17] 10 floor[18] 13.3
 x[49] floor[19] 15.2 floor[21] 13.1
 x[49] floor[22] 4.8 floor[23] 1.5
 x[49] floor[24] 21.8 floor[25] 3
 x[49] floor[26] 8.2 floor[28] 22.9
 x[49] floor[29] 14.7 floor[30] 15.4
 x[49] ceiling[1] 2.6 ceiling[2] 2.9
 x[49] ceiling[3] 2.7 ceiling[4] 5.3
 x[49] ceiling[5] 6.1 ceiling[6] 6.8
 x[50] cost 0.617 mass 1
 x[50] floor[1] 0.7 floor[2] 2.1
 x[50] floor[3] 3.3 floor[4] 0.6
 x[50] floor[6] 2.1 floor[7] 4.5
 x[50] floor[8] 4.6 floor[9] 9.9
 x[50] floor[10] 7.6 floor[11] 9.3
 x[50] floor[13] 5.7 floor[14] 10.9
 x[50] floor[15] 0.8 floor[16] 5.5
 x[50] floor[17] 12.2 floor[18] 17
 x[50] floor[19] 8.8 floor[20] 17.3
 x[50] floor[21] 10.9 floor[22] 8.6
 x[50] floor[23] 12.1 floor[24] 6.2
 x[50] floor[25] 17.5 floor[26] 21.7
 x[50] floor[29] 22.5 floor[30] 25.5
 x[50] ceiling[1] 0.7 ceiling[2] 2.1
 x[50] ceiling[3] 3.3 ceiling[4] 0.6
 x[50] ceiling[6] 2.1
 x[51] cost 0.603 mass 1
 x[51] floor[1] 2.5 floor[2] 2.7
 x[51] floor[4] 4.8 floor[5] 4.9
 x[51] floor[6] 5.1 floor[9] 6
 x[51] floor[10] 4.2 floor[11] 11.3
 x[51] floor[12] 0.4 floor[13] 4.3
 x[51] floor[14] 7.6 floor[15] 12.4
 x[51] floor[16] 15.5 floor[17] 4.8
 x[51] floor[18] 8.1 floor[19] 14.4
 x[51] floor[20] 14 floor[21] 18.8
 x[51] floor[22] 5.9 floor[23] 8.3
 x[51] floor[25] 19.4 floor[26] 19.2
 x[51] floor[28] 21 floor[29] 7.9
 x[51] floor[30] 12.9 ceiling[1] 2.5
 x[51] ceiling[2] 2.7 ceiling[4] 4.8
 x[51] ceiling[5] 4.9 ceiling[6] 5.1
 x[52] cost 0.694 mass 1
 x[52] floor[1] 2.1 floor[2] 3
 x[52] floor[3] 3.1 floor[4] 5.1
 x[52] floor[5] 1.7 floor[6] 2
 x[52] floor[7] 7.9 floor[9] 3.6
 x[52] floor[10] 4.4 floor[11] 11.1
 x[52] floor[12] 9.4 floor[13] 9.6
 x[52] floor[14] 4.1 floor[15] 5.6
 x[52] floor[16] 13.3 floor[17] 7.9
 x[52] floor[18] 13.4 floor[19] 7.4
 x[52] floor[20] 17 floor[21] 19.1
 x[52] floor[22] 2.1 floor[23] 3.3
 x[52] floor[25] 0.4 floor[26] 5.9
 x[52] floor[27] 9.2 floor[28] 15.6
 x[52] floor[29] 1.8 floor[30] 25.4
 x[52] ceiling[1] 2.1 ceiling[2] 3
 x[52] ceiling[3] 3.1 ceiling[4] 5.1
 x[52] ceiling[5] 1.7 ceiling[6] 2
 x[53] cost 0.331 mass 1
 x[53] floor[1] 2 floor[2] 1
 x[53] floor[3] 0.3 floor[5] 4.2
 x[53] floor[7] 6.9 floor[8] 4
 x[53] floor[9] 9 floor[10] 6.2
 x[53] floor[11] 2.1 floor[12] 0.4
 x[53] floor[13] 13 floor[15] 12.9
 x[53] floor[18] 15.8 floor[19] 17
 x[53] floor[20] 19.8 floor[21] 10.2
 x[53] floor[22] 8.2 floor[23] 11.5
 x[53] floor[24] 1.6 floor[26] 25.1
 x[53] floor[27] 9.8 floor[28] 0.7
 x[53] floor[29] 23.5 floor[30] 21.2
 x[53] ceiling[1] 2 ceiling[2] 1
 x[53] ceiling[3] 0.3 ceiling[5] 4.2
 x[54] cost 0.387 mass 1
 x[54] floor[1] 0.6 floor[2] 3.3
 x[54] floor[3] 0.1 floor[4] 2.3
 x[54] floor[5] 5 floor[6] 1.4
 x[54] floor[7] 6.7 floor[8] 1.1
 x[54] floor[9] 6.7 floor[10] 8.1
 x[54] floor[11] 3.2 floor[12] 6.6
 x[54] floor[13] 13.4 floor[14] 4.6
 x[54] floor[15] 14.7 floor[18] 11.6
 x[54] floor[19] 18.9 floor[20] 13.7
 x[54] floor[21] 15.2 floor[22] 11.7
 x[54] floor[23] 6.1 floor[24] 3.2
 x[54] floor[26] 5.4 floor[27] 25
 x[54] floor[28] 2.7 floor[30] 1.2
 x[54] ceiling[1] 0.6 ceiling[2] 3.3
 x[54] ceiling[3] 0.1 ceiling[4] 2.3
 x[54] ceiling[5] 5 ceiling[6] 1.4
 x[55] cost 0.311 mass 1
 x[55] floor[1] 2.1 floor[2] 0.8
 x[55] floor[3] 3 floor[4] 3
 x[55] floor[5] 6 floor[6] 3.8
 x[55] floor[7] 1.1 floor[8] 0.7
 x[55] floor[9] 6.2 floor[10] 8.8
 x[55] floor[11] 3.5 floor[13] 13.1
 x[55] floor[14] 5.8 floor[15] 15.3
 x[55] floor[17] 8.3 floor[18] 1.7
 x[55] floor[19] 6.2 floor[20] 2.3
 x[55] floor[21] 18.1 floor[22] 15.2
 x[55] floor[24] 2 floor[25] 6.4
 x[55] floor[27] 12.3 floor[28] 3.9
 x[55] floor[29] 9.2 floor[30] 12.1
 x[55] ceiling[1] 2.1 ceiling[2] 0.8
 x[55] ceiling[3] 3 ceiling[4] 3
 x[55] ceiling[5] 6 ceiling[6] 3.8
 x[56] cost 0.448 mass 1
 x[56] floor[1] 1.2 floor[2] 0.4
 x[56] floor[3] 4 floor[4] 4.1
 x[56] floor[5] 5.6 floor[7] 4.1
 x[56] floor[8] 5.1 floor[9] 0.4
 x[56] floor[10] 1.1 floor[11] 11.6
 x[56] floor[12] 11.8 floor[13] 6.4
 x[56] floor[14] 1 floor[15] 14.2
 x[56] floor[16] 7.2 floor[17] 13.6
 x[56] floor[18] 0.4 floor[19] 0.1
 x[56] floor[20] 8.8 floor[21] 0.4
 x[56] floor[22] 14.9 floor[23] 5.2
 x[56] floor[24] 23.1 floor[25] 0.6
 x[56] floor[26] 21.2 floor[27] 10.1
 x[56] floor[30] 21.3 ceiling[1] 1.2
 x[56] ceiling[2] 0.4 ceiling[3] 4
 x[56] ceiling[4] 4.1 ceiling[5] 5.6
 x[57] cost 0.716 mass 1
 x[57] floor[1] 1.6 floor[2] 2.9
 x[57] floor[3] 3.7 floor[4] 4.2
 x[57] floor[5] 5 floor[6] 2.3
 x[57] floor[7] 4 floor[8] 5.3
 x[57] floor[9] 6.5 floor[10] 1.4
 x[57] floor[11] 10.2 floor[12] 6.8
 x[57] floor[13] 1 floor[14] 0.1
 x[57] floor[15] 7.3 floor[16] 5.7
 x[57] floor[17] 16.9 floor[18] 4.1
 x[57] floor[19] 18 floor[20] 10.4
 x[57] floor[21] 10.6 floor[22] 15.8
 x[57] floor[24] 5.1 floor[25] 11
 x[57] floor[26] 16.7 floor[27] 5.1
 x[57] floor[28] 22.3 floor[29] 12.5
 x[57] floor[30] 1.6 ceiling[1] 1.6
 x[57] ceiling[2] 2.9 ceiling[3] 3.7
 x[57] ceiling[4] 4.2 ceiling[5] 5
 x[57] ceiling[6] 2.3
 x[58] cost 0.245 mass 1
 x[58] floor[1] 0.4 floor[2] 0.3
 x[58] floor[3] 1.1 floor[4] 4.4
 x[58] floor[5] 3.9 floor[6] 6
 x[58] floor[7] 8 floor[8] 3.5
 x[58] floor[9] 3.6 floor[10] 5
 x[58] floor[11] 5.9 floor[12] 8.4
 x[58] floor[13] 6.3 floor[14] 2.9
 x[58] floor[16] 12.3 floor[17] 16.7
 x[58] floor[18] 10.9 floor[19] 0.5
 x[58] floor[20] 12 floor[22] 19.7
 x[58] floor[23] 4.9 floor[24] 23.3
 x[58] floor[25] 3.6 floor[26] 19
 x[58] floor[27] 1.9 floor[28] 15.7
 x[58] floor[30] 15.5 ceiling[1] 0.4
 x[58] ceiling[2] 0.3 ceiling[3] 1.1
 x[58] ceiling[4] 4.4 ceiling[5] 3.9
 x[58] ceiling[6] 6
 x[59] cost 0.75 mass 1
 x[59] floor[1] 2.3 floor[2] 2.8
 x[59] floor[3] 2.6 floor[6] 5
 x[59] floor[7] 6.1 floor[8] 3.2
 x[59] floor[9] 7.5 floor[10] 8.3
 x[59] floor[11] 11.4 floor[12] 3
 x[59] floor[13] 9.8 floor[15] 2.5
 x[59] floor[16] 13 floor[17] 13.7
 x[59] floor[20] 8.2 floor[21] 20.7
 x[59] floor[22] 3.4 floor[23] 21.5
 x[59] floor[24] 18.6 floor[25] 14.4
 x[59] floor[26] 22.2 floor[27] 16
 x[59] floor[28] 5.9 floor[29] 1.5
 x[59] floor[30] 6.6 ceiling[1] 2.3
 x[59] ceiling[2] 2.8 ceiling[3] 2.6
 x[59] ceiling[6] 5
 x[60] cost 0.709 mass 1
 x[60] floor[1] 2.2 floor[2] 2.3
 x[60] floor[3] 3 floor[4] 1.6
 x[60] floor[5] 3.3 floor[7] 5.8
 x[60] floor[8] 6 floor[9] 7.6
 x[60] floor[10] 2.8 floor[11] 10.1
 x[60] floor[13] 2.3 floor[15] 12.8
 x[60] floor[16] 3.4 floor[17] 7.3
 x[60] floor[18] 8.6 floor[19] 18.3
 x[60] floor[20] 11.5 floor[21] 3.3
 x[60] floor[22] 1.4 floor[23] 11.3
 x[60] floor[24] 11.4 floor[25] 9.5
 x[60] floor[26] 5.8 floor[27] 15.8
 x[60] floor[28] 25.7 floor[29] 24.4
 x[60] ceiling[1] 2.2 ceiling[2] 2.3
 x[60] ceiling[3] 3 ceiling[4] 1.6
 x[60] ceiling[5] 3.3
 x[61] cost 0.373 mass 1
 x[61] floor[2] 2.6 floor[3] 0.5
 x[61] floor[4] 0.5 floor[6] 2.9
 x[61] floor[7] 4.9 floor[8] 4.4
 x[61] floor[10] 2.6 floor[11] 4.3
 x[61] floor[12] 3.8 floor[13] 1
 x[61] floor[14] 8 floor[15] 10.8
 x[61] floor[16] 12.9 floor[17] 17
 x[61] floor[18] 3.8 floor[19] 1.3
 x[61] floor[20] 10.7 floor[22] 1.6
 x[61] floor[23] 11.2 floor[25] 6.6
 x[61] floor[26] 13.5 floor[27] 2.7
 x[61] floor[28] 1.5 floor[29] 12.4
 x[61] floor[30] 13 ceiling[2] 2.6
 x[61] ceiling[3] 0.5 ceiling[4] 0.5
 x[61] ceiling[6] 2.9
 x[62] cost 0.405 mass 1
 x[62] floor[1] 0.2 floor[2] 2.6
 x[62] floor[3] 2.4 floor[4] 3.2
 x[62] floor[5] 0.3 floor[6] 0.2
 x[62] floor[7] 3.8 floor[9] 2
 x[62] floor[10] 2.6 floor[11] 7.4
 x[62] floor[13] 3.9 floor[15] 10.9
 x[62] floor[16] 14.7 floor[17] 5.6
 x[62] floor[18] 15.4 floor[19] 1.3
 x[62] floor[20] 1.2 floor[22] 2.8
 x[62] floor[24] 13.1 floor[25] 13.9
 x[62] floor[26] 13.1 floor[28] 22.8
 x[62] floor[29] 11.8 floor[30] 16.1
 x[62] ceiling[1] 0.2 ceiling[2] 2.6
 x[62] ceiling[3] 2.4 ceiling[4] 3.2
 x[62] ceiling[5] 0.3 ceiling[6] 0.2
 x[63] cost 0.292 mass 1
 x[63] floor[1] 2.1 floor[2] 3.3
 x[63] floor[3] 1.3 floor[4] 4.8
 x[63] floor[5] 3.7 floor[6] 0.5
 x[63] floor[7] 1.3 floor[8] 8.2
 x[63] floor[9] 6.4 floor[10] 6.2
 x[63] floor[11] 8.5 floor[12] 9.7
 x[63] floor[13] 1.7 floor[14] 11.4
 x[63] floor[15] 6 floor[16] 9.8
 x[63] floor[17] 13.9 floor[18] 0.4
 x[63] floor[19] 11.6 floor[20] 13.1
 x[63] floor[22] 19.8 floor[24] 21.5
 x[63] floor[25] 8.6 floor[27] 11.6
 x[63] floor[28] 23.9 floor[29] 22.4
 x[63] floor[30] 24.5 ceiling[1] 2.1
 x[63] ceiling[2] 3.3 ceiling[3] 1.3
 x[63] ceiling[4] 4.8 ceiling[5] 3.7
 x[63] ceiling[6] 0.5
 x[64] cost 0.443 mass 1
 x[64] floor[1] 2.2 floor[2] 1.2
 x[64] floor[3] 3.5 floor[5] 1.8
 x[64] floor[6] 3.9 floor[7] 2.9
 x[64] floor[9] 6.6 floor[10] 6.3
 x[64] floor[11] 9.9 floor[12] 1
 x[64] floor[13] 12.3 floor[14] 14.3
 x[64] floor[15] 8.9 floor[16] 6.4
 x[64] floor[17] 5.5 floor[18] 6
 x[64] floor[19] 12.6 floor[20] 12.5
 x[64] floor[22] 19.1 floor[23] 1.2
 x[64] floor[24] 4.9 floor[25] 14.7
 x[64] floor[26] 23.5 floor[27] 0.5
 x[64] floor[29] 10.8 floor[30] 14
 x[64] ceiling[1] 2.2 ceiling[2] 1.2
 x[64] ceiling[3] 3.5 ceiling[5] 1.8
 x[64] ceiling[6] 3.9
RHS
 RHS1 mass 1000 floor[1] 1200
 RHS1 floor[2] 1400 floor[3] 1500
 RHS1 floor[4] 2000 floor[5] 1900
 RHS1 floor[6] 2900 floor[7] 3600
 RHS1 floor[8] 2900 floor[9] 3600
 RHS1 floor[10] 4100 floor[11] 4100
 RHS1 floor[12] 4100 floor[13] 4500
 RHS1 floor[14] 5900 floor[15] 5900
 RHS1 floor[16] 6800 floor[17] 5600
 RHS1 floor[18] 6300 floor[19] 7300
 RHS1 floor[20] 6700 floor[21] 7800
 RHS1 floor[22] 7900 floor[23] 7200
 RHS1 floor[24] 8900 floor[25] 8700
 RHS1 floor[26] 9900 floor[27] 10300
 RHS1 floor[28] 10600 floor[29] 9400
 RHS1 floor[30] 8700 ceiling[1] 1600
 RHS1 ceiling[2] 2200 ceiling[3] 2700
 RHS1 ceiling[4] 2800 ceiling[5] 3500
 RHS1 ceiling[6] 4100
BOUNDS
 UP BND1 x[1] 200
 UP BND1 x[2] 200
 UP BND1 x[3] 200
 UP BND1 x[4] 200
 UP BND1 x[5] 200
 UP BND1 x[6] 200
 UP BND1 x[7] 200
 UP BND1 x[8] 200
 UP BND1 x[9] 200
 UP BND1 x[10] 200
 UP BND1 x[11] 200
 UP BND1 x[12] 200
 UP BND1 x[13] 200
 UP BND1 x[14] 200
 UP BND1 x[15] 200
 UP BND1 x[16] 200
 UP BND1 x[17] 200
 UP BND1 x[18] 200
 UP BND1 x[19] 200
 UP BND1 x[20] 200
 UP BND1 x[21] 200
 UP BND1 x[22] 200
 UP BND1 x[23] 200
 UP BND1 x[24] 200
 UP BND1 x[25] 200
 UP BND1 x[26] 200
 UP BND1 x[27] 200
 UP BND1 x[28] 200
 UP BND1 x[29] 200
 UP BND1 x[30] 200
 UP BND1 x[31] 200
 UP BND1 x[32] 200
 UP BND1 x[33] 200
 UP BND1 x[34] 200
 UP BND1 x[35] 200
 UP BND1 x[36] 200
 UP BND1 x[37] 200
 UP BND1 x[38] 200
 UP BND1 x[39] 200
 UP BND1 x[40] 200
 UP BND1 x[41] 200
 UP BND1 x[42] 200
 UP BND1 x[43] 200
 UP BND1 x[44] 200
 UP BND1 x[45] 200
 UP BND1 x[46] 200
 UP BND1 x[47] 200
 UP BND1 x[48] 200
 UP BND1 x[49] 200
 UP BND1 x[50] 200
 UP BND1 x[51] 200
 UP BND1 x[52] 200
 UP BND1 x[53] 200
 UP BND1 x[54] 200
 UP BND1 x[55] 200
 UP BND1 x[56] 200
 UP BND1 x[57] 200
 UP BND1 x[58] 200
 UP BND1 x[59] 200
 UP BND1 x[60] 200
 UP BND1 x[61] 200
 UP BND1 x[62] 200
 UP BND1 x[63] 200
 UP BND1 x[64] 200
ENDATA
