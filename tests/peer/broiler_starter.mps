* Problem:    broiler_starter
* Class:      LP
* Rows:       16
* Columns:    14
* Non-zeros:  118
* Format:     Free MPS
*
NAME broiler_starter
ROWS
 N cost
 E all
 E me_row
 G lys_row
 L protein_row
 G ideal[1]
 G ideal[2]
 G ideal[3]
 G ca_least
 L ca_most
 G p_least
 G deb_least
 L deb_most
 L ca_to_p
 G na
 G cereals
COLUMNS
 x[1] cost 22.4 all 1
 x[1] me_row 13.8 lys_row 0.22
 x[1] protein_row 8.2 ideal[1] 0.1772
 x[1] ideal[2] 0.1048 ideal[3] 0.184
 x[1] ca_least 0.02 ca_most 0.02
 x[1] p_least 0.09 deb_least 73
 x[1] deb_most 73 ca_to_p -0.178
 x[1] cereals 1
 x[2] cost 21.9 all 1
 x[2] me_row 13 lys_row 0.27
 x[2] protein_row 11.2 ideal[1] 0.2002
 x[2] ideal[2] 0.1018 ideal[3] 0.224
 x[2] ca_least 0.05 ca_most 0.05
 x[2] p_least 0.14 deb_least 88
 x[2] deb_most 88 ca_to_p -0.258
 x[2] cereals 1
 x[3] cost 41.6 all 1
 x[3] me_row 9.9 lys_row 2.58
 x[3] protein_row 46.2 ideal[1] -0.6992
 x[3] ideal[2] -0.1028 ideal[3] -0.084
 x[3] ca_least 0.3 ca_most 0.3
 x[3] p_least 0.22 deb_least 510
 x[3] deb_most 510 ca_to_p -0.184
 x[4] cost 28.9 all 1
 x[4] me_row 7.6 lys_row 1.52
 x[4] protein_row 34.4 ideal[1] 0.1852
 x[4] ideal[2] 0.1968 ideal[3] 0.184
 x[4] ca_least 0.75 ca_most 0.75
 x[4] p_least 0.34 deb_least 310
 x[4] deb_most 310 ca_to_p 2.0000000E-3
 x[5] cost 148 all 1
 x[5] me_row 12.6 lys_row 4.55
 x[5] protein_row 65.2 ideal[1] -1.087
 x[5] ideal[2] -0.543 ideal[3] -0.73
 x[5] ca_least 4.3 ca_most 4.3
 x[5] p_least 2.3 deb_least 260
 x[5] deb_most 260 ca_to_p -0.76
 x[6] cost 93 all 1
 x[6] me_row 36.2
 x[7] cost 5.4 all 1
 x[7] ca_least 38.5 ca_most 38.5
 x[7] ca_to_p 38.5
 x[8] cost 67 all 1
 x[8] ca_least 16 ca_most 16
 x[8] p_least 21.8 ca_to_p -31.96
 x[9] cost 11 all 1
 x[9] deb_least 10 deb_most 10
 x[9] na 39
 x[10] cost 29 all 1
 x[10] deb_least 11900 deb_most 11900
 x[10] na 27
 x[11] cost 310 all 1
 x[11] me_row 21.1 protein_row 58.6
 x[11] ideal[1] 99
 x[12] cost 146 all 1
 x[12] me_row 16.7 lys_row 78
 x[12] protein_row 94.4 ideal[1] -57.72
 x[12] ideal[2] -51.48 ideal[3] -62.4
 x[12] deb_least -5470 deb_most -5470
 x[13] cost 168 all 1
 x[13] me_row 14.6 protein_row 72.4
 x[13] ideal[2] 98.5
 x[14] cost 95 all 1
RHS
 RHS1 all 100 me_row 1250
 RHS1 lys_row 122 protein_row 2300
 RHS1 ca_least 96 ca_most 102
 RHS1 p_least 48 deb_least 20000
 RHS1 deb_most 25000 na 16
 RHS1 cereals 50
BOUNDS
 UP BND1 x[1] 70
 LO BND1 x[2] 10
 UP BND1 x[2] 70
 UP BND1 x[3] 70
 UP BND1 x[4] 5
 UP BND1 x[5] 4
 UP BND1 x[6] 4.5
 UP BND1 x[7] 70
 UP BND1 x[8] 70
 UP BND1 x[9] 0.35
 UP BND1 x[10] 70
 UP BND1 x[11] 70
 UP BND1 x[12] 70
 UP BND1 x[13] 70
 FX BND1 x[14] 0.5
ENDATA
