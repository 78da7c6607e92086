# examples/broiler_starter.txt for GLPK.
param feeds, integer;
param acids, integer;
param price{1..feeds};
param energy{1..feeds};
param protein{1..feeds};
param lysine{1..feeds};
param acid{1..acids, 1..feeds};
param ratio{1..acids};
param calcium{1..feeds};
param phosphorus{1..feeds};
param charge{1..feeds};
param me;
param lys;
param sodium := 16;
param lower{i in 1..feeds} := if i = 2 then 10 else if i = 14 then 0.5 else 0;
param upper{i in 1..feeds} :=
  if i = 4 then 5 else if i = 5 then 4 else if i = 6 then 4.5 else if i = 9 then 0.35 else if i = 14 then 0.5 else 70;

var x{i in 1..feeds} >= lower[i], <= upper[i];

minimize cost: sum{i in 1..feeds} price[i] * x[i];

s.t. all: sum{i in 1..feeds} x[i] = 100;
s.t. me_row: sum{i in 1..feeds} energy[i] * x[i] = 100 * me;
s.t. lys_row: sum{i in 1..feeds} lysine[i] * x[i] >= 100 * lys;
s.t. protein_row: sum{i in 1..feeds} protein[i] * x[i] <= 2300;
s.t. ideal{k in 1..acids}: sum{i in 1..feeds} (acid[k, i] - ratio[k] * lysine[i]) * x[i] >= 0;
s.t. ca_least: sum{i in 1..feeds} calcium[i] * x[i] >= 0.96 * 100;
s.t. ca_most: sum{i in 1..feeds} calcium[i] * x[i] <= 1.02 * 100;
s.t. p_least: sum{i in 1..feeds} phosphorus[i] * x[i] >= 0.48 * 100;
s.t. deb_least: sum{i in 1..feeds} charge[i] * x[i] >= 20000;
s.t. deb_most: sum{i in 1..feeds} charge[i] * x[i] <= 25000;
s.t. ca_to_p: sum{i in 1..feeds} (calcium[i] - 2.2 * phosphorus[i]) * x[i] <= 0;
s.t. na: 39 * x[9] + 27 * x[10] >= sodium;
s.t. cereals: x[1] + x[2] >= 50;

data;
param feeds := 14;
param acids := 3;
param me := 12.5;
param lys := 1.22;
param price := 1 22.4 2 21.9 3 41.6 4 28.9 5 148 6 93 7 5.4 8 67 9 11 10 29 11 310 12 146 13 168 14 95;
param energy := 1 13.8 2 13.0 3 9.9 4 7.6 5 12.6 6 36.2 7 0 8 0 9 0 10 0 11 21.1 12 16.7 13 14.6 14 0;
param protein := 1 8.2 2 11.2 3 46.2 4 34.4 5 65.2 6 0 7 0 8 0 9 0 10 0 11 58.6 12 94.4 13 72.4 14 0;
param lysine := 1 0.22 2 0.27 3 2.58 4 1.52 5 4.55 6 0 7 0 8 0 9 0 10 0 11 0 12 78 13 0 14 0;
param ratio := 1 0.74 2 0.66 3 0.80;
param calcium := 1 0.02 2 0.05 3 0.30 4 0.75 5 4.30 6 0 7 38.5 8 16 9 0 10 0 11 0 12 0 13 0 14 0;
param phosphorus := 1 0.09 2 0.14 3 0.22 4 0.34 5 2.30 6 0 7 0 8 21.8 9 0 10 0 11 0 12 0 13 0 14 0;
param charge := 1 73 2 88 3 510 4 310 5 260 6 0 7 0 8 0 9 10 10 11900 11 0 12 -5470 13 0 14 0;
param acid (tr) : 1 2 3 :=
  1 0.34 0.25 0.36
  2 0.40 0.28 0.44
  3 1.21 1.60 1.98
  4 1.31 1.20 1.40
  5 2.28 2.46 2.91
  6 0 0 0
  7 0 0 0
  8 0 0 0
  9 0 0 0
  10 0 0 0
  11 99 0 0
  12 0 0 0
  13 0 98.5 0
  14 0 0 0;
end;
