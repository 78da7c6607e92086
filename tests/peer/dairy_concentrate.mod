# examples/dairy_concentrate.txt for GLPK.
param feeds, integer;
param nutrients, integer;
param minerals, integer;
param tonnes, integer;
param batch := 1000 * tonnes;
param bag := 25;
param starch;
param sugar;
param price{1..feeds};
param least{1..nutrients};
param a{1..feeds, 1..nutrients};
param bagprice{1..minerals};
param c{1..minerals, 7..nutrients};

var b{i in 1..minerals}, integer, >= (if i = 3 then 1 else 0), <= (if i = 3 then 2 else 40);
var x{i in 1..feeds} >= (if i = 10 then 0.03 * batch else 0), <= (if i = 10 then 0.06 * batch else 0.4 * batch);

minimize cost: sum{i in 1..feeds} price[i] * x[i] + sum{i in 1..minerals} bagprice[i] * b[i];

s.t. mass: sum{i in 1..feeds} x[i] + sum{i in 1..minerals} bag * b[i] = batch;
s.t. needs{j in 1..3}: sum{i in 1..feeds} a[i, j] * x[i] >= least[j] * batch;
s.t. starchmost: sum{i in 1..feeds} a[i, 4] * x[i] <= starch * batch;
s.t. starchleast: sum{i in 1..feeds} a[i, 4] * x[i] >= least[4] * batch;
s.t. sugarmost: sum{i in 1..feeds} a[i, 5] * x[i] <= sugar * batch;
s.t. fatmost: sum{i in 1..feeds} a[i, 6] * x[i] <= 45 * batch;
s.t. mineral{j in 7..nutrients}:
  sum{i in 1..feeds} a[i, j] * x[i] + sum{i in 1..minerals} bag * c[i, j] * b[i] >= least[j] * batch;
s.t. pulps: x[6] - x[7] >= 0;
s.t. byproducts: x[3] + x[4] + x[5] <= 0.35 * batch;

data;
param feeds := 10;
param nutrients := 9;
param minerals := 3;
param tonnes := 3;
param starch := 260;
param sugar := 90;
param price := 1 0.214 2 0.229 3 0.171 4 0.196 5 0.205 6 0.242 7 0.236 8 0.409 9 0.281 10 0.188;
param least := 1 945 2 100 3 12 4 180 5 0 6 0 7 8.5 8 4.6 9 3.2;
param bagprice := 1 1.40 2 17.50 3 2.75;
param a : 1 2 3 4 5 6 7 8 9 :=
  1 1015 98 -26 520 28 21 0.7 3.4 1.1
  2 1068 99 -31 598 25 20 0.5 3.2 1.2
  3 880 96 18 205 58 36 1.3 9.8 4.2
  4 935 98 22 160 30 38 1.6 8.1 3.9
  5 905 64 -40 45 22 15 6.5 1.9 1.4
  6 965 98 -66 0 130 9 9.1 0.9 2.1
  7 985 72 -58 0 210 24 16.2 1.1 1.7
  8 1010 216 180 12 92 21 3.1 6.6 3.0
  9 805 140 132 18 88 27 7.8 10.9 5.1
  10 720 58 -8 0 480 1 2.2 0.4 0.6;
param c : 7 8 9 :=
  1 380 0 4
  2 2 0 520
  3 3 0 1;
end;
