# examples/pig_grower.txt for GLPK.
param feeds, integer;
param nutrients, integer;
param floors, integer;
param ceilings, integer;
param low{1..floors}, integer;
param high{1..ceilings}, integer;
param batch;
param price{1..feeds};
param top{1..feeds};
param least{1..floors};
param most{1..ceilings};
param a{1..feeds, 1..nutrients};

var x{i in 1..feeds} >= (if i = 16 then 5 else 0), <= top[i];

minimize cost: sum{i in 1..feeds} price[i] * x[i];

s.t. mass: sum{i in 1..feeds} x[i] = batch;
s.t. floor{k in 1..floors}: sum{i in 1..feeds} a[i, low[k]] * x[i] >= least[k] * batch;
s.t. ceiling{k in 1..ceilings}: sum{i in 1..feeds} a[i, high[k]] * x[i] <= most[k] * batch;
s.t. cereals: sum{i in 1..3} x[i] >= 0.45 * batch;

data;
param feeds := 16;
param nutrients := 10;
param floors := 8;
param ceilings := 4;
param batch := 1000;
param low := 1 1 2 4 3 5 4 6 5 7 6 8 7 9 8 10;
param least := 1 9.8 2 10.2 3 5.9 4 6.6 5 1.7 6 6.5 7 2.7 8 1.5;
param high := 1 2 2 3 3 8 4 10;
param most := 1 17.5 2 5.5 3 8 4 2;
param price := 1 0.208 2 0.221 3 0.226 4 0.174 5 0.412 6 0.287 7 0.241 8 0.302 9 0.935 10 0.055 11 0.680 12 0.110 13 1.450 14 2.600 15 1.550 16 0.900;
param top := 1 400 2 450 3 400 4 150 5 300 6 100 7 60 8 150 9 40 10 20 11 20 12 6 13 5 14 3 15 3 16 5;
param a : 1 2 3 4 5 6 7 8 9 10 :=
  1 9.6 10.1 4.6 2.8 3.2 2.5 1.0 0.7 1.1 0.1
  2 10.5 10.5 2.2 2.5 3.7 2.6 1.1 0.7 1.0 0.1
  3 11.2 8.1 2.2 1.9 3.1 2.4 0.5 0.4 0.7 0.04
  4 8.0 15.2 7.6 4.3 4.1 3.6 1.6 1.4 2.5 0.1
  5 8.1 45.3 3.9 25.6 11.6 15.6 5.4 3.4 2.3 0.2
  6 6.3 33.7 12.4 13.6 12.7 10.8 3.4 8.3 3.1 0.4
  7 5.4 33.4 21.2 9.4 12.3 9.6 3.6 3.9 1.8 0.3
  8 9.7 20.7 5.2 12.9 3.6 6.0 1.3 1.1 1.7 0.1
  9 29.8 0 0 0 0 0 0 0 0 0
  10 0 0 0 0 0 0 0 390 0 0.5
  11 0 0 0 0 0 0 0 160 190 0.6
  12 0 0 0 0 0 0 0 0 0 390
  13 11.9 95.4 0 780 0 0 0 0 0 0
  14 14.0 58.4 0 0 990 0 0 0 0 0
  15 10.3 73.5 0 0 0 985 0 0 0 0
  16 0 0 0 0 0 0 0 0 0 0;
end;
