# examples/vitamin_premix.txt for GLPK. Pairs of floor and ceiling are ranged rows.
param n, integer;
param m, integer;
param batch;
param price{1..n};
param a{1..n, 1..m};
param least{1..m};
param most{1..m};
param low{1..n};
param top{1..n};

var x{i in 1..n} >= low[i], <= top[i];

minimize cost: sum{i in 1..n} price[i] * x[i];

s.t. mass: sum{i in 1..n} x[i] = batch;
s.t. vitamin{j in 1..m}: least[j] * batch <= sum{i in 1..n} a[i, j] * x[i] <= most[j] * batch;
s.t. limestone: x[8] - 0.5 * x[7] >= 0;
s.t. concentrates: 0.05 * batch <= sum{i in 1..6} x[i] <= 0.08 * batch;

data;
param n := 8;
param m := 5;
param batch := 100;
param price := 1 38 2 12.5 3 44 4 7.5 5 9.2 6 26 7 0.16 8 0.05;
param a : 1 2 3 4 5 :=
  1 1000 0 0 0 0
  2 0 500 0 0 0
  3 1000 200 0 0 0
  4 0 0 500 0 0
  5 0 0 0 437 0
  6 0 0 0 0 800
  7 0 0 0.02 0 0.0019
  8 0 0 0 0 0;
param least := 1 10 2 2.5 3 20 4 2.4 5 6;
param most := 1 12 2 3 3 30 4 3 5 9;
param low := 1 0.1 2 0.1 3 0.1 4 0 5 0 6 0 7 20 8 20;
param top := 1 2 2 2 3 2 4 8 5 2 6 2 7 80 8 60;
end;
