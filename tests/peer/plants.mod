# examples/plants.txt for GLPK.
param raws, integer;
param mills, integer;
param recipes, integer;
param groups, integer;
param first{1..groups}, integer;
param last{1..groups}, integer;
param demand{1..mills, 1..recipes}, integer;
param stock{1..raws};
param price{1..raws};
param freight{1..mills};
param protein{1..raws};
param wanted{1..recipes};
param least{1..groups, 1..recipes};
param most{1..groups, 1..recipes};
param intake{1..mills};
param load;

var trucks{m in 1..mills}, integer, >= 0, <= intake[m];
var x{i in 1..raws, m in 1..mills, r in 1..recipes} >= 0;

minimize cost:
  sum{i in 1..raws, m in 1..mills, r in 1..recipes} (price[i] + freight[m]) * x[i, m, r]
  + 35 * sum{m in 1..mills} trucks[m];

s.t. made{m in 1..mills, r in 1..recipes}: sum{i in 1..raws} x[i, m, r] = demand[m, r];
s.t. store{i in 1..raws}: sum{m in 1..mills, r in 1..recipes} x[i, m, r] <= stock[i];
s.t. group_least{m in 1..mills, r in 1..recipes, g in 1..groups}:
  sum{i in first[g]..last[g]} x[i, m, r] >= least[g, r] * demand[m, r];
s.t. group_most{m in 1..mills, r in 1..recipes, g in 1..groups}:
  sum{i in first[g]..last[g]} x[i, m, r] <= most[g, r] * demand[m, r];
s.t. protein_row{m in 1..mills, r in 1..recipes}:
  sum{i in 1..raws} protein[i] * x[i, m, r] >= wanted[r] * demand[m, r];
s.t. bring{m in 1..mills}: sum{i in 1..raws, r in 1..recipes} x[i, m, r] - load * trucks[m] <= 0;
s.t. all_intake: sum{m in 1..mills} trucks[m] <= sum{m in 1..mills} intake[m] - 4;

data;
param raws := 8;
param mills := 3;
param recipes := 2;
param groups := 3;
param load := 28;
param first := 1 1 2 4 3 7;
param last := 1 3 2 6 3 8;
param stock := 1 500 2 420 3 380 4 190 5 260 6 210 7 160 8 90;
param price := 1 208 2 221 3 226 4 412 5 287 6 241 7 174 8 188;
param freight := 1 6.5 2 11.25 3 9;
param protein := 1 10.1 2 10.5 3 8.1 4 45.3 5 33.7 6 33.4 7 15.2 8 6.4;
param wanted := 1 16.5 2 14;
param intake := 1 24 2 26 3 12;
param demand : 1 2 :=
  1 420 180
  2 260 340
  3 150 90;
param least (tr) : 1 2 3 :=
  1 0.45 0.15 0
  2 0.50 0.05 0.05;
param most (tr) : 1 2 3 :=
  1 0.70 0.40 0.20
  2 0.80 0.30 0.30;
end;
