SET SCALE 2 ROUNDING HALF_UP;
INPUT "Tab_1.x" ("a" TEXT) KEY ("a");
INPUT "filter" ("a" TEXT) KEY ("a");
EXPORT "filter";
EXPORT "Tab_1.x";
