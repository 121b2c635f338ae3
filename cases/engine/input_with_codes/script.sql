SET SCALE 2 ROUNDING HALF_UP;
INPUT "T" ("a" TEXT CODES ('A', 'it''s', 'é'), "b" INTEGER) KEY ("a");
EXPORT "T";
