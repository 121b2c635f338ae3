SET SCALE 2 ROUNDING HALF_UP;
INPUT "X" ("id" INTEGER, "i" INTEGER, "n" NUMBER, "s" TEXT, "b" BOOLEAN, "d" DATE, "p" PERIOD) KEY ("id");
CREATE TABLE "U" AS
  SELECT SUM("x"."i") AS "a", AVG("x"."n") AS "b", COUNT("x"."i") AS "c", MIN("x"."s") AS "d", MAX("x"."d") AS "e", MEDIAN("x"."i") AS "f", COUNT(*) AS "g"
  FROM "X" AS "x";
EXPORT "U";
