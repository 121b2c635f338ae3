SET SCALE 2 ROUNDING HALF_UP;
INPUT "X" ("id" INTEGER, "i" INTEGER, "n" NUMBER, "s" TEXT, "b" BOOLEAN, "d" DATE, "p" PERIOD) KEY ("id");
CREATE TABLE "U" AS
  SELECT MIN("x"."i") AS "i", MIN("x"."n") AS "n", MIN("x"."s") AS "s", MIN("x"."b") AS "b", MIN("x"."d") AS "d", MIN("x"."p") AS "p"
  FROM "X" AS "x";
EXPORT "U";
