SET SCALE 2 ROUNDING HALF_UP;
INPUT "X" ("id" INTEGER, "i" INTEGER, "n" NUMBER, "s" TEXT, "b" BOOLEAN, "d" DATE, "p" PERIOD) KEY ("id");
CREATE TABLE "U" AS
  SELECT COUNT(*) AS "all", COUNT("x"."i") AS "i", COUNT("x"."s") AS "s", COUNT("x"."b") AS "b", COUNT("x"."d") AS "d", COUNT("x"."p") AS "p"
  FROM "X" AS "x";
EXPORT "U";
