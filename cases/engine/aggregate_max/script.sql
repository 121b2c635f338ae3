SET SCALE 2 ROUNDING HALF_UP;
INPUT "X" ("id" INTEGER, "i" INTEGER, "n" NUMBER, "s" TEXT, "b" BOOLEAN, "d" DATE, "p" PERIOD) KEY ("id");
CREATE TABLE "U" AS
  SELECT MAX("x"."i") AS "i", MAX("x"."n") AS "n", MAX("x"."s") AS "s", MAX("x"."b") AS "b", MAX("x"."d") AS "d", MAX("x"."p") AS "p"
  FROM "X" AS "x";
EXPORT "U";
