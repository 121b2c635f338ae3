SET SCALE 2 ROUNDING HALF_UP;
INPUT "X" ("id" INTEGER, "i" INTEGER, "n" NUMBER, "s" TEXT, "b" BOOLEAN, "d" DATE, "p" PERIOD) KEY ("id");
CREATE TABLE "U" AS
  SELECT SUM("x"."i" * 2 + 1) AS "a", MAX("x"."n" - "x"."i") AS "b", COUNT("x"."i" IS NULL) AS "c"
  FROM "X" AS "x";
EXPORT "U";
