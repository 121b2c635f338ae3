SET SCALE 2 ROUNDING HALF_UP;
INPUT "X" ("id" INTEGER, "i" INTEGER, "n" NUMBER, "s" TEXT, "b" BOOLEAN, "d" DATE, "p" PERIOD) KEY ("id");
CREATE TABLE "U" AS
  SELECT SUM("x"."i") AS "i", SUM("x"."n") AS "n"
  FROM "X" AS "x";
EXPORT "U";
